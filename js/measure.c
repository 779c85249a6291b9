/* Prints how many nanoseconds of processor time a report of 64 points takes: the least of ten runs. */
#include <stdio.h>
#include <time.h>

#include "pattern.h"

int main(void)
{
    enum { CALLS = 20000 };
    static uint8_t sheet[PATTERN_MAX_WRITTEN], out[PATTERN_MAX_REPORT];
    int32_t len = pattern_longest(64, sheet, sizeof sheet);
    double least = 1e9;
    for (int run = 0; run < 10; run++) {
        clock_t began = clock();
        for (int i = 0; i < CALLS; i++)
            pattern_report(sheet, (size_t)len, out, sizeof out);
        double took = (double)(clock() - began) / CLOCKS_PER_SEC * 1e9 / CALLS;
        least = took < least ? took : least;
    }
    printf("%.0f\n", least);
    return 0;
}
