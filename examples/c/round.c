/*
 * Writes the sheet of a round light of radius 300 mm with one of 50 mm beside it, prints its report, and asks whether the small one
 * may touch the jamb too: both stand on the sill, line 0, and touch each other, and the large one touches the jamb, line 1, which is at
 * 90 degrees to the sill. round SHEET
 */
#include <stdio.h>

#include "pattern.h"

int main(int argc, char **argv)
{
    const uint8_t kinds[] = {PATTERN_LINE, PATTERN_LINE, PATTERN_CIRCLE, PATTERN_CIRCLE};
    const uint32_t radii[] = {0, 0, 3000, 500};
    const uint8_t firsts[] = {0, 0, 2, 0, 1};
    const uint8_t seconds[] = {2, 3, 3, 1, 2};
    const uint8_t maps[] = {PATTERN_TANGENT, PATTERN_TANGENT, PATTERN_TANGENT, PATTERN_SIZED, PATTERN_TANGENT};
    const int32_t sizes[] = {0, 0, 0, 9000, 0};
    uint8_t sheet[PATTERN_MAX_WRITTEN], report[PATTERN_MAX_REPORT];

    if (argc != 2) {
        fprintf(stderr, "usage: round SHEET\n");
        return 2;
    }
    int32_t len = pattern_write(
        PATTERN_PF02, 4, 5, kinds, 4, radii, 4, firsts, 5, seconds, 5, maps, 5, sizes, 5, sheet, sizeof sheet);
    if (len < 0) {
        printf("refused %d\n", (int)-len);
        return 1;
    }
    FILE *file = fopen(argv[1], "wb");
    if (!file || fwrite(sheet, 1, (size_t)len, file) != (size_t)len || fclose(file)) {
        perror(argv[1]);
        return 2;
    }
    int32_t count = pattern_report(sheet, (size_t)len, report, sizeof report);
    fwrite(report, 1, (size_t)count, stdout);

    uint8_t record[PATTERN_MAX_RECORD];
    pattern_hold(sheet, (size_t)len, record, sizeof record);
    int32_t asked = pattern_ask(record, sizeof record, 1, 3, PATTERN_TANGENT, 0);
    printf("%d held, one more contact: %d\n", (int)pattern_held_count(record, sizeof record), (int)asked);
    return 0;
}
