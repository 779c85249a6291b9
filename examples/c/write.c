/* Writes a sheet from its facts: four points, five distances of 30 mm. write SHEET */
#include <stdio.h>

#include "pattern.h"

int main(int argc, char **argv)
{
    const uint8_t kinds[] = {PATTERN_POINT, PATTERN_POINT, PATTERN_POINT, PATTERN_POINT};
    const uint8_t firsts[] = {0, 0, 1, 1, 2};
    const uint8_t seconds[] = {1, 2, 2, 3, 3};
    const uint8_t maps[] = {PATTERN_SIZED, PATTERN_SIZED, PATTERN_SIZED, PATTERN_SIZED, PATTERN_SIZED};
    const int32_t sizes[] = {300, 300, 300, 300, 300};
    uint8_t sheet[PATTERN_MAX_WRITTEN];

    if (argc != 2) {
        fprintf(stderr, "usage: write SHEET\n");
        return 2;
    }
    int32_t count = pattern_write(
        PATTERN_PF01, 4, 5, kinds, 4, NULL, 0, firsts, 5, seconds, 5, maps, 5, sizes, 5, sheet, sizeof sheet);
    if (count < 0) {
        printf("refused %d\n", (int)-count);
        return 1;
    }
    FILE *file = fopen(argv[1], "wb");
    if (!file || fwrite(sheet, 1, (size_t)count, file) != (size_t)count || fclose(file)) {
        perror(argv[1]);
        return 2;
    }
    printf("%d bytes\n", (int)count);
    return 0;
}
