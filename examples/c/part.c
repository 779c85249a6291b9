/* Prints the steps of one cluster of a sheet's plan, in space of just the bytes that they have: part SHEET NUMBER */
#include <stdio.h>
#include <stdlib.h>

#include "pattern.h"

int main(int argc, char **argv)
{
    if (argc != 3) {
        fprintf(stderr, "usage: part SHEET NUMBER\n");
        return 2;
    }
    FILE *file = fopen(argv[1], "rb");
    if (!file) {
        perror(argv[1]);
        return 2;
    }
    uint8_t sheet[PATTERN_MAX_SHEET + 1];
    size_t len = fread(sheet, 1, sizeof sheet, file);
    fclose(file);
    size_t number = strtoul(argv[2], NULL, 10);

    int32_t bytes = pattern_part_bytes(sheet, len, number);
    if (bytes < 0) {
        printf("refused %d\n", (int)-bytes);
        return 1;
    }
    uint8_t *out = malloc((size_t)bytes + 1);
    if (!out)
        return 2;
    int32_t count = pattern_part(sheet, len, number, out, (size_t)bytes); /* the same count */
    printf("%d steps, %d bytes\n", (int)pattern_part_steps(sheet, len, number), (int)count);
    fwrite(out, 1, (size_t)count, stdout);
    free(out);
    return 0;
}
