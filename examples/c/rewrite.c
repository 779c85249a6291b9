/* Reads a sheet from a file and writes it to another without its tags, or says which rule refuses it. rewrite SHEET COPY */
#include <stdio.h>

#include "pattern.h"

int main(int argc, char **argv)
{
    uint8_t sheet[PATTERN_MAX_SHEET + 1]; /* a byte more than any sheet, so that a longer file is refused as such */
    uint8_t copy[PATTERN_MAX_WRITTEN];

    if (argc != 3) {
        fprintf(stderr, "usage: rewrite SHEET COPY\n");
        return 2;
    }
    FILE *file = fopen(argv[1], "rb");
    if (!file) {
        perror(argv[1]);
        return 2;
    }
    size_t len = fread(sheet, 1, sizeof sheet, file);
    fclose(file);

    int32_t count = pattern_rewrite(sheet, len, copy, sizeof copy);
    if (count < 0) {
        printf("refused %d\n", (int)-count);
        return 1;
    }
    file = fopen(argv[2], "wb");
    if (!file || fwrite(copy, 1, (size_t)count, file) != (size_t)count || fclose(file)) {
        perror(argv[2]);
        return 2;
    }
    printf("%d bytes\n", (int)count);
    return 0;
}
