/* Prints the facts of a sheet, and its verdict: facts SHEET */
#include <stdio.h>

#include "pattern_text.h"

int main(int argc, char **argv)
{
    static const char *const kinds[] = {"point", "line", "circle"};
    uint8_t sheet[PATTERN_MAX_SHEET + 1]; /* a byte more than any sheet, so that a longer file is refused as such */
    struct pattern_columns facts;

    if (argc != 2) {
        fprintf(stderr, "usage: facts SHEET\n");
        return 64;
    }
    FILE *file = fopen(argv[1], "rb");
    if (!file) {
        perror(argv[1]);
        return 3;
    }
    size_t len = fread(sheet, 1, sizeof sheet, file);
    fclose(file);

    int32_t answer = pattern_read(sheet, len, &facts);
    if (answer < 0) {
        printf("refused by rule %d: %s\n", (int)-answer, pattern_rule_text(answer));
        return 2;
    }
    for (size_t i = 0; i < facts.n; i++) {
        printf("element %zu is a %s", i, kinds[facts.kinds[i]]);
        if (facts.kinds[i] == PATTERN_CIRCLE)
            printf(" of radius %u", (unsigned)facts.radii[i]);
        printf("\n");
    }
    for (size_t k = 0; k < facts.e; k++) {
        printf("constraint %zu holds %d and %d", k, facts.firsts[k], facts.seconds[k]);
        if (facts.maps[k] & PATTERN_SIZED)
            printf(" by %d", (int)facts.sizes[k]);
        if (facts.maps[k] & PATTERN_TANGENT)
            printf(facts.maps[k] & PATTERN_OTHER ? " by their other contact" : " by a contact");
        printf("\n");
    }
    int32_t verdict = pattern_verdict(sheet, len);
    printf("%s, says version %s\n", pattern_verdict_text(verdict), pattern_version());
    return verdict == PATTERN_WELL ? 0 : 1;
}
