/* Adds a distance or an angle to a sheet, its ends in any order: edit SHEET A B SIZE NEW */
#include <stdio.h>
#include <stdlib.h>

#include "pattern_text.h"

/* Says which rule refuses. */
static int refused(int32_t answer)
{
    printf("refused by rule %d: %s\n", (int)-answer, pattern_rule_text(answer));
    return 2;
}

int main(int argc, char **argv)
{
    uint8_t sheet[PATTERN_MAX_SHEET + 1]; /* a byte more than any sheet, so that a longer file is refused as such */
    struct pattern_columns facts;

    if (argc != 6) {
        fprintf(stderr, "usage: edit SHEET A B SIZE NEW\n");
        return 64;
    }
    FILE *file = fopen(argv[1], "rb");
    if (!file) {
        perror(argv[1]);
        return 3;
    }
    size_t len = fread(sheet, 1, sizeof sheet, file);
    fclose(file);

    int32_t answer = pattern_read(sheet, len, &facts);
    if (answer < 0)
        return refused(answer);
    if (facts.e == PATTERN_MAX_CONSTRAINTS)
        return refused(-PATTERN_CONSTRAINTS);

    size_t k = facts.e++;
    facts.firsts[k] = (uint8_t)atoi(argv[2]);
    facts.seconds[k] = (uint8_t)atoi(argv[3]);
    facts.maps[k] = PATTERN_SIZED;
    facts.sizes[k] = (int32_t)atoi(argv[4]);
    pattern_order_ends(facts.kinds, facts.n, &facts.firsts[k], &facts.seconds[k], &facts.sizes[k]);

    answer = pattern_write_columns(&facts, sheet, sizeof sheet);
    if (answer < 0)
        return refused(answer);
    file = fopen(argv[5], "wb");
    if (!file || fwrite(sheet, 1, (size_t)answer, file) != (size_t)answer || fclose(file) != 0) {
        perror(argv[5]);
        return 3;
    }
    printf("%s\n", pattern_verdict_text(pattern_verdict(sheet, (size_t)answer)));
    return 0;
}
