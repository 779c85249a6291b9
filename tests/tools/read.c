/*
 * pattern_read on damaged sheets, built with the sanitizers: it refuses what pattern_rewrite refuses, reads nothing
 * that is not there, and what it gives is written back as the same sheet.
 */
#include <stdio.h>
#include <stdlib.h>
#include <string.h>

#include "pattern_text.h"

/* A number at random, below a bound. */
static uint32_t below(uint32_t bound)
{
    static uint64_t state = 88172645463325252u;
    state ^= state << 13;
    state ^= state >> 7;
    state ^= state << 17;
    return (uint32_t)(state >> 33) % bound;
}

/* Ends in order: two lines turn their angle, nothing else does, and no end is looked up beyond the kinds. */
static int ends(void)
{
    const uint8_t kinds[] = {PATTERN_LINE, PATTERN_LINE, PATTERN_POINT};
    static const struct {
        uint8_t a, b;
        int32_t size, answer;
        uint8_t first, second;
        int32_t then;
    } rows[] = {
        {1, 0, 9000, 1, 0, 1, -9000},
        {0, 1, 9000, 0, 0, 1, 9000},
        {2, 0, -300, 1, 0, 2, -300},
        {255, 0, 300, 1, 0, 255, 300},
        {1, 1, 300, 0, 1, 1, 300},
        {1, 0, INT32_MIN, 1, 0, 1, INT32_MIN},
    };
    for (size_t i = 0; i < sizeof rows / sizeof *rows; i++) {
        uint8_t first = rows[i].a, second = rows[i].b;
        int32_t size = rows[i].size;
        int32_t answer = pattern_order_ends(kinds, sizeof kinds, &first, &second, &size);
        if (answer != rows[i].answer || first != rows[i].first || second != rows[i].second || size != rows[i].then) {
            printf("ends of row %d: %d, %d %d %d\n", (int)i, (int)answer, first, second, (int)size);
            return 4;
        }
    }
    return 0;
}

int main(void)
{
    uint8_t whole[PATTERN_MAX_WRITTEN], plain[PATTERN_MAX_WRITTEN], again[PATTERN_MAX_WRITTEN];
    static struct pattern_columns facts;

    for (int round = 0; round < 200000; round++) {
        size_t len = (size_t)pattern_longest(2 + below(63), whole, sizeof whole);
        len -= below(3) ? 0 : below((uint32_t)len);
        uint8_t *sheet = malloc(len + 1); /* of just its length, so that a byte beyond it is seen */
        memcpy(sheet, whole, len);
        for (uint32_t hits = below(3); hits && len; hits--)
            sheet[below((uint32_t)len)] = (uint8_t)below(256);
        sheet = realloc(sheet, len ? len : 1);
        int32_t wanted = pattern_rewrite(sheet, len, plain, sizeof plain);
        int32_t found = pattern_read(sheet, len, &facts);
        if (found != (wanted < 0 ? wanted : 0)) {
            printf("found %d, wanted %d\n", (int)found, (int)wanted);
            return 1;
        }
        if (found == 0) {
            int32_t back = pattern_write_columns(&facts, again, sizeof again);
            if (back != wanted || memcmp(again, plain, (size_t)back) != 0) {
                printf("written back as %d bytes, not %d\n", (int)back, (int)wanted);
                return 1;
            }
        }
        free(sheet);
    }
    facts.n = 65;
    if (pattern_write_columns(&facts, again, sizeof again) != -PATTERN_ELEMENTS)
        return 2;
    facts.n = PATTERN_MAX_ELEMENTS, facts.e = (pattern_len)-1;
    if (pattern_write_columns(&facts, again, sizeof again) != -PATTERN_CONSTRAINTS)
        return 3;
    return ends();
}
