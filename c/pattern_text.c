/* Version, words and facts, beside the proved library: plain C, tested, not proved. */
#include <string.h>

#include "pattern_text.h"

const char *pattern_version(void)
{
    return PATTERN_VERSION;
}

/* The rules in words, each in the place of its number. */
static const char *const rules[] = {
#define RULE(number, text) [number] = text,
#include "../rust/pattern/src/rules.h"
#undef RULE
};

const char *pattern_rule_text(int32_t rule)
{
    uint32_t number = rule < 0 ? 0u - (uint32_t)rule : (uint32_t)rule;
    const char *text = number < sizeof rules / sizeof *rules ? rules[number] : NULL;
    return text ? text : "no rule of this library";
}

const char *pattern_verdict_text(int32_t verdict)
{
    static const char *const names[] = {"over", "angle", "well", "stuck", "under"};
    return verdict >= 0 && verdict <= PATTERN_UNDER ? names[verdict] : "no verdict of this library";
}

/* Passes four bytes, lowest first: their number. */
static uint32_t number(const uint8_t **at)
{
    const uint8_t *b = *at;
    *at += 4;
    return (uint32_t)b[0] | (uint32_t)b[1] << 8 | (uint32_t)b[2] << 16 | (uint32_t)b[3] << 24;
}

int32_t pattern_read(const uint8_t *sheet, pattern_len len, struct pattern_columns *out)
{
    uint8_t plain[PATTERN_MAX_WRITTEN];
    int32_t count = pattern_rewrite(sheet, len, plain, sizeof plain);
    if (count < 0)
        return count;

    memset(out, 0, sizeof *out);
    const uint8_t *at = plain + 3;
    out->opening = (size_t)(*at++ - '0');
    out->n = *at++;
    size_t bits = out->opening; /* an element has one kind bit in PF01, two in PF02 */
    const uint8_t *kinds = at;
    at += (out->n * bits + 7) / 8;
    for (size_t i = 0; i < out->n; i++) {
        out->kinds[i] = kinds[i * bits / 8] >> (i * bits % 8) & ((1 << bits) - 1);
        out->radii[i] = out->kinds[i] == PATTERN_CIRCLE ? number(&at) : 0;
    }
    out->e = *at++;
    for (size_t k = 0; k < out->e; k++) {
        out->firsts[k] = *at++;
        out->seconds[k] = *at++;
        out->maps[k] = *at++;
        out->sizes[k] = out->maps[k] & PATTERN_SIZED ? (int32_t)number(&at) : 0;
    }
    return 0;
}

int32_t pattern_write_columns(const struct pattern_columns *facts, uint8_t *out, pattern_len room)
{
    return pattern_write(facts->opening, facts->n, facts->e,
                         facts->kinds, PATTERN_MAX_ELEMENTS, facts->radii, PATTERN_MAX_ELEMENTS,
                         facts->firsts, PATTERN_MAX_CONSTRAINTS, facts->seconds, PATTERN_MAX_CONSTRAINTS,
                         facts->maps, PATTERN_MAX_CONSTRAINTS, facts->sizes, PATTERN_MAX_CONSTRAINTS,
                         out, room);
}

/* Whether an end is a line. */
static int is_line(const uint8_t *kinds, pattern_len kinds_len, uint8_t end)
{
    return end < kinds_len && kinds[end] == PATTERN_LINE;
}

int32_t pattern_order_ends(const uint8_t *kinds, pattern_len kinds_len, uint8_t *first, uint8_t *second, int32_t *size)
{
    uint8_t low = *second, high = *first;
    if (high <= low)
        return 0;
    *first = low;
    *second = high;
    /* unsigned, since the least number has no opposite: it is no angle either, and stays for rule 9 */
    if (is_line(kinds, kinds_len, low) && is_line(kinds, kinds_len, high))
        *size = (int32_t)(0u - (uint32_t)*size);
    return 1;
}
