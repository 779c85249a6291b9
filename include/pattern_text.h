/*
 * pattern_text.h - version, words and facts, beside pattern.h.
 *
 * These functions are plain C: tested, not proved. They judge nothing: what pattern_read takes apart has passed
 * the proved pattern_rewrite. They keep no state and allocate nothing.
 */
#ifndef PATTERN_TEXT_H
#define PATTERN_TEXT_H

#include "pattern.h"

#ifdef __cplusplus
extern "C" {
#endif

/* The version of these headers. The first number changes where a program must be changed or built again. */
#define PATTERN_VERSION       "1.0.0"
#define PATTERN_VERSION_MAJOR 1
#define PATTERN_VERSION_MINOR 0
#define PATTERN_VERSION_PATCH 0

/* The version of the library that runs, as PATTERN_VERSION has it. */
const char *pattern_version(void);

/* A rule in words, by its number (enum pattern_rule) or by an answer below 0: -9 is rule 9. */
const char *pattern_rule_text(int32_t rule);

/* A verdict's name as the report has it, "over", "angle", "well", "stuck" or "under", by its number (enum pattern_verdict_name). */
const char *pattern_verdict_text(int32_t verdict);

/* The facts of a sheet as columns, as pattern_write takes them; places from n and from e on are 0. */
struct pattern_columns {
    pattern_len opening;                       /* 1: PF01, 2: PF02 */
    pattern_len n;                             /* count of elements */
    pattern_len e;                             /* count of constraints */
    uint8_t kinds[PATTERN_MAX_ELEMENTS];       /* 0 point, 1 line, 2 circle */
    uint32_t radii[PATTERN_MAX_ELEMENTS];      /* of circles, in tenths of a millimetre; 0 of the others */
    uint8_t firsts[PATTERN_MAX_CONSTRAINTS];   /* the first end, the lower one */
    uint8_t seconds[PATTERN_MAX_CONSTRAINTS];
    uint8_t maps[PATTERN_MAX_CONSTRAINTS];     /* the bits of the map; never PATTERN_TAGGED */
    int32_t sizes[PATTERN_MAX_CONSTRAINTS];    /* where the map has PATTERN_SIZED; else 0 */
};

/*
 * Reads the facts of a sheet: the mirror of pattern_write. Answers 0, or minus the rule that refuses the
 * sheet, 1 to 10 and 18 to 20; then *out is unchanged. Takes a written sheet's bytes of stack beside those
 * of pattern_rewrite.
 */
int32_t pattern_read(const uint8_t *sheet, pattern_len len, struct pattern_columns *out);

/*
 * Writes a sheet from its columns: pattern_write, with its rules and its answer, in three arguments. What
 * pattern_read gave is written as the sheet that it was read from, without tags.
 */
int32_t pattern_write_columns(const struct pattern_columns *facts, uint8_t *out, pattern_len room);

/*
 * Puts the two ends of a constraint in order, the lower one first, as pattern_write, pattern_ask and pattern_place
 * want them. Between two lines an angle then turns the other way: its size changes its sign. kinds are those of the
 * elements; an end beyond them is no line. Answers 1 where the ends were exchanged, else 0.
 */
int32_t pattern_order_ends(const uint8_t *kinds, pattern_len kinds_len, uint8_t *first, uint8_t *second, int32_t *size);

#ifdef __cplusplus
}
#endif

#endif
