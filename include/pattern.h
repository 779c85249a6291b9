/*
 * pattern.h - a geometric constraint engine for flat patterns.
 *
 * Link with libpattern_c.a; it needs nothing but the C library. Every function declared here is proved:
 * for every input its answer and the lent space are what its definition says. (pattern_text.h has the
 * plain C beside it.)
 *
 * Lists    A list is a pointer and a count of items. Where the count is 0 the pointer may be anything,
 *          NULL too; else it is aligned for its type. `out` overlaps no other list. Nothing outside
 *          the lists is read or written.
 * Answers  0 or more: the count of items written to the front of `out`; the rest is unchanged.
 *          Below 0: minus the number of the rule that refuses the call (enum pattern_rule), or
 *          PATTERN_NO_RUN, -100, which is no rule: there is no chain (pattern_chain alone). All of `out`,
 *          or of a record, is then unchanged. Test the sign before you use an answer as a count.
 * State    There is none. Nothing is allocated or kept between calls; any threads may call at once,
 *          each with an `out` of its own. A held sketch is bytes of the caller's (pattern_hold).
 * Stack    A call takes at most PATTERN_MAX_STACK bytes of its thread's stack, as measured by
 *          tests/stack/run on x86-64; pattern_saved_steps takes the most.
 *
 * A sheet in bytes; docs/FORMAT.md says the same at length, with the report's lines:
 *
 *   50 46 30 31   the opening, PF01, or 50 46 30 32, PF02, whose elements may be circles
 *   1 byte        n, the count of elements, 2 to 64
 *   n/8 rounded   the kinds of PF01: bit (i mod 8) of byte (i div 8) is 1 where element i is a line, 0
 *   up bytes      where it is a point; the bits from n on are 0
 *   n/4 rounded   the kinds of PF02: the two bits from 2(i mod 4) on of byte (i div 4) are 0 where element
 *   up bytes      i is a point, 1 where it is a line, 2 where it is a circle; the bits from 2n on are 0
 *   4 bytes each  PF02: the radius of each circle, in element order, 1 to 40,000 tenths of a millimetre,
 *                 lowest byte first
 *   1 byte        e, the count of constraints, 0 to 200; then each constraint:
 *     1 byte      the first end, an element
 *     1 byte      the second end, a higher one
 *     1 byte      the map: PATTERN_SIZED, PATTERN_TAGGED and, of PF02, PATTERN_TANGENT, PATTERN_OTHER
 *     4 bytes     where PATTERN_SIZED stands: the size, signed, lowest byte first
 *     2 bytes     where PATTERN_TAGGED stands: the tag, any value
 *
 * The size of a constraint (rule 9), where a circle counts as its centre point:
 *
 *   two points      a distance, 1 to 40,000 tenths of a millimetre
 *   point and line  a signed distance, -40,000 to 40,000 tenths of a millimetre, not 0; a missing size
 *                   is the distance 0, the point on the line
 *   two lines       a signed angle, -17,999 to 17,999 hundredths of a degree, not 0
 *
 * What a contact means, r being a radius; it stands in place of the size:
 *
 *   circle and line     the centre is at +r from the line; by the other contact at -r
 *   point and circle    the point is at r from the centre
 *   two circles         the centres are as far apart as the sum of the radii; by the other contact as
 *                       the larger less the smaller
 *
 * Verdict, plan, clusters and report are those of the sketch of the centres.
 */
#ifndef PATTERN_H
#define PATTERN_H

#include <stddef.h>
#include <stdint.h>

#ifdef __cplusplus
extern "C" {
#endif

/*
 * A length, a count or a number as the library takes it: 64 bits on every target. It is size_t; where that has
 * fewer bits, as in WebAssembly, it is uint64_t.
 */
#if SIZE_MAX < UINT64_MAX
typedef uint64_t pattern_len;
#else
typedef size_t pattern_len;
#endif

#define PATTERN_MAX_ELEMENTS    64   /* points, lines and circles of a sheet, numbered from 0 */
#define PATTERN_MAX_CONSTRAINTS 200  /* constraints of a sheet, numbered from 0 */
#define PATTERN_MAX_SHEET       2078 /* bytes of a sheet that is read: it may carry tags */
#define PATTERN_MAX_WRITTEN     1678 /* bytes of a written sheet: with this room no sheet is refused by 17 */
#define PATTERN_MAX_REPORT      4667 /* bytes of a report: with this room no report is refused by 17 */
#define PATTERN_MAX_PLAN        186  /* numbers of a plan, three a step: with this room no plan is refused by 17 */
#define PATTERN_MAX_STEPS       62   /* steps of a plan: with room for so many no list of them is refused by 17 */
#define PATTERN_STEP            7    /* numbers of a step in a list of steps, in the order of struct pattern_step */
#define PATTERN_MAX_CLUSTERS    125  /* clusters that are left: with this room no list of them is refused by 17 */
#define PATTERN_MAX_RESTS       250  /* words of what they rest on, two a cluster: with this room no list of them is refused by 17 */
#define PATTERN_MAX_CHAIN       63   /* clusters of a chain: with this room no chain is refused by 17 */
#define PATTERN_MAX_RECORD      1155 /* bytes of a record: with this room no sketch is refused by 17 */
#define PATTERN_MAX_PART        3534 /* bytes of one cluster's steps: with this room no list of them is refused by 17 */
#define PATTERN_MAX_MISSING     125  /* missing dimensions: with this room no list of them is refused by 17 */
#define PATTERN_MAX_OPEN        186  /* numbers of the open merges, three each: with this room no list of them is refused by 17 */
#define PATTERN_UNMEASURED      65535 /* the price of a pair that can't be measured */
#define PATTERN_MAX_STACK       32768 /* bytes of stack that a call takes */

/* The rules that refuse, by number. "Rules 1 to 10" of a sheet are tried in the order of its fields, 18, 19 and 20 among them. */
enum pattern_rule {
    PATTERN_OPENING     = 1,  /* the sheet does not open with PF01 or PF02 */
    PATTERN_CUT         = 2,  /* the sheet ends inside a field, or before one that must follow */
    PATTERN_ELEMENTS    = 3,  /* the element count is outside 2 to 64 */
    PATTERN_KIND_BITS   = 4,  /* an unused kind bit is 1 */
    PATTERN_CONSTRAINTS = 5,  /* the constraint count is above 200 */
    PATTERN_ENDS        = 6,  /* the ends are not first below second below the element count */
    PATTERN_PAIR        = 7,  /* an earlier constraint has the same two ends */
    PATTERN_MAP         = 8,  /* a map bit that may not stand, or neither size nor contact where one must */
    PATTERN_SIZE        = 9,  /* the size is outside its range above, a written 0 included */
    PATTERN_EXTRA       = 10, /* bytes follow the last constraint */
    PATTERN_IS_OVER     = 11, /* the sheet is over, or one more constraint would make it so */
    PATTERN_PLAN_COUNT  = 12, /* the count of numbers in a plan is not a multiple of three */
    PATTERN_NO_CLUSTER  = 13, /* a step names a number that is no living cluster, or one twice */
    /* 14 is not used: two living clusters of a sheet that is not over never share two elements */
    PATTERN_NOT_OPEN    = 15, /* the clusters of a step do not make an open merge */
    PATTERN_UNFINISHED  = 16, /* after the last step a merge is still open */
    PATTERN_ROOM        = 17, /* `out` is shorter than the answer, or a record than what it must hold */
    PATTERN_KIND        = 18, /* an element's kind is 3, after 4; for the writer also a circle under PF01, after 3 */
    PATTERN_RADIUS      = 19, /* a radius is outside 1 to 40,000, where it is read; for the writer after 18 */
    PATTERN_RADII       = 20, /* the other contact of two circles with equal radii, after 8 */
    PATTERN_PRICES      = 21, /* the list of prices is not n(n-1)/2 long, after 11 */
    PATTERN_PRICE       = 22, /* a price is 1,001 to 65,534, after 21 */
    PATTERN_NO_SET      = 23, /* no permitted set of pairs will do, after 22 and before 17 */
    PATTERN_ANOTHER     = 24, /* another number of constraints is held than was told */
    PATTERN_NO_ELEMENT  = 25, /* the start or the end of a chain is no element of the sheet */
    PATTERN_NO_NUMBER   = 26, /* no cluster of the plan has the number; tried before 17 */
    PATTERN_RECORD      = 27  /* the record stands for no sheet that may be held */
};

/* The openings, as pattern_write takes them. */
#define PATTERN_PF01 1
#define PATTERN_PF02 2

/* The kinds of elements. */
#define PATTERN_POINT  0
#define PATTERN_LINE   1
#define PATTERN_CIRCLE 2

/*
 * Bits of a constraint's map. Rule 8 refuses PATTERN_TANGENT without a circle or beside PATTERN_SIZED, PATTERN_OTHER
 * without PATTERN_TANGENT or for point and circle, and bits 4 to 7; neither size nor contact is for point and line alone.
 */
#define PATTERN_SIZED   1 /* the size is given; a point or centre and a line may go without, the point then on the line */
#define PATTERN_TAGGED  2 /* a tag of two bytes follows the size: it is read and dropped, and never written */
#define PATTERN_TANGENT 4 /* the two touch, which takes no size: centre to line +r, point to circle r, two circles the sum of radii */
#define PATTERN_OTHER   8 /* beside PATTERN_TANGENT the other contact: -r, or the larger radius less the smaller */

/*
 * Reads a sheet and writes it again: the same sheet with PATTERN_TAGGED clear and the tags gone, so
 * the same bytes where it has none; the opening stays. Tries rules 1 to 10, with 18 to 20 among them, in
 * the order of the fields, then 17. Answers the count of bytes.
 */
int32_t pattern_rewrite(const uint8_t *sheet, pattern_len len, uint8_t *out, pattern_len room);

/*
 * Writes a sheet from its facts; element i stands in place i of two lists, constraint i in place i of
 * four. Tries rules 1 (another opening), 3, 18 (another kind, or a circle under PF01), 19 and 5, each
 * constraint by 6, 7, 8, 20 and 9, then 17. Answers the count of bytes.
 * Places from n on and from e on have no influence, nor has the radius of what is no circle. An element
 * beyond kinds is refused by 18, a circle beyond radii by 19. A constraint whose place lies beyond firsts,
 * seconds or maps, or beyond sizes where its map has PATTERN_SIZED, is refused by 6.
 */
int32_t pattern_write(
    pattern_len opening,                             /* PATTERN_PF01 or PATTERN_PF02 */
    pattern_len n,                                   /* count of elements */
    pattern_len e,                                   /* count of constraints */
    const uint8_t *kinds, pattern_len kinds_len,     /* PATTERN_POINT, PATTERN_LINE or PATTERN_CIRCLE */
    const uint32_t *radii, pattern_len radii_len,    /* of a circle: 1 to 40,000 tenths of a millimetre */
    const uint8_t *firsts, pattern_len firsts_len,   /* the first end, the lower one */
    const uint8_t *seconds, pattern_len seconds_len, /* the second end */
    const uint8_t *maps, pattern_len maps_len,       /* PATTERN_SIZED, or PATTERN_TANGENT and PATTERN_OTHER; PATTERN_TAGGED has no influence */
    const int32_t *sizes, pattern_len sizes_len,     /* distance in tenths of a millimetre, or angle in hundredths of a degree */
    uint8_t *out, pattern_len room);

/*
 * Whether a sheet is over: whether some part of it has a constraint too many. Tries rules 1 to 10,
 * then 17. Answers 2 where it is: out[0] is the number of the first constraint that makes it so,
 * out[1] the smallest part that cannot take it, bit i for element i. Answers 0 where it is not.
 */
int32_t pattern_over(const uint8_t *sheet, pattern_len len, uint64_t *out, pattern_len room);

/* The verdicts, in the order they are tried. */
enum pattern_verdict_name {
    PATTERN_OVER  = 0, /* some part has a constraint too many */
    PATTERN_ANGLE = 1, /* some three lines are held by their angles alone, or angles run round four parts or more */
    PATTERN_WELL  = 2, /* fully dimensioned, and built from parts three at a time */
    PATTERN_STUCK = 3, /* as many constraints as that needs, but no such construction */
    PATTERN_UNDER = 4  /* constraints are missing */
};

/* The verdict of a sheet: one of the names above. Tries rules 1 to 10. */
int32_t pattern_verdict(const uint8_t *sheet, pattern_len len);

/*
 * The plan of a sheet: three cluster numbers a step, ascending. Constraint i is cluster i; step k,
 * from 0, merges its three clusters into cluster e + k. An over sheet has no plan and answers 0.
 * Tries rules 1 to 10, then 17. A plan has at most 62 steps, PATTERN_MAX_PLAN numbers.
 */
int32_t pattern_plan(const uint8_t *sheet, pattern_len len, uint16_t *out, pattern_len room);

/*
 * All that two sets of elements have in common, bit i for element i: for any two sets, those of
 * pattern_initial and pattern_clusters among them.
 */
uint64_t pattern_shared(uint64_t a, uint64_t b);

/*
 * The clusters that a plan starts from, by number: cluster i is the two ends of constraint i, bit k
 * for element k. Of an over sheet too. Tries rules 1 to 10, then 17. There are as many as the sheet
 * has constraints, at most PATTERN_MAX_CONSTRAINTS.
 */
int32_t pattern_initial(const uint8_t *sheet, pattern_len len, uint64_t *out, pattern_len room);

/*
 * The clusters that are left when no merge is open, by number: bit i for element i. An over sheet
 * answers 0. Tries rules 1 to 10, then 17. There are at most PATTERN_MAX_CLUSTERS. A part already cut
 * stays whole: if constraints are added to the sheet and it is still not over, each of these sets lies
 * inside exactly one of the new ones. Their numbers and their order may change.
 */
int32_t pattern_clusters(const uint8_t *sheet, pattern_len len, uint64_t *out, pattern_len room);

/*
 * What the clusters that are left rest on, in the order of pattern_clusters: the constraints that each
 * came from, two words a cluster. Bit i of the first stands for constraint i, bit i of the second for
 * constraint 64 + i. Every constraint is in exactly one of them: the one that holds both its ends; a
 * cluster of m elements has 2m - 3. Answers the count of words. An over sheet answers 0. Tries rules 1
 * to 10, then 17. There are at most PATTERN_MAX_RESTS.
 */
int32_t pattern_rests(const uint8_t *sheet, pattern_len len, uint64_t *out, pattern_len room);

/*
 * The report of a sheet in ASCII lines, each ended by a newline; of an over sheet the first two and
 * what pattern_over gives. Tries rules 1 to 10, then 17. Answers the count of bytes; no zero byte is
 * put at the end. The lines, where numbers and names stand for those of the sheet:
 *
 *   verdict well                                    over, angle, well, stuck or under
 *   elements 4 constraints 5
 *   step 5 from 0 1 2 joint 0 1 2 kind ppp ways 2   the cluster made, its parts, the shared elements,
 *                                                   ppp, ppl, pll or lll, and 0, 1, 2 or ?
 *   cluster 6 holds 0 1 2 3 rests on 0 1 2 3 4      a cluster that is left, its elements, and the
 *                                                   constraints that it came from
 *   first 5                                         of an over sheet: the constraint too many
 *   set 0 1 2 3                                     and the part that cannot take it
 */
int32_t pattern_report(const uint8_t *sheet, pattern_len len, uint8_t *out, pattern_len room);

/*
 * Checks a plan that another program saved: three cluster numbers a step, in any order within it.
 * Accepted if every step is an open merge and none is open at the end; then the report is that
 * plan's, its steps in the saved order. Tries rules 1 to 10, 11, 12, each step by 13 and 15, then
 * 16, then 17. Answers the count of bytes.
 */
int32_t pattern_check_plan(
    const uint8_t *sheet, pattern_len len, const uint16_t *plan, pattern_len count, uint8_t *out, pattern_len room);

/* A step of a plan: what its line in the report gives. The numbers of a step in a list of steps stand in this order. */
struct pattern_step {
    uint64_t made;     /* the number of the cluster made */
    uint64_t parts[3]; /* the numbers of its three parts, ascending */
    uint64_t joint;    /* the three elements that they share, bit i for element i */
    uint64_t lines;    /* how many of these are lines, a circle being a point: 0 is ppp, 1 ppl, 2 pll, 3 lll */
    uint64_t ways;     /* how many placements there are, or PATTERN_WAYS_UNKNOWN */
};

#define PATTERN_WAYS_UNKNOWN 256 /* the placements are not known: ? in the report */

/*
 * The steps of a sheet's plan, PATTERN_STEP numbers each, in plan order. room counts numbers, so that
 * a list of structs is lent as
 *
 *   struct pattern_step steps[PATTERN_MAX_STEPS];
 *   int32_t count = pattern_steps(sheet, len, (uint64_t *)steps, PATTERN_MAX_STEPS * PATTERN_STEP);
 *
 * and holds count / PATTERN_STEP steps.
 * Tries rules 1 to 10, 11, then 17. Answers the count of numbers.
 */
int32_t pattern_steps(const uint8_t *sheet, pattern_len len, uint64_t *out, pattern_len room);

/*
 * The steps of a saved plan in the same form, in the saved order, the parts of each ascending. Tries
 * the rules of pattern_check_plan. Answers the count of numbers.
 */
int32_t pattern_saved_steps(
    const uint8_t *sheet, pattern_len len, const uint16_t *plan, pattern_len count, uint64_t *out, pattern_len room);

/*
 * A held sketch. The caller keeps it in a record, bytes of its own that it lends to each call:
 *
 *   2 bytes   how many bytes of a sheet follow, lowest byte first
 *   a sheet   as above; what stands beyond it has no influence
 *
 * PATTERN_MAX_RECORD bytes have room for every held sketch. The record holds facts alone, and only
 * pattern_hold and pattern_place write to it. One whose bytes stand for no sheet that may be held, one
 * that is refused by 1 to 10 or 18 to 20 or is over, is refused by 27, before all else; so is one that is
 * cut.
 */

/*
 * Holds a sheet: writes the record of the same sheet without its tags. Tries rules 1 to 11, then 17.
 * Answers the count of bytes.
 */
int32_t pattern_hold(const uint8_t *sheet, pattern_len len, uint8_t *record, pattern_len room);

/* How many constraints the sketch in a record has, at most 125: the number that pattern_place takes. Tries rule 27. */
int32_t pattern_held_count(const uint8_t *record, pattern_len room);

/*
 * Asks what one more constraint would do: the verdict, one of the names above, that the sketch with it
 * last would have, or the rule that refuses it. Tries rules 27, 6, 7, 8, 20 and 9, and 11 where it would
 * make the sketch over. Changes nothing.
 */
int32_t pattern_ask(
    const uint8_t *record, pattern_len room,
    uint8_t first,  /* the first end, the lower one */
    uint8_t second, /* the second end */
    uint8_t map,    /* PATTERN_SIZED, or PATTERN_TANGENT and PATTERN_OTHER; PATTERN_TAGGED has no influence */
    int32_t size);  /* where PATTERN_SIZED stands: distance in tenths of a millimetre, or angle in hundredths of a degree */

/*
 * Places the constraint: answers as asking would, and the record then holds it last. held is the number
 * of constraints held when it was asked (pattern_held_count). Tries rules 27, 24 where another number is
 * held, 6, 7, 8, 20, 9, 11, and 17 where the record has no room for it: the one answer that asking does
 * not give, and never in a record of PATTERN_MAX_RECORD bytes. A refusal leaves every byte as it was.
 */
int32_t pattern_place(
    uint8_t *record, pattern_len room, uint8_t first, uint8_t second, uint8_t map, int32_t size, pattern_len held);

/* The sheet in a record again. Tries rules 27 and 17. Answers the count of bytes. */
int32_t pattern_held(const uint8_t *record, pattern_len record_room, uint8_t *out, pattern_len room);

/*
 * The clusters of the sketch in a record, as pattern_clusters gives those of a sheet, and what they rest
 * on, as pattern_rests does: constraint i is the one that was the i-th held. Tries rules 27 and 17.
 */
int32_t pattern_held_clusters(const uint8_t *record, pattern_len record_room, uint64_t *out, pattern_len room);
int32_t pattern_held_rests(const uint8_t *record, pattern_len record_room, uint64_t *out, pattern_len room);

/*
 * The steps of one cluster of the plan alone, as pattern_report's step lines: those from which the
 * cluster is made, each part's steps before the step that uses it, lowest part first. A constraint is
 * a cluster too and has none. The number is that of any cluster ever made, merged away or not: below e
 * plus the steps, else 26. Tries rules 1 to 11, 26, then 17. Answers the count of bytes, at most
 * PATTERN_MAX_PART.
 */
int32_t pattern_part(
    const uint8_t *sheet, pattern_len len, pattern_len number, uint8_t *out, pattern_len room);

/* How many steps that cluster has, and how many bytes pattern_part writes of them. Rules 1 to 11 and 26. */
int32_t pattern_part_steps(const uint8_t *sheet, pattern_len len, pattern_len number);
int32_t pattern_part_bytes(const uint8_t *sheet, pattern_len len, pattern_len number);

/*
 * What to measure next: the pairs that bring a sheet to 2n-3 constraints without making it over, at
 * the least total price. `prices` has one for each pair, (0,1), (0,2) .. (1,2) .., n(n-1)/2 of them:
 * 0 to 1,000, or PATTERN_UNMEASURED. Pairs of two lines and pairs already constrained are passed
 * over. Each answered number is 256 times a pair's first end plus its second, by price, then pair;
 * among lists of equal price the one that comes first. A sheet with 2n-3 constraints answers 0.
 * Tries rules 1 to 10, 11, 21, 22, 23, then 17. There are at most PATTERN_MAX_MISSING.
 */
int32_t pattern_missing(
    const uint8_t *sheet, pattern_len len, const uint16_t *prices, pattern_len prices_len, uint16_t *out, pattern_len room);

/*
 * The verdict of five points with some of the ten distances between them, from a card of all 1,024
 * sets: bit 0 of number is the pair (0,1), then (0,2), (0,3), (0,4), (1,2) and so on to (3,4), bit 9.
 * Bits from 10 on stand for no pair and have no influence. Never refused.
 */
int32_t pattern_card(pattern_len number);

/* What pattern_chain answers where no run of clusters leads from the one element to the other; no rule has this number. */
#define PATTERN_NO_RUN (-100)

/*
 * The chain from one element to another: the numbers of the fewest final clusters of which the first
 * holds `from`, each shares an element with the next, and the last holds `to`; among such runs the one
 * whose numbers come first place by place. From an element to itself it has no clusters. Answers the
 * count of numbers, or PATTERN_NO_RUN where the two are not connected, which is no refusal and needs no
 * room. Tries rules 1 to 11, then 25, then 17.
 */
int32_t pattern_chain(
    const uint8_t *sheet, pattern_len len,
    pattern_len from, pattern_len to,
    uint16_t *out, pattern_len room
);

/*
 * The sheet of n points with the longest plan: pair (0,1) first and then, for each k from 2 on, the
 * pairs (k-2,k) and (k-1,k), all of size 300. Its plan has n - 2 steps, and no sheet of n elements that
 * is not over has a longer one. Tries rule 3, then 17. Answers the count of bytes.
 */
int32_t pattern_longest(pattern_len n, uint8_t *out, pattern_len room);

/*
 * The merges that are open after so many steps of a sheet's plan, or after all of them where the plan
 * has fewer: three cluster numbers a merge, ascending, as a plan gives them. Each open merge stands
 * there once, by the lowest of the three elements that its clusters share, then by its numbers, place
 * by place; the one that the next step takes is the first by its numbers alone. After all steps none is
 * open. Tries rules 1 to 11, then 17. Answers the count of numbers: at most n - 2 merges,
 * PATTERN_MAX_OPEN numbers.
 */
int32_t pattern_open(
    const uint8_t *sheet, pattern_len len, pattern_len steps, uint16_t *out, pattern_len room);

#ifdef __cplusplus
}
#endif

#endif
