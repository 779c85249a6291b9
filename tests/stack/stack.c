/*
 * Measures the stack that each function takes: it runs on a stack of our own that is filled with a mark, and what of it was
 * written to is counted. A function that does nothing is measured first and taken off. Fails where one takes more than the
 * header says. stack SHEET..
 */
#include <pthread.h>
#include <stdio.h>
#include <stdlib.h>
#include <string.h>

#include "pattern.h"

#define STACK (1 << 18)
#define MARK 0xa5

static uint8_t sheet[PATTERN_MAX_SHEET + 1], bytes[PATTERN_MAX_REPORT];
static size_t last; /* the number of the last cluster that is made */
static size_t len;
static uint16_t plan[PATTERN_MAX_PLAN];
static uint64_t items[PATTERN_MAX_RESTS], numbers[PATTERN_MAX_STEPS * PATTERN_STEP];
static uint8_t firsts[PATTERN_MAX_CONSTRAINTS], seconds[PATTERN_MAX_CONSTRAINTS], maps[PATTERN_MAX_CONSTRAINTS];
static int32_t sizes[PATTERN_MAX_CONSTRAINTS];
static uint8_t kinds[PATTERN_MAX_ELEMENTS];
static uint32_t radii[PATTERN_MAX_ELEMENTS];
static size_t n, e;

/* Facts in columns: the strip of 64 circles. */
static void facts(void)
{
    n = PATTERN_MAX_ELEMENTS;
    memset(kinds, PATTERN_CIRCLE, sizeof kinds);
    for (size_t k = 0; k < n; k++)
        radii[k] = 40000;
    for (size_t k = 1; k < n; k++)
        for (size_t back = 1; back <= 2 && back <= k; back++, e++) {
            firsts[e] = (uint8_t)(k - back);
            seconds[e] = (uint8_t)k;
            maps[e] = PATTERN_SIZED;
            sizes[e] = 300;
        }
}

static void *nothing(void *u) { return u; }
static void *rewrite(void *u) { pattern_rewrite(sheet, len, bytes, sizeof bytes); return u; }
static void *write_(void *u)
{
    pattern_write(PATTERN_PF02, n, e, kinds, n, radii, n, firsts, e, seconds, e, maps, e, sizes, e, bytes, sizeof bytes);
    return u;
}
static void *over(void *u) { pattern_over(sheet, len, items, PATTERN_MAX_CLUSTERS); return u; }
static void *verdict(void *u) { pattern_verdict(sheet, len); return u; }
static void *plan_(void *u) { pattern_plan(sheet, len, plan, PATTERN_MAX_PLAN); return u; }
static void *initial(void *u) { pattern_initial(sheet, len, items, PATTERN_MAX_CONSTRAINTS); return u; }
static void *clusters(void *u) { pattern_clusters(sheet, len, items, PATTERN_MAX_CLUSTERS); return u; }
static void *rests(void *u) { pattern_rests(sheet, len, items, PATTERN_MAX_RESTS); return u; }
static void *chain(void *u)
{
    for (size_t to = 1; to < PATTERN_MAX_ELEMENTS; to++)
        pattern_chain(sheet, len, 0, to, plan, PATTERN_MAX_PLAN);
    return u;
}
static void *report(void *u) { pattern_report(sheet, len, bytes, sizeof bytes); return u; }
static void *missing(void *u)
{
    static uint16_t prices[2016], list[PATTERN_MAX_MISSING];
    pattern_missing(sheet, len, prices, sheet[4] * (sheet[4] - 1) / 2, list, PATTERN_MAX_MISSING);
    return u;
}
static void *check(void *u)
{
    int32_t count = pattern_plan(sheet, len, plan, PATTERN_MAX_PLAN);
    pattern_check_plan(sheet, len, plan, count < 0 ? 0 : (size_t)count, bytes, sizeof bytes);
    return u;
}
static void *steps(void *u) { pattern_steps(sheet, len, numbers, PATTERN_MAX_STEPS * PATTERN_STEP); return u; }
static void *saved_steps(void *u)
{
    int32_t count = pattern_plan(sheet, len, plan, PATTERN_MAX_PLAN);
    pattern_saved_steps(sheet, len, plan, count < 0 ? 0 : (size_t)count, numbers, PATTERN_MAX_STEPS * PATTERN_STEP);
    return u;
}
static uint8_t record_[PATTERN_MAX_RECORD];
static void *hold(void *u) { pattern_hold(sheet, len, record_, sizeof record_); return u; }
static void *ask(void *u)
{
    for (uint8_t k = 0; k < 64; k++)
        pattern_ask(record_, sizeof record_, 0, k, PATTERN_SIZED, 1);
    return u;
}
static void *place(void *u)
{
    for (uint8_t k = 0; k < 64; k++)
        pattern_place(record_, sizeof record_, 0, k, PATTERN_SIZED, 1, (pattern_len)pattern_held_count(record_, sizeof record_));
    return u;
}
static void *held(void *u) { pattern_held(record_, sizeof record_, bytes, sizeof bytes); return u; }
static void *held_count(void *u) { pattern_held_count(record_, sizeof record_); return u; }
static void *held_clusters(void *u) { pattern_held_clusters(record_, sizeof record_, items, PATTERN_MAX_CLUSTERS); return u; }
static void *held_rests(void *u) { pattern_held_rests(record_, sizeof record_, items, PATTERN_MAX_RESTS); return u; }

static void *part(void *u) { pattern_part(sheet, len, last, bytes, sizeof bytes); return u; }
static void *part_steps(void *u) { pattern_part_steps(sheet, len, last); return u; }
static void *part_bytes(void *u) { pattern_part_bytes(sheet, len, last); return u; }
static void *open_(void *u)
{
    for (size_t steps = 0; steps <= PATTERN_MAX_STEPS; steps++)
        pattern_open(sheet, len, steps, plan, PATTERN_MAX_OPEN);
    return u;
}
static void *shared(void *u) { items[0] = pattern_shared(items[1], items[2]); return u; }
static void *longest(void *u) { pattern_longest(PATTERN_MAX_ELEMENTS, bytes, sizeof bytes); return u; }
static void *card(void *u)
{
    for (size_t number = 0; number < 1024; number++)
        pattern_card(number);
    return u;
}
/* The number of the last cluster: the highest that is not refused by 26. */
static size_t last_made(void)
{
    size_t number = 0;
    while (pattern_part_steps(sheet, len, number + 1) >= 0)
        number++;
    return number;
}

static size_t used(void *(*call)(void *))
{
    static _Alignas(4096) uint8_t stack[STACK];
    memset(stack, MARK, STACK);
    pthread_attr_t attributes;
    pthread_t thread;
    if (pthread_attr_init(&attributes) || pthread_attr_setstack(&attributes, stack, STACK)
        || pthread_create(&thread, &attributes, call, NULL) || pthread_join(thread, NULL)) {
        perror("thread");
        exit(2);
    }
    size_t free = 0;
    while (free < STACK && stack[free] == MARK)
        free++;
    return STACK - free;
}

int main(int argc, char **argv)
{
    static const struct { const char *name; void *(*call)(void *); } calls[] = {
        {"pattern_rewrite", rewrite}, {"pattern_write", write_}, {"pattern_over", over}, {"pattern_verdict", verdict}, {"pattern_plan", plan_},
        {"pattern_initial", initial}, {"pattern_clusters", clusters}, {"pattern_rests", rests}, {"pattern_report", report},
        {"pattern_check_plan", check}, {"pattern_missing", missing}, {"pattern_hold", hold}, {"pattern_ask", ask},
        {"pattern_place", place}, {"pattern_held", held},
        {"pattern_held_count", held_count}, {"pattern_held_clusters", held_clusters}, {"pattern_held_rests", held_rests},
        {"pattern_steps", steps}, {"pattern_saved_steps", saved_steps},
        {"pattern_part", part}, {"pattern_part_steps", part_steps}, {"pattern_part_bytes", part_bytes},
        {"pattern_chain", chain}, {"pattern_open", open_},
        {"pattern_shared", shared}, {"pattern_longest", longest}, {"pattern_card", card},
    };
    size_t most[sizeof calls / sizeof *calls] = {0};
    facts();
    size_t none = used(nothing);
    for (int i = 1; i < argc; i++) {
        FILE *file = fopen(argv[i], "rb");
        if (!file) {
            perror(argv[i]);
            return 2;
        }
        len = fread(sheet, 1, sizeof sheet, file);
        fclose(file);
        last = last_made();
        for (size_t k = 0; k < sizeof calls / sizeof *calls; k++) {
            size_t now = used(calls[k].call) - none;
            if (now > most[k])
                most[k] = now;
        }
    }
    int more = 0;
    for (size_t k = 0; k < sizeof calls / sizeof *calls; k++) {
        printf("%s: %zu bytes of stack\n", calls[k].name, most[k]);
        more |= most[k] > PATTERN_MAX_STACK;
    }
    return more;
}
