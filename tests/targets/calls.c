/*
 * The same calls on every target: random sheets, damaged ones, plans, records and prices go through every function of the headers, each with
 * all the room that an answer may take, with just enough, with one place less and with none. One line for each function says how often it was
 * called and refused, by which rules, and a sum over all answers and every byte of the lent space and of what stands around it. names.h has
 * X(NAME) for each function that the headers declare. Ends with 1 where a function was not called, a rule never refused or a
 * verdict never came.
 */
#include "sheets.h"

_Static_assert(sizeof(pattern_len) == 8, "lengths have 64 bits on every target");
_Static_assert(sizeof(struct pattern_step) == PATTERN_STEP * sizeof(uint64_t), "a list of steps is lent as one of numbers");
_Static_assert(sizeof(struct pattern_columns) == 1744, "as js/pattern.mjs reads them");

enum function {
#define X(name) OF_##name,
#include "names.h"
#undef X
    FUNCTIONS
};

static struct {
    const char *name;
    uint32_t calls, refused, rules; /* rules: bit k for rule k */
    uint64_t sum;
} rows[FUNCTIONS] = {
#define X(name) {#name, 0, 0, 0, 0},
#include "names.h"
#undef X
};

static void add(enum function f, uint64_t word)
{
    uint64_t sum = (rows[f].sum ^ word) * 0x9e3779b97f4a7c15;
    rows[f].sum = sum ^ sum >> 29;
}

static void add_bytes(enum function f, const void *list, size_t bytes)
{
    const uint8_t *at = list;
    for (; bytes >= 8; bytes -= 8, at += 8) {
        uint64_t word;
        __builtin_memcpy(&word, at, 8);
        add(f, word);
    }
    for (; bytes > 0; bytes--)
        add(f, *at++);
}

/* Takes note of an answer. */
static int32_t noted(enum function f, int32_t answer)
{
    rows[f].calls++;
    rows[f].refused += answer < 0;
    rows[f].rules |= answer < 0 && answer > -32 ? 1u << -answer : 0;
    add(f, (uint64_t)answer);
    return answer;
}

#define CALL(name, ...) noted(OF_##name, name(__VA_ARGS__))

#define MOST_PRICES (PATTERN_MAX_ELEMENTS * (PATTERN_MAX_ELEMENTS - 1) / 2)

/* The space that is lent, with as much around it that must stay: at most a report, or the numbers of all steps. */
#define AROUND 64
#define MOST_LENT PATTERN_MAX_REPORT
static _Alignas(8) uint8_t space[MOST_LENT + 2 * AROUND + 64];
static size_t lent_bytes, lent_at;

/* Space for so many items of a size: aligned for one, anywhere else. */
static void *lend(size_t items, size_t size)
{
    lent_bytes = items * size;
    lent_at = AROUND + below(8) * size;
    __builtin_memset(space, (int)(uint8_t)next(), lent_at + lent_bytes + AROUND);
    return items ? space + lent_at : NULL;
}

/* What a function answered and wrote when it had all the room. */
static int32_t answer;
static _Alignas(8) uint8_t kept[MOST_LENT];

/* The rooms of the four calls: all that is wanted, as much as the answer took, one place less, none. A refused call has the last alone. */
static int rooms(int way, size_t most, size_t *room)
{
    *room = way == 0 ? most : way == 3 ? 0 : (size_t)answer - (size_t)(way - 1);
    return way == 0 || way == 3 || answer > 0;
}

/* Adds all of the space to the sum, and keeps the answer of the first call. */
static void returned(enum function f, int way, int32_t answered)
{
    add_bytes(f, space, lent_at + lent_bytes + AROUND);
    if (way > 0)
        return;
    answer = answered;
    __builtin_memcpy(kept, space + lent_at, lent_bytes);
}

/* Calls a function that ends with lent space in all four rooms. */
#define LENT(name, type, most, ...) \
    do { \
        size_t room; \
        for (int way = 0; way < 4; way++) \
            if (rooms(way, most, &room)) { \
                void *out = lend(room, sizeof(type)); \
                returned(OF_##name, way, CALL(name, __VA_ARGS__, out, room)); \
            } \
    } while (0)

static uint8_t sheet[PATTERN_MAX_SHEET + 1];
static size_t len;
static uint32_t verdicts; /* bit k for the verdict k, where a sheet had it */

/* Reads, judges and plans the sheet. */
static void judged(void)
{
    LENT(pattern_rewrite, uint8_t, PATTERN_MAX_WRITTEN, sheet, len);
    LENT(pattern_over, uint64_t, 2, sheet, len);
    int32_t verdict = CALL(pattern_verdict, sheet, len);
    verdicts |= verdict < 0 ? 0 : 1u << verdict;
    LENT(pattern_initial, uint64_t, PATTERN_MAX_CONSTRAINTS, sheet, len);
    LENT(pattern_report, uint8_t, PATTERN_MAX_REPORT, sheet, len);
    LENT(pattern_steps, uint64_t, PATTERN_MAX_STEPS * PATTERN_STEP, sheet, len);
    LENT(pattern_rests, uint64_t, PATTERN_MAX_RESTS, sheet, len);
    LENT(pattern_clusters, uint64_t, PATTERN_MAX_CLUSTERS, sheet, len);
    uint64_t a = next(), b = next();
    if (answer > 1) {
        size_t at = below((size_t)answer - 1) * 8;
        __builtin_memcpy(&a, kept + at, 8);
        __builtin_memcpy(&b, kept + at + 8, 8);
    }
    rows[OF_pattern_shared].calls++;
    add(OF_pattern_shared, pattern_shared(a, b));
}

/* Takes the plan over, as it is and changed, and asks what stands in it. */
static void planned(size_t n)
{
    static uint16_t plan[PATTERN_MAX_PLAN + 1];
    LENT(pattern_plan, uint16_t, PATTERN_MAX_PLAN, sheet, len);
    size_t numbers = answer < 0 ? 0 : (size_t)answer;
    __builtin_memcpy(plan, kept, numbers * 2);
    if (once_in(2))
        numbers = change(plan, numbers);
    LENT(pattern_check_plan, uint8_t, PATTERN_MAX_REPORT, sheet, len, plan, numbers);
    LENT(pattern_saved_steps, uint64_t, PATTERN_MAX_STEPS * PATTERN_STEP, sheet, len, plan, numbers);
    for (int i = 0; i < 3; i++) {
        pattern_len number = some_number(3 * n), from = some_number(n), to = some_number(n), steps = some_number(n);
        CALL(pattern_part_steps, sheet, len, number);
        CALL(pattern_part_bytes, sheet, len, number);
        LENT(pattern_part, uint8_t, PATTERN_MAX_PART, sheet, len, number);
        LENT(pattern_chain, uint16_t, PATTERN_MAX_CHAIN, sheet, len, from, to);
        LENT(pattern_open, uint16_t, PATTERN_MAX_OPEN, sheet, len, steps);
    }
}

/* Asks what to measure next. */
static void measured(size_t n)
{
    static uint16_t prices[MOST_PRICES + 1];
    size_t count = draw_prices(n, prices);
    LENT(pattern_missing, uint16_t, PATTERN_MAX_MISSING, sheet, len, prices, count);
}

/* Holds the sheet, asks and places constraints, and takes the sheet out again; some records are damaged, cut or of other bytes. */
static void held(size_t n)
{
    static uint8_t record[PATTERN_MAX_RECORD + 1];
    LENT(pattern_hold, uint8_t, PATTERN_MAX_RECORD, sheet, len);
    __builtin_memcpy(record, kept, PATTERN_MAX_RECORD);
    size_t bytes = answer < 0 ? below(9) : (size_t)answer, space = PATTERN_MAX_RECORD;
    if (answer > 0 && once_in(4))
        damage(record, bytes);
    if (once_in(4))
        space = bytes > 0 && once_in(4) ? bytes - 1 : bytes;
    for (int i = 0; i < 4; i++) {
        uint8_t first = (uint8_t)(once_in(8) ? next() : below(n - 1));
        uint8_t second = (uint8_t)(first + 1 + below(once_in(8) || first > n - 2 ? n : n - 1 - first));
        static const uint8_t some_maps[] = {PATTERN_SIZED, PATTERN_SIZED, PATTERN_SIZED, 0, PATTERN_TANGENT, PATTERN_TANGENT | PATTERN_OTHER};
        uint8_t map = once_in(8) ? (uint8_t)next() : some_maps[below(sizeof some_maps)];
        int32_t size = (int32_t)(once_in(8) ? next() : 1 + below(17999));
        int32_t count = CALL(pattern_held_count, record, space);
        pattern_len number = count >= 0 && once_in(2) ? (pattern_len)count : some_number(20);
        CALL(pattern_ask, record, space, first, second, map, size);
        CALL(pattern_place, record, space, first, second, map, size, number);
        add_bytes(OF_pattern_place, record, sizeof record);
    }
    LENT(pattern_held, uint8_t, PATTERN_MAX_WRITTEN, record, space);
    LENT(pattern_held_clusters, uint64_t, PATTERN_MAX_CLUSTERS, record, space);
    LENT(pattern_held_rests, uint64_t, PATTERN_MAX_RESTS, record, space);
}

/* Changes one of the facts, so that a rule may refuse them. */
static void spoil(struct pattern_columns *f)
{
    size_t i = below(f->n), k = below(f->e + 1) % PATTERN_MAX_CONSTRAINTS;
    switch (below(9)) {
    case 0: f->kinds[i] = (uint8_t)below(5); break;
    case 1: f->radii[i] = (uint32_t)next(); break;
    case 2: f->firsts[k] = (uint8_t)some_number(70); break;
    case 3: f->seconds[k] = (uint8_t)some_number(70); break;
    case 4: f->maps[k] = (uint8_t)some_number(16); break;
    case 5: f->sizes[k] = (int32_t)(once_in(2) ? 0 : next()); break;
    case 6: f->firsts[k] = f->firsts[0]; f->seconds[k] = f->seconds[0]; break;
    default: break;
    }
}

/* Writes a sheet from its facts, some of them spoilt, counts of any number of bits, lists that are short. */
static void written(struct pattern_columns *f)
{
    pattern_len opening = f->opening, n = f->n, e = f->e;
    if (once_in(2)) {
        spoil(f);
        opening = once_in(8) ? some_number(4) : opening;
        n = once_in(8) ? some_number(70) : n;
        e = once_in(8) ? some_number(220) : e;
    }
    pattern_len lists[6];
    for (int i = 0; i < 6; i++) {
        lists[i] = i < 2 ? PATTERN_MAX_ELEMENTS : PATTERN_MAX_CONSTRAINTS;
        lists[i] = once_in(24) ? below((size_t)lists[i]) : lists[i];
    }
    LENT(pattern_write, uint8_t, PATTERN_MAX_WRITTEN, opening, n, e, f->kinds, lists[0], f->radii, lists[1], f->firsts, lists[2],
        f->seconds, lists[3], f->maps, lists[4], f->sizes, lists[5]);
}

/* What needs no sheet, and the plain C beside the proved functions. */
static void apart(void)
{
    pattern_len set = some_number(1024), n = some_number(66);
    CALL(pattern_card, set);
    LENT(pattern_longest, uint8_t, PATTERN_MAX_WRITTEN, n);

    static struct pattern_columns f;
    __builtin_memset(&f, 90, sizeof f);
    CALL(pattern_read, sheet, len, &f);
    add(OF_pattern_read, f.opening);
    add(OF_pattern_read, f.n);
    add(OF_pattern_read, f.e);
    add_bytes(OF_pattern_read, f.kinds, sizeof f.kinds);
    add_bytes(OF_pattern_read, f.radii, sizeof f.radii);
    add_bytes(OF_pattern_read, f.firsts, sizeof f.firsts);
    add_bytes(OF_pattern_read, f.seconds, sizeof f.seconds);
    add_bytes(OF_pattern_read, f.maps, sizeof f.maps);
    add_bytes(OF_pattern_read, f.sizes, sizeof f.sizes);
    LENT(pattern_write_columns, uint8_t, PATTERN_MAX_WRITTEN, &f);

    uint8_t first = (uint8_t)below(70), second = (uint8_t)below(70);
    int32_t size = (int32_t)next();
    CALL(pattern_order_ends, f.kinds, once_in(4) ? below(PATTERN_MAX_ELEMENTS) : PATTERN_MAX_ELEMENTS, &first, &second, &size);
    add(OF_pattern_order_ends, first);
    add(OF_pattern_order_ends, second);
    add(OF_pattern_order_ends, (uint64_t)size);

    int32_t number = (int32_t)(once_in(4) ? next() : below(80)) - 40;
    rows[OF_pattern_rule_text].calls++;
    for (const char *text = pattern_rule_text(number); *text; text++)
        add(OF_pattern_rule_text, (uint8_t)*text);
    rows[OF_pattern_verdict_text].calls++;
    for (const char *text = pattern_verdict_text(number); *text; text++)
        add(OF_pattern_verdict_text, (uint8_t)*text);
    rows[OF_pattern_version].calls++;
    for (const char *text = pattern_version(); *text; text++)
        add(OF_pattern_version, (uint8_t)*text);
}

/* One round: a sheet, damaged in half of the rounds, through all functions. */
static void go_round(void)
{
    static struct sketch s;
    draw(&s);
    len = sheet_bytes(&s.facts, once_in(4), sheet);
    if (once_in(2))
        len = damage(sheet, len);
    size_t n = s.facts.n;
    judged();
    planned(n);
    measured(n);
    held(n);
    written(&s.facts);
    apart();
}

#ifdef __wasm32__
__attribute__((import_module("host"), import_name("put"))) void put(const char *text, size_t count);
#define MAIN __attribute__((export_name("main"))) int main_(void)
#else
#include <stdio.h>
static void put(const char *text, size_t count) { fwrite(text, 1, count, stdout); }
#define MAIN int main(void)
#endif

static void put_text(const char *text)
{
    size_t count = 0;
    while (text[count])
        count++;
    put(text, count);
}

/* A number in decimal or hexadecimal digits. */
static void put_digits(uint64_t number, unsigned base)
{
    char digits[20];
    size_t at = sizeof digits;
    do
        digits[--at] = "0123456789abcdef"[number % base];
    while (number /= base);
    put(digits + at, sizeof digits - at);
}

MAIN
{
    for (int i = 0; i < ROUNDS; i++)
        go_round();

    uint64_t calls = 0;
    uint32_t rules = 0;
    int idle = 0;
    for (size_t f = 0; f < FUNCTIONS; f++) {
        put_text(rows[f].name);
        put_text(" ");
        put_digits(rows[f].calls, 10);
        put_text(" calls, ");
        put_digits(rows[f].refused, 10);
        put_text(" refused by");
        for (uint32_t rule = 1; rule < 32; rule++)
            if (rows[f].rules >> rule & 1) {
                put_text(" ");
                put_digits(rule, 10);
            }
        put_text(", sum ");
        put_digits(rows[f].sum, 16);
        put_text("\n");
        calls += rows[f].calls;
        rules |= rows[f].rules;
        idle |= rows[f].calls == 0;
    }
    for (int32_t rule = 1; rule < 32; rule++)
        if (pattern_rule_text(rule) != pattern_rule_text(0) && !(rules >> rule & 1)) {
            put_text("no call was refused by rule ");
            put_digits((uint64_t)rule, 10);
            put_text("\n");
            idle = 1;
        }
    for (int32_t verdict = PATTERN_OVER; verdict <= PATTERN_UNDER; verdict++)
        if (!(verdicts >> verdict & 1)) {
            put_text("no sheet was ");
            put_text(pattern_verdict_text(verdict));
            put_text("\n");
            idle = 1;
        }
    put_digits(calls, 10);
    put_text(" calls\n");
    return idle;
}
