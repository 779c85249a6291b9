/*
 * Sheets, plans and prices at random: the same ones on every target. Where C leaves the order of two calls open, in arguments and around an
 * operator, each draw has a statement or a declarator of its own.
 */
#ifndef SHEETS_H
#define SHEETS_H

#include "pattern_text.h"

/* The next number of the one random stream. */
static uint64_t next(void)
{
    static uint64_t state = 40;
    uint64_t x = state += 0x9e3779b97f4a7c15;
    x = (x ^ x >> 30) * 0xbf58476d1ce4e5b9;
    x = (x ^ x >> 27) * 0x94d049bb133111eb;
    return x ^ x >> 31;
}

/* A number below a bound. */
static size_t below(size_t bound) { return (size_t)(next() % bound); }

/* Whether it happens, once in so many times. */
static int once_in(size_t times) { return below(times) == 0; }

/* A number that a caller may hand over: mostly below a bound, else one of up to 64 bits. */
static pattern_len some_number(size_t bound)
{
    size_t shift = below(64);
    return once_in(8) ? next() >> shift : below(bound);
}

/* The facts of a sheet with what tells which pairs are joined. */
struct sketch {
    struct pattern_columns facts;
    uint64_t joined[PATTERN_MAX_ELEMENTS];
};

/* Joins two elements by a constraint that their kinds may have, unless they are joined or the sheet is full. */
static void join(struct sketch *s, size_t a, size_t b)
{
    struct pattern_columns *f = &s->facts;
    size_t first = a < b ? a : b, second = a < b ? b : a;
    if (first == second || s->joined[first] >> second & 1 || f->e == PATTERN_MAX_CONSTRAINTS)
        return;
    s->joined[first] |= (uint64_t)1 << second;
    size_t k = f->e++;
    int lines = (f->kinds[first] == PATTERN_LINE) + (f->kinds[second] == PATTERN_LINE);
    int circles = (f->kinds[first] == PATTERN_CIRCLE) + (f->kinds[second] == PATTERN_CIRCLE);
    int sign = lines && once_in(2) ? -1 : 1;
    f->firsts[k] = (uint8_t)first;
    f->seconds[k] = (uint8_t)second;
    f->maps[k] = PATTERN_SIZED;
    f->sizes[k] = sign * (int32_t)(1 + below(lines == 2 ? 17999 : 40000));
    if (circles && once_in(2)) {
        int other = (circles == 2 ? f->radii[first] != f->radii[second] : lines) && once_in(2);
        f->maps[k] = (uint8_t)(PATTERN_TANGENT | (other ? PATTERN_OTHER : 0));
        f->sizes[k] = 0;
    } else if (lines == 1 && once_in(4)) {
        f->maps[k] = 0;
        f->sizes[k] = 0;
    }
}

/* Joins any two elements. */
static void join_some(struct sketch *s)
{
    size_t a = below(s->facts.n), b = below(s->facts.n);
    join(s, a, b);
}

/* Takes the last constraint away. */
static void unjoin(struct sketch *s)
{
    struct pattern_columns *f = &s->facts;
    f->e--;
    s->joined[f->firsts[f->e]] &= ~((uint64_t)1 << f->seconds[f->e]);
}

/* Swaps two constraints. */
static void swap(struct pattern_columns *f, size_t i, size_t j)
{
    uint8_t bytes[3] = {f->firsts[i], f->seconds[i], f->maps[i]};
    int32_t size = f->sizes[i];
    f->firsts[i] = f->firsts[j];
    f->seconds[i] = f->seconds[j];
    f->maps[i] = f->maps[j];
    f->sizes[i] = f->sizes[j];
    f->firsts[j] = bytes[0];
    f->seconds[j] = bytes[1];
    f->maps[j] = bytes[2];
    f->sizes[j] = size;
}

/* Element k joined to three, in place of a constraint between two of them: a sheet that is tight stays so. */
static void split(struct sketch *s, size_t k)
{
    swap(&s->facts, below(s->facts.e), s->facts.e - 1);
    unjoin(s);
    size_t a = s->facts.firsts[s->facts.e], b = s->facts.seconds[s->facts.e], c = below(k);
    while (c == a || c == b)
        c = below(k);
    join(s, a, k);
    join(s, b, k);
    join(s, c, k);
}

/* A sheet that keeps every rule: a strip, a growth by twos, one with splits, pairs at random, or strips that share an element. */
static void draw(struct sketch *s)
{
    struct pattern_columns *f = &s->facts;
    __builtin_memset(s, 0, sizeof *s);
    f->opening = 1 + below(2);
    f->n = once_in(3) ? 2 + below(63) : 2 + below(12);
    size_t lines = 1 + below(6), circles = f->opening == PATTERN_PF02 ? 1 + below(4) : 0;
    for (size_t i = 0; i < f->n; i++) {
        f->kinds[i] = once_in(lines + 1) ? PATTERN_LINE : circles && once_in(circles + 1) ? PATTERN_CIRCLE : PATTERN_POINT;
        f->radii[i] = f->kinds[i] == PATTERN_CIRCLE ? (uint32_t)(1 + below(once_in(2) ? 3 : 40000)) : 0;
    }
    size_t shape = below(5), block = 2 + below(8);
    for (size_t k = 1; k < f->n; k++) {
        size_t back = shape == 4 && k % block < 2 ? 1 : 2;
        if (shape == 2 && k > 2 && once_in(2))
            split(s, k);
        else if (shape == 1 || shape == 2)
            for (size_t most = 2 * k - 1; f->e < most;)
                join(s, k, below(k));
        else if (shape == 3)
            for (size_t i = below(5); i > 0; i--)
                join_some(s);
        else
            for (size_t i = 1; i <= back && i <= k; i++)
                join(s, k - i, k);
    }
    size_t least = once_in(2) ? f->e : once_in(2) ? f->e * 3 / 4 : below(f->e + 1);
    while (f->e > least)
        unjoin(s);
    for (size_t i = once_in(6) ? below(4) : 0; i > 0; i--)
        join_some(s);
    if (once_in(2))
        for (size_t i = 1; i < f->e; i++)
            swap(f, i, below(i + 1));
}

/* Writes four bytes, lowest first. */
static uint8_t *put_number(uint8_t *at, uint32_t number)
{
    for (int i = 0; i < 4; i++)
        *at++ = (uint8_t)(number >> 8 * i);
    return at;
}

/* The bytes of a sheet, with tags where wanted: how many. */
static size_t sheet_bytes(const struct pattern_columns *f, int tags, uint8_t *out)
{
    uint8_t *at = out;
    size_t bits = f->opening, kinds = (f->n * bits + 7) / 8;
    *at++ = 'P';
    *at++ = 'F';
    *at++ = '0';
    *at++ = (uint8_t)('0' + f->opening);
    *at++ = (uint8_t)f->n;
    __builtin_memset(at, 0, kinds);
    for (size_t i = 0; i < f->n; i++)
        at[i * bits / 8] |= (uint8_t)(f->kinds[i] << i * bits % 8);
    at += kinds;
    for (size_t i = 0; i < f->n; i++)
        if (f->kinds[i] == PATTERN_CIRCLE)
            at = put_number(at, f->radii[i]);
    *at++ = (uint8_t)f->e;
    for (size_t k = 0; k < f->e; k++) {
        int tag = tags && once_in(2);
        *at++ = f->firsts[k];
        *at++ = f->seconds[k];
        *at++ = (uint8_t)(f->maps[k] | (tag ? PATTERN_TAGGED : 0));
        if (f->maps[k] & PATTERN_SIZED)
            at = put_number(at, (uint32_t)f->sizes[k]);
        if (tag) {
            *at++ = (uint8_t)next();
            *at++ = (uint8_t)next();
        }
    }
    return (size_t)(at - out);
}

/* Turns one bit of a byte. */
static void flip(uint8_t *byte) { *byte ^= (uint8_t)(1 << below(8)); }

/* Damages a list of bytes: cut, longer, or some of them others. There is room for one more. */
static size_t damage(uint8_t *bytes, size_t len)
{
    switch (below(6)) {
    case 0:
        return below(len + 1);
    case 1:
        bytes[len] = (uint8_t)next();
        return len + 1;
    case 2:
        flip(bytes + below(len < 12 ? len : 12));
        return len;
    default:
        for (size_t i = below(3); i < 3; i++) {
            size_t at = below(len);
            bytes[at] = (uint8_t)(once_in(2) ? next() : below(5));
        }
        return len;
    }
}

/* Changes a plan: numbers within a step, two steps, any number, or the count. There is room for one more. */
static size_t change(uint16_t *plan, size_t count)
{
    if (count < 3 || once_in(8)) {
        plan[count] = (uint16_t)below(9);
        return count + 1;
    }
    size_t width = once_in(2) ? 1 : 3, i = below(count / 3) * 3, j = width == 1 ? i + below(3) : below(count / 3) * 3;
    i += width == 1 ? below(3) : 0;
    for (size_t k = 0; k < width; k++) {
        uint16_t held = plan[i + k];
        plan[i + k] = plan[j + k];
        plan[j + k] = held;
    }
    uint16_t number = (uint16_t)some_number(200);
    if (once_in(3))
        plan[below(count)] = number;
    return once_in(5) ? count - width : count;
}

/* A price for each pair, mostly: how many. */
static size_t draw_prices(size_t n, uint16_t *prices)
{
    size_t count = n * (n - 1) / 2, unmeasured = 1 + below(40);
    for (size_t i = 0; i < count; i++)
        prices[i] = (uint16_t)(once_in(unmeasured + 1) ? PATTERN_UNMEASURED : below(once_in(2) ? 10 : 1001));
    uint16_t price = (uint16_t)next();
    if (count > 0 && once_in(8))
        prices[below(count)] = price;
    return once_in(8) ? below(count + 2) : count;
}

#endif
