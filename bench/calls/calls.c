/* Times calls of the proved library beside the same work in plain C, in one process: nanoseconds a call and the ratio. */
#define _POSIX_C_SOURCE 199309L
#include <stdio.h>
#include <time.h>

#include "plate.h"

static double now(void)
{
    struct timespec t;
    clock_gettime(CLOCK_MONOTONIC, &t);
    return t.tv_sec * 1e9 + t.tv_nsec;
}

/* ---- the same in C */

static int degree(uint64_t g) { return 63 - __builtin_clzll(g); }

static uint64_t left(uint64_t p, uint64_t g, int r)
{
    uint64_t s = 0;
    for (int i = p ? 64 - __builtin_clzll(p) : 0; i-- > 0;) {
        s = s * 2 + (p >> i & 1);
        if (s >> r)
            s ^= g;
    }
    return s;
}

static __attribute__((noipa)) uint64_t c_check_rule(size_t n, uint64_t g, uint64_t rule)
{
    if (n < 2 || n > 63)
        return 1;
    if (!(g & 1) || g == 1 || degree(g) > 32 || (size_t)degree(g) >= n)
        return 2;
    int r = degree(g);
    if (left((UINT64_C(1) << n) ^ 1, g, r))
        return 3;
    if (rule > 2)
        return 4;
    uint64_t t[127];
    size_t m = 0;
    t[m++] = 0;
    if (rule >= 1)
        for (uint64_t i = 0, p = 1; i < n; i++) {
            t[m++] = p;
            p = p << 1;
            if (p >> r)
                p ^= g;
        }
    if (rule >= 2) {
        for (size_t i = 1; i < n; i++)
            t[m++] = t[i] ^ t[i + 1];
        if (n > 2)
            t[m++] = t[1] ^ t[n];
    }
    for (size_t j = 0; j < m; j++)
        for (size_t i = 0; i < j; i++)
            if (t[i] == t[j])
                return 5;
    return 0;
}

static uint64_t find(size_t n, uint64_t g, int r, uint64_t rule, uint64_t s, uint64_t *places)
{
    *places = 0;
    if (!s)
        return 1;
    for (uint64_t i = 0, p = 1; rule >= 1 && i < n; i++) {
        if (p == s) {
            *places = UINT64_C(1) << i;
            return 1;
        }
        p = p << 1;
        if (p >> r)
            p ^= g;
    }
    for (uint64_t i = 0, p = left(3, g, r); rule >= 2 && i < n; i++) {
        if (p == s) {
            *places = i + 1 < n ? UINT64_C(3) << i : (UINT64_C(1) << i) ^ 1;
            return 1;
        }
        p = p << 1;
        if (p >> r)
            p ^= g;
    }
    return 0;
}

static __attribute__((noipa)) plate_decoding c_decode(size_t n, uint64_t g, uint64_t rule, uint64_t w)
{
    plate_decoding x = {c_check_rule(n, g, rule), 0, 0};
    if (x.number)
        return x;
    if (w >> n) {
        x.number = 6;
        return x;
    }
    int r = degree(g);
    uint64_t places;
    if (!find(n, g, r, rule, left(w, g, r), &places)) {
        x.number = 8;
        return x;
    }
    x.message = (w ^ places) >> r;
    x.mended = (uint64_t)__builtin_popcountll(places);
    return x;
}

static uint64_t halved(uint64_t g, uint64_t s) { return (s & 1 ? s ^ g : s) / 2; }

static uint64_t in_form(const plate_reader *d)
{
    if (c_check_rule(d->n, d->g, d->rule) || d->clocks > 2 * d->n || d->mended > (d->clocks > d->n ? d->clocks - d->n : 0))
        return 0;
    for (size_t i = 0; i < 32; i++)
        if (d->stages[i] > 1 || (d->stages[i] && i >= (size_t)degree(d->g)))
            return 0;
    for (size_t i = 0; i < 63; i++)
        if (d->cells[i] > 1 || (d->cells[i] && i >= d->n))
            return 0;
    return 1;
}

static void shift(plate_reader *d, uint8_t input)
{
    uint8_t f = d->stages[degree(d->g) - 1];
    for (int i = degree(d->g) - 1; i > 0; i--)
        d->stages[i] = d->stages[i - 1] ^ (f & (d->g >> i & 1));
    d->stages[0] = input ^ f;
}

static __attribute__((noipa)) plate_clocked c_clock(plate_reader d, uint8_t cell)
{
    plate_clocked x = {11, 0, d};
    if (!in_form(&d) || d.clocks >= 2 * d.n)
        return x;
    x.number = 7;
    if (cell > 1 || (cell && d.clocks >= d.n))
        return x;
    if (d.clocks < d.n) {
        d.cells[d.clocks] = cell;
    } else {
        size_t i = d.clocks - d.n;
        uint64_t s = 0, u = halved(d.g, 1);
        for (int j = 32; j-- > 0;)
            s = s * 2 + d.stages[j];
        if (d.rule && (s == u || (d.rule == 2 && (s == (u ^ 1) || s == (u ^ halved(d.g, u)))))) {
            for (int j = 0; j < 32; j++)
                d.stages[j] ^= u >> j & 1;
            d.cells[i] ^= 1;
            d.mended++;
        }
        x.cell = d.cells[i];
    }
    shift(&d, cell);
    d.clocks++;
    x.number = 0;
    x.reader = d;
    return x;
}

/* A word of 63 cells through 126 clocks: what the last clock gives out, and the count. */
#define RUN(clock)                                                                                                                                     \
    static uint64_t run_##clock(uint64_t g, uint64_t rule, uint64_t w)                                                                                 \
    {                                                                                                                                                  \
        plate_reader d = plate_start(63, g, rule).reader;                                                                                              \
        plate_clocked x = {0};                                                                                                                         \
        for (int i = 0; i < 126; i++) {                                                                                                                \
            x = clock(d, i < 63 ? w >> (62 - i) & 1 : 0);                                                                                              \
            d = x.reader;                                                                                                                              \
        }                                                                                                                                              \
        return d.mended * 2 + x.cell;                                                                                                                  \
    }
RUN(plate_clock)
RUN(c_clock)

/* A reader that has taken half of a word, and a clock that it refuses: with a 2 for a cell it finds the reader in form and does no more. */
static plate_reader half(uint64_t g, uint64_t rule, uint64_t w)
{
    plate_reader d = plate_start(63, g, rule).reader;
    for (int i = 0; i < 31; i++)
        d = plate_clock(d, w >> (62 - i) & 1).reader;
    return d;
}

/* ---- timing: every call in each round, so that all see the same machine; the best round of each counts */

enum { ROUNDS = 300 };

static const uint64_t one = 67, two = 4191;
static uint64_t word, single;
static plate_reader half_one, half_two;

static uint64_t any(uint64_t turn) { return turn * UINT64_C(0x9E3779B97F4A7C15) >> 1; }
static uint64_t wrong(uint64_t turn) { return word ^ UINT64_C(3) << turn % 62; }

#define CALL(name, call)                                                                                                                               \
    static uint64_t name(uint64_t turn)                                                                                                                \
    {                                                                                                                                                  \
        (void)turn;                                                                                                                                    \
        return call;                                                                                                                                   \
    }
CALL(check_one, plate_check_rule(63, one, 1))
CALL(c_check_one, c_check_rule(63, one, 1))
CALL(check_two, plate_check_rule(63, two, 2))
CALL(c_check_two, c_check_rule(63, two, 2))
CALL(decode_any, plate_decode_systematic_number(63, two, 2, any(turn)).number)
CALL(c_decode_any, c_decode(63, two, 2, any(turn)).number)
CALL(decode_wrong, plate_decode_systematic_number(63, two, 2, wrong(turn)).message)
CALL(c_decode_wrong, c_decode(63, two, 2, wrong(turn)).message)
CALL(clock_one, run_plate_clock(one, 1, single))
CALL(c_clock_one, run_c_clock(one, 1, single))
CALL(clock_two, run_plate_clock(two, 2, wrong(0)))
CALL(c_clock_two, run_c_clock(two, 2, wrong(0)))

CALL(form_one, plate_clock(half_one, 2).number)
CALL(c_form_one, c_clock(half_one, 2).number)
CALL(form_two, plate_clock(half_two, 2).number)
CALL(c_form_two, c_clock(half_two, 2).number)

enum { CHECK_ONE, CHECK_TWO, DECODE_ANY, DECODE_WRONG, CLOCK_ONE, CLOCK_TWO, FORM_ONE, FORM_TWO, CALLS };

/* what is called, the same in C, how often in a round, how many calls of the library each of these makes, and the best time of one */
static struct {
    uint64_t (*call[2])(uint64_t);
    int turns, calls;
    double best[2];
} timed[CALLS] = {
    {{check_one, c_check_one}, 1000, 1, {1e18, 1e18}},
    {{check_two, c_check_two}, 300, 1, {1e18, 1e18}},
    {{decode_any, c_decode_any}, 300, 1, {1e18, 1e18}},
    {{decode_wrong, c_decode_wrong}, 310, 1, {1e18, 1e18}},
    {{clock_one, c_clock_one}, 6, 126, {1e18, 1e18}},
    {{clock_two, c_clock_two}, 2, 126, {1e18, 1e18}},
    {{form_one, c_form_one}, 1000, 1, {1e18, 1e18}},
    {{form_two, c_form_two}, 300, 1, {1e18, 1e18}},
};

static volatile uint64_t sink;

static void round_of(int i, int side)
{
    double from = now();
    for (int turn = 0; turn < timed[i].turns; turn++)
        sink += timed[i].call[side]((uint64_t)turn);
    double took = (now() - from) / timed[i].turns / timed[i].calls;
    if (took < timed[i].best[side])
        timed[i].best[side] = took;
}

static void show(const char *what, int i, int without)
{
    double ours = timed[i].best[0], theirs = timed[i].best[1];
    if (without >= 0) {
        ours -= timed[without].best[0];
        theirs -= timed[without].best[1];
    }
    printf("%-60s %7.1f ns  C %7.1f ns  ratio %.2f\n", what, ours, theirs, ours / theirs);
}

int main(void)
{
    word = plate_encode_systematic_number(63, two, 0x1234567890ABC).value;
    single = plate_encode_systematic_number(63, one, 0x1234567890ABC).value ^ 4;
    half_one = half(one, 1, single);
    half_two = half(two, 2, word);
    if (form_one(0) != 7 || form_two(0) != 7 || c_form_one(0) != 7 || c_form_two(0) != 7) {
        printf("a clock with a 2 is not refused by number 7\n");
        return 1;
    }
    if (clock_one(0) != c_clock_one(0) || clock_two(0) != c_clock_two(0) || decode_wrong(0) != c_decode_wrong(0)) {
        printf("the readers differ\n");
        return 1;
    }
    for (int round = 0; round < ROUNDS; round++)
        for (int i = 0; i < CALLS; i++)
            for (int side = 0; side < 2; side++)
                round_of(i, side);
    show("checks 1 to 5, n = 63, rule 1", CHECK_ONE, -1);
    show("checks 1 to 5, n = 63, rule 2", CHECK_TWO, -1);
    show("decoding of any word on numbers, n = 63, rule 2, checks too", DECODE_ANY, -1);
    show("  the same after the checks", DECODE_ANY, CHECK_TWO);
    show("decoding of a word with two wrong cells, checks too", DECODE_WRONG, -1);
    show("  the same after the checks", DECODE_WRONG, CHECK_TWO);
    show("a clock, n = 63, rule 1, the reader checked to be in form", CLOCK_ONE, -1);
    show("  being in form alone", FORM_ONE, -1);
    show("  being in form without the checks 1 to 5", FORM_ONE, CHECK_ONE);
    show("  the clock without being in form", CLOCK_ONE, FORM_ONE);
    show("a clock, n = 63, rule 2, the reader checked to be in form", CLOCK_TWO, -1);
    show("  being in form alone", FORM_TWO, -1);
    show("  being in form without the checks 1 to 5", FORM_TWO, CHECK_TWO);
    show("  the clock without being in form", CLOCK_TWO, FORM_TWO);
    return 0;
}
