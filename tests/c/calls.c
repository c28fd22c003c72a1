/* The program `calls` over the C interface: one call a line on standard input, one line of results for each. The line form is that of
   second/calls.py: fields separated by one space, numbers in decimal; cells 0 and 1 as they are, any other byte as x and two hex digits, and no
   cells as a dash. */
#include <inttypes.h>
#include <stdio.h>
#include <stdlib.h>
#include <string.h>

#include "plate.h"

enum { MOST = 8192 };

typedef struct { uint8_t cell[MOST]; size_t length; } cells;

static char *field(void) { return strtok(NULL, " \n"); }

static uint64_t number(void) { return strtoull(field(), NULL, 10); }

static void read_cells(cells *c)
{
    c->length = 0;
    const char *s = field();
    if (!strcmp(s, "-"))
        return;
    while (*s && c->length < MOST) {
        if (*s == 'x') {
            char hex[3] = {s[1], s[2], 0};
            c->cell[c->length++] = (uint8_t)strtoul(hex, NULL, 16);
            s += 3;
        } else {
            c->cell[c->length++] = (uint8_t)(*s++ - '0');
        }
    }
}

static void show_cells(const uint8_t *cell, size_t length)
{
    putchar(' ');
    if (!length)
        putchar('-');
    for (size_t i = 0; i < length; i++)
        if (cell[i] < 2)
            putchar('0' + cell[i]);
        else
            printf("x%02x", cell[i]);
}

static plate_reader read_reader(void)
{
    plate_reader r;
    memset(&r, 0, sizeof r);
    r.n = number();
    r.g = number();
    r.rule = number();
    r.clocks = number();
    r.mended = number();
    static cells c;
    read_cells(&c);
    memcpy(r.stages, c.cell, sizeof r.stages);
    read_cells(&c);
    memcpy(r.cells, c.cell, sizeof r.cells);
    return r;
}

static void show_reader(const plate_reader *r)
{
    printf(" %zu %" PRIu64 " %" PRIu64 " %zu %" PRIu64, r->n, r->g, r->rule, r->clocks, r->mended);
    show_cells(r->stages, sizeof r->stages);
    show_cells(r->cells, sizeof r->cells);
}

static void two(uint64_t a, uint64_t b) { printf("%" PRIu64 " %" PRIu64, a, b); }

static void division(char letter)
{
    static cells a, b;
    uint64_t divisor = number();
    read_cells(&a);
    plate_outcome x;
    if (letter == 'D') {
        read_cells(&b);
        x = plate_divide(a.cell, a.length, divisor, b.cell, b.length);
    } else if (letter == 'L') {
        x = plate_remainder_low(a.cell, a.length, divisor);
    } else {
        x = plate_remainder_high(a.cell, a.length, divisor);
    }
    two(x.number, x.remainder);
    if (letter == 'D')
        show_cells(b.cell, b.length);
}

static void encoder(char letter)
{
    static cells a, b;
    size_t n = number();
    uint64_t g = number();
    read_cells(&a);
    read_cells(&b);
    uint64_t x = letter == 'S' ? plate_encode_systematic(n, g, a.cell, a.length, b.cell, b.length)
                               : plate_encode_product(n, g, a.cell, a.length, b.cell, b.length);
    printf("%" PRIu64, x);
    show_cells(b.cell, b.length);
}

static void decoder(char letter)
{
    static cells a, b;
    size_t n = number();
    uint64_t g = number(), rule = number();
    read_cells(&a);
    read_cells(&b);
    plate_reading x = letter == 'M'   ? plate_decode_systematic(n, g, rule, a.cell, a.length, b.cell, b.length)
                      : letter == 'Q' ? plate_decode_product(n, g, rule, a.cell, a.length, b.cell, b.length)
                                      : plate_read(n, g, rule, a.cell, a.length, b.cell, b.length);
    two(x.number, x.mended);
    show_cells(b.cell, b.length);
}

static void reader(char letter)
{
    if (letter == 'N') {
        size_t n = number();
        uint64_t g = number(), rule = number();
        plate_started x = plate_start(n, g, rule);
        printf("%" PRIu64, x.number);
        show_reader(&x.reader);
        return;
    }
    plate_reader r = read_reader();
    if (letter == 'C') {
        plate_clocked x = plate_clock(r, (uint8_t)number());
        printf("%" PRIu64 " %u", x.number, x.cell);
        show_reader(&x.reader);
        return;
    }
    static cells m;
    read_cells(&m);
    plate_reading x = plate_answer(r, m.cell, m.length);
    two(x.number, x.mended);
    show_cells(m.cell, m.length);
}

static void better(void)
{
    static cells a, b;
    size_t n = number();
    uint64_t g = number(), rule = number();
    read_cells(&a);
    read_cells(&b);
    uint64_t word = plate_better_word(n, g, rule, a.cell, a.length, b.cell, b.length);
    two(plate_better_number(n, g, rule, a.cell, a.length, b.cell, b.length), word);
    const cells *c = word == 1 ? &a : &b;
    show_cells(c->cell, word ? c->length : 0);
}

static void checks(char letter)
{
    size_t n = number();
    uint64_t g = number();
    printf("%" PRIu64, letter == 'K' ? plate_check_code(n, g) : plate_check_rule(n, g, number()));
}

static void family(void)
{
    uint64_t f = number();
    printf("%zu %" PRIu64 " %d", plate_family_length(f), plate_family_generator(f), plate_family_pairs(f));
}

static void on_numbers(char letter)
{
    size_t n = number();
    uint64_t g = number();
    if (letter == 'm' || letter == 'q') {
        uint64_t rule = number(), word = number();
        plate_decoding x = letter == 'm' ? plate_decode_systematic_number(n, g, rule, word) : plate_decode_product_number(n, g, rule, word);
        printf("%" PRIu64 " %" PRIu64 " %" PRIu64, x.number, x.mended, x.message);
        return;
    }
    uint64_t p = number();
    plate_value x = letter == 's'   ? plate_encode_systematic_number(n, g, p)
                    : letter == 'p' ? plate_encode_product_number(n, g, p)
                                    : plate_remainder_number(n, g, p);
    two(x.number, x.value);
}

int main(void)
{
    static char line[1 << 16];
    while (fgets(line, sizeof line, stdin)) {
        char letter = *strtok(line, " \n");
        if (strchr("DLH", letter)) {
            division(letter);
        } else if (strchr("SP", letter)) {
            encoder(letter);
        } else if (letter == 'R') {
            static cells a;
            size_t n = number();
            uint64_t g = number();
            read_cells(&a);
            plate_outcome x = plate_remainder(n, g, a.cell, a.length);
            two(x.number, x.remainder);
        } else if (strchr("MQW", letter)) {
            decoder(letter);
        } else if (strchr("NCA", letter)) {
            reader(letter);
        } else if (letter == 'B') {
            better();
        } else if (strchr("Kk", letter)) {
            checks(letter);
        } else if (letter == 'F') {
            family();
        } else {
            on_numbers(letter);
        }
        putchar('\n');
    }
    return 0;
}
