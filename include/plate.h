/*
 * The one plate reader, for C. Link with libplate.a (`rt lib` in crates/plate writes crates/plate/out/libplate.a).
 *
 * A cell is a byte 0 or 1, and the first cell of a word is the highest power of x. A generator or a divisor is a number whose bit i is the
 * coefficient of x^i, so x^3+x+1 is 11. A code is a length n from 2 to 63 and an odd generator g of a degree r from 1 to 32, below n, that divides
 * x^n + 1. A word has n cells and a message k = n - r. The mending rules: 0 mends nothing, 1 a single cell, 2 also two neighbouring cells, the first
 * and the last cell being neighbours.
 *
 * Every call takes any numbers and any cells and never relies on its caller having looked first. A pointer must be to as many bytes as are named
 * after it (not null, even for no bytes), and cells that a call writes must not overlap others lent to it. What can't be used is refused by number:
 *
 *    0  done
 *    1  n, or a dividend's length (0 to 4,096 cells), outside its range
 *    2  generator or divisor not allowed (a divisor, odd or even, has a degree from 1 to 32)
 *    3  g doesn't divide x^n + 1
 *    4  rule not 0, 1 or 2
 *    5  the code doesn't carry the rule: two different patterns have the same remainder
 *    6  lent cells haven't exactly the needed length; on numbers, a message has more than k cells or a word more than n
 *    7  an input cell isn't 0 or 1, or isn't 0 in clocks n+1 to 2n
 *    8  no code word within the rule; for two readings, neither is readable
 *   10  both readings are readable and their messages differ
 *   11  reader not in form; a clock after 2n clocks; an answer asked for before 2n
 *
 * The first one met in the order 11, 1, 2, 3, 4, 5, 6, 7, 10, 8 is given. Beside a number other than 0 every other result is 0, lent cells hold what
 * they held, and a refused clock gives the reader back. The promise of each call, in full, is the contract of its function in crates/plate/src/lib.rt.
 */
#ifndef PLATE_H
#define PLATE_H

#include <stddef.h>
#include <stdint.h>

#ifdef __cplusplus
extern "C" {
#endif

typedef struct { uint64_t number, remainder; } plate_outcome;
typedef struct { uint64_t number, mended; } plate_reading;
typedef struct { uint64_t number, value; } plate_value;
typedef struct { uint64_t number, message, mended; } plate_decoding;

/* The checks of a code alone (1 to 3), and of a code and a rule (1 to 5). */
uint64_t plate_check_code(size_t n, uint64_t g);
uint64_t plate_check_rule(size_t n, uint64_t g, uint64_t rule);

/* The plate families, numbered from 1 to 12; 0 for any other number. All carry the rules 0 and 1; `pairs` is 1 for those that carry rule 2 too. */
size_t plate_family_length(uint64_t family);
uint64_t plate_family_generator(uint64_t family);
uint8_t plate_family_pairs(uint64_t family);

/* Division of a dividend of 0 to 4,096 cells. The quotient is lent as many cells as the dividend. Checks: 1 2 6 7. */
plate_outcome plate_divide(const uint8_t *dividend, size_t dividend_length, uint64_t divisor, uint8_t *quotient, size_t quotient_length);

/* The remainder alone, and the remainder of x^r times the dividend. Checks: 1 2 7. */
plate_outcome plate_remainder_low(const uint8_t *dividend, size_t dividend_length, uint64_t divisor);
plate_outcome plate_remainder_high(const uint8_t *dividend, size_t dividend_length, uint64_t divisor);

/* Encoders: a message of k cells, and n cells lent for its word, which may hold anything before. Checks: 1 2 3 6 7. */
uint64_t plate_encode_systematic(size_t n, uint64_t g, const uint8_t *message, size_t message_length, uint8_t *word, size_t word_length);
uint64_t plate_encode_product(size_t n, uint64_t g, const uint8_t *message, size_t message_length, uint8_t *word, size_t word_length);

/* The remainder of a word of n cells. Checks: 1 2 3 6 7. */
plate_outcome plate_remainder(size_t n, uint64_t g, const uint8_t *word, size_t word_length);

/* Decoders: the message of the one code word that differs from the word in a pattern of the rule, written into k lent cells, and the number of
   cells in that pattern. Checks: 1 2 3 4 5 6 7 8. */
plate_reading plate_decode_systematic(size_t n, uint64_t g, uint64_t rule, const uint8_t *word, size_t word_length, uint8_t *message, size_t message_length);
plate_reading plate_decode_product(size_t n, uint64_t g, uint64_t rule, const uint8_t *word, size_t word_length, uint8_t *message, size_t message_length);

/* The same calls with words and messages as numbers, last cell lowest; there is no 7. */
plate_value plate_encode_systematic_number(size_t n, uint64_t g, uint64_t message);
plate_value plate_encode_product_number(size_t n, uint64_t g, uint64_t message);
plate_value plate_remainder_number(size_t n, uint64_t g, uint64_t word);
plate_decoding plate_decode_systematic_number(size_t n, uint64_t g, uint64_t rule, uint64_t word);
plate_decoding plate_decode_product_number(size_t n, uint64_t g, uint64_t rule, uint64_t word);

/* The clocked reader, a value that a start makes and each clock takes and gives back. It is started with n, g and a rule; clocks 1 to n take the
   word's cells, first cell first, and give out 0; clocks n+1 to 2n take 0 and give out the stored cells, mended where the word is readable; after 2n clocks the answer stands.
   Stage i is for x^i, and the cells are stored first cell first. */
typedef struct {
    size_t n;
    uint64_t g, rule;
    size_t clocks;
    uint64_t mended;
    uint8_t stages[32], cells[63];
} plate_reader;
typedef struct { uint64_t number; plate_reader reader; } plate_started;
typedef struct { uint64_t number; uint8_t cell; plate_reader reader; } plate_clocked;

/* Checks: 1 2 3 4 5. A refused start gives a reader with every number zero. */
plate_started plate_start(size_t n, uint64_t g, uint64_t rule);

/* Checks: 11 7. A refused clock gives the reader back as it was. */
plate_clocked plate_clock(plate_reader reader, uint8_t cell);

/* Writes the message into k lent cells. Checks: 11 6 8. */
plate_reading plate_answer(plate_reader reader, uint8_t *message, size_t message_length);

/* A whole word through the clocked reader: as plate_decode_systematic. */
plate_reading plate_read(size_t n, uint64_t g, uint64_t rule, const uint8_t *word, size_t word_length, uint8_t *message, size_t message_length);

/* The better of two words read from one plate: 1 for the first, 2 for the second, 0 for none; and the number that goes with it, which is 0
   exactly if it is one of them. Checks: 1 2 3 4 5 6 7 10 8. */
uint64_t plate_better_word(size_t n, uint64_t g, uint64_t rule, const uint8_t *first, size_t first_length, const uint8_t *second, size_t second_length);
uint64_t plate_better_number(size_t n, uint64_t g, uint64_t rule, const uint8_t *first, size_t first_length, const uint8_t *second, size_t second_length);

#ifdef __cplusplus
}
#endif

#endif
