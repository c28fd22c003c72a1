/* `strips` in C with tables made at the start: the same records in, the same lines out, as fast as is reasonable. */
#include <stdint.h>
#include <stdlib.h>
#include <string.h>
#include <unistd.h>

enum {
    FAMILIES = 12,
    RECORD = 16,
    LINE = 48, /* ten digits, seven more characters, nineteen digits, a line feed, and room for a store of eight */
    BLOCK = 4096 * RECORD,
    REMAINDERS = 2048, /* the highest degree in the table is 11 */
    NONE = 255
};

enum job { UNKNOWN, SYSTEMATIC, PRODUCT, REMAINDER, DECODE, QUOTIENT };

static const struct { uint32_t n, g; } table[FAMILIES] = {
    {7, 11}, {7, 13}, {7, 29}, {15, 465}, {15, 1335}, {15, 19},
    {15, 53}, {23, 2787}, {23, 3189}, {31, 37}, {31, 1897}, {63, 67}
};

struct family {
    uint32_t n, r, carried;
    uint32_t product[256];           /* of a byte and g */
    uint16_t remainder[8][256];      /* of a byte at each place of the word */
    uint64_t quotient[8][256];
    uint8_t mended[REMAINDERS];      /* cells in the pattern of this remainder, or NONE */
    uint64_t pattern[REMAINDERS];
};

static struct family families[FAMILIES];
static uint8_t jobs[256];

/* The sums below run over all eight bytes, also of a short word: a loop of fixed length is guessed right each time. */
static uint32_t remainder_of(const struct family *f, uint64_t word)
{
    uint32_t sum = 0;
    for (uint32_t i = 0; i < 8; i++)
        sum ^= f->remainder[i][word >> 8 * i & 255];
    return sum;
}

static uint64_t quotient_of(const struct family *f, uint64_t word)
{
    uint64_t sum = 0;
    for (uint32_t i = 0; i < 8; i++)
        sum ^= f->quotient[i][word >> 8 * i & 255];
    return sum;
}

static uint64_t product_of(const struct family *f, uint64_t message)
{
    uint64_t sum = 0;
    for (uint32_t i = 0; i < 8; i++)
        sum ^= (uint64_t)f->product[message >> 8 * i & 255] << 8 * i;
    return sum;
}

/* Enters a pattern; 0 if its remainder was taken before. */
static int enter(struct family *f, uint64_t pattern, uint8_t mended)
{
    uint32_t at = remainder_of(f, pattern);
    if (f->mended[at] != NONE)
        return 0;
    f->mended[at] = mended;
    f->pattern[at] = pattern;
    return 1;
}

static uint64_t neighbours(uint32_t n, uint32_t i)
{
    return (uint64_t)1 << i | (uint64_t)1 << (i + 1) % n;
}

/* Enters the patterns of all the rules that the code carries. */
static void make_patterns(struct family *f)
{
    memset(f->mended, NONE, sizeof f->mended);
    enter(f, 0, 0);
    for (uint32_t i = 0; i < f->n; i++)
        if (!enter(f, (uint64_t)1 << i, 1))
            abort();
    f->carried = 2;
    for (uint32_t i = 0; i < f->n && f->carried == 2; i++)
        if (!enter(f, neighbours(f->n, i), 2))
            f->carried = 1;
    for (uint32_t at = 0; at < REMAINDERS; at++)
        if (f->mended[at] == 2 && f->carried == 1)
            f->mended[at] = NONE;
}

static void make_family(struct family *f, uint32_t n, uint32_t g)
{
    f->n = n;
    f->r = 31 - __builtin_clz(g);
    uint32_t remainder = 1;
    uint64_t quotient = 0;
    for (uint32_t power = 0; power < 64; power++) {
        uint32_t i = power / 8, bit = 1 << power % 8;
        for (uint32_t byte = 0; byte < bit; byte++) {
            f->remainder[i][byte | bit] = f->remainder[i][byte] ^ remainder;
            f->quotient[i][byte | bit] = f->quotient[i][byte] ^ quotient;
            f->product[byte | bit] = f->product[byte] ^ g << power % 8;
        }
        uint32_t carry = remainder >> (f->r - 1);
        remainder = remainder << 1 ^ (carry ? g : 0);
        quotient = quotient << 1 | carry;
    }
    make_patterns(f);
}

static void make_tables(void)
{
    for (int i = 0; i < FAMILIES; i++)
        make_family(&families[i], table[i].n, table[i].g);
    jobs['E'] = SYSTEMATIC;
    jobs['P'] = PRODUCT;
    jobs['S'] = REMAINDER;
    jobs['D'] = DECODE;
    jobs['Q'] = QUOTIENT;
}

/* The eight digits of a value below 10^8, a byte each, the first one lowest: split into fours, twos and ones. */
static uint64_t eight_digits(uint64_t value)
{
    uint64_t high = value / 10000;
    uint64_t fours = high | (value - 10000 * high) << 32;
    high = fours * 5243 >> 19 & 0x0000007f0000007f;
    uint64_t twos = high | (fours - 100 * high) << 16;
    high = twos * 103 >> 10 & 0x000f000f000f000f;
    return high | (twos - 10 * high) << 8;
}

static char *put_eight(char *out, uint64_t value)
{
    uint64_t text = eight_digits(value) | 0x3030303030303030;
    memcpy(out, &text, 8);
    return out + 8;
}

static char *put_decimal(char *out, uint64_t value)
{
    const uint64_t eight = 100000000;
    if (value >= eight)
        return put_eight(put_decimal(out, value / eight), value % eight);
    uint64_t digits = eight_digits(value);
    uint32_t zeros = __builtin_ctzll(digits | (uint64_t)1 << 56) / 8;
    uint64_t text = (digits | 0x3030303030303030) >> 8 * zeros;
    memcpy(out, &text, 8);
    return out + 8 - zeros;
}

struct result { uint32_t number, mended; uint64_t value; };

static struct result decode(const struct family *f, enum job job, uint32_t rule, uint64_t word)
{
    if (rule > 2)
        return (struct result){4, 0, 0};
    if (rule > f->carried)
        return (struct result){5, 0, 0};
    uint32_t at = remainder_of(f, word);
    uint32_t mended = f->mended[at];
    if (mended > rule)
        return (struct result){8, 0, 0};
    word ^= f->pattern[at];
    return (struct result){0, mended, job == DECODE ? word >> f->r : quotient_of(f, word)};
}

static struct result result_of(enum job job, const uint8_t *record, uint64_t word)
{
    const struct result refused = {9, 0, 0};
    uint32_t at = record[1] - 1u, rule = record[2];
    if (job == UNKNOWN || at >= FAMILIES || record[3])
        return refused;
    const struct family *f = &families[at];
    if (word >> (job <= PRODUCT ? f->n - f->r : f->n) || (job <= REMAINDER && rule))
        return refused;
    switch (job) {
    case SYSTEMATIC:
        word <<= f->r;
        return (struct result){0, 0, word ^ remainder_of(f, word)};
    case PRODUCT:
        return (struct result){0, 0, product_of(f, word)};
    case REMAINDER:
        return (struct result){0, 0, remainder_of(f, word)};
    default:
        return decode(f, job, rule, word);
    }
}

static char *put_line(char *out, const uint8_t *record)
{
    uint32_t station;
    uint64_t word;
    memcpy(&station, record + 4, 4);
    memcpy(&word, record + 8, 8);
    enum job job = jobs[record[0]];
    struct result result = result_of(job, record, __builtin_bswap64(word));
    out = put_decimal(out, __builtin_bswap32(station));
    out[0] = ' ';
    out[1] = job == UNKNOWN ? '?' : record[0];
    out[2] = ' ';
    out[3] = '0' + result.number;
    out[4] = ' ';
    out[5] = '0' + result.mended;
    out[6] = ' ';
    out = put_decimal(out + 7, result.value);
    *out = '\n';
    return out + 1;
}

static void write_all(const char *from, const char *end)
{
    while (from < end) {
        ssize_t written = write(1, from, end - from);
        if (written <= 0)
            exit(1);
        from += written;
    }
}

static size_t read_full(uint8_t *block)
{
    size_t held = 0;
    ssize_t got;
    while (held < BLOCK && (got = read(0, block + held, BLOCK - held)) > 0)
        held += got;
    return held;
}

int main(void)
{
    static uint8_t block[BLOCK];
    static char lines[(BLOCK / RECORD + 1) * LINE];
    size_t held;
    make_tables();
    do {
        held = read_full(block);
        char *out = lines;
        for (size_t at = 0; at + RECORD <= held; at += RECORD)
            out = put_line(out, block + at);
        if (held % RECORD) {
            memcpy(out, "short ", 6);
            out = put_decimal(out + 6, held % RECORD);
            *out++ = '\n';
        }
        write_all(lines, out);
    } while (held == BLOCK);
    return 0;
}
