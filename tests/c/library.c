/*
 * Calls every function of the header: done, with what it writes, and refused with each of its numbers, after which no slice has
 * changed. A function has a test of its name, and a line in `tests` with the refusals that it may give.
 *
 * Prints a line for each failure, and last the number of checks. Exit status 1 if one failed.
 */
#include "lend.h"

enum { ELEMENT = TEALBOBBIN_ELEMENT_WORDS, MAP = TEALBOBBIN_MAP_WORDS };
enum { ROW = TEALBOBBIN_MAIN_WIDTH, MAX_LEN = TEALBOBBIN_MAX_LEN };
enum { CI = TEALBOBBIN_MAIN_CI, NIA = TEALBOBBIN_MAIN_NIA, ST0 = TEALBOBBIN_MAIN_ST0, ST1 = TEALBOBBIN_MAIN_ST1 };
enum { CLK = TEALBOBBIN_MAIN_CLK, MULTIPLICITY = TEALBOBBIN_MAIN_CLOCK_JUMP_DIFFERENCE_LOOKUP_MULTIPLICITY };

static const size_t chunks[] = {1, 2, 3, 4, 1000, SIZE_MAX};

/* Base elements. */

#define HALF UINT64_C(9223372034707292161)

static uint64_t plus(uint64_t a, uint64_t b)
{
    return a >= P - b ? a - (P - b) : a + b;
}

static void of_a_word(uint32_t (*call)(uint64_t, uint64_t *, size_t))
{
    uint64_t *out = lend(2);
    REFUSED(1, call(2, out, 0));
    REFUSED(1, call(2, NULL, 0));
    REFUSED(1, call(P, out, 2));
    REFUSED(2, call(P, out, 1));
    REFUSED(2, call(UINT64_MAX, out, 1));
}

static void of_an_inverse(uint32_t (*call)(uint64_t, uint64_t *, size_t))
{
    uint64_t *out = lend(2);
    of_a_word(call);
    REFUSED(1, call(0, out, 2));
    REFUSED(6, call(0, out, 1));
}

static void of_two_words(uint32_t (*call)(uint64_t, uint64_t, uint64_t *, size_t))
{
    uint64_t *out = lend(2);
    REFUSED(1, call(1, 2, out, 0));
    REFUSED(1, call(1, 2, NULL, 0));
    REFUSED(1, call(P, P, out, 2));
    REFUSED(2, call(P, 2, out, 1));
    REFUSED(2, call(1, P, out, 1));
    REFUSED(2, call(UINT64_MAX, UINT64_MAX, out, 1));
}

static void base_add(void)
{
    uint64_t *out = lend(2);
    DONE(tealbobbin_base_add(P - 1, P - 1, out, 1));
    HOLDS(out, P - 2);
    DONE(tealbobbin_base_add(3, 4, out, 1));
    HOLDS(out, 7);
    of_two_words(tealbobbin_base_add);
}

static void base_sub(void)
{
    uint64_t *out = lend(2);
    DONE(tealbobbin_base_sub(3, 4, out, 1));
    HOLDS(out, P - 1);
    DONE(tealbobbin_base_sub(P - 1, 4, out, 1));
    HOLDS(out, P - 5);
    of_two_words(tealbobbin_base_sub);
}

static void base_mul(void)
{
    uint64_t *out = lend(2);
    DONE(tealbobbin_base_mul(UINT64_C(1) << 32, UINT64_C(1) << 32, out, 1));
    HOLDS(out, (UINT64_C(1) << 32) - 1);
    DONE(tealbobbin_base_mul(P - 1, P - 3, out, 1));
    HOLDS(out, 3);
    of_two_words(tealbobbin_base_mul);
}

static void base_inverse(void)
{
    uint64_t *out = lend(2);
    DONE(tealbobbin_base_inverse(2, out, 1));
    HOLDS(out, HALF);
    DONE(tealbobbin_base_inverse(P - 1, out, 1));
    HOLDS(out, P - 1);
    of_an_inverse(tealbobbin_base_inverse);
}

/* Montgomery form. */

#define ONE TEALBOBBIN_MONTGOMERY_ONE

/* v * 2^64 modulo p, by doubling. */
static uint64_t in_form(uint64_t v)
{
    for (int i = 0; i < 64; i++)
        v = plus(v, v);
    return v;
}

static const uint64_t plain_words[] = {0, 1, 2, 88, ONE - 1, ONE, ONE + 1, HALF - 1, HALF, P - ONE, P - 2, P - 1};

static void to_montgomery(void)
{
    uint64_t *out = lend(2);
    DONE(tealbobbin_to_montgomery(1, out, 1));
    HOLDS(out, ONE);
    for (size_t i = 0; i < COUNT(plain_words); i++) {
        DONE(tealbobbin_to_montgomery(plain_words[i], out, 1));
        HOLDS(out, in_form(plain_words[i]));
    }
    of_a_word(tealbobbin_to_montgomery);
}

static void from_montgomery(void)
{
    uint64_t *out = lend(2);
    DONE(tealbobbin_from_montgomery(ONE, out, 1));
    HOLDS(out, 1);
    for (size_t i = 0; i < COUNT(plain_words); i++) {
        DONE(tealbobbin_from_montgomery(in_form(plain_words[i]), out, 1));
        HOLDS(out, plain_words[i]);
    }
    of_a_word(tealbobbin_from_montgomery);
}

static void montgomery_add(void)
{
    uint64_t *out = lend(2);
    DONE(tealbobbin_montgomery_add(in_form(3), in_form(4), out, 1));
    HOLDS(out, in_form(7));
    DONE(tealbobbin_montgomery_add(P - 1, P - 1, out, 1));
    HOLDS(out, P - 2);
    of_two_words(tealbobbin_montgomery_add);
}

/* 2^96 is -1 modulo p, so that 1 / 2^64 is 2^128, which is p - 2^32. */
static void montgomery_mul(void)
{
    uint64_t *out = lend(2);
    DONE(tealbobbin_montgomery_mul(in_form(3), in_form(4), out, 1));
    HOLDS(out, in_form(12));
    DONE(tealbobbin_montgomery_mul(in_form(P - 1), in_form(P - 3), out, 1));
    HOLDS(out, in_form(3));
    DONE(tealbobbin_montgomery_mul(P - 1, P - 1, out, 1));
    HOLDS(out, P - (UINT64_C(1) << 32));
    for (size_t i = 0; i < COUNT(plain_words); i++) {
        DONE(tealbobbin_montgomery_mul(ONE, plain_words[i], out, 1));
        HOLDS(out, plain_words[i]);
        DONE(tealbobbin_montgomery_mul(in_form(plain_words[i]), 1, out, 1));
        HOLDS(out, plain_words[i]);
    }
    of_two_words(tealbobbin_montgomery_mul);
}

static void montgomery_inverse(void)
{
    uint64_t *out = lend(2);
    DONE(tealbobbin_montgomery_inverse(in_form(2), out, 1));
    HOLDS(out, in_form(HALF));
    DONE(tealbobbin_montgomery_inverse(ONE, out, 1));
    HOLDS(out, ONE);
    DONE(tealbobbin_montgomery_inverse(P - 1, out, 1));
    HOLDS(out, UINT64_C(1) << 32);
    of_an_inverse(tealbobbin_montgomery_inverse);
}

/* Elements. X * X^2 is X - 1. */

static const uint64_t zero[ELEMENT] = {0, 0, 0}, x[ELEMENT] = {0, 1, 0}, x_squared[ELEMENT] = {0, 0, 1};
static const uint64_t a_word[ELEMENT] = {5, P - 1, 7};

static void of_two_elements(uint32_t (*call)(const uint64_t *, size_t, const uint64_t *, size_t, uint64_t *, size_t))
{
    uint64_t *a = lend(ELEMENT + 1), *b = lend(ELEMENT + 1), *out = lend(ELEMENT + 1);
    for (size_t wrong = 0; wrong <= ELEMENT + 1; wrong += wrong == ELEMENT - 1 ? 2 : 1) {
        REFUSED(1, call(a, wrong, b, ELEMENT, out, ELEMENT));
        REFUSED(1, call(a, ELEMENT, b, wrong, out, ELEMENT));
        REFUSED(1, call(a, ELEMENT, b, ELEMENT, out, wrong));
    }
    for (size_t i = 0; i < ELEMENT; i++)
        a[i] = b[i] = i;
    for (size_t i = 0; i < ELEMENT; i++) {
        a[i] = P;
        REFUSED(2, call(a, ELEMENT, b, ELEMENT, out, ELEMENT));
        REFUSED(2, call(b, ELEMENT, a, ELEMENT, out, ELEMENT));
        a[i] = i;
    }
}

static void element_add(void)
{
    uint64_t *out = lend(ELEMENT + 1);
    DONE(tealbobbin_element_add(a_word, ELEMENT, a_word, ELEMENT, out, ELEMENT));
    HOLDS(out, 10, P - 2, 14);
    DONE(tealbobbin_element_add(a_word, ELEMENT, x, ELEMENT, out, ELEMENT));
    HOLDS(out, 5, 0, 7);
    of_two_elements(tealbobbin_element_add);
}

static void element_sub(void)
{
    uint64_t *out = lend(ELEMENT + 1);
    DONE(tealbobbin_element_sub(x, ELEMENT, a_word, ELEMENT, out, ELEMENT));
    HOLDS(out, P - 5, 2, P - 7);
    of_two_elements(tealbobbin_element_sub);
}

static void element_mul(void)
{
    uint64_t *out = lend(ELEMENT + 1);
    DONE(tealbobbin_element_mul(x, ELEMENT, x_squared, ELEMENT, out, ELEMENT));
    HOLDS(out, P - 1, 1, 0);
    DONE(tealbobbin_element_mul(x_squared, ELEMENT, x_squared, ELEMENT, out, ELEMENT));
    HOLDS(out, 0, P - 1, 1);
    of_two_elements(tealbobbin_element_mul);
}

static void element_scale(void)
{
    uint64_t *out = lend(ELEMENT + 1), *a = lend(ELEMENT + 1);
    DONE(tealbobbin_element_scale(3, a_word, ELEMENT, out, ELEMENT));
    HOLDS(out, 15, P - 3, 21);
    REFUSED(1, tealbobbin_element_scale(P, a, ELEMENT - 1, out, ELEMENT));
    REFUSED(1, tealbobbin_element_scale(P, a, ELEMENT + 1, out, ELEMENT));
    REFUSED(1, tealbobbin_element_scale(P, a, ELEMENT, out, ELEMENT - 1));
    REFUSED(1, tealbobbin_element_scale(P, a, ELEMENT, out, ELEMENT + 1));
    REFUSED(2, tealbobbin_element_scale(P, x, ELEMENT, out, ELEMENT));
    REFUSED(2, tealbobbin_element_scale(0, a, ELEMENT, out, ELEMENT));
}

static void element_inverse(void)
{
    uint64_t *out = lend(ELEMENT + 1), *a = lend(ELEMENT + 1);
    DONE(tealbobbin_element_inverse(x, ELEMENT, out, ELEMENT));
    HOLDS(out, 1, 0, P - 1);
    REFUSED(1, tealbobbin_element_inverse(a, ELEMENT - 1, out, ELEMENT));
    REFUSED(1, tealbobbin_element_inverse(a, ELEMENT + 1, out, ELEMENT));
    REFUSED(1, tealbobbin_element_inverse(zero, ELEMENT, out, ELEMENT - 1));
    REFUSED(1, tealbobbin_element_inverse(zero, ELEMENT, out, ELEMENT + 1));
    for (size_t i = 0; i < ELEMENT; i++) {
        a[0] = a[1] = a[2] = 0;
        a[i] = P;
        REFUSED(2, tealbobbin_element_inverse(a, ELEMENT, out, ELEMENT));
    }
    REFUSED(6, tealbobbin_element_inverse(zero, ELEMENT, out, ELEMENT));
}

/* Halt, 0, takes no argument; push, 1, any word; dup, 33, takes 0 to 15; read_io, 73, 1 to 5. What does not decode comes last. */
static const struct {
    uint64_t ci, nia, decoded, opcode;
} decodings[] = {
    {0, P - 1, TEALBOBBIN_DECODED_READ, 0},
    {1, P - 1, TEALBOBBIN_DECODED_READ, 1},
    {33, 0, TEALBOBBIN_DECODED_READ, 33},
    {33, 15, TEALBOBBIN_DECODED_READ, 33},
    {73, 1, TEALBOBBIN_DECODED_READ, 73},
    {73, 5, TEALBOBBIN_DECODED_READ, 73},
    {33, 16, TEALBOBBIN_DECODED_OUTSIDE_0_TO_15, 33},
    {33, UINT64_C(1) << 32, TEALBOBBIN_DECODED_OUTSIDE_0_TO_15, 33},
    {73, 0, TEALBOBBIN_DECODED_OUTSIDE_1_TO_5, 73},
    {73, 6, TEALBOBBIN_DECODED_OUTSIDE_1_TO_5, 73},
    {73, (UINT64_C(1) << 32) + 1, TEALBOBBIN_DECODED_OUTSIDE_1_TO_5, 73},
    {7, 0, TEALBOBBIN_DECODED_UNKNOWN, 0},
    {256 + 73, 5, TEALBOBBIN_DECODED_UNKNOWN, 0},
    {(UINT64_C(1) << 32) + 33, 16, TEALBOBBIN_DECODED_UNKNOWN, 0},
    {P - 1, 16, TEALBOBBIN_DECODED_UNKNOWN, 0},
};
enum { DECODABLE = 6 };

static void decode(void)
{
    uint64_t *row = lend_zeros(ROW + 1), *out = lend(3);
    for (size_t r = 0; r < COUNT(decodings); r++) {
        row[CI] = decodings[r].ci;
        row[NIA] = decodings[r].nia;
        DONE(tealbobbin_decode(row, ROW, out, 2));
        HOLDS(out, decodings[r].decoded, decodings[r].opcode);
        KEPT(row);
        TRUE((decodings[r].decoded == 1) == (r < DECODABLE));
    }
    for (size_t i = 0; i < ROW; i++) {
        uint64_t word = row[i];
        row[i] = P;
        REFUSED(1, tealbobbin_decode(row, ROW - 1, out, 2));
        REFUSED(1, tealbobbin_decode(row, ROW + 1, out, 2));
        REFUSED(1, tealbobbin_decode(row, ROW, out, 1));
        REFUSED(1, tealbobbin_decode(row, ROW, out, 3));
        REFUSED(2, tealbobbin_decode(row, ROW, out, 2));
        row[i] = word;
    }
}

/* Challenges: number k is k + 2, so that 0, 1, 2 and 54, of digest, input, output and byte table, are 2, 3, 4 and 56. */

/* factor * value + symbol modulo p. */
static uint64_t absorbed(unsigned factor, uint64_t value, uint64_t symbol)
{
    for (unsigned i = 0; i < factor; i++)
        symbol = plus(symbol, value);
    return symbol;
}

static void challenges(void)
{
    enum { SAMPLED = TEALBOBBIN_SAMPLED_WORDS, DIGEST = TEALBOBBIN_DIGEST_WORDS, RECORD = TEALBOBBIN_RECORD_WORDS };
    uint64_t *sampled = lend_zeros(SAMPLED + 1), *digest = lend_zeros(DIGEST + 1);
    uint64_t *input = lend_zeros(2), *output = lend_zeros(1), *many = lend_many(MAX_LEN + 1);
    uint64_t *record = lend(RECORD + 1);
    for (size_t k = 0; k < TEALBOBBIN_SAMPLE_COUNT; k++)
        sampled[k * ELEMENT] = k + 2;
    for (size_t i = 0; i < DIGEST; i++)
        digest[i] = i + 1;
    input[0] = 5;
    input[1] = 7;
    output[0] = 11;

    uint64_t due[RECORD];
    uint64_t *derived = due + SAMPLED;
    for (size_t i = 0; i < RECORD; i++)
        due[i] = i < SAMPLED ? sampled[i] : 0;
    derived[0] = (3 + 5) * 3 + 7;
    derived[3] = 4 + 11;
    derived[6] = 1;
    for (uint64_t i = 0; i < 256; i++)
        derived[6] = absorbed(56, derived[6], ((i + 1) * (i + 1) * (i + 1) - 1) % 257);
    derived[9] = ((((2 + 1) * 2 + 2) * 2 + 3) * 2 + 4) * 2 + 5;
    DONE(tealbobbin_challenges(sampled, SAMPLED, digest, DIGEST, input, 2, output, 1, record, RECORD));
    HOLDS_WORDS(record, due, RECORD);
    KEPT(sampled);
    KEPT(digest);
    KEPT(input);
    KEPT(output);

    derived[0] = derived[3] = 1;
    DONE(tealbobbin_challenges(sampled, SAMPLED, digest, DIGEST, NULL, 0, NULL, 0, record, RECORD));
    HOLDS_WORDS(record, due, RECORD);

    derived[0] = 1;
    for (size_t i = 0; i < MAX_LEN; i++)
        derived[0] = absorbed(3, derived[0], 0);
    DONE(tealbobbin_challenges(sampled, SAMPLED, digest, DIGEST, many, MAX_LEN, NULL, 0, record, RECORD));
    HOLDS_WORDS(record, due, RECORD);

    sampled[0] = P;
    REFUSED(1, tealbobbin_challenges(sampled, SAMPLED - 1, digest, DIGEST, input, 2, output, 1, record, RECORD));
    REFUSED(1, tealbobbin_challenges(sampled, SAMPLED + 1, digest, DIGEST, input, 2, output, 1, record, RECORD));
    REFUSED(1, tealbobbin_challenges(sampled, SAMPLED, digest, DIGEST - 1, input, 2, output, 1, record, RECORD));
    REFUSED(1, tealbobbin_challenges(sampled, SAMPLED, digest, DIGEST + 1, input, 2, output, 1, record, RECORD));
    REFUSED(1, tealbobbin_challenges(sampled, SAMPLED, digest, DIGEST, many, MAX_LEN + 1, output, 1, record, RECORD));
    REFUSED(1, tealbobbin_challenges(sampled, SAMPLED, digest, DIGEST, input, 2, many, MAX_LEN + 1, record, RECORD));
    REFUSED(1, tealbobbin_challenges(sampled, SAMPLED, digest, DIGEST, input, 2, output, 1, record, RECORD - 1));
    REFUSED(1, tealbobbin_challenges(sampled, SAMPLED, digest, DIGEST, input, 2, output, 1, record, RECORD + 1));
    sampled[0] = 0;

    uint64_t *checked[] = {sampled, sampled + SAMPLED - 1, digest, digest + DIGEST - 1, input, input + 1, output};
    for (size_t i = 0; i < COUNT(checked); i++) {
        *checked[i] = P;
        REFUSED(2, tealbobbin_challenges(sampled, SAMPLED, digest, DIGEST, input, 2, output, 1, record, RECORD));
        *checked[i] = 0;
    }
}

/* Scans. */

static void of_items(uint32_t (*call)(uint64_t *, size_t, size_t), size_t words)
{
    uint64_t *items = lend(3 * words);
    DONE(call(NULL, 0, 1));
    for (size_t part = 1; part < words; part++)
        REFUSED(1, call(items, words + part, 0));
    REFUSED(1, call(lend_many((MAX_LEN + 1) * words), (MAX_LEN + 1) * words, 0));
    REFUSED(5, call(items, 3 * words, 0));
    REFUSED(5, call(NULL, 0, 0));
    for (size_t i = 0; i < 3 * words; i++)
        items[i] = 1;
    for (size_t i = 0; i < 3 * words; i++) {
        items[i] = P;
        REFUSED(2, call(items, 3 * words, 2));
        items[i] = 1;
    }
}

static void copy(uint64_t *to, const uint64_t *from, size_t count)
{
    for (size_t i = 0; i < count; i++)
        to[i] = from[i];
}

static void scan_maps(void)
{
    static const uint64_t maps[3 * MAP] = {2, 0, 0, 3, 0, 0, 5, 0, 0, 7, 0, 0, 11, 0, 0, 13, 0, 0};
    uint64_t *items = lend(COUNT(maps) + 1);
    for (size_t c = 0; c < COUNT(chunks); c++) {
        copy(items, maps, COUNT(maps));
        DONE(tealbobbin_scan_maps(items, COUNT(maps), chunks[c]));
        HOLDS(items, 2, 0, 0, 3, 0, 0, 10, 0, 0, 22, 0, 0, 110, 0, 0, 255, 0, 0);
    }
    of_items(tealbobbin_scan_maps, MAP);
}

static void scan_products(void)
{
    static const uint64_t factors[3 * ELEMENT] = {0, 1, 0, 0, 0, 1, 0, 0, 1};
    uint64_t *items = lend(COUNT(factors) + 1);
    for (size_t c = 0; c < COUNT(chunks); c++) {
        copy(items, factors, COUNT(factors));
        DONE(tealbobbin_scan_products(items, COUNT(factors), chunks[c]));
        HOLDS(items, 0, 1, 0, P - 1, 1, 0, P - 1, 1, P - 1);
    }
    of_items(tealbobbin_scan_products, ELEMENT);
}

static void scan_sums(void)
{
    static const uint64_t summands[3 * ELEMENT] = {1, 2, 3, 4, 5, P - 1, P - 1, 0, 8};
    uint64_t *items = lend(COUNT(summands) + 1);
    for (size_t c = 0; c < COUNT(chunks); c++) {
        copy(items, summands, COUNT(summands));
        DONE(tealbobbin_scan_sums(items, COUNT(summands), chunks[c]));
        HOLDS(items, 1, 2, 3, 5, 7, 2, 4, 7, 10);
    }
    of_items(tealbobbin_scan_sums, ELEMENT);
}

/* The main table. */

static void fill(void)
{
    enum { ROWS = 3 };
    uint64_t *trace = lend(ROWS * ROW), *table = lend((ROWS + 1) * ROW), *list = lend(3);
    uint64_t *many = lend_many((MAX_LEN + 1) * ROW);
    for (size_t i = 0; i < ROWS * ROW; i++)
        trace[i] = i + 100;
    copy(list, (const uint64_t[]){2, 2, 0}, 3);

    uint64_t due[ROWS * ROW];
    copy(due, trace, COUNT(due));
    due[MULTIPLICITY] = 1;
    due[ROW + MULTIPLICITY] = 0;
    due[2 * ROW + MULTIPLICITY] = 4;
    DONE(tealbobbin_fill(trace, ROWS * ROW, list, 3, list, 1, list + 1, 1, table, (ROWS + 1) * ROW));
    HOLDS_WORDS(table, due, COUNT(due));
    KEPT(trace);
    KEPT(list);
    due[MULTIPLICITY] = due[2 * ROW + MULTIPLICITY] = 0;
    DONE(tealbobbin_fill(trace, ROWS * ROW, NULL, 0, NULL, 0, NULL, 0, table, ROWS * ROW));
    HOLDS_WORDS(table, due, COUNT(due));
    DONE(tealbobbin_fill(NULL, 0, NULL, 0, NULL, 0, NULL, 0, NULL, 0));
    DONE(tealbobbin_fill(NULL, 0, NULL, 0, NULL, 0, NULL, 0, many, MAX_LEN * ROW));
    KEPT(table);

    copy(list, (const uint64_t[]){P, 3, 2}, 3);
    REFUSED(1, tealbobbin_fill(trace, ROWS * ROW - 1, list, 3, NULL, 0, NULL, 0, table, ROW));
    REFUSED(1, tealbobbin_fill(trace, ROWS * ROW, list, 3, NULL, 0, NULL, 0, table, ROW + 1));
    REFUSED(1, tealbobbin_fill(trace, ROWS * ROW, many, MAX_LEN + 1, list, 3, list, 3, table, ROW));
    REFUSED(1, tealbobbin_fill(trace, ROWS * ROW, list, 3, many, MAX_LEN + 1, list, 3, table, ROW));
    REFUSED(1, tealbobbin_fill(trace, ROWS * ROW, list, 3, list, 3, many, MAX_LEN + 1, table, ROW));
    REFUSED(3, tealbobbin_fill(trace, ROWS * ROW, list, 3, NULL, 0, NULL, 0, table, (ROWS - 1) * ROW));
    REFUSED(3, tealbobbin_fill(trace, ROWS * ROW, list, 3, NULL, 0, NULL, 0, many, (MAX_LEN + 1) * ROW));
    REFUSED(2, tealbobbin_fill(trace, ROWS * ROW, list, 2, NULL, 0, NULL, 0, table, ROWS * ROW));
    REFUSED(2, tealbobbin_fill(trace, ROWS * ROW, NULL, 0, list, 2, NULL, 0, table, ROWS * ROW));
    REFUSED(2, tealbobbin_fill(trace, ROWS * ROW, NULL, 0, NULL, 0, list, 2, table, ROWS * ROW));
    REFUSED(2, tealbobbin_fill(NULL, 0, list, 1, NULL, 0, NULL, 0, table, ROW));
    for (size_t i = 0; i < ROWS * ROW; i++) {
        trace[i] = P;
        REFUSED(2, tealbobbin_fill(trace, ROWS * ROW, NULL, 0, list + 1, 1, NULL, 0, table, ROWS * ROW));
        trace[i] = i + 100;
    }
    REFUSED(4, tealbobbin_fill(trace, ROWS * ROW, list + 1, 2, NULL, 0, NULL, 0, table, (ROWS + 1) * ROW));
    REFUSED(4, tealbobbin_fill(trace, ROWS * ROW, NULL, 0, list + 1, 2, NULL, 0, table, (ROWS + 1) * ROW));
    REFUSED(4, tealbobbin_fill(trace, ROWS * ROW, NULL, 0, NULL, 0, list + 1, 2, table, (ROWS + 1) * ROW));
    REFUSED(4, tealbobbin_fill(NULL, 0, list + 1, 1, NULL, 0, NULL, 0, table, ROW));

    uint64_t *rows = lend_zeros(32 * ROW), *filled = lend_zeros(32 * ROW), *difference = lend_zeros(1);
    *difference = 31;
    rows[31 * ROW + MULTIPLICITY] = 1;
    DONE(tealbobbin_fill(rows, 32 * ROW, difference, 1, NULL, 0, NULL, 0, filled, 32 * ROW));
    HOLDS_WORDS(filled, rows, 32 * ROW);
    *difference = 32;
    REFUSED(4, tealbobbin_fill(rows, 32 * ROW, difference, 1, NULL, 0, NULL, 0, filled, 32 * ROW));
}

/* Padding that copies row `from` of `due`, with row 1 raised by its number of rows. */
static void pad_due(uint64_t *due, size_t rows, size_t from)
{
    for (size_t r = from + 1; r < rows; r++) {
        copy(due + r * ROW, due + from * ROW, ROW);
        due[r * ROW + CLK] = r;
        due[r * ROW + TEALBOBBIN_MAIN_IS_PADDING] = 1;
        due[r * ROW + MULTIPLICITY] = 0;
    }
    due[ROW + MULTIPLICITY] = plus(due[ROW + MULTIPLICITY], rows - from - 1);
}

static void pad(void)
{
    enum { ROWS = 4 };
    uint64_t due[ROWS * ROW];
    for (size_t table_len = 1; table_len <= ROWS; table_len++) {
        uint64_t *table = lend(ROWS * ROW + 1);
        for (size_t i = 0; i < table_len * ROW; i++)
            table[i] = i + 100;
        if (table_len > 1)
            table[ROW + MULTIPLICITY] = P - 1;
        copy(due, table, COUNT(due));
        pad_due(due, ROWS, table_len - 1);
        DONE(tealbobbin_pad(table, ROWS * ROW, table_len));
        HOLDS_WORDS(table, due, COUNT(due));
    }

    uint64_t *table = lend(ROWS * ROW), *many = lend_many((MAX_LEN + 1) * ROW);
    REFUSED(1, tealbobbin_pad(table, ROWS * ROW - 1, 0));
    REFUSED(1, tealbobbin_pad(table, ROW + 1, 0));
    REFUSED(3, tealbobbin_pad(NULL, 0, 1));
    REFUSED(3, tealbobbin_pad(table, ROW, 1));
    REFUSED(3, tealbobbin_pad(table, ROWS * ROW, 0));
    REFUSED(3, tealbobbin_pad(table, ROWS * ROW, ROWS + 1));
    REFUSED(3, tealbobbin_pad(table, ROWS * ROW, SIZE_MAX));
    REFUSED(3, tealbobbin_pad(many, (MAX_LEN + 1) * ROW, 1));
    for (size_t i = 0; i < 2 * ROW; i++)
        table[i] = 0;
    for (size_t i = 0; i < 2 * ROW; i++) {
        table[i] = P;
        REFUSED(2, tealbobbin_pad(table, ROWS * ROW, 2));
        table[i] = 0;
    }
}

/* Extension of a table of two rows, under challenges that are all one word, with work for one chunk or for two. */

enum { RECORD = TEALBOBBIN_RECORD_WORDS, MAIN = 2 * ROW, AUX = 2 * TEALBOBBIN_AUX_WORDS, WORK = TEALBOBBIN_WORK_WORDS };

static uint64_t *lend_record(uint64_t word)
{
    uint64_t *record = lend_zeros(RECORD + 1);
    for (size_t i = 0; i < RECORD; i += ELEMENT)
        record[i] = word;
    return record;
}

/* A row of zeros, and the padding row that follows it. */
static uint64_t *lend_zeros_padded(void)
{
    uint64_t *table = lend_zeros(MAIN + 1);
    table[ROW + CLK] = table[ROW + TEALBOBBIN_MAIN_IS_PADDING] = table[ROW + MULTIPLICITY] = 1;
    return table;
}

/* Their columns under challenges 2. */
static void put_columns(uint64_t *aux)
{
    static const uint64_t cells[] = {1, 1, HALF, 1, 1, 2, 1, 1, 1, 0, 0, 1, 1, HALF, 1, 1, 0, 1, 1, 1, 0, 1};
    for (size_t i = 0; i < AUX; i++)
        aux[i] = i % ELEMENT ? 0 : cells[i / ELEMENT];
}

typedef uint32_t extension(const uint64_t *, size_t, const uint64_t *, size_t, size_t, uint64_t *, size_t, uint64_t *, size_t);

/* Of tables whose rows decode. */
static void of_a_table(extension *call)
{
    uint64_t *table = lend_zeros_padded(), *record = lend_record(2), *aux = lend(AUX + 1), *work = lend(2 * WORK + 1);
    static const uint64_t zeros[2 * WORK];
    uint64_t due[AUX];
    put_columns(due);
    for (size_t c = 0; c < COUNT(chunks); c++) {
        size_t work_count = chunks[c] == 1 ? 2 * WORK : WORK;
        make_stale(aux, AUX);
        make_stale(work, 2 * WORK);
        DONE(call(table, MAIN, record, RECORD, chunks[c], aux, AUX, work, work_count));
        HOLDS_WORDS(aux, due, AUX);
        HOLDS_WORDS(work, zeros, work_count);
        KEPT(table);
        KEPT(record);
    }

    /* read_io 2, then write_io 2, with the words 5 and 7 */
    uint64_t *ten = lend_record(10), *io = lend_zeros(MAIN);
    const uint64_t *last = aux + AUX / 2;
    io[CI] = 73;
    io[NIA] = 2;
    io[ROW + ST0] = 5;
    io[ROW + ST1] = 7;
    DONE(call(io, MAIN, ten, RECORD, 4, aux, AUX, work, WORK));
    TRUE(last[ELEMENT * TEALBOBBIN_AUX_INPUT_TABLE_EVAL_ARG] == 175);
    TRUE(last[ELEMENT * TEALBOBBIN_AUX_OUTPUT_TABLE_EVAL_ARG] == 1);
    io[CI] = 19;
    io[ST0] = 5;
    io[ST1] = 7;
    DONE(call(io, MAIN, ten, RECORD, 4, aux, AUX, work, WORK));
    TRUE(last[ELEMENT * TEALBOBBIN_AUX_INPUT_TABLE_EVAL_ARG] == 1);
    TRUE(last[ELEMENT * TEALBOBBIN_AUX_OUTPUT_TABLE_EVAL_ARG] == 157);

    make_stale(aux, AUX);
    make_stale(work, WORK);
    uint64_t *stale = lend(MAIN + 1);
    REFUSED(1, call(stale, MAIN - 1, record, RECORD, 0, aux, AUX, work, WORK));
    REFUSED(1, call(stale, MAIN + 1, record, RECORD, 0, aux, AUX, work, WORK));
    REFUSED(1, call(stale, ROW, record, RECORD, 0, aux, AUX, work, WORK));
    REFUSED(1, call(stale, MAIN, record, RECORD - 1, 0, aux, AUX, work, WORK));
    REFUSED(1, call(stale, MAIN, record, RECORD + 1, 0, aux, AUX, work, WORK));
    REFUSED(1, call(stale, MAIN, record, RECORD, 0, aux, AUX - 1, work, WORK));
    REFUSED(1, call(stale, MAIN, record, RECORD, 0, aux, AUX + 1, work, WORK));
    REFUSED(1, call(NULL, 0, record, RECORD - 1, 0, NULL, 0, NULL, 0));

    const size_t rows = MAX_LEN + 1;
    uint64_t *long_main = lend_many(rows * ROW), *long_aux = lend_many(rows * AUX / 2);
    for (size_t wrong = 0; wrong <= 2 * WORK + 1; wrong++) {
        REFUSED(3, call(NULL, 0, record, RECORD, 0, NULL, 0, work, wrong));
        REFUSED(3, call(NULL, 0, record, RECORD, 4, NULL, 0, work, wrong));
        REFUSED(3, call(long_main, rows * ROW, record, RECORD, 0, long_aux, rows * AUX / 2, work, wrong));
        REFUSED(3, call(long_main, rows * ROW, record, RECORD, 4, long_aux, rows * AUX / 2, work, wrong));
        REFUSED(5, call(stale, MAIN, record, RECORD, 0, aux, AUX, work, wrong));
    }

    /* a denominator is zero where CI is 1, and where CLK is 2 with a multiplicity; split enters its words and 4 */
    table[CI] = 1;
    for (size_t i = 0; i < MAIN + RECORD; i++) {
        uint64_t *word = i < MAIN ? table + i : record + i - MAIN;
        uint64_t kept = *word;
        *word = P;
        REFUSED(2, call(table, MAIN, record, RECORD, 4, aux, AUX, work, WORK));
        *word = kept;
    }
    REFUSED(6, call(table, MAIN, record, RECORD, 4, aux, AUX, work, WORK));
    table[CI] = 0;
    table[ROW + CLK] = 2;
    REFUSED(6, call(table, MAIN, record, RECORD, 4, aux, AUX, work, WORK));
    table[ROW + MULTIPLICITY] = 0;
    DONE(call(table, MAIN, record, RECORD, 4, aux, AUX, work, WORK));
    table[CI] = 4;
    table[ROW + ST0] = P - 3;
    REFUSED(6, call(table, MAIN, record, RECORD, 4, aux, AUX, work, WORK));
    REFUSED(1, call(table, MAIN, record, RECORD, 4, aux, AUX, work, WORK - 1));
    REFUSED(1, call(table, MAIN, record, RECORD, 4, aux, AUX, work, 2 * WORK));
}

/* Words below p that differ, far from each other and from small ones. */
static void scatter(uint64_t *words, size_t count)
{
    for (size_t i = 0; i < count; i++)
        words[i] = (i + 1) * UINT64_C(0x9e3779b97f4a7c15) % P;
}

/* Nine rows, and challenges, that bring entries to most columns. */
enum { TALL = 9, TALL_MAIN = TALL * ROW, TALL_AUX = TALL * TEALBOBBIN_AUX_WORDS };

static uint64_t *lend_tall(void)
{
    static const uint64_t opcodes[TALL] = {73, 33, 19, 4, 20, 57, 18, 1, 0};
    uint64_t *table = lend(TALL_MAIN);
    scatter(table, TALL_MAIN);
    for (size_t r = 0; r < TALL; r++) {
        table[r * ROW + CI] = opcodes[r];
        table[r * ROW + NIA] = 1 + r % 5;
        table[r * ROW + TEALBOBBIN_MAIN_IS_PADDING] = r == TALL - 1;
    }
    return table;
}

static uint64_t *lend_scattered_record(void)
{
    uint64_t *record = lend(RECORD);
    scatter(record, RECORD);
    return record;
}

/* Nine rows by chunks of each length, with the chunks that are started: work is six words for each, and no other length will do. */
static void of_work(extension *call)
{
    enum { MOST = TALL * TEALBOBBIN_WORK_WORDS };
    static const struct {
        size_t chunk, started;
    } divisions[] = {{1, 9}, {2, 5}, {3, 3}, {4, 3}, {5, 2}, {7, 2}, {8, 2}, {9, 1}, {10, 1}, {1000, 1}, {SIZE_MAX, 1}};
    static const uint64_t zeros[MOST];
    uint64_t *table = lend_tall(), *record = lend_scattered_record(), *aux = lend(TALL_AUX + 1), *work = lend(MOST + 13);
    uint64_t cells[TALL_AUX];
    for (size_t d = 0; d < COUNT(divisions); d++) {
        const size_t chunk = divisions[d].chunk, right = 6 * divisions[d].started;
        TRUE(TEALBOBBIN_WORK_COUNT(TALL, chunk) == right);
        make_stale(aux, TALL_AUX);
        make_stale(work, MOST);
        /* before 2, and behind 5 and the other lengths */
        for (size_t bad = 0; bad < 2; bad++) {
            uint64_t word = table[d];
            if (bad)
                table[d] = P;
            for (size_t wrong = 0; wrong <= MOST + 13; wrong++)
                if (wrong != right)
                    REFUSED(1, call(table, TALL_MAIN, record, RECORD, chunk, aux, TALL_AUX, work, wrong));
            REFUSED(5, call(table, TALL_MAIN, record, RECORD, 0, aux, TALL_AUX, work, right));
            REFUSED(5, call(table, TALL_MAIN, record, RECORD, 0, aux, TALL_AUX, work, right + 1));
            REFUSED(1, call(table, TALL_MAIN, record, RECORD, 0, aux, TALL_AUX + 1, work, right));
            REFUSED(1, call(table, TALL_MAIN, record, RECORD, chunk, aux, TALL_AUX - 1, work, right));
            if (bad)
                REFUSED(2, call(table, TALL_MAIN, record, RECORD, chunk, aux, TALL_AUX, work, right));
            table[d] = word;
        }
        DONE(call(table, TALL_MAIN, record, RECORD, chunk, aux, TALL_AUX, work, right));
        if (d == 0)
            copy(cells, aux, TALL_AUX);
        HOLDS_WORDS(aux, cells, TALL_AUX);
        HOLDS_WORDS(work, zeros, right);
        KEPT(table);
        KEPT(record);
    }

    /* the longest table, of which nothing is read */
    uint64_t *long_main = lend_many((size_t)MAX_LEN * ROW), *long_aux = lend_many((size_t)MAX_LEN * TEALBOBBIN_AUX_WORDS);
    uint64_t *long_work = lend_many((size_t)MAX_LEN * 6 + 1);
    static const struct {
        size_t chunk, words;
    } longest[] = {{1, 25165824},     {2, 12582912}, {3, 8388612},     {4096, 6144},
                   {MAX_LEN - 1, 12}, {MAX_LEN, 6},  {MAX_LEN + 1, 6}, {SIZE_MAX, 6}};
    for (size_t d = 0; d < COUNT(longest); d++) {
        const size_t chunk = longest[d].chunk, words = longest[d].words;
        const size_t wrong[] = {0, words - 6, words - 1, words + 1, longest[(d + 4) % COUNT(longest)].words};
        TRUE(TEALBOBBIN_WORK_COUNT(MAX_LEN, chunk) == words);
        for (size_t w = 0; w < COUNT(wrong); w++)
            REFUSED(1, call(long_main, (size_t)MAX_LEN * ROW, record, RECORD, chunk, long_aux, (size_t)MAX_LEN * TEALBOBBIN_AUX_WORDS,
                            long_work, wrong[w]));
    }
}

/* Each row that does not decode, as the first of two and as the last, which may be padding. The other one halts. */
enum { PLACES = 4 * (COUNT(decodings) - DECODABLE) };

static void put_undecodable(uint64_t *table, size_t place)
{
    uint64_t *row = table + place % 2 * ROW, *other = table + (place + 1) % 2 * ROW;
    row[CI] = decodings[DECODABLE + place / 4].ci;
    row[NIA] = decodings[DECODABLE + place / 4].nia;
    other[CI] = other[NIA] = 0;
    table[ROW + TEALBOBBIN_MAIN_IS_PADDING] = place / 2 % 2;
}

/* The columns that decode stay at their first value, whatever the stack holds. */
static void extend(void)
{
    enum { LOOKUP = TEALBOBBIN_AUX_INSTRUCTION_LOOKUP_CLIENT_LOG_DERIVATIVE, JUMPS = TEALBOBBIN_AUX_JUMP_STACK_TABLE_PERM_ARG };
    of_a_table(tealbobbin_extend);
    give_back();
    of_work(tealbobbin_extend);
    give_back();
    uint64_t *table = lend_zeros(MAIN), *record = lend_record(10), *aux = lend(AUX), *work = lend(WORK);
    for (size_t i = 0; i < 16; i++)
        table[ST0 + i] = table[ROW + ST0 + i] = 20 + i;
    for (size_t place = 0; place < PLACES; place++) {
        put_undecodable(table, place);
        DONE(tealbobbin_extend(table, MAIN, record, RECORD, 4, aux, AUX, work, WORK));
        for (size_t i = 0; i < AUX; i += ELEMENT) {
            size_t column = i / ELEMENT % TEALBOBBIN_AUX_WIDTH;
            if (column != LOOKUP && column != JUMPS)
                TRUE(aux[i] == (column < TEALBOBBIN_AUX_U32_LOOKUP_CLIENT_LOG_DERIVATIVE));
        }
    }
}

/* 11 is answered after 1, 3, 5, 1 for work and 2, and before 6: with push, 1, in a row, a denominator is zero. */
static void extend_strict(void)
{
    of_a_table(tealbobbin_extend_strict);
    give_back();
    of_work(tealbobbin_extend_strict);
    give_back();
    uint64_t *table = lend_zeros(MAIN + 1), *record = lend_record(2), *aux = lend(AUX + 1), *work = lend(2 * WORK);
    for (size_t place = 0; place < PLACES; place++) {
        const size_t chunk = chunks[place % COUNT(chunks)], work_count = TEALBOBBIN_WORK_COUNT(2, chunk);
        put_undecodable(table, place);
        REFUSED(11, tealbobbin_extend_strict(table, MAIN, record, RECORD, chunk, aux, AUX, work, work_count));
        table[(place + 1) % 2 * ROW + CI] = 1;
        REFUSED(1, tealbobbin_extend_strict(table, MAIN, record, RECORD, 0, aux, AUX + 1, work, WORK));
        REFUSED(5, tealbobbin_extend_strict(table, MAIN, record, RECORD, 0, aux, AUX, work, WORK + 1));
        REFUSED(1, tealbobbin_extend_strict(table, MAIN, record, RECORD, chunk, aux, AUX, work, work_count - 1));
        REFUSED(11, tealbobbin_extend_strict(table, MAIN, record, RECORD, chunk, aux, AUX, work, work_count));
    }
    for (size_t i = 0; i < MAIN + RECORD; i++) {
        put_undecodable(table, i % PLACES);
        uint64_t *word = i < MAIN ? table + i : record + i - MAIN;
        uint64_t kept = *word;
        *word = P;
        REFUSED(2, tealbobbin_extend_strict(table, MAIN, record, RECORD, 4, aux, AUX, work, WORK));
        *word = kept;
    }
    for (size_t r = 0; r < DECODABLE; r++) {
        table[CI] = decodings[r].ci;
        table[NIA] = decodings[r].nia;
        table[ROW + CI] = table[ROW + NIA] = table[ROW + TEALBOBBIN_MAIN_IS_PADDING] = 0;
        DONE(tealbobbin_extend_strict(table, MAIN, record, RECORD, 4, aux, AUX, work, WORK));
        table[ROW + CI] = 1;
        REFUSED(6, tealbobbin_extend_strict(table, MAIN, record, RECORD, 4, aux, AUX, work, WORK));
    }
}

/* Check of columns. Its verdict has one word, or three with the place of a no. */

typedef uint32_t column_check(const uint64_t *, size_t, const uint64_t *, size_t, const uint64_t *, size_t, uint64_t *, size_t);

/* A check, the rows of the table that it is over, the words of its verdict, and its slices. */
struct offer {
    column_check *call;
    size_t rows, words;
    uint64_t *table, *record, *offered, *verdict;
};

/* Done, and the verdict alone is new: no at the cell of this word of the columns, or yes where they have no such word. */
static void finds(int line, const struct offer *offer, size_t wrong)
{
    const size_t count = offer->rows * TEALBOBBIN_AUX_WORDS;
    const uint64_t yes[] = {TEALBOBBIN_YES, 0, 0};
    const uint64_t no[] = {TEALBOBBIN_NO, wrong / TEALBOBBIN_AUX_WORDS, wrong % TEALBOBBIN_AUX_WORDS / ELEMENT};
    make_stale(offer->verdict, offer->words);
    remember();
    uint32_t answer = offer->call(offer->table, offer->rows * ROW, offer->record, RECORD, offer->offered, count, offer->verdict,
                                  offer->words);
    answered(line, "check", answer, TEALBOBBIN_DONE);
    holds(line, "verdict", offer->verdict, wrong < count ? no : yes, offer->words);
    holds(line, "table", offer->table, NULL, 0);
    holds(line, "record", offer->record, NULL, 0);
    holds(line, "offered", offer->offered, NULL, 0);
}
#define YES(offer) finds(__LINE__, offer, SIZE_MAX)
#define NO_AT(word, offer) finds(__LINE__, offer, word)

/* Right columns: yes. Each word changed, by itself and with a later one: no where it stands. */
static void of_each_word(const struct offer *offer)
{
    const size_t count = offer->rows * TEALBOBBIN_AUX_WORDS;
    uint64_t *words = offer->offered;
    YES(offer);
    for (size_t i = 0; i < count; i++) {
        const uint64_t right = words[i];
        words[i] = plus(right, 1);
        NO_AT(i, offer);
        for (size_t later = i + 1 + i % 7; later < count; later += 31) {
            words[later] = plus(words[later], P - 1);
            NO_AT(i, offer);
            words[later] = plus(words[later], 1);
        }
        words[i] = right;
    }
}

/* Sums that go on from a wrong one: no where they begin to, though every later step is right. */
static void of_sums(const struct offer *offer)
{
    static const size_t sums[] = {TEALBOBBIN_AUX_INSTRUCTION_LOOKUP_CLIENT_LOG_DERIVATIVE,
                                  TEALBOBBIN_AUX_U32_LOOKUP_CLIENT_LOG_DERIVATIVE,
                                  TEALBOBBIN_AUX_CLOCK_JUMP_DIFFERENCE_LOOKUP_SERVER_LOG_DERIVATIVE};
    for (size_t c = 0; c < COUNT(sums); c++) {
        for (size_t r = offer->rows; r-- > 0;) {
            const size_t word = r * TEALBOBBIN_AUX_WORDS + sums[c] * ELEMENT;
            offer->offered[word] = plus(offer->offered[word], 1);
            NO_AT(word, offer);
        }
        for (size_t r = 0; r < offer->rows; r++) {
            const size_t word = r * TEALBOBBIN_AUX_WORDS + sums[c] * ELEMENT;
            offer->offered[word] = plus(offer->offered[word], P - 1);
        }
    }
    YES(offer);
}

/* The lengths before the rows, these before the words, and all before a denominator that is zero. */
static void refuses_offers(column_check *call, size_t words)
{
    enum { ROOM = 5 };
    uint64_t *table = lend_zeros_padded(), *record = lend_record(2), *offered = lend(AUX + 1), *verdict = lend(ROOM);
    uint64_t *stale = lend(MAIN + 1);
    for (size_t wrong = 0; wrong <= ROOM; wrong++)
        if (wrong != words) {
            REFUSED(1, call(stale, MAIN, record, RECORD, offered, AUX, verdict, wrong));
            REFUSED(1, call(NULL, 0, record, RECORD, NULL, 0, verdict, wrong));
        }
    REFUSED(1, call(stale, MAIN, record, RECORD, offered, AUX, NULL, 0));
    REFUSED(1, call(stale, MAIN - 1, record, RECORD, offered, AUX, verdict, words));
    REFUSED(1, call(stale, MAIN + 1, record, RECORD, offered, AUX, verdict, words));
    REFUSED(1, call(stale, ROW, record, RECORD, offered, AUX, verdict, words));
    REFUSED(1, call(stale, MAIN, record, RECORD - 1, offered, AUX, verdict, words));
    REFUSED(1, call(stale, MAIN, record, RECORD + 1, offered, AUX, verdict, words));
    REFUSED(1, call(stale, MAIN, record, RECORD, offered, AUX - 1, verdict, words));
    REFUSED(1, call(stale, MAIN, record, RECORD, offered, AUX + 1, verdict, words));
    REFUSED(1, call(stale, MAIN, record, RECORD, NULL, 0, verdict, words));
    REFUSED(1, call(NULL, 0, record, RECORD - 1, NULL, 0, verdict, words));
    REFUSED(1, call(NULL, 0, record, RECORD, offered, AUX / 2, verdict, words));

    const size_t rows = MAX_LEN + 1;
    uint64_t *long_main = lend_many(rows * ROW), *long_offered = lend_many(rows * AUX / 2);
    record[0] = P;
    REFUSED(3, call(NULL, 0, record, RECORD, NULL, 0, verdict, words));
    REFUSED(3, call(long_main, rows * ROW, record, RECORD, long_offered, rows * AUX / 2, verdict, words));
    REFUSED(1, call(long_main, rows * ROW, record, RECORD, long_offered, rows * AUX / 2 - 1, verdict, words));
    record[0] = 2;

    put_columns(offered);
    table[CI] = 1;
    for (size_t i = 0; i < MAIN + RECORD + AUX; i++) {
        uint64_t *word = i < MAIN ? table + i : i < MAIN + RECORD ? record + i - MAIN : offered + i - MAIN - RECORD;
        uint64_t kept = *word;
        *word = i % 2 ? UINT64_MAX : P;
        REFUSED(2, call(table, MAIN, record, RECORD, offered, AUX, verdict, words));
        *word = kept;
    }

    /* instruction, clock and U32 as in of_a_table, the last two in row 1; with the columns before, zeros, and any words */
    for (size_t fill = 0; fill < 3; fill++) {
        if (fill == 1)
            memset(offered, 0, AUX * sizeof(uint64_t));
        if (fill == 2)
            scatter(offered, AUX);
        table[CI] = 1;
        REFUSED(6, call(table, MAIN, record, RECORD, offered, AUX, verdict, words));
        table[CI] = 0;
        table[ROW + CLK] = 2;
        REFUSED(6, call(table, MAIN, record, RECORD, offered, AUX, verdict, words));
        table[ROW + CLK] = 1;
        table[CI] = 4;
        table[ROW + ST0] = P - 3;
        REFUSED(6, call(table, MAIN, record, RECORD, offered, AUX, verdict, words));
        table[CI] = table[ROW + ST0] = 0;
        DONE(call(table, MAIN, record, RECORD, offered, AUX, verdict, words));
        TRUE(verdict[0] == (fill == 0 ? TEALBOBBIN_YES : TEALBOBBIN_NO));
        make_stale(verdict, ROOM);
    }
}

static void of_offers(column_check *call, size_t words)
{
    struct offer offer = {call, 2, words, lend_zeros_padded(), lend_record(2), lend(AUX), lend(words + 1)};
    put_columns(offer.offered);
    of_each_word(&offer);
    of_sums(&offer);

    /* what extension writes, also over rows that do not decode */
    uint64_t *work = lend(3 * WORK);
    for (size_t place = 0; place < PLACES; place++) {
        put_undecodable(offer.table, place);
        DONE(tealbobbin_extend(offer.table, MAIN, offer.record, RECORD, 4, offer.offered, AUX, work, WORK));
        YES(&offer);
    }
    struct offer tall = {call, TALL, words, lend_tall(), lend_scattered_record(), lend(TALL_AUX), lend(words + 1)};
    DONE(tealbobbin_extend(tall.table, TALL_MAIN, tall.record, RECORD, 4, tall.offered, TALL_AUX, work, 3 * WORK));
    of_each_word(&tall);
    of_sums(&tall);
    give_back();
    refuses_offers(call, words);
    give_back();
}

/* Not with the verdict of check_at, nor that with this one's. */
static void check(void)
{
    of_offers(tealbobbin_check, 1);
    uint64_t *table = lend_zeros_padded(), *record = lend_record(2), *offered = lend(AUX), *verdict = lend(3);
    put_columns(offered);
    REFUSED(1, tealbobbin_check(table, MAIN, record, RECORD, offered, AUX, verdict, 3));
    DONE(tealbobbin_check(table, MAIN, record, RECORD, offered, AUX, verdict, 1));
    HOLDS(verdict, TEALBOBBIN_YES);
}

/* The jump-stack column of a row of zeros goes from 1 to 2, and from there to 0. */
static void check_at(void)
{
    enum { JUMPS = TEALBOBBIN_AUX_JUMP_STACK_TABLE_PERM_ARG };
    of_offers(tealbobbin_check_at, 3);
    uint64_t *table = lend_zeros_padded(), *record = lend_record(2), *offered = lend(AUX), *verdict = lend(3);
    put_columns(offered);
    REFUSED(1, tealbobbin_check_at(table, MAIN, record, RECORD, offered, AUX, verdict, 1));
    offered[JUMPS * ELEMENT] = 1;
    DONE(tealbobbin_check_at(table, MAIN, record, RECORD, offered, AUX, verdict, 3));
    HOLDS(verdict, TEALBOBBIN_NO, 0, JUMPS);
}

/* Batches. */

enum { END, ROWS_TO_COME, PLAIN_ROW, OP_STACK, RAM, JUMP_STACK, SAMPLED, DIGEST, INPUT, OUTPUT, MONTGOMERY_ROW, HEIGHT, UNKNOWN };

/* The form of rows that are put and written, and the command of a row in it, and of one in the other. */
static uint64_t form;
#define TRACE_ROW (form ? MONTGOMERY_ROW : PLAIN_ROW)
#define OTHER_ROW (form ? PLAIN_ROW : MONTGOMERY_ROW)

/* Batches that are put and written set 2^log2_height rows, or, where it is 0, leave the height to the trace. */
static uint64_t log2_height;
static const uint64_t heights[] = {0, TEALBOBBIN_BATCH_MAX_LOG2_HEIGHT};

static int fits(uint64_t k, size_t rows)
{
    return k >= 1 && k <= TEALBOBBIN_BATCH_MAX_LOG2_HEIGHT && rows <= (size_t)1 << k;
}

static uint8_t bytes[TEALBOBBIN_BATCH_MAX_BYTES + 1];
static size_t byte_count;

static void put(uint64_t number, size_t width)
{
    for (size_t i = 0; i < width; i++)
        bytes[byte_count++] = (uint8_t)(number >> 8 * i);
}

/* A command and `words` words of operand, counting up from the first. */
static void put_command(uint8_t command, size_t words, uint64_t first)
{
    put(command, 1);
    for (size_t i = 0; i < words; i++)
        put(first + i, 8);
}

static void put_height(uint64_t k)
{
    put(HEIGHT, 1);
    put(k, 1);
}

/* And the height, if one is to be set. */
static void put_rows_to_come(uint32_t rows)
{
    put(ROWS_TO_COME, 1);
    put(rows, 4);
    if (log2_height)
        put_height(log2_height);
}

/* A trace row whose words, once opened, count up from the first. */
static void put_row(uint64_t first)
{
    put(TRACE_ROW, 1);
    for (size_t i = 0; i < ROW; i++)
        put(form ? in_form(first + i) : first + i, 8);
}

/* The commands between the first and the end, in their order, each with the words of its operand. */
static const struct {
    uint8_t command;
    size_t words;
} order[] = {
    {DIGEST, TEALBOBBIN_DIGEST_WORDS}, {INPUT, 1},    {OUTPUT, 1}, {SAMPLED, TEALBOBBIN_SAMPLED_WORDS},
    {PLAIN_ROW, ROW},                  {OP_STACK, 1}, {RAM, 1},    {JUMP_STACK, 1},
};

/* With this word as the first of its operand, and a row in the form. */
static void put_in_order(size_t i, uint64_t first)
{
    put_command(order[i].command == PLAIN_ROW ? TRACE_ROW : order[i].command, order[i].words, first);
}

/* What a batch of one row needs, up to where this command belongs. */
static void begin_for(uint8_t command)
{
    byte_count = 0;
    put_rows_to_come(1);
    put_command(DIGEST, TEALBOBBIN_DIGEST_WORDS, 50);
    if (command == INPUT || command == OUTPUT)
        return;
    put_command(SAMPLED, TEALBOBBIN_SAMPLED_WORDS, 2000);
    put_row(100);
}

/* A batch of one row that lacks only its end. */
static void begin(void)
{
    begin_for(END);
}

/* The slices that are lent to open, each with a word more than its length, and the lengths that are said. */
enum { L_TRACE, L_OP_STACK, L_RAM, L_JUMP_STACK, L_SAMPLED, L_DIGEST, L_INPUT, L_OUTPUT, L_COUNTS, LENT };
static const size_t lengths[LENT] = {
    TEALBOBBIN_BATCH_MAX_TRACE_WORDS, TEALBOBBIN_BATCH_MAX_DIFFERENCES, TEALBOBBIN_BATCH_MAX_DIFFERENCES,
    TEALBOBBIN_BATCH_MAX_DIFFERENCES, TEALBOBBIN_SAMPLED_WORDS,         TEALBOBBIN_DIGEST_WORDS,
    TEALBOBBIN_BATCH_MAX_INPUT,       TEALBOBBIN_BATCH_MAX_OUTPUT,      TEALBOBBIN_COUNTS,
};
static struct {
    uint64_t *words;
    size_t count;
} lent[LENT];

static void lend_all(void)
{
    for (size_t s = 0; s < LENT; s++) {
        lent[s].words = lend(lengths[s] + 1);
        lent[s].count = lengths[s];
    }
}

static uint32_t open_bytes(void)
{
    uint8_t *batch = room(byte_count);
    memcpy(batch, bytes, byte_count);
    uint32_t answer = tealbobbin_open(
        batch, byte_count, lent[0].words, lent[0].count, lent[1].words, lent[1].count, lent[2].words, lent[2].count,
        lent[3].words, lent[3].count, lent[4].words, lent[4].count, lent[5].words, lent[5].count, lent[6].words, lent[6].count,
        lent[7].words, lent[7].count, lent[8].words, lent[8].count);
    TRUE(memcmp(batch, bytes, byte_count) == 0);
    free(batch);
    return answer;
}

/* The slice begins with `count` words, counting up from `first`, and is otherwise as before. */
static void counts_up(int line, size_t slice, uint64_t first, size_t count)
{
    uint64_t due[TEALBOBBIN_BATCH_MAX_TRACE_WORDS];
    for (size_t i = 0; i < count; i++)
        due[i] = first + i;
    char name[32];
    snprintf(name, sizeof(name), "slice %zu of open", slice);
    holds(line, name, lent[slice].words, due, count);
}
#define COUNTS_UP(slice, first, count) counts_up(__LINE__, slice, first, count)

static const struct {
    uint8_t command;
    size_t slice, most;
} lists[] = {
    {INPUT, L_INPUT, TEALBOBBIN_BATCH_MAX_INPUT},
    {OUTPUT, L_OUTPUT, TEALBOBBIN_BATCH_MAX_OUTPUT},
    {OP_STACK, L_OP_STACK, TEALBOBBIN_BATCH_MAX_DIFFERENCES},
    {RAM, L_RAM, TEALBOBBIN_BATCH_MAX_DIFFERENCES},
    {JUMP_STACK, L_JUMP_STACK, TEALBOBBIN_BATCH_MAX_DIFFERENCES},
};

static int is_difference(uint8_t command)
{
    return command == OP_STACK || command == RAM || command == JUMP_STACK;
}

static void open_one_row(void)
{
    begin();
    put_command(END, 0, 0);
    DONE(open_bytes());
    COUNTS_UP(L_TRACE, 100, ROW);
    COUNTS_UP(L_SAMPLED, 2000, TEALBOBBIN_SAMPLED_WORDS);
    COUNTS_UP(L_DIGEST, 50, TEALBOBBIN_DIGEST_WORDS);
    for (size_t l = 0; l < COUNT(lists); l++)
        COUNTS_UP(lists[l].slice, 0, 0);
    HOLDS(lent[L_COUNTS].words, 1, 0, 0, 0, 0, 0, log2_height);
}

static void open_every_command(void)
{
    byte_count = 0;
    put_rows_to_come(2);
    put_command(DIGEST, TEALBOBBIN_DIGEST_WORDS, 51);
    for (uint64_t i = 0; i < 4; i++)
        put_command(INPUT, 1, 400 + i);
    put_command(OUTPUT, 1, 500);
    put_command(SAMPLED, TEALBOBBIN_SAMPLED_WORDS, 2001);
    put_row(100);
    put_row(100 + ROW);
    put_command(OP_STACK, 1, P - 1);
    for (uint64_t i = 0; i < 3; i++)
        put_command(RAM, 1, 10 + i);
    put_command(JUMP_STACK, 1, 0);
    put_command(END, 0, 0);
    DONE(open_bytes());
    COUNTS_UP(L_TRACE, 100, 2 * ROW);
    COUNTS_UP(L_OP_STACK, P - 1, 1);
    COUNTS_UP(L_RAM, 10, 3);
    COUNTS_UP(L_JUMP_STACK, 0, 1);
    COUNTS_UP(L_SAMPLED, 2001, TEALBOBBIN_SAMPLED_WORDS);
    COUNTS_UP(L_DIGEST, 51, TEALBOBBIN_DIGEST_WORDS);
    COUNTS_UP(L_INPUT, 400, 4);
    COUNTS_UP(L_OUTPUT, 500, 1);
    const uint64_t *counts = lent[L_COUNTS].words;
    TRUE(counts[TEALBOBBIN_COUNT_ROWS] == 2);
    TRUE(counts[TEALBOBBIN_COUNT_OP_STACK] == 1);
    TRUE(counts[TEALBOBBIN_COUNT_RAM] == 3);
    TRUE(counts[TEALBOBBIN_COUNT_JUMP_STACK] == 1);
    TRUE(counts[TEALBOBBIN_COUNT_INPUT] == 4);
    TRUE(counts[TEALBOBBIN_COUNT_OUTPUT] == 1);
    TRUE(counts[TEALBOBBIN_COUNT_LOG2_HEIGHT] == log2_height);
}

/* Each k that holds each number of rows. */
static void open_heights(void)
{
    for (uint32_t rows = 1; rows <= TEALBOBBIN_BATCH_MAX_ROWS; rows++)
        for (log2_height = 1; log2_height <= TEALBOBBIN_BATCH_MAX_LOG2_HEIGHT; log2_height++) {
            if (!fits(log2_height, rows))
                continue;
            byte_count = 0;
            put_rows_to_come(rows);
            put_command(DIGEST, TEALBOBBIN_DIGEST_WORDS, 0);
            put_command(SAMPLED, TEALBOBBIN_SAMPLED_WORDS, 0);
            for (uint32_t r = 0; r < rows; r++)
                put_row(0);
            put_command(END, 0, 0);
            DONE(open_bytes());
            HOLDS(lent[L_COUNTS].words, rows, 0, 0, 0, 0, 0, log2_height);
        }
    log2_height = 0;
}

/* Differences that are equal, or that ascend by a high byte alone; input and output words that descend. */
static void open_orders(void)
{
    for (size_t l = 0; l < COUNT(lists); l++) {
        uint64_t last = is_difference(lists[l].command) ? UINT64_C(1) << 32 : 6;
        begin_for(lists[l].command);
        put_command(lists[l].command, 1, 7);
        put_command(lists[l].command, 1, 7);
        put_command(lists[l].command, 1, last);
        if (!is_difference(lists[l].command)) {
            put_command(SAMPLED, TEALBOBBIN_SAMPLED_WORDS, 2000);
            put_row(100);
        }
        put_command(END, 0, 0);
        DONE(open_bytes());
        HOLDS(lent[lists[l].slice].words, 7, 7, last);
    }
}

/* As many words as a list holds, counting up from 1000 * l. */
static void put_list(size_t l)
{
    for (size_t i = 0; i < lists[l].most; i++)
        put_command(lists[l].command, 1, 1000 * l + i);
}

static void put_largest(void)
{
    byte_count = 0;
    put_rows_to_come(TEALBOBBIN_BATCH_MAX_ROWS);
    put_command(DIGEST, TEALBOBBIN_DIGEST_WORDS, 52);
    for (size_t l = 0; !is_difference(lists[l].command); l++)
        put_list(l);
    put_command(SAMPLED, TEALBOBBIN_SAMPLED_WORDS, 2002);
    for (size_t r = 0; r < TEALBOBBIN_BATCH_MAX_ROWS; r++)
        put_row(3000 + r * ROW);
    for (size_t l = 0; l < COUNT(lists); l++)
        if (is_difference(lists[l].command))
            put_list(l);
    put_command(END, 0, 0);
}

static void open_largest(void)
{
    put_largest();
    TRUE(byte_count == (log2_height ? 16090 : 16088));
    DONE(open_bytes());
    COUNTS_UP(L_TRACE, 3000, TEALBOBBIN_BATCH_MAX_TRACE_WORDS);
    COUNTS_UP(L_SAMPLED, 2002, TEALBOBBIN_SAMPLED_WORDS);
    COUNTS_UP(L_DIGEST, 52, TEALBOBBIN_DIGEST_WORDS);
    for (size_t l = 0; l < COUNT(lists); l++)
        COUNTS_UP(lists[l].slice, 1000 * l, lists[l].most);
    HOLDS(lent[L_COUNTS].words, 32, 128, 128, 128, 64, 64, log2_height);
}

/* Before all else. */
static void open_refuses_1(void)
{
    byte_count = 0;
    for (size_t s = 0; s < LENT; s++) {
        lent[s].count = lengths[s] - 1;
        REFUSED(1, open_bytes());
        lent[s].count = lengths[s] + 1;
        REFUSED(1, open_bytes());
        lent[s].count = lengths[s];
    }
    memset(bytes, 0, sizeof(bytes));
    byte_count = TEALBOBBIN_BATCH_MAX_BYTES + 1;
    REFUSED(1, open_bytes());
    byte_count = TEALBOBBIN_BATCH_MAX_BYTES;
    REFUSED(9, open_bytes());
}

/* Before 9. */
static void open_refuses_7(void)
{
    byte_count = 0;
    put(UNKNOWN, 1);
    REFUSED(7, open_bytes());
    begin();
    put(255, 1);
    REFUSED(7, open_bytes());
}

/* Before 9 and 3. */
static void open_refuses_8(void)
{
    byte_count = 0;
    REFUSED(8, open_bytes());
    begin();
    REFUSED(8, open_bytes());
    byte_count--;
    REFUSED(8, open_bytes());
    byte_count = 0;
    put_command(TRACE_ROW, ROW - 1, P);
    REFUSED(8, open_bytes());
    byte_count = 0;
    put(ROWS_TO_COME, 1);
    put(0, 3);
    REFUSED(8, open_bytes());
}

/* Before 10, 3 and 2. */
static void open_refuses_9(void)
{
    byte_count = 0;
    put_command(TRACE_ROW, ROW, P);
    REFUSED(9, open_bytes());
    begin();
    put_rows_to_come(0);
    REFUSED(9, open_bytes());
    begin();
    put_command(TRACE_ROW, ROW, P);
    REFUSED(9, open_bytes());
    begin();
    put_command(DIGEST, TEALBOBBIN_DIGEST_WORDS, P);
    REFUSED(9, open_bytes());
    begin();
    put_command(SAMPLED, TEALBOBBIN_SAMPLED_WORDS, P);
    REFUSED(9, open_bytes());
    for (size_t l = 0; l < COUNT(lists); l++) {
        begin_for(lists[l].command);
        for (size_t i = 0; i < lists[l].most; i++)
            put_command(lists[l].command, 1, i);
        put_command(lists[l].command, 1, P);
        REFUSED(9, open_bytes());
    }
    for (size_t l = 0; l < COUNT(lists); l++) {
        put_largest();
        byte_count--;
        put_command(lists[l].command, 1, 0);
        REFUSED(9, open_bytes());
    }
    for (int missing = 0; missing < 3; missing++) {
        byte_count = 0;
        put_rows_to_come(1);
        if (missing != 0)
            put_command(DIGEST, TEALBOBBIN_DIGEST_WORDS, 0);
        if (missing != 1)
            put_command(SAMPLED, TEALBOBBIN_SAMPLED_WORDS, 0);
        if (missing != 2)
            put_command(TRACE_ROW, ROW, 0);
        put_command(END, 0, 0);
        REFUSED(9, open_bytes());
    }
    begin();
    put_command(END, 0, 0);
    put(UNKNOWN, 1);
    REFUSED(9, open_bytes());
}

/* A row of the other form behind each number of rows, with words not below p, and behind a difference: before 10 and 2. */
static void open_refuses_mixtures(void)
{
    for (size_t rows = 1; rows < TEALBOBBIN_BATCH_MAX_ROWS; rows++)
        for (int late = 0; late < 2; late++) {
            byte_count = 0;
            put_rows_to_come(TEALBOBBIN_BATCH_MAX_ROWS);
            for (size_t r = 0; r < rows; r++)
                put_row(0);
            if (late)
                put_command(OP_STACK, 1, 0);
            size_t before = byte_count;
            put_command(OTHER_ROW, ROW, 0);
            REFUSED(9, open_bytes());
            byte_count--;
            REFUSED(8, open_bytes());
            byte_count = before;
            put_command(OTHER_ROW, ROW, P);
            REFUSED(9, open_bytes());
            byte_count = before;
            put_command(TRACE_ROW, ROW, P);
            REFUSED(late ? 10 : 2, open_bytes());
        }
}

/* Before 2: each command behind each that belongs after it, and differences that descend. */
static void open_refuses_10(void)
{
    for (size_t late = 0; late < COUNT(order); late++)
        for (size_t before = late + 1; before < COUNT(order); before++) {
            byte_count = 0;
            put_rows_to_come(1);
            put_in_order(before, 7);
            put_in_order(late, P);
            REFUSED(10, open_bytes());
            byte_count--;
            REFUSED(8, open_bytes());
        }
    for (size_t l = 0; l < COUNT(lists); l++) {
        if (!is_difference(lists[l].command))
            continue;
        begin();
        put_command(lists[l].command, 1, UINT64_C(1) << 32);
        put_command(lists[l].command, 1, 255);
        put(UNKNOWN, 1);
        REFUSED(10, open_bytes());
    }
}

static void open_refuses_3(void)
{
    static const uint32_t rows[] = {0, TEALBOBBIN_BATCH_MAX_ROWS + 1, 256, UINT32_MAX};
    for (size_t i = 0; i < COUNT(rows); i++) {
        byte_count = 0;
        put_rows_to_come(rows[i]);
        put(UNKNOWN, 1);
        REFUSED(3, open_bytes());
    }
}

/* Every k that does not hold each number of rows; 8, 9 and 10 come before. */
static void open_refuses_12(void)
{
    for (uint32_t rows = 1; rows <= TEALBOBBIN_BATCH_MAX_ROWS; rows++)
        for (uint64_t k = 0; k < 256; k++) {
            if (fits(k, rows))
                continue;
            byte_count = 0;
            put_rows_to_come(rows);
            put_height(k);
            put(UNKNOWN, 1);
            REFUSED(12, open_bytes());
        }
    static const uint64_t wrong[] = {0, 1, TEALBOBBIN_BATCH_MAX_LOG2_HEIGHT + 1, 255};
    for (size_t i = 0; i < COUNT(wrong); i++) {
        byte_count = 0;
        put_height(wrong[i]);
        REFUSED(9, open_bytes());
        byte_count--;
        REFUSED(8, open_bytes());
        byte_count = 0;
        put_rows_to_come(3);
        put_height(2);
        size_t before = byte_count;
        put_height(wrong[i]);
        REFUSED(9, open_bytes());
        byte_count--;
        REFUSED(8, open_bytes());
        byte_count = before;
        put_in_order(0, 7);
        put_height(wrong[i]);
        REFUSED(9, open_bytes());
        for (size_t o = 0; o < COUNT(order); o++) {
            byte_count = 0;
            put_rows_to_come(3);
            put_in_order(o, 7);
            put_height(wrong[i]);
            REFUSED(10, open_bytes());
            byte_count--;
            REFUSED(8, open_bytes());
        }
    }
}

/* The last word of each command is p, and the others are below. */
static void open_refuses_2(void)
{
    static const struct {
        uint8_t command;
        size_t words;
    } operands[] = {
        {DIGEST, TEALBOBBIN_DIGEST_WORDS},
        {SAMPLED, TEALBOBBIN_SAMPLED_WORDS},
        {PLAIN_ROW, ROW},
        {MONTGOMERY_ROW, ROW},
    };
    for (size_t i = 0; i < COUNT(operands); i++) {
        byte_count = 0;
        put_rows_to_come(1);
        put_command(operands[i].command, operands[i].words, P - operands[i].words + 1);
        put(UNKNOWN, 1);
        REFUSED(2, open_bytes());
    }
    for (size_t l = 0; l < COUNT(lists); l++) {
        begin_for(lists[l].command);
        put_command(lists[l].command, 1, P);
        put(UNKNOWN, 1);
        REFUSED(2, open_bytes());
    }
}

/* Each example with plain rows, and with rows in Montgomery form. */
static const char *const examples[][2] = {
    {"examples/document-01.batch", "examples/document-01-montgomery.batch"},
    {"examples/undecodable.batch", "examples/undecodable-montgomery.batch"},
};

static void read_batch(const char *name)
{
    FILE *file = fopen(name, "rb");
    byte_count = file ? fread(bytes, 1, sizeof(bytes), file) : 0;
    if (!byte_count) {
        printf("%s: ", name);
        give_up("it cannot be read");
    }
    fclose(file);
}

static void read_example(size_t example)
{
    read_batch(examples[example][form ? 1 : 0]);
}

static void read_height_example(void)
{
    read_batch("examples/document-01-height-18.batch");
}

/* Both open to the same. */
static void open_examples(void)
{
    static uint64_t plain[LENT][TEALBOBBIN_BATCH_MAX_TRACE_WORDS + 1];
    for (size_t e = 0; e < COUNT(examples); e++)
        for (form = 0; form < 2; form++) {
            read_example(e);
            for (size_t s = 0; s < LENT; s++)
                make_stale(lent[s].words, lengths[s] + 1);
            DONE(open_bytes());
            for (size_t s = 0; s < LENT; s++) {
                if (!form)
                    copy(plain[s], lent[s].words, lengths[s] + 1);
                HOLDS_WORDS(lent[s].words, plain[s], lengths[s] + 1);
            }
        }
    read_height_example();
    DONE(open_bytes());
    HOLDS(lent[L_COUNTS].words, 1, 0, 0, 0, 0, 0, 18);
}

static void open(void)
{
    lend_all();
    for (form = 0; form < 2; form++) {
        for (size_t h = 0; h < COUNT(heights); h++) {
            log2_height = heights[h];
            open_one_row();
            open_every_command();
            open_orders();
            open_largest();
            open_refuses_1();
            open_refuses_7();
            open_refuses_8();
            open_refuses_9();
            open_refuses_mixtures();
            open_refuses_10();
            open_refuses_3();
            open_refuses_2();
        }
        log2_height = 0;
        open_heights();
        open_refuses_12();
    }
    open_examples();
}

/* The slice that is written, with room for a batch of 33 rows and words behind it; the slices that are lent hold the contents. */
enum { WRITTEN = 2100 };
static uint64_t *written;

static uint32_t write_lent(size_t count)
{
    return tealbobbin_write(lent[0].words, lent[0].count, lent[1].words, lent[1].count, lent[2].words, lent[2].count,
                            lent[3].words, lent[3].count, lent[4].words, lent[4].count, lent[5].words, lent[5].count,
                            lent[6].words, lent[6].count, lent[7].words, lent[7].count, form, log2_height,
                            (uint8_t *)written, count);
}

/* The bytes that the batch of what is lent would have. */
static size_t length_of_lent(void)
{
    size_t words = 0;
    for (size_t l = 0; l < COUNT(lists); l++)
        words += lent[lists[l].slice].count;
    return TEALBOBBIN_BATCH_BYTES(lent[L_TRACE].count / ROW, words, log2_height);
}

/* Writes what is lent: that is `bytes`. All else is as before. */
static void writes(int line)
{
    uint64_t due[WRITTEN];
    make_stale(written, WRITTEN);
    make_stale(due, WRITTEN);
    memcpy(due, bytes, byte_count);
    remember();
    answered(line, "write_lent(byte_count)", write_lent(byte_count), TEALBOBBIN_DONE);
    holds(line, "written", written, due, WRITTEN);
    for (size_t s = 0; s < L_COUNTS; s++)
        holds(line, "a slice of write", lent[s].words, NULL, 0);
    TRUE(byte_count == length_of_lent());
    make_stale(written, WRITTEN);
}
#define WRITES() writes(__LINE__)

/* The slice holds `count` words, counting up from `first`. */
static void bring(size_t slice, uint64_t first, size_t count)
{
    for (size_t i = 0; i < count; i++)
        lent[slice].words[i] = first + i;
    lent[slice].count = count;
}

/* So many rows, and nothing in the lists. */
static void bring_rows(size_t rows)
{
    bring(L_TRACE, 100, rows * ROW);
    bring(L_SAMPLED, 2000, TEALBOBBIN_SAMPLED_WORDS);
    bring(L_DIGEST, 50, TEALBOBBIN_DIGEST_WORDS);
    for (size_t l = 0; l < COUNT(lists); l++)
        bring(lists[l].slice, 0, 0);
}

static void write_example(void)
{
    read_example(0);
    bring_rows(1);
    memset(lent[L_TRACE].words, 0, ROW * sizeof(uint64_t));
    memset(lent[L_DIGEST].words, 0, TEALBOBBIN_DIGEST_WORDS * sizeof(uint64_t));
    for (size_t i = 0; i < TEALBOBBIN_SAMPLED_WORDS; i++)
        lent[L_SAMPLED].words[i] = i % ELEMENT ? 0 : 2;
    WRITES();
    DONE(tealbobbin_write(lent[L_TRACE].words, ROW, NULL, 0, NULL, 0, NULL, 0, lent[L_SAMPLED].words, TEALBOBBIN_SAMPLED_WORDS,
                          lent[L_DIGEST].words, TEALBOBBIN_DIGEST_WORDS, NULL, 0, NULL, 0, form, 0, (uint8_t *)written,
                          byte_count));
    TRUE(memcmp(written, bytes, byte_count) == 0);
    if (form)
        return;
    read_height_example();
    log2_height = 18;
    WRITES();
    log2_height = 0;
}

/* Differences that are above the rows, equal, and in no order; input and output in theirs. */
static void write_every_command(void)
{
    bring_rows(2);
    bring(L_OP_STACK, P - 1, 1);
    bring(L_RAM, 0, 4);
    bring(L_JUMP_STACK, 8, 3);
    bring(L_INPUT, 30, 2);
    bring(L_OUTPUT, 40, 3);
    memcpy(lent[L_RAM].words, (const uint64_t[]){UINT64_C(1) << 32, 255, 256, 255}, 4 * sizeof(uint64_t));
    lent[L_JUMP_STACK].words[1] = 2;
    lent[L_INPUT].words[1] = 3;
    lent[L_OUTPUT].words[1] = 4;
    byte_count = 0;
    put_rows_to_come(2);
    put_command(DIGEST, TEALBOBBIN_DIGEST_WORDS, 50);
    put_command(INPUT, 1, 30);
    put_command(INPUT, 1, 3);
    put_command(OUTPUT, 1, 40);
    put_command(OUTPUT, 1, 4);
    put_command(OUTPUT, 1, 42);
    put_command(SAMPLED, TEALBOBBIN_SAMPLED_WORDS, 2000);
    put_row(100);
    put_row(100 + ROW);
    put_command(OP_STACK, 1, P - 1);
    put_command(RAM, 1, 255);
    put_command(RAM, 1, 255);
    put_command(RAM, 1, 256);
    put_command(RAM, 1, UINT64_C(1) << 32);
    put_command(JUMP_STACK, 1, 2);
    put_command(JUMP_STACK, 1, 8);
    put_command(JUMP_STACK, 1, 10);
    put_command(END, 0, 0);
    WRITES();
}

/* The largest batch, its differences the other way round; then as it is opened. */
static void write_largest(void)
{
    put_largest();
    bring_rows(TEALBOBBIN_BATCH_MAX_ROWS);
    bring(L_TRACE, 3000, TEALBOBBIN_BATCH_MAX_TRACE_WORDS);
    bring(L_SAMPLED, 2002, TEALBOBBIN_SAMPLED_WORDS);
    bring(L_DIGEST, 52, TEALBOBBIN_DIGEST_WORDS);
    for (size_t l = 0; l < COUNT(lists); l++) {
        bring(lists[l].slice, 1000 * l, lists[l].most);
        for (size_t i = 0; is_difference(lists[l].command) && i < lists[l].most; i++)
            lent[lists[l].slice].words[i] = 1000 * l + lists[l].most - 1 - i;
    }
    WRITES();
    for (size_t s = 0; s < L_COUNTS; s++)
        make_stale(lent[s].words, lent[s].count);
    DONE(open_bytes());
    WRITES();
}

/* Before 3 and 2: every word is stale. */
static void write_refuses_1(size_t rows)
{
    bring_rows(rows);
    for (size_t s = 0; s < L_COUNTS; s++)
        make_stale(lent[s].words, lengths[s] + ROW);
    REFUSED(1, write_lent(length_of_lent() - 1));
    REFUSED(1, write_lent(length_of_lent() + 1));
    REFUSED(1, write_lent(0));
    for (size_t part = 1; part < ROW; part++) {
        lent[L_TRACE].count = rows * ROW + part;
        REFUSED(1, write_lent(length_of_lent()));
    }
    lent[L_TRACE].count = rows * ROW;
    for (size_t l = 0; l < COUNT(lists); l++) {
        lent[lists[l].slice].count = lists[l].most + 1;
        REFUSED(1, write_lent(length_of_lent()));
        lent[lists[l].slice].count = 1;
        REFUSED(1, write_lent(length_of_lent() - 9));
        lent[lists[l].slice].count = 0;
    }
    static const size_t fixed[] = {L_SAMPLED, L_DIGEST};
    for (size_t f = 0; f < COUNT(fixed); f++) {
        lent[fixed[f]].count = lengths[fixed[f]] - 1;
        REFUSED(1, write_lent(length_of_lent()));
        lent[fixed[f]].count = lengths[fixed[f]] + 1;
        REFUSED(1, write_lent(length_of_lent()));
        lent[fixed[f]].count = lengths[fixed[f]];
    }
}

/* Before 2: every word is stale. */
static void write_refuses_3(void)
{
    bring_rows(0);
    for (size_t s = 0; s < L_COUNTS; s++)
        make_stale(lent[s].words, lengths[s] + ROW);
    REFUSED(3, write_lent(length_of_lent()));
    lent[L_TRACE].count = (TEALBOBBIN_BATCH_MAX_ROWS + 1) * ROW;
    REFUSED(3, write_lent(length_of_lent()));
    for (size_t l = 0; l < COUNT(lists); l++)
        lent[lists[l].slice].count = lists[l].most;
    REFUSED(3, write_lent(length_of_lent()));

    const size_t rows = MAX_LEN + 1, length = TEALBOBBIN_BATCH_BYTES(rows, 0, log2_height);
    uint8_t *many = (uint8_t *)lend_many(length / sizeof(uint64_t) + 1);
    REFUSED(3, tealbobbin_write(lend_many(rows * ROW), rows * ROW, NULL, 0, NULL, 0, NULL, 0, lent[L_SAMPLED].words,
                                TEALBOBBIN_SAMPLED_WORDS, lent[L_DIGEST].words, TEALBOBBIN_DIGEST_WORDS, NULL, 0, NULL, 0,
                                form, log2_height, many, length));
}

/* Behind 3, and before 2: every word is stale. */
static void write_refuses_12(void)
{
    static const uint64_t large[] = {256 + 5, (UINT64_C(1) << 32) + 5, (UINT64_C(1) << 63) + 5, UINT64_MAX};
    bring_rows(0);
    for (size_t s = 0; s < L_COUNTS; s++)
        make_stale(lent[s].words, lengths[s] + ROW);
    for (size_t rows = 0; rows <= TEALBOBBIN_BATCH_MAX_ROWS + 1; rows++)
        for (size_t k = 1; k < 70; k++) {
            log2_height = k < 70 - COUNT(large) ? k : large[k - (70 - COUNT(large))];
            lent[L_TRACE].count = rows * ROW;
            int in_range = rows >= 1 && rows <= TEALBOBBIN_BATCH_MAX_ROWS;
            REFUSED(!in_range ? 3 : fits(log2_height, rows) ? 2 : 12, write_lent(length_of_lent()));
            REFUSED(1, write_lent(length_of_lent() - 2));
        }
    log2_height = 0;
}

/* Each word of each slice. */
static void write_refuses_2(void)
{
    bring_rows(TEALBOBBIN_BATCH_MAX_ROWS);
    for (size_t l = 0; l < COUNT(lists); l++)
        bring(lists[l].slice, 0, lists[l].most);
    for (size_t s = 0; s < L_COUNTS; s++)
        for (size_t i = 0; i < lent[s].count; i++) {
            uint64_t word = lent[s].words[i];
            lent[s].words[i] = P;
            REFUSED(2, write_lent(length_of_lent()));
            lent[s].words[i] = word;
        }
}

static void write(void)
{
    /* whatever is not 0 is Montgomery form, also where its low bytes are 0 */
    static const uint64_t forms[] = {TEALBOBBIN_FORM_PLAIN, TEALBOBBIN_FORM_MONTGOMERY, 2, 256, UINT64_C(1) << 32, UINT64_MAX};
    for (size_t i = 0; i < COUNT(forms) * COUNT(heights); i++) {
        form = forms[i / COUNT(heights)];
        log2_height = heights[i % COUNT(heights)];
        for (size_t s = 0; s < L_COUNTS; s++)
            lent[s].words = lend(lengths[s] + ROW);
        written = lend(WRITTEN);
        write_every_command();
        write_refuses_1(0);
        write_refuses_1(1);
        write_refuses_1(TEALBOBBIN_BATCH_MAX_ROWS + 1);
        write_refuses_3();
        write_refuses_2();
        if (!log2_height) {
            write_example();
            write_refuses_12();
        }
        give_back();
        lend_all();
        written = lend(WRITTEN);
        write_largest();
        give_back();
    }
    log2_height = 0;
}

/* From a batch to the last row's cells. */

enum { CELLS = TEALBOBBIN_AUX_WORDS };

static uint64_t *cells;

static uint32_t terminals_of_bytes(void)
{
    uint8_t *batch = room(byte_count);
    memcpy(batch, bytes, byte_count);
    uint32_t answer = tealbobbin_terminals(batch, byte_count, cells, CELLS);
    TRUE(memcmp(batch, bytes, byte_count) == 0);
    free(batch);
    return answer;
}

/* Document 01's example at 2^log2_height rows, and these differences of the jump stack. */
static void put_zeros(size_t differences, uint64_t difference)
{
    byte_count = 0;
    put_rows_to_come(1);
    put(DIGEST, 1);
    for (size_t i = 0; i < TEALBOBBIN_DIGEST_WORDS; i++)
        put(0, 8);
    put(SAMPLED, 1);
    for (size_t i = 0; i < TEALBOBBIN_SAMPLED_WORDS; i++)
        put(i % ELEMENT ? 0 : 2, 8);
    put(TRACE_ROW, 1);
    for (size_t i = 0; i < ROW; i++)
        put(0, 8);
    for (size_t i = 0; i < differences; i++)
        put_command(JUMP_STACK, 1, difference);
    put_command(END, 0, 0);
}

/* Row 1 counts the padding rows, and its CLK is 1, one below the indeterminate. */
static void terminals_of_zeros(void)
{
    for (form = 0; form < 2; form++)
        for (log2_height = 0; log2_height <= TEALBOBBIN_BATCH_MAX_LOG2_HEIGHT; log2_height++) {
            uint64_t due[CELLS] = {0};
            uint64_t clock = log2_height ? (UINT64_C(1) << log2_height) - 1 : 1;
            static const uint64_t columns[TEALBOBBIN_AUX_WIDTH] = {1, 1, HALF, 1, 1, 0, 1, 1, 1, 0};
            for (size_t c = 0; c < TEALBOBBIN_AUX_WIDTH; c++)
                due[c * ELEMENT] = columns[c];
            due[TEALBOBBIN_AUX_CLOCK_JUMP_DIFFERENCE_LOOKUP_SERVER_LOG_DERIVATIVE * ELEMENT] = clock;
            put_zeros(0, 0);
            DONE(terminals_of_bytes());
            HOLDS_WORDS(cells, due, CELLS);
            /* row 0's clock is 0, two below the indeterminate */
            put_zeros(2, 0);
            due[TEALBOBBIN_AUX_CLOCK_JUMP_DIFFERENCE_LOOKUP_SERVER_LOG_DERIVATIVE * ELEMENT] = clock + 1;
            DONE(terminals_of_bytes());
            HOLDS_WORDS(cells, due, CELLS);
            if (log2_height == 12)
                log2_height = TEALBOBBIN_BATCH_MAX_LOG2_HEIGHT - 1;
        }
    form = log2_height = 0;
}

/* Before all else; and a batch that is too long. */
static void terminals_refuses_1(void)
{
    static const size_t wrong[] = {0, 1, CELLS - 1, CELLS + 1};
    put_zeros(0, 0);
    for (size_t i = 0; i < COUNT(wrong); i++) {
        REFUSED(1, tealbobbin_terminals(bytes, byte_count, cells, wrong[i]));
        REFUSED(1, tealbobbin_terminals(NULL, 0, cells, wrong[i]));
    }
    REFUSED(1, tealbobbin_terminals(bytes, byte_count, NULL, 0));
    REFUSED(8, tealbobbin_terminals(NULL, 0, cells, CELLS));
    memset(bytes, 0, sizeof(bytes));
    byte_count = TEALBOBBIN_BATCH_MAX_BYTES + 1;
    REFUSED(1, terminals_of_bytes());
    byte_count = TEALBOBBIN_BATCH_MAX_BYTES;
    REFUSED(9, terminals_of_bytes());
}

/* Those of open, each before those that come later. */
static void terminals_refuses_as_open(void)
{
    put_zeros(1, 1);
    byte_count--;
    REFUSED(8, terminals_of_bytes());
    put(UNKNOWN, 1);
    REFUSED(7, terminals_of_bytes());
    put_zeros(1, 1);
    put(END, 1);
    REFUSED(9, terminals_of_bytes());
    put_zeros(1, 1);
    byte_count--;
    put_command(OP_STACK, 1, P);
    REFUSED(10, terminals_of_bytes());
    put_zeros(1, P);
    REFUSED(2, terminals_of_bytes());
    byte_count = 0;
    put_rows_to_come(0);
    REFUSED(3, terminals_of_bytes());
    byte_count = 0;
    put_rows_to_come(3);
    put_height(1);
    REFUSED(12, terminals_of_bytes());
}

/* At every height: fill's before extension's. The clock's indeterminate becomes row 1's CLK, and row 1 is padding. */
static void terminals_refuses_4_and_6(void)
{
    for (log2_height = 0; log2_height <= 10; log2_height++)
        for (uint64_t difference = 0; difference < 3; difference++) {
            put_zeros(difference > 0, difference);
            size_t sampled = byte_count - 1 - (difference > 0 ? 9 : 0) - (1 + 8 * ROW) - 8 * TEALBOBBIN_SAMPLED_WORDS;
            bytes[sampled + 8 * ELEMENT * 11] = 1;
            REFUSED(difference ? 4 : 6, terminals_of_bytes());
        }
    log2_height = 0;
}

static void terminals(void)
{
    form = log2_height = 0;
    cells = lend(CELLS + 1);
    terminals_of_zeros();
    terminals_refuses_1();
    terminals_refuses_as_open();
    terminals_refuses_4_and_6();
}

static void constants(void)
{
    char version[32];
    snprintf(version, sizeof(version), "%d.%d.%d", TEALBOBBIN_VERSION_MAJOR, TEALBOBBIN_VERSION_MINOR, TEALBOBBIN_VERSION_PATCH);
    TRUE(strcmp(version, TEALBOBBIN_VERSION) == 0);
    TRUE(P == UINT64_MAX - UINT32_MAX + 1);
    TRUE(ONE == in_form(1));
    TRUE(MAP == 2 * ELEMENT);
    TRUE(TEALBOBBIN_RECORD_WORDS == TEALBOBBIN_CHALLENGE_COUNT * ELEMENT);
    TRUE(TEALBOBBIN_SAMPLED_WORDS == TEALBOBBIN_SAMPLE_COUNT * ELEMENT);
    TRUE(TEALBOBBIN_AUX_WORDS == TEALBOBBIN_AUX_WIDTH * ELEMENT);
    TRUE(TEALBOBBIN_BATCH_MAX_TRACE_WORDS == TEALBOBBIN_BATCH_MAX_ROWS * ROW);
    TRUE(MAX_LEN == 1 << TEALBOBBIN_BATCH_MAX_LOG2_HEIGHT);
    TRUE(TEALBOBBIN_WORK_COUNT(9, 0) == 0);
    TRUE(TEALBOBBIN_WORK_COUNT(0, 4) == 0);
    TRUE(TEALBOBBIN_WORK_COUNT(4 + 5, 1 << 2) == 3 * TEALBOBBIN_WORK_WORDS);
    TRUE(TEALBOBBIN_WORK_COUNT(SIZE_MAX, SIZE_MAX) == TEALBOBBIN_WORK_WORDS);
    TRUE(TEALBOBBIN_BATCH_BYTES(1, 0, 0) == 1777);
    TRUE(TEALBOBBIN_BATCH_BYTES(1, 0, 1) == 1779);
    TRUE(TEALBOBBIN_BATCH_BYTES(TEALBOBBIN_BATCH_MAX_ROWS, 3 * TEALBOBBIN_BATCH_MAX_DIFFERENCES + 64 + 64, 22) == 16090);
}

static const struct {
    const char *name;
    void (*run)(void);
    unsigned refusals[16];
} tests[] = {
    {"base_add", base_add, {TEALBOBBIN_SLICE_LENGTH, TEALBOBBIN_WORD_NOT_BELOW_P}},
    {"base_sub", base_sub, {TEALBOBBIN_SLICE_LENGTH, TEALBOBBIN_WORD_NOT_BELOW_P}},
    {"base_mul", base_mul, {TEALBOBBIN_SLICE_LENGTH, TEALBOBBIN_WORD_NOT_BELOW_P}},
    {"base_inverse", base_inverse, {TEALBOBBIN_SLICE_LENGTH, TEALBOBBIN_WORD_NOT_BELOW_P, TEALBOBBIN_ZERO_DENOMINATOR}},
    {"to_montgomery", to_montgomery, {TEALBOBBIN_SLICE_LENGTH, TEALBOBBIN_WORD_NOT_BELOW_P}},
    {"from_montgomery", from_montgomery, {TEALBOBBIN_SLICE_LENGTH, TEALBOBBIN_WORD_NOT_BELOW_P}},
    {"montgomery_add", montgomery_add, {TEALBOBBIN_SLICE_LENGTH, TEALBOBBIN_WORD_NOT_BELOW_P}},
    {"montgomery_mul", montgomery_mul, {TEALBOBBIN_SLICE_LENGTH, TEALBOBBIN_WORD_NOT_BELOW_P}},
    {"montgomery_inverse", montgomery_inverse,
     {TEALBOBBIN_SLICE_LENGTH, TEALBOBBIN_WORD_NOT_BELOW_P, TEALBOBBIN_ZERO_DENOMINATOR}},
    {"element_add", element_add, {TEALBOBBIN_SLICE_LENGTH, TEALBOBBIN_WORD_NOT_BELOW_P}},
    {"element_sub", element_sub, {TEALBOBBIN_SLICE_LENGTH, TEALBOBBIN_WORD_NOT_BELOW_P}},
    {"element_mul", element_mul, {TEALBOBBIN_SLICE_LENGTH, TEALBOBBIN_WORD_NOT_BELOW_P}},
    {"element_scale", element_scale, {TEALBOBBIN_SLICE_LENGTH, TEALBOBBIN_WORD_NOT_BELOW_P}},
    {"element_inverse", element_inverse, {TEALBOBBIN_SLICE_LENGTH, TEALBOBBIN_WORD_NOT_BELOW_P, TEALBOBBIN_ZERO_DENOMINATOR}},
    {"decode", decode, {TEALBOBBIN_SLICE_LENGTH, TEALBOBBIN_WORD_NOT_BELOW_P}},
    {"challenges", challenges, {TEALBOBBIN_SLICE_LENGTH, TEALBOBBIN_WORD_NOT_BELOW_P}},
    {"scan_maps", scan_maps, {TEALBOBBIN_SLICE_LENGTH, TEALBOBBIN_CHUNK_LENGTH_ZERO, TEALBOBBIN_WORD_NOT_BELOW_P}},
    {"scan_products", scan_products, {TEALBOBBIN_SLICE_LENGTH, TEALBOBBIN_CHUNK_LENGTH_ZERO, TEALBOBBIN_WORD_NOT_BELOW_P}},
    {"scan_sums", scan_sums, {TEALBOBBIN_SLICE_LENGTH, TEALBOBBIN_CHUNK_LENGTH_ZERO, TEALBOBBIN_WORD_NOT_BELOW_P}},
    {"fill", fill, {TEALBOBBIN_SLICE_LENGTH, TEALBOBBIN_ROW_COUNT, TEALBOBBIN_WORD_NOT_BELOW_P, TEALBOBBIN_DIFFERENCE_TOO_LARGE}},
    {"pad", pad, {TEALBOBBIN_SLICE_LENGTH, TEALBOBBIN_ROW_COUNT, TEALBOBBIN_WORD_NOT_BELOW_P}},
    {"extend", extend,
     {TEALBOBBIN_SLICE_LENGTH, TEALBOBBIN_ROW_COUNT, TEALBOBBIN_CHUNK_LENGTH_ZERO,
      TEALBOBBIN_WORD_NOT_BELOW_P, TEALBOBBIN_ZERO_DENOMINATOR}},
    {"extend_strict", extend_strict,
     {TEALBOBBIN_SLICE_LENGTH, TEALBOBBIN_ROW_COUNT, TEALBOBBIN_CHUNK_LENGTH_ZERO,
      TEALBOBBIN_WORD_NOT_BELOW_P, TEALBOBBIN_UNDECODABLE_ROW, TEALBOBBIN_ZERO_DENOMINATOR}},
    {"check", check,
     {TEALBOBBIN_SLICE_LENGTH, TEALBOBBIN_ROW_COUNT, TEALBOBBIN_WORD_NOT_BELOW_P, TEALBOBBIN_ZERO_DENOMINATOR}},
    {"check_at", check_at,
     {TEALBOBBIN_SLICE_LENGTH, TEALBOBBIN_ROW_COUNT, TEALBOBBIN_WORD_NOT_BELOW_P, TEALBOBBIN_ZERO_DENOMINATOR}},
    {"open", open,
     {TEALBOBBIN_SLICE_LENGTH, TEALBOBBIN_UNKNOWN_COMMAND, TEALBOBBIN_BATCH_CUT_OFF,
      TEALBOBBIN_COMMAND_OUT_OF_PLACE, TEALBOBBIN_COMMAND_OUT_OF_ORDER, TEALBOBBIN_ROW_COUNT, TEALBOBBIN_HEIGHT_OUT_OF_RANGE,
      TEALBOBBIN_WORD_NOT_BELOW_P}},
    {"write", write,
     {TEALBOBBIN_SLICE_LENGTH, TEALBOBBIN_ROW_COUNT, TEALBOBBIN_HEIGHT_OUT_OF_RANGE, TEALBOBBIN_WORD_NOT_BELOW_P}},
    {"terminals", terminals,
     {TEALBOBBIN_SLICE_LENGTH, TEALBOBBIN_UNKNOWN_COMMAND, TEALBOBBIN_BATCH_CUT_OFF,
      TEALBOBBIN_COMMAND_OUT_OF_PLACE, TEALBOBBIN_COMMAND_OUT_OF_ORDER, TEALBOBBIN_ROW_COUNT, TEALBOBBIN_HEIGHT_OUT_OF_RANGE,
      TEALBOBBIN_WORD_NOT_BELOW_P, TEALBOBBIN_DIFFERENCE_TOO_LARGE, TEALBOBBIN_ZERO_DENOMINATOR}},
};

int main(void)
{
    setvbuf(stdout, NULL, _IOLBF, BUFSIZ);
    test = "constants";
    constants();
    for (size_t t = 0; t < COUNT(tests); t++) {
        test = tests[t].name;
        answers = 0;
        tests[t].run();
        give_back();
        unsigned due = BIT(TEALBOBBIN_DONE);
        for (const unsigned *refusal = tests[t].refusals; *refusal; refusal++)
            due |= BIT(*refusal);
        for (unsigned answer = 0; answer < 32; answer++)
            if ((answers ^ due) & BIT(answer))
                failed(__LINE__, "%u %s", answer, due & BIT(answer) ? "was never answered" : "is not in its line");
        checks++;
    }
    printf("%lu checks, %lu failed\n", checks, failures);
    return failures ? 1 : 0;
}
