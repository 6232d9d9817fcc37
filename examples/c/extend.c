/*
 * One trace row of zeros under challenges that are all 2: derives the challenges, fills and pads a table of two rows, extends it
 * and prints the eleven cells of its last row, column then coefficients. A refusal prints its number instead.
 *
 *     cc examples/c/extend.c -I include -L target/staticlib -ltealbobbin -o target/extend
 */
#include <inttypes.h>
#include <stdio.h>

#include "tealbobbin.h"

#define COUNT(slice) (sizeof(slice) / sizeof((slice)[0]))
#define ROWS 2
#define CHUNK 4

static const uint64_t trace[TEALBOBBIN_MAIN_WIDTH];
static const uint64_t digest[TEALBOBBIN_DIGEST_WORDS];
static uint64_t sampled[TEALBOBBIN_SAMPLED_WORDS];
static uint64_t challenges[TEALBOBBIN_RECORD_WORDS];
static uint64_t table[ROWS * TEALBOBBIN_MAIN_WIDTH];
static uint64_t aux[ROWS * TEALBOBBIN_AUX_WORDS];
static uint64_t work[TEALBOBBIN_WORK_COUNT(ROWS, CHUNK)];

/* The claim has no input and no output, the trace no clock jump differences. */
static uint32_t extend(void)
{
    uint32_t refusal = tealbobbin_challenges(sampled, COUNT(sampled), digest, COUNT(digest), NULL, 0, NULL, 0,
                                             challenges, COUNT(challenges));
    if (refusal)
        return refusal;
    refusal = tealbobbin_fill(trace, COUNT(trace), NULL, 0, NULL, 0, NULL, 0, table, COUNT(table));
    if (refusal)
        return refusal;
    refusal = tealbobbin_pad(table, COUNT(table), COUNT(trace) / TEALBOBBIN_MAIN_WIDTH);
    if (refusal)
        return refusal;
    return tealbobbin_extend(table, COUNT(table), challenges, COUNT(challenges), CHUNK, aux, COUNT(aux), work, COUNT(work));
}

int main(void)
{
    for (size_t i = 0; i < COUNT(sampled); i += TEALBOBBIN_ELEMENT_WORDS)
        sampled[i] = 2;
    uint32_t refusal = extend();
    if (refusal) {
        printf("refused %" PRIu32 "\n", refusal);
        return 3;
    }
    const uint64_t *cell = aux + (ROWS - 1) * TEALBOBBIN_AUX_WORDS;
    for (int column = 0; column < TEALBOBBIN_AUX_WIDTH; column++, cell += TEALBOBBIN_ELEMENT_WORDS)
        printf("%d %" PRIu64 " %" PRIu64 " %" PRIu64 "\n", column, cell[0], cell[1], cell[2]);
    return 0;
}
