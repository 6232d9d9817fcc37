/*
 * open [FILE]: opens the batch in FILE, or the one on standard input, builds its table, and prints the eleven cells of its last row,
 * column then coefficients, or `refused` and the number of the first refusal. Where only these cells are wanted, terminals.c needs
 * no table.
 *
 *     cc examples/c/open.c -I include -L target/staticlib -ltealbobbin -o target/open
 *
 * Exit status: 0, 3 if the batch is refused, 2 if it cannot be read, 1 if there is no memory for its table, or the cells cannot be
 * written.
 */
#include <inttypes.h>
#include <stdio.h>
#include <stdlib.h>

#include "tealbobbin.h"

#define COUNT(slice) (sizeof(slice) / sizeof((slice)[0]))
#define CHUNK 4

/* One byte more than a batch may have, so that a longer one is seen to be longer. */
static uint8_t batch[TEALBOBBIN_BATCH_MAX_BYTES + 1];

/* What the batch brings. */
static uint64_t trace[TEALBOBBIN_BATCH_MAX_TRACE_WORDS];
static uint64_t op_stack[TEALBOBBIN_BATCH_MAX_DIFFERENCES];
static uint64_t ram[TEALBOBBIN_BATCH_MAX_DIFFERENCES];
static uint64_t jump_stack[TEALBOBBIN_BATCH_MAX_DIFFERENCES];
static uint64_t sampled[TEALBOBBIN_SAMPLED_WORDS];
static uint64_t digest[TEALBOBBIN_DIGEST_WORDS];
static uint64_t input[TEALBOBBIN_BATCH_MAX_INPUT];
static uint64_t output[TEALBOBBIN_BATCH_MAX_OUTPUT];
static uint64_t counts[TEALBOBBIN_COUNTS];

/* What is made of it. */
static uint64_t challenges[TEALBOBBIN_RECORD_WORDS];
static size_t height;
static uint64_t *table, *aux, *work;

/* The height that the batch sets, or the smallest power of two, at least 2, that holds the trace. */
static size_t height_of_table(void)
{
    size_t height = 2;
    if (counts[TEALBOBBIN_COUNT_LOG2_HEIGHT])
        return (size_t)1 << counts[TEALBOBBIN_COUNT_LOG2_HEIGHT];
    while (height < counts[TEALBOBBIN_COUNT_ROWS])
        height *= 2;
    return height;
}

static uint64_t *room(size_t words)
{
    uint64_t *room = calloc(words, sizeof(uint64_t));
    if (!room) {
        fprintf(stderr, "no memory for %zu words\n", words);
        exit(1);
    }
    return room;
}

/* Each step is taken only if the one before it was not refused; the answer is the first refusal. */
static uint32_t extend_batch(size_t batch_count)
{
    uint32_t refusal = tealbobbin_open(batch, batch_count, trace, COUNT(trace), op_stack, COUNT(op_stack), ram, COUNT(ram),
                                       jump_stack, COUNT(jump_stack), sampled, COUNT(sampled), digest, COUNT(digest),
                                       input, COUNT(input), output, COUNT(output), counts, COUNT(counts));
    if (refusal)
        return refusal;

    size_t rows = counts[TEALBOBBIN_COUNT_ROWS];
    height = height_of_table();
    table = room(height * TEALBOBBIN_MAIN_WIDTH);
    aux = room(height * TEALBOBBIN_AUX_WORDS);
    work = room(TEALBOBBIN_WORK_COUNT(height, CHUNK));
    refusal = tealbobbin_challenges(sampled, COUNT(sampled), digest, COUNT(digest), input, counts[TEALBOBBIN_COUNT_INPUT],
                                    output, counts[TEALBOBBIN_COUNT_OUTPUT], challenges, COUNT(challenges));
    if (refusal)
        return refusal;
    refusal = tealbobbin_fill(trace, rows * TEALBOBBIN_MAIN_WIDTH, op_stack, counts[TEALBOBBIN_COUNT_OP_STACK],
                              ram, counts[TEALBOBBIN_COUNT_RAM], jump_stack, counts[TEALBOBBIN_COUNT_JUMP_STACK],
                              table, height * TEALBOBBIN_MAIN_WIDTH);
    if (refusal)
        return refusal;
    refusal = tealbobbin_pad(table, height * TEALBOBBIN_MAIN_WIDTH, rows);
    if (refusal)
        return refusal;
    return tealbobbin_extend(table, height * TEALBOBBIN_MAIN_WIDTH, challenges, COUNT(challenges), CHUNK,
                             aux, height * TEALBOBBIN_AUX_WORDS, work, TEALBOBBIN_WORK_COUNT(height, CHUNK));
}

int main(int argc, char **argv)
{
    if (argc > 2) {
        fprintf(stderr, "usage: open [FILE]\n");
        return 2;
    }
    const char *name = argc == 2 ? argv[1] : "standard input";
    FILE *file = argc == 2 ? fopen(name, "rb") : stdin;
    size_t batch_count = file ? fread(batch, 1, sizeof(batch), file) : 0;
    if (!file || ferror(file)) {
        perror(name);
        return 2;
    }

    uint32_t refusal = extend_batch(batch_count);
    if (refusal) {
        printf("refused %" PRIu32 "\n", refusal);
        return 3;
    }
    const uint64_t *cell = aux + (height - 1) * TEALBOBBIN_AUX_WORDS;
    for (int column = 0; column < TEALBOBBIN_AUX_WIDTH; column++, cell += TEALBOBBIN_ELEMENT_WORDS)
        printf("%d %" PRIu64 " %" PRIu64 " %" PRIu64 "\n", column, cell[0], cell[1], cell[2]);
    return fflush(stdout) ? 1 : 0;
}
