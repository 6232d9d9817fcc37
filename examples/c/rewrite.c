/*
 * rewrite FORM [FILE]: opens the batch in FILE, or the one on standard input, and writes it to standard output with its rows in FORM,
 * `plain` or `montgomery`. A refusal says its number on standard error instead.
 *
 *     cc examples/c/rewrite.c -I include -L target/staticlib -ltealbobbin -o target/rewrite
 *     target/rewrite montgomery examples/document-01.batch > target/montgomery.batch
 *
 * Exit status: 0, 3 if the batch is refused, 2 if it cannot be read, 1 if it cannot be written.
 */
#include <inttypes.h>
#include <stdio.h>
#include <string.h>

#include "tealbobbin.h"

#define COUNT(slice) (sizeof(slice) / sizeof((slice)[0]))

/* One byte more than a batch may have, so that a longer one is seen to be longer. */
static uint8_t batch[TEALBOBBIN_BATCH_MAX_BYTES + 1];

/* What the batch brings: plain words in either form. */
static uint64_t trace[TEALBOBBIN_BATCH_MAX_TRACE_WORDS];
static uint64_t op_stack[TEALBOBBIN_BATCH_MAX_DIFFERENCES];
static uint64_t ram[TEALBOBBIN_BATCH_MAX_DIFFERENCES];
static uint64_t jump_stack[TEALBOBBIN_BATCH_MAX_DIFFERENCES];
static uint64_t sampled[TEALBOBBIN_SAMPLED_WORDS];
static uint64_t digest[TEALBOBBIN_DIGEST_WORDS];
static uint64_t input[TEALBOBBIN_BATCH_MAX_INPUT];
static uint64_t output[TEALBOBBIN_BATCH_MAX_OUTPUT];
static uint64_t counts[TEALBOBBIN_COUNTS];

/* A batch has the same number of bytes in both forms. */
static uint32_t rewrite(enum tealbobbin_form form, size_t batch_count)
{
    uint32_t refusal = tealbobbin_open(batch, batch_count, trace, COUNT(trace), op_stack, COUNT(op_stack), ram, COUNT(ram),
                                       jump_stack, COUNT(jump_stack), sampled, COUNT(sampled), digest, COUNT(digest),
                                       input, COUNT(input), output, COUNT(output), counts, COUNT(counts));
    if (refusal)
        return refusal;
    return tealbobbin_write(trace, counts[TEALBOBBIN_COUNT_ROWS] * TEALBOBBIN_MAIN_WIDTH,
                            op_stack, counts[TEALBOBBIN_COUNT_OP_STACK], ram, counts[TEALBOBBIN_COUNT_RAM],
                            jump_stack, counts[TEALBOBBIN_COUNT_JUMP_STACK], sampled, COUNT(sampled), digest, COUNT(digest),
                            input, counts[TEALBOBBIN_COUNT_INPUT], output, counts[TEALBOBBIN_COUNT_OUTPUT],
                            form, counts[TEALBOBBIN_COUNT_LOG2_HEIGHT], batch, batch_count);
}

int main(int argc, char **argv)
{
    int montgomery = argc > 1 && strcmp(argv[1], "montgomery") == 0;
    if (argc < 2 || argc > 3 || (!montgomery && strcmp(argv[1], "plain") != 0)) {
        fprintf(stderr, "usage: rewrite plain|montgomery [FILE]\n");
        return 2;
    }
    const char *name = argc == 3 ? argv[2] : "standard input";
    FILE *file = argc == 3 ? fopen(name, "rb") : stdin;
    size_t batch_count = file ? fread(batch, 1, sizeof(batch), file) : 0;
    if (!file || ferror(file)) {
        perror(name);
        return 2;
    }

    uint32_t refusal = rewrite(montgomery ? TEALBOBBIN_FORM_MONTGOMERY : TEALBOBBIN_FORM_PLAIN, batch_count);
    if (refusal) {
        fprintf(stderr, "refused %" PRIu32 "\n", refusal);
        return 3;
    }
    return fwrite(batch, 1, batch_count, stdout) < batch_count || fflush(stdout) ? 1 : 0;
}
