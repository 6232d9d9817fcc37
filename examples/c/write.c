/*
 * One trace row of zeros, a digest of zeros and challenges that are all 2: writes their batch, which is examples/document-01.batch,
 * to standard output. A refusal says its number on standard error instead.
 *
 *     cc examples/c/write.c -I include -L target/staticlib -ltealbobbin -o target/write
 */
#include <inttypes.h>
#include <stdio.h>

#include "tealbobbin.h"

#define COUNT(slice) (sizeof(slice) / sizeof((slice)[0]))
#define ROWS 1

static const uint64_t trace[ROWS * TEALBOBBIN_MAIN_WIDTH];
static const uint64_t digest[TEALBOBBIN_DIGEST_WORDS];
static uint64_t sampled[TEALBOBBIN_SAMPLED_WORDS];

/* There are no differences, and no input or output: no words but those of every batch. The trace sets the height. */
static uint8_t batch[TEALBOBBIN_BATCH_BYTES(ROWS, 0, 0)];

int main(void)
{
    for (size_t i = 0; i < COUNT(sampled); i += TEALBOBBIN_ELEMENT_WORDS)
        sampled[i] = 2;
    uint32_t refusal = tealbobbin_write(trace, COUNT(trace), NULL, 0, NULL, 0, NULL, 0, sampled, COUNT(sampled),
                                        digest, COUNT(digest), NULL, 0, NULL, 0, TEALBOBBIN_FORM_PLAIN, 0, batch, sizeof(batch));
    if (refusal) {
        fprintf(stderr, "refused %" PRIu32 "\n", refusal);
        return 3;
    }
    return fwrite(batch, 1, sizeof(batch), stdout) < sizeof(batch) || fflush(stdout) ? 1 : 0;
}
