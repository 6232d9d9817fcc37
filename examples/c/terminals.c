/*
 * terminals [FILE]: prints the eleven cells of the last row of the table that the batch in FILE, or the one on standard input, leads
 * to, column then coefficients, or `refused` and the number of the first refusal.
 *
 *     cc examples/c/terminals.c -I include -L target/staticlib -ltealbobbin -o target/terminals.example
 *
 * Exit status: 0, 3 if the batch is refused, 2 if it cannot be read, 1 if the cells cannot be written.
 */
#include <inttypes.h>
#include <stdio.h>

#include "tealbobbin.h"

/* One byte more than a batch may have, so that a longer one is seen to be longer. */
static uint8_t batch[TEALBOBBIN_BATCH_MAX_BYTES + 1];

int main(int argc, char **argv)
{
    if (argc > 2) {
        fprintf(stderr, "usage: terminals [FILE]\n");
        return 2;
    }
    const char *name = argc == 2 ? argv[1] : "standard input";
    FILE *file = argc == 2 ? fopen(name, "rb") : stdin;
    size_t batch_count = file ? fread(batch, 1, sizeof(batch), file) : 0;
    if (!file || ferror(file)) {
        perror(name);
        return 2;
    }

    uint64_t cells[TEALBOBBIN_AUX_WORDS];
    uint32_t refusal = tealbobbin_terminals(batch, batch_count, cells, TEALBOBBIN_AUX_WORDS);
    if (refusal) {
        printf("refused %" PRIu32 "\n", refusal);
        return 3;
    }
    const uint64_t *cell = cells;
    for (int column = 0; column < TEALBOBBIN_AUX_WIDTH; column++, cell += TEALBOBBIN_ELEMENT_WORDS)
        printf("%d %" PRIu64 " %" PRIu64 " %" PRIu64 "\n", column, cell[0], cell[1], cell[2]);
    return fflush(stdout) ? 1 : 0;
}
