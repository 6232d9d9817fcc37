/*
 * Tealbobbin: the processor table of a Triton VM run and its eleven running-argument columns.
 *
 * A slice is two parameters, NAME and NAME_count: a pointer and how many words (at `batch`, bytes) it points to. The pointer of
 * an empty slice is not read and may be NULL. A slice that is written shares no memory with another slice of the same call.
 *
 * Every function answers TEALBOBBIN_DONE or the number of a refusal: the first whose condition holds, in the order in which the
 * function's comment lists them. Nothing is written on a refusal. Slices of any length and words of any value get an answer.
 *
 * No function allocates, keeps a pointer or has state. Calls may run at the same time unless one writes what another reads or
 * writes.
 *
 * A base element is a word below p. An element is three words, the coefficient of X^0 first, modulo X^3 - X + 1. Words are plain
 * unless a comment says that they are in Montgomery form, in which the base element v is the word v * 2^64 modulo p.
 */
#ifndef TEALBOBBIN_H
#define TEALBOBBIN_H

#include <stddef.h>
#include <stdint.h>

#ifdef __cplusplus
extern "C" {
#endif

/* The Rust crate's Cargo.toml has the same version. */
#define TEALBOBBIN_VERSION_MAJOR 0
#define TEALBOBBIN_VERSION_MINOR 7
#define TEALBOBBIN_VERSION_PATCH 0
#define TEALBOBBIN_VERSION "0.7.0"

enum tealbobbin_refusal {
    TEALBOBBIN_DONE = 0,                  /* none */
    TEALBOBBIN_SLICE_LENGTH = 1,          /* a slice has the wrong length */
    TEALBOBBIN_WORD_NOT_BELOW_P = 2,      /* a word is not below p */
    TEALBOBBIN_ROW_COUNT = 3,             /* a number of rows is out of range */
    TEALBOBBIN_DIFFERENCE_TOO_LARGE = 4,  /* a clock jump difference is not below the number of trace rows */
    TEALBOBBIN_CHUNK_LENGTH_ZERO = 5,     /* the chunk length is 0 */
    TEALBOBBIN_ZERO_DENOMINATOR = 6,      /* a denominator is zero, or what is to be inverted */
    TEALBOBBIN_UNKNOWN_COMMAND = 7,       /* a byte of a batch is no command */
    TEALBOBBIN_BATCH_CUT_OFF = 8,         /* a batch ends too early */
    TEALBOBBIN_COMMAND_OUT_OF_PLACE = 9,  /* a batch has a command out of place or too often, or lacks one */
    TEALBOBBIN_COMMAND_OUT_OF_ORDER = 10, /* a batch has a command behind one that belongs after it, or a difference below the one
                                             before it */
    TEALBOBBIN_UNDECODABLE_ROW = 11,      /* a row does not decode; strict extension alone */
    TEALBOBBIN_HEIGHT_OUT_OF_RANGE = 12   /* a batch's height is out of range, or holds fewer rows than the trace has */
};

/* p = 2^64 - 2^32 + 1 */
#define TEALBOBBIN_P UINT64_C(18446744069414584321)

/* 1 in Montgomery form: 2^64 modulo p. */
#define TEALBOBBIN_MONTGOMERY_ONE UINT64_C(4294967295)

/* Words of an element, and of a map r -> a*r + b: a, then b. */
#define TEALBOBBIN_ELEMENT_WORDS 3
#define TEALBOBBIN_MAP_WORDS 6

/* Challenges, those of them that are sampled, and the words of each; words of a program digest. */
#define TEALBOBBIN_CHALLENGE_COUNT 63
#define TEALBOBBIN_SAMPLE_COUNT 59
#define TEALBOBBIN_RECORD_WORDS 189
#define TEALBOBBIN_SAMPLED_WORDS 177
#define TEALBOBBIN_DIGEST_WORDS 5

/* A row: words of the main table; elements, then words, of the auxiliary table. */
#define TEALBOBBIN_MAIN_WIDTH 39
#define TEALBOBBIN_AUX_WIDTH 11
#define TEALBOBBIN_AUX_WORDS 33

/* Words of work in extension for each started chunk of rows. */
#define TEALBOBBIN_WORK_WORDS 6

/*
 * The words of work for this many rows by chunks of this many: rows / chunk, rounded up, times TEALBOBBIN_WORK_WORDS; 0 where chunk
 * is 0, which extension refuses. It evaluates its arguments more than once, and is a constant where they are.
 */
#define TEALBOBBIN_WORK_COUNT(rows, chunk) \
    ((rows) == 0 || (chunk) == 0 ? 0 : TEALBOBBIN_WORK_WORDS * (((size_t)(rows) - 1) / ((chunk) == 0 ? 1 : (size_t)(chunk)) + 1))

/* The most rows of a table, items of a scan, words of a list, of input and of output. "Long" means more. */
#define TEALBOBBIN_MAX_LEN 4194304

/* Where a column stands in a row of the main table, counted in words. */
enum tealbobbin_main_column {
    TEALBOBBIN_MAIN_CLK = 0,
    TEALBOBBIN_MAIN_IS_PADDING = 1,
    TEALBOBBIN_MAIN_IP = 2,
    TEALBOBBIN_MAIN_CI = 3,
    TEALBOBBIN_MAIN_NIA = 4,
    TEALBOBBIN_MAIN_IB0 = 5,
    TEALBOBBIN_MAIN_IB1 = 6,
    TEALBOBBIN_MAIN_IB2 = 7,
    TEALBOBBIN_MAIN_IB3 = 8,
    TEALBOBBIN_MAIN_IB4 = 9,
    TEALBOBBIN_MAIN_IB5 = 10,
    TEALBOBBIN_MAIN_IB6 = 11,
    TEALBOBBIN_MAIN_JSP = 12,
    TEALBOBBIN_MAIN_JSO = 13,
    TEALBOBBIN_MAIN_JSD = 14,
    TEALBOBBIN_MAIN_ST0 = 15,
    TEALBOBBIN_MAIN_ST1 = 16,
    TEALBOBBIN_MAIN_ST2 = 17,
    TEALBOBBIN_MAIN_ST3 = 18,
    TEALBOBBIN_MAIN_ST4 = 19,
    TEALBOBBIN_MAIN_ST5 = 20,
    TEALBOBBIN_MAIN_ST6 = 21,
    TEALBOBBIN_MAIN_ST7 = 22,
    TEALBOBBIN_MAIN_ST8 = 23,
    TEALBOBBIN_MAIN_ST9 = 24,
    TEALBOBBIN_MAIN_ST10 = 25,
    TEALBOBBIN_MAIN_ST11 = 26,
    TEALBOBBIN_MAIN_ST12 = 27,
    TEALBOBBIN_MAIN_ST13 = 28,
    TEALBOBBIN_MAIN_ST14 = 29,
    TEALBOBBIN_MAIN_ST15 = 30,
    TEALBOBBIN_MAIN_OP_STACK_POINTER = 31,
    TEALBOBBIN_MAIN_HV0 = 32,
    TEALBOBBIN_MAIN_HV1 = 33,
    TEALBOBBIN_MAIN_HV2 = 34,
    TEALBOBBIN_MAIN_HV3 = 35,
    TEALBOBBIN_MAIN_HV4 = 36,
    TEALBOBBIN_MAIN_HV5 = 37,
    TEALBOBBIN_MAIN_CLOCK_JUMP_DIFFERENCE_LOOKUP_MULTIPLICITY = 38
};

/* Where a column stands in a row of the auxiliary table, counted in elements. */
enum tealbobbin_aux_column {
    TEALBOBBIN_AUX_INPUT_TABLE_EVAL_ARG = 0,
    TEALBOBBIN_AUX_OUTPUT_TABLE_EVAL_ARG = 1,
    TEALBOBBIN_AUX_INSTRUCTION_LOOKUP_CLIENT_LOG_DERIVATIVE = 2,
    TEALBOBBIN_AUX_OP_STACK_TABLE_PERM_ARG = 3,
    TEALBOBBIN_AUX_RAM_TABLE_PERM_ARG = 4,
    TEALBOBBIN_AUX_JUMP_STACK_TABLE_PERM_ARG = 5,
    TEALBOBBIN_AUX_HASH_INPUT_EVAL_ARG = 6,
    TEALBOBBIN_AUX_HASH_DIGEST_EVAL_ARG = 7,
    TEALBOBBIN_AUX_SPONGE_EVAL_ARG = 8,
    TEALBOBBIN_AUX_U32_LOOKUP_CLIENT_LOG_DERIVATIVE = 9,
    TEALBOBBIN_AUX_CLOCK_JUMP_DIFFERENCE_LOOKUP_SERVER_LOG_DERIVATIVE = 10
};

/*
 * The most bytes of a batch and the most that it brings: trace rows, words of these rows, differences in a list, input words,
 * output words. The last four are also the lengths of the slices that tealbobbin_open fills, and the most that tealbobbin_write
 * takes.
 */
#define TEALBOBBIN_BATCH_MAX_BYTES 16384
#define TEALBOBBIN_BATCH_MAX_ROWS 32
#define TEALBOBBIN_BATCH_MAX_TRACE_WORDS 1248
#define TEALBOBBIN_BATCH_MAX_DIFFERENCES 128
#define TEALBOBBIN_BATCH_MAX_INPUT 64
#define TEALBOBBIN_BATCH_MAX_OUTPUT 64

/* The most k of a batch whose table is to have 2^k rows: these are TEALBOBBIN_MAX_LEN. */
#define TEALBOBBIN_BATCH_MAX_LOG2_HEIGHT 22

/*
 * The bytes of a batch with this many trace rows, and this many differences, input and output words together, whose table is to
 * have 2^k rows, or the height that the trace sets where k is 0.
 */
#define TEALBOBBIN_BATCH_BYTES(rows, words, k) (1464 + 313 * (size_t)(rows) + 9 * (size_t)(words) + ((k) ? 2 : 0))

/* The form of the words in a batch's trace rows. */
enum tealbobbin_form {
    TEALBOBBIN_FORM_PLAIN = 0,     /* command 02 */
    TEALBOBBIN_FORM_MONTGOMERY = 1 /* command 0A */
};

/* Where each number stands in the counts of an opened batch, and how many there are. */
enum tealbobbin_count {
    TEALBOBBIN_COUNT_ROWS = 0,
    TEALBOBBIN_COUNT_OP_STACK = 1,
    TEALBOBBIN_COUNT_RAM = 2,
    TEALBOBBIN_COUNT_JUMP_STACK = 3,
    TEALBOBBIN_COUNT_INPUT = 4,
    TEALBOBBIN_COUNT_OUTPUT = 5,
    TEALBOBBIN_COUNT_LOG2_HEIGHT = 6, /* k, where the batch sets 2^k rows, or 0, where the trace sets the height */
    TEALBOBBIN_COUNTS = 7
};

/*
 * Base elements: a + b, a - b, a * b modulo p, into `out`, 1 word.
 *
 * 1: `out` has another length.
 * 2: a or b is not below p.
 */
uint32_t tealbobbin_base_add(uint64_t a, uint64_t b, uint64_t *out, size_t out_count);
uint32_t tealbobbin_base_sub(uint64_t a, uint64_t b, uint64_t *out, size_t out_count);
uint32_t tealbobbin_base_mul(uint64_t a, uint64_t b, uint64_t *out, size_t out_count);

/*
 * The inverse of a base element, 1 / a modulo p, into `out`, 1 word.
 *
 * 1: `out` has another length.
 * 2: a is not below p.
 * 6: a is 0.
 */
uint32_t tealbobbin_base_inverse(uint64_t a, uint64_t *out, size_t out_count);

/*
 * A plain word into Montgomery form, a * 2^64 modulo p, and a word in the form back to the plain one, a / 2^64 modulo p, into
 * `out`, 1 word.
 *
 * 1: `out` has another length.
 * 2: a is not below p.
 */
uint32_t tealbobbin_to_montgomery(uint64_t a, uint64_t *out, size_t out_count);
uint32_t tealbobbin_from_montgomery(uint64_t a, uint64_t *out, size_t out_count);

/*
 * The sum and the product of words in Montgomery form, in the form, into `out`, 1 word.
 *
 * 1: `out` has another length.
 * 2: a or b is not below p.
 */
uint32_t tealbobbin_montgomery_add(uint64_t a, uint64_t b, uint64_t *out, size_t out_count);
uint32_t tealbobbin_montgomery_mul(uint64_t a, uint64_t b, uint64_t *out, size_t out_count);

/*
 * The inverse of a word in Montgomery form, in the form: its product with a is TEALBOBBIN_MONTGOMERY_ONE. Into `out`, 1 word.
 *
 * 1: `out` has another length.
 * 2: a is not below p.
 * 6: a is 0.
 */
uint32_t tealbobbin_montgomery_inverse(uint64_t a, uint64_t *out, size_t out_count);

/*
 * Elements: a + b, a - b, a * b, into `out`. Each slice is an element, 3 words.
 *
 * 1: a slice has another length.
 * 2: a word of `a` or `b` is not below p.
 */
uint32_t tealbobbin_element_add(const uint64_t *a, size_t a_count, const uint64_t *b, size_t b_count,
                                uint64_t *out, size_t out_count);
uint32_t tealbobbin_element_sub(const uint64_t *a, size_t a_count, const uint64_t *b, size_t b_count,
                                uint64_t *out, size_t out_count);
uint32_t tealbobbin_element_mul(const uint64_t *a, size_t a_count, const uint64_t *b, size_t b_count,
                                uint64_t *out, size_t out_count);

/*
 * A base element k times the element `a`, into `out`. Each slice is an element, 3 words.
 *
 * 1: a slice has another length.
 * 2: k or a word of `a` is not below p.
 */
uint32_t tealbobbin_element_scale(uint64_t k, const uint64_t *a, size_t a_count, uint64_t *out, size_t out_count);

/*
 * The inverse of an element, 1 / a, into `out`. Each slice is an element, 3 words.
 *
 * 1: a slice has another length.
 * 2: a word of `a` is not below p.
 * 6: `a` is zero.
 */
uint32_t tealbobbin_element_inverse(const uint64_t *a, size_t a_count, uint64_t *out, size_t out_count);

/* What a row decodes to: the first of the two words that tealbobbin_decode writes. */
enum tealbobbin_decoded {
    TEALBOBBIN_DECODED_UNKNOWN = 0,         /* no instruction has the opcode */
    TEALBOBBIN_DECODED_READ = 1,            /* an instruction */
    TEALBOBBIN_DECODED_OUTSIDE_0_TO_15 = 2, /* the instruction names an element of the stack, and its argument is not in 0 to 15 */
    TEALBOBBIN_DECODED_OUTSIDE_1_TO_5 = 3   /* the instruction moves a number of words, and its argument is not in 1 to 5 */
};

/*
 * The instruction of `row`, a row of the main table, 39 words: CI is its opcode, NIA its argument if it takes one. Into `out`, 2
 * words: what the row decodes to, by enum tealbobbin_decoded, and the opcode, or 0 and 0 where no instruction has the opcode.
 *
 * 1: `row` or `out` has another length.
 * 2: a word of `row` is not below p.
 */
uint32_t tealbobbin_decode(const uint64_t *row, size_t row_count, uint64_t *out, size_t out_count);

/*
 * All challenges into `record`, 189 words: those of `sampled`, 177 words, in their order, then the four that are derived from
 * them: the terminals of `input`, of `output` and of the byte table, and the compressed `digest`, 5 words. `input` and `output`
 * are the words of the claim, and may be empty.
 *
 * 1: `sampled`, `digest` or `record` has another length, or `input` or `output` is long.
 * 2: a word of `sampled`, `digest`, `input` or `output` is not below p.
 */
uint32_t tealbobbin_challenges(const uint64_t *sampled, size_t sampled_count, const uint64_t *digest, size_t digest_count,
                               const uint64_t *input, size_t input_count, const uint64_t *output, size_t output_count,
                               uint64_t *record, size_t record_count);

/*
 * Scans in place, by chunks of `chunk` items: each item becomes what the items up to and with it come to: maps applied first to
 * last, products, sums. An item is a map of 6 words, or an element of 3. `items` may be empty. The result is the same at every
 * chunk length.
 *
 * 1: `items` is not whole items, or long in items.
 * 5: `chunk` is 0.
 * 2: a word of `items` is not below p.
 */
uint32_t tealbobbin_scan_maps(uint64_t *items, size_t items_count, size_t chunk);
uint32_t tealbobbin_scan_products(uint64_t *items, size_t items_count, size_t chunk);
uint32_t tealbobbin_scan_sums(uint64_t *items, size_t items_count, size_t chunk);

/*
 * Copies the rows of `trace` into the first rows of `table`, both rows of the main table, 39 words each; row c's lookup
 * multiplicity, its last word, becomes how often c stands in `op_stack`, `ram` and `jump_stack`, the lists of clock jump
 * differences. Later rows stay. The lists and `trace` may be empty.
 *
 * 1: `trace` or `table` is not whole rows, or a list is long.
 * 3: `table` is long in rows, or has fewer than `trace`.
 * 2: a word of `trace` or of a list is not below p.
 * 4: a difference is not below the number of rows of `trace`.
 */
uint32_t tealbobbin_fill(const uint64_t *trace, size_t trace_count, const uint64_t *op_stack, size_t op_stack_count,
                         const uint64_t *ram, size_t ram_count, const uint64_t *jump_stack, size_t jump_stack_count,
                         uint64_t *table, size_t table_count);

/*
 * Makes the rows of `table`, 39 words each, from row `table_len` on padding: row table_len - 1 with IsPadding 1, multiplicity 0
 * and CLK the row's index. Then row 1's multiplicity grows by the number of padding rows, modulo p.
 *
 * 1: `table` is not whole rows.
 * 3: `table` has under 2 rows or is long in rows, or `table_len` is 0 or above its rows.
 * 2: a word of the first `table_len` rows is not below p.
 */
uint32_t tealbobbin_pad(uint64_t *table, size_t table_count, size_t table_len);

/*
 * Extends `main`, rows of 39 words, by chunks of `chunk` rows: writes the eleven columns into `aux`, row by row, 33 words a row.
 * `challenges` is a record of 189 words. `work` is room for 6 words for each started chunk, TEALBOBBIN_WORK_COUNT words, and ends
 * as zeros. The cells are the same at every chunk length. A row that does not decode brings no entry where a column asks for its
 * instruction.
 *
 * 1: `main` is not whole rows, `aux` not 33 words for each, or `challenges` has another length.
 * 3: `main` has no row or is long in rows.
 * 5: `chunk` is 0.
 * 1: `work` is not 6 words for each started chunk.
 * 2: a word of `main` or `challenges` is not below p.
 * 6: an entry of the instruction, U32 or clock column has denominator zero.
 */
uint32_t tealbobbin_extend(const uint64_t *main, size_t main_count, const uint64_t *challenges, size_t challenges_count,
                           size_t chunk, uint64_t *aux, size_t aux_count, uint64_t *work, size_t work_count);

/*
 * Extends `main` as tealbobbin_extend does, with the same slices, if each of its rows decodes: row 0, the last one and padding
 * rows too. There the two write the same.
 *
 * 1, 3, 5, 1, 2: as tealbobbin_extend.
 * 11: a row of `main` does not decode. tealbobbin_decode says why.
 * 6: as tealbobbin_extend.
 */
uint32_t tealbobbin_extend_strict(const uint64_t *main, size_t main_count, const uint64_t *challenges, size_t challenges_count,
                                  size_t chunk, uint64_t *aux, size_t aux_count, uint64_t *work, size_t work_count);

/* What a check finds: the first word that it writes. */
enum tealbobbin_verdict {
    TEALBOBBIN_NO = 0,
    TEALBOBBIN_YES = 1
};

/*
 * Checks `offered`, columns made elsewhere, 33 words a row: whether tealbobbin_extend, over the same `main` and `challenges`, would
 * be done and write just these, at any chunk length. Into `verdict`, 1 word: TEALBOBBIN_YES or TEALBOBBIN_NO. Nothing is inverted.
 *
 * 1: `main` is not whole rows, `offered` not 33 words for each, or `challenges` or `verdict` has another length.
 * 3: `main` has no row or is long in rows.
 * 2: a word of `main`, `challenges` or `offered` is not below p.
 * 6: as tealbobbin_extend, whatever the offered columns hold.
 */
uint32_t tealbobbin_check(const uint64_t *main, size_t main_count, const uint64_t *challenges, size_t challenges_count,
                          const uint64_t *offered, size_t offered_count, uint64_t *verdict, size_t verdict_count);

/*
 * Checks as tealbobbin_check does, and says where a no stands. Into `verdict`, 3 words: TEALBOBBIN_YES, 0 and 0; or TEALBOBBIN_NO,
 * the first row, and in it the first column, by enum tealbobbin_aux_column, whose cell does not follow, by the row's entries, from
 * the column's cell in the row before; before row 0 that is 1, or 0 in the instruction, U32 and clock columns.
 *
 * 1, 3, 2, 6: as tealbobbin_check.
 */
uint32_t tealbobbin_check_at(const uint64_t *main, size_t main_count, const uint64_t *challenges, size_t challenges_count,
                             const uint64_t *offered, size_t offered_count, uint64_t *verdict, size_t verdict_count);

/*
 * Opens a batch of at most 16384 bytes; docs/BATCH.md has the format. Into the slices go, from their start on, `trace` (1248
 * words): its rows; `op_stack`, `ram`, `jump_stack` (128 each): the clock jump differences; `sampled` (177) and `digest` (5), as
 * tealbobbin_challenges takes them; `input` and `output` (64 each); `counts` (7): how many of each, and k, by enum
 * tealbobbin_count. Words past the counts stay. All words are plain, also where the batch has its rows in Montgomery form. Batches
 * with rows of one form that open to equal contents have equal bytes.
 *
 * 1: `batch` has more bytes, or another slice has another length.
 * Then for each command, from left to right:
 * 7: the byte is no command.
 * 8: the batch ends inside the operand; also, where a command should stand, without an end command.
 * 9: the command is out of place or too often, or a row of another form than the rows before it; at the end command, rows,
 *    challenges or digest are missing or bytes follow.
 * 10: the command belongs in front of one before it, or its difference is below the one before it in the same list.
 * 3: the number of rows is 0 or above 32.
 * 12: k is 0 or above 22, or 2^k below the number of rows.
 * 2: a word of the operand, as it is sent, is not below p.
 */
uint32_t tealbobbin_open(const uint8_t *batch, size_t batch_count, uint64_t *trace, size_t trace_count,
                         uint64_t *op_stack, size_t op_stack_count, uint64_t *ram, size_t ram_count,
                         uint64_t *jump_stack, size_t jump_stack_count, uint64_t *sampled, size_t sampled_count,
                         uint64_t *digest, size_t digest_count, uint64_t *input, size_t input_count,
                         uint64_t *output, size_t output_count, uint64_t *counts, size_t counts_count);

/*
 * Writes the one batch with these contents and rows of this form into `batch`: `trace`, 1 to 32 rows of 39 words; `op_stack`,
 * `ram`, `jump_stack`, the clock jump differences in any order, which it sorts; `sampled` and `digest`, as tealbobbin_challenges
 * takes them; `input` and `output` in their order. Each slice is as long as what it brings, and the lists, `input` and `output` may
 * be empty. A difference need not be below the number of rows. All words are plain; unless `form` is TEALBOBBIN_FORM_PLAIN, those
 * of the rows are written in Montgomery form. The table is to have 2^k rows; where k is 0, the trace sets its height.
 *
 * 1: `trace` is not whole rows, a list has more than 128 words, `input` or `output` more than 64, `sampled` not 177 or `digest` not
 *    5, or `batch` not TEALBOBBIN_BATCH_BYTES bytes, with the rows of `trace`, the words of the lists, `input` and `output`, and k.
 * 3: `trace` has no row or more than 32.
 * 12: k is above 22, or not 0 and 2^k below the rows of `trace`.
 * 2: a word is not below p.
 */
uint32_t tealbobbin_write(const uint64_t *trace, size_t trace_count, const uint64_t *op_stack, size_t op_stack_count,
                          const uint64_t *ram, size_t ram_count, const uint64_t *jump_stack, size_t jump_stack_count,
                          const uint64_t *sampled, size_t sampled_count, const uint64_t *digest, size_t digest_count,
                          const uint64_t *input, size_t input_count, const uint64_t *output, size_t output_count,
                          uint64_t form, uint64_t k, uint8_t *batch, size_t batch_count);

/*
 * The last row of the auxiliary table that a batch leads to, into `cells`, 33 words: what tealbobbin_extend writes there once the
 * batch is opened, its challenges derived, and its table filled and padded. That has 2^k rows, or, where the batch sets no height,
 * the smallest power of two that holds the trace, at least 2. No table is kept: at every k the call needs the same memory, and its
 * time grows with 2^k.
 *
 * 1: `cells` has another length.
 * Then as tealbobbin_open; 4 as tealbobbin_fill; 6 as tealbobbin_extend.
 */
uint32_t tealbobbin_terminals(const uint8_t *batch, size_t batch_count, uint64_t *cells, size_t cells_count);

#ifdef __cplusplus
}
#endif

#endif
