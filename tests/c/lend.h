/* Slices to lend, and what is asked of a call: its answer, and what the slices hold after it. */
#define _DEFAULT_SOURCE
#include <inttypes.h>
#include <stdarg.h>
#include <stdio.h>
#include <stdlib.h>
#include <string.h>
#include <sys/mman.h>

#include "tealbobbin.h"

#define P TEALBOBBIN_P
#define COUNT(words) (sizeof(words) / sizeof((words)[0]))
#define BIT(answer) (1u << (answer))

/* How many of each there were; the current test, and the answers in it that were as they should be. */
static unsigned long checks, failures;
static const char *test;
static unsigned answers;

static void failed(int line, const char *format, ...)
{
    va_list values;
    va_start(values, format);
    printf("tests/c/library.c:%d: %s: ", line, test);
    vprintf(format, values);
    putchar('\n');
    va_end(values);
    failures++;
}

/* The slices that the current test has lent, with their words before the last call. */
static struct {
    uint64_t *words, *before;
    size_t count;
} slices[16];
static size_t slice_count;

static void give_up(const char *reason)
{
    printf("tests/c: %s\n", reason);
    exit(1);
}

static void *room(size_t bytes)
{
    void *room = malloc(bytes);
    if (!room && bytes)
        give_up("out of memory");
    return room;
}

/* Words that are not below p and differ from each other: what stands where something is to be written. */
static void make_stale(uint64_t *words, size_t count)
{
    for (size_t i = 0; i < count; i++)
        words[i] = P + i;
}

/* A slice of its own in memory, of stale words. */
static uint64_t *lend(size_t count)
{
    uint64_t *words = room(count * sizeof(uint64_t));
    make_stale(words, count);
    if (slice_count == COUNT(slices))
        give_up("too many slices in one test");
    slices[slice_count].words = words;
    slices[slice_count].before = room(count * sizeof(uint64_t));
    slices[slice_count].count = count;
    slice_count++;
    return words;
}

static uint64_t *lend_zeros(size_t count)
{
    uint64_t *words = lend(count);
    for (size_t i = 0; i < count; i++)
        words[i] = 0;
    return words;
}

/* Words 0, of which any number may be lent: they take no memory. A write to them ends the program. */
static uint64_t *lend_many(size_t count)
{
    void *words = mmap(NULL, count * sizeof(uint64_t), PROT_READ, MAP_PRIVATE | MAP_ANONYMOUS | MAP_NORESERVE, -1, 0);
    if (words == MAP_FAILED)
        give_up("out of addresses");
    return words;
}

static void give_back(void)
{
    while (slice_count) {
        slice_count--;
        free(slices[slice_count].words);
        free(slices[slice_count].before);
    }
}

static void remember(void)
{
    for (size_t s = 0; s < slice_count; s++)
        for (size_t i = 0; i < slices[s].count; i++)
            slices[s].before[i] = slices[s].words[i];
}

static void answered(int line, const char *call, uint32_t answer, uint32_t due)
{
    checks++;
    if (answer == due)
        answers |= BIT(answer);
    else
        failed(line, "%s: answered %" PRIu32 ", not %" PRIu32, call, answer, due);
}

/* The slice begins with these words, and is as before from there on. */
static void holds(int line, const char *name, const uint64_t *slice, const uint64_t *due, size_t due_count)
{
    size_t s = 0;
    while (slices[s].words != slice)
        s++;
    checks++;
    for (size_t i = 0; i < slices[s].count; i++) {
        uint64_t word = i < due_count ? due[i] : slices[s].before[i];
        if (slice[i] != word) {
            failed(line, "%s: word %zu is %" PRIu64 ", not %" PRIu64, name, i, slice[i], word);
            return;
        }
    }
}

static void all_kept(int line, const char *call)
{
    for (size_t s = 0; s < slice_count; s++)
        holds(line, call, slices[s].words, NULL, 0);
}

/* A call that is done. */
#define DONE(call) (remember(), answered(__LINE__, #call, call, TEALBOBBIN_DONE))

/* A call that is refused with this number, and changes no slice. */
#define REFUSED(number, call) (remember(), answered(__LINE__, #call, call, number), all_kept(__LINE__, #call))

/* After a call: a slice begins with these words, or with the words of an array, and is otherwise as before. */
#define HOLDS(slice, ...) HOLDS_WORDS(slice, ((const uint64_t[]){__VA_ARGS__}), COUNT(((const uint64_t[]){__VA_ARGS__})))
#define HOLDS_WORDS(slice, due, count) holds(__LINE__, #slice, slice, due, count)
#define KEPT(slice) holds(__LINE__, #slice, slice, NULL, 0)
#define TRUE(fact) (checks++, (fact) ? (void)0 : failed(__LINE__, "%s does not hold", #fact))
