/*
 * Erases blocks of a bench bottom part and prints after each stage which block is the
 * most worn, and the counts of two blocks: an erase counts once, when it is finished
 * (document 02, item 6). A script cannot show the counts.
 *
 * To build:  cc wear_example.c libm58.a
 */
#include <inttypes.h>
#include <stdio.h>

#include "m58.h"

/* Steps with their number; each is to be accepted, and none is a read. */
struct stage {
    const char *what;
    const uint64_t *steps;
    size_t count;
};
#define STEPS(...) \
    (const uint64_t[]){ __VA_ARGS__ }, sizeof((const uint64_t[]){ __VA_ARGS__ }) / sizeof(uint64_t)
enum { MOST_STEPS = 8 };

/* The set-up and the second cycle, at a location of the block. */
#define UNPROTECT(at) M58_WRITE(at, 0x0060), M58_WRITE(at, 0x00D0)
#define ERASE(at)     M58_WRITE(at, 0x0020), M58_WRITE(at, 0x00D0)
#define SUSPEND(at)   M58_WRITE(at, 0x00B0)
#define RESUME(at)    M58_WRITE(at, 0x00D0)

/* Lowest locations: blocks 0 to 3 have 16 words, the others 64. */
enum { BLOCK_0 = 0x000000, BLOCK_1 = 0x000010, BLOCK_4 = 0x000040, BLOCK_19 = 0x000400, BLOCK_258 = 0x003FC0 };

static const struct stage small_and_main[] = {
    { "supply on, both unprotected", STEPS(M58_SUPPLY(1), UNPROTECT(BLOCK_0), UNPROTECT(BLOCK_4)) },
    { "block 0 erased", STEPS(ERASE(BLOCK_0), M58_WORK(16)) },
    { "block 4 erased up to its last word, and suspended", STEPS(ERASE(BLOCK_4), M58_WORK(63), SUSPEND(BLOCK_4)) },
    { "block 4 resumed, its last word erased", STEPS(RESUME(BLOCK_4), M58_WORK(1)) },
    { "block 4 erased again", STEPS(ERASE(BLOCK_4), M58_WORK(64)) },
    { "reset", STEPS(M58_RESET) },
    { "block 4 unprotected, 10 of its words erased, and a reset",
      STEPS(UNPROTECT(BLOCK_4), ERASE(BLOCK_4), M58_WORK(10), M58_RESET) },
};

static const struct stage tie[] = {
    { "supply on, both unprotected", STEPS(M58_SUPPLY(1), UNPROTECT(BLOCK_19), UNPROTECT(BLOCK_1)) },
    { "block 19 erased", STEPS(ERASE(BLOCK_19), M58_WORK(64)) },
    { "block 1 erased too", STEPS(ERASE(BLOCK_1), M58_WORK(16)) },
    { "30 words of block 19 erased when the supply goes off",
      STEPS(ERASE(BLOCK_19), M58_WORK(30), M58_SUPPLY(0), M58_WORK(34)) },
};

static const struct stage limit[] = {
    { "supply on, block 258 unprotected and erased",
      STEPS(M58_SUPPLY(1), UNPROTECT(BLOCK_258), ERASE(BLOCK_258), M58_WORK(64)) },
    { "block 258 erased again", STEPS(ERASE(BLOCK_258), M58_WORK(64)) },
};

static uint64_t state[M58_STATE_WORDS];
static m58_counts counts;
static uint16_t array[M58_BENCH_WORDS];

static int trouble(const char *what, uint64_t number)
{
    fprintf(stderr, "wear_example: %s: %" PRIu64 "\n", what, number);
    return 0;
}

static int power_up(void)
{
    for (size_t i = 0; i < M58_BENCH_WORDS; i++)
        array[i] = 0xFFFF;
    uint32_t powered = m58_power_up(M58_BENCH_BOTTOM, state, M58_STATE_WORDS, counts.main, counts.small);
    if (!powered)
        return trouble("m58_power_up returns", powered);
    puts("powered up");
    return 1;
}

/* Prints the most worn block and the counts of two blocks. */
static int print_counts(uint32_t first, uint32_t second)
{
    uint64_t worn = m58_most_worn(state, M58_STATE_WORDS, counts.main, counts.small);
    uint64_t erases[2] = {
        m58_erase_count(state, M58_STATE_WORDS, counts.main, counts.small, first),
        m58_erase_count(state, M58_STATE_WORDS, counts.main, counts.small, second)
    };
    if (M58_WORN_REFUSAL(worn) != M58_REFUSED_NOTHING)
        return trouble("m58_most_worn is refused", M58_WORN_REFUSAL(worn));
    for (size_t i = 0; i < 2; i++)
        if (M58_ERASES_REFUSAL(erases[i]) != M58_REFUSED_NOTHING)
            return trouble("m58_erase_count is refused", M58_ERASES_REFUSAL(erases[i]));
    printf("    most worn: block %" PRIu32 ", finished erases: %" PRIu32, M58_WORN_BLOCK(worn), M58_WORN_COUNT(worn));
    printf(" (block %" PRIu32 ": %" PRIu32, first, M58_ERASES_COUNT(erases[0]));
    printf(", block %" PRIu32 ": %" PRIu32 ")\n", second, M58_ERASES_COUNT(erases[1]));
    return 1;
}

/* Plays a stage and prints what it came to. */
static int play(const struct stage *stage, uint32_t first, uint32_t second)
{
    uint64_t answers[MOST_STEPS] = { 0 };
    uint32_t units = 0;
    size_t played = m58_run(state, M58_STATE_WORDS, counts.main, counts.small, stage->steps, stage->count,
                            answers, MOST_STEPS, array, M58_BENCH_WORDS);
    if (played != stage->count)
        return trouble("fewer steps were played than there are", played);
    for (size_t i = 0; i < played; i++) {
        if (M58_ANSWER_REFUSAL(answers[i]) != M58_REFUSED_NOTHING)
            return trouble("a step is refused", M58_ANSWER_REFUSAL(answers[i]));
        units += M58_ANSWER_VALUE(answers[i]);
    }
    printf("%s", stage->what);
    if (units > 0)
        printf("; units of work: %" PRIu32, units);
    putchar('\n');
    return print_counts(first, second);
}

static int play_all(const struct stage *stages, size_t count, uint32_t first, uint32_t second)
{
    for (size_t i = 0; i < count; i++)
        if (!play(&stages[i], first, second))
            return 0;
    return 1;
}
#define PLAY_ALL(stages, first, second) play_all(stages, sizeof stages / sizeof stages[0], first, second)

/* Counts are the caller's to set; only the place that the small blocks share has to be 0. */
static int play_limit(void)
{
    counts.main[15].place[15] = M58_COUNT_LIMIT - 1;
    printf("the count of block 258 set to %d\n", M58_COUNT_LIMIT - 1);
    if (!print_counts(258, 0) || !PLAY_ALL(limit, 258, 0))
        return 0;
    counts.main[0].place[0] = 1;
    uint64_t worn = m58_most_worn(state, M58_STATE_WORDS, counts.main, counts.small);
    printf("the shared place set to 1\n    refused: %" PRIu32 "\n", M58_WORN_REFUSAL(worn));
    return 1;
}

int main(void)
{
    puts("A small and a main block, suspended, reset");
    if (!power_up() || !print_counts(0, 4) || !PLAY_ALL(small_and_main, 0, 4))
        return 1;
    puts("\nTwo blocks with the same count, and supply that drops");
    if (!power_up() || !print_counts(1, 19) || !PLAY_ALL(tie, 1, 19))
        return 1;
    puts("\nWhere a count stops");
    if (!power_up() || !play_limit())
        return 1;
    return 0;
}
