/*
 * Plays the worked script of document 01 on a bench bottom part and prints
 * every answer as the script program does.
 *
 * To build:  cc run_example.c libm58.a
 */
#include <inttypes.h>
#include <stdio.h>

#include "m58.h"

static const uint64_t steps[] = {
    M58_SUPPLY(1),
    M58_WRITE(0x000040, 0x0060), M58_WRITE(0x000040, 0x00D0), /* unprotect block 4 */
    M58_WRITE(0x000041, 0x0040), M58_WRITE(0x000041, 0x1234), /* program a word */
    M58_READ(0x000041), M58_WORK(5), M58_READ(0x000041),
    M58_WRITE(0x000000, 0x00FF), /* bank 0 to array mode */
    M58_READ(0x000041), M58_READ(0x004041), M58_WORK(99999)
};

enum { STEPS = sizeof steps / sizeof steps[0] };

static uint64_t state[M58_STATE_WORDS], answers[STEPS];
static m58_counts counts;
static uint16_t array[M58_BENCH_WORDS];

int main(void)
{
    for (size_t i = 0; i < M58_BENCH_WORDS; i++)
        array[i] = 0xFFFF;
    if (!m58_power_up(M58_BENCH_BOTTOM, state, M58_STATE_WORDS, counts.main, counts.small)) {
        fputs("run_example: no power-up\n", stderr);
        return 1;
    }
    size_t played = m58_run(state, M58_STATE_WORDS, counts.main, counts.small, steps, STEPS,
                            answers, STEPS, array, M58_BENCH_WORDS);
    if (played != STEPS) {
        fprintf(stderr, "run_example: %zu of %d steps played\n", played, (int)STEPS);
        return 1;
    }
    for (size_t i = 0; i < played; i++) {
        uint32_t refusal = M58_ANSWER_REFUSAL(answers[i]);
        uint32_t value = M58_ANSWER_VALUE(answers[i]);
        printf("%zu ", i + 1);
        if (refusal != M58_REFUSED_NOTHING)
            printf("refused %" PRIu32 "\n", refusal);
        else if (steps[i] >> 48 == M58_READ(0) >> 48)
            printf("%04" PRIX32 "\n", value);
        else if (steps[i] >> 48 == M58_WORK(0) >> 48)
            printf("%" PRIu32 "\n", value);
        else
            puts("ok");
    }
    printf("end %zu\n", played);
    return 0;
}
