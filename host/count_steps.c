/* Plays one kind of steps on the static library or on the plain C model, for host/count-instructions, which counts the instructions inside `measured`.
 *
 *     count_steps library|plain KIND list|call
 *
 * list: all steps in one call; call: a call for each. Prints how many steps were played, and fails where not all were. */
#include <stdio.h>
#include <stdlib.h>
#include <string.h>

#include "m58.h"
#include "plain/plain.h"

enum { ROUNDS = 500, ROOM = 40 * ROUNDS, FIRST = 0x010000, LOAD = 32 };

static uint64_t steps[ROOM], answers[ROOM];
static size_t count;
static uint16_t *array;
static uint64_t state[M58_STATE_WORDS];
static m58_counts counts;
static struct plain plain;
static int with_plain;

static size_t play(size_t at, size_t n) {
    if (with_plain)
        return plain_run(&plain, steps + at, n, answers + at, array, M58_FULL_WORDS);
    return m58_run(state, M58_STATE_WORDS, counts.main, counts.small, steps + at, n, answers + at, n, array, M58_FULL_WORDS);
}

/* Not inlined, so that the counter finds its name. */
__attribute__((noinline)) size_t measured(int one_a_call) {
    size_t played = 0;
    if (!one_a_call)
        return play(0, count);
    for (size_t i = 0; i < count; i++)
        played += play(i, 1);
    return played;
}

static void put(uint64_t step) { steps[count++] = step; }

static void write_to(uint32_t address, uint16_t data) { put(M58_WRITE(address, data)); }

static void program(uint32_t address) {
    write_to(address, 0x40);
    write_to(address, (uint16_t)(address * 40503u));
    put(M58_WORK(1));
}

static void protect(uint32_t address, uint16_t code) {
    write_to(address, 0x60);
    write_to(address, code);
}

static void load(uint32_t address) {
    write_to(address, 0xE8);
    write_to(address, LOAD - 1);
    for (uint32_t i = 0; i < LOAD; i++)
        write_to(address + i, (uint16_t)((address + i) * 40503u));
    write_to(address, 0xD0);
    put(M58_WORK(LOAD));
}

/* Steps that lead to the kind, played before it is measured. */
static void prepare(const char *kind) {
    put(M58_SUPPLY(1));
    write_to(FIRST, 0x60);
    write_to(FIRST, 0xD0);
    write_to(FIRST, strcmp(kind, "status") ? 0xFF : 0x70);
    if (!strcmp(kind, "erase")) {
        write_to(FIRST, 0x20);
        write_to(FIRST, 0xD0);
    }
    if (play(0, count) != count)
        exit(1);
    count = 0;
}

static int put_kind(const char *kind, uint32_t i) {
    static const uint16_t modes[] = {0x70, 0x90, 0x98, 0xFF};
    if (!strcmp(kind, "array") || !strcmp(kind, "status"))
        put(M58_READ(FIRST + i));
    else if (!strcmp(kind, "mode"))
        write_to(FIRST + i, modes[i % 4]);
    else if (!strcmp(kind, "program"))
        program(FIRST + i);
    else if (!strcmp(kind, "protect"))
        protect(FIRST * (1 + i % 200), i % 2 ? 0xD0 : 0x01);
    else if (!strcmp(kind, "load"))
        load(FIRST + LOAD * i);
    else if (!strcmp(kind, "supply"))
        put(M58_SUPPLY(1));
    else if (!strcmp(kind, "erase"))
        put(M58_WORK(1));
    else
        return 0;
    return 1;
}

int main(int argc, char **argv) {
    if (argc != 4)
        return 2;
    with_plain = !strcmp(argv[1], "plain");
    array = malloc(M58_FULL_WORDS * sizeof *array);
    if (!array || !m58_power_up(M58_FULL_BOTTOM, state, M58_STATE_WORDS, counts.main, counts.small))
        return 1;
    memset(array, 0xFF, M58_FULL_WORDS * sizeof *array);
    plain_power_up(&plain, M58_FULL_BOTTOM);
    prepare(argv[2]);
    for (uint32_t i = 0; i < ROUNDS; i++)
        if (!put_kind(argv[2], i))
            return 2;
    size_t played = measured(!strcmp(argv[3], "call"));
    printf("steps %zu\n", played);
    return played == count ? 0 : 1;
}
