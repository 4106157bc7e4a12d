/*
 * Checks what m58.h says of its macros, of the table of block starts, of state words
 * that are those of no device, of the write buffer, of the configuration register, of
 * the supply, of the erase counts, and of Intel HEX text. Prints one line; ends with 1
 * where something is otherwise.
 *
 * To build:  cc header_checks.c libm58.a
 */
#include <inttypes.h>
#include <stdalign.h>
#include <stdio.h>
#include <stdlib.h>
#include <string.h>

#include "m58.h"

static unsigned checks, wrong;

static void same(const char *what, uint64_t due, uint64_t got)
{
    checks++;
    if (got == due)
        return;
    wrong++;
    printf("header_checks: %s: %#" PRIx64 " is due, not %#" PRIx64 "\n", what, due, got);
}
#define SAME(due, got) same(#got, due, got)

/* The macros make constant expressions: these are initialisers of static memory. */
static const uint64_t constant[] = {
    M58_READ(0x123456), M58_WRITE(0x123456, 0xABCD), M58_WORK(7), M58_SUPPLY(2), M58_SUPPLY(0),
    M58_RESET, M58_READ(UINT64_C(0x100000041)), M58_WORK(UINT64_C(0x100000005))
};

static void check_encoding(void)
{
    SAME(UINT64_C(0x0000000000123456), constant[0]);
    SAME(UINT64_C(0x0001ABCD00123456), constant[1]);
    SAME(UINT64_C(0x0002000000000007), constant[2]);
    SAME(UINT64_C(0x0003000000000001), constant[3]);
    SAME(UINT64_C(0x0003000000000000), constant[4]);
    SAME(UINT64_C(0x0004000000000000), constant[5]);
    SAME(UINT64_C(0x00000000FFFFFFFF), constant[6]);
    SAME(UINT64_C(0x00020000FFFFFFFF), constant[7]);
}

/* What 32 bits hold stays; what they do not is all ones, whatever its type. */
static void check_clamping(void)
{
    const uint64_t most = UINT64_C(0xFFFFFFFF);
    const uint64_t wide[] = { 0, 1, 0xFFFFFF, 0x1000000, most - 1, most };
    const uint64_t too_wide[] = { most + 1, most + 2, most + 0x42, UINT64_C(1) << 40,
                                  UINT64_C(1) << 48, UINT64_C(1) << 63, UINT64_MAX };
    for (size_t i = 0; i < sizeof wide / sizeof wide[0]; i++) {
        SAME(wide[i], M58_READ(wide[i]));
        SAME(UINT64_C(0x0001123400000000) | wide[i], M58_WRITE(wide[i], 0x1234));
        SAME(UINT64_C(0x0002000000000000) | wide[i], M58_WORK(wide[i]));
    }
    for (size_t i = 0; i < sizeof too_wide / sizeof too_wide[0]; i++) {
        SAME(most, M58_READ(too_wide[i]));
        SAME(UINT64_C(0x00011234FFFFFFFF), M58_WRITE(too_wide[i], 0x1234));
        SAME(UINT64_C(0x00020000FFFFFFFF), M58_WORK(too_wide[i]));
    }
    const uint8_t byte = 0x41;
    const uint32_t word = 0xFFFFFFFF;
    const int negative = -1;
    const int64_t far_negative = INT64_MIN;
    const size_t size = 0x41;
    SAME(0x41, M58_READ(byte));
    SAME(most, M58_READ(word));
    SAME(most, M58_READ(negative));
    SAME(most, M58_READ(far_negative));
    SAME(0x41, M58_READ(size));
    /* an argument that is no single word, and data beyond 16 bits */
    SAME(0x43, M58_READ(size | 2));
    SAME(0x41, M58_READ(size ? size : 0));
    SAME(UINT64_C(0x0001234500000041), M58_WRITE(size, 0x12345));
    SAME(UINT64_C(0x0003000000000001), M58_SUPPLY(far_negative));
}

static uint16_t *array;

/* The erase counts that every call is lent, as rows and words apart, with cells around them. */
enum { AROUND = 8, UNTOUCHED = 0xA5A5 };
static struct {
    uint16_t before[AROUND];
    m58_row main[M58_ROWS];
    uint16_t between[AROUND], small[M58_SMALL_BLOCKS], after[AROUND];
} lent;

static void fill_around(void)
{
    for (size_t i = 0; i < AROUND; i++)
        lent.before[i] = lent.between[i] = lent.after[i] = UNTOUCHED;
}

static uint64_t touched_around(void)
{
    uint64_t touched = 0;
    for (size_t i = 0; i < AROUND; i++)
        touched += (lent.before[i] != UNTOUCHED) + (lent.between[i] != UNTOUCHED) + (lent.after[i] != UNTOUCHED);
    return touched;
}

static uint32_t power_up(uint32_t part, uint64_t *state, size_t state_count)
{
    return m58_power_up(part, state, state_count, lent.main, lent.small);
}

static size_t run(uint64_t *state, size_t state_count, const uint64_t *steps, size_t step_count,
                  uint64_t *answers, size_t answer_count, uint16_t *words, size_t word_count)
{
    return m58_run(state, state_count, lent.main, lent.small, steps, step_count, answers, answer_count, words, word_count);
}

static uint64_t report(const uint64_t *state, size_t state_count)
{
    return m58_report(state, state_count, lent.main, lent.small);
}

static uint64_t most_worn(const uint64_t *state)
{
    return m58_most_worn(state, M58_STATE_WORDS, lent.main, lent.small);
}

static uint64_t erases(const uint64_t *state, uint32_t block)
{
    return m58_erase_count(state, M58_STATE_WORDS, lent.main, lent.small, block);
}

/* The array words of a part. */
static size_t words_of(uint32_t part)
{
    return part < M58_BENCH_BOTTOM ? M58_FULL_WORDS : M58_BENCH_WORDS;
}

static void fill_array(size_t words, uint16_t word)
{
    for (size_t i = 0; i < words; i++)
        array[i] = word;
}

/* How many words of the array are not that one. */
static size_t other_words(size_t words, uint16_t word)
{
    size_t other = 0;
    for (size_t i = 0; i < words; i++)
        other += array[i] != word;
    return other;
}

/* The refusal of the one step, on so many words of the array. */
static uint64_t refusal(uint64_t *state, size_t state_count, uint64_t step, size_t words)
{
    uint64_t answer = UINT64_MAX;
    size_t played = run(state, state_count, &step, 1, &answer, 1, array, words);
    same("steps played", 1, played);
    return M58_ANSWER_REFUSAL(answer);
}

static void check_refusals(void)
{
    uint64_t state[M58_STATE_WORDS];
    same("power-up", 1, power_up(M58_BENCH_TOP, state, M58_STATE_WORDS));
    SAME(M58_REFUSED_ADDRESS, refusal(state, M58_STATE_WORDS, constant[6], M58_BENCH_WORDS));
    SAME(M58_REFUSED_ADDRESS, refusal(state, M58_STATE_WORDS, M58_WRITE(-1, 0x40), M58_BENCH_WORDS));
    SAME(M58_REFUSED_COUNT, refusal(state, M58_STATE_WORDS, constant[7], M58_BENCH_WORDS));
    SAME(M58_REFUSED_NOTHING, refusal(state, M58_STATE_WORDS, M58_WORK(65535), M58_BENCH_WORDS));
    /* a first word that names no part counts as a bench top */
    for (uint64_t part = 4; part != 0; part <<= 1) {
        state[0] = part;
        SAME(M58_REFUSED_STATE, refusal(state, M58_STATE_WORDS, M58_RESET, M58_BENCH_WORDS));
        SAME(M58_REFUSED_ARRAY, refusal(state, M58_STATE_WORDS, M58_RESET, M58_FULL_WORDS));
        same("the first word", part, state[0]);
    }
    /* a count that is not M58_STATE_WORDS: the first word still names the part */
    for (uint64_t part = 0; part < M58_PARTS; part++) {
        size_t own = words_of((uint32_t)part);
        size_t other = own == M58_FULL_WORDS ? M58_BENCH_WORDS : M58_FULL_WORDS;
        same("power-up", 1, power_up((uint32_t)part, state, M58_STATE_WORDS));
        SAME(M58_REFUSED_STATE, refusal(state, M58_STATE_WORDS - 1, M58_RESET, own));
        SAME(M58_REFUSED_ARRAY, refusal(state, M58_STATE_WORDS - 1, M58_RESET, other));
        SAME(M58_REFUSED_STATE, refusal(state, 1, M58_RESET, own));
        SAME((uint64_t)M58_REFUSED_STATE << 32, report(state, M58_STATE_WORDS - 1));
    }
    /* no state words at all: a full bottom part */
    SAME(M58_REFUSED_STATE, refusal(NULL, 0, M58_RESET, M58_FULL_WORDS));
    SAME(M58_REFUSED_ARRAY, refusal(NULL, 0, M58_RESET, M58_BENCH_WORDS));
}

/* One step that is not refused: its value. */
static uint64_t played(uint64_t *state, uint64_t step)
{
    uint64_t answer = UINT64_MAX;
    size_t count = run(state, M58_STATE_WORDS, &step, 1, &answer, 1, array, M58_BENCH_WORDS);
    same("steps played", 1, count);
    same("refusal", M58_REFUSED_NOTHING, M58_ANSWER_REFUSAL(answer));
    return M58_ANSWER_VALUE(answer);
}

/* A load of as many words as the buffer has, each its own address, step by step: the state words carry it from call to call. */
static void check_buffer(void)
{
    uint64_t state[M58_STATE_WORDS];
    same("power-up", 1, power_up(M58_BENCH_BOTTOM, state, M58_STATE_WORDS));
    fill_array(M58_BENCH_WORDS, 0xFFFF);
    played(state, M58_SUPPLY(1));
    played(state, M58_WRITE(0x40, 0x60));
    played(state, M58_WRITE(0x40, 0xD0));
    /* one word more than the buffer has: a wrong count */
    played(state, M58_WRITE(0x40, 0xE8));
    played(state, M58_WRITE(0x40, M58_BUFFER_WORDS));
    SAME(0xB0, played(state, M58_READ(0x40)));
    played(state, M58_WRITE(0x40, 0x50));
    played(state, M58_WRITE(0x40, 0xE8));
    played(state, M58_WRITE(0x40, M58_BUFFER_WORDS - 1));
    for (uint32_t i = 0; i < M58_BUFFER_WORDS; i++)
        played(state, M58_WRITE(0x48 + i, 0x48 + i));
    played(state, M58_WRITE(0x40, 0xD0));
    for (uint32_t i = 0; i < M58_BUFFER_WORDS; i++) {
        SAME(0xFFFF, array[0x48 + i]);
        SAME(1, played(state, M58_WORK(1)));
        SAME(0x48 + i, array[0x48 + i]);
    }
    SAME(0, played(state, M58_WORK(1)));
    SAME(0xFFFF, array[0x47]);
    SAME(0xFFFF, array[0x48 + M58_BUFFER_WORDS]);
}

/* ---- The configuration register: bits 14, 5 and 4 are reserved (document 02, item 4) ---- */

enum { REGISTER_WORD = 11, REGISTER_BIT = 32 }; /* its place in the state words: state.rs */
enum { REGISTER_DEFAULT = 0xBFCF, REGISTER_RESERVED = 0x4030 };

/* A step and the value that it answers. */
struct line {
    uint64_t step, value;
};

enum { MOST_LINES = 16 };

/* Lists from power-up of a bench bottom part: a call for each step, and one call for all, come to the same. */
static void check_lines(const struct line *lines, size_t count)
{
    uint64_t alone[M58_STATE_WORDS], together[M58_STATE_WORDS], steps[MOST_LINES], answers[MOST_LINES];
    same("power-up", 1, power_up(M58_BENCH_BOTTOM, alone, M58_STATE_WORDS));
    memcpy(together, alone, sizeof together);
    fill_array(M58_BENCH_WORDS, 0xFFFF);
    for (size_t i = 0; i < count; i++) {
        SAME(lines[i].value, played(alone, lines[i].step));
        steps[i] = lines[i].step;
    }
    SAME(count, run(together, M58_STATE_WORDS, steps, count, answers, count, array, M58_BENCH_WORDS));
    for (size_t i = 0; i < count; i++)
        SAME(lines[i].value, answers[i]);
    SAME(0, memcmp(alone, together, sizeof alone));
    SAME(0, other_words(M58_BENCH_WORDS, 0xFFFF));
}

/* 03h takes the register from its address, without the reserved bits and without a flag; reset gives the default. */
static void check_register_stored(void)
{
    /* FFFFh is stored as the default; its cycles mark the bank of location 3FFFh */
    static const struct line all[] = {
        { M58_WRITE(0x000000, 0x0090), 0 }, { M58_READ(0x000005), 0xBFCF }, { M58_WRITE(0x00FFFF, 0x0060), 0 },
        { M58_WRITE(0x00FFFF, 0x0003), 0 }, { M58_READ(0x000005), 0xBFCF }, { M58_READ(0x003C00), 0x0080 },
    };
    /* the cycles at 4030h mark the bank that is read */
    static const struct line some[] = {
        { M58_WRITE(0x000000, 0x0090), 0 }, { M58_WRITE(0x005432, 0x0060), 0 }, { M58_WRITE(0x005432, 0x0003), 0 },
        { M58_READ(0x000005), 0x1402 },     { M58_WRITE(0x004030, 0x0060), 0 }, { M58_READ(0x000005), 0x0080 },
        { M58_WRITE(0x004030, 0x0003), 0 }, { M58_WRITE(0x000000, 0x0090), 0 }, { M58_READ(0x000005), 0x0000 },
        { M58_RESET, 0 },                   { M58_WRITE(0x000000, 0x0090), 0 }, { M58_READ(0x000005), 0xBFCF },
    };
    /* the set-up's address says nothing, nor do upper lines, and codes that the sheet reserves are stored */
    static const struct line elsewhere[] = {
        { M58_WRITE(0x001234, 0x0060), 0 }, { M58_WRITE(0xAB8134, 0x0003), 0 }, { M58_WRITE(0x000000, 0x0090), 0 },
        { M58_READ(0x000005), 0x8104 },
    };
    check_lines(all, sizeof all / sizeof all[0]);
    check_lines(some, sizeof some / sizeof some[0]);
    check_lines(elsewhere, sizeof elsewhere / sizeof elsewhere[0]);
}

static uint64_t register_of(const uint64_t *state)
{
    return state[REGISTER_WORD] >> REGISTER_BIT & 0xFFFF;
}

/* The words of a part after power-up and one step, with another register. */
static void power_up_with(uint64_t *state, uint32_t part, uint64_t step, uint64_t reg)
{
    same("power-up", 1, power_up(part, state, M58_STATE_WORDS));
    SAME(M58_REFUSED_NOTHING, refusal(state, M58_STATE_WORDS, step, words_of(part)));
    SAME(REGISTER_DEFAULT, register_of(state));
    state[REGISTER_WORD] ^= (REGISTER_DEFAULT ^ reg) << REGISTER_BIT;
}

/* Steps of every kind; 03h, after a set-up, and reset would give a good register, and B0h, supply on and reset make good what runs without supply. */
static const uint64_t kinds[] = {
    M58_READ(5), M58_WRITE(0, 0x03), M58_WRITE(0, 0x90), M58_WRITE(0, 0xB0), M58_WRITE(0, 0xD0),
    M58_WORK(0), M58_WORK(1), M58_SUPPLY(0), M58_SUPPLY(1), M58_RESET
};
enum { KINDS = sizeof kinds / sizeof kinds[0] };

/* State words of a part that are not well formed, or a shared place that is not 0: refused by each step, by a list and by the reports, and all stays. */
static void check_refused(uint32_t part, uint64_t *state)
{
    const size_t own = words_of(part);
    const uint64_t due = (uint64_t)M58_REFUSED_STATE << 32;
    uint64_t before[M58_STATE_WORDS], answers[KINDS];
    unsigned char counts[sizeof lent];
    memcpy(before, state, sizeof before);
    memcpy(counts, &lent, sizeof lent);
    for (size_t i = 0; i < KINDS; i++) {
        SAME(M58_REFUSED_STATE, refusal(state, M58_STATE_WORDS, kinds[i], own));
        SAME(M58_REFUSED_ARRAY, refusal(state, M58_STATE_WORDS, kinds[i], own - 1));
        SAME(0, memcmp(before, state, sizeof before));
        SAME(0, memcmp(counts, &lent, sizeof lent));
    }
    SAME(KINDS, run(state, M58_STATE_WORDS, kinds, KINDS, answers, KINDS, array, own));
    for (size_t i = 0; i < KINDS; i++)
        SAME(due, answers[i]);
    SAME(due, report(state, M58_STATE_WORDS));
    SAME(due, most_worn(state));
    for (uint32_t block = 0; block <= M58_BLOCKS; block++)
        SAME(due, erases(state, block));
    SAME(0, memcmp(before, state, sizeof before));
    SAME(0, memcmp(counts, &lent, sizeof lent));
}

/* State words with a reserved bit set. */
static void check_register_refused(uint32_t part, uint64_t first, uint64_t reg)
{
    uint64_t state[M58_STATE_WORDS];
    power_up_with(state, part, first, reg);
    check_refused(part, state);
}

/* Any other register is shown as it was handed in, and stays until a reset. */
static void check_register_accepted(uint64_t reg)
{
    uint64_t state[M58_STATE_WORDS];
    power_up_with(state, M58_BENCH_BOTTOM, M58_SUPPLY(0), reg);
    SAME(M58_BLOCKS, report(state, M58_STATE_WORDS));
    played(state, M58_WRITE(0, 0x90));
    SAME(reg, played(state, M58_READ(5)));
    played(state, M58_SUPPLY(1));
    SAME(0, played(state, M58_WORK(1)));
    SAME(reg, register_of(state));
    played(state, M58_RESET);
    SAME(REGISTER_DEFAULT, register_of(state));
}

static void check_register_states(void)
{
    static const uint16_t refused[] = { 0x4000, 0x0010, 0x0020, 0xFFFF, 0x4030, 0xFFCF, 0xBFDF, 0xBFEF };
    for (uint32_t part = 0; part < M58_PARTS; part++) {
        fill_array(words_of(part), 0x1234);
        for (size_t i = 0; i < sizeof refused / sizeof refused[0]; i++) {
            check_register_refused(part, M58_SUPPLY(0), refused[i]); /* still the power-up state */
            check_register_refused(part, M58_WRITE(0, 0x60), refused[i]);
        }
        SAME(0, other_words(words_of(part), 0x1234));
    }
    check_register_accepted(0x0000);
    check_register_accepted(REGISTER_DEFAULT);
    for (uint64_t bit = 1; bit <= 0x8000; bit <<= 1)
        if ((bit & REGISTER_RESERVED) == 0)
            check_register_accepted(bit);
}

/* ---- The supply, which ends what runs when it goes off (document 02, item 5) ---- */

enum { SUPPLY_WORD = 11, SUPPLY_BIT = 48 }; /* its place in the state words: state.rs */
enum { MOST_DROPS = 32 };

/* The lowest locations of blocks 4 and 5, by the part. */
static const uint32_t fourth[] = { 0x010000, 0xFE0000, 0x000040, 0x003F80 };
static const uint32_t fifth[] = { 0x020000, 0xFD0000, 0x000080, 0x003F40 };

/* A list from power-up of a part, a call for each step and one call for all: so many words are not FFFFh after it. */
static void check_drop(uint32_t part, const struct line *lines, size_t count, size_t changed)
{
    const size_t own = words_of(part);
    uint64_t alone[M58_STATE_WORDS], together[M58_STATE_WORDS], steps[MOST_DROPS], answers[MOST_DROPS];
    same("power-up", 1, power_up(part, alone, M58_STATE_WORDS));
    memcpy(together, alone, sizeof together);
    fill_array(own, 0xFFFF);
    for (size_t i = 0; i < count; i++) {
        steps[i] = lines[i].step;
        SAME(1, run(alone, M58_STATE_WORDS, &steps[i], 1, &answers[i], 1, array, own));
        SAME(lines[i].value, answers[i]);
    }
    SAME(changed, other_words(own, 0xFFFF));
    fill_array(own, 0xFFFF);
    SAME(count, run(together, M58_STATE_WORDS, steps, count, answers, count, array, own));
    for (size_t i = 0; i < count; i++)
        SAME(lines[i].value, answers[i]);
    SAME(changed, other_words(own, 0xFFFF));
    SAME(0, memcmp(alone, together, sizeof alone));
}
#define CHECK_DROP(part, lines, changed) check_drop(part, lines, sizeof lines / sizeof lines[0], changed)

/* An erase cut after 10 units, A8h: the tenth word is erased and the eleventh is not. */
static void check_erase_cut(uint32_t part)
{
    const uint32_t a = fourth[part];
    const struct line lines[] = {
        { M58_SUPPLY(1), 0 },        { M58_WRITE(a, 0x60), 0 },      { M58_WRITE(a, 0xD0), 0 },      { M58_WRITE(a, 0x40), 0 },
        { M58_WRITE(a, 0x0000), 0 }, { M58_WORK(1), 1 },             { M58_WRITE(a + 10, 0x40), 0 }, { M58_WRITE(a + 10, 0), 0 },
        { M58_WORK(1), 1 },          { M58_WRITE(a, 0x20), 0 },      { M58_WRITE(a, 0xD0), 0 },      { M58_WORK(10), 10 },
        { M58_SUPPLY(0), 0 },        { M58_READ(a), 0x00A8 },        { M58_WORK(5), 0 },             { M58_WRITE(a, 0x50), 0 },
        { M58_SUPPLY(1), 0 },        { M58_WORK(5), 0 },             { M58_READ(a), 0x0080 },        { M58_WRITE(a, 0xFF), 0 },
        { M58_READ(a), 0xFFFF },     { M58_READ(a + 9), 0xFFFF },    { M58_READ(a + 10), 0x0000 },
    };
    CHECK_DROP(part, lines, 1);
}

/* A program in an erase, both suspended: two D0h without supply end the one and then the other, and nothing is left to resume. */
static void check_resume_cut(uint32_t part)
{
    const uint32_t a = fourth[part], b = fifth[part];
    const struct line lines[] = {
        { M58_SUPPLY(1), 0 },        { M58_WRITE(a, 0x60), 0 },      { M58_WRITE(a, 0xD0), 0 },      { M58_WRITE(b, 0x60), 0 },
        { M58_WRITE(b, 0xD0), 0 },   { M58_WRITE(a, 0x20), 0 },      { M58_WRITE(a, 0xD0), 0 },      { M58_WORK(1), 1 },
        { M58_WRITE(a, 0xB0), 0 },   { M58_WRITE(b, 0x40), 0 },      { M58_WRITE(b, 0x1234), 0 },    { M58_WRITE(b, 0xB0), 0 },
        { M58_READ(b), 0x00C4 },     { M58_SUPPLY(0), 0 },           { M58_READ(b), 0x00C4 },        { M58_WRITE(b, 0xD0), 0 },
        { M58_READ(b), 0x00D8 },     { M58_WRITE(b, 0xD0), 0 },      { M58_READ(b), 0x00B8 },        { M58_SUPPLY(1), 0 },
        { M58_WORK(5), 0 },          { M58_WRITE(b, 0xD0), 0 },      { M58_READ(b), 0x00B8 },        { M58_WRITE(b, 0xFF), 0 },
        { M58_READ(b), 0xFFFF },
    };
    CHECK_DROP(part, lines, 0);
}

/* Supply off and on leaves a load; off after one unit of two, 98h, and the first word stays. */
static void check_load_cut(uint32_t part)
{
    const uint32_t a = fourth[part];
    const struct line lines[] = {
        { M58_SUPPLY(1), 0 },         { M58_WRITE(a, 0x60), 0 },      { M58_WRITE(a, 0xD0), 0 },      { M58_WRITE(a, 0xE8), 0 },
        { M58_WRITE(a, 1), 0 },       { M58_WRITE(a, 0xAAAA), 0 },    { M58_WRITE(a + 1, 0xBBBB), 0 }, { M58_SUPPLY(0), 0 },
        { M58_SUPPLY(1), 0 },         { M58_WRITE(a, 0xD0), 0 },      { M58_WORK(1), 1 },             { M58_SUPPLY(0), 0 },
        { M58_READ(a), 0x0098 },      { M58_WRITE(a, 0xFF), 0 },      { M58_READ(a), 0xAAAA },        { M58_READ(a + 1), 0xFFFF },
    };
    CHECK_DROP(part, lines, 1);
}

/* Operations in block 4; the nested ones inside the suspended erase of block 5. */
enum { PROGRAM, BUFFER_PROGRAM, ERASE, NESTED_PROGRAM, NESTED_BUFFER_PROGRAM, OPERATIONS };

/* A list of steps of which each is accepted. */
static void play_list(uint64_t *state, uint32_t part, const uint64_t *steps, size_t count)
{
    for (size_t i = 0; i < count; i++)
        SAME(M58_REFUSED_NOTHING, refusal(state, M58_STATE_WORDS, steps[i], words_of(part)));
}
#define PLAY_LIST(state, part, steps) play_list(state, part, steps, sizeof steps / sizeof steps[0])

/* The state words of a part with an operation running, some units done where it has several. */
static void run_operation(uint64_t *state, uint32_t part, unsigned operation)
{
    const uint32_t a = fourth[part], b = fifth[part];
    const uint64_t ready[] = {
        M58_SUPPLY(1), M58_WRITE(a, 0x60), M58_WRITE(a, 0xD0), M58_WRITE(b, 0x60), M58_WRITE(b, 0xD0)
    };
    const uint64_t outer[] = { M58_WRITE(b, 0x20), M58_WRITE(b, 0xD0), M58_WORK(3), M58_WRITE(b, 0xB0) };
    const uint64_t program[] = { M58_WRITE(a, 0x40), M58_WRITE(a, 0x0F0F) };
    const uint64_t load[] = {
        M58_WRITE(a, 0xE8), M58_WRITE(a, 1), M58_WRITE(a, 0xFFFF), M58_WRITE(a + 1, 0x0F0F), M58_WRITE(a, 0xD0), M58_WORK(1)
    };
    const uint64_t erase[] = { M58_WRITE(a, 0x20), M58_WRITE(a, 0xD0), M58_WORK(3) };
    same("power-up", 1, power_up(part, state, M58_STATE_WORDS));
    PLAY_LIST(state, part, ready);
    if (operation >= NESTED_PROGRAM)
        PLAY_LIST(state, part, outer);
    if (operation == ERASE)
        PLAY_LIST(state, part, erase);
    else if (operation == PROGRAM || operation == NESTED_PROGRAM)
        PLAY_LIST(state, part, program);
    else
        PLAY_LIST(state, part, load);
}

/* State words in which it runs without supply: refused by all. */
static void check_running_without_supply(uint32_t part, unsigned operation)
{
    uint64_t state[M58_STATE_WORDS];
    run_operation(state, part, operation);
    SAME(1, state[SUPPLY_WORD] >> SUPPLY_BIT);
    SAME(2, report(state, M58_STATE_WORDS) >> 16);
    state[SUPPLY_WORD] ^= UINT64_C(1) << SUPPLY_BIT;
    check_refused(part, state);
}

/* The status word in the bank of block 4. */
static uint64_t status_of(uint64_t *state, uint32_t part)
{
    const uint64_t steps[] = { M58_WRITE(fourth[part], 0x70), M58_READ(fourth[part]) };
    uint64_t answers[2] = { 0, 0 };
    SAME(2, run(state, M58_STATE_WORDS, steps, 2, answers, 2, array, words_of(part)));
    return answers[1];
}

/* Supply off while it runs: it ends with its flags, and an erase around it stays suspended; off again, on and work change no more. */
static void check_running_cut(uint32_t part, unsigned operation)
{
    const uint64_t due = operation == ERASE ? 0xA8 : operation >= NESTED_PROGRAM ? 0xD8 : 0x98;
    const uint64_t later[] = { M58_SUPPLY(0), M58_WORK(5), M58_SUPPLY(1), M58_WORK(5) };
    uint64_t state[M58_STATE_WORDS];
    run_operation(state, part, operation);
    SAME(M58_REFUSED_NOTHING, refusal(state, M58_STATE_WORDS, M58_SUPPLY(0), words_of(part)));
    SAME(0, state[SUPPLY_WORD] >> SUPPLY_BIT);
    SAME(due, status_of(state, part));
    PLAY_LIST(state, part, later);
    SAME(due, status_of(state, part));
}

/* State words in which it is suspended without supply: those that supply off leaves, and D0h ends it; with supply, D0h resumes it. */
static void check_suspended_without_supply(uint32_t part, unsigned operation)
{
    const size_t own = words_of(part);
    const uint64_t resume = M58_WRITE(fourth[part], 0xD0), nested = operation >= NESTED_PROGRAM ? 0x40 : 0;
    uint64_t state[M58_STATE_WORDS], on[M58_STATE_WORDS], off[M58_STATE_WORDS];
    run_operation(state, part, operation);
    SAME(M58_REFUSED_NOTHING, refusal(state, M58_STATE_WORDS, M58_WRITE(fourth[part], 0xB0), own));
    memcpy(on, state, sizeof on);
    memcpy(off, state, sizeof off);
    off[SUPPLY_WORD] ^= UINT64_C(1) << SUPPLY_BIT;
    SAME(M58_REFUSED_NOTHING, refusal(state, M58_STATE_WORDS, M58_SUPPLY(0), own));
    SAME(0, memcmp(state, off, sizeof off));
    SAME(2, report(off, M58_STATE_WORDS) >> 16);
    SAME(operation == ERASE ? 0xC0 : nested | 0x84, status_of(off, part));
    SAME(M58_REFUSED_NOTHING, refusal(off, M58_STATE_WORDS, resume, own));
    SAME(operation == ERASE ? 0xA8 : nested | 0x98, status_of(off, part));
    SAME(M58_REFUSED_NOTHING, refusal(state, M58_STATE_WORDS, M58_SUPPLY(1), own));
    SAME(0, memcmp(state, on, sizeof on));
    SAME(M58_REFUSED_NOTHING, refusal(state, M58_STATE_WORDS, resume, own));
    SAME(nested, status_of(state, part));
}

static void check_supply(void)
{
    for (uint32_t part = 0; part < M58_PARTS; part++) {
        check_erase_cut(part);
        check_resume_cut(part);
        check_load_cut(part);
        fill_array(words_of(part), 0xFFFF);
        for (unsigned operation = 0; operation < OPERATIONS; operation++) {
            check_running_without_supply(part, operation);
            check_running_cut(part, operation);
            check_suspended_without_supply(part, operation);
        }
        /* no program had its unit, and no second word of a load went in */
        SAME(0, other_words(words_of(part), 0xFFFF));
    }
}

/* ---- The erase counts (document 02, item 6) ---- */

/* What main and small point to has no room between its elements. */
static void check_layout(void)
{
    SAME(2 * M58_PLACES, sizeof(m58_row));
    SAME(2 * (M58_ROWS * M58_PLACES + M58_SMALL_BLOCKS), sizeof(m58_counts));
    SAME(0, offsetof(m58_counts, main));
    SAME(2 * M58_ROWS * M58_PLACES, offsetof(m58_counts, small));
    SAME(2, alignof(m58_row));
    SAME(2, alignof(m58_counts));
    const uint64_t worn = UINT64_C(0x00000002FFFF0102);
    SAME(M58_REFUSED_STATE, M58_WORN_REFUSAL(worn));
    SAME(M58_COUNT_LIMIT, M58_WORN_COUNT(worn));
    SAME(258, M58_WORN_BLOCK(worn));
    SAME(M58_REFUSED_STATE, M58_ERASES_REFUSAL(UINT64_C(0x000000020000FFFE)));
    SAME(M58_COUNT_LIMIT - 1, M58_ERASES_COUNT(UINT64_C(0x000000020000FFFE)));
}

/* A step, what it answers, and the most worn block with its count after it. */
struct worn_line {
    uint64_t step, value;
    uint32_t block, count;
};

enum { MOST_WORN_LINES = 32 };

/* A list from power-up of a bench bottom part: a call for each step on the lent counts, and one call for all on one m58_counts. */
static void check_worn(const struct worn_line *lines, size_t count)
{
    uint64_t alone[M58_STATE_WORDS], together[M58_STATE_WORDS], steps[MOST_WORN_LINES], answers[MOST_WORN_LINES];
    m58_counts counts;
    memset(&lent, 0xEE, sizeof lent);
    memset(&counts, 0xEE, sizeof counts);
    fill_around();
    SAME(1, power_up(M58_BENCH_BOTTOM, alone, M58_STATE_WORDS));
    SAME(0, most_worn(alone));
    for (size_t i = 0; i < count; i++) {
        SAME(lines[i].value, played(alone, lines[i].step));
        SAME((uint64_t)lines[i].count << 16 | lines[i].block, most_worn(alone));
        SAME(lines[i].count, erases(alone, lines[i].block));
        steps[i] = lines[i].step;
    }
    SAME(1, m58_power_up(M58_BENCH_BOTTOM, together, M58_STATE_WORDS, counts.main, counts.small));
    SAME(count, m58_run(together, M58_STATE_WORDS, counts.main, counts.small, steps, count, answers, count, array, M58_BENCH_WORDS));
    for (size_t i = 0; i < count; i++)
        SAME(lines[i].value, answers[i]);
    SAME(0, memcmp(alone, together, sizeof alone));
    SAME(0, memcmp(lent.main, counts.main, sizeof counts.main));
    SAME(0, memcmp(lent.small, counts.small, sizeof counts.small));
    SAME(0, touched_around());
}
#define CHECK_WORN(lines) check_worn(lines, sizeof lines / sizeof lines[0])

/* A small and a main block: suspended it counts once, a reset keeps the counts, and an erase that it breaks off does not count. */
static void check_worn_small_and_main(void)
{
    static const struct worn_line lines[] = {
        { M58_SUPPLY(1), 0, 0, 0 },         { M58_WRITE(0x00, 0x60), 0, 0, 0 }, { M58_WRITE(0x00, 0xD0), 0, 0, 0 },
        { M58_WRITE(0x40, 0x60), 0, 0, 0 }, { M58_WRITE(0x40, 0xD0), 0, 0, 0 }, { M58_WRITE(0x00, 0x20), 0, 0, 0 },
        { M58_WRITE(0x00, 0xD0), 0, 0, 0 }, { M58_WORK(16), 16, 0, 1 },         { M58_WRITE(0x40, 0x20), 0, 0, 1 },
        { M58_WRITE(0x40, 0xD0), 0, 0, 1 }, { M58_WORK(63), 63, 0, 1 },         { M58_WRITE(0x40, 0xB0), 0, 0, 1 },
        { M58_WRITE(0x40, 0xD0), 0, 0, 1 }, { M58_WORK(1), 1, 0, 1 },           { M58_WRITE(0x40, 0x20), 0, 0, 1 },
        { M58_WRITE(0x40, 0xD0), 0, 0, 1 }, { M58_WORK(64), 64, 4, 2 },         { M58_RESET, 0, 4, 2 },
        { M58_WRITE(0x40, 0x60), 0, 4, 2 }, { M58_WRITE(0x40, 0xD0), 0, 4, 2 }, { M58_WRITE(0x40, 0x20), 0, 4, 2 },
        { M58_WRITE(0x40, 0xD0), 0, 4, 2 }, { M58_WORK(10), 10, 4, 2 },         { M58_RESET, 0, 4, 2 },
    };
    CHECK_WORN(lines);
}

/* A tie of blocks 19 and 1; an erase that the supply cuts does not count. */
static void check_worn_tie(void)
{
    static const struct worn_line lines[] = {
        { M58_SUPPLY(1), 0, 0, 0 },           { M58_WRITE(0x400, 0x60), 0, 0, 0 },  { M58_WRITE(0x400, 0xD0), 0, 0, 0 },
        { M58_WRITE(0x10, 0x60), 0, 0, 0 },   { M58_WRITE(0x10, 0xD0), 0, 0, 0 },   { M58_WRITE(0x400, 0x20), 0, 0, 0 },
        { M58_WRITE(0x400, 0xD0), 0, 0, 0 },  { M58_WORK(64), 64, 19, 1 },          { M58_WRITE(0x10, 0x20), 0, 19, 1 },
        { M58_WRITE(0x10, 0xD0), 0, 19, 1 },  { M58_WORK(16), 16, 1, 1 },           { M58_WRITE(0x400, 0x20), 0, 1, 1 },
        { M58_WRITE(0x400, 0xD0), 0, 1, 1 },  { M58_WORK(30), 30, 1, 1 },           { M58_SUPPLY(0), 0, 1, 1 },
        { M58_WORK(34), 0, 1, 1 },
    };
    CHECK_WORN(lines);
}

/* The lowest location and the words of a block, from the lookup. */
static uint32_t start_of(uint32_t part, uint32_t block)
{
    const uint32_t step = (uint32_t)words_of(part) / 1024; /* of the words of a small block */
    for (uint32_t at = 0; at < words_of(part); at += step)
        if (m58_lookup_block(part, at) == block)
            return at;
    return 0;
}

static uint32_t size_of(uint32_t part, uint32_t block)
{
    return (uint32_t)words_of(part) / (block < M58_SMALL_BLOCKS ? 1024 : 256);
}

static void accept(uint64_t *state, uint32_t part, uint64_t step)
{
    SAME(M58_REFUSED_NOTHING, refusal(state, M58_STATE_WORDS, step, words_of(part)));
}

/* An erase of a block, all but the last word. */
static void erase_but_one(uint64_t *state, uint32_t part, uint32_t block)
{
    const uint32_t at = start_of(part, block);
    const uint64_t steps[] = {
        M58_SUPPLY(1), M58_WRITE(at, 0x60), M58_WRITE(at, 0xD0), M58_WRITE(at, 0x20), M58_WRITE(at, 0xD0),
        M58_WORK(size_of(part, block) - 1)
    };
    PLAY_LIST(state, part, steps);
}

/* Where a block's count lies. */
static uint16_t *place_of(uint32_t block)
{
    return block < M58_SMALL_BLOCKS ? &lent.small[block] : &lent.main[(block - 3) / 16].place[(block - 3) % 16];
}

/* Each block is erased once: its count is 1, with its last word and not before, and no other place changes. */
static void check_places(uint32_t part)
{
    uint64_t state[M58_STATE_WORDS];
    unsigned char before[sizeof lent];
    SAME(1, power_up(part, state, M58_STATE_WORDS));
    for (uint32_t block = 0; block < M58_BLOCKS; block++) {
        memcpy(before, &lent, sizeof lent);
        SAME(0, erases(state, block));
        erase_but_one(state, part, block);
        SAME(0, memcmp(before, &lent, sizeof lent));
        accept(state, part, M58_WORK(1));
        SAME(1, erases(state, block));
        SAME(1, *place_of(block));
        *place_of(block) = 0;
        SAME(0, memcmp(before, &lent, sizeof lent));
        *place_of(block) = 1;
    }
    SAME(UINT64_C(1) << 16, most_worn(state));
    SAME(0, lent.main[0].place[0]);
    SAME(0, touched_around());
    accept(state, part, M58_RESET);
    for (uint32_t block = 0; block < M58_BLOCKS; block++)
        SAME(1, erases(state, block));
}

/* The last word of a block's erase is due; it ends before that, and does not count. */
static void check_broken_off(uint32_t part, uint32_t block)
{
    const uint32_t at = start_of(part, block);
    const uint64_t suspend = M58_WRITE(at, 0xB0), resume = M58_WRITE(at, 0xD0);
    const uint64_t ways[][6] = {
        { M58_RESET, M58_WORK(1), M58_WORK(1), M58_WORK(1), M58_WORK(1), M58_WORK(1) },
        { suspend, M58_WORK(1), M58_RESET, resume, M58_WORK(1), M58_WORK(1) },
        { M58_SUPPLY(0), M58_WORK(1), M58_SUPPLY(1), resume, M58_WORK(1), M58_WORK(1) },
        { suspend, M58_SUPPLY(0), resume, M58_SUPPLY(1), resume, M58_WORK(1) },
    };
    uint64_t state[M58_STATE_WORDS];
    unsigned char before[sizeof lent];
    SAME(1, power_up(part, state, M58_STATE_WORDS));
    *place_of(block) = 7;
    memcpy(before, &lent, sizeof lent);
    for (size_t way = 0; way < sizeof ways / sizeof ways[0]; way++) {
        erase_but_one(state, part, block);
        PLAY_LIST(state, part, ways[way]);
        SAME(0, memcmp(before, &lent, sizeof lent));
    }
    SAME(UINT64_C(7) << 16 | block, most_worn(state));
}

/* Programs do not count; an erase counts once, also with units to spare and where its block is protected while it is suspended. */
static void check_counted_once(uint32_t part)
{
    const uint32_t a = fourth[part], size = size_of(part, 4);
    const uint64_t programs[] = {
        M58_SUPPLY(1), M58_WRITE(a, 0x60), M58_WRITE(a, 0xD0), M58_WRITE(a, 0x40), M58_WRITE(a, 0x0F0F), M58_WORK(9),
        M58_WRITE(a, 0xE8), M58_WRITE(a, 1), M58_WRITE(a, 0), M58_WRITE(a + 1, 0), M58_WRITE(a, 0xD0), M58_WORK(9)
    };
    const uint64_t protected_meanwhile[] = {
        M58_WRITE(a, 0x20), M58_WRITE(a, 0xD0), M58_WORK(size / 2), M58_WRITE(a, 0xB0), M58_WRITE(a, 0x60),
        M58_WRITE(a, 0x01), M58_WRITE(a, 0xD0), M58_WORK(65535), M58_WORK(65535)
    };
    const uint64_t again[] = {
        M58_WRITE(a, 0x60), M58_WRITE(a, 0xD0), M58_WRITE(a, 0x20), M58_WRITE(a, 0xD0), M58_WORK(65535), M58_WORK(65535)
    };
    uint64_t state[M58_STATE_WORDS];
    SAME(1, power_up(part, state, M58_STATE_WORDS));
    PLAY_LIST(state, part, programs);
    SAME(0, most_worn(state));
    PLAY_LIST(state, part, protected_meanwhile);
    SAME(UINT64_C(1) << 16 | 4, most_worn(state));
    PLAY_LIST(state, part, again);
    SAME(UINT64_C(2) << 16 | 4, most_worn(state));
}

/* More finished erases of a block of 16 words than a count holds, many a call. */
static void check_limit(void)
{
    enum { A_CALL = 64, CALLS = 1030 };
    uint64_t state[M58_STATE_WORDS], steps[3 * A_CALL], answers[3 * A_CALL];
    SAME(1, power_up(M58_BENCH_TOP, state, M58_STATE_WORDS));
    const uint32_t at = start_of(M58_BENCH_TOP, 2);
    const uint64_t ready[] = { M58_SUPPLY(1), M58_WRITE(at, 0x60), M58_WRITE(at, 0xD0) };
    PLAY_LIST(state, M58_BENCH_TOP, ready);
    for (size_t i = 0; i < 3 * A_CALL; i += 3) {
        steps[i] = M58_WRITE(at, 0x20);
        steps[i + 1] = M58_WRITE(at, 0xD0);
        steps[i + 2] = M58_WORK(16);
    }
    for (uint32_t call = 1; call <= CALLS; call++) {
        const uint32_t finished = call * A_CALL, due = finished < M58_COUNT_LIMIT ? finished : M58_COUNT_LIMIT;
        SAME(3 * A_CALL, run(state, M58_STATE_WORDS, steps, 3 * A_CALL, answers, 3 * A_CALL, array, M58_BENCH_WORDS));
        SAME(16, answers[3 * A_CALL - 1]);
        SAME(due, erases(state, 2));
        SAME((uint64_t)due << 16 | 2, most_worn(state));
    }
    /* and at the limit one by one, from counts that are handed in */
    lent.small[2] = M58_COUNT_LIMIT - 2;
    for (uint32_t i = 1; i < 5; i++) {
        SAME(3, run(state, M58_STATE_WORDS, steps, 3, answers, 3, array, M58_BENCH_WORDS));
        SAME(i == 1 ? M58_COUNT_LIMIT - 1 : M58_COUNT_LIMIT, lent.small[2]);
    }
    SAME(0, lent.small[1] + lent.small[3] + lent.main[0].place[0] + lent.main[0].place[1]);
    SAME(0, touched_around());
}

/* Any counts are good; a main block at the limit stays there; the layout by examples. */
static void check_handed_in(void)
{
    static const uint32_t cases[][3] = {
        { 4, 0, 1 }, { 18, 0, 15 }, { 19, 1, 0 }, { 34, 1, 15 }, { 35, 2, 0 }, { 258, 15, 15 },
    };
    uint64_t state[M58_STATE_WORDS];
    SAME(1, power_up(M58_BENCH_BOTTOM, state, M58_STATE_WORDS));
    for (uint32_t block = M58_BLOCKS; block-- > 0;)
        *place_of(block) = (uint16_t)(1000 + block);
    for (size_t i = 0; i < sizeof cases / sizeof cases[0]; i++)
        SAME(1000 + cases[i][0], lent.main[cases[i][1]].place[cases[i][2]]);
    for (uint32_t block = 0; block < M58_BLOCKS; block++)
        SAME(1000 + block, erases(state, block));
    SAME(0, erases(state, M58_BLOCKS));
    SAME(0, erases(state, UINT32_MAX));
    SAME(UINT64_C(1258) << 16 | 258, most_worn(state));
    for (uint32_t block = M58_BLOCKS; block-- > 0;) {
        *place_of(block) = M58_COUNT_LIMIT; /* of equal counts the lowest block */
        SAME((uint64_t)M58_COUNT_LIMIT << 16 | block, most_worn(state));
    }
    SAME(M58_BLOCKS, report(state, M58_STATE_WORDS));
    erase_but_one(state, M58_BENCH_BOTTOM, 258);
    accept(state, M58_BENCH_BOTTOM, M58_WORK(5));
    accept(state, M58_BENCH_BOTTOM, M58_RESET);
    for (uint32_t block = 0; block < M58_BLOCKS; block++)
        SAME(M58_COUNT_LIMIT, *place_of(block));
}

/* A step that is refused for its address, its count or its array changes no count. */
static void check_refused_steps(uint32_t part)
{
    const uint64_t steps[] = { M58_READ(M58_ADDRESS_LIMIT), M58_WRITE(M58_ADDRESS_LIMIT, 0xD0), M58_WORK(65536) };
    uint64_t state[M58_STATE_WORDS], before[M58_STATE_WORDS];
    unsigned char counts[sizeof lent];
    SAME(1, power_up(part, state, M58_STATE_WORDS));
    for (uint32_t block = 0; block < M58_BLOCKS; block++)
        *place_of(block) = (uint16_t)(1000 + block);
    erase_but_one(state, part, 4);
    memcpy(before, state, sizeof before);
    memcpy(counts, &lent, sizeof lent);
    for (size_t i = 0; i < 3; i++) {
        SAME(i < 2 ? M58_REFUSED_ADDRESS : M58_REFUSED_COUNT, refusal(state, M58_STATE_WORDS, steps[i], words_of(part)));
        SAME(M58_REFUSED_ARRAY, refusal(state, M58_STATE_WORDS, steps[i], words_of(part) - 1));
    }
    SAME(M58_REFUSED_ARRAY, refusal(state, M58_STATE_WORDS, M58_WORK(1), words_of(part) - 1));
    SAME(0, memcmp(before, state, sizeof before));
    SAME(0, memcmp(counts, &lent, sizeof lent));
}

/* The shared place is not 0, beside any device and with any other counts; at 0 again, all goes on. */
static void check_shared(uint32_t part, unsigned operation)
{
    static const uint16_t wrong_ones[] = { 1, 0x100, 0x8000, M58_COUNT_LIMIT };
    uint64_t state[M58_STATE_WORDS];
    fill_array(words_of(part), 0x1234);
    run_operation(state, part, operation);
    lent.small[0] = lent.main[15].place[15] = 5;
    array[fourth[part]] = array[fifth[part]] = 0x1234;
    const size_t changed = other_words(words_of(part), 0x1234);
    for (size_t i = 0; i < sizeof wrong_ones / sizeof wrong_ones[0]; i++) {
        lent.main[0].place[0] = wrong_ones[i];
        check_refused(part, state);
        SAME(changed, other_words(words_of(part), 0x1234));
    }
    lent.main[0].place[0] = 0;
    SAME(UINT64_C(5) << 16, most_worn(state));
    accept(state, part, M58_RESET);
    SAME(5, erases(state, 258));
    /* words of no device: refused as ever, and the counts stay */
    state[0] = M58_PARTS;
    memset(lent.main, 0x5A, sizeof lent.main);
    check_refused(M58_BENCH_TOP, state);
}

/* Power-up sets every count to 0, or leaves them all where it is refused. */
static void check_power_up_counts(void)
{
    uint64_t state[M58_STATE_WORDS + 1];
    unsigned char before[sizeof lent];
    for (uint32_t part = 0; part < M58_PARTS; part++) {
        memset(lent.main, 0xEE, sizeof lent.main);
        memset(lent.small, 0xEE, sizeof lent.small);
        memcpy(before, &lent, sizeof lent);
        SAME(0, power_up(part + M58_PARTS, state, M58_STATE_WORDS));
        SAME(0, power_up(part, state, M58_STATE_WORDS - 1));
        SAME(0, power_up(part, state, M58_STATE_WORDS + 1));
        SAME(0, power_up(part, NULL, 0));
        SAME(0, memcmp(before, &lent, sizeof lent));
        SAME(1, power_up(part, state, M58_STATE_WORDS));
        uint64_t sum = 0;
        for (size_t i = 0; i < M58_ROWS * M58_PLACES; i++)
            sum += lent.main[i / M58_PLACES].place[i % M58_PLACES];
        for (size_t i = 0; i < M58_SMALL_BLOCKS; i++)
            sum += lent.small[i];
        SAME(0, sum);
        SAME(0, most_worn(state));
        SAME(0, touched_around());
    }
}

/* State words and counts that are copied together go on alike. */
static void check_copied(void)
{
    uint64_t state[M58_STATE_WORDS], copied[M58_STATE_WORDS], answer;
    const uint64_t last = M58_WORK(1);
    m58_counts counts;
    SAME(1, power_up(M58_BENCH_TOP, state, M58_STATE_WORDS));
    lent.main[3].place[4] = 41;
    erase_but_one(state, M58_BENCH_TOP, 3 * 16 + 4 + 3);
    memcpy(copied, state, sizeof copied);
    memcpy(counts.main, lent.main, sizeof counts.main);
    memcpy(counts.small, lent.small, sizeof counts.small);
    accept(state, M58_BENCH_TOP, last);
    SAME(41, counts.main[3].place[4]);
    SAME(1, m58_run(copied, M58_STATE_WORDS, counts.main, counts.small, &last, 1, &answer, 1, array, M58_BENCH_WORDS));
    SAME(1, answer);
    SAME(42, counts.main[3].place[4]);
    SAME(0, memcmp(copied, state, sizeof copied));
    SAME(0, memcmp(counts.main, lent.main, sizeof counts.main));
    SAME(0, memcmp(counts.small, lent.small, sizeof counts.small));
}

static void check_erase_counts(void)
{
    check_layout();
    check_worn_small_and_main();
    check_worn_tie();
    for (uint32_t part = 0; part < M58_PARTS; part++) {
        check_places(part);
        check_counted_once(part);
        check_refused_steps(part);
        check_broken_off(part, 1);
        check_broken_off(part, 100);
        for (unsigned operation = 0; operation < OPERATIONS; operation++)
            check_shared(part, operation);
    }
    check_limit();
    check_handed_in();
    check_power_up_counts();
    check_copied();
}

/* ---- Intel HEX ---- */

#define HEX_END  ":00000001FF"
#define HEX_DATA ":02008000341238\n" /* word 40h is 1234h */

static uint8_t *hex_text; /* room for a full part's text, and HEX_MORE bytes */
enum { HEX_MORE = 8, HEX_UNTOUCHED = 0xEE };

static uint64_t hex_read(const char *lines, size_t count)
{
    return m58_hex_read(M58_BENCH_BOTTOM, (const uint8_t *)lines, count, array, M58_BENCH_WORDS);
}

static void check_hex_reading(void)
{
    static const char lines[] =
        ":020000040000fa\r\n" HEX_DATA ":010082005a23\n" ":01008500A5D5\r\n" ":010080005629\n"
        HEX_END "\nignored";
    const size_t end = sizeof lines - sizeof "\nignored";
    const uint64_t result = UINT64_C(0x0000000B00000007);
    SAME(M58_REFUSED_SUM, M58_HEX_REFUSAL(result));
    SAME(7, M58_HEX_LINE(result));
    SAME(7, M58_HEX_LENGTH(result));
    /* with what is ignored, with the LF of the end record, and without */
    for (size_t i = 0; i < 3; i++) {
        fill_array(M58_BENCH_WORDS, 0xFFFF);
        SAME(6, hex_read(lines, i == 0 ? sizeof lines - 1 : end + 2 - i));
        SAME(0x1256, array[0x40]);
        SAME(0xFF5A, array[0x41]);
        SAME(0xA5FF, array[0x42]);
        SAME(3, other_words(M58_BENCH_WORDS, 0xFFFF));
    }
    SAME((uint64_t)M58_REFUSED_RECORD << 32 | 6, hex_read(lines, end - 1));
    /* a record of type 04 counts for those after it: the last byte of a full part */
    static const char last[] = ":0200000401FFFA\n" ":01FFFF00A061\n" HEX_END;
    fill_array(M58_FULL_WORDS, 0x1234);
    SAME(3, m58_hex_read(M58_FULL_TOP, (const uint8_t *)last, sizeof last - 1, array, M58_FULL_WORDS));
    SAME(0xA034, array[M58_FULL_WORDS - 1]);
    SAME(1, other_words(M58_FULL_WORDS, 0x1234));
}

/* Each after a record that would change a word. */
static void check_hex_refusals(void)
{
    static const struct {
        const char *lines;
        uint32_t refusal, line;
    } cases[] = {
        { HEX_DATA "\n" HEX_END, M58_REFUSED_RECORD, 2 },
        { HEX_DATA ":00000101FE\n" HEX_END, M58_REFUSED_RECORD, 2 },
        { HEX_DATA ":0100000400FB\n" HEX_END, M58_REFUSED_RECORD, 2 },
        { HEX_DATA HEX_DATA ":00000001FE\n" HEX_END, M58_REFUSED_SUM, 3 },
        { HEX_DATA ":020000021000EC\n" HEX_END, M58_REFUSED_TYPE, 2 },
        { HEX_DATA ":020000021000ED\n" HEX_END, M58_REFUSED_SUM, 2 },
        { HEX_DATA ":01800000A0DF\nx\n" HEX_END, M58_REFUSED_PLACE, 2 },
        { HEX_DATA ":02FFFF00A0B0B0\n" HEX_END, M58_REFUSED_PLACE, 2 },
        { HEX_DATA ":020000040001F9\n" HEX_DATA HEX_END, M58_REFUSED_PLACE, 3 },
        { HEX_DATA HEX_DATA, M58_REFUSED_NO_END, 2 },
        { "", M58_REFUSED_NO_END, 0 },
    };
    fill_array(M58_BENCH_WORDS, 0xFFFF);
    for (size_t i = 0; i < sizeof cases / sizeof cases[0]; i++) {
        uint64_t result = hex_read(cases[i].lines, strlen(cases[i].lines));
        SAME(cases[i].refusal, M58_HEX_REFUSAL(result));
        SAME(cases[i].line, M58_HEX_LINE(result));
        SAME(0, other_words(M58_BENCH_WORDS, 0xFFFF));
    }
    SAME((uint64_t)M58_REFUSED_NO_END << 32, hex_read(NULL, 0));
}

/* Reading and writing of a part, with an array of so many words: the same refusal, and 0 beside it. */
static void refused_lent(uint32_t refusal, uint32_t part, size_t words)
{
    static const char lines[] = HEX_DATA HEX_END;
    const uint64_t due = (uint64_t)refusal << 32;
    uint16_t *lent = words == 0 ? NULL : array;
    SAME(due, m58_hex_read(part, (const uint8_t *)lines, sizeof lines - 1, lent, words));
    SAME(due, m58_hex_write(part, lent, words, hex_text, M58_HEX_FULL_BYTES));
    SAME(due, m58_hex_write(part, lent, words, NULL, 0));
}

static void check_hex_lent(void)
{
    static const uint32_t above[] = { M58_PARTS, M58_PARTS + 1, UINT32_C(1) << 31, UINT32_MAX };
    fill_array(M58_FULL_WORDS, 0xFFFF);
    hex_text[0] = HEX_UNTOUCHED;
    for (uint32_t part = 0; part < M58_PARTS; part++) {
        size_t own = words_of(part);
        refused_lent(M58_REFUSED_ARRAY, part, 0);
        refused_lent(M58_REFUSED_ARRAY, part, own - 1);
        refused_lent(M58_REFUSED_ARRAY, part, own == M58_FULL_WORDS ? M58_BENCH_WORDS : own + 1);
    }
    for (size_t i = 0; i < sizeof above / sizeof above[0]; i++) {
        refused_lent(M58_REFUSED_PART, above[i], M58_FULL_WORDS);
        refused_lent(M58_REFUSED_PART, above[i], M58_BENCH_WORDS);
        refused_lent(M58_REFUSED_PART, above[i], 0);
    }
    SAME(0, other_words(M58_FULL_WORDS, 0xFFFF));
    SAME(HEX_UNTOUCHED, hex_text[0]);
}

/* The bytes of the text that are not as before, from one of them up to the end of its room. */
static size_t touched(size_t from)
{
    size_t count = 0;
    for (size_t i = from; i < M58_HEX_FULL_BYTES + HEX_MORE; i++)
        count += hex_text[i] != HEX_UNTOUCHED;
    return count;
}

/* Writing a part, and reading what was written. */
static void check_hex_writing(uint32_t part, size_t words, size_t bytes, uint64_t lines)
{
    static const char end[] = HEX_END "\n";
    for (size_t i = 0; i < words; i++)
        array[i] = (uint16_t)(i * 40503 + (i >> 13));
    memset(hex_text, HEX_UNTOUCHED, M58_HEX_FULL_BYTES + HEX_MORE);
    SAME((uint64_t)M58_REFUSED_TEXT << 32, m58_hex_write(part, array, words, hex_text, bytes - 1));
    SAME((uint64_t)M58_REFUSED_TEXT << 32, m58_hex_write(part, array, words, NULL, 0));
    SAME(0, touched(0));
    SAME(bytes, m58_hex_write(part, array, words, hex_text, bytes + HEX_MORE));
    SAME(0, touched(bytes));
    SAME(0, memcmp(hex_text + bytes - (sizeof end - 1), end, sizeof end - 1));
    /* just so many bytes, at an address of any alignment */
    SAME(bytes, m58_hex_write(part, array, words, hex_text + 1, bytes));
    SAME(0, touched(bytes + 1));
    fill_array(words, 0xFFFF);
    SAME(lines, m58_hex_read(part, hex_text + 1, bytes, array, words));
    size_t other = 0;
    for (size_t i = 0; i < words; i++)
        other += array[i] != (uint16_t)(i * 40503 + (i >> 13));
    SAME(0, other);
}

/* Each block starts where the lookup first finds it; the starts rise or fall by the part. */
static void check_block_starts(void)
{
    for (uint32_t part = 0; part < M58_PARTS; part++) {
        const int top = part == M58_FULL_TOP || part == M58_BENCH_TOP;
        uint32_t before = 0;
        SAME(0, m58_block_start(part, top ? M58_BLOCKS - 1 : 0));
        for (uint32_t block = 0; block < M58_BLOCKS; block++) {
            const uint64_t told = m58_block_start(part, block);
            const uint32_t at = M58_START_LOCATION(told);
            SAME(M58_REFUSED_NOTHING, M58_START_REFUSAL(told));
            SAME(block, m58_lookup_block(part, at));
            if (at > 0)
                SAME(top ? block + 1 : block - 1, m58_lookup_block(part, at - 1));
            if (block > 0)
                SAME(1, top ? at < before : at > before);
            before = at;
        }
        SAME(M58_NO_START, m58_block_start(part, M58_BLOCKS));
        SAME(M58_NO_START, m58_block_start(part, UINT32_MAX));
        SAME(UINT64_C(7) << 32, m58_block_start(part + M58_PARTS, 100));
        SAME(UINT64_C(7) << 32, m58_block_start(part + M58_PARTS, M58_BLOCKS));
    }
}

int main(void)
{
    array = calloc(M58_FULL_WORDS, sizeof *array);
    hex_text = calloc(M58_HEX_FULL_BYTES + HEX_MORE, 1);
    if (array == NULL || hex_text == NULL) {
        fputs("header_checks: no memory for the array and the text\n", stderr);
        return 1;
    }
    fill_around();
    check_encoding();
    check_clamping();
    check_block_starts();
    check_refusals();
    check_buffer();
    check_register_stored();
    check_register_states();
    check_supply();
    SAME(0, touched_around());
    check_erase_counts();
    check_hex_reading();
    check_hex_refusals();
    check_hex_lent();
    check_hex_writing(M58_BENCH_TOP, M58_BENCH_WORDS, M58_HEX_BENCH_BYTES, 2050);
    check_hex_writing(M58_FULL_BOTTOM, M58_FULL_WORDS, M58_HEX_FULL_BYTES, 2097665);
    free(hex_text);
    free(array);
    printf("header_checks: %u checks, %u wrong\n", checks, wrong);
    return wrong != 0;
}
