/* A model of the M58LT256KST/KSB written by hand in plain C: a yardstick of speed, and one more witness of what the steps answer.
 * It is written from documents 01 and 02 and the sheet alone: one struct, behind a pointer, and switches. Steps and answers are handed over as numbers, those of m58.h.
 *
 * A state held in a C struct is trusted: refusal 2 (state not well formed) is not tested, so a device must come from plain_power_up.
 * Refusal 5 (location in no block) cannot arise: every location lies in a block. */
#ifndef PLAIN_H
#define PLAIN_H

#include <stdbool.h>
#include <stddef.h>
#include <stdint.h>

enum { PLAIN_BANKS = 16, PLAIN_BLOCKS = 259, PLAIN_BUFFER = 32 };

enum plain_mode { PLAIN_ARRAY, PLAIN_STATUS, PLAIN_SIGNATURE, PLAIN_QUERY };
/* A load of the buffer is four set-ups: which of its cycles is due. */
enum plain_setup {
    PLAIN_NO_SETUP,
    PLAIN_PROGRAM_SETUP,
    PLAIN_ERASE_SETUP,
    PLAIN_LOCK_SETUP,
    PLAIN_LOAD_COUNT,
    PLAIN_LOAD_FIRST,
    PLAIN_LOAD_WORD,
    PLAIN_LOAD_CONFIRM
};
enum plain_operation { PLAIN_NOTHING, PLAIN_PROGRAM, PLAIN_BUFFER_PROGRAM, PLAIN_ERASE };

struct plain {
    bool top;
    unsigned unit_shift; /* a main block has 1 << unit_shift words */
    bool supply;
    enum plain_setup setup;
    enum plain_mode mode[PLAIN_BANKS];
    uint16_t flags; /* SR5, SR4, SR3 and SR1, at their places in the status word */
    uint16_t configuration; /* its reserved bits, 14, 5 and 4, are 0 */
    enum plain_operation running; /* only with supply on */
    enum plain_operation suspended_program; /* a program, a buffer program or nothing */
    bool erase_suspended;
    struct {
        uint32_t location;
        uint16_t data;
    } program;
    /* Of a load or a buffer program. A load fills in the block, then the number of words, then the start and the data. */
    struct {
        uint32_t block;
        uint32_t start;
        uint32_t words;
        uint32_t due; /* data cycles that the load still lacks */
        uint32_t done;
        uint16_t data[PLAIN_BUFFER];
    } buffer;
    struct {
        uint32_t block;
        uint32_t done;
    } erase;
    bool protected[PLAIN_BLOCKS];
    uint16_t erases[PLAIN_BLOCKS]; /* finished, by block number, at most 65,535; the last member, since a reset leaves it (document 02, item 6) */
};

/* Fills `device` with the power-up state of a part, 0 to 3 (full bottom, full top, bench bottom, bench top). */
void plain_power_up(struct plain *device, uint32_t part);

/* Plays `n` steps in order and writes the answer of step i to answers[i]. Returns how many were played: all of them, or those
 * before the first number that is no step. `array` has `count` words; a count that is not the part's is refused by every step. */
size_t plain_run(struct plain *device, const uint64_t *steps, size_t n, uint64_t *answers, uint16_t *array, size_t count);

/* The finished erases of a block, at most 65,535; 0 for a number that is no block (document 02, item 6). */
uint16_t plain_erase_count(const struct plain *device, uint32_t block);

/* The block with the most finished erases, the lowest number on a tie. */
uint32_t plain_most_worn(const struct plain *device);

/* The bytes of a device, for a caller that does not see the struct. */
size_t plain_size(void);

#endif
