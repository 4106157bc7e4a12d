/*
 * The M58LT256K flash model, for C programs: the lookup of blocks and
 * banks, the table of block starts, lists of steps played on a part, counts of its
 * erases, and arrays read from Intel HEX text and written to it.
 *
 * THE LOOKUP is three pure functions on plain numbers. Any uint32_t may be passed for
 * either argument. They keep no state, touch no memory of the caller and
 * may be called from any number of threads at once.
 *
 *   part     which part is asked about, one of the M58_ parts below
 *   address  a word address, good when below M58_ADDRESS_LIMIT
 *
 * A bench part has M58_BENCH_WORDS words and ignores the upper address
 * lines: the address is reduced modulo that length first. A full part has
 * M58_FULL_WORDS words, so no good address is reduced.
 *
 * Ask for the refusal first. When it is M58_REFUSED_NOTHING, the block is
 * 0 to 258 and the bank 0 to 15. Beside any refusal both are 0, which by
 * itself cannot be told from block 0 or bank 0.
 *
 * THE TABLE OF BLOCK STARTS is one more such function, of a part and a block. The lookup
 * goes through the same table, by halving. On a bottom part the block of a location (the
 * address, reduced as above) is the last one that does not start above it, on a top
 * part the first.
 *
 * To link:  cc prog.c libm58.a      (x86-64 Linux only: rt lib writes the
 * library for no other machine)
 */
#ifndef M58_H
#define M58_H

#include <stddef.h>
#include <stdint.h>

#ifdef __cplusplus
extern "C" {
#endif

/* Parts. */
#define M58_FULL_BOTTOM  UINT32_C(0)
#define M58_FULL_TOP     UINT32_C(1)
#define M58_BENCH_BOTTOM UINT32_C(2)
#define M58_BENCH_TOP    UINT32_C(3)

/* Refusals. When both apply, the lower number is given. */
#define M58_REFUSED_NOTHING UINT32_C(0)
#define M58_REFUSED_ADDRESS UINT32_C(3) /* address is M58_ADDRESS_LIMIT or more */
#define M58_REFUSED_PART    UINT32_C(7) /* part is above M58_BENCH_TOP */

/* Ranges. */
#define M58_ADDRESS_LIMIT UINT32_C(16777216)
#define M58_FULL_WORDS    UINT32_C(16777216)
#define M58_BENCH_WORDS   UINT32_C(16384)
#define M58_PARTS         UINT32_C(4)
#define M58_BLOCKS        UINT32_C(259)
#define M58_BANKS         UINT32_C(16)

/* One of the three refusal numbers above. */
uint32_t m58_lookup_refusal(uint32_t part, uint32_t address);

/* The block the address lies in, 0 to 258; 0 beside a refusal. */
uint32_t m58_lookup_block(uint32_t part, uint32_t address);

/* The bank the address lies in, 0 to 15; 0 beside a refusal. */
uint32_t m58_lookup_bank(uint32_t part, uint32_t address);

/*
 * The lowest location of a block: refusal << 32 | location. M58_REFUSED_PART is the
 * only refusal, and the location beside it is 0. A number that is no block, M58_BLOCKS
 * or more, is not refused: its location is M58_NO_START, which no part has.
 *
 * The locations rise with the block from 0 on a bottom part, and fall to 0 on a top part.
 */
uint64_t m58_block_start(uint32_t part, uint32_t block);
#define M58_START_REFUSAL(result)  ((uint32_t)((result) >> 32))
#define M58_START_LOCATION(result) ((uint32_t)(result))
#define M58_NO_START               M58_ADDRESS_LIMIT

/*
 * PLAYING. The caller keeps the device as M58_STATE_WORDS words with its erase
 * counts beside them, both of which m58_power_up fills, and the array as words:
 * M58_FULL_WORDS or M58_BENCH_WORDS of them, by the part. m58_run plays a list of
 * steps and writes one answer for each. A long list may be played in pieces: the
 * next call goes on with the same state words, the same counts and the same array.
 *
 * A step is one uint64_t, made by the macros below. An answer is one
 * uint64_t: the refusal's number in the upper half, the value in the lower
 * (the word that was read, the units of work that were done, else 0). A
 * refused step changes neither the state nor the counts nor the array.
 *
 * What the state words mean is the library's own matter, and may change from
 * version to version: keep them only between calls of one library, and copy
 * them as a whole.
 *
 * MEMORY. Each pointer is aligned as its type is (8 bytes for uint64_t, 2 for
 * uint16_t and m58_row, 1 for uint8_t). Each count argument is a number of
 * elements, not of bytes. The erase counts have no such argument: `main` points to
 * M58_ROWS rows and `small` to M58_SMALL_BLOCKS words, and neither may be null. Any
 * other null pointer is good where its count is 0. State, main, small, steps,
 * answers, array and text may not overlap. What a call only writes need not hold
 * anything before it: the answers, the state words and the erase counts of
 * m58_power_up and the text of m58_hex_write. The state words and the erase counts
 * of m58_run and of the reports, the steps, the text of m58_hex_read and every array
 * are read.
 *
 * THREADS. The functions keep no state of their own: calls on different
 * memory may run at once. A call has its state, erase counts, answers, array and
 * text to itself, except for what it only reads: any number of calls at once may
 * read the same state words and erase counts (m58_report, m58_most_worn and
 * m58_erase_count), steps (m58_run), text (m58_hex_read) or array (m58_hex_write).
 */
#define M58_STATE_WORDS 25 /* other versions have other counts: build anew with this header */

/*
 * THE WRITE BUFFER. A load is a row of writes: E8h to the block; the number of
 * words less one, at most M58_BUFFER_WORDS - 1, to the same block; so many
 * data, the first at the lowest location; D0h to the block. Then each unit of
 * work puts in one word, from the lowest up.
 */
#define M58_BUFFER_WORDS UINT32_C(32)

/*
 * THE CONFIGURATION REGISTER. The writes 60h and 03h store the lower 16 bits of
 * the second one's address. Bits 14, 5 and 4 are reserved: they are stored as 0,
 * without a flag. It is BFCFh after power-up and after a reset, and is read at
 * offset 5 of a bank in signature mode (90h). State words that have a reserved
 * bit set, such as those of older libraries, whose default was FFFFh, are not
 * those of a well-formed device: every step and every report refuse them.
 */

/*
 * SUPPLY. It is off after power-up, and a reset keeps it. When it goes off, what
 * runs ends at once: the words that it has reached stay as they are, and SR3 is set
 * with SR4 for a program or a buffer program (98h), with SR5 for an erase (A8h). What
 * is suspended stays: D0h with supply on resumes it; without supply, D0h ends the one
 * that it would have resumed, the program before the erase, with the same flags and
 * no unit. A set-up or a load stays too, and its last cycle looks at the supply.
 * Switching supply on resumes nothing. State words in which something runs without
 * supply, which older libraries may have left, are not those of a well-formed device:
 * every step and every report refuse them.
 */

/*
 * ERASE COUNTS. The chip keeps no count of its erases; the model does, for each block.
 * The caller keeps the counts beside the state words, as one m58_counts or as rows and
 * words of its own. No call copies them.
 *
 *   block 0 to 3    counts.small[block]
 *   block 4 to 258  counts.main[(block - 3) / 16].place[(block - 3) % 16]
 *
 * A row is a bank. The block's number alone decides, so top and bottom parts are alike.
 * counts.main[0].place[0], the place that the small blocks share, is no block's and
 * stays 0.
 *
 * An erase counts once, when it is finished: in the work step that does its last word,
 * however often it was suspended. One that ends before that word does not count, be it
 * by a reset, by supply that goes off or by D0h without supply. A count stops at
 * M58_COUNT_LIMIT. m58_power_up sets all counts to 0, a reset keeps them. So after any
 * steps from power-up a count is the number of finished erases of its block, or
 * M58_COUNT_LIMIT where there were more.
 *
 * Save and copy the counts together with the state words. Unlike the state words, they
 * may be read and changed by a program: any counts go with any state words, but the
 * shared place has to be 0. Where it is not, every step and every report are refused
 * M58_REFUSED_STATE and change nothing; a step on an array of another length is refused
 * M58_REFUSED_ARRAY.
 *
 * Programs for an older header pass two more arguments to m58_power_up, m58_run and
 * m58_report, main and small, behind the state words:
 *
 *   m58_counts counts;
 *   m58_power_up(part, state, M58_STATE_WORDS, counts.main, counts.small)
 */
#define M58_ROWS         16    /* one a bank */
#define M58_PLACES       16    /* main-size places of a row */
#define M58_SMALL_BLOCKS 4     /* blocks 0 to 3 */
#define M58_COUNT_LIMIT  65535 /* where a count stops */

typedef struct m58_row {
    uint16_t place[M58_PLACES];
} m58_row;

typedef struct m58_counts {
    m58_row main[M58_ROWS];
    uint16_t small[M58_SMALL_BLOCKS];
} m58_counts;

/*
 * The steps, as constant expressions where the arguments are. An address or a
 * count that 32 bits do not hold, also a negative one, is encoded as
 * 0xFFFFFFFF, which is refused as it would be (3 for an address, 4 for a
 * count): it never becomes a small one that is good. So these arguments are
 * evaluated twice. Data are the lower 16 bits of their argument, as a part has
 * 16 data lines. Supply is on where its argument is not 0.
 */
#define M58_CLAMPED(number) \
    ((uint64_t)(number) >> 32 ? UINT64_C(0xFFFFFFFF) : (uint64_t)(number))
#define M58_READ(address)        M58_CLAMPED(address)
#define M58_WRITE(address, data) \
    ((UINT64_C(1) << 48) | ((uint64_t)(uint16_t)(data) << 32) | M58_CLAMPED(address))
#define M58_WORK(count)          ((UINT64_C(2) << 48) | M58_CLAMPED(count))
#define M58_SUPPLY(on)           ((UINT64_C(3) << 48) | ((on) ? 1u : 0u))
#define M58_RESET                (UINT64_C(4) << 48)

#define M58_ANSWER_REFUSAL(answer) ((uint32_t)((answer) >> 32))
#define M58_ANSWER_VALUE(answer)   ((uint32_t)(answer))

/* More refusals, of steps. The lowest number is given. */
#define M58_REFUSED_ARRAY UINT32_C(1) /* array length is not the part's */
#define M58_REFUSED_STATE UINT32_C(2) /* state words are no well-formed device, or the shared place is not 0 */
#define M58_REFUSED_COUNT UINT32_C(4) /* work count above 65,535 */

/*
 * Writes the power-up state of a part into `state`, sets all erase counts to 0 and
 * returns 1. Returns 0, and writes nothing, the counts included, when the part is above
 * M58_BENCH_TOP or state_count is not M58_STATE_WORDS.
 */
uint32_t m58_power_up(uint32_t part, uint64_t *state, size_t state_count,
                      m58_row *main, uint16_t *small);

/*
 * Plays `steps` in order and writes the answer of step i to answers[i].
 * Returns how many steps were played: all of them, or fewer where
 * answer_count is less than step_count, or up to the first number that is no
 * step (made by none of the macros). Answers past that number stay as they
 * were.
 *
 * Where the state words are not those of a device (also where state_count is
 * not M58_STATE_WORDS), every step is refused and the state, the counts and the
 * array stay as they were.
 * The refusal is 1 where array_count is not the length of the part that
 * state[0] names, else 2. A state[0] that names no part, above M58_BENCH_TOP,
 * counts as M58_BENCH_TOP here; where state_count is 0, the part is
 * M58_FULL_BOTTOM.
 */
size_t m58_run(uint64_t *state, size_t state_count, m58_row *main, uint16_t *small,
               const uint64_t *steps, size_t step_count,
               uint64_t *answers, size_t answer_count,
               uint16_t *array, size_t array_count);

/*
 * THE REPORTS change nothing. They are refused M58_REFUSED_STATE where a step would be:
 * where the state words are those of no well-formed device (also where state_count is
 * not M58_STATE_WORDS) and where the shared place is not 0. All else is 0 beside that
 * refusal.
 */

/*
 * The report of unprotected blocks: refusal << 32 | count << 16 | lowest.
 * lowest is M58_BLOCKS when none is unprotected.
 */
uint64_t m58_report(const uint64_t *state, size_t state_count,
                    const m58_row *main, const uint16_t *small);

/*
 * The most worn block and its count: refusal << 32 | count << 16 | block. It is the
 * lowest of those with the highest count, and so block 0 where all counts are 0.
 */
uint64_t m58_most_worn(const uint64_t *state, size_t state_count,
                       const m58_row *main, const uint16_t *small);
#define M58_WORN_REFUSAL(result) ((uint32_t)((result) >> 32))
#define M58_WORN_COUNT(result)   ((uint32_t)((result) >> 16 & 0xFFFF))
#define M58_WORN_BLOCK(result)   ((uint32_t)((result) & 0xFFFF))

/*
 * The finished erases of one block: refusal << 32 | count. The count of a number that
 * is no block, M58_BLOCKS or more, is 0 and not refused.
 */
uint64_t m58_erase_count(const uint64_t *state, size_t state_count,
                         const m58_row *main, const uint16_t *small, uint32_t block);
#define M58_ERASES_REFUSAL(result) ((uint32_t)((result) >> 32))
#define M58_ERASES_COUNT(result)   ((uint32_t)(result))

/*
 * INTEL HEX. Text is the bytes of a file, without a 0 byte at its end; the array
 * is the words of the part that is named. Byte address a is a half of word a / 2,
 * the lower half where a is even.
 *
 * READING. Each line is one record and nothing else: a colon, then two hex digits
 * of either case for each byte: the number of data bytes, the offset (upper byte
 * first), the type, the data, and a check byte that makes the sum of all of them
 * 0 modulo 256. Lines end in LF or CR LF, and the last may lack it.
 *
 *   00  data for the byte addresses from the offset up
 *   01  `:00000001FF` alone: the end record; what follows it is ignored
 *   04  two data bytes, offset 0: bits 31 to 16 of the byte addresses of the
 *       records after it; they are 0 before the first
 *
 * A byte that is named twice keeps the later value; words and halves that are not
 * named stay.
 *
 * WRITING. Upper case, LF after each record, 16 data bytes a record, from the
 * lowest word up, with a 04 record before each 65,536 bytes (before the 32,768 of
 * a bench part), the end record last. So the length depends on the part alone,
 * and reading the text back gives the same words.
 */
#define M58_HEX_FULL_BYTES  UINT32_C(92282892) /* text of a full part */
#define M58_HEX_BENCH_BYTES UINT32_C(90140)    /* text of a bench part */

/* A result: the refusal's number in the upper half, a line or a length in the lower. */
#define M58_HEX_REFUSAL(result) ((uint32_t)((result) >> 32))
#define M58_HEX_LINE(result)    ((uint32_t)(result)) /* of m58_hex_read */
#define M58_HEX_LENGTH(result)  ((uint32_t)(result)) /* of m58_hex_write */
#define M58_HEX_LAST_LINE       UINT32_C(0xFFFFFFFF) /* this line or a later one */

/* More refusals, of text; M58_REFUSED_ARRAY and M58_REFUSED_PART come before them. */
#define M58_REFUSED_RECORD UINT32_C(10) /* malformed; also a 01 or 04 of other offset or length */
#define M58_REFUSED_SUM    UINT32_C(11) /* the sum of the record's bytes is not 0 */
#define M58_REFUSED_TYPE   UINT32_C(12) /* type is not 00, 01 or 04 */
#define M58_REFUSED_PLACE  UINT32_C(13) /* byte outside the array, or offset plus length above 65,536 */
#define M58_REFUSED_NO_END UINT32_C(14) /* no end record */
#define M58_REFUSED_TEXT   UINT32_C(17) /* text is shorter than what is written */

/*
 * Reads `text` into `array`. Returns refusal << 32 | line. The first bad record
 * decides, by the lowest number within it. The line is the one that decided,
 * counted from 1: the bad record's; the end record's where nothing is refused;
 * beside M58_REFUSED_NO_END the number of lines in the text, 0 where it is empty.
 * A line past M58_HEX_LAST_LINE is told as that. Beside M58_REFUSED_ARRAY
 * (array_count is not the part's) and M58_REFUSED_PART (part is above
 * M58_BENCH_TOP; array_count is not looked at) it is 0.
 *
 * Text that is refused leaves every word of the array as it was.
 */
uint64_t m58_hex_read(uint32_t part, const uint8_t *text, size_t text_count,
                      uint16_t *array, size_t array_count);

/*
 * Writes `array` into `text`. Returns refusal << 32 | length: the bytes that were
 * written, M58_HEX_FULL_BYTES or M58_HEX_BENCH_BYTES by the part; bytes of the
 * text past them stay. Refusals are M58_REFUSED_ARRAY and M58_REFUSED_PART, as
 * above, and M58_REFUSED_TEXT; the length beside them is 0, and the whole text
 * stays.
 */
uint64_t m58_hex_write(uint32_t part, const uint16_t *array, size_t array_count,
                       uint8_t *text, size_t text_count);

#ifdef __cplusplus
}
#endif

#endif
