/*
 * Host bench for the block and bank lookup and the table of block starts.
 *
 * Reads the block map on standard input (see sheet_map.rs for its form),
 * then asks for the start of every block of every part, prints them, and
 * compares each with the map; asks the lookup for every address of every part;
 * and asks both for parts, blocks and addresses that there are not.
 *
 * Exit status: 0 all equal, 1 a mismatch, 2 the map cannot be used.
 */
#include <inttypes.h>
#include <stdint.h>
#include <stdio.h>
#include <stdlib.h>
#include <string.h>

#include "m58.h"

enum { RANDOM_INPUTS = 300 };

struct row {
    uint32_t first, last, block, bank;
};

struct answer {
    uint32_t refusal, block, bank;
};

static const char *const part_name[M58_PARTS] = {
    "full bottom", "full top", "bench bottom", "bench top"
};
static const uint32_t part_words[M58_PARTS] = {
    M58_FULL_WORDS, M58_FULL_WORDS, M58_BENCH_WORDS, M58_BENCH_WORDS
};

static struct row map[M58_PARTS][M58_BLOCKS];

/* The map of the part under test, one entry for each word. */
static uint16_t block_at[M58_FULL_WORDS];
static uint8_t bank_at[M58_FULL_WORDS];

/* ---- the map ---- */

static _Noreturn void bad_map(unsigned long line, const char *why)
{
    fprintf(stderr, "lookup_compare: map line %lu: %s\n", line, why);
    exit(2);
}

/*
 * Takes one number and the single character after it. scanf would let signs,
 * blanks and overflow pass, and a damaged map must not.
 */
static int take(const char **text, uint32_t base, uint32_t limit, char after, uint32_t *value)
{
    static const char digits[] = "0123456789ABCDEF";
    const char *at = *text;
    uint32_t v = 0;
    for (; *at != '\0'; at++) {
        const char *digit = memchr(digits, *at, base);
        if (digit == NULL)
            break;
        v = v * base + (uint32_t)(digit - digits);
        if (v >= limit)
            return 0;
    }
    if (at == *text || *at != after)
        return 0;
    *value = v;
    *text = at + 1;
    return 1;
}

/* Each part must come in order and whole, with every block once. */
static void read_map(void)
{
    char line[64];
    unsigned long number = 0;
    for (uint32_t part = 0; part < M58_PARTS; part++) {
        unsigned char seen[M58_BLOCKS] = {0};
        uint32_t next = 0;
        for (uint32_t i = 0; i < M58_BLOCKS; i++) {
            struct row *r = &map[part][i];
            const char *text = line;
            uint32_t p;
            number++;
            if (fgets(line, sizeof line, stdin) == NULL)
                bad_map(number, "the map ends too early");
            if (!take(&text, 10, M58_PARTS, ' ', &p)
                || !take(&text, 16, M58_ADDRESS_LIMIT, ' ', &r->first)
                || !take(&text, 16, M58_ADDRESS_LIMIT, ' ', &r->last)
                || !take(&text, 10, M58_BLOCKS, ' ', &r->block)
                || !take(&text, 10, M58_BANKS, '\n', &r->bank)
                || *text != '\0')
                bad_map(number, "not a row: part first last block bank");
            if (p != part)
                bad_map(number, "row of another part than the one due");
            if (r->first != next || r->last < r->first)
                bad_map(number, "the row does not follow on the one before");
            if (r->last >= part_words[part])
                bad_map(number, "the row goes past the end of the part");
            if (seen[r->block])
                bad_map(number, "the block was listed before");
            seen[r->block] = 1;
            next = r->last + 1;
        }
        if (next != part_words[part])
            bad_map(number, "the part is not covered to its end");
    }
    if (fgets(line, sizeof line, stdin) != NULL)
        bad_map(number + 1, "more rows than blocks");
    if (ferror(stdin))
        bad_map(number + 1, "the map cannot be read");
}

static void expand(uint32_t part)
{
    for (uint32_t i = 0; i < M58_BLOCKS; i++) {
        const struct row *r = &map[part][i];
        for (uint32_t at = r->first; at <= r->last; at++) {
            block_at[at] = (uint16_t)r->block;
            bank_at[at] = (uint8_t)r->bank;
        }
    }
}

/* ---- the comparison ---- */

static _Noreturn void mismatch(uint32_t part, uint32_t address,
                               struct answer expected, struct answer got)
{
    fflush(stdout);
    fprintf(stderr,
            "lookup_compare: mismatch: part %" PRIu32 " address %" PRIu32 " (%06" PRIX32 "h)\n"
            "  expected refusal %" PRIu32 " block %" PRIu32 " bank %" PRIu32 "\n"
            "  got      refusal %" PRIu32 " block %" PRIu32 " bank %" PRIu32 "\n",
            part, address, address,
            expected.refusal, expected.block, expected.bank,
            got.refusal, got.block, got.bank);
    exit(1);
}

static inline void compare(uint32_t part, uint32_t address, struct answer expected)
{
    struct answer got;
    got.refusal = m58_lookup_refusal(part, address);
    got.block = m58_lookup_block(part, address);
    got.bank = m58_lookup_bank(part, address);
    if (got.refusal != expected.refusal || got.block != expected.block
        || got.bank != expected.bank)
        mismatch(part, address, expected, got);
}

/* ---- the table of block starts ---- */

static void compare_start(uint32_t part, uint32_t block, uint32_t refusal, uint32_t location)
{
    const uint64_t got = m58_block_start(part, block);
    if (M58_START_REFUSAL(got) == refusal && M58_START_LOCATION(got) == location)
        return;
    fflush(stdout);
    fprintf(stderr,
            "lookup_compare: mismatch: start of block %" PRIu32 " of part %" PRIu32 "\n"
            "  expected refusal %" PRIu32 " location %06" PRIX32 "h\n"
            "  got      refusal %" PRIu32 " location %06" PRIX32 "h\n",
            block, part, refusal, location, M58_START_REFUSAL(got), M58_START_LOCATION(got));
    exit(1);
}

/* Prints what the library holds, then compares it: a wrong table is seen whole. */
static uint64_t compare_starts(uint32_t part)
{
    enum { COLUMNS = 8 };
    printf("%s, block starts:\n", part_name[part]);
    for (uint32_t block = 0; block < M58_BLOCKS; block++) {
        if (block % COLUMNS == 0)
            printf("  %3" PRIu32 ":", block);
        printf(" %06" PRIX32, M58_START_LOCATION(m58_block_start(part, block)));
        if (block % COLUMNS == COLUMNS - 1 || block == M58_BLOCKS - 1)
            putchar('\n');
    }
    for (uint32_t i = 0; i < M58_BLOCKS; i++)
        compare_start(part, map[part][i].block, M58_REFUSED_NOTHING, map[part][i].first);
    return M58_BLOCKS;
}

static uint64_t compare_no_starts(void)
{
    static const uint32_t no_part[] = { 4, 5, 255, 2147483648u, 4294967295u };
    static const uint32_t no_block[] = { 259, 260, 511, 512, 65536, 2147483648u, 4294967295u };
    enum {
        NO_PART = sizeof no_part / sizeof no_part[0],
        NO_BLOCK = sizeof no_block / sizeof no_block[0]
    };
    uint64_t asked = 0;
    for (uint32_t part = 0; part < M58_PARTS; part++)
        for (int i = 0; i < NO_BLOCK; i++, asked++)
            compare_start(part, no_block[i], M58_REFUSED_NOTHING, M58_NO_START);
    for (int p = 0; p < NO_PART; p++) {
        for (uint32_t block = 0; block < M58_BLOCKS; block++, asked++)
            compare_start(no_part[p], block, M58_REFUSED_PART, 0);
        for (int i = 0; i < NO_BLOCK; i++, asked++)
            compare_start(no_part[p], no_block[i], M58_REFUSED_PART, 0);
    }
    return asked;
}

/* ---- the lookup ---- */

static uint64_t compare_part(uint32_t part)
{
    unsigned char seen[M58_BLOCKS] = {0};
    const uint32_t words = part_words[part];
    uint64_t compared = 0;
    uint32_t location = 0;
    unsigned blocks = 0;

    expand(part);
    for (uint32_t address = 0; address < M58_ADDRESS_LIMIT; address++) {
        struct answer expected = {
            M58_REFUSED_NOTHING, block_at[location], bank_at[location]
        };
        compare(part, address, expected);
        seen[expected.block] = 1;
        compared++;
        /* A bench part begins again at its end; a full part just ends. */
        if (++location == words)
            location = 0;
    }
    for (uint32_t block = 0; block < M58_BLOCKS; block++)
        blocks += seen[block];
    printf("%s: %" PRIu64 " addresses compared, %u blocks seen\n",
           part_name[part], compared, blocks);
    return compared;
}

/* xorshift with a fixed seed, so that every run asks the same. */
static uint32_t next_random(void)
{
    static uint32_t x = 2463534242u;
    x ^= x << 13;
    x ^= x >> 17;
    x ^= x << 5;
    return x;
}

static uint64_t compare_refused(void)
{
    static const uint32_t bad_parts[] = { 4, 5, 255, 2147483648u, 4294967295u };
    static const uint32_t bad_edges[] = { 16777216, 16777217, 2147483648u, 4294967295u };
    static const uint32_t good_edges[] = {
        0, 1, 16383, 16384, 65535, 65536, 1048576, 16777215
    };
    enum {
        PARTS = sizeof bad_parts / sizeof bad_parts[0],
        BAD_EDGES = sizeof bad_edges / sizeof bad_edges[0],
        GOOD_EDGES = sizeof good_edges / sizeof good_edges[0],
        BAD = BAD_EDGES + RANDOM_INPUTS,
        GOOD = GOOD_EDGES + RANDOM_INPUTS
    };
    const struct answer no_address = { M58_REFUSED_ADDRESS, 0, 0 };
    const struct answer no_part = { M58_REFUSED_PART, 0, 0 };
    uint32_t bad[BAD], good[GOOD];
    uint64_t addresses = 0, parts = 0, both = 0;

    memcpy(bad, bad_edges, sizeof bad_edges);
    for (int i = BAD_EDGES; i < BAD; i++) {
        do
            bad[i] = next_random();
        while (bad[i] < M58_ADDRESS_LIMIT);
    }
    memcpy(good, good_edges, sizeof good_edges);
    for (int i = GOOD_EDGES; i < GOOD; i++)
        good[i] = next_random() % M58_ADDRESS_LIMIT;

    for (uint32_t part = 0; part < M58_PARTS; part++)
        for (int i = 0; i < BAD; i++, addresses++)
            compare(part, bad[i], no_address);
    for (int p = 0; p < PARTS; p++)
        for (int i = 0; i < GOOD; i++, parts++)
            compare(bad_parts[p], good[i], no_part);
    /* Both wrong: the lower number is due. */
    for (int p = 0; p < PARTS; p++)
        for (int i = 0; i < BAD; i++, both++)
            compare(bad_parts[p], bad[i], no_address);

    printf("refused: %" PRIu64 " inputs compared (address %" PRIu64 ", part %" PRIu64
           ", both %" PRIu64 ")\n",
           addresses + parts + both, addresses, parts, both);
    return addresses + parts + both;
}

int main(void)
{
    uint64_t total = 0, starts = 0, no_starts;
    read_map();
    for (uint32_t part = 0; part < M58_PARTS; part++)
        starts += compare_starts(part);
    no_starts = compare_no_starts();
    printf("block starts: %" PRIu64 " equal to the sheet's tables, %" PRIu64
           " of no part or no block told\n", starts, no_starts);
    for (uint32_t part = 0; part < M58_PARTS; part++)
        total += compare_part(part);
    total += compare_refused();
    printf("total: %" PRIu64 " inputs, refusal, block and bank of each equal\n", total);
    return 0;
}
