/* Parts by their names, and images of them. */
#include <inttypes.h>
#include <stdio.h>
#include <stdlib.h>
#include <string.h>

#include "m58.h"
#include "tool.h"

static const struct part parts[M58_PARTS] = {
    { "bottom", M58_FULL_BOTTOM, M58_FULL_WORDS },
    { "top", M58_FULL_TOP, M58_FULL_WORDS },
    { "bench-bottom", M58_BENCH_BOTTOM, M58_BENCH_WORDS },
    { "bench-top", M58_BENCH_TOP, M58_BENCH_WORDS },
};

const struct part *part_named(const char *name)
{
    for (size_t i = 0; i < M58_PARTS; i++)
        if (strcmp(name, parts[i].name) == 0)
            return &parts[i];
    return NULL;
}

uint16_t *fresh_image(const struct part *part)
{
    uint16_t *words = room_for(part->words * sizeof *words);
    if (words != NULL)
        for (size_t i = 0; i < part->words; i++)
            words[i] = 0xFFFF;
    return words;
}

/* Tells what length an image has, and what it ought to have. */
static void other_length(const char *path, const struct part *part, const struct bytes *got)
{
    const char *more = got->longer == LENGTH_UNKNOWN ? "more than " : "";
    uint64_t length = got->longer == 0 ? got->count : got->longer;
    if (got->longer == LENGTH_UNKNOWN)
        length = 2 * part->words;
    fprintf(stderr, "%s: refused %" PRIu32 ", it has %s%" PRIu64 " bytes; an image of %s has %zu\n",
            path, M58_REFUSED_ARRAY, more, length, part->name, 2 * part->words);
}

uint16_t *read_image(const char *path, const struct part *part)
{
    struct bytes got;
    if (read_file(path, 2 * part->words, &got) != DONE)
        return NULL;
    uint16_t *words = NULL;
    if (got.longer != 0 || got.count != 2 * part->words)
        other_length(path, part, &got);
    else
        words = room_for(part->words * sizeof *words);
    if (words != NULL)
        for (size_t i = 0; i < part->words; i++)
            words[i] = (uint16_t)(got.at[2 * i] | got.at[2 * i + 1] << 8);
    free(got.at);
    return words;
}

int replace_image(const char *path, const uint16_t *words, const struct part *part)
{
    uint8_t *bytes = room_for(2 * part->words);
    if (bytes == NULL)
        return FAILED;
    for (size_t i = 0; i < part->words; i++) {
        bytes[2 * i] = (uint8_t)words[i];
        bytes[2 * i + 1] = (uint8_t)(words[i] >> 8);
    }
    int status = replace_file(path, bytes, 2 * part->words);
    free(bytes);
    return status;
}
