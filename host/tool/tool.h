/*
 * What the commands of the m58 program share. Each command is a module of its
 * own: its function is declared here and named in main.c, its help is NAME.txt
 *
 * Functions that return an int return an exit status; where it is not DONE, they
 * have told why on standard error: `FILE: ...` of a file, else `m58: ...`.
 */
#ifndef TOOL_H
#define TOOL_H

#include <stddef.h>
#include <stdint.h>

enum { DONE = 0, FAILED = 1, MISUSED = 2 };

/* ---- the commands: each takes the arguments after its name ---- */

int hex_command(size_t count, char **arguments);

/* ---- arguments.c ---- */

struct option {
    const char *name;
    const char *value; /* NULL where it is not given */
};

/*
 * Takes the options, and their values, out of the arguments; what is left are
 * names, in order. Past `--` everything is a name.
 */
int take_options(const char *command, size_t *count, char **arguments, struct option *options,
                 size_t option_count);

/* Tells `m58: WHAT WHICH` and where the command's help is. Returns MISUSED. */
int misused(const char *command, const char *what, const char *which);

/* ---- files.c ---- */

struct bytes {
    uint8_t *at;
    size_t count;
    uint64_t longer; /* 0, or the length of a file of more bytes than were asked for */
};

#define LENGTH_UNKNOWN UINT64_MAX /* a longer file whose length no one knows: a pipe */

/*
 * Reads a whole file, or a pipe to its end. Where it has more than `most` bytes,
 * that is told in `longer`, and it is not read to its end. The caller frees `at`
 * where this returns DONE.
 */
int read_file(const char *path, size_t most, struct bytes *got);

/*
 * Makes the file `path` from the bytes, or replaces it, by renaming a temporary
 * file of the same folder once all of it is on the disk. Whatever goes wrong
 * before that, a signal too, `path` is as it was and the temporary file is gone.
 */
int replace_file(const char *path, const void *bytes, size_t count);

/* Whether `path` may be replaced, asked before long work. */
int replaceable(const char *path);

/* 1 where both names are of one file that is there. */
int same_file(const char *one, const char *other);

/* Memory, or NULL, which is told. */
void *room_for(size_t bytes);

/* ---- image.c: an image is the words of a part, each with its low byte first ---- */

struct part {
    const char *name;
    uint32_t number;
    size_t words;
};

/* NULL where no part has that name. */
const struct part *part_named(const char *name);

/* The words of an image in memory of their own, or NULL, which is told. */
uint16_t *read_image(const char *path, const struct part *part);
uint16_t *fresh_image(const struct part *part);

int replace_image(const char *path, const uint16_t *words, const struct part *part);

#endif
