/* The command hex: Intel HEX files read into images, written from them, and judged. */
#include <inttypes.h>
#include <stdio.h>
#include <stdlib.h>
#include <string.h>

#include "m58.h"
#include "tool.h"

/*
 * The longest HEX file that is read: twice a full part written with one byte a
 * record. Without a limit an endless pipe would take all memory there is.
 */
#define MOST_TEXT ((size_t)1 << 30)

struct job {
    const struct part *part;
    const char *from, *to;
    const char *onto; /* the image whose words stay, or NULL */
};

static int read_text(const char *path, struct bytes *text)
{
    int status = read_file(path, MOST_TEXT, text);
    if (status != DONE || text->longer == 0)
        return status;
    fprintf(stderr, "%s: not read: longer than %zu bytes\n", path, MOST_TEXT);
    free(text->at);
    return FAILED;
}

/* ---- what is told ---- */

static const char *meaning(uint32_t refusal)
{
    switch (refusal) {
    case M58_REFUSED_RECORD:
        return "the record is malformed";
    case M58_REFUSED_SUM:
        return "the record's sum is wrong";
    case M58_REFUSED_TYPE:
        return "the record's type is not 00, 01 or 04";
    case M58_REFUSED_PLACE:
        return "a byte outside the part, or offset plus length above 65536";
    default:
        return "see the refusal card";
    }
}

static const char *or_later(uint32_t line)
{
    return line == M58_HEX_LAST_LINE ? " or later" : "";
}

static int refused(const char *path, uint64_t result)
{
    uint32_t refusal = M58_HEX_REFUSAL(result), line = M58_HEX_LINE(result);
    if (refusal != M58_REFUSED_NO_END)
        fprintf(stderr, "%s: line %" PRIu32 "%s: refused %" PRIu32 ", %s\n", path, line,
                or_later(line), refusal, meaning(refusal));
    else if (line == 0)
        fprintf(stderr, "%s: refused %" PRIu32 ", no end record: the file is empty\n", path, refusal);
    else
        fprintf(stderr, "%s: refused %" PRIu32 ", no end record in its %" PRIu32 "%s line%s\n", path,
                refusal, line, line == M58_HEX_LAST_LINE ? " or more" : "", line == 1 ? "" : "s");
    return FAILED;
}

static uint64_t lines_in(const struct bytes *text)
{
    uint64_t lines = text->count > 0 && text->at[text->count - 1] != '\n';
    for (size_t i = 0; i < text->count; i++)
        lines += text->at[i] == '\n';
    return lines;
}

/* Where the end record is; text after it, which is ignored, may be there by mistake. */
static void tell_end(const struct bytes *text, uint32_t line)
{
    uint64_t lines = lines_in(text);
    printf("end record on line %" PRIu32 "%s", line, or_later(line));
    if (lines == (uint64_t)line + 1)
        printf("; the line after it is ignored");
    else if (lines > line)
        printf("; the %" PRIu64 " lines after it are ignored", lines - line);
    putchar('\n');
}

/* ---- the forms of the command ---- */

static int read_onto(const struct job *job, const struct bytes *text, uint16_t *words)
{
    uint64_t result = m58_hex_read(job->part->number, text->at, text->count, words, job->part->words);
    if (M58_HEX_REFUSAL(result) != M58_REFUSED_NOTHING)
        return refused(job->from, result);
    int status = job->to == NULL ? DONE : replace_image(job->to, words, job->part);
    if (status != DONE)
        return status;
    if (job->to == NULL)
        printf("%s: good, ", job->from);
    else
        printf("%s: written from %s, ", job->to, job->from);
    tell_end(text, M58_HEX_LINE(result));
    return DONE;
}

/* Reading, and judging, which is reading with no image to be written. */
static int read_hex(const struct job *job)
{
    struct bytes text;
    if (job->to != NULL && replaceable(job->to) != DONE)
        return FAILED;
    if (read_text(job->from, &text) != DONE)
        return FAILED;
    uint16_t *words = job->onto == NULL ? fresh_image(job->part) : read_image(job->onto, job->part);
    int status = words == NULL ? FAILED : read_onto(job, &text, words);
    free(words);
    free(text.at);
    return status;
}

static int write_text(const struct job *job, const uint16_t *words, uint8_t *text, size_t room)
{
    uint64_t result = m58_hex_write(job->part->number, words, job->part->words, text, room);
    if (M58_HEX_REFUSAL(result) != M58_REFUSED_NOTHING) {
        fprintf(stderr, "%s: refused %" PRIu32 "\n", job->from, M58_HEX_REFUSAL(result));
        return FAILED;
    }
    int status = replace_file(job->to, text, M58_HEX_LENGTH(result));
    if (status == DONE)
        printf("%s: written from %s, %" PRIu32 " bytes\n", job->to, job->from,
               M58_HEX_LENGTH(result));
    return status;
}

static int write_hex(const struct job *job)
{
    size_t room = job->part->words == M58_FULL_WORDS ? M58_HEX_FULL_BYTES : M58_HEX_BENCH_BYTES;
    if (replaceable(job->to) != DONE)
        return FAILED;
    uint16_t *words = read_image(job->from, job->part);
    if (words == NULL)
        return FAILED;
    uint8_t *text = room_for(room);
    int status = text == NULL ? FAILED : write_text(job, words, text, room);
    free(text);
    free(words);
    return status;
}

/* ---- arguments ---- */

static const struct form {
    const char *name;
    const char *usage;
    size_t arguments; /* with the form's name */
    int (*run)(const struct job *job);
} forms[] = {
    { "read", "hex read PART FILE.hex IMAGE.bin", 4, read_hex },
    { "write", "hex write PART IMAGE.bin FILE.hex", 4, write_hex },
    { "check", "hex check PART FILE.hex", 3, read_hex },
};

static const struct form *form_named(const char *name)
{
    for (size_t i = 0; i < sizeof forms / sizeof forms[0]; i++)
        if (strcmp(name, forms[i].name) == 0)
            return &forms[i];
    return NULL;
}

static int run_form(const struct form *form, char **arguments, const char *onto)
{
    struct job job = { part_named(arguments[1]), arguments[2], NULL, onto };
    if (job.part == NULL)
        return misused("hex", "no part (bottom, top, bench-bottom, bench-top): ", arguments[1]);
    if (form->arguments == 4)
        job.to = arguments[3];
    if (*job.from == '\0' || (job.to != NULL && *job.to == '\0') || (onto != NULL && *onto == '\0'))
        return misused("hex", "a file name is empty", "");
    /* the image that is read onto may be the one that is written: that loses nothing that was not named */
    if (job.to != NULL && same_file(job.from, job.to))
        return misused("hex", "read and written would be one file: ", job.to);
    return form->run(&job);
}

int hex_command(size_t count, char **arguments)
{
    struct option onto = { "--onto", NULL };
    int status = take_options("hex", &count, arguments, &onto, 1);
    if (status != DONE)
        return status;
    if (count == 0)
        return misused("hex", "hex needs one of read, write and check", "");
    const struct form *form = form_named(arguments[0]);
    if (form == NULL)
        return misused("hex", "hex has read, write and check, not ", arguments[0]);
    if (onto.value != NULL && strcmp(form->name, "read") != 0)
        return misused("hex", "--onto goes with hex read, not with hex ", form->name);
    if (count < form->arguments)
        return misused("hex", "an argument is missing: ", form->usage);
    if (count > form->arguments)
        return misused("hex", "one argument too many: ", arguments[form->arguments]);
    return run_form(form, arguments, onto.value);
}
