/* Whole files: read into memory, and replaced at once or not at all. */
#define _XOPEN_SOURCE 700
#define _DEFAULT_SOURCE /* madvise */
#include <errno.h>
#include <fcntl.h>
#include <signal.h>
#include <stdio.h>
#include <stdlib.h>
#include <string.h>
#include <sys/mman.h>
#include <sys/stat.h>
#include <unistd.h>

#include "tool.h"

enum { FIRST_ROOM = 65536, LARGE_PAGE = 2097152 };

/* A long room is had in large pages, where the system has them: small ones take longer to hand out than to fill. NULL where memory is out. */
static void *room_or_none(size_t bytes)
{
    if (bytes < LARGE_PAGE || bytes > SIZE_MAX - LARGE_PAGE)
        return malloc(bytes);
    size_t whole = (bytes + LARGE_PAGE - 1) / LARGE_PAGE * LARGE_PAGE;
    void *room = aligned_alloc(LARGE_PAGE, whole);
#ifdef MADV_HUGEPAGE
    if (room != NULL)
        (void)madvise(room, whole, MADV_HUGEPAGE);
#endif
    return room;
}

void *room_for(size_t bytes)
{
    void *room = room_or_none(bytes);
    if (room == NULL)
        fprintf(stderr, "m58: out of memory: %zu bytes are needed\n", bytes);
    return room;
}

/* ---- reading ---- */

static int unreadable(const char *path)
{
    fprintf(stderr, "%s: cannot be read: %s\n", path, strerror(errno));
    return FAILED;
}

/* Reads until `count` bytes are there or the file ends; -1 where it fails. */
static ssize_t read_up_to(int file, uint8_t *to, size_t count)
{
    size_t got = 0;
    while (got < count) {
        ssize_t n = read(file, to + got, count - got);
        if (n == 0)
            break;
        if (n > 0)
            got += (size_t)n;
        else if (errno != EINTR)
            return -1;
    }
    return (ssize_t)got;
}

/* Reads the open file to its end, or to one byte more than `most`. */
static int read_to_end(const char *path, int file, size_t room, size_t most, struct bytes *got)
{
    for (;;) {
        uint8_t *more = got->at == NULL ? room_or_none(room) : realloc(got->at, room);
        if (more == NULL) {
            fprintf(stderr, "%s: out of memory: %zu bytes are needed to read it\n", path, room);
            return FAILED;
        }
        got->at = more;
        ssize_t n = read_up_to(file, more + got->count, room - got->count);
        if (n < 0)
            return unreadable(path);
        got->count += (size_t)n;
        if (got->count < room)
            return DONE;
        if (room > most) {
            got->longer = LENGTH_UNKNOWN;
            return DONE;
        }
        room = room > most / 2 ? most + 1 : 2 * room;
    }
}

int read_file(const char *path, size_t most, struct bytes *got)
{
    *got = (struct bytes){ NULL, 0, 0 };
    int file = open(path, O_RDONLY | O_NOCTTY);
    if (file < 0)
        return unreadable(path);
    struct stat found;
    int status = DONE;
    size_t room = most < FIRST_ROOM ? most + 1 : FIRST_ROOM;
    if (fstat(file, &found) != 0)
        status = unreadable(path);
    else if (S_ISREG(found.st_mode) && found.st_size > 0) {
        /* one byte more than the file has, so that its end is seen */
        room = (uintmax_t)found.st_size > most ? 0 : (size_t)found.st_size + 1;
        got->longer = room == 0 ? (uint64_t)found.st_size : 0;
    }
    if (status == DONE && got->longer == 0)
        status = read_to_end(path, file, room, most, got);
    close(file);
    if (status != DONE)
        free(got->at);
    return status;
}

int same_file(const char *one, const char *other)
{
    struct stat first, second;
    return stat(one, &first) == 0 && stat(other, &second) == 0 && first.st_dev == second.st_dev
           && first.st_ino == second.st_ino;
}

/* ---- replacing ---- */

static int unwritable(const char *path, int trouble)
{
    fprintf(stderr, "%s: cannot be written: %s\n", path, strerror(trouble));
    return FAILED;
}

/*
 * Looks at the file that is to be replaced; `there` is 0 where it is yet to be
 * made. Renaming would put a regular file in place of a device or a pipe, and of
 * a file that may not be written.
 */
static int look(const char *path, struct stat *old, int *there)
{
    struct stat link;
    *there = stat(path, old) == 0;
    if (!*there && errno != ENOENT)
        return unwritable(path, errno);
    if (!*there && lstat(path, &link) == 0) {
        fprintf(stderr, "%s: not written: a symbolic link to a file that is not there\n", path);
        return FAILED;
    }
    if (*there && S_ISDIR(old->st_mode))
        return unwritable(path, EISDIR);
    if (*there && !S_ISREG(old->st_mode)) {
        fprintf(stderr, "%s: not written: not a regular file\n", path);
        return FAILED;
    }
    if (*there && access(path, W_OK) != 0)
        return unwritable(path, errno);
    return DONE;
}

int replaceable(const char *path)
{
    struct stat old;
    int there;
    return look(path, &old, &there);
}

/* The name of the temporary file while there is one: a signal's handler removes it. */
static char *volatile temporary;

static const int ending[] = { SIGHUP, SIGINT, SIGQUIT, SIGTERM };
enum { ENDING = sizeof ending / sizeof ending[0] };

static void remove_and_end(int number)
{
    if (temporary != NULL)
        unlink(temporary);
    raise(number); /* once more, with its default action, when this returns */
}

static void fill(sigset_t *set)
{
    sigemptyset(set);
    for (size_t i = 0; i < ENDING; i++)
        sigaddset(set, ending[i]);
}

static void catch_signals(void)
{
    struct sigaction ours, before;
    memset(&ours, 0, sizeof ours);
    ours.sa_handler = remove_and_end;
    ours.sa_flags = (int)SA_RESETHAND;
    fill(&ours.sa_mask);
    for (size_t i = 0; i < ENDING; i++)
        if (sigaction(ending[i], NULL, &before) == 0 && before.sa_handler != SIG_IGN)
            sigaction(ending[i], &ours, NULL);
}

/* Signals wait while the temporary file, or its name here, comes or goes. */
static void hold_signals(sigset_t *before)
{
    sigset_t held;
    fill(&held);
    sigprocmask(SIG_BLOCK, &held, before);
}

static void release_signals(const sigset_t *before)
{
    sigprocmask(SIG_SETMASK, before, NULL);
}

/* Opens a temporary file in the folder of `target`; -1 where it cannot. */
static int make_temporary(const char *target)
{
    static const char form[] = ".m58-XXXXXX";
    const char *slash = strrchr(target, '/');
    size_t folder = slash == NULL ? 0 : (size_t)(slash - target) + 1;
    char *name = malloc(folder + sizeof form);
    if (name == NULL)
        return -1;
    memcpy(name, target, folder);
    memcpy(name + folder, form, sizeof form);
    sigset_t before;
    catch_signals();
    hold_signals(&before);
    int file = mkstemp(name);
    if (file >= 0)
        temporary = name;
    release_signals(&before);
    if (file < 0) {
        int trouble = errno;
        free(name);
        errno = trouble;
    }
    return file;
}

/* Gives the temporary file its target's name, or removes it; 0, or what went wrong. */
static int end_temporary(const char *target, int trouble)
{
    sigset_t before;
    hold_signals(&before);
    if (trouble == 0 && rename(temporary, target) != 0)
        trouble = errno;
    if (trouble != 0)
        unlink(temporary);
    free(temporary);
    temporary = NULL;
    release_signals(&before);
    return trouble;
}

static int write_all(int file, const uint8_t *bytes, size_t count)
{
    while (count > 0) {
        ssize_t n = write(file, bytes, count);
        if (n < 0 && errno != EINTR)
            return errno;
        if (n > 0) {
            bytes += n;
            count -= (size_t)n;
        }
    }
    return 0;
}

/*
 * A file that is replaced keeps its owner, group and mode as far as the system
 * lets it; a new one gets the mode that any new file gets. Some file systems keep
 * no modes: that is no failure.
 */
static void give_mode(int file, const struct stat *old)
{
    mode_t mode;
    if (old == NULL) {
        mode_t mask = umask(0);
        umask(mask);
        mode = 0666 & ~mask;
    } else {
        mode = old->st_mode & 0777;
        /* what its group was allowed is not for another group */
        if (fchown(file, old->st_uid, old->st_gid) != 0 && fchown(file, (uid_t)-1, old->st_gid) != 0)
            mode &= 0707;
    }
    (void)fchmod(file, mode);
}

int replace_file(const char *path, const void *bytes, size_t count)
{
    struct stat old;
    int there;
    int status = look(path, &old, &there);
    if (status != DONE)
        return status;
    /* a symbolic link stays, and the file that it leads to is replaced */
    char *found = there ? realpath(path, NULL) : NULL;
    if (there && found == NULL)
        return unwritable(path, errno);
    const char *target = there ? found : path;
    int file = make_temporary(target);
    int trouble = file < 0 ? errno : 0;
    if (file >= 0) {
        trouble = write_all(file, bytes, count);
        give_mode(file, there ? &old : NULL);
        if (trouble == 0 && fsync(file) != 0)
            trouble = errno;
        if (close(file) != 0 && trouble == 0)
            trouble = errno;
        trouble = end_temporary(target, trouble);
    }
    free(found);
    return trouble == 0 ? DONE : unwritable(path, trouble);
}
