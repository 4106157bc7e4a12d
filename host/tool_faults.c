/*
 * Loaded under the m58 program by test-m58 (LD_PRELOAD): makes one call of it go
 * wrong, where nothing else makes it go wrong at will.
 *   FAULT=read|write|fsync|close|rename    it fails; read and write in the middle
 *   FAULT=pieces    reads and writes are short, and every other one is interrupted
 *   FAULT=signal-write|signal-fsync|signal-rename    the signal SIGNAL comes there
 *
 * To build:  cc -shared -fPIC tool_faults.c      (Linux on x86-64, as the library)
 */
#define _GNU_SOURCE
#include <errno.h>
#include <fcntl.h>
#include <signal.h>
#include <stdio.h>
#include <stdlib.h>
#include <string.h>
#include <sys/syscall.h>
#include <unistd.h>

static int fault(const char *name)
{
    const char *named = getenv("FAULT");
    return named != NULL && strcmp(named, name) == 0;
}

static void come(void)
{
    const char *number = getenv("SIGNAL");
    raise(number == NULL ? SIGTERM : atoi(number));
}

/* How many bytes a call takes: half of them where the next is to fail, few in pieces. */
static size_t piece(size_t count)
{
    if (fault("pieces"))
        return count > 999 ? 999 : count;
    return fault("read") || fault("write") || fault("signal-write") ? (count + 1) / 2 : count;
}

ssize_t read(int file, void *to, size_t count)
{
    static unsigned calls;
    calls++;
    if ((fault("read") && calls > 1) || (fault("pieces") && calls % 2 == 0)) {
        errno = fault("read") ? EIO : EINTR;
        return -1;
    }
    return syscall(SYS_read, file, to, fault("read") || fault("pieces") ? piece(count) : count);
}

ssize_t write(int file, const void *from, size_t count)
{
    static unsigned calls;
    calls++;
    if (fault("signal-write") && calls > 1)
        come();
    if ((fault("write") && calls > 1) || (fault("pieces") && calls % 2 == 0)) {
        errno = fault("write") ? ENOSPC : EINTR;
        return -1;
    }
    return syscall(SYS_write, file, from, piece(count));
}

int fsync(int file)
{
    if (fault("signal-fsync"))
        come();
    if (!fault("fsync"))
        return (int)syscall(SYS_fsync, file);
    errno = EIO;
    return -1;
}

/* Only of a file that was written. */
int close(int file)
{
    int written = (fcntl(file, F_GETFL) & O_ACCMODE) != O_RDONLY;
    int result = (int)syscall(SYS_close, file);
    if (!fault("close") || !written)
        return result;
    errno = EDQUOT;
    return -1;
}

int rename(const char *from, const char *to)
{
    if (fault("signal-rename"))
        come();
    if (!fault("rename"))
        return (int)syscall(SYS_rename, from, to);
    errno = EPERM;
    return -1;
}
