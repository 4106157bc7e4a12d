/*
 * The m58 program: works on files of the M58LT256K model by commands. ./m58
 * builds and runs it, and shows the help that its messages point to.
 *
 * Exit status: 0 done, 1 refused or not read or written, 2 wrong usage.
 */
#define _XOPEN_SOURCE 700
#include <errno.h>
#include <fcntl.h>
#include <signal.h>
#include <stdio.h>
#include <string.h>
#include <unistd.h>

#include "tool.h"

static const struct {
    const char *name;
    int (*run)(size_t count, char **arguments);
} commands[] = {
    { "hex", hex_command },
};

static int run(size_t count, char **arguments)
{
    if (count == 0)
        return misused("", "no command", "");
    for (size_t i = 0; i < sizeof commands / sizeof commands[0]; i++)
        if (strcmp(arguments[0], commands[i].name) == 0)
            return commands[i].run(count - 1, arguments + 1);
    return misused("", "unknown command ", arguments[0]);
}

/*
 * A file that is opened gets the lowest number that is free, and must not get
 * that of a closed standard output or error, which would then be written into it.
 */
static int streams_are_open(void)
{
    if (fcntl(STDERR_FILENO, F_GETFD) < 0) {
        int nowhere = open("/dev/null", O_WRONLY);
        if (nowhere < 0 || dup2(nowhere, STDERR_FILENO) < 0)
            return 0;
        if (nowhere != STDERR_FILENO)
            close(nowhere);
    }
    if (fcntl(STDOUT_FILENO, F_GETFD) >= 0)
        return 1;
    fputs("m58: standard output is closed\n", stderr);
    return 0;
}

int main(int count, char **arguments)
{
    if (!streams_are_open())
        return FAILED;
    /* a write that these would end the program for fails instead, and is told */
    signal(SIGPIPE, SIG_IGN);
    signal(SIGXFSZ, SIG_IGN);
    int status = run(count > 0 ? (size_t)count - 1 : 0, arguments + 1);
    if (fflush(stdout) == 0 && !ferror(stdout))
        return status;
    fprintf(stderr, "m58: %sstandard output cannot be written: %s\n",
            status == DONE ? "done, but " : "", strerror(errno));
    return status == DONE ? FAILED : status;
}
