/* The arguments of a command. */
#include <stdio.h>
#include <string.h>

#include "tool.h"

int misused(const char *command, const char *what, const char *which)
{
    fprintf(stderr, "m58: %s%s (see ./m58 help%s%s)\n", what, which, *command != '\0' ? " " : "",
            command);
    return MISUSED;
}

static struct option *option_named(const char *name, struct option *options, size_t count)
{
    for (size_t i = 0; i < count; i++)
        if (strcmp(name, options[i].name) == 0)
            return &options[i];
    return NULL;
}

int take_options(const char *command, size_t *count, char **arguments, struct option *options,
                 size_t option_count)
{
    size_t names = 0;
    int ended = 0;
    for (size_t i = 0; i < *count; i++) {
        if (ended || arguments[i][0] != '-') {
            arguments[names++] = arguments[i];
            continue;
        }
        if (strcmp(arguments[i], "--") == 0) {
            ended = 1;
            continue;
        }
        if (arguments[i][1] == '\0')
            return misused(command, "- names no file; standard input is /dev/stdin", "");
        struct option *option = option_named(arguments[i], options, option_count);
        if (option == NULL)
            return misused(command, "unknown option ", arguments[i]);
        if (option->value != NULL)
            return misused(command, "given twice: ", option->name);
        if (i + 1 == *count)
            return misused(command, "no file name after ", option->name);
        option->value = arguments[++i];
    }
    *count = names;
    return DONE;
}
