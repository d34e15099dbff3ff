/* Opens the output, unless it is an input. */
#include "output.h"

#include <errno.h>
#include <fcntl.h>
#include <string.h>
#include <sys/stat.h>

#include "complain.h"

static int is_standard(const char *name) {
    return strcmp(name, "-") == 0;
}

/* Looks at a file through links, or at the standard input or output. */
static int look(const char *name, int standard, struct stat *status) {
    return is_standard(name) ? fstat(standard, status) : stat(name, status);
}

/* A terminal, a pipe or a socket may be both, and /dev/null is. */
static int is_same_file(const struct stat *one, const struct stat *other) {
    return one->st_dev == other->st_dev && one->st_ino == other->st_ino && (S_ISREG(one->st_mode) || S_ISBLK(one->st_mode));
}

/* Whether the inputs allow that the output is written. 0, or the exit status. */
static int check_inputs(const struct settings *settings) {
    struct stat output, input;
    int there = look(settings->output, 1, &output) == 0;
    for (char **file = settings->files; *file; file++) {
        if (look(*file, 0, &input) == 0) {
            if (there && is_same_file(&output, &input))
                return complain(EXIT_TEXT, "%s: input file is output file", is_standard(*file) ? "standard input" : *file);
        } else if (!is_standard(settings->output)) {
            return complain(EXIT_TEXT, "%s: %s", *file, strerror(errno));
        }
    }
    return 0;
}

int output_open(const struct settings *settings, int *out) {
    int result = check_inputs(settings);
    if (result != 0)
        return result;
    *out = is_standard(settings->output) ? 1 : open(settings->output, O_WRONLY | O_CREAT | O_TRUNC | O_CLOEXEC, 0666);
    return *out >= 0 ? 0 : complain(EXIT_TEXT, "%s: %s", settings->output, strerror(errno));
}
