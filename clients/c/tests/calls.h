/* One call of either library, and what came of it. */
#ifndef ICONVD_CALLS_H
#define ICONVD_CALLS_H

#include <errno.h>
#include <stdbool.h>
#include <string.h>

#include "libraries.h"

enum { TEXT = 4000, OUT = 20000 };

static struct library ours, theirs;

/* One call of one library. */
struct result {
    size_t value;
    int error;
    size_t used;
    size_t produced;
    char bytes[OUT];
};

static void call(const struct library *library, iconv_t cd, const char *in, size_t length, size_t room, struct result *result) {
    char copy[TEXT * 8];
    memcpy(copy, in, length);
    char *in_at = copy, *out_at = result->bytes;
    size_t in_left = length, out_left = room;
    errno = 0;
    result->value = library->convert(cd, &in_at, &in_left, &out_at, &out_left);
    check(result->value == (size_t)-1 || errno == 0, "errno of a call that succeeds: %d", errno);
    result->error = result->value == (size_t)-1 ? errno : 0;
    result->used = length - in_left;
    result->produced = room - out_left;
    check(in_at == copy + result->used && out_at == result->bytes + result->produced, "pointers and counts differ");
}

/* What was to be done. Encodings have an order and no mark, and so no state: marks are not in `in`. */
struct step {
    const char *to;
    const char *from;
    bool ignore;
    const char *in;
    size_t length;
    size_t room;
};

/* One call by a conversion of its own. */
static void call_alone(const struct library *library, const struct step *step, const char *in, size_t length, size_t room,
                       struct result *result) {
    char target[40];
    snprintf(target, sizeof target, "%s%s", step->to, step->ignore ? "//IGNORE" : "");
    iconv_t cd = library->open(target, step->from);
    call(library, cd, in, length, room, result);
    library->close(cd);
}

static bool same_output(const struct result *one, const struct result *other) {
    return one->produced == other->produced && memcmp(one->bytes, other->bytes, one->produced) == 0;
}

#endif
