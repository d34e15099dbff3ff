/* Reads what the environment says of a service. */
#define _GNU_SOURCE
#include <stdio.h>
#include <stdlib.h>
#include <string.h>

#include "pool.h"

/* A variable, unless it is empty. Not in a program that runs with other rights than its caller's. */
static const char *variable(const char *name) {
    const char *value = secure_getenv(name);
    return value && *value ? value : NULL;
}

static void complain(const iconvd_options *options, const char *name, const char *value, const char *wanted) {
    char line[300];
    if (!options->log)
        return;
    snprintf(line, sizeof line, "%s=%s: not %s", name, value, wanted);
    options->log(options->context, line);
}

/* Seconds, with up to three digits after a point, in milliseconds; 0 where it is something else. The locale has no part in it. */
static int milliseconds(const char *text) {
    int value = 0, digits = -1;
    for (; *text && digits < 3 && value < 200000; text++) {
        if (*text == '.' && digits < 0) {
            digits = 0;
        } else if (*text >= '0' && *text <= '9') {
            value = 10 * value + (*text - '0');
            digits += digits >= 0;
        } else {
            return 0;
        }
    }
    for (digits = digits < 0 ? 0 : digits; digits < 3; digits++)
        value *= 10;
    return *text ? 0 : value;
}

static void read_timeout(iconvd_options *options) {
    const char *text = variable("ICONVD_TIMEOUT");
    int timeout = text ? milliseconds(text) : 0;
    if (timeout > 0)
        options->timeout = timeout;
    else if (text)
        complain(options, "ICONVD_TIMEOUT", text, "a number of seconds above 0");
}

static void read_streams(iconvd_options *options) {
    const char *text = variable("ICONVD_STREAMS");
    unsigned streams = 0;
    for (const char *at = text; at && *at >= '0' && *at <= '9' && streams <= MOST_STREAMS; at++)
        streams = 10 * streams + (unsigned)(*at - '0');
    if (!text)
        return;
    if (streams >= 1 && streams <= MOST_STREAMS && !text[strspn(text, "0123456789")])
        options->streams = streams;
    else
        complain(options, "ICONVD_STREAMS", text, "a number from 1 to 16");
}

const char *iconvd_environment(iconvd_options *options) {
    const char *where = variable("ICONVD"), *charmaps = variable("ICONVD_CHARMAPS");
    read_timeout(options);
    read_streams(options);
    if (charmaps)
        options->charmaps = charmaps;
    if (where)
        return where;
    return spawn_refused() ? "unix:/run/iconvd.sock" : "exec:iconvd pipe";
}
