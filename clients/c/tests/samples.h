/* What the tests of a program's life share: samples that both libraries convert. */
#ifndef ICONVD_SAMPLES_H
#define ICONVD_SAMPLES_H

#include <errno.h>
#include <stdbool.h>
#include <string.h>
#include <time.h>

#include "libraries.h"

static struct library ours, theirs;

struct sample {
    const char *to, *from, *text;
};

static const struct sample SAMPLES[] = {
    {"KOI8-R", "UTF-8", "\u041f\u0440\u0438\u0432\u0435\u0442, world"},
    {"UTF-16", "UTF-8", "gr\u00fc\u00dfe \U0001f600"},
    {"EUC-JP", "UTF-8", "\u65e5\u672c\u8a9e\u30c6\u30ad\u30b9\u30c8"},
    {"UTF-8", "LATIN1", "gr\xfc\xdf"},
    {"CP1251", "UTF-8", "\u041f\u0440\u0438"},
    {"EUC-KR", "UTF-8", "\ud55c\uad6d\uc5b4"},
    {"UTF-8", "UTF-7", "A+AOk-B"},
    {"ISO-2022-JP", "UTF-8", "\u65e5\u672c\u8a9e a"},
    {"UTF-8", "ISO-2022-KR", "\x1b$)C\x0eGQ19\x0f."},
};
enum { SAMPLE_COUNT = sizeof SAMPLES / sizeof *SAMPLES };

/* Converts by a library that may be any. -1: it failed, and errno says why. */
static inline ssize_t convert(const struct library *library, const struct sample *sample, char *out, size_t room) {
    iconv_t cd = library->open(sample->to, sample->from);
    if (cd == (iconv_t)-1)
        return -1;
    char *in = (char *)(uintptr_t)sample->text, *at = out;
    size_t left = strlen(sample->text), room_left = room;
    size_t result = library->convert(cd, &in, &left, &at, &room_left);
    if (result != (size_t)-1)
        result = library->convert(cd, NULL, NULL, &at, &room_left);
    int saved = errno;
    library->close(cd);
    errno = saved;
    return result == (size_t)-1 ? -1 : at - out;
}

/* What the C library gives for the samples. It is asked once, at the start: a child that is made while a thread is inside the C library's
   iconv_open() waits for its lock for ever in its own. */
static struct {
    char bytes[200];
    ssize_t length;
} expected[SAMPLE_COUNT];

static inline void expect_samples(void) {
    for (size_t i = 0; i < SAMPLE_COUNT; i++)
        expected[i].length = convert(&theirs, &SAMPLES[i], expected[i].bytes, sizeof expected[i].bytes);
}

/* Whether the service gives what the C library gives. */
static inline bool is_right(const struct sample *sample) {
    char mine[200];
    size_t number = (size_t)(sample - SAMPLES);
    ssize_t length = convert(&ours, sample, mine, sizeof mine);
    return length > 0 && length == expected[number].length && memcmp(mine, expected[number].bytes, (size_t)length) == 0;
}

static inline bool all_right(void) {
    bool right = true;
    for (size_t i = 0; i < SAMPLE_COUNT; i++)
        right &= is_right(&SAMPLES[i]);
    return right;
}

static inline void sleep_milliseconds(long milliseconds) {
    struct timespec time = {.tv_sec = milliseconds / 1000, .tv_nsec = milliseconds % 1000 * 1000000};
    nanosleep(&time, NULL);
}

/* A test, which runs in a process of its own. */
struct test {
    const char *name;
    void (*run)(void);
};

/* Runs the tests that the command line names. PRELOAD is the library. */
static inline int run_tests(const char *program, const struct test *tests, size_t number, int count, char **words) {
    char name[60];
    int length = snprintf(name, sizeof name, "%s", program);
    ours = library_load(wanted("PRELOAD"));
    theirs = library_load("libc.so.6");
    expect_samples();
    for (size_t i = 0; i < number; i++)
        for (int k = 1; k < count; k++)
            if (strcmp(words[k], tests[i].name) == 0) {
                length += snprintf(name + length, sizeof name - (size_t)length, " %s", tests[i].name);
                tests[i].run();
            }
    return checks_end(name);
}

#endif
