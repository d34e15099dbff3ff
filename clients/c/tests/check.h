/* What the test programs share: they count what passed, and say what failed. */
#ifndef ICONVD_CHECK_H
#define ICONVD_CHECK_H

#include <stdarg.h>
#include <stdint.h>
#include <stdio.h>
#include <stdlib.h>

static unsigned long checks_passed, checks_failed;

/* Counts one check. Of those that fail the first twenty are shown. */
__attribute__((format(printf, 2, 3))) static inline int check(int holds, const char *format, ...) {
    if (holds) {
        __atomic_add_fetch(&checks_passed, 1, __ATOMIC_RELAXED);
        return 1;
    }
    if (__atomic_add_fetch(&checks_failed, 1, __ATOMIC_RELAXED) > 20)
        return 0;
    va_list arguments;
    va_start(arguments, format);
    fputs("FAILED: ", stderr);
    vfprintf(stderr, format, arguments);
    fputc('\n', stderr);
    va_end(arguments);
    return 0;
}

/* The last line of a test program, and its exit status. */
static inline int checks_end(const char *name) {
    printf("%s: %lu passed, %lu failed\n", name, checks_passed, checks_failed);
    return checks_failed > 0;
}

/* The same numbers from the same seed, on every machine (xorshift). */
static inline uint32_t next_random(uint64_t *state) {
    *state ^= *state << 13;
    *state ^= *state >> 7;
    *state ^= *state << 17;
    return (uint32_t)(*state >> 16);
}

/* A variable of the environment that the test cannot do without. */
static inline const char *wanted(const char *name) {
    const char *value = getenv(name);
    if (!value) {
        fprintf(stderr, "%s is not set\n", name);
        exit(2);
    }
    return value;
}

#endif
