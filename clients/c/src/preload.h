/* What the parts of libiconvd-preload share. */
#ifndef ICONVD_PRELOAD_H
#define ICONVD_PRELOAD_H

#include <iconv.h>

#include "convert.h"

/* The C library's own functions. */
struct libc {
    iconv_t (*open)(const char *to, const char *from);
    size_t (*convert)(iconv_t cd, char **in, size_t *in_left, char **out, size_t *out_left);
    int (*close)(iconv_t cd);
};

/* What the environment said when the library was first used. All of it is copied. */
struct settings {
    struct iconvd_pool *pool; /* NULL: there is no service at all */
    struct libc libc;
    bool falls_back; /* to the C library, where the service cannot be had */
};

const struct settings *settings(void);

/* A line in the file that ICONVD_LOG names. */
__attribute__((format(printf, 1, 2))) void settings_log(const char *format, ...);

/* What an iconv_t of this library is. An iconv_t may also be the C library's: the program iconv(1) opens by a private function of it,
   and calls iconv() with that. */
struct handle {
    const void *mark;     /* HANDLE_MARK, where the C library has a small number */
    struct iconvd_cd *cd; /* NULL: it was never the service's */
    iconv_t real;         /* of the C library, where that converts; else (iconv_t)-1 */
    bool in_the_middle;   /* `real` was opened for the rest of a text, and so by names with an order */
    char *to;
    char *from;
};

extern const char HANDLE_MARK[];

/* Lets the C library go on where the service left off. False: it cannot. */
bool handle_fall_back(struct handle *handle, iconvd_status why);

/* Brings what was written in an encoding with shifts, or in UTF-7 by way of UTF-16BE, back to ASCII, at which the C library goes on. False:
   there is no room. */
bool handle_shift_back(struct handle *handle, char **out, size_t *out_left);

/* After a reset `real` has to begin as the host asked for it. False: it cannot, and errno says why. */
bool handle_start_again(struct handle *handle);

#endif
