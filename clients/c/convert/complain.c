/* Lines on standard error, and exit statuses. */
#include "complain.h"

#include <stdarg.h>
#include <stdio.h>

int exit_for(iconvd_status status) {
    switch (status) {
    case ICONVD_LOST:
    case ICONVD_ENOMEM: return EXIT_SERVICE;
    case ICONVD_BADADDRESS: return EXIT_WORDS;
    default: return EXIT_TEXT;
    }
}

int complain(int exit_status, const char *format, ...) {
    va_list arguments;
    va_start(arguments, format);
    fputs("iconvd-convert: ", stderr);
    vfprintf(stderr, format, arguments);
    fputc('\n', stderr);
    va_end(arguments);
    return exit_status;
}
