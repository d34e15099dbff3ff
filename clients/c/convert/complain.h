/* What iconvd-convert says when it fails, and the exit statuses. */
#ifndef CONVERT_COMPLAIN_H
#define CONVERT_COMPLAIN_H

#include <sysexits.h>

#include "../iconvd.h"

/* What a status of the library makes the exit status: of the text, of the words, or of a service that may be there later. */
enum { EXIT_TEXT = 1, EXIT_WORDS = EX_USAGE, EXIT_SERVICE = EX_TEMPFAIL };
int exit_for(iconvd_status status);

/* Prints a line with the program's name on standard error. Returns the exit status that it was given. */
__attribute__((format(printf, 2, 3))) int complain(int exit_status, const char *format, ...);

#endif
