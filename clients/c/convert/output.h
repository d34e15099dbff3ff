/* Where iconvd-convert writes. */
#ifndef CONVERT_OUTPUT_H
#define CONVERT_OUTPUT_H

#include "options.h"

/* Opens the output, and empties it. A file that is also read would be lost: it is refused before, and so is a named output whose inputs
   are not all there. Returns the exit status; 0: `*out` is the descriptor, 1 for standard output. */
int output_open(const struct settings *settings, int *out);

#endif
