/* A line on a terminal that says how far the run is. */
#ifndef BENCHMARK_PROGRESS_H
#define BENCHMARK_PROGRESS_H

#include "options.h"
#include "run.h"

/* Shows a line on standard error and rewrites it from now on, if that is a terminal. Both are kept. */
void progress_begin(const struct options *options, const struct run *run);

/* Takes the line away for good, so that others can be written. Any thread may call it, and it may never have begun. */
void progress_end(void);

#endif
