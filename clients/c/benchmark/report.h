/* Prints what was measured. */
#ifndef BENCHMARK_REPORT_H
#define BENCHMARK_REPORT_H

#include "tally.h"

struct measured {
    const struct options *options;
    const struct workload *workload;
    const struct tally *tally;
    struct outcome all; /* all outcomes of the tally together */
    double seconds;     /* how long it took, by the clock, while the server served */
    double away;        /* seconds that do not count, since it did not in the middle */
    bool server_lost;   /* it did not at the end */
    double processor;   /* this program's processor time, in seconds */
};

/* The figures of a row in microseconds, in the order in which they are printed. */
enum { FIGURES = 7 };
extern const char *const FIGURE_NAMES[FIGURES];
double figure(const struct histogram *times, int number);

/* Requests a second; 0 where no time has passed. */
double rate(const struct measured *measured, const struct outcome *outcome);

/* A script as people call it: "conv, 64 bytes". */
void describe(char *out, size_t room, const struct options *options, const struct script *script);

void report_text(const struct measured *measured);

/* One JSON object. */
void report_json(const struct measured *measured);

/* A header, a row for each script, and a row for all. */
void report_csv(const struct measured *measured);

#endif
