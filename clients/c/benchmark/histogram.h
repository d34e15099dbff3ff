/* Times in buckets: 64 for each power of two, so that a figure is wrong by 1.6 % at most. */
#ifndef BENCHMARK_HISTOGRAM_H
#define BENCHMARK_HISTOGRAM_H

#include <stdint.h>

enum { HISTOGRAM_FINE = 6, HISTOGRAM_BUCKETS = 59 << HISTOGRAM_FINE };

struct histogram {
    uint64_t counts[HISTOGRAM_BUCKETS];
    uint64_t count;
    uint64_t sum;
    uint64_t minimum; /* of none: 0 */
    uint64_t maximum;
};

void histogram_add(struct histogram *histogram, uint64_t nanoseconds);

/* Adds all of `from`. */
void histogram_merge(struct histogram *histogram, const struct histogram *from);

/* The time that `share` (0 to 1) of all are not above, in nanoseconds; 0 where there are none. */
uint64_t histogram_quantile(const struct histogram *histogram, double share);

#endif
