/* Times in buckets. */
#include "histogram.h"

/* Values below 64 have a bucket each. Above, the highest bit says which 64 buckets, and the six bits below it which of them. */
static unsigned bucket_of(uint64_t value) {
    if (value < 1u << HISTOGRAM_FINE)
        return (unsigned)value;
    unsigned shift = 63u - (unsigned)__builtin_clzll(value) - HISTOGRAM_FINE;
    return ((shift + 1) << HISTOGRAM_FINE) + (unsigned)(value >> shift) - (1u << HISTOGRAM_FINE);
}

/* The greatest value of a bucket. */
static uint64_t bucket_top(unsigned bucket) {
    if (bucket < 1u << HISTOGRAM_FINE)
        return bucket;
    unsigned shift = (bucket >> HISTOGRAM_FINE) - 1;
    uint64_t leading = (bucket & ((1u << HISTOGRAM_FINE) - 1)) + (1u << HISTOGRAM_FINE);
    return ((leading + 1) << shift) - 1;
}

void histogram_add(struct histogram *histogram, uint64_t nanoseconds) {
    if (histogram->count == 0 || nanoseconds < histogram->minimum)
        histogram->minimum = nanoseconds;
    histogram->counts[bucket_of(nanoseconds)]++;
    histogram->count++;
    histogram->sum += nanoseconds;
    if (nanoseconds > histogram->maximum)
        histogram->maximum = nanoseconds;
}

void histogram_merge(struct histogram *histogram, const struct histogram *from) {
    for (unsigned i = 0; i < HISTOGRAM_BUCKETS; i++)
        histogram->counts[i] += from->counts[i];
    if (from->count > 0 && (histogram->count == 0 || from->minimum < histogram->minimum))
        histogram->minimum = from->minimum;
    histogram->count += from->count;
    histogram->sum += from->sum;
    if (from->maximum > histogram->maximum)
        histogram->maximum = from->maximum;
}

uint64_t histogram_quantile(const struct histogram *histogram, double share) {
    uint64_t wanted = (uint64_t)(share * (double)histogram->count), seen = 0;
    for (unsigned i = 0; i < HISTOGRAM_BUCKETS; i++) {
        seen += histogram->counts[i];
        if (seen > wanted)
            return bucket_top(i) < histogram->maximum ? bucket_top(i) : histogram->maximum;
    }
    return histogram->maximum;
}
