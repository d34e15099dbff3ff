/* Tells characters of a charmap from bytes that are none, as the service does.
 *
 * No code of a charmap begins another. So a code of n bytes is an interval of the numbers of eight bytes that begin with it, and these
 * intervals are apart. Codes that follow one another are one interval: EUC-KR has 100 of them, GB18030 some thousand. */
#include "codes.h"

#include <stdbool.h>
#include <stdint.h>
#include <stdlib.h>
#include <string.h>

#include "charmaps.h"

enum { CODE_BYTES = 8 };

/* The numbers of eight bytes that begin with one of the codes from one to another, all of one length. */
struct interval {
    uint64_t first;
    uint64_t last;
    unsigned length;
};

struct codes {
    struct interval *intervals;
    size_t count;
    size_t begins[257]; /* for each first byte: the first interval that does not end before it */
    bool whole[256];    /* for each first byte: it is a character by itself */
};

static struct interval interval_of(const struct mapping *mapping) {
    unsigned shift = 8 * (CODE_BYTES - mapping->bytes);
    uint64_t last = mapping->code + (mapping->count - 1);
    return (struct interval){
        .first = mapping->code << shift, .last = last << shift | (((uint64_t)1 << shift) - 1), .length = mapping->bytes};
}

/* Makes an interval longer by one that touches it. */
static bool join(struct interval *one, const struct interval *other) {
    bool touches = other->first >= one->first && (one->last == UINT64_MAX || other->first <= one->last + 1);
    if (one->length != other->length || !touches)
        return false;
    if (other->last > one->last)
        one->last = other->last;
    return true;
}

/* False: out of memory. */
static bool read_intervals(struct buffer *buffer, const char *text, size_t length) {
    struct charmap_lines lines = charmap_lines(text, length);
    struct mapping mapping;
    while (charmap_next(&lines, &mapping)) {
        struct interval interval = interval_of(&mapping);
        struct interval *read = (struct interval *)(void *)buffer->bytes;
        size_t count = buffer->length / sizeof interval;
        if (count > 0 && join(&read[count - 1], &interval))
            continue;
        if (!buffer_append(buffer, (const char *)&interval, sizeof interval))
            return false;
    }
    return true;
}

static int compare(const void *one, const void *other) {
    uint64_t first = ((const struct interval *)one)->first, second = ((const struct interval *)other)->first;
    return first < second ? -1 : first > second;
}

/* Sorts the intervals, and joins those that touch. */
static void arrange(struct codes *codes) {
    struct interval *intervals = codes->intervals;
    size_t count = 0;
    if (codes->count > 0)
        qsort(intervals, codes->count, sizeof *intervals, compare);
    for (size_t i = 0; i < codes->count; i++)
        if (count == 0 || !join(&intervals[count - 1], &intervals[i]))
            intervals[count++] = intervals[i];
    codes->count = count;
}

static void find_begins(struct codes *codes) {
    size_t at = 0;
    for (unsigned lead = 0; lead < 256; lead++) {
        while (at < codes->count && codes->intervals[at].last < (uint64_t)lead << 56)
            at++;
        codes->begins[lead] = at;
        const struct interval *interval = &codes->intervals[at];
        codes->whole[lead] = at < codes->count && interval->length == 1 && interval->first <= (uint64_t)lead << 56;
    }
    codes->begins[256] = codes->count;
}

struct codes *codes_make(const char *text, size_t length) {
    struct codes *codes = calloc(1, sizeof *codes);
    struct buffer buffer = {.bytes = NULL};
    if (!codes || !read_intervals(&buffer, text, length)) {
        buffer_free(&buffer);
        free(codes);
        return NULL;
    }
    codes->intervals = (struct interval *)(void *)buffer.bytes;
    codes->count = buffer.length / sizeof *codes->intervals;
    arrange(codes);
    find_begins(codes);
    struct interval *fitting = codes->count > 0 ? realloc(codes->intervals, codes->count * sizeof *fitting) : NULL;
    if (fitting)
        codes->intervals = fitting;
    return codes;
}

void codes_free(struct codes *codes) {
    if (!codes)
        return;
    free(codes->intervals);
    free(codes);
}

/* The first interval that does not end before a number; `count` where there is none. */
static size_t find(const struct codes *codes, unsigned char lead, uint64_t number) {
    size_t low = codes->begins[lead], high = codes->begins[lead + 1];
    while (low < high) {
        size_t middle = (low + high) / 2;
        if (codes->intervals[middle].last < number)
            low = middle + 1;
        else
            high = middle;
    }
    return low;
}

/* The first eight bytes as a number, the first byte the highest; zero for those that are not there. */
static uint64_t number_of(const unsigned char *in, size_t there) {
    unsigned char bytes[CODE_BYTES] = {0};
    memcpy(bytes, in, there);
    uint64_t number = 0;
    for (size_t i = 0; i < CODE_BYTES; i++)
        number = number << 8 | bytes[i];
    return number;
}

enum front codes_front(const struct codes *codes, const unsigned char *in, size_t left, size_t *length) {
    *length = 1;
    if (codes->whole[in[0]])
        return WELL_FORMED;
    size_t there = left < CODE_BYTES ? left : CODE_BYTES;
    uint64_t number = left < CODE_BYTES ? number_of(in, left) : number_of(in, CODE_BYTES);
    uint64_t following = there < CODE_BYTES ? UINT64_MAX >> 8 * there : 0;
    size_t at = find(codes, in[0], number);
    if (at == codes->count || codes->intervals[at].first > (number | following))
        return FAULTY;
    *length = codes->intervals[at].length;
    return *length <= there ? WELL_FORMED : CUT_OFF;
}
