/* What is written instead of characters that the target lacks. */
#ifndef ICONVD_PHRASES_H
#define ICONVD_PHRASES_H

#include "convert.h"

/* A transliteration, or `?`. */
struct phrase {
    enum { UNKNOWN, NONE, TEXT, ENCODED } state; /* NONE: the target has no candidate */
    size_t at;                                   /* its place in `text`, and in `bytes` where it is encoded */
    size_t length;
};

/* The phrases that a conversion has met, each once. All zero at first. */
struct phrases {
    struct phrase *phrases; /* one for each character that has transliterations, and one for all others */
    uint32_t *fresh;        /* the numbers of those that are not encoded yet */
    size_t fresh_count;
    struct buffer text;  /* these in UTF-8 */
    struct buffer bytes; /* the others in the target's encoding */
};

/* The phrase of a character, whose bytes are there after phrases_encode(). repertoire_prepare() was called for the target. NULL: out of
   memory. */
const struct phrase *phrases_find(struct phrases *phrases, const struct encoding *to, uint32_t character);

/* Encodes those that are new, by one round trip. */
iconvd_status phrases_encode(struct phrases *phrases, struct iconvd_cd *cd);

void phrases_free(struct phrases *phrases);

#endif
