/* The bytes after a fault, as stretches of characters with a fault after each. */
#ifndef ICONVD_STRETCHES_H
#define ICONVD_STRETCHES_H

#include "phrases.h"

/* Characters one after another, with a fault after them. */
struct stretch {
    size_t length;
    size_t characters;
    size_t written;  /* bytes of what they are converted to */
    size_t replaced; /* characters that the target lacks, by //TRANSLIT */
    bool ends_empty; /* nothing is written for the last character, which needs room all the same */
};

/* All zero at first. */
struct stretches {
    struct buffer in;      /* the bytes that were looked at */
    struct buffer kept;    /* their characters */
    struct buffer out;     /* what these are converted to */
    struct buffer parts;   /* an array of struct stretch */
    bool lacks;            /* the target has lacked a character of the conversion: whether it has each is looked at, too */
    struct phrases phrases; /* what is written instead of such characters */
};

struct stretch *stretch_at(const struct stretches *stretches, size_t number);
size_t stretch_count(const struct stretches *stretches);

/* Finds the stretches at the front of a text, in `window` bytes or until the first fault, but not beyond MOST_WINDOW units. It converts them by
   three requests at most, and one more where the target has lacked nothing before. They end before what stops a conversion for another
   reason than a fault. False: there is none, or the usual way will say what is wrong. */
bool stretches_find(struct stretches *stretches, struct iconvd_cd *cd, const struct progress *progress, size_t window);

/* Forgets the stretches, but not the phrases. */
void stretches_forget(struct stretches *stretches);
void stretches_free(struct stretches *stretches);

/* CODE: as many bytes as may decide what is at a place. MOST_WINDOW: in bytes, or in units of an encoding whose characters have more. */
enum { CODE = 8, MOST_WINDOW = 16384 };

#endif
