/* The codes of a charmap: which bytes are characters of it. */
#ifndef ICONVD_CODES_H
#define ICONVD_CODES_H

#include <stddef.h>

/* What is at the front of a text. */
enum front {
    WELL_FORMED, /* a character */
    FAULTY,      /* bytes that are no character, whatever follows */
    CUT_OFF      /* the beginning of a character, whose end is not there */
};

struct codes;

/* The codes in a charmap's text, which the service takes. NULL: out of memory. */
struct codes *codes_make(const char *text, size_t length);
void codes_free(struct codes *codes);

/* What is at the front of `left` bytes, one at least, and how many bytes the character has. */
enum front codes_front(const struct codes *codes, const unsigned char *in, size_t left, size_t *length);

#endif
