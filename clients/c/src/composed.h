/* Encodings whose converters compose: CP1255, CP1258 and TCVN hold a letter back, since a mark may follow that is one character with it,
 * and BIG5-HKSCS has codes that are a letter and a mark each.
 *
 * Some encodings only write a character as another one.
 *
 * The service converts the single codes. Between the two sides of a conversion a text is in UTF-16BE, and there it is composed or
 * decomposed. names/composing.py says which pairs there are. */
#ifndef ICONVD_COMPOSED_H
#define ICONVD_COMPOSED_H

#include "convert.h"

/* COMPOSES_ONCE: a character that was composed takes no other mark; COMPOSES_MORE: it may. COMPOSES_PAIRS: the charmap has codes of a letter
   and a mark, for which characters stand that no text has. */
enum composing_kind { COMPOSES_ONCE, COMPOSES_MORE, COMPOSES_PAIRS };

struct composing {
    char file[16];
    uint16_t first, last;        /* the letters that are held back */
    uint16_t kind;               /* enum composing_kind */
    uint16_t first_read, reads;  /* its rows of each table */
    uint16_t first_write, writes;
};

/* Whether a text in the encoding is composed when it is read, too. NULL: no. */
static inline bool composing_reads(const struct composing *by) {
    return by && by->reads > 0;
}

/* composed_table.c */

/* What a letter and a mark are together; 0: nothing. */
uint32_t composing_join(const struct composing *by, uint32_t letter, uint32_t mark);

/* Whether a mark may follow the character. */
bool composing_has_letter(const struct composing *by, uint32_t character);

/* What the character is written as: COMPOSING_PARTS characters at most, and a zero; NULL: as itself. */
enum { COMPOSING_PARTS = 3 };
const uint16_t *composing_split(const struct composing *by, uint32_t character);

/* composed_read.c */

/* A place of the source. */
struct composed_place {
    const char *in;
    size_t faults; /* that were passed over */
    uint32_t held; /* a character that was read, and not given out; 0: none */
};

/* A text that is read. The caller owns the bytes and the units. */
struct composed_reading {
    const struct composing *by;
    struct fronts fronts;
    bool ignores;               /* goes on after faults */
    bool marks_faults;          /* the same, and gives COMPOSED_FAULT for each */
    const char *end;
    const char *units;          /* the characters of the well-formed codes, in UTF-16BE */
    size_t characters;          /* that were given out */
    struct composed_place now;
    struct composed_place last; /* after the last one that was given out */
};

/* A surrogate alone, which stands for a fault in a text of UTF-16BE. */
enum { COMPOSED_FAULT = 0xdc00 };

/* What is at the front of the source. The C library waits for the second byte of a code whatever the first one is. */
enum front composed_front(const struct composed_reading *reading, const char *at, size_t *length);

/* Has the service convert the well-formed codes up to what ends the text, and lets the reading have them. Both buffers are empty. ENOMEM,
   LOST. */
iconvd_status composed_decode(struct iconvd_cd *cd, struct composed_reading *reading, struct buffer *codes, struct buffer *units);

/* Reads until `most` characters were given out. OK: that, or all is used. EILSEQ, EINVAL. Without `text` they are dropped; else there is
   room for all. */
iconvd_status composed_read(struct composed_reading *reading, size_t most, struct buffer *text);

/* composed_prepare.c: characters in UTF-16BE on their way to a target that composes. */

struct preparing {
    const struct composing *by;
    const char *units;
    size_t length;
    size_t at;     /* how much of these was prepared */
    size_t given;  /* bytes of what the target is given */
    uint32_t held; /* a letter that was prepared, and not given */
};

/* Prepares characters until the target is given `most` bytes, and none that would be more. Without `text` they are dropped; else there is
   room for all. */
void composed_prepare(struct preparing *preparing, size_t most, struct buffer *text);

/* What the target is given for all of them. The caller owns the text. */
struct prepared {
    const char *text;
    size_t length;
    size_t beyond;        /* how much is known of the text after them, which begins with a fault; 0: nothing */
    struct preparing end; /* after all of them */
};

/* Brings this to the target, and moves `preparing`, which is at its beginning, on by what was written or is held. OK: all is. */
iconvd_status composed_put(struct iconvd_cd *cd, const struct prepared *prepared, struct progress *progress,
                           struct preparing *preparing);

/* The conversions. */

/* It owns what it points to, but `by`; composed_end() frees all of it. */
struct composed {
    const struct composing *by;
    uint32_t held;                /* see composed_place; of a target: the letter that was not written yet */
    bool to_wide;                 /* the target is WCHAR_T, which the C library converts to without a step between */
    bool stopped;                 /* the last call stopped at what is in the way: there may be more of it */
    bool faulty;                  /* that was a fault of the source */
    struct iconvd_cd *source;     /* to UTF-16BE, where the target composes; else NULL */
    struct iconvd_cd *target;     /* from UTF-16BE */
    struct composed_read_ahead *read_ahead;   /* what follows a fault; NULL: none was met */
    struct composed_write_ahead *write_ahead; /* the same, where the target composes */
    struct composed_place last;   /* where this call was after the last character that was given out */
    uint32_t lacking;             /* the character that has stopped the last call */
    size_t replaced;              /* characters for which the last reset has written others */
};

/* composed.c: a call. */
iconvd_status composed_convert(struct iconvd_cd *cd, struct progress *progress);
void composed_describe(struct iconvd_cd *cd, const struct progress *progress, iconvd_stop *stop);

/* A call where the target composes (composed_write.c). */
iconvd_status composed_write(struct iconvd_cd *cd, struct progress *progress);

/* Has the target convert a text in UTF-16BE. Whether it lacks characters is looked at here if the policy says what to do then, so that
   nothing is sent twice. */
iconvd_status composed_convert_units(struct iconvd_cd *target, struct progress *progress);

/* composed_read_ahead.c and composed_write_ahead.c: a call after one that has stopped at a fault. OK: nothing is known of the text, and it
   goes on by pieces. It is not made to UTF-7, whose descriptor has a state, nor to WCHAR_T. */
bool composed_looks_ahead(const struct iconvd_cd *cd);
iconvd_status composed_read_ahead(struct iconvd_cd *cd, struct progress *progress);
iconvd_status composed_write_ahead(struct iconvd_cd *cd, struct progress *progress);
void composed_read_ahead_end(struct composed *composed);
void composed_write_ahead_end(struct composed *composed);

/* composed_open.c */

/* Writes the character that is held. ENOCHAR: the target lacks it, or the policy has left it out. */
iconvd_status composed_write_held(struct composed *composed, char **out, size_t *out_left);
iconvd_status composed_open(struct iconvd_cd *cd, bool to_wide);
iconvd_status composed_reset(struct iconvd_cd *cd, char **out, size_t *out_left);
void composed_end(struct iconvd_cd *cd);

/* How much of the source is taken at once. AFTER_STOP is how much is taken first where a text has just stopped. */
enum { COMPOSED_PIECE = 65536 - ICONVD_CONV_HEAD, COMPOSED_AFTER_STOP = 256 };

#endif
