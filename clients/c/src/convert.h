/* Conversions with iconv's meaning. */
#ifndef ICONVD_CONVERT_H
#define ICONVD_CONVERT_H

#include "pool.h"

struct iconvd_cd {
    struct iconvd_pool *pool;
    struct encoding *to; /* as they were asked for */
    struct encoding *from;
    struct pair pair;    /* what the service converts by: UTF-16 and UTF-32 have an order there, and no mark */
    int policy;
    size_t ahead;        /* how much is sent at once: little where a text has just stopped, and more while all goes well */
    bool mark_written;   /* to UTF-16 and UTF-32 */
    bool order_known;    /* from UTF-16 and UTF-32 */
    bool from_wide;      /* the source is WCHAR_T, which the C library converts without a step between */
    bool is_replacement; /* the source is WHATWG's `replacement` (replacement.c) */
    bool fault_told;     /* the fault of such a text has been reported */
    bool is_copy;        /* from UTF-16BE to itself, behind another conversion: it is done here */
    bool is_single;      /* to UTF-16BE from a charmap of one byte a character, behind another conversion: single.c */
    struct own *own;     /* with UTF-7 on either side: a descriptor of its own; otherwise NULL */
    struct shifted *shifted; /* with shifts on either side; otherwise NULL */
    struct composed *composed;   /* with an encoding that composes on one side: composed.h; else NULL */
    struct foresight *foresight; /* what follows a fault, where the caller goes on after it; else NULL */
};

/* How far a call has come. */
struct progress {
    const char *in;
    size_t in_left;
    char *out;
    size_t out_left;
    size_t replaced;
    size_t skipped;
    size_t lacking;      /* of these: characters that the target lacks */
    size_t loose;        /* faulty bytes at the end of what is used: nothing after them was converted */
    size_t loose_faults; /* how many sequences they are */
};

/* Moves on by what a piece of text did. */
static inline void progress_add(struct progress *progress, const struct work *work) {
    progress->in += work->used;
    progress->in_left -= work->used;
    progress->out += work->produced;
    progress->out_left -= work->produced;
    progress->replaced += work->replaced;
    if (work->used > 0)
        progress->loose = progress->loose_faults = 0;
}

/* Moves on over faulty bytes. */
static inline void progress_pass(struct progress *progress, size_t bytes, size_t faults) {
    progress->in += bytes;
    progress->in_left -= bytes;
    progress->skipped += faults;
    progress->loose += bytes;
    progress->loose_faults += faults;
}

/* Moves back before the faulty bytes that nothing has followed. */
static inline void progress_back(struct progress *progress) {
    progress->in -= progress->loose;
    progress->in_left += progress->loose;
    progress->skipped -= progress->loose_faults;
    progress->loose = progress->loose_faults = 0;
}

/* The `ahead` of a conversion whose text has stopped at something that is in the way, since there may be more of it. */
enum { AHEAD_AFTER_STOP = 64 };

/* What iconvd_convert() does, on a progress. */
iconvd_status convert_text(struct iconvd_cd *cd, struct progress *progress);

/* The same for a conversion that is a part of another one, and is not counted. */
iconvd_status convert_part(struct iconvd_cd *cd, struct progress *progress);

/* A call of a conversion of any kind, also of one that stands behind another one. */
iconvd_status convert_any(struct iconvd_cd *cd, struct progress *progress);

/* Opens a conversion whose encodings and policy are there. `to_wide` says that the target is WCHAR_T. */
iconvd_status convert_open(struct iconvd_cd *cd, bool to_wide);

/* Opens what the service converts by. */
iconvd_status open_pair(struct iconvd_cd *cd);

/* One piece, by the shared descriptor or by the conversion's own. */
iconvd_status convert_piece(struct iconvd_cd *cd, struct work *work);

/* How much input is sent for so much room: a small room takes no more than the service may use of it. */
size_t input_for_room(size_t in_left, size_t out_left);

/* How much of a room the output of so much input may need. The service has memory ready for all that it is given. */
size_t room_for(const struct iconvd_cd *cd, size_t length, size_t room);

/* marks.c: byte order marks as the C library treats them. */

/* UTF-16 and UTF-32 with an order: the machine's, or another if `little` says so. Every other encoding is as it is. */
bool machine_is_little(void);
struct encoding *mark_free(struct encoding *encoding, bool little);

/* Finds the order of a source UTF-16 or UTF-32 by its first bytes, and passes over a mark. EINVAL: too few bytes. */
iconvd_status mark_read(struct iconvd_cd *cd, struct progress *progress);

/* Keeps room for the mark of a target, if one is due. Where there is too little, no room is left at all. */
void mark_reserve(const struct iconvd_cd *cd, struct progress *progress);

/* Writes the mark into the room that was kept, if something was written behind it or did not fit; else gives the room back. */
void mark_settle(struct iconvd_cd *cd, struct progress *progress, const struct progress *before, iconvd_status status);

/* sifted.c: goes on where there are bytes that are no character, EILSEQ, or one that the target lacks, ENOCHAR, by the policy. OK: the
   text is used, or a chunk of it had neither. Every other status is the conversion's. */
iconvd_status convert_sifted(struct iconvd_cd *cd, struct progress *progress, iconvd_status stop);

/* The character at the front of the input and its length, from the service. */
iconvd_status next_character(struct iconvd_cd *cd, const struct progress *progress, uint32_t *character, size_t *length);

/* foresight.c: answers a call after one that has stopped at a fault. True: it stops at a fault again, as the service would say. */
bool foresight_answer(struct iconvd_cd *cd, struct progress *progress);
void foresight_end(struct iconvd_cd *cd);

/* shifted.c: conversions from and to encodings with shifts. */
struct shifted;
iconvd_status shifted_open(struct iconvd_cd *cd, bool to_wide);
iconvd_status shifted_convert(struct iconvd_cd *cd, struct progress *progress);
iconvd_status shifted_reset(struct iconvd_cd *cd, char **out, size_t *out_left);
void shifted_describe(struct iconvd_cd *cd, const struct progress *progress, iconvd_stop *stop);
void shifted_end(struct iconvd_cd *cd);

/* replacement.c: WHATWG's `replacement`. A text in it is one fault, and what is written to it is UTF-8. */

/* Puts UTF-8 in its place. UNSUPPORTED: `target` is the name of an encoding that is only read so. */
iconvd_status replacement_begin(struct iconvd_cd *cd, const char *target);
iconvd_status replacement_convert(struct iconvd_cd *cd, struct progress *progress);

/* own.c: conversions that have a state in the service. */
struct own;
struct own *own_begin(struct iconvd_pool *pool);
void own_end(struct iconvd_cd *cd);
iconvd_status own_open(struct iconvd_cd *cd);
iconvd_status own_convert(struct iconvd_cd *cd, struct work *work);
iconvd_status own_reset(struct iconvd_cd *cd, char **out, size_t *out_left);

/* Gives the descriptor back, when the source's order has turned out to be another. Nothing has been converted yet. */
void own_change(struct iconvd_cd *cd);

/* The input since the last reset; false where it was too long to be kept. */
bool own_history(const struct iconvd_cd *cd, const char **bytes, size_t *length);

/* fronts.c: what is at the front of a text. */

/* How characters of an encoding are told from bytes that are none. */
struct fronts {
    enum builtin kind;
    const struct codes *codes; /* of a charmap */
    bool is_computed;          /* and the codes of planes.h */
};

/* ENOMEM. The encoding is not UTF-7. */
iconvd_status fronts_of(struct encoding *encoding, struct fronts *fronts);

/* What is at the front of `left` bytes, one at least, and how long the character is. */
enum front front_at(const struct fronts *fronts, const char *text, size_t left, size_t *length);

/* How many bytes of characters are at the front of a text. */
size_t front_run(const struct fronts *fronts, const char *text, size_t left);

/* The character whose bytes these are. False: it cannot be told without converting. */
bool front_character(const struct fronts *fronts, const char *text, size_t length, uint32_t *character);

/* single.c: converts a piece to UTF-16BE from a charmap of one byte a character. */
iconvd_status single_convert(struct iconvd_pool *pool, struct encoding *encoding, struct work *work);

/* characters.c */

/* How many bytes the units have that UTF-16 and UTF-32 are made of; 1 for all others. */
size_t unit_length(enum builtin kind);

/* How many bytes to skip where the source has bytes that are no character. */
size_t faulty_length(enum builtin from, const char *in, size_t length);

/* Whether bytes that are no character, whatever follows, are yet too few for the C library to say so: it reads a whole unit, a whole
   pair of surrogates, and as many bytes as the first one of UTF-8 announces, before it looks at the value. */
bool may_be_completed(enum builtin from, const char *in, size_t length);

/* Where to cut the first `length` bytes of a longer input, so that no character is cut: `length` or a little less. 0: it cannot be
   told for this encoding. */
size_t cut_length(const struct encoding *from, const char *in, size_t length);

/* How many bytes a sequence of UTF-8 has by its first one; 1 for bytes that begin none. */
size_t utf8_length(unsigned char first);

/* The character at the front of a text in UTF-8 that the service wrote, and its length. */
size_t utf8_read(const char *text, uint32_t *character);

/* units.c: forms of Unicode that are written here, and texts in UTF-16BE, in which a text is between the two sides of a conversion. */

/* Whether an encoding is UTF-8, or UTF-16 or UTF-32 with an order. */
bool is_unicode(enum builtin form);

/* Writes a character in such a form. Returns how many bytes it has, four at most. */
size_t character_write(enum builtin form, uint32_t character, char *out);

/* The character at the front of a text in UTF-16BE, and how many bytes it has. */
uint32_t units_read(const char *units, size_t *width);

/* Copies the characters at the front of a text in UTF-16BE, as a conversion does. */
iconvd_status units_copy(struct work *work);

/* Appends a character. There is room. */
void units_append(struct buffer *units, uint32_t character);

/* How many characters a text in UTF-16BE has. */
size_t units_count(const char *units, size_t length);

#endif
