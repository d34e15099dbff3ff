/* Encodings with shifts and escapes: ISO-2022-JP and its kind, HZ.
 *
 * The service has none of them. A text is cut at its sequences here, and each set of characters that it uses is converted by the service
 * under an encoding that has the same characters: the JIS X 0208 of ISO-2022-JP is EUC-JP's with the highest bits set. Between the two
 * sides of a conversion a text is in UTF-16BE. clients/names has the table of encodings and sets. */
#ifndef ICONVD_SHIFTED_H
#define ICONVD_SHIFTED_H

#include "convert.h"

/* How the bytes of a code become those of the encoding that the service has. */
enum how { SAME, HIGH, ROWS };

/* A set of characters. The number 0 is ASCII. */
struct shifted_set {
    char by[12];                   /* the name of the encoding that has it */
    unsigned char bytes;           /* of a code */
    unsigned char before_length;
    unsigned char before[2];       /* what the other encoding has before a code */
    unsigned char how;             /* enum how */
    unsigned char first_lead, last_lead; /* after these a second byte is waited for */
};

/* What a sequence means; clients/names/shifted_encodings.tsv explains each. */
enum meaning { USE, G1, HEADER, G2, OUT, IN, SINGLE, LINE, ITSELF, NOTHING, MEANINGS };

struct shifted_sequence {
    unsigned char bytes[4];
    unsigned char length;
    unsigned char meaning; /* enum meaning */
    unsigned char set;     /* or what else the meaning needs */
    unsigned char order;   /* sets are tried in this order when a character is written; 0: this one is read alone */
};

struct shifted_encoding {
    unsigned char first, count; /* of its sequences */
    unsigned char start;        /* the set in use at first */
    unsigned char room_first;   /* while this set is in use, there has to be room for a code before a character is looked at */
    bool pairs, strict, ascii;
    unsigned char least_escape; /* how many bytes an escape has at least; fewer are cut off, whatever they are */
    uint32_t begins[8];         /* a bit for each byte that begins a sequence */
};

/* How many groups of sets there may be; no set; the group of those that are converted by arithmetic alone; and that of faults. */
enum { GROUPS = 6, NO_SET = 255, DIRECT = 254, FAULT_MARK = 253 };

/* What is known of a set: shifted_sets.c. The pool's encodings own it, and the bits. */
struct set_map {
    struct encoding *by;
    const struct codes *codes; /* of a charmap */
    unsigned char *bits;       /* which characters are written by its codes: a bit for each */
};

/* One side of a conversion. */
struct shifter {
    const struct shifted_encoding *encoding;
    const struct shifted_sequence *sequences;
    const struct shifted_sequence *ways[SETS];   /* the one that brings each set into use; NULL: none has to */
    const struct shifted_sequence *of[MEANINGS]; /* the first one of each meaning; NULL: there is none */
    unsigned char order[SETS];                   /* the sets in which they are tried when a character is written */
    size_t order_count;
    const struct set_map *maps[SETS];
    unsigned char group_of[SETS];    /* sets of one encoding of the service are converted together; DIRECT: by arithmetic alone */
    struct encoding *groups[GROUPS];
    size_t group_count;
};

/* What the sequences so far have brought into use. */
struct shift_state {
    unsigned char set;
    unsigned char g1, g2; /* NO_SET: none */
    bool out;             /* g1 is in use, and not the set */
    bool header_due;      /* in a text that is written */
};

/* shifted_table.c */
const struct shifted_encoding *shifted_encoding(size_t number);
const struct shifted_set *shifted_set(size_t number);
const struct shifted_sequence *shifted_sequences(const struct shifted_encoding *encoding);
struct shift_state shift_begin(const struct shifter *shifter, bool writes);

/* The set in use. */
static inline unsigned char shift_set(const struct shift_state *state) {
    return state->out ? state->g1 : state->set;
}

/* How much room there has to be before a character is looked at. */
static inline size_t shift_least_room(const struct shifter *shifter, const struct shift_state *state) {
    return shift_set(state) == shifter->encoding->room_first ? 2 : 1;
}

/* Finds the sequences of an encoding. */
void shift_sequences(struct shifter *shifter);

/* The bytes by which the service's encoding has a code of a set, and how many; 0: no code has these bytes. */
size_t set_to_service(const struct shifted_set *set, const unsigned char *code, unsigned char *bytes);

/* The code that such bytes are. False: no code of the set. */
bool set_from_service(const struct shifted_set *set, const unsigned char *bytes, size_t length, unsigned char *code);

/* shifted_sets.c: opens one side. UNSUPPORTED: a charmap is missing or refused. ENOMEM, LOST. */
iconvd_status shifter_open(struct iconvd_pool *pool, struct shifter *shifter, const struct encoding *encoding, bool writes);

/* Converts all that a group has of a text, by one round trip. `room` is enough, and what `out` has is replaced. LOST where the service
   does not convert all of it. */
iconvd_status group_convert(struct iconvd_pool *pool, const struct pair *pair, const struct buffer *in, size_t room, struct buffer *out);

/* Whether a set has a character, and a writer has a code of that set for it. */
bool set_has(const struct shifter *shifter, unsigned char set, uint32_t character);

/* shifted_read.c */

/* Characters that were taken out of a text. */
struct shift_text {
    struct buffer plan;          /* for each character its group, or DIRECT */
    struct buffer direct;        /* the direct ones: a byte each, which is the code point */
    struct buffer codes[GROUPS]; /* the others, as the service has them */
};
void shift_text_free(struct shift_text *text);

/* Where reading was after the last character. */
struct shift_place {
    struct shift_state state;
    const char *in;
    size_t faults;
};

/* How far a text has been read. */
struct shift_reading {
    const struct shifter *shifter;
    struct shift_state state;
    bool ignores;      /* goes on after faults */
    bool marks_faults; /* goes on a byte after each, which is a surrogate alone in the text */
    const char *in;
    size_t left;
    size_t characters;
    size_t faults; /* that were passed over */
    struct shift_place last;
};

/* Reads up to `most` characters, and stops after the last one. Without `text` they are passed over. OK: all is used, or there are as many.
   EILSEQ, EINVAL; ENOMEM. */
iconvd_status shift_read(struct shift_reading *reading, size_t most, struct shift_text *text);

/* How many faulty bytes are where reading has stopped. */
size_t shift_faulty_length(const struct shift_reading *reading);

/* Brings what was taken to UTF-16BE, by one round trip for each group. */
iconvd_status shift_text_convert(struct iconvd_pool *pool, const struct shifter *shifter, struct shift_text *text, struct buffer *units);

/* shifted_plan.c: which set each character of a text in UTF-16BE is written in. */

struct planned {
    enum planned_kind { WRITTEN, PHRASE, MORE, EMPTY, LEFT, LACKS } kind; /* PHRASE and MORE are the characters of a transliteration */
    unsigned char set;
    unsigned char code;  /* of a direct character */
    unsigned char width; /* how many bytes the character has in the text: 0 for MORE */
};

struct shift_plan {
    struct buffer planned;       /* an array of struct planned */
    struct buffer units[GROUPS]; /* the characters of each group, in UTF-16BE */
    struct buffer codes[GROUPS]; /* what the service has written for them */
};
void shift_plan_free(struct shift_plan *plan);

/* Plans all of a text, or up to the first character that no set has and the policy leaves there. Then asks the service for the codes, by
   one round trip for each group. */
iconvd_status shift_plan(struct iconvd_cd *cd, struct shift_plan *plan, const struct buffer *text);

/* What writing a character in a set makes of the state. */
void shift_written(const struct shifter *shifter, struct shift_state *state, unsigned char set, uint32_t character);

/* shifted_write.c: writes what is planned, as far as there is room, and moves on by that. `used` gets how many bytes of the text were.
   E2BIG; ENOCHAR. */
iconvd_status shift_write(struct iconvd_cd *cd, const struct shift_plan *plan, struct progress *progress, size_t *used);

/* Writes what a text ends with. False: it has no room. */
bool shift_end(const struct shifter *shifter, struct shift_state *state, char **out, size_t *out_left);

/* The sequences that bring a reader to a state, in SHIFT_SEQUENCES bytes at most, and how many they are. */
enum { SHIFT_SEQUENCES = 16 };
size_t shift_spell(const struct shifter *shifter, const struct shift_state *state, char *out);

/* shifted_ahead.c: a call after one that has stopped at a fault. It moves on by what is known of the text then, and may make no round
   trip. OK: nothing is in the way of going on by pieces. */
struct shifted;
struct shift_ahead;
iconvd_status shift_ahead_convert(struct iconvd_cd *cd, struct progress *progress);
void shift_ahead_end(struct shifted *shifted);

/* shifted.c and shifted_open.c: the conversions. Each owns its sides, what `inner` has, and what it knows of the text after a fault;
   shifted_end() frees them. */

struct shifted {
    struct shifter *from, *to; /* NULL: that side has no shifts */
    struct shift_state reading, writing;
    bool to_wide;              /* the target is WCHAR_T, which the C library converts to without a step between */
    bool stopped;              /* the last call stopped at what is in the way: there may be more of it */
    struct iconvd_cd inner;    /* from or to UTF-16BE on the other side, unless both have shifts */
    struct shift_ahead *ahead; /* what follows a fault; NULL: none was met */
    bool faulty;               /* the last call stopped at a fault of the source */
    struct shift_place last;   /* where this call was after the last character; its faults are what progress counts as skipped */
    uint32_t lacking;          /* the character that has stopped the last call, and its length in the source */
    size_t lacking_length;
};

#endif
