/* The encodings of a pool: the service's own, the system's charmaps, and those that the host has added. */
#ifndef ICONVD_ENCODINGS_H
#define ICONVD_ENCODINGS_H

#include <pthread.h>
#include <stdatomic.h>

#include "charmaps.h"
#include "codes.h"
#include "names.h"
#include "repairs.h"

/* The encoding of a charmap's file, if its converter composes (composed.h); else NULL. */
struct composing;
const struct composing *composing_of(const char *file);

struct encoding {
    enum builtin kind;   /* BUILTIN_COUNT: a charmap */
    unsigned number;     /* SHIFTED: which one */
    char name[80];       /* the service's name of it */
    struct charmap map;  /* of a charmap */
    char known_as[NAME_ROOM]; /* of a charmap that the host has added: its name as name_parse() writes it */
    atomic_bool refused; /* the service has refused the charmap: it is not sent again */
    struct encoding *light; /* of a large charmap: the short mappings of it, which are compiled sooner; NULL: there is no such */
    atomic_bool needed;     /* a text has needed more than the light one */
    struct repairs repairs; /* of a charmap file */
    const struct composing *composing; /* its converter composes (composed.h); else NULL */
    struct encoding *written; /* what is written with where the charmap needs placeholders for that; NULL: itself */
    bool has_placeholders;       /* it is such a one */
    bool is_computed;         /* the client computes its characters above U+FFFF, as GB18030's (planes.h) */
    uint32_t *_Atomic characters;      /* of one byte a character: that of each byte, made when a conversion first needs it (single.c) */
    unsigned char *_Atomic repertoire; /* made when a conversion first asks what the encoding has */
    struct codes *_Atomic codes; /* of a charmap; made when a conversion first meets bytes that are no character */
    struct encoding *next; /* of those that the host has added */
};

/* How many sets of characters encodings with shifts may have together. */
enum { SETS = 16 };

struct encodings {
    pthread_mutex_t mutex;   /* of what follows; never held for long */
    pthread_mutex_t reading; /* held while a file is read, and taken before the other one */
    char *directory;
    struct encoding **files; /* one for each charmap file; NULL: not read yet */
    struct encoding *added;
    struct set_map *_Atomic set_maps[SETS]; /* of encodings with shifts, each made when one first needs it */
};

bool encodings_begin(struct encodings *encodings, const char *directory);
void encodings_end(struct encodings *encodings);

/* In a child: mutexes that threads of its parent held are made anew. */
void encodings_renew(struct encodings *encodings);

/* The encoding of a name that name_parse() has taken apart. UNSUPPORTED, ENOMEM. */
iconvd_status encodings_find(struct encodings *encodings, const char *name, struct encoding **found);

/* The same, as far as it is known: NULL also for a charmap whose file has not been read yet. */
struct encoding *encodings_known(struct encodings *encodings, const char *name);

/* One of the service's own. */
struct encoding *encoding_builtin(enum builtin builtin);

/* An encoding with shifts; NULL: there are fewer (shifted_table.c). */
struct encoding *encoding_shifted(size_t number);

/* What is known of a set of characters (shifted_sets.c). */
struct set_map;
void set_map_free(struct set_map *map);

/* Makes an encoding of a charmap of the host's, which nobody finds yet. EXISTS, ENOMEM; UNSUPPORTED where the name is too long. */
iconvd_status encodings_make(struct encodings *encodings, const char *name, const char *text, size_t length, struct encoding **made);

/* From now on it is found, and belongs to the encodings. EXISTS: another thread was faster. */
iconvd_status encodings_publish(struct encodings *encodings, struct encoding *made);

/* Frees an encoding that was made and not published. NULL is nothing. */
void encoding_free(struct encoding *encoding);

/* What a text is tried with first: the light encoding, until one has needed more. */
struct encoding *encoding_first(struct encoding *encoding);

/* The encoding by which the service writes another one: that one, or with placeholders, which pool_convert() puts the right bytes for. */
struct encoding *encoding_written(struct encoding *encoding);

/* The codes of a charmap, which are made the first time. NULL: out of memory. */
const struct codes *encoding_codes(struct encoding *encoding);

/* How many bytes a character has at most and at least. */
unsigned encoding_most_bytes(const struct encoding *encoding);
unsigned encoding_least_bytes(const struct encoding *encoding);

#endif
