/* Names of encodings. */
#ifndef ICONVD_NAMES_H
#define ICONVD_NAMES_H

#include <stdbool.h>
#include <stddef.h>

/* The service's own encodings, and WHATWG's REPLACEMENT (replacement.c), in the order of tables.py. BUILTIN_COUNT is a charmap, and
   SHIFTED an encoding with shifts. */
enum builtin {
    US_ASCII,
    ISO_8859_1,
    UTF_8,
    UTF_16,
    UTF_16BE,
    UTF_16LE,
    UTF_32,
    UTF_32BE,
    UTF_32LE,
    UTF_7,
    REPLACEMENT,
    BUILTIN_COUNT,
    SHIFTED
};

/* The service's name of one of them. */
const char *builtin_name(enum builtin builtin);

/* The longest name that is looked for; a longer one is none. */
enum { NAME_ROOM = 128 };

/* A name as a caller wrote it, taken apart. */
struct parsed_name {
    char name[NAME_ROOM]; /* upper case, without what iconv_open() passes over; empty: the locale's encoding */
    bool translit;        /* //TRANSLIT stood behind it */
    bool ignore;          /* //IGNORE stood behind it */
};

/* False: it is too long for a name. */
bool name_parse(struct parsed_name *parsed, const char *written);

/* The number of a name: an enum builtin, or BUILTIN_COUNT plus the number of a charmap, or that number plus charmap_count() for an
   encoding with shifts; -1 for none. */
int name_find(const char *name);

/* Whether a name, as a caller wrote it, is the C library's of an encoding that the service lacks: it means what WHATWG's standard reads
   the name as. The preload library leaves it to the C library. */
bool name_is_whatwg(const char *written);

/* How many charmaps there are. */
size_t charmap_count(void);

/* The file of one, without folder and ending. */
const char *charmap_file(size_t number);

/* Its own name: that of its file, or another one if repairs make it from the file of another encoding. */
const char *charmap_name(size_t number);

#endif
