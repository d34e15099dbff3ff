/* Charmap files of the system, and the texts that are uploaded for them. */
#ifndef ICONVD_CHARMAPS_H
#define ICONVD_CHARMAPS_H

#include <stdint.h>

#include "../iconvd.h"
#include "buffer.h"

struct charmap {
    struct buffer text;
    uint32_t mappings;   /* how many the service will count; an estimate from above */
    unsigned least_bytes; /* of a character */
    unsigned most_bytes;
};

/* Of a charmap with so many mappings or more there is also a light one. */
enum { LARGE_CHARMAP = 50000, LIGHT_BYTES = 2 };

/* The charmaps that one file gives. Those that it does not give have no text. */
struct charmap_set {
    struct charmap whole;
    struct charmap light;   /* the mappings of at most LIGHT_BYTES bytes of a large one, which are compiled sooner */
    struct charmap written; /* the whole with placeholders, for conversions to the encoding (repairs.h) */
};

/* Whether the client composes what has a code of several bytes in a charmap (composed.h): those lines are left out. */
bool charmap_is_composed(const char *charmap);

/* Reads `directory`/`file`.gz for an encoding and mends it, so that the service reads it as the C library does. `charmap` is the encoding:
 * that of the file, or one that repairs make from it (charmap_name()).
 *
 *   - it gets the name `name`, since two files of Debian have one name;
 *   - <mb_cur_min> and <mb_cur_max> are counted, since some files lack them and others are wrong;
 *   - lines marked %IRREVERSIBLE% go behind all others: both mappings are read, and the first is written;
 *   - combining sequences, which are no mappings of one character, are left out, and so is everything but mappings;
 *   - a line CHARMAP is added where there is none;
 *   - the repairs of `charmap` are made.
 *
 * The other charmaps are named `name`-light and `name`-written. A text that the light one converts without a stop is converted so by the
 * whole one.
 *
 * UNSUPPORTED: there is no such file, or no mapping in it. */
iconvd_status charmap_read(struct charmap_set *set, const char *directory, const char *file, const char *charmap, const char *name);
void charmap_set_free(struct charmap_set *set);

/* The characters of a charmap: a bit for each code point, or NULL where memory lacks. `symbols` is set where the text has names
   other than <Uxxxx>, which are not among the bits. */
unsigned char *charmap_repertoire(const char *text, size_t length, bool *symbols);

/* Reads the name or range of a mapping at `line`, which a line feed or a zero byte ends. False: it is no <Uxxxx>. A range of two dots
   counts in hexadecimal. One of three counts its names in decimal, and each name is hexadecimal nevertheless: <U0109>...<U0110> are
   U+0109 and U+0110. */
struct code_points {
    uint32_t first;
    uint32_t last;
    bool decimal; /* `first` and `last` are the names read as decimal numbers */
};
bool charmap_points(const char *line, struct code_points *points);

/* A line of a charmap's text that is a mapping, or a range of them. Its codes count up as one number, the first byte the highest. */
struct mapping {
    bool is_named; /* by a name other than <Uxxxx>; else by `points` */
    struct code_points points;
    uint64_t count; /* of characters */
    uint64_t code;  /* of the first one */
    unsigned bytes; /* of a code, 1 to 8 */
};

/* Goes through the mappings of a text that the service takes. False: there are no more. */
struct charmap_lines {
    const char *at;
    const char *end;
    char escape;
    bool inside; /* after the line CHARMAP */
};
struct charmap_lines charmap_lines(const char *text, size_t length);

/* Reads the mapping, or the range of them, of one line. False: it is none. */
bool charmap_mapping(const char *line, char escape, struct mapping *mapping);
bool charmap_next(struct charmap_lines *lines, struct mapping *mapping);

#endif
