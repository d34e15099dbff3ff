/* Where an encoding of the C library differs from its charmap: those lines of names/repairs.tsv that are the C library's. */
#ifndef ICONVD_REPAIRS_H
#define ICONVD_REPAIRS_H

#include "charmaps.h"

/* The kinds that names/repairs.tsv explains; the order is that of tables.py. */
enum repair_kind { REPAIR_WRITE, REPAIR_READ, REPAIR_BOTH, REPAIR_NONE, REPAIR_COMPUTED };

struct repair {
    uint32_t code; /* the bytes as one number, the first byte the highest */
    uint32_t character;
    uint32_t placeholder; /* of WRITE: as many bytes */
    uint8_t bytes;
    uint8_t kind;
};

/* The repairs of one charmap. */
struct repairs {
    const struct repair *first;
    size_t count;
};

/* Those of a charmap_name(). */
struct repairs repairs_of(const char *charmap);

/* Whether the client computes the characters above U+FFFF (planes.h). */
bool repairs_are_computed(const struct repairs *repairs);

/* Whether a character has bytes by a repair, and so is not computed. */
bool repairs_have(const struct repairs *repairs, uint32_t character);

/* Whether a line of the charmap's file is dropped. */
bool repairs_drop(const struct repairs *repairs, const char *line, char escape);

/* Writes the line of a mapping, which has at most 60 bytes. */
void repair_spell(char *line, uint32_t character, uint32_t code, unsigned bytes, char escape);

bool repairs_have_placeholders(const struct repairs *repairs);

/* Appends the mappings of placeholders to a charmap's text, and counts them. False: out of memory. */
bool repairs_append_placeholders(const struct repairs *repairs, char escape, struct charmap *charmap);

/* Puts the bytes that are meant in the place of each placeholder, in what the service wrote: whole characters, of the same length. */
void repairs_settle(const struct repairs *repairs, char *out, size_t length);

#endif
