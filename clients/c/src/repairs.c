/* Makes the repairs of a charmap. */
#include "repairs.h"

#include <stdio.h>
#include <string.h>

/* The repairs of a charmap are one after another. */
struct repaired_charmap {
    char charmap[24];
    uint16_t first;
    uint16_t count;
};

#include "repairs_table.h"

struct repairs repairs_of(const char *charmap) {
    for (size_t i = 0; i < sizeof REPAIRED_CHARMAPS / sizeof *REPAIRED_CHARMAPS; i++)
        if (strcmp(REPAIRED_CHARMAPS[i].charmap, charmap) == 0)
            return (struct repairs){.first = REPAIRS + REPAIRED_CHARMAPS[i].first, .count = REPAIRED_CHARMAPS[i].count};
    return (struct repairs){.first = NULL};
}

static bool has_kind(const struct repairs *repairs, enum repair_kind kind) {
    for (size_t i = 0; i < repairs->count; i++)
        if (repairs->first[i].kind == kind)
            return true;
    return false;
}

bool repairs_are_computed(const struct repairs *repairs) {
    return has_kind(repairs, REPAIR_COMPUTED);
}

bool repairs_have(const struct repairs *repairs, uint32_t character) {
    for (size_t i = 0; i < repairs->count; i++)
        if (repairs->first[i].kind == REPAIR_BOTH && repairs->first[i].character == character)
            return true;
    return false;
}

bool repairs_have_placeholders(const struct repairs *repairs) {
    return has_kind(repairs, REPAIR_WRITE);
}

/* A repair with codes of its own says all of them. */
static bool replaces(const struct repair *repair, const struct mapping *mapping) {
    if (repair->kind == REPAIR_COMPUTED)
        return !mapping->is_named && !mapping->points.decimal && mapping->points.first > 0xffff;
    return repair->kind != REPAIR_WRITE && repair->bytes == mapping->bytes && repair->code == mapping->code;
}

bool repairs_drop(const struct repairs *repairs, const char *line, char escape) {
    struct mapping mapping;
    if (repairs->count == 0 || !charmap_mapping(line, escape, &mapping))
        return false;
    for (size_t i = 0; i < repairs->count; i++)
        if (replaces(&repairs->first[i], &mapping))
            return true;
    return false;
}

void repair_spell(char *line, uint32_t character, uint32_t code, unsigned bytes, char escape) {
    int length = sprintf(line, "<U%04X> ", (unsigned)character);
    for (unsigned i = 0; i < bytes; i++)
        length += sprintf(line + length, "%cx%02x", escape, (unsigned)(code >> 8 * (bytes - 1 - i) & 0xff));
}

bool repairs_append_placeholders(const struct repairs *repairs, char escape, struct charmap *charmap) {
    char line[64];
    for (size_t i = 0; i < repairs->count; i++) {
        const struct repair *repair = &repairs->first[i];
        if (repair->kind != REPAIR_WRITE)
            continue;
        repair_spell(line, repair->character, repair->placeholder, repair->bytes, escape);
        strcat(line, "\n");
        if (!buffer_append(&charmap->text, line, strlen(line)))
            return false;
        charmap->mappings++;
    }
    return true;
}

/* The bytes of a number, the highest first. */
static void put_code(unsigned char *out, uint32_t code, unsigned bytes) {
    for (unsigned i = 0; i < bytes; i++)
        out[i] = (unsigned char)(code >> 8 * (bytes - 1 - i));
}

static uint32_t get_code(const unsigned char *in, unsigned bytes) {
    uint32_t code = 0;
    for (unsigned i = 0; i < bytes; i++)
        code = code << 8 | in[i];
    return code;
}

/* Replaces what is at a place, if it is a placeholder. Returns how many bytes that were; else 1. */
static size_t settle_one(const struct repairs *repairs, unsigned char *out, size_t left) {
    for (size_t i = 0; i < repairs->count; i++) {
        const struct repair *repair = &repairs->first[i];
        if (repair->kind != REPAIR_WRITE || repair->bytes > left || get_code(out, repair->bytes) != repair->placeholder)
            continue;
        put_code(out, repair->code, repair->bytes);
        return repair->bytes;
    }
    return 1;
}

void repairs_settle(const struct repairs *repairs, char *out, size_t length) {
    unsigned char *bytes = (unsigned char *)out;
    bool begins[256] = {false};
    for (size_t i = 0; i < repairs->count; i++)
        if (repairs->first[i].kind == REPAIR_WRITE)
            begins[repairs->first[i].placeholder >> 8 * (repairs->first[i].bytes - 1) & 0xff] = true;
    /* No byte after the first one of a character begins a placeholder, so characters need not be told apart. */
    for (size_t at = 0; at < length;)
        at += begins[bytes[at]] ? settle_one(repairs, bytes + at, length - at) : 1;
}
