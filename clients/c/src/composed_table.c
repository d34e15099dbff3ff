/* The table of encodings that compose. */
#include "composed.h"

struct composition {
    uint16_t letter, mark, character;
};

struct decomposition {
    uint16_t character;
    uint16_t parts[COMPOSING_PARTS + 1];
};

#include "composing_table.h"

const struct composing *composing_of(const char *file) {
    for (size_t i = 0; i < sizeof COMPOSING / sizeof *COMPOSING; i++)
        if (strcmp(COMPOSING[i].file, file) == 0)
            return &COMPOSING[i];
    return NULL;
}

bool charmap_is_composed(const char *file) {
    const struct composing *by = composing_of(file);
    return composing_reads(by) && by->kind != COMPOSES_PAIRS;
}

static uint32_t key_of(uint32_t letter, uint32_t mark) {
    return letter << 16 | mark;
}

/* The first row whose key is not below another one. */
static const struct composition *find_composition(const struct composing *by, uint32_t key) {
    const struct composition *rows = COMPOSITIONS + by->first_read;
    size_t low = 0, high = by->reads;
    while (low < high) {
        size_t middle = low + (high - low) / 2;
        if (key_of(rows[middle].letter, rows[middle].mark) < key)
            low = middle + 1;
        else
            high = middle;
    }
    return low < by->reads ? &rows[low] : NULL;
}

uint32_t composing_join(const struct composing *by, uint32_t letter, uint32_t mark) {
    if (letter > 0xffff || mark > 0xffff)
        return 0;
    const struct composition *found = find_composition(by, key_of(letter, mark));
    return found && found->letter == letter && found->mark == mark ? found->character : 0;
}

bool composing_has_letter(const struct composing *by, uint32_t character) {
    const struct composition *found = character > 0xffff ? NULL : find_composition(by, key_of(character, 0));
    return found && found->letter == character;
}

const uint16_t *composing_split(const struct composing *by, uint32_t character) {
    const struct decomposition *rows = DECOMPOSITIONS + by->first_write;
    size_t low = 0, high = by->writes;
    while (low < high) {
        size_t middle = low + (high - low) / 2;
        if (rows[middle].character < character)
            low = middle + 1;
        else
            high = middle;
    }
    return low < by->writes && rows[low].character == character ? rows[low].parts : NULL;
}
