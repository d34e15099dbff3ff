/* The table of encodings with shifts, and the arithmetic of their codes. */
#include "shifted.h"

#include "shifted_table.h"

enum { SHIFTED_COUNT = sizeof SHIFTED_ENCODINGS / sizeof *SHIFTED_ENCODINGS };
_Static_assert(sizeof SHIFTED_SETS / sizeof *SHIFTED_SETS <= SETS, "all sets have a place");

/* Shift_JIS: rows 114 to 119, counted from 0, have IBM's characters, which rows 88 to 91 have too, and the row 12 of NEC's. */
enum { IBM_ROW = 114, NEC_ROW = 88, CELLS = 94, IBM_NUMERALS = 10, IBM_SIGNS = 21, IBM_SIGNS_END = 24, IBM_KANJI = 28, IBM_END = 388 };

struct encoding *encoding_shifted(size_t number) {
    return number < SHIFTED_COUNT ? &SHIFTED_NAMES[number] : NULL;
}

const struct shifted_encoding *shifted_encoding(size_t number) {
    return &SHIFTED_ENCODINGS[number];
}

const struct shifted_set *shifted_set(size_t number) {
    return &SHIFTED_SETS[number];
}

const struct shifted_sequence *shifted_sequences(const struct shifted_encoding *encoding) {
    return SHIFTED_SEQUENCES + encoding->first;
}

/* Puts a set in its place among those that are written. */
static void add_to_order(struct shifter *shifter, const struct shifted_sequence *sequence) {
    size_t at = shifter->order_count++;
    for (; at > 0 && shifter->ways[shifter->order[at - 1]]->order > sequence->order; at--)
        shifter->order[at] = shifter->order[at - 1];
    shifter->order[at] = sequence->set;
}

void shift_sequences(struct shifter *shifter) {
    for (size_t i = 0; i < shifter->encoding->count; i++) {
        const struct shifted_sequence *sequence = &shifter->sequences[i];
        if (!shifter->of[sequence->meaning])
            shifter->of[sequence->meaning] = sequence;
        if (sequence->meaning > G2 || (shifter->ways[sequence->set] && sequence->order == 0))
            continue;
        shifter->ways[sequence->set] = sequence;
        if (sequence->order > 0)
            add_to_order(shifter, sequence);
    }
}

struct shift_state shift_begin(const struct shifter *shifter, bool writes) {
    const struct shifted_sequence *header = shifter->of[HEADER], *first = shifter->of[G1];
    struct shift_state state = {.set = shifter->encoding->start, .g1 = NO_SET, .g2 = NO_SET, .header_due = header != NULL};
    if (header)
        state.g1 = header->set;
    if (first && !writes) {
        state.g1 = first->set;
        state.g2 = shifter->of[G2]->set;
    }
    return state;
}

/* A row and a cell, counted from 0, as Shift_JIS packs them. */
static size_t pack(unsigned row, unsigned cell, unsigned char *bytes) {
    unsigned lead = 0x81 + row / 2, trail = row % 2 ? 0x9f + cell : 0x40 + cell + (cell >= 0x3f);
    bytes[0] = (unsigned char)(lead > 0x9f ? lead + 0x40 : lead);
    bytes[1] = (unsigned char)trail;
    return 2;
}

/* Moves one of IBM's characters to its other place. False: it is no such character. */
static bool move_ibm(unsigned *row, unsigned *cell) {
    unsigned number = (*row - IBM_ROW) * CELLS + *cell, moved = 0;
    if (number < IBM_NUMERALS)
        moved = (NEC_ROW + 3) * CELLS + 80 + number;
    else if (number >= IBM_SIGNS && number < IBM_SIGNS_END)
        moved = (NEC_ROW + 3) * CELLS + 70 + number;
    else if (number >= IBM_KANJI && number < IBM_END)
        moved = NEC_ROW * CELLS + number - IBM_KANJI;
    *row = moved / CELLS;
    *cell = moved % CELLS;
    return moved > 0;
}

/* The same backwards. False: it is no row of a set. */
static bool unpack(const unsigned char *bytes, unsigned char *code) {
    unsigned lead = bytes[0] >= 0xe0 ? bytes[0] - 0xc1u : bytes[0] - 0x81u, trail = bytes[1];
    unsigned row = 2 * lead + (trail >= 0x9f), cell = trail >= 0x9f ? trail - 0x9f : trail - 0x40 - (trail > 0x7f);
    if (lead > 0x3b || (row >= CELLS && (row < IBM_ROW || !move_ibm(&row, &cell))))
        return false;
    code[0] = (unsigned char)(0x21 + row);
    code[1] = (unsigned char)(0x21 + cell);
    return true;
}

static bool is_graphic(unsigned char byte) {
    return byte >= 0x21 && byte < 0x7f;
}

size_t set_to_service(const struct shifted_set *set, const unsigned char *code, unsigned char *bytes) {
    if (set->bytes == 2 && (!is_graphic(code[0]) || !is_graphic(code[1])))
        return 0;
    if (set->how == ROWS)
        return pack(code[0] - 0x21u, code[1] - 0x21u, bytes);
    memcpy(bytes, set->before, set->before_length);
    for (size_t i = 0; i < set->bytes; i++)
        bytes[set->before_length + i] = set->how == HIGH ? code[i] | 0x80 : code[i];
    return (size_t)set->before_length + set->bytes;
}

bool set_from_service(const struct shifted_set *set, const unsigned char *bytes, size_t length, unsigned char *code) {
    if (length != (size_t)set->before_length + set->bytes || memcmp(bytes, set->before, set->before_length) != 0)
        return false;
    if (set->how == ROWS)
        return unpack(bytes, code);
    for (size_t i = 0; i < set->bytes; i++) {
        unsigned char byte = bytes[set->before_length + i];
        if ((byte >= 0x80) != (set->how == HIGH))
            return false;
        code[i] = byte & 0x7f;
    }
    return set->bytes == 1 ? code[0] >= 0x20 : is_graphic(code[0]) && is_graphic(code[1]);
}
