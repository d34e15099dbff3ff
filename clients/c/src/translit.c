/* Finds transliterations. */
#include "translit.h"

struct translit_row {
    uint32_t character;
    uint32_t string; /* its place in TRANSLIT_STRINGS */
};

#include "translit_table.h"

enum { ROWS = sizeof TRANSLIT_ROWS / sizeof *TRANSLIT_ROWS };

size_t translit_count(void) {
    return ROWS;
}

size_t translit_number(uint32_t character) {
    size_t low = 0, high = ROWS;
    while (low < high) {
        size_t middle = (low + high) / 2;
        if (TRANSLIT_ROWS[middle].character == character)
            return middle;
        if (TRANSLIT_ROWS[middle].character < character)
            low = middle + 1;
        else
            high = middle;
    }
    return ROWS;
}

const char *translit_candidates(size_t number) {
    return number < ROWS ? TRANSLIT_STRINGS + TRANSLIT_ROWS[number].string : "";
}
