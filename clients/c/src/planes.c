/* The codes of GB18030 above U+FFFF. */
#include "planes.h"

/* The numbers of the first code and of the last. */
enum { DIGITS = 10, ROWS = 126, FIRST = 0x10000, LAST = 0x10ffff };

static bool is_digit(unsigned char byte) {
    return byte >= 0x30 && byte <= 0x39;
}

static bool is_row(unsigned char byte) {
    return byte >= 0x81 && byte <= 0xfe;
}

bool plane_read(const unsigned char *in, uint32_t *character) {
    if (in[0] < 0x90 || in[0] > 0xe3 || !is_digit(in[1]) || !is_row(in[2]) || !is_digit(in[3]))
        return false;
    uint32_t number = in[0] - 0x90u;
    number = number * DIGITS + in[1] - 0x30u;
    number = number * ROWS + in[2] - 0x81u;
    number = number * DIGITS + in[3] - 0x30u;
    *character = FIRST + number;
    return *character <= LAST;
}

void plane_write(unsigned char out[PLANE_CODE], uint32_t character) {
    uint32_t number = character - FIRST;
    out[3] = (unsigned char)(0x30 + number % DIGITS);
    number /= DIGITS;
    out[2] = (unsigned char)(0x81 + number % ROWS);
    number /= ROWS;
    out[1] = (unsigned char)(0x30 + number % DIGITS);
    out[0] = (unsigned char)(0x90 + number / DIGITS);
}

bool plane_front(const unsigned char *in, size_t left, enum front *front) {
    unsigned char least[PLANE_CODE] = {0, 0x30, 0x81, 0x30};
    uint32_t character;
    if (left < 2)
        return false;
    /* The least code that begins so. */
    for (size_t i = 0; i < PLANE_CODE && i < left; i++)
        least[i] = in[i];
    if (!plane_read(least, &character))
        return false;
    *front = left < PLANE_CODE ? CUT_OFF : WELL_FORMED;
    return true;
}
