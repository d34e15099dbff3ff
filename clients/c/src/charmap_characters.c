/* Which characters the text of a charmap has. */
#include "charmaps.h"

/* The code point of a number of a range: a decimal one is the name whose digits are read as hexadecimal. */
static uint32_t point_of(const struct code_points *points, uint32_t number) {
    uint32_t point = 0;
    for (unsigned shift = 0; points->decimal && number > 0; shift += 4, number /= 10)
        point |= number % 10 << shift;
    return points->decimal ? point : number;
}

/* Sets the bits of a name or range. Values past 10FFFF are passed over: the service refuses such a text. */
static void add_points(unsigned char *bits, const struct code_points *points) {
    for (uint32_t number = points->first; number <= points->last; number++) {
        uint32_t point = point_of(points, number);
        if (point >= 0x110000)
            return;
        bits[point / 8] |= (unsigned char)(1u << point % 8);
    }
}

unsigned char *charmap_repertoire(const char *text, size_t length, bool *symbols) {
    unsigned char *bits = calloc(0x110000 / 8, 1);
    const char *end = text + length;
    bool inside = false;
    while (bits && text < end) {
        struct code_points points;
        const char *next = memchr(text, '\n', (size_t)(end - text));
        const char *line = text;
        text = next ? next + 1 : end;
        if (inside && strncmp(line, "END", 3) == 0)
            break;
        if (!next || (!inside && strncmp(line, "CHARMAP", 7) != 0))
            continue;
        inside = true;
        line += strspn(line, " \t");
        if (charmap_points(line, &points))
            add_points(bits, &points);
        else
            *symbols |= *line == '<';
    }
    return bits;
}
