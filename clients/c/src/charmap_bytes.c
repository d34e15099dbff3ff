/* Reads the mappings of a charmap's text, with their bytes. */
#include "charmaps.h"

/* The value of a digit; 99 for what is none. */
static unsigned digit_of(char c) {
    if (c >= '0' && c <= '9')
        return (unsigned)(c - '0');
    if ((c >= 'A' && c <= 'F') || (c >= 'a' && c <= 'f'))
        return (unsigned)((c | 32) - 'a') + 10;
    return 99;
}

/* Reads an encoding as one number, the highest byte first, and says how many bytes it has. */
static unsigned read_encoding(const char *at, char escape, uint64_t *number) {
    unsigned bytes = 0;
    *number = 0;
    while (*at == escape && bytes < 8) {
        unsigned base = at[1] == 'x' ? 16 : at[1] == 'd' ? 10 : 8, value = 0;
        at += base == 8 ? 1 : 2;
        for (; digit_of(*at) < base; at++)
            value = value * base + digit_of(*at);
        *number = *number << 8 | (value & 0xff);
        bytes++;
    }
    return bytes;
}

/* The name or range of a line, whose escape characters mean nothing in it. */
static bool read_points(const char *line, size_t length, char escape, struct code_points *points) {
    char plain[80];
    size_t kept = 0;
    if (!memchr(line, escape, length))
        return charmap_points(line, points);
    for (size_t i = 0; i < length && kept < sizeof plain - 1; i++)
        if (line[i] != escape)
            plain[kept++] = line[i];
    plain[kept] = 0;
    return charmap_points(plain, points);
}

bool charmap_mapping(const char *line, char escape, struct mapping *mapping) {
    line += strspn(line, " \t");
    if (*line != '<')
        return false;
    size_t name = strcspn(line, " \t\n");
    mapping->is_named = !read_points(line, name, escape, &mapping->points);
    mapping->count = mapping->is_named ? 1 : (uint64_t)mapping->points.last - mapping->points.first + 1;
    line += name;
    mapping->bytes = read_encoding(line + strspn(line, " \t"), escape, &mapping->code);
    return mapping->bytes > 0;
}

struct charmap_lines charmap_lines(const char *text, size_t length) {
    return (struct charmap_lines){.at = text, .end = text + length, .escape = '\\'};
}

bool charmap_next(struct charmap_lines *lines, struct mapping *mapping) {
    while (lines->at < lines->end) {
        const char *line = lines->at;
        const char *next = memchr(line, '\n', (size_t)(lines->end - line));
        lines->at = next ? next + 1 : lines->end;
        if (!next || (lines->inside && strncmp(line, "END", 3) == 0)) {
            lines->at = lines->end;
            return false;
        }
        if (lines->inside && charmap_mapping(line, lines->escape, mapping))
            return true;
        if (!lines->inside && strncmp(line, "<escape_char>", 13) == 0)
            lines->escape = line[13 + strspn(line + 13, " \t")];
        lines->inside |= strncmp(line, "CHARMAP", 7) == 0;
    }
    return false;
}
