/* Reads charmap files, and mends them. */
#include "charmaps.h"

#include <stdio.h>

#include "gz_lines.h"
#include "repairs.h"

/* A file that is being read. */
struct reading {
    struct charmap *charmap;
    struct charmap *light;
    struct repairs repairs;
    bool is_composed;   /* the codes of several bytes are left out */
    struct buffer last; /* the mappings that are read and never written */
    struct buffer light_last;
    char escape;
    char comment;
    bool inside; /* behind the line CHARMAP */
};

/* Words and blanks are short: loops are faster here than strspn() and strcspn(), and a large charmap has 90,000 lines. */
static const char *skip_blanks(const char *at) {
    while (*at == ' ' || *at == '\t')
        at++;
    return at;
}

static bool ends_word(char c) {
    return c == ' ' || c == '\t' || c == '\r' || c == '\n' || c == 0;
}

static size_t word_length(const char *at) {
    size_t length = 0;
    while (!ends_word(at[length]))
        length++;
    return length;
}

/* Where the name at the front of a line ends; the line's end where nothing ends it. */
static const char *name_end(const char *at) {
    while (*at != '>' && *at != '\n' && *at)
        at++;
    return at;
}

/* Hexadecimal, or decimal digits up to `>`. False where there is another byte before it, none, or too many. */
static bool read_digits(const char **at, unsigned base, uint32_t *value) {
    uint32_t number = 0;
    int digits = 0;
    for (; **at != '>'; (*at)++, digits++) {
        char c = **at;
        uint32_t digit = 99;
        if (c >= '0' && c <= '9')
            digit = (uint32_t)(c - '0');
        else if ((c >= 'A' && c <= 'F') || (c >= 'a' && c <= 'f'))
            digit = (uint32_t)((c | 32) - 'a' + 10);
        if (digit >= base || digits == 8)
            return false;
        number = number * base + digit;
    }
    (*at)++;
    *value = number;
    return digits > 0;
}

bool charmap_points(const char *line, struct code_points *points) {
    if (line[0] != '<' || line[1] != 'U')
        return false;
    const char *end = name_end(line);
    points->decimal = end[0] == '>' && end[1] == '.' && strncmp(end, ">...<U", 6) == 0;
    unsigned base = points->decimal ? 10 : 16;
    const char *at = line + 2;
    if (!read_digits(&at, base, &points->first))
        return false;
    points->last = points->first;
    if (at[0] != '.')
        return true;
    at += points->decimal ? 3 : 2;
    if (at[0] != '<' || at[1] != 'U')
        return false;
    at += 2;
    return read_digits(&at, base, &points->last) && points->last >= points->first;
}

/* <escape_char> and <comment_char> hold from their line on. */
static void read_declaration(struct reading *reading, const char *line) {
    size_t length = word_length(line);
    char value = *skip_blanks(line + length);
    if (length == 13 && strncmp(line, "<escape_char>", 13) == 0)
        reading->escape = value;
    if (length == 14 && strncmp(line, "<comment_char>", 14) == 0)
        reading->comment = value;
}

/* Copies the word at the front of a line, and counts how often it has a character. Returns its length. */
static size_t copy_word(char *out, const char *at, char counted, unsigned *count) {
    size_t length = 0;
    for (; !ends_word(at[length]); length++) {
        out[length] = at[length];
        *count += at[length] == counted;
    }
    return length;
}

/* How many mappings the line of a name or range has. */
static uint32_t count_mappings(const char *line, const char *name_end) {
    struct code_points points;
    return *name_end == '.' && charmap_points(line, &points) ? points.last - points.first + 1 : 1;
}

/* Counts the mappings of a line and the bytes of their encodings. */
static void count(struct charmap *charmap, uint32_t mappings, unsigned bytes) {
    charmap->most_bytes = bytes > charmap->most_bytes ? bytes : charmap->most_bytes;
    charmap->least_bytes = bytes < charmap->least_bytes ? bytes : charmap->least_bytes;
    charmap->mappings += mappings;
}

/* Keeps of a mapping's line the name and the encoding, and also for the light charmap if it is for that. False: out of memory. */
static bool keep_mapping(struct reading *reading, const char *line, struct buffer *to, struct buffer *light) {
    const char *end = name_end(line);
    unsigned bytes = 0, others = 0;
    if (!buffer_reserve(to, GZ_LINE + 2))
        return false;
    char *out = to->bytes + to->length;
    size_t name = copy_word(out, line, 0, &others);
    out[name] = ' ';
    size_t length = copy_word(out + name + 1, skip_blanks(line + name), reading->escape, &bytes);
    out[name + 1 + length] = '\n';
    if (*end != '>' || end[1] == '<' || length == 0)
        return true;
    to->length += name + length + 2;
    uint32_t mappings = count_mappings(line, end + 1);
    count(reading->charmap, mappings, bytes);
    if (bytes > LIGHT_BYTES)
        return true;
    count(reading->light, mappings, bytes);
    return buffer_append(light, out, name + length + 2);
}

/* Begins with the mappings of repairs: of two codes of a character the first is written. False: out of memory. */
static bool begin_mappings(struct reading *reading) {
    char line[80];
    reading->inside = true;
    for (size_t i = 0; i < reading->repairs.count; i++) {
        const struct repair *repair = &reading->repairs.first[i];
        if (repair->kind != REPAIR_BOTH && repair->kind != REPAIR_READ)
            continue;
        bool first = repair->kind == REPAIR_BOTH;
        repair_spell(line, repair->character, repair->code, repair->bytes, reading->escape);
        if (!keep_mapping(reading, line, first ? &reading->charmap->text : &reading->last,
                          first ? &reading->light->text : &reading->light_last))
            return false;
    }
    return true;
}

static bool is_dropped(const struct reading *reading, const char *line) {
    struct mapping mapping;
    if (reading->is_composed && charmap_mapping(line, reading->escape, &mapping) && mapping.bytes > 1)
        return true;
    return repairs_drop(&reading->repairs, line, reading->escape);
}

/* False: out of memory. */
static bool read_mapping(struct reading *reading, const char *line) {
    static const char ONE_WAY[] = "%IRREVERSIBLE%";
    bool is_one_way = strncmp(line, ONE_WAY, sizeof ONE_WAY - 1) == 0;
    const char *mapping = is_one_way ? line + sizeof ONE_WAY - 1 : line;
    if (*mapping != '<' || (!is_one_way && *line == reading->comment) || is_dropped(reading, mapping))
        return true;
    if (is_one_way)
        return keep_mapping(reading, mapping, &reading->last, &reading->light_last);
    return keep_mapping(reading, mapping, &reading->charmap->text, &reading->light->text);
}

/* False: out of memory. */
static bool read_line(struct reading *reading, const char *line) {
    if (!reading->inside && strncmp(line, "CHARMAP", 7) == 0)
        return begin_mappings(reading);
    /* A mapping where the header should be: the file has no line CHARMAP. */
    struct code_points points;
    if (!reading->inside && !charmap_points(line, &points)) {
        read_declaration(reading, line);
        return true;
    }
    if (!reading->inside && !begin_mappings(reading))
        return false;
    return read_mapping(reading, skip_blanks(line));
}

/* Reads lines up to END CHARMAP. False: out of memory. */
static bool read_lines(struct reading *reading, struct gz_lines *lines) {
    const char *line;
    while ((line = gz_lines_next(lines))) {
        if (*line == 'E' && reading->inside && strncmp(line, "END CHARMAP", 11) == 0)
            return true;
        if (!read_line(reading, line))
            return false;
    }
    return true;
}

/* Puts the header in front and the end behind. False: out of memory. */
static bool compose(const struct reading *reading, struct charmap *charmap, const struct buffer *last, const char *name) {
    char header[400];
    int length = snprintf(header, sizeof header,
                          "<code_set_name> %s\n<escape_char> %c\n<comment_char> %c\n<mb_cur_min> %u\n<mb_cur_max> %u\nCHARMAP\n", name,
                          reading->escape, reading->comment, charmap->least_bytes, charmap->most_bytes);
    return buffer_put_in_front(&charmap->text, header, (size_t)length) &&
           buffer_append(&charmap->text, last->bytes, last->length) && buffer_append(&charmap->text, "END CHARMAP\n", 12);
}

static iconvd_status open_file(struct gz_lines *lines, const char *directory, const char *file) {
    char path[600];
    bool there = false;
    int length = snprintf(path, sizeof path, "%s/%s.gz", directory, file);
    if (length > 0 && (size_t)length < sizeof path && gz_lines_begin(lines, path, &there))
        return ICONVD_OK;
    return there ? ICONVD_ENOMEM : ICONVD_UNSUPPORTED;
}

/* The charmap with placeholders, if the file has some. False: out of memory. */
static bool begin_written(struct reading *reading, struct charmap *written) {
    if (!repairs_have_placeholders(&reading->repairs))
        return true;
    struct buffer text = {.bytes = NULL};
    *written = *reading->charmap;
    written->text = text;
    const struct buffer *mappings = &reading->charmap->text;
    return buffer_append(&written->text, mappings->bytes, mappings->length) &&
           repairs_append_placeholders(&reading->repairs, reading->escape, written);
}

/* All charmaps from what was read. False: out of memory. */
static bool compose_all(struct reading *reading, struct charmap_set *set, const char *name) {
    char other_name[100];
    if (!begin_written(reading, &set->written) || !compose(reading, &set->whole, &reading->last, name))
        return false;
    snprintf(other_name, sizeof other_name, "%.80s-written", name);
    if (set->written.text.bytes && !compose(reading, &set->written, &reading->last, other_name))
        return false;
    snprintf(other_name, sizeof other_name, "%.80s-light", name);
    if (set->whole.mappings >= LARGE_CHARMAP && set->light.mappings > 0)
        return compose(reading, &set->light, &reading->light_last, other_name);
    buffer_free(&set->light.text);
    return true;
}

void charmap_set_free(struct charmap_set *set) {
    buffer_free(&set->whole.text);
    buffer_free(&set->light.text);
    buffer_free(&set->written.text);
}

iconvd_status charmap_read(struct charmap_set *set, const char *directory, const char *file, const char *charmap, const char *name) {
    static const struct charmap EMPTY = {.least_bytes = 8, .most_bytes = 1};
    *set = (struct charmap_set){.whole = EMPTY, .light = EMPTY, .written = EMPTY};
    struct reading reading = {.charmap = &set->whole,
                              .light = &set->light,
                              .repairs = repairs_of(charmap),
                              .is_composed = charmap_is_composed(charmap),
                              .escape = '\\',
                              .comment = '#'};
    struct gz_lines lines;
    iconvd_status status = open_file(&lines, directory, file);
    if (status != ICONVD_OK)
        return status;
    bool memory = read_lines(&reading, &lines);
    gz_lines_end(&lines);
    bool empty = set->whole.mappings == 0;
    memory = memory && compose_all(&reading, set, name);
    buffer_free(&reading.last);
    buffer_free(&reading.light_last);
    if (memory && !empty)
        return ICONVD_OK;
    charmap_set_free(set);
    return memory ? ICONVD_UNSUPPORTED : ICONVD_ENOMEM;
}
