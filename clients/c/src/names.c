/* Looks names up as the C library does, and then by their letters and digits. */
#include "names.h"

#include <langinfo.h>
#include <stdint.h>
#include <string.h>
#include <strings.h>

#include "../iconvd.h"

struct name_row {
    uint16_t string; /* its place in NAME_STRINGS */
    uint16_t number : 15;
    uint16_t is_whatwg : 1; /* name_is_whatwg() */
};

/* The places of a charmap's file and of its name. */
struct charmap_row {
    uint16_t file;
    uint16_t name;
};

#include "names_table.h"

enum { NAME_COUNT = sizeof NAME_ROWS / sizeof *NAME_ROWS, LOOSE_COUNT = sizeof LOOSE_ROWS / sizeof *LOOSE_ROWS };

const char *builtin_name(enum builtin builtin) {
    static const char NAMES[BUILTIN_COUNT][12] = {
        "US-ASCII", "ISO-8859-1", "UTF-8", "UTF-16", "UTF-16BE", "UTF-16LE", "UTF-32", "UTF-32BE", "UTF-32LE", "UTF-7",
        "REPLACEMENT",
    };
    return NAMES[builtin];
}

size_t charmap_count(void) {
    return CHARMAP_COUNT;
}

const char *charmap_file(size_t number) {
    return NAME_STRINGS + CHARMAP_ROWS[number].file;
}

const char *charmap_name(size_t number) {
    return NAME_STRINGS + CHARMAP_ROWS[number].name;
}

const char *iconvd_name(size_t number) {
    return number < NAME_COUNT ? NAME_STRINGS + NAME_ROWS[number].string : NULL;
}

static bool is_digit(char c) {
    return c >= '0' && c <= '9';
}

/* What decides of a name that no row has exactly: its letters and digits, with `-` where two digits are apart. ISO-IR-9-1 is not
   ISO-IR-91. tables.py has the same. */
static void loosen(char loose[NAME_ROOM], const char *name) {
    size_t length = 0;
    bool apart = false;
    for (; *name; name++) {
        bool counts = is_digit(*name) || (*name >= 'A' && *name <= 'Z');
        if (counts && apart && length > 0 && is_digit(loose[length - 1]) && is_digit(*name))
            loose[length++] = '-';
        if (counts)
            loose[length++] = *name;
        apart = !counts;
    }
    loose[length] = 0;
}

/* How a name compares to that of a row. */
typedef int comparing(const char *name, size_t row);

static int compare_exactly(const char *name, size_t row) {
    return strcmp(name, NAME_STRINGS + NAME_ROWS[row].string);
}

static int compare_loosely(const char *loose, size_t row) {
    char other[NAME_ROOM];
    loosen(other, NAME_STRINGS + NAME_ROWS[LOOSE_ROWS[row]].string);
    return strcmp(loose, other);
}

/* The place of a name among `count` rows; `count` if it is none of them. */
static size_t search(const char *name, size_t count, comparing *compare) {
    size_t low = 0, high = count;
    while (low < high) {
        size_t middle = (low + high) / 2;
        int order = compare(name, middle);
        if (order == 0)
            return middle;
        if (order > 0)
            low = middle + 1;
        else
            high = middle;
    }
    return count;
}

/* The row of a name; NULL for none. */
static const struct name_row *find_row(const char *name) {
    char loose[NAME_ROOM];
    size_t row = search(name, NAME_COUNT, compare_exactly);
    if (row < NAME_COUNT)
        return &NAME_ROWS[row];
    loosen(loose, name);
    row = search(loose, LOOSE_COUNT, compare_loosely);
    return row < LOOSE_COUNT ? &NAME_ROWS[LOOSE_ROWS[row]] : NULL;
}

int name_find(const char *name) {
    const struct name_row *row = find_row(name);
    return row ? row->number : -1;
}

/* Letters and digits of ASCII whatever the locale is. */
static bool is_kept(char c) {
    return (c >= 'A' && c <= 'Z') || (c >= '0' && c <= '9') || (c != 0 && strchr("_-.,:", c));
}

static char upper(char c) {
    return c >= 'a' && c <= 'z' ? (char)(c - 'a' + 'A') : c;
}

/* Drops the separators and blanks at the end of a name. */
static void trim(char *text) {
    size_t length = strlen(text);
    while (length > 0 && (strchr(" \t\n\v\f\r,/", text[length - 1])))
        text[--length] = 0;
}

/* Where the last suffix of a name begins: at its last slash or comma, if there are two slashes at least. */
static char *last_suffix(char *text) {
    int slashes = 0;
    char *suffix = NULL;
    for (char *at = text; *at; at++) {
        slashes += *at == '/';
        if (*at == '/' || *at == ',')
            suffix = at;
    }
    return slashes < 2 ? NULL : suffix;
}

/* Takes the suffixes off, the last one first. Those that are not known are dropped without a word, as the C library does. */
static void take_suffixes(char *text, struct parsed_name *parsed) {
    trim(text);
    for (char *suffix; (suffix = last_suffix(text)); trim(text)) {
        parsed->translit |= strcasecmp(suffix + 1, "TRANSLIT") == 0;
        parsed->ignore |= strcasecmp(suffix + 1, "IGNORE") == 0;
        *suffix = 0;
    }
}

/* Writes what iconv_open() compares: upper case, and two slashes within the name at most. False: it is too long. */
static bool normalize(char name[NAME_ROOM], const char *text) {
    size_t length = 0;
    int slashes = 0;
    for (const char *at = text; *at && slashes < 3; at++) {
        slashes += *at == '/';
        char c = upper(*at);
        if (!is_kept(c) && (c != '/' || slashes == 3))
            continue;
        if (length == NAME_ROOM - 1)
            return false;
        name[length++] = c;
    }
    name[length] = 0;
    trim(name);
    return true;
}

bool name_is_whatwg(const char *written) {
    struct parsed_name parsed;
    const struct name_row *row = name_parse(&parsed, written) ? find_row(parsed.name) : NULL;
    return row && row->is_whatwg;
}

bool name_parse(struct parsed_name *parsed, const char *written) {
    *parsed = (struct parsed_name){.translit = false};
    char text[2 * NAME_ROOM];
    if (strlen(written) >= sizeof text)
        return false;
    strcpy(text, written);
    take_suffixes(text, parsed);
    if (!normalize(parsed->name, text))
        return false;
    return parsed->name[0] || normalize(parsed->name, nl_langinfo(CODESET));
}
