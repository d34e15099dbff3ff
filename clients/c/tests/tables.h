/* The encodings that the test of tables goes through. */
#ifndef ICONVD_TABLES_H
#define ICONVD_TABLES_H

#include <stdbool.h>
#include <string.h>

#include "libraries.h"

static struct library ours, theirs;

/* A charmap's file, with a name by which both libraries open it. */
struct row {
    char name[128];
    char file[128];
};

static char *rows_text, *rows_at;

static inline char *file_text(const char *path) {
    FILE *file = fopen(path, "rb");
    if (!file) {
        fprintf(stderr, "%s cannot be read\n", path);
        exit(2);
    }
    char *text = calloc(1, 1 << 20);
    size_t length = text ? fread(text, 1, (1 << 20) - 1, file) : 0;
    fclose(file);
    if (length == 0)
        exit(2);
    return text;
}

static inline void rows_begin(const char *names) {
    rows_text = rows_at = file_text(names);
}

static inline bool opens(const struct library *library, const char *name) {
    iconv_t cd = library->open("UTF-8", name);
    if (cd == (iconv_t)-1)
        return false;
    library->close(cd);
    return true;
}

/* Whether a row above this one is of the same file, and the C library has its name. */
static inline bool is_repeated(const char *file, const char *end) {
    char wanted_file[140];
    snprintf(wanted_file, sizeof wanted_file, "\tcharmap\t%s\n", file);
    for (char *at = rows_text, *found; (found = strstr(at, wanted_file)) && found < end; at = found + 1) {
        char name[128], *begin = found;
        while (begin > rows_text && begin[-1] != '\n')
            begin--;
        snprintf(name, sizeof name, "%.*s", (int)(found - begin), begin);
        if (opens(&theirs, name))
            return true;
    }
    return false;
}

/* The next charmap, each once. */
static inline bool rows_next(struct row *row) {
    while (*rows_at) {
        char *line = rows_at, kind[20];
        rows_at = strchr(line, '\n') + 1;
        if (sscanf(line, "%127s %19s %127s", row->name, kind, row->file) == 3 && strcmp(kind, "charmap") == 0 &&
            opens(&theirs, row->name) && !is_repeated(row->file, line))
            return true;
    }
    free(rows_text);
    return false;
}

/* The conversions of one encoding in both libraries, between it and UTF-32. */
struct sides {
    const char *file;
    iconv_t our_reader, their_reader;
    iconv_t our_writer, their_writer;
    char feed[8]; /* a line feed */
    size_t feed_length;
};

static inline bool sides_open(struct sides *sides, const struct row *row) {
    char ignoring[140], *in = (char *)(uintptr_t)"\n", *out = sides->feed;
    size_t in_left = 1, out_left = sizeof sides->feed;
    snprintf(ignoring, sizeof ignoring, "%s//IGNORE", row->name);
    sides->file = row->file;
    sides->our_reader = ours.open("UTF-32LE", row->name);
    sides->their_reader = theirs.open("UTF-32LE", row->name);
    sides->our_writer = ours.open(ignoring, "UTF-32LE");
    sides->their_writer = theirs.open(row->name, "UTF-32LE");
    iconv_t feed = theirs.open(row->name, "ASCII");
    theirs.convert(feed, &in, &in_left, &out, &out_left);
    theirs.close(feed);
    sides->feed_length = sizeof sides->feed - out_left;
    return check(sides->our_reader != (iconv_t)-1 && sides->our_writer != (iconv_t)-1, "%s is not opened", row->name);
}

static inline void sides_close(struct sides *sides) {
    ours.close(sides->our_reader);
    ours.close(sides->our_writer);
    theirs.close(sides->their_reader);
    theirs.close(sides->their_writer);
}

/* Whether the list of exceptions has an encoding: that of a file, or one that repairs make from a file, whose name is after a slash. */
static inline bool is_exception(const char *target) {
    static char *exceptions;
    const char *slash = strchr(target, '/'), *file = slash ? slash + 1 : target;
    if (!exceptions)
        exceptions = file_text(wanted("EXCEPTIONS"));
    size_t length = strlen(file);
    for (char *at = exceptions; (at = strstr(at, file)); at++)
        if ((at == exceptions || at[-1] == '\n') && at[length] == '\t')
            return true;
    return false;
}

#endif
