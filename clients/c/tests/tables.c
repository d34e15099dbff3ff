/* Compares what each charmap's encoding has with the C library's, character by character and byte by byte.
 *
 *   tables [PART PARTS]            checks the encodings of a part, and counts those that are equal
 *   tables list [NAME ..]          prints each difference of these encodings, or of all
 *
 * Each character is written by both libraries, and each sequence of up to two bytes is read by both; of EUC-TW and GB18030 also those of four
 * bytes. NAMES is the table of names, EXCEPTIONS the list of encodings that differ, each with its reason. */
#include <errno.h>

#include "tables.h"

enum { STOPS = 70000, OUT = 1 << 20, WIDE = 0x110000 };

static bool lists;

/* A text that has gone through one library: what it wrote, and where it stopped, a byte before it went on. */
struct trace {
    size_t written;
    size_t count;
    uint32_t stops[STOPS];
    char bytes[OUT];
};

static struct trace our_trace, their_trace;

static void follow(const struct library *library, iconv_t cd, const char *text, size_t length, struct trace *trace) {
    char *in = (char *)(uintptr_t)text, *out = trace->bytes;
    size_t in_left = length, out_left = OUT;
    trace->count = 0;
    library->convert(cd, NULL, NULL, NULL, NULL);
    while (in_left > 0 && library->convert(cd, &in, &in_left, &out, &out_left) == (size_t)-1 && trace->count < STOPS) {
        trace->stops[trace->count++] = (uint32_t)(length - in_left);
        /* The C library may have used what it says is no character. */
        size_t step = in_left > 0;
        in += step;
        in_left -= step;
        library->convert(cd, NULL, NULL, &out, &out_left);
    }
    library->convert(cd, NULL, NULL, &out, &out_left);
    trace->written = OUT - out_left;
}

static bool reads_alike(const struct sides *sides, const char *text, size_t length) {
    follow(&ours, sides->our_reader, text, length, &our_trace);
    follow(&theirs, sides->their_reader, text, length, &their_trace);
    return our_trace.written == their_trace.written && our_trace.count == their_trace.count &&
           memcmp(our_trace.bytes, their_trace.bytes, our_trace.written) == 0 &&
           memcmp(our_trace.stops, their_trace.stops, our_trace.count * sizeof *our_trace.stops) == 0;
}

static void print_text(const struct trace *trace) {
    for (size_t at = 0; at + 4 <= trace->written; at += 4) {
        uint32_t character;
        memcpy(&character, trace->bytes + at, 4);
        printf("%sU+%04X", at ? " " : "", character);
    }
    if (trace->written == 0)
        printf("-");
}

static void print_bytes(const char *bytes, size_t length) {
    for (size_t i = 0; i < length; i++)
        printf("%02x", (unsigned char)bytes[i]);
    if (length == 0)
        printf("-");
}

static void list_reading(const struct sides *sides, const char *code, size_t length) {
    if (reads_alike(sides, code, length))
        return;
    printf("%s\tread\t", sides->file);
    print_bytes(code, length);
    printf("\tglibc ");
    print_text(&their_trace);
    printf("\tours ");
    print_text(&our_trace);
    printf("\n");
}

/* Reads all codes that a byte begins, each of `length` bytes and with a line feed after it. False: they are read in different ways. */
static bool compare_codes(const struct sides *sides, unsigned lead, size_t length) {
    char text[256 * 8], *at = text;
    for (unsigned trail = 0; trail < 256; trail++) {
        if (length == 2)
            *at++ = (char)lead;
        *at++ = (char)trail;
        memcpy(at, sides->feed, sides->feed_length);
        at += sides->feed_length;
    }
    if (reads_alike(sides, text, (size_t)(at - text)))
        return true;
    for (unsigned trail = 0; lists && trail < 256; trail++) {
        char code[2] = {(char)lead, (char)trail};
        list_reading(sides, length == 1 ? code + 1 : code, length);
    }
    return false;
}

/* Whether two bytes are the beginning of characters for the C library. */
static bool begins_longer(const struct sides *sides, const char *code) {
    char bytes[8], *in = (char *)(uintptr_t)code, *out = bytes;
    size_t in_left = 2, out_left = sizeof bytes;
    theirs.convert(sides->their_reader, NULL, NULL, NULL, NULL);
    return theirs.convert(sides->their_reader, &in, &in_left, &out, &out_left) == (size_t)-1 && errno == EINVAL && in_left == 2;
}

/* Codes of four bytes, each with a line feed after it. */
struct fours {
    size_t length;
    char text[256 * 16 * 12];
};

/* Adds the codes that three bytes begin: of all last bytes, or of digits. */
static void add_fours(const struct sides *sides, struct fours *fours, const char *three, bool is_digit) {
    for (unsigned last = is_digit ? 0x30 : 0; last <= (is_digit ? 0x39 : 0xff); last++) {
        char *at = fours->text + fours->length;
        memcpy(at, three, 3);
        at[3] = (char)last;
        memcpy(at + 4, sides->feed, sides->feed_length);
        fours->length += 4 + sides->feed_length;
    }
}

/* Reads them, and begins anew. */
static bool compare_fours(const struct sides *sides, struct fours *fours) {
    bool same = reads_alike(sides, fours->text, fours->length);
    for (size_t at = 0; !same && lists && at < fours->length; at += 4 + sides->feed_length)
        list_reading(sides, fours->text + at, 4);
    fours->length = 0;
    return same;
}

/* Codes of four bytes that two begin. */
static bool compare_all_fours(const struct sides *sides, struct fours *fours, unsigned two) {
    bool same = true;
    for (unsigned third = 0; third < 256; third++) {
        char code[3] = {(char)(two >> 8), (char)two, (char)third};
        add_fours(sides, fours, code, false);
        same &= compare_fours(sides, fours);
    }
    return same;
}

/* The same, but only those that GB18030 may have. Where it has none a few are enough. */
static bool compare_digits(const struct sides *sides, struct fours *fours, unsigned two) {
    char code[4] = {(char)(two >> 8), (char)two, (char)0x81, 0x30};
    follow(&theirs, sides->their_reader, code, sizeof code, &their_trace);
    for (unsigned third = 0x81; third < 0xff; third += their_trace.count > 0 ? 0x7d : 1) {
        code[2] = (char)third;
        add_fours(sides, fours, code, true);
    }
    return compare_fours(sides, fours);
}

/* Codes of four bytes: of EUC-TW all, of GB18030 those that end in a digit, and all that the first three bytes begin. */
static bool compare_longer(const struct sides *sides) {
    static struct fours fours;
    bool same = true, has_digits = strcmp(sides->file, "GB18030") == 0;
    if (has_digits) {
        add_fours(sides, &fours, "\x81\x30\x81", false);
        same = compare_fours(sides, &fours);
    }
    for (unsigned two = 0; two < 0x10000; two++) {
        char code[2] = {(char)(two >> 8), (char)two};
        if (begins_longer(sides, code))
            same &= has_digits ? compare_digits(sides, &fours, two) : compare_all_fours(sides, &fours, two);
    }
    return same;
}

static bool compare_readings(const struct sides *sides) {
    bool same = compare_codes(sides, 0, 1);
    for (unsigned lead = 0; lead < 256; lead++)
        same &= compare_codes(sides, lead, 2);
    if (strcmp(sides->file, "GB18030") == 0 || strcmp(sides->file, "EUC-TW") == 0)
        same &= compare_longer(sides);
    return same;
}

/* What the C library writes for each character, one after another, with where each begins. */
static uint32_t places[WIDE + 1];
static char written[WIDE * 4];

static void write_theirs(const struct sides *sides) {
    size_t at = 0;
    for (uint32_t character = 0; character < WIDE; character++) {
        char *in = (char *)&character, *out = written + at;
        size_t in_left = 4, out_left = 16;
        places[character] = (uint32_t)at;
        if (character >= 0xd800 && character < 0xe000)
            continue;
        if (theirs.convert(sides->their_writer, &in, &in_left, &out, &out_left) == 0 &&
            theirs.convert(sides->their_writer, NULL, NULL, &out, &out_left) == 0)
            at = (size_t)(out - written);
        else
            theirs.convert(sides->their_writer, NULL, NULL, NULL, NULL);
    }
    places[WIDE] = (uint32_t)at;
}

/* Writes characters by our library, which leaves out what the encoding lacks. False: they are written in another way. */
static bool write_ours(const struct sides *sides, uint32_t first, uint32_t end, size_t *length) {
    static uint32_t text[WIDE];
    size_t count = 0;
    for (uint32_t character = first; character < end; character++)
        if (character < 0xd800 || character >= 0xe000)
            text[count++] = character;
    char *in = (char *)text, *out = our_trace.bytes;
    size_t in_left = count * 4, out_left = OUT;
    size_t wanted_length = places[end] - places[first];
    ours.convert(sides->our_writer, &in, &in_left, &out, &out_left);
    ours.convert(sides->our_writer, NULL, NULL, &out, &out_left);
    *length = OUT - out_left;
    return *length == wanted_length && memcmp(our_trace.bytes, written + places[first], wanted_length) == 0;
}

/* Halves a run of characters until it is equal, or is one character. */
static bool compare_writings(const struct sides *sides, uint32_t first, uint32_t end) {
    size_t length;
    if (write_ours(sides, first, end, &length))
        return true;
    if (!lists)
        return false;
    if (end - first > 1) {
        uint32_t middle = first + (end - first) / 2;
        compare_writings(sides, first, middle);
        compare_writings(sides, middle, end);
        return false;
    }
    printf("%s\twrite\tU+%04X\tglibc ", sides->file, first);
    print_bytes(written + places[first], places[end] - places[first]);
    printf("\tours ");
    print_bytes(our_trace.bytes, length);
    printf("\n");
    return false;
}

static bool compare_all(const struct sides *sides) {
    bool same = compare_readings(sides);
    write_theirs(sides);
    for (uint32_t first = 0; first < WIDE; first += 0x8000)
        same &= compare_writings(sides, first, first + 0x8000);
    return same;
}

static bool is_wanted(const struct row *row, int count, char **names) {
    for (int i = 0; i < count; i++)
        if (strcmp(names[i], row->file) == 0 || strcmp(names[i], row->name) == 0)
            return true;
    return count == 0;
}

static void check_row(const struct row *row) {
    struct sides sides;
    if (!sides_open(&sides, row))
        return;
    bool same = compare_all(&sides);
    if (lists)
        printf("%s\t%s\n", row->file, same ? "equal" : "differs");
    else
        check(same != is_exception(row->file), "%s: %s", row->file, same ? "an exception that is none" : "differs");
    fflush(stdout);
    sides_close(&sides);
}

int main(int count, char **arguments) {
    ours = library_load(wanted("PRELOAD"));
    theirs = library_load("libc.so.6");
    lists = count > 1 && strcmp(arguments[1], "list") == 0;
    unsigned long part = count == 3 && !lists ? strtoul(arguments[1], NULL, 10) : 0;
    unsigned long parts = count == 3 && !lists ? strtoul(arguments[2], NULL, 10) : 1;
    struct row row;
    rows_begin(wanted("NAMES"));
    for (unsigned long number = 0; rows_next(&row); number++)
        if (lists ? is_wanted(&row, count - 2, arguments + 2) : number % parts == part)
            check_row(&row);
    return lists ? 0 : checks_end("tables");
}
