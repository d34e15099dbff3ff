/* Texts of 32 KiB and more, which the library sends in parts that are under way together, are converted as by the C library, step by
 * step: whole, with a fault or a character that the target lacks anywhere near a cut, cut off within a character, and with too little
 * room. A text without characters above 7f has its faults where it is cut. */
#include <errno.h>
#include <stdbool.h>
#include <string.h>
#include <sys/types.h>

#include "libraries.h"

/* ONE_READ is the length of the parts of a long text. */
enum { MOST = 300000, ROOM = 4 * MOST, ONE_READ = 65536 - 21 };

static struct library libraries[2]; /* the service's, the C library's */

struct kind {
    const char *to, *from, *piece; /* a piece of UTF-8, which the text is made of */
    const char *odd;               /* what is put into the text: bytes that are no character, or one that the target lacks */
};

static const struct kind KINDS[] = {
    {"UTF-16LE", "UTF-8", "Die Stra\u00dfe f\u00fchrt \u00fcber M\u00fcnchen. ", "\xff"},
    {"KOI8-R", "UTF-8", "\u041f\u0440\u0438\u0432\u0435\u0442 ", "\u00e9"},
    {"UTF-8", "UTF-16LE", "\u4f60\u597d, \U0001f600 ", "\x00\xdc"},
    {"UTF-8", "KOI8-R", "\u041f\u0440\u0438\u0432\u0435\u0442 ", "A"},
    {"UTF-8", "UTF-8", "plain text ", "\xc3"},
};

/* What a call left. */
struct done {
    size_t result;
    int error;
    size_t used, room;
    size_t written;
};

static char text[MOST], out[2][ROOM];

/* A text of this many bytes at most in the source's encoding. */
static size_t make_text(const struct kind *kind, size_t length) {
    static char utf8[MOST];
    size_t piece = strlen(kind->piece), have = 0;
    for (; have + piece <= sizeof utf8; have += piece)
        memcpy(utf8 + have, kind->piece, piece);
    iconv_t cd = libraries[1].open(kind->from, "UTF-8");
    char *in = utf8, *at = text;
    size_t room = length;
    libraries[1].convert(cd, &in, &have, &at, &room);
    libraries[1].close(cd);
    return length - room;
}

static struct done convert(int which, iconv_t cd, size_t length, size_t room) {
    char *in = text, *at = out[which];
    size_t left = length, left_room = room;
    errno = 0;
    size_t result = libraries[which].convert(cd, &in, &left, &at, &left_room);
    return (struct done){.result = result, .error = result == (size_t)-1 ? errno : 0, .used = length - left, .room = left_room,
                         .written = (size_t)(at - out[which])};
}

/* One call by each. */
static void compare(const struct kind *kind, size_t length, size_t room, const char *what) {
    struct done done[2];
    for (int which = 0; which < 2; which++) {
        iconv_t cd = libraries[which].open(kind->to, kind->from);
        done[which] = convert(which, cd, length, room);
        libraries[which].close(cd);
    }
    bool same = done[0].result == done[1].result && done[0].error == done[1].error && done[0].used == done[1].used &&
                done[0].room == done[1].room && memcmp(out[0], out[1], done[1].written) == 0;
    check(same, "%s to %s, %zu bytes, room %zu, %s: %zd %s, %zu used, %zu written; by the C library %zd %s, %zu used, %zu written",
          kind->from, kind->to, length, room, what, (ssize_t)done[0].result, strerror(done[0].error), done[0].used, done[0].written,
          (ssize_t)done[1].result, strerror(done[1].error), done[1].used, done[1].written);
}

/* How much the C library writes of a whole text. */
static size_t whole_output(const struct kind *kind, size_t length) {
    iconv_t cd = libraries[1].open(kind->to, kind->from);
    struct done done = convert(1, cd, length, ROOM);
    libraries[1].close(cd);
    return done.written;
}

/* With something odd near a place where a text may be cut. */
static void compare_odd(const struct kind *kind, size_t length, size_t near) {
    size_t unit = strcmp(kind->from, "UTF-16LE") == 0 ? 2 : 1, odd = unit == 2 ? 2 : strlen(kind->odd);
    for (int off = -3; off <= 3; off++) {
        long at = (long)(near / unit * unit) + off * (long)unit;
        char kept[4];
        if (at < 0 || (size_t)at + odd > length)
            continue;
        memcpy(kept, text + at, odd);
        memcpy(text + at, kind->odd, odd);
        compare(kind, length, ROOM, "with something odd");
        memcpy(text + at, kept, odd);
    }
}

static void compare_length(const struct kind *kind, size_t most) {
    size_t length = make_text(kind, most), whole = whole_output(kind, length);
    compare(kind, length, ROOM, "whole");
    for (size_t cut = 1; cut < 8 && cut < length; cut++)
        compare(kind, length - cut, ROOM, "cut off");
    const size_t rooms[] = {0, 1, whole / 4, whole / 2 - 1, whole / 2, whole / 2 + 1, whole - 1, whole, whole + 1};
    for (size_t i = 0; i < sizeof rooms / sizeof *rooms; i++)
        compare(kind, length, rooms[i], "with this room");
    for (size_t quarter = 0; quarter <= 4; quarter++)
        compare_odd(kind, length, length * quarter / 4);
    for (size_t near = ONE_READ; near < length; near += ONE_READ)
        compare_odd(kind, length, near);
}

int main(void) {
    static const size_t LENGTHS[] = {32766, 32769, 40000, 65504, 65536, 100001, 131030, 131072, 140000, 290000};
    libraries[0] = library_load(wanted("PRELOAD"));
    libraries[1] = library_load("libc.so.6");
    for (size_t i = 0; i < sizeof KINDS / sizeof *KINDS; i++)
        for (size_t k = 0; k < sizeof LENGTHS / sizeof *LENGTHS; k++)
            compare_length(&KINDS[i], LENGTHS[k]);
    return checks_end("parts");
}
