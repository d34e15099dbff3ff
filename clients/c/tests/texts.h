/* Hostile texts, and a pool to a service that counts what it is sent. */
#ifndef ICONVD_TEXTS_H
#define ICONVD_TEXTS_H

#include "counting.h"

enum { SMALL = 70000 };

static iconvd_pool *pool;
static const char *where;

/* Texts of the tests. */
enum text {
    RANDOM, GERMAN, FRENCH, DAMAGED, EACH_SECOND, FAULTS, CHUNK_ENDS, LEADS, SHIFTS, ESCAPES, KANA, LACKING, PLANES, TEXTS
};
static const char *const TEXT_NAMES[TEXTS] = {"random", "German", "French", "damaged", "each second byte", "nothing but faults",
                                              "faults at the ends of chunks", "lone lead bytes", "many sets of ISO-2022-JP-2", "nothing but escapes",
                                              "katakana of one byte", "lacking characters", "characters above U+FFFF"};

/* What is repeated. */
static const char *const PIECES[TEXTS] = {
    [GERMAN] = "Die W\xe4rme des gr\xf6\xdften Feuers f\xfcllt das k\xfchle Geb\xe4ude; \xc4pfel, \xd6l und \xdc" "bermut. ",
    [FRENCH] = "Les \xe9l\xe8ves fran\xe7" "ais \x93r\xeavent\x94 d\x92\xeatre \xe0 l\x92\xe9" "cole, o\xf9 l\x92on mange des cr\xeapes. ",
    [EACH_SECOND] = "a\xff",
    [FAULTS] = "\xff",
    [LEADS] = "a\xb0 \x81 \xe2 ",
    [SHIFTS] = "\x1b$B0!\x1b(Ba\x1b$(DPQ\x1b$A0!\x1b$(C0!\x1b(J\\\x1b(I1\x1b.AaN\x1bNi\x1b.F\x1bNa\x0e\x0f~{~}",
    [ESCAPES] = "\x1b$B\x1b(B",
    [KANA] = "\x1b(I1234567890ABCDEF",
};

static void repeat(char *text, size_t length, const char *piece, size_t step) {
    for (size_t at = 0; at < length; at += step)
        memcpy(text + at, piece, step < length - at ? step : length - at);
}

static const char SCRIPTS[] = "The W\u00e4rme of \u0416\u0438\u0437\u043d\u044c \u65e5\u672c\u8a9e \ud55c\uad6d\uc5b4 \u0e44\u0e17\u0e22 \u4e2d\u6587 \u20ac ";

/* A text in an encoding, made from what has many scripts; what the encoding lacks is left out. */
static void make_well_formed(enum text kind, const char *encoding, char *text, size_t length) {
    iconvd_cd *cd = NULL;
    char piece[1000] = "a", *out = piece;
    const char *in = kind == PLANES ? "a\xf0\x9f\x98\x80" : SCRIPTS;
    size_t left = strlen(in), room = sizeof piece;
    if (iconvd_open(pool, encoding, "UTF-8", ICONVD_IGNORE, &cd) == ICONVD_OK)
        iconvd_convert(cd, &in, &left, &out, &room, NULL);
    iconvd_close(cd);
    repeat(text, length, piece, out > piece ? (size_t)(out - piece) : 1);
}

static void make_text(enum text kind, const char *encoding, char *text, size_t length) {
    static uint64_t state = 0x123456789u;
    if (PIECES[kind]) {
        repeat(text, length, PIECES[kind], strlen(PIECES[kind]));
        return;
    }
    make_well_formed(kind, encoding, text, length);
    size_t step = kind == RANDOM ? 1 : kind == DAMAGED ? 100 : kind == CHUNK_ENDS ? 65515 : length;
    for (size_t at = step - 1; at < length; at += step)
        text[at] = (char)(kind == CHUNK_ENDS ? 0xff : next_random(&state));
}

/* A new connection now and then, so that a service does not hold all charmaps. */
static void connect_anew(const char *test) {
    iconvd_options options = {.streams = 1, .timeout = 60000};
    iconvd_disconnect(pool);
    pool = NULL;
    if (!check(iconvd_connect(where, &options, &pool) == ICONVD_OK, "the relay"))
        exit(checks_end(test));
}

#endif
