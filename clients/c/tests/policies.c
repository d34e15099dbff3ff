/* What the target lacks: //IGNORE, //TRANSLIT and substitution; that they cost four round trips at most; the host's own charmaps; and
 * what a stop says. By the library itself, with the service that ICONVD names. */
#include <stdbool.h>
#include <string.h>

#include "../iconvd.h"
#include "check.h"

enum { TEXT = 65536, ROOM = 400000 };

static iconvd_pool *pool;

static iconvd_cd *open_pair(const char *to, const char *from, int policy) {
    iconvd_cd *cd = NULL;
    iconvd_status status = iconvd_open(pool, to, from, policy, &cd);
    check(status == ICONVD_OK, "%s to %s: %s", from, to, iconvd_status_text(status));
    return cd;
}

/* What a call did. */
struct outcome {
    iconvd_status status;
    iconvd_stop stop;
    size_t used, written;
    uint64_t round_trips;
    char out[ROOM];
};

static void convert(iconvd_cd *cd, const char *in, size_t length, size_t room, struct outcome *outcome) {
    iconvd_counters before, after;
    char *out = outcome->out;
    size_t left = length, room_left = room;
    memset(&outcome->stop, 0, sizeof outcome->stop);
    iconvd_count(pool, &before);
    outcome->status = iconvd_convert(cd, &in, &left, &out, &room_left, &outcome->stop);
    iconvd_count(pool, &after);
    outcome->used = length - left;
    outcome->written = room - room_left;
    outcome->round_trips = after.round_trips - before.round_trips;
}

/* Encodes a text by the service, to have it in the source's encoding. */
static size_t make(const char *from, const char *utf8, size_t length, char *text) {
    static struct outcome outcome;
    iconvd_cd *cd = open_pair(from, "UTF-8", ICONVD_STRICT);
    convert(cd, utf8, length, ROOM, &outcome);
    check(outcome.status == ICONVD_OK, "the text in %s: %s", from, iconvd_status_text(outcome.status));
    memcpy(text, outcome.out, outcome.written);
    iconvd_close(cd);
    return outcome.written;
}

struct row {
    const char *to, *from, *piece, *expected; /* pieces of UTF-8; what one of them becomes in the target */
    int policy;
    size_t replaced, skipped; /* in a piece */
};

/* A text of 64 KiB that is nothing but the same piece again and again; whole, and with every room up to 40 bytes. */
static void test_row(const struct row *row) {
    static char utf8[2 * TEXT], text[ROOM];
    static struct outcome outcome;
    size_t piece = strlen(row->piece), expected = strlen(row->expected), pieces = 0;
    for (; (pieces + 1) * piece <= TEXT / 2; pieces++)
        memcpy(utf8 + pieces * piece, row->piece, piece);
    size_t length = make(row->from, utf8, pieces * piece, text), one = length / pieces;
    iconvd_cd *cd = open_pair(row->to, row->from, row->policy);
    /* Once for the pairs and charmaps. */
    convert(cd, text, one, ROOM, &outcome);
    iconvd_reset(cd, NULL, NULL);
    convert(cd, text, length, ROOM, &outcome);
    check(outcome.status == ICONVD_OK && outcome.used == length, "%s to %s: all is used", row->from, row->to);
    check(outcome.written == pieces * expected && memcmp(outcome.out, row->expected, expected) == 0, "%s to %s: %zu bytes", row->from,
          row->to, outcome.written);
    check(outcome.stop.replaced == pieces * row->replaced && outcome.stop.skipped == pieces * row->skipped, "%s to %s: counts", row->from,
          row->to);
    check(outcome.round_trips <= 4, "%s to %s: %d round trips", row->from, row->to, (int)outcome.round_trips);
    for (size_t room = 0; room <= 40; room++) {
        iconvd_reset(cd, NULL, NULL);
        convert(cd, text, length, room, &outcome);
        check(outcome.status == ICONVD_E2BIG && outcome.written <= room, "%s to %s, room %zu", row->from, row->to, room);
        check(memcmp(outcome.out, row->expected, outcome.written < expected ? outcome.written : expected) == 0, "%s to %s, room %zu: bytes",
              row->from, row->to, room);
        check(outcome.round_trips <= 5, "%s to %s, room %zu: %d round trips", row->from, row->to, room, (int)outcome.round_trips);
    }
    iconvd_close(cd);
}

static const struct row ROWS[] = {
    {"ASCII", "UTF-8", "a\u0416b", "ab", ICONVD_IGNORE, 0, 1},
    {"ASCII", "UTF-8", "\u0416\u0416x", "x", ICONVD_IGNORE, 0, 2},
    {"ASCII//IGNORE", "KOI8-R", "a\u0416b", "ab", ICONVD_STRICT, 0, 1},
    {"ASCII", "KOI8-R", "a\u0416b", "a?b", ICONVD_SUBSTITUTE, 1, 0},
    {"ASCII//TRANSLIT", "UTF-8", "\u20ac\u00a9 ", "EUR(C) ", ICONVD_STRICT, 2, 0},
    {"ASCII", "UTF-16LE", "\u20ac\u00a9 ", "EUR(C) ", ICONVD_TRANSLIT, 2, 0},
    {"ASCII", "UTF-32", "\u20ac\u0416 ", "EUR? ", ICONVD_TRANSLIT, 2, 0},
    {"LATIN1", "EUC-JP", "\u3042\u00e9k", "\xe9k", ICONVD_IGNORE, 0, 1},
    {"KOI8-R", "EUC-JP", "\u3042\u0416k", "\xf6k", ICONVD_IGNORE, 0, 1},
    {"EUC-KR", "EUC-JP", "\u00e9k\u3042", "ek\xaa\xa2", ICONVD_TRANSLIT, 1, 0},
    {"ISO-8859-15", "CP1251", "\u0416\u20ac\u2116", "?\xa4No", ICONVD_TRANSLIT | ICONVD_IGNORE, 2, 0},
};

/* 64 KiB that are nothing but the same faulty piece: what is left of it, and that it costs no round trip for each. */
struct faulty_row {
    const char *to, *from, *piece;
    size_t length;
    const char *expected;
    size_t skipped;
};

static const struct faulty_row FAULTY_ROWS[] = {
    {"KOI8-R", "UTF-8", "a\xff", 2, "a", 1},
    {"KOI8-R", "UTF-8", "\xff\xff\xff\xff\xff\xff\xff\xff", 8, "", 8},
    {"KOI8-R", "UTF-8", "a\xe2\x82z\xed\xa0\x80\xc0\x80\xf0\x9f\x98", 12, "az", 4},
    {"KOI8-R", "UTF-8", "a\xff\xe2\x82\xac", 5, "a", 2},
    {"UTF-8", "UTF-16LE", "a\0\x00\xdc" "b\0\x00\xd8", 8, "ab", 2},
    {"UTF-8", "UTF-16BE", "\0a\xdc\x00", 4, "a", 1},
    {"UTF-8", "UTF-32BE", "\0\0\0a\0\x11\0\0\0\0\xd8\0", 12, "a", 2},
    {"LATIN1", "ASCII", "a\x80", 2, "a", 1},
    {"UTF-8", "CP1251", "a\x98", 2, "a", 1},
    {"UTF-8", "EUC-KR", "\xff\xff\xff\xff", 4, "", 4},
};

static void test_faulty_row(const struct faulty_row *row) {
    static char text[TEXT];
    static struct outcome outcome;
    size_t pieces = TEXT / row->length, expected = strlen(row->expected);
    for (size_t i = 0; i < pieces; i++)
        memcpy(text + i * row->length, row->piece, row->length);
    size_t length = pieces * row->length;
    iconvd_cd *cd = open_pair(row->to, row->from, ICONVD_IGNORE);
    convert(cd, text, length, ROOM, &outcome);
    iconvd_reset(cd, NULL, NULL);
    convert(cd, text, length, ROOM, &outcome);
    check(outcome.written == pieces * expected && memcmp(outcome.out, row->expected, expected) == 0, "%s to %s, faulty: %zu bytes",
          row->from, row->to, outcome.written);
    /* What ends the text may be cut off instead of faulty. */
    check(outcome.stop.skipped + 1 >= pieces * row->skipped && outcome.stop.skipped <= pieces * row->skipped,
          "%s to %s, faulty: %zu of %zu left out", row->from, row->to, outcome.stop.skipped, pieces * row->skipped);
    check(outcome.round_trips <= 5, "%s to %s, faulty: %d round trips", row->from, row->to, (int)outcome.round_trips);
    for (size_t room = 0; room <= 40 && expected > 0; room++) {
        convert(cd, text, length, room, &outcome);
        check(outcome.status == ICONVD_E2BIG && outcome.written <= room, "%s to %s, faulty, room %zu: %s", row->from, row->to, room,
              iconvd_status_text(outcome.status));
        check(outcome.used <= row->length * (outcome.written / expected + 1), "%s to %s, faulty, room %zu: used %zu", row->from, row->to,
              room, outcome.used);
    }
    iconvd_close(cd);
}

/* A stop before what the target lacks says which character it is, and how long. */
static void test_stop(void) {
    static struct outcome outcome;
    iconvd_cd *cd = open_pair("KOI8-R", "UTF-8", ICONVD_STRICT);
    convert(cd, "ab\u20acx", 6, 10, &outcome);
    check(outcome.status == ICONVD_ENOCHAR && outcome.used == 2 && outcome.written == 2, "before the euro sign");
    check(outcome.stop.character == 0x20ac && outcome.stop.length == 3, "U+%04X, %zu bytes", outcome.stop.character, outcome.stop.length);
    convert(cd, "ab\xffx", 4, 10, &outcome);
    check(outcome.status == ICONVD_EILSEQ && outcome.used == 2 && outcome.stop.length == 1, "before bytes that are no character");
    convert(cd, "ab\xe2\x82", 4, 10, &outcome);
    check(outcome.status == ICONVD_EINVAL && outcome.used == 2, "before a character that is cut");
    iconvd_close(cd);
}

static void test_utf7(void) {
    static struct outcome outcome;
    iconvd_cd *cd = open_pair("UTF-7", "UTF-8", ICONVD_STRICT);
    convert(cd, "A\u00e9", 3, 10, &outcome);
    check(outcome.status == ICONVD_OK && outcome.written == 4 && memcmp(outcome.out, "A+AO", 4) == 0, "UTF-7, with bits to come");
    char tail[8], *out = tail;
    size_t room = 0;
    check(iconvd_reset(cd, &out, &room) == ICONVD_E2BIG && out == tail, "no room for the end of UTF-7");
    convert(cd, "\u00e9", 2, 10, &outcome);
    check(outcome.status == ICONVD_OK && outcome.written == 3 && memcmp(outcome.out, "kA6", 3) == 0, "the shift is open still");
    room = 1;
    check(iconvd_reset(cd, &out, &room) == ICONVD_E2BIG && out == tail, "too little room for the end of UTF-7");
    room = sizeof tail;
    check(iconvd_reset(cd, &out, &room) == ICONVD_OK && out == tail + 2 && memcmp(tail, "Q-", 2) == 0, "the end of UTF-7");
    convert(cd, "B", 1, 10, &outcome);
    check(outcome.written == 1 && outcome.out[0] == 'B', "after the end of UTF-7");
    iconvd_close(cd);
    cd = open_pair("UTF-8", "UTF-7", ICONVD_STRICT);
    convert(cd, "A+AOk-B", 7, 10, &outcome);
    check(outcome.status == ICONVD_OK && outcome.written == 4 && memcmp(outcome.out, "A\u00e9B", 4) == 0, "from UTF-7");
    iconvd_close(cd);
    check(iconvd_open(pool, "ASCII", "UTF-7", ICONVD_IGNORE, &cd) == ICONVD_UNSUPPORTED, "nothing can be left out of UTF-7");
}

static void test_charmaps(void) {
    static const char TOY[] = "<code_set_name> TOY\nCHARMAP\n<question-mark> \\x3f\n<A> \\x41\n<U0416> \\x80\nEND CHARMAP\n";
    static struct outcome outcome;
    iconvd_badmap bad = {.line = 0};
    check(iconvd_put_charmap(pool, "TOY", TOY, sizeof TOY - 1, &bad) == ICONVD_OK, "a charmap");
    check(iconvd_put_charmap(pool, "toy", TOY, sizeof TOY - 1, &bad) == ICONVD_EXISTS, "the same again");
    check(iconvd_put_charmap(pool, "LATIN1", TOY, sizeof TOY - 1, &bad) == ICONVD_EXISTS, "a name that is taken");
    check(iconvd_put_charmap(pool, "TOY2", TOY, sizeof TOY - 1, &bad) == ICONVD_NONAME, "another name than the text's");
    check(iconvd_put_charmap(pool, "TOY3", "CHARMAP\n<A>\n", 12, &bad) == ICONVD_BADMAP && bad.line == 2 && bad.cause == 2,
          "line %u, cause %u", bad.line, bad.cause);
    check(iconvd_put_charmap(pool, "map-KOI8-R", TOY, sizeof TOY - 1, &bad) == ICONVD_EXISTS, "a name that the library uses");
    iconvd_cd *cd = open_pair("toy", "UTF-8", ICONVD_IGNORE);
    convert(cd, "A\u0416B?\u20ac", 8, 10, &outcome);
    check(outcome.status == ICONVD_OK && outcome.written == 3 && memcmp(outcome.out, "A\x80?", 3) == 0, "to a charmap with symbolic names");
    check(outcome.stop.skipped == 2, "%zu characters left out", outcome.stop.skipped);
    iconvd_close(cd);
    check(iconvd_open(pool, "NOPE", "UTF-8", 0, &cd) == ICONVD_UNSUPPORTED, "a name that nobody has");
    check(iconvd_open(pool, "UTF-8", "UNICODEBIG", 0, &cd) == ICONVD_UNSUPPORTED, "a name that is left to the C library");
}

/* A long text by pieces that are under way together is the same as by single calls. */
static void test_pieces(void) {
    enum { LONG = 3000000 };
    static char text[LONG], whole[2 * LONG], parts[2 * LONG];
    uint64_t state = 1;
    size_t length = 0;
    while (length < LONG - 4) {
        static const char *const CHARACTERS[] = {"a", "\u00e9", "\u3042", "\U0001f600", "b", "c"};
        const char *character = CHARACTERS[next_random(&state) % 6];
        memcpy(text + length, character, strlen(character));
        length += strlen(character);
    }
    iconvd_cd *cd = open_pair("UTF-16LE", "UTF-8", ICONVD_STRICT);
    for (int damaged = 0; damaged < 2; damaged++) {
        const char *in = text, *part = text;
        char *out = whole, *part_out = parts;
        size_t left = length, room = sizeof whole, part_left = length, part_room = sizeof parts;
        iconvd_status status = iconvd_convert(cd, &in, &left, &out, &room, NULL), part_status = ICONVD_OK;
        while (part_left > 0 && (part_status == ICONVD_OK || part_status == ICONVD_EINVAL)) {
            size_t some = part_left < 10007 ? part_left : 10007, before = some;
            part_status = iconvd_convert(cd, &part, &some, &part_out, &part_room, NULL);
            part_left -= before - some;
        }
        check(status == (damaged ? ICONVD_EILSEQ : ICONVD_OK) && status == part_status, "status %d and %d", status, part_status);
        check(in == part && out - whole == part_out - parts && memcmp(whole, parts, (size_t)(out - whole)) == 0, "%zu and %zu bytes left",
              left, part_left);
        text[length / 2] = (char)0xff;
    }
    iconvd_close(cd);
}

int main(void) {
    iconvd_options options = {.streams = 2};
    check(iconvd_connect("nonsense", &options, &pool) == ICONVD_BADADDRESS, "no address");
    check(iconvd_connect("unix:/nonexistent/socket", &options, &pool) == ICONVD_LOST, "no service");
    check(iconvd_connect("tcp:127.0.0.1", &options, &pool) == ICONVD_BADADDRESS, "no port");
    check(iconvd_connect("exec:", &options, &pool) == ICONVD_BADADDRESS, "no program");
    if (!check(iconvd_connect(wanted("ICONVD"), &options, &pool) == ICONVD_OK, "no service at %s", wanted("ICONVD")))
        return checks_end("policies");
    for (size_t i = 0; i < sizeof ROWS / sizeof *ROWS; i++)
        test_row(&ROWS[i]);
    for (size_t i = 0; i < sizeof FAULTY_ROWS / sizeof *FAULTY_ROWS; i++)
        test_faulty_row(&FAULTY_ROWS[i]);
    test_stop();
    test_utf7();
    test_charmaps();
    test_pieces();
    iconvd_disconnect(pool);
    return checks_end("policies");
}
