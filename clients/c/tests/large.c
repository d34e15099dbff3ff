/* A large charmap is uploaded in two steps: its short mappings first, and all of them when a text needs more. What is converted is as by
 * the C library, whichever text comes first.
 *
 * ICONVD is where the service is. */
#include <errno.h>
#include <iconv.h>
#include <stdbool.h>
#include <string.h>

#include "../iconvd.h"
#include "check.h"

enum { ROOM = 4000000 };

/* A text in GB18030 and in UTF-8, from the C library. */
struct text {
    const char *name;
    uint32_t first, last, step;
    char bytes[2][ROOM];
    size_t lengths[2];
};

static struct text shorts = {.name = "two bytes", .first = 0x4e00, .last = 0x9fa5, .step = 1};
static struct text longs = {.name = "two and four bytes", .first = 0x3400, .last = 0x9fa5, .step = 1};
static struct text planes = {.name = "planes", .first = 0x20000, .last = 0x2a6d6, .step = 3};

static void make_text(struct text *text) {
    iconv_t encode = iconv_open("UTF-8", "UCS-4LE"), to = iconv_open("GB18030", "UTF-8");
    char *out = text->bytes[1];
    size_t room = ROOM;
    for (uint32_t character = text->first; character <= text->last; character += text->step) {
        char *in = (char *)&character;
        size_t left = 4;
        check(iconv(encode, &in, &left, &out, &room) == 0, "U+%04X", (unsigned)character);
    }
    text->lengths[1] = ROOM - room;
    char *in = text->bytes[1];
    size_t left = text->lengths[1];
    out = text->bytes[0];
    room = ROOM;
    check(iconv(to, &in, &left, &out, &room) == 0, "%s: by the C library", text->name);
    text->lengths[0] = ROOM - room;
    iconv_close(encode);
    iconv_close(to);
}

/* Converts a text by the service; from GB18030, or to it. */
static void compare(iconvd_pool *pool, const struct text *text, int to, size_t piece) {
    static char out_bytes[ROOM];
    iconvd_cd *cd = NULL;
    const char *in = text->bytes[to];
    char *out = out_bytes;
    size_t room = ROOM;
    iconvd_status status = iconvd_open(pool, to ? "GB18030" : "UTF-8", to ? "UTF-8" : "GB18030", ICONVD_STRICT, &cd);
    for (size_t left = text->lengths[to], kept = 0; status == ICONVD_OK && left > 0; left = (size_t)(text->bytes[to] + text->lengths[to] - in)) {
        size_t length = left < piece + kept ? left : piece + kept, before = length;
        status = iconvd_convert(cd, &in, &length, &out, &room, NULL);
        kept = length;
        if (status == ICONVD_EINVAL && before < left)
            status = ICONVD_OK;
    }
    size_t length = text->lengths[!to];
    check(status == ICONVD_OK && ROOM - room == length && memcmp(out_bytes, text->bytes[!to], length) == 0,
          "%s, %s GB18030, pieces of %zu: status %d, %zu of %zu bytes", text->name, to ? "to" : "from", piece, (int)status, ROOM - room, length);
    iconvd_close(cd);
}

static unsigned uploads(const iconvd_pool *pool) {
    iconvd_counters counters;
    iconvd_count(pool, &counters);
    return (unsigned)counters.uploads;
}

static iconvd_pool *connect_pool(void) {
    iconvd_options options = {.streams = 1, .timeout = 60000};
    iconvd_pool *pool = NULL;
    check(iconvd_connect(wanted("ICONVD"), &options, &pool) == ICONVD_OK, "a service");
    return pool;
}

/* A text of the kind comes after one that the short mappings are enough for. */
static void test_text(const struct text *text, int to, size_t piece, unsigned most) {
    iconvd_pool *pool = connect_pool();
    compare(pool, &shorts, to, ROOM);
    check(uploads(pool) == 1, "%u uploads for a text of two bytes", uploads(pool));
    compare(pool, text, to, piece);
    check(uploads(pool) == most, "%s: %u uploads", text->name, uploads(pool));
    compare(pool, text, !to, piece);
    compare(pool, &shorts, to, ROOM);
    check(uploads(pool) <= 2, "%s: %u uploads in the end", text->name, uploads(pool));
    iconvd_disconnect(pool);
}

/* A long text that has few characters above U+FFFF: by each policy, from GB18030 and to it. */
static void test_long(iconvd_pool *pool) {
    static const char *const ROWS[][3] = {{"UTF-8", "GB18030", "\x90\x30\x81\x30"}, {"UTF-16LE", "GB18030", "\x90\x30\x81\x30"},
                                          {"KOI8-R", "GB18030", "\x90\x30\x81\x30"}, {"GB18030", "UTF-8", "\xf0\x90\x80\x80"},
                                          {"GB18030", "KOI8-R", "abcd"}};
    static char text[600000], out_bytes[ROOM];
    for (size_t i = 0; i < 2 * sizeof ROWS / sizeof *ROWS; i++) {
        iconvd_cd *cd = NULL;
        const char *const *row = ROWS[i / 2], *in = text;
        char *out = out_bytes;
        size_t left = sizeof text, room = ROOM;
        bool stops = i % 2 == 0 && strcmp(row[0], "KOI8-R") == 0;
        memset(text, 'a', sizeof text);
        memcpy(text + 262000, row[2], 4);
        iconvd_status status = iconvd_open(pool, row[0], row[1], i % 2 ? ICONVD_SUBSTITUTE : ICONVD_STRICT, &cd);
        if (status == ICONVD_OK)
            status = iconvd_convert(cd, &in, &left, &out, &room, NULL);
        check(stops ? status == ICONVD_ENOCHAR && left == sizeof text - 262000 : status == ICONVD_OK && left == 0,
              "%s to %s, %s: status %d, %zu bytes left", row[1], row[0], i % 2 ? "by substitutes" : "strict", (int)status, left);
        iconvd_close(cd);
    }
}

/* From GB18030 to UTF-7, with any room, and back by the C library. */
static void test_utf7(iconvd_pool *pool, const struct text *text, size_t piece) {
    static char utf7[ROOM], back[ROOM];
    iconvd_cd *cd = NULL;
    const char *in = text->bytes[0];
    char *out = utf7;
    size_t left = text->lengths[0], room = 0;
    iconvd_status status = iconvd_open(pool, "UTF-7", "GB18030", ICONVD_STRICT, &cd);
    while (left > 0 && (status == ICONVD_OK || status == ICONVD_E2BIG) && out + piece < utf7 + ROOM) {
        room += piece;
        status = iconvd_convert(cd, &in, &left, &out, &room, NULL);
    }
    room = 10;
    if (status == ICONVD_OK)
        status = iconvd_reset(cd, &out, &room);
    iconvd_close(cd);
    iconv_t reading = iconv_open("UTF-8", "UTF-7");
    char *utf7_at = utf7, *back_at = back;
    size_t utf7_left = (size_t)(out - utf7), back_left = ROOM;
    iconv(reading, &utf7_at, &utf7_left, &back_at, &back_left);
    iconv_close(reading);
    check(status == ICONVD_OK && ROOM - back_left == text->lengths[1] && memcmp(back, text->bytes[1], ROOM - back_left) == 0,
          "%s to UTF-7, %zu bytes of room: status %d, %zu bytes left", text->name, piece, (int)status, left);
}

/* A fault is where it is, and a character that is cut is cut. */
static void test_faults(void) {
    static const struct {
        const char *bytes;
        size_t length, used;
        iconvd_status status;
    } ROWS[] = {
        {"\xd2\xbb\x80\xd2\xbb", 5, 2, ICONVD_EILSEQ}, {"\xd2\xbb\x95\x32\x82", 5, 2, ICONVD_EINVAL}, {"\xd2\xbb\x95", 3, 2, ICONVD_EINVAL},
        {"\xd2\xbb\x95\x32\x82\x36", 6, 6, ICONVD_OK}, {"\xd2\xbb\xd2", 3, 2, ICONVD_EINVAL},
    };
    for (size_t i = 0; i < sizeof ROWS / sizeof *ROWS; i++) {
        iconvd_pool *pool = connect_pool();
        iconvd_cd *cd = NULL;
        const char *in = ROWS[i].bytes;
        char out_bytes[40], *out = out_bytes;
        size_t left = ROWS[i].length, room = sizeof out_bytes;
        iconvd_status status = iconvd_open(pool, "UTF-8", "GB18030", ICONVD_STRICT, &cd);
        if (status == ICONVD_OK)
            status = iconvd_convert(cd, &in, &left, &out, &room, NULL);
        check(status == ROWS[i].status && ROWS[i].length - left == ROWS[i].used, "row %zu: status %d, %zu bytes left", i, (int)status, left);
        iconvd_close(cd);
        iconvd_disconnect(pool);
    }
}

int main(void) {
    make_text(&shorts);
    make_text(&longs);
    make_text(&planes);
    for (int to = 0; to < 2; to++) {
        test_text(&shorts, to, 1000, 1);
        test_text(&longs, to, ROOM, 2);
        test_text(&longs, to, 777, 2);
        /* The client reads their codes, and the service is not asked. */
        test_text(&planes, to, ROOM, to ? 2 : 1);
    }
    test_faults();
    iconvd_pool *pool = connect_pool();
    test_long(pool);
    test_utf7(pool, &planes, ROOM / 2);
    test_utf7(pool, &planes, 997);
    test_utf7(pool, &longs, 9973);
    iconvd_disconnect(pool);
    return checks_end("large");
}
