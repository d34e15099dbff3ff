/* Encodings with shifts that the C library has not, and policies over all of them: rows of texts with their bytes, from the standards and
 * from CPython's codecs. Each is written and read whole, with every room and cut at every place. */
#include <stdbool.h>
#include <string.h>

#include "../iconvd.h"
#include "check.h"

static iconvd_pool *pool;

/* A text and its bytes, up to the shift back at its end. */
static const struct row {
    const char *encoding, *text, *bytes;
} ROWS[] = {
    /* RFC 1843, and CPython's hz. */
    {"HZ", "This sentence is in ASCII.\nThe next sentence is in GB.\u5df1\u6240\u4e0d\u6b32\uff0c\u52ff\u65bd\u65bc\u4eba\u3002Bye.",
     "This sentence is in ASCII.\nThe next sentence is in GB.~{<:Ky2;S{#,NpJ)l6HK!#~}Bye."},
    {"HZ", "a~b~~\u554a\n~\u554a\u554a\x7f", "a~~b~~~~~{0!~}\n~~~{0!0!~}\x7f"},
    {"HZ-GB-2312", "\u554a", "~{0!~}"},
    /* RFC 2237, and CPython's iso2022_jp_1: letters after a yen sign are in ASCII. */
    {"ISO-2022-JP-1", "\u65e5\u672c\u0171\u8a9e", "\x1b$BF|K\\\x1b$(D+h\x1b$B8l\x1b(B"},
    {"ISO-2022-JP-1", "\u00a5a\u203e~\\", "\x1b(J\\\x1b(Ba\x1b(J~\x1b(B~\\"},
    {"ISO-2022-JP-EXT", "\uff71\u65e5\uff9f\u00e9", "\x1b(I1\x1b$BF|\x1b(I_\x1b$(D+1\x1b(B"},
    /* Microsoft's characters by rows and cells: NEC's row 13, and IBM's at NEC's places, as in WHATWG's index jis0208. */
    {"CP50221", "a\u2460\u3231\uff71\u65e5\uffe2\uff5e\u7e8a\u2170\uffe4\u9ed1", "a\x1b$B-!-j\x1b(I1\x1b$BF|\"L!Ay!|q|||n\x1b(B"},
    {"CP50221", "\u00a5a\u203eb\n", "\x1b(J\\a~b\x1b(B\n"},
    /* RFC 1922: a line end takes the designations away; the second plane by single shifts. */
    {"ISO-2022-CN", "\u554aa\u554a\u4e0f\u554a\n\u554a", "\x1b$)A\x0e" "0!\x0f" "a\x0e" "0!\x1b$*H\x1bN!-0!\x0f\n\x1b$)A\x0e" "0!\x0f"},
    {"ISO-2022-CN", "\u00b7\u554a", "\x1b$)G\x0e!1Y?\x0f"},
    /* glibc has these. */
    {"ISO-2022-JP", "\u203ea~\u4e9c\n", "\x1b(J~a\x1b(B~\x1b$B0!\x1b(B\n"},
    {"ISO-2022-JP-2", "\u0171~\u00e9\u00c3\u0384\u20ac", "\x1b$(D+h\x1b(B~\x1b$(D+1**\"8\x1b.F\x1bN$\x1b(B"},
    {"ISO-2022-KR", "a\ud55c\uad6d\n\uc5b4", "\x1b$)Ca\x0eGQ19\x0f\n\x0e>n\x0f"},
};
enum { ROW_COUNT = sizeof ROWS / sizeof *ROWS };

/* A conversion of a text in pieces of `step` bytes, with `room` at a time, and a reset at the end. Returns how long the output is. */
static size_t convert(const char *to, const char *from, int policy, const char *text, size_t step, size_t room, char *out) {
    iconvd_cd *cd = NULL;
    size_t length = strlen(text), at = 0, written = 0;
    if (!check(iconvd_open(pool, to, from, policy, &cd) == ICONVD_OK, "%s to %s", from, to))
        return 0;
    iconvd_status status = ICONVD_OK;
    for (unsigned calls = 0, more = 0; calls < 4000 && (at < length || status == ICONVD_E2BIG); calls++) {
        const char *in = text + at;
        char *out_at = out + written;
        size_t part = step + more < length - at ? step + more : length - at, left = part, room_left = room;
        status = iconvd_convert(cd, &in, &left, &out_at, &room_left, NULL);
        at += part - left;
        written += room - room_left;
        if (status == ICONVD_EILSEQ || status == ICONVD_ENOCHAR)
            break;
        /* What a piece cuts comes again with more. */
        more = status == ICONVD_EINVAL && part == left ? more + 1 : 0;
    }
    do {
        char *out_at = out + written;
        size_t room_left = room;
        status = iconvd_reset(cd, &out_at, &room_left);
        written += room - room_left;
        room++;
    } while (status == ICONVD_E2BIG);
    iconvd_close(cd);
    return written;
}

static void expect(const struct row *row, const char *what, const char *out, size_t length, const char *wanted) {
    check(length == strlen(wanted) && memcmp(out, wanted, length) == 0, "%s, %s: %zu bytes: %.*s", row->encoding, what, length,
          (int)length, out);
}

static void test_row(const struct row *row, size_t step, size_t room) {
    char out[4000];
    size_t length = convert("UTF-8", row->encoding, ICONVD_STRICT, row->bytes, step, room < 4 ? 4 : room, out);
    expect(row, "read", out, length, row->text);
    length = convert(row->encoding, "UTF-8", ICONVD_STRICT, row->text, step, room < 5 ? 5 : room, out);
    expect(row, "written", out, length, row->bytes);
    length = convert(row->encoding, row->encoding, ICONVD_STRICT, row->bytes, step, room < 5 ? 5 : room, out);
    expect(row, "to itself", out, length, row->bytes);
}

/* Policies, and what a text stops at. */
static const struct policy_row {
    const char *to, *from;
    int policy;
    const char *text, *wanted;
    iconvd_status status;
    size_t used, count, length; /* replaced and skipped; of what stopped it */
    uint32_t character;
} POLICY_ROWS[] = {
    {"ISO-2022-JP", "UTF-8", ICONVD_STRICT, "\u4e9c\u00e9", "\x1b$B0!", ICONVD_ENOCHAR, 3, 0, 2, 0xe9},
    {"ISO-2022-JP", "UTF-8", ICONVD_IGNORE, "\u4e9c\u00e9\xff\u4e9c", "\x1b$B0!0!", ICONVD_OK, 9, 2, 0, 0},
    {"ISO-2022-JP", "UTF-8", ICONVD_TRANSLIT, "\u4e9c\u00e9\u0e01\u20ac\u4e9c", "\x1b$B0!\x1b(Be?EUR\x1b$B0!", ICONVD_OK, 14, 3, 0, 0},
    {"ISO-2022-JP", "UTF-8", ICONVD_SUBSTITUTE, "\u00e9\u4e9c\u0e01", "?\x1b$B0!\x1b(B?", ICONVD_OK, 8, 2, 0, 0},
    {"HZ", "UTF-8", ICONVD_TRANSLIT, "\u554a\u00e9\U0001f600", "~{0!(&~}?", ICONVD_OK, 9, 1, 0, 0},
    {"ISO-2022-KR", "KOI8-R", ICONVD_IGNORE, "\xc1\xa3\x9c", "\x1b$)C\x0e,Q,W!F", ICONVD_OK, 3, 0, 0, 0},
    {"LATIN1", "ISO-2022-JP", ICONVD_STRICT, "a\x1b$B0!\x1b(B", "a", ICONVD_ENOCHAR, 1, 0, 5, 0x4e9c},
    {"LATIN1", "ISO-2022-JP", ICONVD_TRANSLIT, "a\x1b$B!o0!\x1b(J\\\x1b(B", "a\xa5?\xa5", ICONVD_OK, 15, 2, 0, 0},
    {"LATIN1", "ISO-2022-JP", ICONVD_IGNORE, "a\x1b$B0!.~\x1b(Bb\x80", "ab", ICONVD_OK, 13, 4, 0, 0},
    {"LATIN1", "ISO-2022-JP", ICONVD_SUBSTITUTE, "a\x1b$B0!\x1b(Bb", "a?b", ICONVD_OK, 10, 1, 0, 0},
    {"UTF-8", "ISO-2022-JP", ICONVD_STRICT, "a\x1b$B..", "a", ICONVD_EILSEQ, 4, 0, 1, 0},
    {"UTF-8", "ISO-2022-JP-2", ICONVD_STRICT, "a\x1b.F\x1bNR", "a", ICONVD_EILSEQ, 4, 0, 3, 0},
    {"UTF-8", "ISO-2022-JP", ICONVD_STRICT, "a\x1b$", "a", ICONVD_EINVAL, 1, 0, 0, 0},
    {"UTF-8", "HZ", ICONVD_STRICT, "a~x", "a", ICONVD_EILSEQ, 1, 0, 1, 0},
    {"UTF-8", "HZ", ICONVD_STRICT, "~{0!\n", "\u554a", ICONVD_EILSEQ, 4, 0, 1, 0},
    {"UTF-8", "HZ", ICONVD_STRICT, "a~\nb~", "ab", ICONVD_EINVAL, 4, 0, 0, 0},
    {"UTF-7", "ISO-2022-JP", ICONVD_STRICT, "a\x1b$B0!", "a+Tp", ICONVD_OK, 6, 0, 0, 0},
};

static void test_policy(const struct policy_row *row) {
    char out[200], *out_at = out;
    const char *in = row->text;
    size_t left = strlen(in), room = sizeof out;
    iconvd_stop stop = {.status = ICONVD_OK};
    iconvd_cd *cd = NULL;
    if (!check(iconvd_open(pool, row->to, row->from, row->policy, &cd) == ICONVD_OK, "%s to %s", row->from, row->to))
        return;
    iconvd_status status = iconvd_convert(cd, &in, &left, &out_at, &room, &stop);
    size_t used = strlen(row->text) - left, written = sizeof out - room;
    check(status == row->status && used == row->used && stop.replaced + stop.skipped == row->count,
          "%s to %s, policy %d: %s, %zu used, %zu replaced, %zu skipped", row->from, row->to, row->policy, iconvd_status_text(status), used,
          stop.replaced, stop.skipped);
    check(stop.length == row->length && stop.character == row->character, "%s to %s, policy %d: stopped at %x of %zu bytes", row->from,
          row->to, row->policy, stop.character, stop.length);
    check(written == strlen(row->wanted) && memcmp(out, row->wanted, written) == 0, "%s to %s, policy %d: %.*s", row->from, row->to,
          row->policy, (int)written, out);
    iconvd_close(cd);
}

/* A long text that changes its set at each character, and one with a fault at its end. */
static void test_long(const char *encoding) {
    enum { LONG = 300000 };
    static char text[LONG + 8], bytes[4 * LONG], again[LONG + 8];
    static const char UNIT[] = "\u65e5a\u672c ";
    size_t length = 0;
    for (; length + sizeof UNIT < LONG; length += sizeof UNIT - 1)
        memcpy(text + length, UNIT, sizeof UNIT);
    size_t written = convert(encoding, "UTF-8", ICONVD_IGNORE, text, LONG, sizeof bytes, bytes);
    bytes[written] = 0;
    size_t back = convert("UTF-8", encoding, ICONVD_IGNORE, bytes, sizeof bytes, sizeof again, again);
    check(back == length && memcmp(text, again, back) == 0, "%s, a long text: %zu, %zu, %zu bytes", encoding, length, written, back);
    memcpy(bytes + written, "\x80", 2);
    size_t to_fault = convert("UTF-8", encoding, ICONVD_STRICT, bytes, sizeof bytes, sizeof again, again);
    check(to_fault == back, "%s, a fault after a long text: %zu of %zu bytes", encoding, to_fault, back);
}

int main(void) {
    if (!check(iconvd_connect(wanted("ICONVD"), NULL, &pool) == ICONVD_OK, "the service"))
        return checks_end("shifted_rows");
    for (size_t i = 0; i < ROW_COUNT; i++)
        for (size_t step = 1; step < 40; step += step < 12 ? 1 : 9)
            for (size_t room = 4; room < 40; room += room < 12 ? 1 : 9)
                test_row(&ROWS[i], step, room);
    for (size_t i = 0; i < sizeof POLICY_ROWS / sizeof *POLICY_ROWS; i++)
        test_policy(&POLICY_ROWS[i]);
    static const char *const LONG_NAMES[] = {"ISO-2022-JP", "ISO-2022-JP-2", "ISO-2022-KR", "HZ", "CP50221"};
    for (size_t i = 0; i < sizeof LONG_NAMES / sizeof *LONG_NAMES; i++)
        test_long(LONG_NAMES[i]);
    iconvd_disconnect(pool);
    return checks_end("shifted_rows");
}
