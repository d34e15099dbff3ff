/* The encodings of WHATWG's Encoding standard: all labels are names, and what no other standard has of them.
 *
 * ICONVD is where the service is, and LABELS the table of labels. */
#include <stdbool.h>
#include <string.h>

#include "../iconvd.h"
#include "check.h"

static iconvd_pool *pool;

/* The names of the standard's section 4.2. */
static const char *const ENCODINGS[] = {
    "UTF-8",        "IBM866",       "ISO-8859-2",   "ISO-8859-3",   "ISO-8859-4",   "ISO-8859-5",     "ISO-8859-6",   "ISO-8859-7",
    "ISO-8859-8",   "ISO-8859-8-I", "ISO-8859-10",  "ISO-8859-13",  "ISO-8859-14",  "ISO-8859-15",    "ISO-8859-16",  "KOI8-R",
    "KOI8-U",       "macintosh",    "windows-874",  "windows-1250", "windows-1251", "windows-1252",   "windows-1253", "windows-1254",
    "windows-1255", "windows-1256", "windows-1257", "windows-1258", "x-mac-cyrillic", "GBK",          "gb18030",      "Big5",
    "EUC-JP",       "ISO-2022-JP",  "Shift_JIS",    "EUC-KR",       "UTF-16BE",     "UTF-16LE",       "replacement",  "x-user-defined",
};

static iconvd_cd *opened(const char *to, const char *from, int policy) {
    iconvd_cd *cd = NULL;
    iconvd_status status = iconvd_open(pool, to, from, policy, &cd);
    check(status == ICONVD_OK, "%s to %s: status %d", from, to, status);
    return cd;
}

/* Converts a text in one call. The bytes that are wanted have to be there, and nothing left. */
static void test_conversion(const char *to, const char *from, const char *text, size_t length, const char *wanted_bytes, size_t wanted_length) {
    char room[2000], *out = room;
    const char *in = text;
    size_t in_left = length, out_left = sizeof room;
    iconvd_cd *cd = opened(to, from, ICONVD_STRICT);
    iconvd_status status = cd ? iconvd_convert(cd, &in, &in_left, &out, &out_left, NULL) : ICONVD_UNSUPPORTED;
    check(status == ICONVD_OK && in_left == 0 && sizeof room - out_left == wanted_length && memcmp(room, wanted_bytes, wanted_length) == 0,
          "%s to %s: status %d, %zu bytes left, %zu written", from, to, status, in_left, sizeof room - out_left);
    iconvd_close(cd);
}

/* All bytes: ASCII, and from 80 on U+F780 to U+F7FF. */
static void test_user_defined(void) {
    char bytes[256], text[512];
    size_t length = 0;
    for (unsigned byte = 0; byte < 256; byte++) {
        bytes[byte] = (char)byte;
        if (byte < 0x80) {
            text[length++] = (char)byte;
            continue;
        }
        text[length++] = (char)0xef;
        text[length++] = (char)(0x9e + (byte - 0x80) / 64);
        text[length++] = (char)(0x80 + byte % 64);
    }
    test_conversion("UTF-8", "x-user-defined", bytes, sizeof bytes, text, length);
    test_conversion("x-user-defined", "UTF-8", text, length, bytes, sizeof bytes);
}

/* A text in `replacement` is one fault, in any number of calls, until a reset. What is written to it is UTF-8. */
static void test_replacement(const char *name, const char *to) {
    static const char TEXT[] = "text \x1b$A\xe4";
    char room[20], *out = room;
    const char *in = TEXT;
    size_t in_left = 0, out_left = sizeof room;
    iconvd_stop stop;
    iconvd_cd *cd = opened(to, name, ICONVD_STRICT);
    for (int turn = 0; cd && turn < 2; turn++) {
        in_left = 0;
        check(iconvd_convert(cd, &in, &in_left, &out, &out_left, &stop) == ICONVD_OK, "%s: no text", name);
        in = TEXT;
        in_left = strlen(TEXT);
        check(iconvd_convert(cd, &in, &in_left, &out, &out_left, &stop) == ICONVD_EILSEQ && in == TEXT && stop.status == ICONVD_EILSEQ &&
                  stop.length == strlen(TEXT),
              "%s: the first call: %zu bytes", name, stop.length);
        in++;
        in_left--;
        check(iconvd_convert(cd, &in, &in_left, &out, &out_left, &stop) == ICONVD_OK && in_left == 0, "%s: the second call", name);
        check(iconvd_reset(cd, &out, &out_left) == ICONVD_OK && out_left == sizeof room, "%s: a reset", name);
    }
    iconvd_close(cd);
    cd = opened(to, name, ICONVD_IGNORE);
    for (int call = 0; cd && call < 2; call++) {
        in = TEXT;
        in_left = strlen(TEXT);
        check(iconvd_convert(cd, &in, &in_left, &out, &out_left, &stop) == ICONVD_OK && in_left == 0 && out_left == sizeof room &&
                  stop.skipped == (call == 0),
              "%s: call %d with IGNORE: %zu faults", name, call, stop.skipped);
    }
    iconvd_close(cd);
}

/* Names of the C library whose encodings the service lacks: the standard reads them as UTF-16. */
static void test_unicode(void) {
    static const char FACE[] = "\x3d\xd8\x00\xde";
    test_conversion("UTF-8", "ucs-2", FACE, 4, "\xf0\x9f\x98\x80", 4);
    test_conversion("UCS-2", "UTF-8", "\xf0\x9f\x98\x80", 4, FACE, 4);
    test_conversion("UTF-8", "unicode", "\xff\xfe\x3d\xd8\x00\xde", 6, "\xf0\x9f\x98\x80", 4);
}

/* Nobody who writes to ISO-2022-CN-EXT expects UTF-8. */
static void test_replaced_targets(void) {
    iconvd_cd *cd = NULL;
    test_conversion("replacement", "ISO-8859-1", "\xe4", 1, "\xc3\xa4", 2);
    check(iconvd_open(pool, "ISO-2022-CN-EXT", "UTF-8", ICONVD_STRICT, &cd) == ICONVD_UNSUPPORTED, "to ISO-2022-CN-EXT");
}

static void test_labels(void) {
    char line[2000];
    int count = 0;
    FILE *file = fopen(wanted("LABELS"), "r");
    while (file && fgets(line, sizeof line, file)) {
        char *rest = strstr(line, "\twhatwg\t");
        if (line[0] == '#' || !rest)
            continue;
        for (char *label = strtok(rest + strlen("\twhatwg\t"), " \n"); label; label = strtok(NULL, " \n"), count++)
            check(iconvd_supports(pool, label), "%s is not supported", label);
    }
    check(count == 228, "%d labels", count);
    if (file)
        fclose(file);
    for (size_t i = 0; i < sizeof ENCODINGS / sizeof *ENCODINGS; i++)
        check(iconvd_supports(pool, ENCODINGS[i]), "%s is not supported", ENCODINGS[i]);
}

int main(void) {
    check(iconvd_connect(wanted("ICONVD"), NULL, &pool) == ICONVD_OK, "the service");
    test_labels();
    test_user_defined();
    test_replacement("replacement", "UTF-8");
    test_replacement("REPLACEMENT", "UTF-16");
    test_replacement("iso-2022-cn-ext", "ISO-2022-JP");
    test_replacement("csISO2022CNEXT", "CP1255");
    test_replaced_targets();
    test_unicode();
    iconvd_disconnect(pool);
    return checks_end("whatwg");
}
