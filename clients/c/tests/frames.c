/* Frames, names and charmap texts: what needs no service. */
#include <locale.h>
#include <stdbool.h>
#include <string.h>
#include <unistd.h>
#include <zlib.h>

#include "../iconvd.h"
#include "../src/charmaps.h"
#include "../src/convert.h"
#include "../src/names.h"
#include "check.h"

/* The example of iconvd-protocol(5). */
static void test_requests(void) {
    static const unsigned char OPEN[] = "\x00\x00\x00\x1e\x00\x00\x00\x07\x00\x00\x00\x01\x03\x08US-ASCII\x0aISO-8859-1\x00";
    static const unsigned char CONV[] = "\x00\x00\x00\x14\x00\x00\x00\x07\x00\x00\x00\x02\x04\x00\x00\x00\x00\x00\x00\x00\x08";
    unsigned char out[ICONVD_OPEN_FRAME];
    iconvd_asker asker = {.caller = 7, .tag = 1};
    check(iconvd_frame_open(out, asker, "US-ASCII", "ISO-8859-1", 0) == 34 && memcmp(out, OPEN, 34) == 0, "OPEN");
    check(iconvd_frame_open(out, asker, "US-ASCII", "ISO-8859-1", 5) == 34 && out[33] == 1, "OPEN, strict");
    asker.tag = 2;
    check(iconvd_frame_conv(out, asker, 0, 8, 3) == 21 && memcmp(out, CONV, 21) == 0, "CONV");
    check(iconvd_frame_conv(out, asker, 0, 1000001, 3) == 0, "CONV with too much room");
    check(iconvd_frame_conv(out, asker, 0, 8, ICONVD_MAX_INPUT + 1) == 0, "CONV with too much input");
    check(iconvd_frame_conv(out, asker, 0, 8, ICONVD_MAX_INPUT) == 21, "CONV with the most input");
    check(iconvd_frame_head(out, asker, ICONVD_PUT, ICONVD_MAX_BODY + 1) == 0, "a body that is too long");
    check(iconvd_frame_head(out, asker, ICONVD_PUT, ICONVD_MAX_BODY) == 13 && out[1] == 0x10 && out[3] == 0, "the longest body");
    check(iconvd_frame_reset(out, asker, 3, 1000001) == 0, "RESET with too much room");
    check(iconvd_frame_close(out, asker, 3) == 17 && out[3] == 13 && out[12] == ICONVD_CLOSE && out[16] == 3, "CLOSE");
    char name[300];
    memset(name, 'a', 256);
    name[256] = 0;
    check(iconvd_frame_open(out, asker, name, "UTF-8", 1) == 0, "a name that is too long");
    name[255] = 0;
    check(iconvd_frame_open(out, asker, name, name, 1) == ICONVD_OPEN_FRAME, "the longest names");
}

static void test_replies(void) {
    static const unsigned char REPLY[] = "\x00\x00\x00\x14\x00\x00\x00\x07\x00\x00\x00\x02\x00\x00\x00\x00\x01\x00\x00\x00\x02"
                                         "\x41\x3f\x42tail";
    iconvd_reply reply;
    iconvd_converted converted;
    size_t used = 0;
    for (size_t cut = 0; cut < 24; cut++)
        check(iconvd_frame_read(REPLY, cut, &reply, &used) == ICONVD_FRAME_MORE, "a reply cut after %zu bytes", cut);
    for (size_t more = 24; more < sizeof REPLY; more++)
        check(iconvd_frame_read(REPLY, more, &reply, &used) == ICONVD_FRAME_WHOLE && used == 24, "a reply of %zu bytes", more);
    check(reply.caller == 7 && reply.tag == 2 && reply.status == ICONVD_OK && reply.body_length == 11, "the parts of a reply");
    check(iconvd_reply_converted(&reply, &converted) && converted.left == 1 && converted.replaced == 2 &&
              converted.output_length == 3 && memcmp(converted.output, "A?B", 3) == 0,
          "a reply to CONV");
    uint32_t number;
    check(!iconvd_reply_number(&reply, &number), "a reply to CONV is no number");
    reply.body_length = 7;
    check(!iconvd_reply_converted(&reply, &converted), "a short body is no reply to CONV");
    reply.body_length = 4;
    check(iconvd_reply_number(&reply, &number) && number == 1, "a number");
    reply.status = ICONVD_EBADF;
    check(!iconvd_reply_number(&reply, &number) && !iconvd_reply_converted(&reply, &converted), "a refusal");
    for (uint32_t status = 0; status < 256; status++) {
        reply = (iconvd_reply){.status = (uint8_t)status, .body = REPLY + 13, .body_length = 11};
        bool progress = status <= 3 || status == 15;
        check(iconvd_reply_converted(&reply, &converted) == progress, "whether status %u has progress", status);
    }
}

static void test_lengths(void) {
    static const uint32_t BAD[] = {0, 1, 8, 1048577, 0x00ffffff, 0x7fffffff, 0x80000000, 0xffffffff};
    static const uint32_t GOOD[] = {9, 13, 1048576};
    unsigned char bytes[13] = {0};
    iconvd_reply reply;
    size_t used;
    for (size_t i = 0; i < sizeof BAD / sizeof *BAD; i++) {
        for (int byte = 0; byte < 4; byte++)
            bytes[byte] = (unsigned char)(BAD[i] >> (24 - 8 * byte));
        check(iconvd_frame_read(bytes, 4, &reply, &used) == ICONVD_FRAME_BAD, "length %u of four bytes", BAD[i]);
        check(iconvd_frame_read(bytes, 13, &reply, &used) == ICONVD_FRAME_BAD, "length %u", BAD[i]);
    }
    for (size_t i = 0; i < sizeof GOOD / sizeof *GOOD; i++) {
        for (int byte = 0; byte < 4; byte++)
            bytes[byte] = (unsigned char)(GOOD[i] >> (24 - 8 * byte));
        check(iconvd_frame_read(bytes, 4, &reply, &used) == ICONVD_FRAME_MORE, "length %u", GOOD[i]);
    }
}

static void test_names(void) {
    static const struct {
        const char *written, *name;
        bool translit, ignore;
    } ROWS[] = {
        {"utf-8", "UTF-8", false, false},
        {"UTF-8//", "UTF-8", false, false},
        {"iso 8859-1", "ISO8859-1", false, false},
        {"ascii//translit", "ASCII", true, false},
        {"ascii//TRANSLIT//IGNORE", "ASCII", true, true},
        {"ascii//IGNORE,TRANSLIT,", "ASCII", true, true},
        {"ascii//nonsense", "ASCII", false, false},
        {"ascii/translit", "ASCII/TRANSLIT", false, false},
        {"10646-1:1993/UCS4/", "10646-1:1993/UCS4", false, false},
    };
    for (size_t i = 0; i < sizeof ROWS / sizeof *ROWS; i++) {
        struct parsed_name parsed;
        bool well = name_parse(&parsed, ROWS[i].written);
        check(well && strcmp(parsed.name, ROWS[i].name) == 0 && parsed.translit == ROWS[i].translit && parsed.ignore == ROWS[i].ignore,
              "%s is %s", ROWS[i].written, parsed.name);
    }
    struct parsed_name parsed;
    char text[400];
    memset(text, 'A', sizeof text);
    text[399] = 0;
    check(!name_parse(&parsed, text), "a name of 399 bytes");
    text[128] = 0;
    check(!name_parse(&parsed, text), "a name of 128 bytes");
    check(name_parse(&parsed, "") && name_find(parsed.name) == US_ASCII, "the locale's encoding");
    check(name_find("LATIN1") == ISO_8859_1 && name_find("UCS-4") == UTF_32BE && name_find("UTF-7") == UTF_7, "built-in names");
    check(name_find("KOI8-R") >= BUILTIN_COUNT && name_find("NOPE") == -1 && name_find("UNICODEBIG") == -1, "charmaps and no names");
    for (size_t i = 0; iconvd_name(i); i++)
        check(name_find(iconvd_name(i)) >= 0 && (i == 0 || strcmp(iconvd_name(i - 1), iconvd_name(i)) < 0), "%s", iconvd_name(i));
}

/* Where the C library waits for more before it says that bytes are no character. */
static void test_characters(void) {
    static const struct {
        enum builtin from;
        const char *in;
        size_t length, faulty;
        bool waits;
    } ROWS[] = {
        {UTF_8, "\xe0\x80", 2, 2, true},          {UTF_8, "\xe0\x80\x80", 3, 3, false},      {UTF_8, "\xc0\x80", 2, 2, false},
        {UTF_8, "\x80\x80\x80\x80\x80\x80", 6, 5, false}, {UTF_8, "\xff", 1, 1, false},      {UTF_16BE, "\xdc", 1, 1, true},
        {UTF_16BE, "\xd8\x42\x3d", 3, 2, true},   {UTF_16BE, "\xdc\x00\x41", 3, 2, false},   {UTF_16LE, "\x42\xd8\x3d", 3, 2, true},
        {UTF_32BE, "\x00\x11\x00", 3, 3, true},   {UTF_32BE, "\x00\x11\x00\x00", 4, 4, false}, {US_ASCII, "\x80", 1, 1, false},
    };
    for (size_t i = 0; i < sizeof ROWS / sizeof *ROWS; i++) {
        check(faulty_length(ROWS[i].from, ROWS[i].in, ROWS[i].length) == ROWS[i].faulty, "row %zu: faulty bytes", i);
        check(may_be_completed(ROWS[i].from, ROWS[i].in, ROWS[i].length) == ROWS[i].waits, "row %zu: waits", i);
    }
    static const char TEXT[] = "abcdefg\xf0\x9f\x98\x80";
    for (size_t cut = 8; cut < 11; cut++)
        check(cut_length(encoding_builtin(UTF_8), TEXT, cut) == 7, "a cut %zu bytes into UTF-8", cut);
    check(cut_length(encoding_builtin(UTF_8), TEXT, 11) == 11, "a cut behind a character");
    check(cut_length(encoding_builtin(UTF_16LE), "a\0b\0c\0\x3d\xd8", 8) == 6, "a cut between surrogates");
}

/* Writes a charmap file whose second mapping comes after a comment of so many bytes, of which the first is `first`. */
static void write_charmap(const char *path, size_t comment, char first) {
    static const char BEFORE[] = "<code_set_name> TOY\nCHARMAP\n<U0041> /x41\n%", AFTER[] = "\n<U0042> /x42 B\nEND CHARMAP\n<U0043> /x43\n";
    char *filler = malloc(comment + 1);
    memset(filler, 'x', comment + 1);
    filler[0] = first;
    gzFile file = gzopen(path, "wb1");
    gzwrite(file, "<escape_char> /\n<comment_char> %\n", 33);
    gzwrite(file, BEFORE, sizeof BEFORE - 1);
    gzwrite(file, filler, (unsigned)comment);
    gzwrite(file, AFTER, sizeof AFTER - 1);
    gzclose(file);
    free(filler);
}

/* A file is read by lines wherever a block of it ends, however long a comment is, and whatever bytes it has. */
static void test_long_lines(void) {
    static const size_t LENGTHS[] = {1, 300, 430, 511, 512, 513, 1000, 65535, 65536, 65537, 66100, 131072, 200000};
    static const char TEXT[] = "<code_set_name> map-TOY\n<escape_char> /\n<comment_char> %\n<mb_cur_min> 1\n<mb_cur_max> 1\nCHARMAP\n"
                               "<U0041> /x41\n<U0042> /x42\nEND CHARMAP\n";
    char folder[] = "/tmp/iconvd-frames-XXXXXX", path[100];
    if (!mkdtemp(folder))
        exit(2);
    snprintf(path, sizeof path, "%s/TOY.gz", folder);
    /* The lengths near a block's end have each byte of the line after them there. */
    for (size_t row = 0; row < sizeof LENGTHS / sizeof *LENGTHS + 140; row++) {
        size_t length = row < 140 ? 65536 - 120 + row : LENGTHS[row - 140];
        struct charmap_set set;
        const struct charmap *map = &set.whole;
        write_charmap(path, length, row % 2 ? 0 : 'x');
        iconvd_status status = charmap_read(&set, folder, "TOY", "TOY", "map-TOY");
        check(status == ICONVD_OK && map->mappings == 2 && map->text.length == sizeof TEXT - 1 &&
                  memcmp(map->text.bytes, TEXT, sizeof TEXT - 1) == 0,
              "a comment of %zu bytes: status %d", length, (int)status);
        charmap_set_free(&set);
    }
    unlink(path);
    rmdir(folder);
}

static void test_repertoire(void) {
    static const char TEXT[] = "<code_set_name> TOY\n# <U0042> \\x01\nCHARMAP\n<U0041> \\x41\n<U0100>..<U0110> \\x80\n"
                               "<U0209>...<U0210> \\xA0\n<question-mark> \\x3f\nEND CHARMAP\n<U0043> \\x43\n";
    bool symbols = false;
    unsigned char *bits = charmap_repertoire(TEXT, sizeof TEXT - 1, &symbols);
    static const struct {
        uint32_t point;
        bool there;
    } ROWS[] = {{0x41, true},   {0x42, false},  {0xff, false}, {0x100, true},  {0x10a, true},
                {0x110, true},  {0x111, false}, {0x209, true}, {0x20a, false}, {0x210, true},
                {0x43, false}};
    for (size_t i = 0; i < sizeof ROWS / sizeof *ROWS; i++)
        check((bits[ROWS[i].point / 8] >> ROWS[i].point % 8 & 1) == ROWS[i].there, "U+%04X", ROWS[i].point);
    check(symbols, "a symbolic name");
    free(bits);
}

/* What is at the front of bytes, and how long the character is. */
struct front_row {
    const char *in;
    size_t left;
    enum front front;
    size_t length;
};

static void test_codes(void) {
    static const char TEXT[] = "<escape_char> /\n<U0001> /x05\nCHARMAP\n<U0041> /x41\n<U0042> /d066/x01\n<U0043> /103 a comment\n"
                               "<U0100>..<U0103> /x81/xfe\n %IRREVERSIBLE%<U0044> /x44\n\t<question-mark> /x3f\n"
                               "</U0200>..<U0/201> /xf0/x00/x00/x00/x00/x00/x00/xff\nEND CHARMAP\n<U0045> /x45\n";
    static const struct front_row ROWS[] = {
        {"\x42\x01", 2, WELL_FORMED, 2},     {"\x42\x02", 2, FAULTY, 0},
        {"\x41\x41", 2, WELL_FORMED, 1},     {"\x81\xfd\x81\xfe", 4, FAULTY, 0},
        {"\x81\xfe\x81\xfe", 4, WELL_FORMED, 2}, {"\x81\xff", 2, WELL_FORMED, 2},
        {"\x82\x00", 2, WELL_FORMED, 2},     {"\x82\x01", 2, WELL_FORMED, 2},
        {"\x82\x02", 2, FAULTY, 0},          {"\xf0\0\0\0\0\0\0\xff", 8, WELL_FORMED, 8},
        {"\xf0\0\0\0\0\0\1\0", 8, WELL_FORMED, 8}, {"\xf0\0\0\0\0\0\1\1", 8, FAULTY, 0},
        {"\xf0\0\0\0\0\0\1", 7, CUT_OFF, 0}, {"\xf0\0\0\0\0\0\2", 7, FAULTY, 0},
        {"\xf0\0", 2, CUT_OFF, 0},           {"\xf0\1", 2, FAULTY, 0},
    };
    struct codes *codes = codes_make(TEXT, sizeof TEXT - 1);
    size_t length;
    for (unsigned byte = 0; byte < 256; byte++) {
        bool whole = byte == 0x41 || byte == 0103 || byte == 0x3f, begins = byte == 66 || byte == 0x81 || byte == 0x82 || byte == 0xf0;
        unsigned char in = (unsigned char)byte;
        check(codes_front(codes, &in, 1, &length) == (whole ? WELL_FORMED : begins ? CUT_OFF : FAULTY), "the byte %02x", byte);
    }
    for (size_t i = 0; i < sizeof ROWS / sizeof *ROWS; i++) {
        enum front front = codes_front(codes, (const unsigned char *)ROWS[i].in, ROWS[i].left, &length);
        check(front == ROWS[i].front && (front != WELL_FORMED || length == ROWS[i].length), "codes, row %zu: %d", i, front);
    }
    codes_free(codes);
}

int main(void) {
    setlocale(LC_ALL, "C");
    test_requests();
    test_replies();
    test_lengths();
    test_names();
    test_characters();
    test_long_lines();
    test_repertoire();
    test_codes();
    check(strcmp(iconvd_status_text(ICONVD_ENOCHAR), "the target lacks the next character") == 0, "a status's text");
    check(strcmp(iconvd_status_text((iconvd_status)99), "no status") == 0, "the text of no status");
    return checks_end("frames");
}
