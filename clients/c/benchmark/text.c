/* Texts and what their conversions should give, by the C library. */
#include "text.h"

#include <errno.h>
#include <iconv.h>
#include <stdio.h>
#include <string.h>
#include <strings.h>

#include "options.h"

static const struct {
    const char *name;
    const char *text;
} TEXTS[] = {
    {"ascii", "The quick brown fox jumps over the lazy dog, and then some more. "},
    {"latin", "Zw\u00f6lf Boxk\u00e4mpfer jagen Viktor quer \u00fcber den gro\u00dfen Deich. \u00c7a va, No\u00ebl? "},
    {"cyrillic", "\u0421\u044a\u0435\u0448\u044c \u0436\u0435 \u0435\u0449\u0451 \u044d\u0442\u0438\u0445 \u043c\u044f\u0433\u043a\u0438\u0445 "
                 "\u0444\u0440\u0430\u043d\u0446\u0443\u0437\u0441\u043a\u0438\u0445 \u0431\u0443\u043b\u043e\u043a. "},
    {"cjk", "\u3044\u308d\u306f\u306b\u307b\u3078\u3068\u3001\u6771\u4eac\u306e\u7a7a\u306f\u9752\u3044\u3002\u65e5\u672c\u8a9e\u306e\u6587\u3002"},
    {"emoji", "\U0001f600 smile \U0001f680\U0001f30d go \U0001f44d ok. "},
};

/* A conversion of one character at a time from UTF-32BE. */
struct encoder {
    iconv_t cd;
    struct buffer *to;
    size_t most;    /* bytes in `to` */
    size_t reserve; /* how many of these have to be free before a character: with shifts none can be taken back */
};

/* The most that a character, and what closes the text, take in UTF-7. */
enum { UTF7_RESERVE = 12 };

static void append(struct buffer *buffer, const char *bytes, size_t length) {
    if (!buffer_append(buffer, bytes, length))
        give_up(1, "out of memory");
}

/* The C library's name: it reads and writes UTF-16 and UTF-32 in the machine's order, the service big-endian. */
static const char *library_name(const char *name) {
    if (strcasecmp(name, "UTF-16") == 0)
        return "UTF-16BE";
    return strcasecmp(name, "UTF-32") == 0 ? "UTF-32BE" : name;
}

static iconv_t open_conversion(const char *to, const char *from) {
    iconv_t cd = iconv_open(library_name(to), library_name(from));
    if (cd == (iconv_t)-1)
        give_up(2, "the C library does not convert from %s to %s", from, to);
    return cd;
}

/* Encodes a character, or closes the text where `character` is NULL. False: the encoding lacks it, or it does not fit. */
static bool encode(struct encoder *encoder, const char *character) {
    char bytes[32], *in = (char *)(uintptr_t)character, *out = bytes;
    size_t left = 4, room = sizeof bytes;
    if (encoder->to->length + encoder->reserve > encoder->most)
        return false;
    size_t done = iconv(encoder->cd, character ? &in : NULL, &left, &out, &room);
    size_t length = sizeof bytes - room;
    if (done != 0 || encoder->to->length + length > encoder->most)
        return false;
    append(encoder->to, bytes, length);
    return true;
}

static void read_file(const char *path, struct buffer *bytes) {
    char piece[4096];
    size_t length;
    FILE *file = fopen(path, "rbe");
    if (!file)
        give_up(2, "neither a text nor a file: %s", path);
    while ((length = fread(piece, 1, sizeof piece, file)) > 0)
        append(bytes, piece, length);
    fclose(file);
}

/* The characters of the text that the source has, each as four bytes of UTF-32BE. */
static void read_characters(const struct text_request *request, struct buffer *characters) {
    struct buffer utf8 = {.bytes = NULL}, wide = {.bytes = NULL}, dropped = {.bytes = NULL};
    for (size_t i = 0; i < sizeof TEXTS / sizeof *TEXTS; i++)
        if (strcmp(TEXTS[i].name, request->text) == 0)
            append(&utf8, TEXTS[i].text, strlen(TEXTS[i].text));
    if (utf8.length == 0)
        read_file(request->text, &utf8);
    if (!buffer_reserve(&wide, 4 * utf8.length + 4))
        give_up(1, "out of memory");
    char *in = utf8.bytes, *out = wide.bytes;
    size_t left = utf8.length, room = wide.room;
    iconv_t cd = open_conversion("UTF-32BE", "UTF-8");
    iconv(cd, &in, &left, &out, &room);
    iconv_close(cd);
    struct encoder source = {.cd = open_conversion(request->from, "UTF-32BE"), .to = &dropped, .most = SIZE_MAX};
    for (const char *at = wide.bytes; at < out; at += 4)
        if (encode(&source, at))
            append(characters, at, 4);
    iconv_close(source.cd);
    buffer_free(&utf8);
    buffer_free(&wide);
    buffer_free(&dropped);
    if (characters->length == 0)
        give_up(2, "%s has no character of the text %s", request->from, request->text);
}

void text_make(struct sample *sample, const struct text_request *request) {
    static const char QUESTION[] = "\0\0\0?";
    struct buffer characters = {.bytes = NULL};
    *sample = (struct sample){.replaced = 0};
    read_characters(request, &characters);
    struct encoder source = {.cd = open_conversion(request->from, "UTF-32BE"), .to = &sample->input, .most = request->bytes};
    source.reserve = strcasecmp(request->from, "UTF-7") == 0 ? UTF7_RESERVE : 0;
    struct encoder target = {.to = &sample->output, .most = SIZE_MAX};
    if (request->expected)
        target.cd = open_conversion(request->to, "UTF-32BE");
    for (size_t at = 0; encode(&source, characters.bytes + at); at = (at + 4) % characters.length) {
        if (request->expected && !encode(&target, characters.bytes + at)) {
            encode(&target, QUESTION);
            sample->replaced++;
        }
    }
    source.reserve = 0;
    encode(&source, NULL);
    iconv_close(source.cd);
    if (request->expected)
        iconv_close(target.cd);
    buffer_free(&characters);
    if (sample->input.length == 0)
        give_up(2, "%zu bytes are too few for a character of %s", request->bytes, request->from);
}
