/* Makes the requests and the replies that they should have. */
#include "workload.h"

#include <stdio.h>
#include <string.h>
#include <strings.h>

#include "../src/charmaps.h"
#include "../src/frames.h"
#include "../src/names.h"

static const iconvd_asker NOBODY = {0, 0};

void frame_address(char *frame, uint32_t caller, uint32_t tag) {
    put_u32((unsigned char *)frame + 4, caller);
    put_u32((unsigned char *)frame + 8, tag);
}

static struct step *add_step(struct script *script) {
    return &script->steps[script->step_count++];
}

static void append(struct buffer *buffer, const void *bytes, size_t length) {
    if (!buffer_append(buffer, bytes, length))
        give_up(1, "out of memory");
}

/* A request of a whole frame whose reply has no body. */
static struct step *add_frame(struct script *script, const unsigned char *frame, size_t length) {
    struct step *step = add_step(script);
    append(&step->frame, frame, length);
    step->body_known = true;
    return step;
}

/* A request with this body. */
static struct step *add_request(struct script *script, uint8_t op, const void *body, size_t length) {
    unsigned char head[ICONVD_FRAME_HEAD];
    iconvd_frame_head(head, NOBODY, op, length);
    struct step *step = add_frame(script, head, sizeof head);
    append(&step->frame, body, length);
    return step;
}

static void expect_number(struct step *step, uint32_t number) {
    unsigned char bytes[4];
    put_u32(bytes, number);
    append(&step->body, bytes, sizeof bytes);
}

/* Requests of the mix use descriptor 0, and RESET, which changes what comes next, one of its own. */
enum { CONVERTS, RESETS, OPENED };

static void add_open(struct script *script, const struct options *options, uint32_t descriptor) {
    unsigned char frame[ICONVD_OPEN_FRAME];
    size_t length = iconvd_frame_open(frame, NOBODY, options->to, options->from, options->strict);
    if (length == 0)
        give_up(2, "a name of more than 255 bytes");
    expect_number(add_frame(script, frame, length), descriptor);
}

/* A CONV of a text. The reply is not known for UTF-7, which keeps bits from one text to the next, and without --verify. */
static void add_conv(struct script *script, const struct options *options, size_t bytes) {
    struct sample sample;
    text_make(&sample, &(struct text_request){options->text, options->from, options->to, bytes, options->verify});
    size_t room = options->verify ? sample.output.length + 16 : 8 * sample.input.length + 16;
    if (options->verify && sample.output.length > ICONVD_MAX_ROOM)
        give_up(2, "%zu bytes of text are more than %u bytes of output", bytes, ICONVD_MAX_ROOM);
    unsigned char head[ICONVD_CONV_HEAD];
    iconvd_frame_conv(head, NOBODY, CONVERTS, (uint32_t)(room < ICONVD_MAX_ROOM ? room : ICONVD_MAX_ROOM), sample.input.length);
    struct step *step = add_frame(script, head, sizeof head);
    append(&step->frame, sample.input.bytes, sample.input.length);
    step->body_known = options->verify;
    expect_number(step, 0);
    expect_number(step, sample.replaced);
    append(&step->body, sample.output.bytes, sample.output.length);
    script->bytes = sample.input.length;
    buffer_free(&sample.input);
    buffer_free(&sample.output);
}

static void add_close(struct script *script, uint32_t descriptor) {
    unsigned char frame[ICONVD_CONV_HEAD];
    add_frame(script, frame, iconvd_frame_close(frame, NOBODY, descriptor));
}

/* A text that is not measured: a target with a mark writes it before the first text alone. */
static void add_mark(struct script *script, const struct options *options) {
    struct options one = *options;
    one.verify = false;
    add_conv(script, &one, 16);
}

/* A charmap of so many mappings: ASCII first, then two bytes each. */
static void add_upload(struct script *script, const struct options *options) {
    static const char HEAD[] = "<code_set_name> BENCHMARK\n<mb_cur_max> 2\nCHARMAP\n";
    struct buffer text = {.bytes = NULL};
    char line[64];
    append(&text, HEAD, sizeof HEAD - 1);
    append(&text, "<U003F> \\x3F\n", 13);
    for (unsigned i = 0; i + 1 < options->mappings; i++) {
        int length = snprintf(line, sizeof line, "<U%04X> \\x%02X\\x%02X\n", 0x4000 + i, 0x80 + i / 256, i % 256);
        append(&text, line, (size_t)length);
    }
    append(&text, "END CHARMAP\n", 12);
    expect_number(add_request(script, ICONVD_PUT, text.bytes, text.length), options->mappings);
    add_request(script, ICONVD_DROP, "\011BENCHMARK", 10);
    buffer_free(&text);
}

/* A charmap, in PARTs as far as it has more bytes than a frame. The replies' numbers are not known. */
static void add_put(struct script *script, const struct buffer *text) {
    size_t at = 0;
    for (; text->length - at > ICONVD_MAX_BODY; at += ICONVD_MAX_BODY)
        add_request(script, ICONVD_PART, text->bytes + at, ICONVD_MAX_BODY)->body_known = false;
    add_request(script, ICONVD_PUT, text->bytes + at, text->length - at)->body_known = false;
}

/* The charmap of one end of the conversion, if it is none of the service's own encodings. It gives the service's name. */
static const char *add_charmap(struct script *opening, const char *written) {
    struct parsed_name parsed;
    int number = name_parse(&parsed, written) ? name_find(parsed.name) : -1;
    if (number < 0)
        give_up(2, "no encoding: %s", written);
    if (number < BUILTIN_COUNT)
        return builtin_name((enum builtin)number);
    struct charmap_set set;
    const char *file = charmap_file((size_t)number - BUILTIN_COUNT), *name = charmap_name((size_t)number - BUILTIN_COUNT);
    if (charmap_read(&set, "/usr/share/i18n/charmaps", file, name, name) != ICONVD_OK)
        give_up(2, "no charmap in /usr/share/i18n/charmaps: %s", file);
    add_put(opening, &set.whole.text);
    charmap_set_free(&set);
    return name;
}

static void make_script(struct script *script, const struct options *options, size_t bytes) {
    unsigned char frame[ICONVD_CONV_HEAD];
    switch (script->kind) {
    case KIND_CONV: add_conv(script, options, bytes); break;
    case KIND_OPEN:
        add_open(script, options, OPENED);
        add_close(script, OPENED);
        break;
    case KIND_RESET: add_frame(script, frame, iconvd_frame_reset(frame, NOBODY, RESETS, 0)); break;
    case KIND_UPLOAD: add_upload(script, options); break;
    case KIND_PING:
    case KIND_COUNT: add_request(script, ICONVD_BYE, NULL, 0)->is_ping = true; break;
    }
}

static void add_script(struct workload *workload, const struct options *options, enum kind kind, size_t bytes) {
    struct script *script = &workload->scripts[workload->script_count++];
    script->kind = kind;
    script->share = options->shares[kind];
    workload->shares += script->share;
    make_script(script, options, bytes);
}

static bool is_utf7(const char *name) {
    return strcasecmp(name, "UTF-7") == 0;
}

void workload_make(struct workload *workload, const struct options *options) {
    struct options named = *options;
    *workload = (struct workload){.script_count = 0};
    named.from = add_charmap(&workload->opening, options->from);
    named.to = strcasecmp(options->to, options->from) == 0 ? named.from : add_charmap(&workload->opening, options->to);
    if (options->verify && is_utf7(named.to))
        give_up(2, "--verify knows no replies in UTF-7");
    add_open(&workload->opening, &named, CONVERTS);
    add_open(&workload->opening, &named, RESETS);
    if (options->shares[KIND_CONV] > 0)
        add_mark(&workload->opening, &named);
    for (size_t i = 0; i < options->size_count && options->shares[KIND_CONV] > 0; i++)
        add_script(workload, &named, KIND_CONV, options->sizes[i]);
    for (int kind = KIND_CONV + 1; kind < KIND_COUNT; kind++)
        if (options->shares[kind] > 0)
            add_script(workload, &named, (enum kind)kind, 0);
}
