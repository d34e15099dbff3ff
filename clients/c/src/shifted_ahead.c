/* What a conversion from an encoding with shifts will meet after a fault.
 *
 * A caller that goes on a byte after each fault makes a call for each. So after a fault a call looks further: it brings a window of the
 * source to UTF-8, with the byte ff, which UTF-8 has not, for each fault. Calls then convert from that text, and foresight.c answers
 * them by few round trips, as long as the bytes are those that were looked at. */
#include "shifted.h"

enum { LEAST = 256, GROWTH = 16, MOST = 65536, CODE = 8 };

struct shift_ahead {
    struct iconvd_cd cd; /* from UTF-8 to the target */
    struct buffer in;    /* the window */
    struct buffer text;  /* its characters and faults */
    size_t used, read;   /* how much of both calls have had */
    size_t window;
};

/* The text from UTF-16BE, where a surrogate alone is a fault. */
static bool write_text(struct buffer *text, const struct buffer *units) {
    static const struct fronts FRONTS = {.kind = UTF_16BE};
    text->length = 0;
    if (!buffer_reserve(text, 2 * units->length))
        return false;
    for (size_t at = 0, width; at < units->length; at += width) {
        uint32_t character;
        if (front_at(&FRONTS, units->bytes + at, units->length - at, &width) != WELL_FORMED) {
            text->bytes[text->length++] = (char)0xff;
            continue;
        }
        front_character(&FRONTS, units->bytes + at, width, &character);
        text->length += character_write(UTF_8, character, text->bytes + text->length);
    }
    return true;
}

static struct shift_reading begin_reading(const struct iconvd_cd *cd, const char *in, size_t length) {
    return (struct shift_reading){.shifter = cd->shifted->from, .state = cd->shifted->reading, .in = in, .left = length};
}

/* Looks at the bytes before the caller. It looks further than before if calls have had all of that. */
static bool look(struct iconvd_cd *cd, struct shift_ahead *ahead, const struct progress *progress) {
    bool all = ahead->text.length > 0 && ahead->read == ahead->text.length;
    ahead->window = all ? GROWTH * ahead->window : LEAST;
    ahead->window = ahead->window < MOST ? ahead->window : MOST;
    struct shift_text text = {.plan = {.bytes = NULL}};
    struct buffer units = {.bytes = NULL};
    struct shift_reading reading =
        begin_reading(cd, progress->in, progress->in_left < ahead->window ? progress->in_left : ahead->window);
    reading.marks_faults = true;
    iconvd_status status = shift_read(&reading, SIZE_MAX, &text);
    bool there = status != ICONVD_ENOMEM && shift_text_convert(cd->pool, cd->shifted->from, &text, &units) == ICONVD_OK;
    ahead->in.length = ahead->text.length = ahead->used = ahead->read = 0;
    there = there && buffer_append(&ahead->in, progress->in, (size_t)(reading.in - progress->in)) && write_text(&ahead->text, &units);
    shift_text_free(&text);
    buffer_free(&units);
    return there && ahead->text.length > 0;
}

/* Whether the caller's bytes are those of the window, up to the next fault and what decides that it is one. */
static bool is_next(const struct iconvd_cd *cd, const struct shift_ahead *ahead, const struct progress *progress) {
    size_t left = ahead->in.length - ahead->used;
    if (ahead->read >= ahead->text.length || left > progress->in_left)
        return false;
    /* A fault has to be one in what the caller gives: a shorter text may only cut a code there. */
    struct shift_reading reading = begin_reading(cd, progress->in, left + CODE < progress->in_left ? left + CODE : progress->in_left);
    iconvd_status status = shift_read(&reading, SIZE_MAX, NULL);
    size_t used = (size_t)(reading.in - progress->in), needed = used + CODE;
    bool is_marked = memchr(ahead->text.bytes + ahead->read, 0xff, ahead->text.length - ahead->read) != NULL;
    if ((status == ICONVD_EINVAL && used < left) || (status == ICONVD_EILSEQ && used < left) != is_marked)
        return false;
    return memcmp(ahead->in.bytes + ahead->used, progress->in, needed < left ? needed : left) == 0;
}

/* Moves on by what was converted of the text, up to the fault if one has stopped it. */
static void move_on(struct iconvd_cd *cd, struct shift_ahead *ahead, struct progress *progress, size_t read, iconvd_status status) {
    struct shift_reading reading = begin_reading(cd, progress->in, progress->in_left);
    size_t characters = 0;
    for (size_t i = 0; i < read; i++)
        characters += ((unsigned char)ahead->text.bytes[ahead->read + i] & 0xc0) != 0x80;
    shift_read(&reading, characters, NULL);
    if (characters > 0)
        cd->shifted->last = reading.last;
    if (status == ICONVD_EILSEQ)
        shift_read(&reading, SIZE_MAX, NULL);
    size_t used = (size_t)(reading.in - progress->in);
    cd->shifted->reading = reading.state;
    progress->in += used;
    progress->in_left -= used;
    ahead->used += used + 1;
    ahead->read += read + 1;
    if (status == ICONVD_OK)
        ahead->read = ahead->text.length;
    else if (status != ICONVD_EILSEQ)
        ahead->text.length = ahead->read = 0;
}

static struct shift_ahead *begin(const struct iconvd_cd *cd) {
    struct shift_ahead *ahead = calloc(1, sizeof *ahead);
    if (!ahead)
        return NULL;
    ahead->cd = (struct iconvd_cd){
        .pool = cd->pool, .to = cd->to, .from = encoding_builtin(UTF_8), .policy = cd->policy, .ahead = SIZE_MAX};
    if (open_pair(&ahead->cd) == ICONVD_OK)
        return ahead;
    free(ahead);
    return NULL;
}

iconvd_status shift_ahead_convert(struct iconvd_cd *cd, struct progress *progress) {
    struct shifted *shifted = cd->shifted;
    if (!shifted->ahead)
        shifted->ahead = begin(cd);
    struct shift_ahead *ahead = shifted->ahead;
    if (!ahead || (!is_next(cd, ahead, progress) && !look(cd, ahead, progress)))
        return ICONVD_OK;
    struct progress part = *progress;
    part.in = ahead->text.bytes + ahead->read;
    part.in_left = ahead->text.length - ahead->read;
    size_t left = part.in_left;
    iconvd_status status = convert_part(&ahead->cd, &part);
    size_t read = left - part.in_left;
    progress->out = part.out;
    progress->out_left = part.out_left;
    progress->replaced = part.replaced;
    if (status == ICONVD_ENOCHAR)
        utf8_read(part.in, &shifted->lacking);
    move_on(cd, ahead, progress, read, status);
    return status;
}

void shift_ahead_end(struct shifted *shifted) {
    if (!shifted->ahead)
        return;
    foresight_end(&shifted->ahead->cd);
    buffer_free(&shifted->ahead->in);
    buffer_free(&shifted->ahead->text);
    free(shifted->ahead);
    shifted->ahead = NULL;
}
