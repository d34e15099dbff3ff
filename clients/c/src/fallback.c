/* Goes on by the C library where the service has gone. */
#include <errno.h>
#include <stdio.h>

#include "composed.h"
#include "preload.h"
#include "shifted.h"

/* The name to go on by in the middle of a text: once a mark is written or read, UTF-16 and UTF-32 have an order. */
static const char *name_now(const struct encoding *asked, const struct encoding *now, bool begun, const char *name) {
    return begun && asked != now ? now->name : name;
}

static iconv_t open_now(const struct handle *handle) {
    /* Of a conversion with shifts on one side, the other one may have an order. */
    const struct iconvd_cd *cd = handle->cd;
    if (cd->composed)
        cd = cd->composed->source ? cd->composed->source : cd->composed->target;
    cd = cd->shifted ? &cd->shifted->inner : cd;
    char to[300];
    const char *name = name_now(cd->to, cd->pair.to, cd->mark_written, handle->to);
    bool same = name == handle->to;
    snprintf(to, sizeof to, "%s%s%s", name, !same && handle->cd->policy & ICONVD_TRANSLIT ? "//TRANSLIT" : "",
             !same && handle->cd->policy & ICONVD_IGNORE ? "//IGNORE" : "");
    return settings()->libc.open(to, name_now(cd->from, cd->pair.from, cd->order_known, handle->from));
}

/* The bytes of the letter that a conversion holds, in the source's encoding. Returns how many; 0: it cannot be told. */
static size_t spell_held(const struct handle *handle, char *bytes, size_t room) {
    const struct composed *composed = handle->cd->composed;
    char text[4], *in = text;
    struct buffer units = {.bytes = text};
    units_append(&units, composed->held);
    size_t left = units.length, before = room;
    iconv_t cd = settings()->libc.open(handle->from, "UTF-16BE");
    /* Of a code that is a letter and a mark the first one is written already. */
    bool is_whole = composed->source || composed->by->kind != COMPOSES_PAIRS;
    if (cd == (iconv_t)-1)
        return 0;
    bool there = is_whole && settings()->libc.convert(cd, &in, &left, &bytes, &room) == 0;
    settings()->libc.close(cd);
    return there ? before - room : 0;
}

/* The conversion from UTF-16BE to UTF-7 that stands behind another one; NULL: there is none. */
static const struct iconvd_cd *utf7_behind(const struct iconvd_cd *cd) {
    const struct iconvd_cd *target = cd->composed ? cd->composed->target : cd;
    if (target->shifted && target->shifted->from)
        target = &target->shifted->inner;
    return target != cd && target->own ? target : NULL;
}

/* Whether it is known which state that one had. */
static bool knows_utf7(const struct iconvd_cd *cd) {
    const struct iconvd_cd *behind = utf7_behind(cd);
    const char *bytes;
    size_t length;
    return !behind || own_history(behind, &bytes, &length);
}

/* Feeds bytes to a conversion of the C library. What it writes the host has had. */
static bool feed(iconv_t cd, const char *bytes, size_t left) {
    char dropped[4096], *in = (char *)(uintptr_t)bytes;
    while (left > 0) {
        char *out = dropped;
        size_t room = sizeof dropped;
        if (settings()->libc.convert(cd, &in, &left, &out, &room) == (size_t)-1 && errno != E2BIG)
            return errno == EINVAL;
    }
    return true;
}

/* Brings a conversion from or to UTF-7, or from an encoding with shifts, to the state that ours had. */
static bool feed_history(const struct handle *handle) {
    char sequences[SHIFT_SEQUENCES];
    const char *bytes = sequences;
    size_t left = 0;
    if (handle->cd->shifted && handle->cd->shifted->from) {
        left = shift_spell(handle->cd->shifted->from, &handle->cd->shifted->reading, sequences);
    } else if (handle->cd->composed && handle->cd->composed->held) {
        left = spell_held(handle, sequences, sizeof sequences);
        if (left == 0)
            return false;
    } else if (handle->cd->own && !own_history(handle->cd, &bytes, &left)) {
        return false;
    }
    return feed(handle->real, bytes, left);
}

bool handle_fall_back(struct handle *handle, iconvd_status why) {
    if (!settings()->falls_back)
        return false;
    handle->real = open_now(handle);
    bool there = handle->real != (iconv_t)-1 && knows_utf7(handle->cd) && feed_history(handle);
    settings_log("%s to %s: %s; the C library %s", handle->from, handle->to, iconvd_status_text(why),
                 there ? "goes on" : "cannot go on");
    if (!there && handle->real != (iconv_t)-1) {
        settings()->libc.close(handle->real);
        handle->real = (iconv_t)-1;
    }
    handle->in_the_middle = there;
    return there;
}

/* Writes what ends a text in UTF-7, as the C library does after what ours was given. False: there is no room. */
static bool end_utf7(const struct iconvd_cd *behind, char **out, size_t *out_left) {
    const char *bytes;
    size_t left;
    iconv_t cd = settings()->libc.open("UTF-7", "UTF-16BE");
    if (cd == (iconv_t)-1)
        return true;
    bool there = own_history(behind, &bytes, &left) && feed(cd, bytes, left);
    bool full = there && settings()->libc.convert(cd, NULL, NULL, out, out_left) == (size_t)-1;
    settings()->libc.close(cd);
    return !full;
}

bool handle_shift_back(struct handle *handle, char **out, size_t *out_left) {
    struct shifted *shifted = handle->cd->shifted;
    const struct iconvd_cd *behind = utf7_behind(handle->cd);
    if (settings()->falls_back && behind && out && *out)
        return end_utf7(behind, out, out_left);
    /* Where the header is due nothing was written yet, and the C library writes it. */
    if (!settings()->falls_back || !shifted || !shifted->to || shifted->writing.header_due || !out || !*out)
        return true;
    if (!shift_end(shifted->to, &shifted->writing, out, out_left))
        return false;
    shifted->writing = shift_begin(shifted->to, true);
    shifted->writing.header_due = false;
    return true;
}

bool handle_start_again(struct handle *handle) {
    const struct libc *libc = &settings()->libc;
    if (!handle->in_the_middle)
        return true;
    iconv_t fresh = libc->open(handle->to, handle->from);
    if (fresh == (iconv_t)-1)
        return false;
    libc->close(handle->real);
    handle->real = fresh;
    handle->in_the_middle = false;
    return true;
}
