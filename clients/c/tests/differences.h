/* The kinds of differences between both libraries that docs/CLIENTS.md names. Each one is proved to be of its kind from the bytes: the C
 * library does exactly what ours did, once the bytes that the kind is about are not there. */
#ifndef ICONVD_DIFFERENCES_H
#define ICONVD_DIFFERENCES_H

#include "calls.h"

enum kind { EARLY, ABOVE, ONE_WAY, FAULTY_LENGTH, WRITES_MARK, NO_ROOM, ROOM_FIRST, KINDS, UNKNOWN = KINDS, FAULT };
static const char *const KIND_NAMES[KINDS] = {
    "EILSEQ at once, of a multibyte charmap, where glibc waits for more",
    "values that Unicode has not, in UTF-8, UCS-4 and WCHAR_T, which glibc copies or passes over",
    "the tags U+E0000 to U+E007F, which glibc passes over where the target lacks them",
    "how many faulty bytes of a multibyte charmap //IGNORE leaves out",
    "glibc writes a mark before it has a character",
    "E2BIG by glibc where the room of WCHAR_T, or of UCS-4 from it, is full and the input is faulty or cut, too",
    "to EUC-JP with one or two bytes of room left, glibc does not look whether it has the character",
};

/* How many bytes the character at the front has by a library; 0 where it has none. Its bytes in the target go to `result`, which is an
   error where the target lacks it. */
static size_t read_one(const struct library *library, const struct step *step, const char *in, size_t length, struct result *result) {
    static struct result wide;
    struct step to_wide = {.to = "UTF-32LE", .from = step->from}, from_wide = {.to = step->to, .from = "UTF-32LE"};
    call_alone(library, &to_wide, in, length, 4, &wide);
    if (wide.produced != 4)
        return 0;
    call_alone(library, &from_wide, wide.bytes, 4, 40, result);
    return wide.used;
}

/* Whether the front of UTF-8, UCS-4 or WCHAR_T has a value that Unicode has not: above 10FFFF, or a surrogate in four bytes. */
static bool is_above(const char *name, const unsigned char *in, size_t length) {
    if (strcmp(name, "UTF-8") == 0)
        return length > 0 && (in[0] >= 0xf5 || (in[0] == 0xf4 && (length == 1 || in[1] >= 0x90)));
    bool little = strcmp(name, "WCHAR_T") == 0;
    if (length < 4 || (!little && strcmp(name, "UCS-4") != 0))
        return false;
    uint32_t value = little ? (uint32_t)in[3] << 24 | (uint32_t)in[2] << 16 | (uint32_t)in[1] << 8 | in[0]
                            : (uint32_t)in[0] << 24 | (uint32_t)in[1] << 16 | (uint32_t)in[2] << 8 | in[3];
    return value > 0x10ffff || (value >= 0xd800 && value < 0xe000);
}

static bool is_multibyte(const char *name) {
    static const char *const NAMES[] = {"EUC-JP", "EUC-KR", "GBK",       "BIG5", "SJIS",
                                        "EUC-TW", "CP932",  "EUC-JP-MS", "GB18030"};
    for (size_t i = 0; i < sizeof NAMES / sizeof *NAMES; i++)
        if (strcmp(NAMES[i], name) == 0)
            return true;
    return false;
}

/* Whether bytes are the beginning of no character for the C library either: it has none whatever follows, two bytes at most. */
static bool begins_none(const struct step *step, const char *in, size_t length, int depth) {
    static struct result result;
    struct step strict = {.to = "UTF-32LE", .from = step->from};
    char longer[16];
    if (length > 8 || !is_multibyte(step->from))
        return false;
    memcpy(longer, in, length);
    for (unsigned byte = 0; byte < 256; byte++) {
        longer[length] = (char)byte;
        call_alone(&theirs, &strict, longer, length + 1, 40, &result);
        bool waits = result.error == EINVAL && result.used == 0;
        if (result.produced > 0 || (waits && (depth == 0 || !begins_none(step, longer, length + 1, depth - 1))))
            return false;
    }
    return true;
}

/* Why ours leaves bytes out, or stops at them, that the C library does not treat so; and how many they are. UNKNOWN: both treat them
   alike. FAULT: for both they are no character. */
static enum kind gap_at(const struct step *step, const char *in, size_t left, size_t *length) {
    static struct result mine, other;
    bool four = strcmp(step->from, "UCS-4") == 0 || strncmp(step->from, "UTF-32", 6) == 0 || strcmp(step->from, "WCHAR_T") == 0;
    size_t unit = four ? 4 : strncmp(step->from, "UTF-16", 6) == 0 ? 2 : 1;
    *length = unit < left ? unit : left;
    if (is_above(step->from, (const unsigned char *)in, left))
        return ABOVE;
    size_t by_ours = read_one(&ours, step, in, left, &mine), by_theirs = read_one(&theirs, step, in, left, &other);
    if (by_ours > 0 && by_theirs != by_ours)
        return UNKNOWN;
    *length = by_theirs > 0 ? by_theirs : *length;
    if (by_theirs > 0)
        return other.error == 0 && (by_ours == 0 || mine.error == EILSEQ) ? ONE_WAY : UNKNOWN;
    struct step strict = {.to = "UTF-32LE", .from = step->from};
    call_alone(&theirs, &strict, in, left, 4, &other);
    call_alone(&ours, &strict, in, left, 4, &mine);
    if (mine.error == EILSEQ && other.error == EINVAL && begins_none(step, in, left, 1))
        return EARLY;
    if (mine.error != EILSEQ || other.error != EILSEQ)
        return UNKNOWN;
    return is_multibyte(step->from) ? FAULTY_LENGTH : FAULT;
}

/* A difference where the conversion stops: both are the same up to the place, and what is there is of a kind. */
static enum kind classify_stop(const struct step *step, const struct result *mine, const struct result *other) {
    static struct result before;
    size_t length;
    call_alone(&theirs, step, step->in, mine->used, OUT, &before);
    if (mine->error != EILSEQ || before.error != 0 || before.used != mine->used || !same_output(&before, mine))
        return UNKNOWN;
    enum kind kind = gap_at(step, step->in + mine->used, step->length - mine->used, &length);
    bool stays = other->used == mine->used && other->produced == mine->produced;
    if (kind == EARLY)
        return other->error == EINVAL && stays ? EARLY : UNKNOWN;
    return (kind == ABOVE || kind == ONE_WAY) && other->used >= mine->used ? kind : UNKNOWN;
}

/* A text without what ours leaves out of it otherwise than the C library, and without faults: what follows one might go on from it. */
struct cleaned {
    char text[TEXT * 8];
    size_t from[TEXT * 8]; /* where each byte was */
    size_t length;
    enum kind kind; /* of the first gap */
    bool lacking;   /* some of it the target lacks, for ours */
};

/* Whether the target lacks the character at the front for both. */
static bool is_lacking(const struct step *step, const char *in, size_t left) {
    static struct result other;
    return read_one(&theirs, step, in, left, &other) > 0 && other.error == EILSEQ;
}

static void clean(const struct step *step, bool drops_lacking, struct cleaned *cleaned) {
    cleaned->length = 0;
    cleaned->kind = UNKNOWN;
    cleaned->lacking = false;
    for (size_t at = 0, length; at < step->length; at += length) {
        enum kind kind = gap_at(step, step->in + at, step->length - at, &length);
        if (drops_lacking && kind == UNKNOWN && is_lacking(step, step->in + at, step->length - at))
            kind = ROOM_FIRST;
        for (size_t i = 0; kind == UNKNOWN && i < length; i++) {
            cleaned->from[cleaned->length] = at + i;
            cleaned->text[cleaned->length++] = step->in[at + i];
        }
        static struct result mine;
        cleaned->lacking |= (kind == ONE_WAY || kind == ROOM_FIRST) && read_one(&ours, step, step->in + at, step->length - at, &mine) > 0;
        /* A fault is a difference only if there is another, or the lengths differ. */
        if (kind < KINDS && (cleaned->kind == UNKNOWN || cleaned->kind == FAULTY_LENGTH))
            cleaned->kind = kind;
    }
}

/* A difference with //IGNORE: the C library does the same with the text that is cleaned, and ours says that something was left out. */
static enum kind classify_ignored(const struct step *step, const struct result *mine, bool drops_lacking) {
    static struct cleaned cleaned;
    static struct result other;
    clean(step, drops_lacking, &cleaned);
    call_alone(&theirs, step, cleaned.text, cleaned.length, step->room, &other);
    size_t least = other.used > 0 ? cleaned.from[other.used - 1] + 1 : 0;
    size_t most = other.used < cleaned.length ? cleaned.from[other.used] : step->length;
    /* What is left out is said at the end, and where that cuts a character if the target lacks it. */
    bool is_said = other.error == 0 || (other.error == EINVAL && cleaned.lacking && strcmp(step->from, "WCHAR_T") != 0);
    bool same = mine->error == (is_said ? EILSEQ : other.error) && same_output(mine, &other) && least <= mine->used && mine->used <= most;
    return same ? cleaned.kind : UNKNOWN;
}

/* Where there is little room the C library may not look at the character: with more room it says what ours says. */
static enum kind classify_room(const struct step *step, const struct result *mine, const struct result *other) {
    static struct result more;
    size_t room = step->room - mine->produced;
    if (other->error != E2BIG || !same_output(mine, other) || other->used > mine->used)
        return UNKNOWN;
    /* What ours passed over has no output. */
    call_alone(&theirs, step, step->in + other->used, mine->used - other->used, OUT, &more);
    if (more.produced != 0 || more.used != mine->used - other->used)
        return UNKNOWN;
    /* If that is all, it says what was left out; else what follows says why it stops. */
    if (mine->used < step->length)
        call_alone(&theirs, step, step->in + mine->used, step->length - mine->used, OUT, &more);
    bool stays = mine->used == step->length || more.used == 0;
    bool same = mine->error == E2BIG ? more.produced > room : more.error == mine->error && stays;
    bool is_wide = strcmp(step->to, "WCHAR_T") == 0 || (strcmp(step->from, "WCHAR_T") == 0 && strcmp(step->to, "UCS-4") == 0);
    if (same && is_wide && room < 4)
        return NO_ROOM;
    return same && strcmp(step->to, "EUC-JP") == 0 && room > 0 && room < 3 ? ROOM_FIRST : UNKNOWN;
}

static enum kind classify(const struct step *step, const struct result *mine, const struct result *other) {
    enum kind kind = classify_room(step, mine, other);
    if (kind == UNKNOWN && !step->ignore)
        kind = classify_stop(step, mine, other);
    if (kind == UNKNOWN && step->ignore)
        kind = classify_ignored(step, mine, false);
    size_t room = step->room - other->produced;
    bool may_be_room = strcmp(step->to, "EUC-JP") == 0 && other->error == E2BIG && room > 0 && room < 3;
    return kind == UNKNOWN && step->ignore && may_be_room ? classify_ignored(step, mine, true) : kind;
}

#endif
