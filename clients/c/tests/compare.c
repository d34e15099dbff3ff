/* Compares the preload library with the C library, call by call.
 *
 * Random texts in 29 encodings, half of them damaged, cut at random and with random room, go through both. After each call the return
 * value, errno, both pointers, both counts and the bytes have to be equal. A difference has to be of a kind that docs/CLIENTS.md
 * names; each is proved to be of its kind from the bytes, and every other one fails.
 *
 * COMPARE_CALLS says how many calls (200,000), COMPARE_SEED where the numbers begin (1). */
#include "differences.h"

static const char *const NAMES[] = {
    "UTF-8",      "UTF-16",     "UTF-16LE", "UTF-16BE", "UTF-32", "UTF-32LE", "UTF-32BE", "UCS-4", "WCHAR_T",
    "ASCII",      "LATIN1",     "LATIN2",   "GREEK",    "KOI8-R", "CP1251",   "CP1252",   "IBM037", "MACINTOSH",
    "ISO-8859-15", "TIS-620",   "EUC-JP",   "EUC-KR",   "GBK",    "BIG5",     "SJIS",     "EUC-TW",
    "GB18030",     "CP932",     "EUC-JP-MS",
};
enum { NAME_COUNT = sizeof NAMES / sizeof *NAMES };

static unsigned long kinds[KINDS], calls;

/* A character of one of the scripts that the encodings have. */
static uint32_t random_character(uint64_t *state) {
    static const uint32_t RANGES[][2] = {
        {0x20, 0x5f},   {0x0, 0x80},      {0xa0, 0x60},     {0x100, 0x80},   {0x391, 0x3a},  {0x410, 0x40},
        {0xe01, 0x3a},  {0x2010, 0x20},   {0x3041, 0x50},   {0x30a1, 0x50},  {0x4e00, 0x5200}, {0xac00, 0x2ba4},
        {0xff01, 0x5e}, {0x1f600, 0x50},  {0x20000, 0x100}, {0x2500, 0x80},
    };
    const uint32_t *range = RANGES[next_random(state) % (sizeof RANGES / sizeof *RANGES)];
    return range[0] + next_random(state) % range[1];
}

/* A text in the encoding, written by the C library, which passes over what the encoding lacks. */
static size_t make_text(const char *name, uint64_t *state, char *text) {
    iconv_t cd = theirs.open(name, "UTF-32LE");
    size_t length = 0, wanted_length = 1 + next_random(state) % 200;
    for (size_t i = 0; i < wanted_length; i++) {
        uint32_t character = random_character(state);
        char *in = (char *)&character, *out = text + length;
        size_t in_left = 4, out_left = 64;
        if (theirs.convert(cd, &in, &in_left, &out, &out_left) != (size_t)-1)
            length = (size_t)(out - text);
    }
    theirs.close(cd);
    return length;
}

static size_t damage(uint64_t *state, char *text, size_t length) {
    for (unsigned times = 1 + next_random(state) % 4; times > 0 && length > 2; times--) {
        size_t at = next_random(state) % (length - 1);
        switch (next_random(state) % 4) {
        case 0: text[at] = (char)next_random(state); break;
        case 1: text[at] ^= (char)(1u << next_random(state) % 8); break;
        case 2: memmove(text + at, text + at + 1, --length - at); break;
        default: length = at + 1; break;
        }
    }
    return length;
}

/* A text on its way through both. */
struct passing {
    const char *to, *from;
    bool ignore;
    const char *text;
    size_t length;
    size_t done;
    bool marked; /* output has been written */
};

/* UTF-16 and UTF-32 with the order that a text has. */
static const char *mark_free(const char *name, const char *text, size_t length) {
    bool big = length >= 2 && (unsigned char)text[0] == 0xfe && (unsigned char)text[1] == 0xff;
    bool wide_big = length >= 4 && memcmp(text, "\0\0\xfe\xff", 4) == 0;
    if (strcmp(name, "UTF-16") == 0)
        return big ? "UTF-16BE" : "UTF-16LE";
    if (strcmp(name, "UTF-32") == 0)
        return wide_big ? "UTF-32BE" : "UTF-32LE";
    return name;
}

/* How long the mark is at the front of a text of an encoding that has one; 0 where there is none. */
static size_t mark_at(const char *name, const char *text, size_t length) {
    size_t size = strcmp(name, "UTF-16") == 0 ? 2 : strcmp(name, "UTF-32") == 0 ? 4 : 0;
    static const char *const MARKS[] = {"\xff\xfe\0\0", "\xfe\xff", "\0\0\xfe\xff"};
    for (size_t i = 0; size > 0 && length >= size && i < 3; i++)
        if (i != (size == 2 ? 2 : 1) && memcmp(text, MARKS[i], size) == 0)
            return size;
    return 0;
}

/* Takes the marks off a result. */
static void take_off(struct result *result, size_t in_mark, size_t out_mark) {
    result->used = result->used > in_mark ? result->used - in_mark : 0;
    result->produced = result->produced > out_mark ? result->produced - out_mark : 0;
    memmove(result->bytes, result->bytes + out_mark, result->produced);
}

/* The kind of a difference between two calls. */
static enum kind find_kind(const struct passing *passing, const struct step *step, const struct result *mine, const struct result *other) {
    static struct result my_rest, other_rest;
    struct step rest = *step;
    size_t in_mark = passing->done == 0 ? mark_at(passing->from, step->in, step->length) : 0;
    size_t out_mark = passing->marked ? 0 : mark_at(passing->to, other->bytes, other->produced);
    my_rest = *mine;
    other_rest = *other;
    if (out_mark > 0 && mine->produced == 0 && other->produced == out_mark) {
        other_rest.produced = 0;
        bool same = mine->error == other->error && mine->used == other->used && strcmp(passing->from, "WCHAR_T") == 0;
        bool above = mine->used == other->used && is_above(passing->from, (const unsigned char *)step->in + mine->used, step->length - mine->used);
        return same ? WRITES_MARK : above ? ABOVE : UNKNOWN;
    }
    rest.to = mark_free(passing->to, "", 0);
    rest.from = mark_free(passing->from, passing->text, passing->length);
    rest.in += in_mark;
    rest.length -= in_mark;
    rest.room -= out_mark;
    take_off(&my_rest, in_mark, out_mark);
    take_off(&other_rest, in_mark, out_mark);
    return classify(&rest, &my_rest, &other_rest);
}

static bool is_equal(const struct result *mine, const struct result *other) {
    return mine->value == other->value && mine->error == other->error && mine->used == other->used && same_output(mine, other);
}

/* One call of both. False: they differ, and so the rest of the text says nothing. */
static bool compare_step(struct passing *passing, const struct step *step, iconv_t mine_cd, iconv_t other_cd, struct result *mine) {
    static struct result other;
    call(&ours, mine_cd, step->in, step->length, step->room, mine);
    call(&theirs, other_cd, step->in, step->length, step->room, &other);
    calls++;
    if (is_equal(mine, &other)) {
        passing->marked |= mine->produced > 0;
        return check(true, "equal");
    }
    enum kind kind = find_kind(passing, step, mine, &other);
    if (kind != UNKNOWN)
        kinds[kind]++;
    check(kind != UNKNOWN,
          "%s to %s%s, %zu bytes at %02x %02x %02x %02x, room %zu: value %zd errno %d used %zu wrote %zu, glibc %zd %d %zu %zu",
          passing->from, passing->to, step->ignore ? "//IGNORE" : "", step->length, step->in[0] & 255, step->in[1] & 255,
          step->in[2] & 255, step->in[3] & 255, step->room, (ssize_t)mine->value, mine->error, mine->used, mine->produced,
          (ssize_t)other.value, other.error, other.used, other.produced);
    return false;
}

/* How much of the text the next call has, and how much room. Each number is taken in a statement of its own, so that all compilers take
   them in the same order. */
static struct step next_step(const struct passing *passing, uint64_t *state) {
    struct step step = {.to = passing->to, .from = passing->from, .ignore = passing->ignore, .in = passing->text + passing->done};
    size_t left = passing->length - passing->done;
    bool is_small = next_random(state) % 4 == 0;
    bool is_whole = next_random(state) % 3 > 0;
    step.room = next_random(state) % (is_small ? 12 : 2000);
    size_t part = 1 + next_random(state) % left;
    step.length = is_whole ? left : part;
    return step;
}

/* A whole text through both, in pieces. */
static void compare_text(struct passing *passing, uint64_t *state) {
    static struct result mine;
    char target[40];
    snprintf(target, sizeof target, "%s%s", passing->to, passing->ignore ? "//IGNORE" : "");
    iconv_t mine_cd = ours.open(target, passing->from), other_cd = theirs.open(target, passing->from);
    if (!check(mine_cd != (iconv_t)-1, "%s to %s is not opened", passing->from, target))
        return;
    /* The C library does not open WCHAR_T to itself. */
    for (unsigned stalled = 0; other_cd != (iconv_t)-1 && passing->done < passing->length && stalled < 8;) {
        struct step step = next_step(passing, state);
        if (!compare_step(passing, &step, mine_cd, other_cd, &mine))
            break;
        /* Behind bytes that are no character both go on one byte later. */
        size_t used = mine.used + (mine.error == EILSEQ && !passing->ignore && mine.used < step.length);
        passing->done += used;
        stalled = used > 0 ? 0 : stalled + 1;
    }
    ours.close(mine_cd);
    if (other_cd != (iconv_t)-1)
        theirs.close(other_cd);
}

/* One text of two encodings. */
static void compare_pair(uint64_t *state) {
    static char text[TEXT * 8];
    struct passing passing = {.text = text};
    passing.to = NAMES[next_random(state) % NAME_COUNT];
    passing.from = NAMES[next_random(state) % NAME_COUNT];
    passing.ignore = next_random(state) % 4 == 0;
    passing.length = make_text(passing.from, state, text);
    if (next_random(state) % 2)
        passing.length = damage(state, text, passing.length);
    compare_text(&passing, state);
}

/* The loop of programs that read a text in parts: what a part cuts stays for the next one. */
static size_t read_in_parts(const struct library *library, const char *to, const char *from, char *out, size_t room) {
    static const char *const PARTS[] = {"na\xef" "ve, na\xc3", "\xaf" "ve, \xff\xd0\xb6\xe2", "\x82", "\xac."};
    iconv_t cd = library->open(to, from);
    char waiting[40], *at = out;
    size_t kept = 0;
    for (size_t i = 0; i < sizeof PARTS / sizeof *PARTS; i++) {
        char *in = waiting;
        memcpy(waiting + kept, PARTS[i], strlen(PARTS[i]));
        kept += strlen(PARTS[i]);
        size_t result = library->convert(cd, &in, &kept, &at, &room);
        if (result == (size_t)-1 && errno == EILSEQ)
            kept = 0; /* what //IGNORE left out: all is used */
        memmove(waiting, in, kept);
    }
    library->close(cd);
    return (size_t)(at - out);
}

static void compare_parts(void) {
    static const char *const TO[] = {"UTF-8//IGNORE", "UTF-16//IGNORE", "LATIN1//IGNORE", "KOI8-R//IGNORE"};
    for (size_t i = 0; i < sizeof TO / sizeof *TO; i++) {
        char mine[200], other[200];
        size_t length = read_in_parts(&ours, TO[i], "UTF-8", mine, sizeof mine);
        size_t other_length = read_in_parts(&theirs, TO[i], "UTF-8", other, sizeof other);
        check(length == other_length && memcmp(mine, other, length) == 0, "parts to %s: %.*s", TO[i], (int)length, mine);
    }
}

int main(void) {
    const char *count = getenv("COMPARE_CALLS"), *seed = getenv("COMPARE_SEED");
    unsigned long wanted_calls = count ? strtoul(count, NULL, 10) : 200000;
    uint64_t state = 0x9e3779b97f4a7c15u ^ (seed ? strtoul(seed, NULL, 10) : 1);
    ours = library_load(wanted("PRELOAD"));
    theirs = library_load("libc.so.6");
    compare_parts();
    while (calls < wanted_calls && checks_failed < 20)
        compare_pair(&state);
    printf("compare: %lu calls\n", calls);
    for (int kind = 0; kind < KINDS; kind++)
        printf("compare: %lu differences: %s\n", kinds[kind], KIND_NAMES[kind]);
    return checks_end("compare");
}
