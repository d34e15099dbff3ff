/* Compares the preload library with the C library, call by call, over encodings with shifts and escapes.
 *
 * Random texts in them and in others, half of those with shifts damaged, cut at random, with random room and with resets between, go
 * through both; so does each character and each code. After each call the return value, errno, both pointers, both counts and the bytes
 * have to be equal. `~` and the tags of languages are not in the texts: docs/CLIENTS.md says what is different there.
 *
 * SHIFTS_CALLS says how many calls (200,000), SHIFTS_SEED where the numbers begin (1). */
#include "calls.h"

static const char *const SHIFTED[] = {"ISO-2022-JP", "ISO-2022-JP-2", "ISO-2022-KR"};
static const char *const OTHERS[] = {"UTF-8", "UTF-16", "UTF-16LE", "UTF-32BE", "WCHAR_T", "LATIN1", "KOI8-R", "ASCII", "CP1252", "GREEK"};
enum { SHIFTED_COUNT = sizeof SHIFTED / sizeof *SHIFTED, OTHER_COUNT = sizeof OTHERS / sizeof *OTHERS };

/* What texts are damaged with. */
static const char *const FRAGMENTS[] = {"\x1b(B",  "\x1b(J", "\x1b(I", "\x1b$@", "\x1b$B",  "\x1b$A", "\x1b$(C", "\x1b$(D", "\x1b.A",
                                        "\x1b.F",  "\x1bN",  "\x0e",   "\x0f",   "\x1b$)C", "\x1b",   "\x80",    "0!",      "\n"};
enum { FRAGMENT_COUNT = sizeof FRAGMENTS / sizeof *FRAGMENTS };

static unsigned long calls;

/* A character of one of the scripts that the encodings have, in runs. */
static uint32_t random_character(uint64_t *state) {
    static const uint32_t RANGES[][2] = {
        {0x20, 0x5e},     {0x20, 0x5e},     {0x0, 0x20},       {0x80, 0x80},     {0x391, 0x3a},   {0x410, 0x40},   {0x3041, 0x50},
        {0x30a1, 0x50},   {0x4e00, 0x5200}, {0x4e00, 0x5200},  {0xac00, 0x2ba4}, {0xff61, 0x3f},  {0xff01, 0x5d},  {0xa5, 0x1},
        {0x1f600, 0x50},  {0x2500, 0x80},   {0x100, 0x80},     {0x20ac, 0x1},
    };
    static const uint32_t *range = RANGES[0];
    if (next_random(state) % 3 == 0)
        range = RANGES[next_random(state) % (sizeof RANGES / sizeof *RANGES)];
    return range[0] + next_random(state) % range[1];
}

/* A text in the encoding, written by the C library, which passes over what the encoding lacks. */
static size_t make_text(const char *name, uint64_t *state, char *text) {
    iconv_t cd = theirs.open(name, "UTF-32LE");
    size_t length = 0, wanted_length = 1 + next_random(state) % 120;
    for (size_t i = 0; i < wanted_length; i++) {
        uint32_t character = random_character(state);
        char *in = (char *)&character, *out = text + length;
        size_t in_left = 4, out_left = 64;
        if (theirs.convert(cd, &in, &in_left, &out, &out_left) != (size_t)-1)
            length = (size_t)(out - text);
    }
    theirs.close(cd);
    return length;
}

static size_t insert(char *text, size_t length, size_t at, const char *fragment) {
    size_t more = strlen(fragment);
    memmove(text + at + more, text + at, length - at);
    memcpy(text + at, fragment, more);
    return length + more;
}

static size_t damage(uint64_t *state, char *text, size_t length) {
    for (unsigned times = 1 + next_random(state) % 4; times > 0 && length > 2; times--) {
        size_t at = next_random(state) % (length - 1);
        char byte = (char)next_random(state);
        switch (next_random(state) % 5) {
        case 0: text[at] = byte == '~' ? ' ' : byte; break;
        case 1: memmove(text + at, text + at + 1, --length - at); break;
        case 2: length = at + 1; break;
        default: length = insert(text, length, at, FRAGMENTS[next_random(state) % FRAGMENT_COUNT]); break;
        }
    }
    return length;
}

/* A text on its way through both. */
struct passing {
    const char *to, *from;
    bool ignore;
    const char *text;
    size_t length, done;
    iconv_t mine, other;
};

static bool is_equal(const struct passing *passing, const struct result *mine, const struct result *other, size_t length, size_t room) {
    const char *in = passing->text + passing->done;
    bool same = mine->value == other->value && mine->error == other->error && mine->used == other->used && same_output(mine, other);
    return check(same, "%s to %s%s, %zu bytes at %02x %02x %02x %02x, room %zu: %zd, errno %d, used %zu, wrote %zu, glibc %zd %d %zu %zu",
                 passing->from, passing->to, passing->ignore ? "//IGNORE" : "", length, in[0] & 255, in[1] & 255, in[2] & 255,
                 in[3] & 255, room, (ssize_t)mine->value, mine->error, mine->used, mine->produced, (ssize_t)other->value, other->error,
                 other->used, other->produced);
}

static void reset(const struct library *library, iconv_t cd, size_t room, struct result *result) {
    char *out = result->bytes;
    size_t left = room;
    errno = 0;
    *result = (struct result){.value = library->convert(cd, NULL, NULL, &out, &left), .produced = room - left};
    result->error = errno;
}

/* One call of both, and sometimes a reset before it. Returns how far the text has come; 0: they differ. */
static size_t compare_step(struct passing *passing, uint64_t *state) {
    static struct result mine, other;
    size_t left = passing->length - passing->done;
    bool is_small = next_random(state) % 4 == 0, is_whole = next_random(state) % 3 > 0, resets = next_random(state) % 20 == 0;
    size_t room = next_random(state) % (is_small ? 12 : 2000), part = 1 + next_random(state) % left, length = is_whole ? left : part;
    if (resets) {
        reset(&ours, passing->mine, room % 8, &mine);
        reset(&theirs, passing->other, room % 8, &other);
        if (!is_equal(passing, &mine, &other, 0, room % 8))
            return 0;
    }
    call(&ours, passing->mine, passing->text + passing->done, length, room, &mine);
    call(&theirs, passing->other, passing->text + passing->done, length, room, &other);
    calls++;
    if (!is_equal(passing, &mine, &other, length, room))
        return 0;
    /* Behind what is in the way both go on one unit later. */
    bool wide = strcmp(passing->from, "WCHAR_T") == 0 || strcmp(passing->from, "UTF-32BE") == 0;
    size_t unit = wide ? 4 : strncmp(passing->from, "UTF-16", 6) == 0 ? 2 : 1;
    size_t skip = mine.error == EILSEQ && !passing->ignore ? unit : 0;
    passing->done += mine.used + (mine.used + skip <= length ? skip : 0);
    return mine.used + 1;
}

static void compare_text(struct passing *passing, uint64_t *state) {
    char target[40];
    snprintf(target, sizeof target, "%s%s", passing->to, passing->ignore ? "//IGNORE" : "");
    passing->mine = ours.open(target, passing->from);
    passing->other = theirs.open(target, passing->from);
    if (!check(passing->mine != (iconv_t)-1, "%s to %s is not opened", passing->from, target))
        return;
    for (unsigned calls_left = 40; calls_left > 0 && passing->done < passing->length; calls_left--)
        if (compare_step(passing, state) == 0)
            break;
    ours.close(passing->mine);
    theirs.close(passing->other);
}

/* One text of two encodings, of which one at least has shifts. */
static void compare_pair(uint64_t *state) {
    static char text[TEXT * 8];
    bool from_shifted = next_random(state) % 2;
    unsigned one = next_random(state) % SHIFTED_COUNT, other = next_random(state) % (SHIFTED_COUNT + OTHER_COUNT);
    const char *second = other < SHIFTED_COUNT ? SHIFTED[other] : OTHERS[other - SHIFTED_COUNT];
    struct passing passing = {.text = text, .to = from_shifted ? second : SHIFTED[one], .from = from_shifted ? SHIFTED[one] : second};
    passing.ignore = next_random(state) % 4 == 0;
    passing.length = make_text(passing.from, state, text);
    if (strncmp(passing.from, "ISO-2022", 8) == 0 && next_random(state) % 2)
        passing.length = damage(state, text, passing.length);
    memset(text + passing.length, 0, 4);
    compare_text(&passing, state);
}

/* Compares one whole text by a conversion of its own. */
static void compare_whole(const char *to, const char *from, const char *text, size_t length, const char *what) {
    static struct result mine, other;
    const struct step step = {.to = to, .from = from, .ignore = true};
    call_alone(&ours, &step, text, length, OUT, &mine);
    call_alone(&theirs, &step, text, length, OUT, &other);
    calls++;
    check(mine.error == other.error && mine.used == other.used && same_output(&mine, &other), "%s to %s, %s of %02x %02x %02x %02x", from,
          to, what, text[0] & 255, text[1] & 255, text[2] & 255, text[3] & 255);
}

/* Every character, 256 at a time. The tags of languages are left out. */
static void write_all(const char *name) {
    static uint32_t characters[256];
    for (uint32_t first = 0; first < 0x110000; first += 256) {
        if ((first >= 0xd800 && first < 0xe000) || first == 0xe0000)
            continue;
        for (uint32_t i = 0; i < 256; i++)
            characters[i] = first + i;
        compare_whole(name, "UTF-32LE", (const char *)characters, sizeof characters, "the characters");
    }
}

/* Every code of each set, a row at a time. */
static void read_all(const char *name) {
    for (size_t i = 0; i < FRAGMENT_COUNT; i++)
        for (unsigned lead = 0; lead < 256; lead++) {
            char text[1000];
            size_t length = (size_t)sprintf(text, "%s", FRAGMENTS[i]);
            for (int trail = 0; trail < 256; trail++) {
                text[length++] = (char)lead;
                text[length++] = (char)trail;
            }
            compare_whole("UTF-8", name, text, length, "the codes");
        }
}

int main(void) {
    const char *count = getenv("SHIFTS_CALLS"), *seed = getenv("SHIFTS_SEED");
    unsigned long wanted_calls = count ? strtoul(count, NULL, 10) : 200000;
    uint64_t state = 0x9e3779b97f4a7c15u ^ (seed ? strtoul(seed, NULL, 10) : 1);
    ours = library_load(wanted("PRELOAD"));
    theirs = library_load("libc.so.6");
    for (size_t i = 0; i < SHIFTED_COUNT; i++) {
        write_all(SHIFTED[i]);
        read_all(SHIFTED[i]);
    }
    while (calls < wanted_calls && checks_failed < 20)
        compare_pair(&state);
    printf("shifts: %lu calls\n", calls);
    return checks_end("shifts");
}
