/* How long 1 MB of hostile text takes beside iconv(1) -c, which is the C library's calls with a program around them: the fastest of three.
 * A row with more than ten times its time and more than 0.3 s is marked. Nothing is asserted.
 *
 * Without //IGNORE the caller goes on itself, a byte after each fault. A call is a round trip then, so 64 KiB are enough to see what
 * one takes.
 *
 * PRELOAD is the library. An argument is a word of the rows that are wanted. */
#include <errno.h>
#include <spawn.h>
#include <stdbool.h>
#include <string.h>
#include <sys/wait.h>
#include <time.h>
#include <unistd.h>

#include "libraries.h"

enum { LENGTH = 1 << 20, LOOPED = 1 << 16, ROUNDS = 3 };

static struct library ours, theirs;
static char text[LENGTH], out[8 * LENGTH], file[] = "/tmp/iconvd-hostile-XXXXXX";

/* What the bytes are. */
enum kind { RANDOM, GERMAN, FRENCH, DAMAGED, KINDS };
static const char *const KIND_NAMES[KINDS] = {"random", "German", "French", "damaged"};

static const char GERMAN_TEXT[] = "Die W\xe4rme des gr\xf6\xdften Feuers f\xfcllt das k\xfchle Geb\xe4ude. ";
static const char FRENCH_TEXT[] = "Les \xe9l\xe8ves r\xeavent d\x92\xeatre \xe0 l\x92\xe9" "cole, o\xf9 l\x92on mange des cr\xeapes. ";
static const char SCRIPTS[] = "The W\u00e4rme of \u0416\u0438\u0437\u043d\u044c \u65e5\u672c\u8a9e \ud55c\uad6d\uc5b4 \u4e2d\u6587 \u20ac ";

static double now(void) {
    struct timespec time;
    clock_gettime(CLOCK_MONOTONIC, &time);
    return (double)time.tv_sec * 1e3 + (double)time.tv_nsec / 1e6;
}

static void repeat(const char *piece, size_t step) {
    for (size_t at = 0; at < LENGTH; at += step)
        memcpy(text + at, piece, step < LENGTH - at ? step : LENGTH - at);
}

/* What an encoding has of many scripts. */
static void repeat_scripts(const char *encoding) {
    char piece[1000], name[40], *at = piece, *in = (char *)(uintptr_t)SCRIPTS;
    size_t left = sizeof SCRIPTS - 1, room = sizeof piece;
    snprintf(name, sizeof name, "%s//IGNORE", encoding);
    iconv_t cd = theirs.open(name, "UTF-8");
    theirs.convert(cd, &in, &left, &at, &room);
    theirs.close(cd);
    repeat(piece, (size_t)(at - piece));
}

static void make_text(const char *encoding, enum kind kind) {
    uint64_t state = 0x123456789u;
    if (kind == GERMAN)
        repeat(GERMAN_TEXT, sizeof GERMAN_TEXT - 1);
    else if (kind == FRENCH)
        repeat(FRENCH_TEXT, sizeof FRENCH_TEXT - 1);
    else
        repeat_scripts(encoding);
    size_t step = kind == RANDOM ? 1 : kind == DAMAGED ? 100 : LENGTH;
    for (size_t at = step - 1; step < LENGTH && at < LENGTH; at += step)
        text[at] = (char)next_random(&state);
    FILE *written = fopen(file, "wb");
    fwrite(text, 1, LENGTH, written);
    fclose(written);
}

/* Converts so much of the text: after a fault it goes on where the call stopped, or a byte later if the call left it there. */
static double convert(const struct library *library, const char *to, const char *from, size_t left, size_t *calls) {
    double begin = now();
    iconv_t cd = library->open(to, from);
    bool ignores = strstr(to, "//IGNORE") != NULL;
    char *in = text;
    for (*calls = 1; left > 0; ++*calls) {
        char *at = out;
        size_t room = sizeof out;
        if (library->convert(cd, &in, &left, &at, &room) != (size_t)-1 || errno != EILSEQ || left == 0)
            break;
        if (!ignores)
            in++, left--;
    }
    library->close(cd);
    return now() - begin;
}

static double convert_by_program(const char *to, const char *from) {
    static char program_name[] = "iconv", options[] = "-cf", wanted_target[] = "-t", wanted_file[] = "-o", dropped[] = "/dev/null";
    char source[40], target[60];
    snprintf(source, sizeof source, "%s", from);
    snprintf(target, sizeof target, "%.*s%s", (int)strcspn(to, "/"), to, strstr(to, "//TRANSLIT") ? "//TRANSLIT" : "");
    char *words[] = {program_name, options, source, wanted_target, target, wanted_file, dropped, file, NULL}, *none[] = {NULL};
    double begin = now();
    pid_t program;
    if (posix_spawnp(&program, "iconv", NULL, NULL, words, none) != 0)
        return 0;
    waitpid(program, NULL, 0);
    return now() - begin;
}

static double least(double one, double other) {
    return one < other ? one : other;
}

static void run_whole(const char *from, enum kind kind, const char *to) {
    double time = 1e12, library_time = 1e12, program_time = 1e12;
    size_t calls;
    for (int round = 0; round < ROUNDS; round++) {
        time = least(time, convert(&ours, to, from, LENGTH, &calls));
        library_time = least(library_time, convert(&theirs, to, from, LENGTH, &calls));
        program_time = least(program_time, convert_by_program(to, from));
    }
    printf("%-9s %-8s %-25s %8.1f ms, %7.1f by the C library, %7.1f by iconv(1), ratio %5.1f%s\n", from, KIND_NAMES[kind], to, time,
           library_time, program_time, time / program_time, time <= 300 || time <= 10 * program_time ? "" : "  TOO LONG");
}

static void run_loop(const char *from, enum kind kind, const char *to) {
    double time = 1e12;
    size_t calls;
    for (int round = 0; round < ROUNDS; round++)
        time = least(time, convert(&ours, to, from, LOOPED, &calls));
    printf("%-9s %-8s %-25s %8.1f ms, %zu calls, %.1f us each\n", from, KIND_NAMES[kind], to, time, calls, 1000 * time / (double)calls);
}

static void run(const char *from, enum kind kind, const char *to) {
    make_text(from, kind);
    if (strstr(to, "//IGNORE"))
        run_whole(from, kind, to);
    else
        run_loop(from, kind, to);
    fflush(stdout);
}

int main(int count, char **words) {
    static const struct {
        const char *from;
        enum kind kind;
    } TEXTS[] = {
        {"EUC-KR", RANDOM},  {"EUC-JP", RANDOM},  {"BIG5", RANDOM},      {"GB18030", RANDOM},  {"SHIFT_JIS", RANDOM}, {"UTF-8", RANDOM},
        {"UTF-16", RANDOM},  {"EUC-KR", GERMAN},  {"UTF-8", FRENCH},     {"EUC-KR", DAMAGED},  {"EUC-JP", DAMAGED},   {"BIG5", DAMAGED},
        {"GB18030", DAMAGED}, {"SHIFT_JIS", DAMAGED}, {"UTF-8", DAMAGED}, {"UTF-16", DAMAGED},
    };
    static const char *const TARGETS[] = {"UTF-8//IGNORE", "KOI8-R//IGNORE//TRANSLIT", "UTF-8", "KOI8-R//TRANSLIT"};
    ours = library_load(wanted("PRELOAD"));
    theirs = library_load("libc.so.6");
    close(mkstemp(file));
    for (size_t i = 0; i < sizeof TEXTS / sizeof *TEXTS; i++)
        for (size_t j = 0; j < sizeof TARGETS / sizeof *TARGETS; j++)
            if (count < 2 || strstr(TARGETS[j], words[1]) || strstr(TEXTS[i].from, words[1]) || strstr(KIND_NAMES[TEXTS[i].kind], words[1]))
                run(TEXTS[i].from, TEXTS[i].kind, TARGETS[j]);
    unlink(file);
    return 0;
}
