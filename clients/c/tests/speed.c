/* How long calls take beside the C library's, and those of another preload library that BESIDE names if it is set, in one process: the
 * fastest of 25 rounds each, in turn. It asserts nothing. */
#include <string.h>
#include <sys/socket.h>
#include <time.h>
#include <unistd.h>

#include "libraries.h"

static struct library libraries[3]; /* the service's, the C library's, the one beside */
static int library_count = 2;

static double now(void) {
    struct timespec time;
    clock_gettime(CLOCK_MONOTONIC, &time);
    return (double)time.tv_sec * 1e6 + (double)time.tv_nsec / 1e3;
}

struct task {
    const char *to, *from, *piece; /* a piece of UTF-8, which the text is made of */
    size_t length;
    int calls;
};

static char utf8[1 << 21], text[1 << 22], out[1 << 23];

static size_t make_text(const struct task *task) {
    size_t piece = strlen(task->piece), length = 0;
    for (; length + piece <= task->length; length += piece)
        memcpy(utf8 + length, task->piece, piece);
    iconv_t cd = libraries[1].open(task->from, "UTF-8");
    char *in = utf8, *at = text;
    size_t left = length, room = sizeof text;
    libraries[1].convert(cd, &in, &left, &at, &room);
    libraries[1].close(cd);
    return (size_t)(at - text);
}

/* Microseconds of a call. */
static double measure(const struct library *library, iconv_t cd, size_t length, int calls) {
    double start = now();
    for (int i = 0; i < calls; i++) {
        char *in = text, *at = out;
        size_t left = length, room = sizeof out;
        library->convert(cd, &in, &left, &at, &room);
    }
    return (now() - start) / calls;
}

static void run(const struct task *task) {
    size_t length = make_text(task);
    double best[3] = {1e12, 1e12, 1e12};
    iconv_t cds[3];
    for (int i = 0; i < library_count; i++)
        cds[i] = libraries[i].open(task->to, task->from);
    for (int round = 0; round < 25; round++)
        for (int i = 0; i < library_count; i++) {
            double time = measure(&libraries[i], cds[i], length, task->calls);
            best[i] = time < best[i] ? time : best[i];
        }
    printf("%-8s %-8s %8zu bytes: %9.2f us, %9.2f by the C library, ratio %6.2f, %5.0f MB/s", task->from, task->to, length, best[0],
           best[1], best[0] / best[1], (double)length / best[0]);
    if (library_count == 3)
        printf("; %9.2f us beside, ratio %5.2f", best[2], best[0] / best[2]);
    putchar('\n');
    for (int i = 0; i < library_count; i++)
        libraries[i].close(cds[i]);
}

static void open_again(const char *to, const char *from) {
    double best = 1e12;
    for (int round = 0; round < 25; round++) {
        double start = now();
        for (int i = 0; i < 100; i++)
            libraries[0].close(libraries[0].open(to, from));
        double time = (now() - start) / 100;
        best = time < best ? time : best;
    }
    printf("%-10s %-10s open and close again: %.2f us\n", from, to, best);
}

/* The peer of exchange(): for each `asked` bytes it sends `answered` ones back. */
static void answer(int stream, size_t asked, size_t answered) {
    for (size_t due = 0;;) {
        ssize_t got = read(stream, text, sizeof text);
        if (got <= 0)
            _exit(0);
        for (due += (size_t)got; due >= asked; due -= asked)
            for (size_t sent = 0; sent < answered;) {
                ssize_t wrote = write(stream, out + sent, answered - sent);
                if (wrote <= 0)
                    _exit(0);
                sent += (size_t)wrote;
            }
    }
}

static void exchange_once(int stream, int parts, size_t asked, size_t answered) {
    for (int i = 0; i < parts; i++)
        if (write(stream, text, asked) != (ssize_t)asked)
            return;
    for (size_t due = (size_t)parts * answered; due > 0;) {
        ssize_t got = read(stream, out, due);
        if (got <= 0)
            return;
        due -= (size_t)got;
    }
}

/* What no call can be faster than: as many bytes as a call sends and receives, to a process that converts nothing. A text of 64 KiB goes in
 * two parts. */
static void exchange(int parts, size_t asked, size_t answered, int calls) {
    int pair[2];
    double best = 1e12;
    if (socketpair(AF_UNIX, SOCK_STREAM, 0, pair) != 0)
        return;
    if (fork() == 0) {
        close(pair[0]);
        answer(pair[1], asked, answered);
    }
    close(pair[1]);
    for (int round = 0; round < 25; round++) {
        double start = now();
        for (int i = 0; i < calls; i++)
            exchange_once(pair[0], parts, asked, answered);
        double time = (now() - start) / calls;
        best = time < best ? time : best;
    }
    close(pair[0]);
    printf("a socketpair to another process, %zu bytes there and %zu back: %.2f us\n", (size_t)parts * asked, (size_t)parts * answered, best);
}

int main(void) {
    static const char GERMAN[] = "Die Stra\u00dfe f\u00fchrt \u00fcber M\u00fcnchen nach K\u00f6ln. ";
    static const char RUSSIAN[] = "\u041f\u0440\u0438\u0432\u0435\u0442 ";
    static const struct task TASKS[] = {
        {"UTF-16LE", "UTF-8", GERMAN, 64, 1000},     {"UTF-8", "KOI8-R", RUSSIAN, 64, 1000},
        {"UTF-16LE", "UTF-8", GERMAN, 4096, 500},    {"UTF-16LE", "UTF-8", GERMAN, 65536, 50},
        {"UTF-8", "KOI8-R", RUSSIAN, 120000, 30},    {"UTF-8", "UTF-8", "plain text ", 65536, 50},
        {"UTF-16LE", "UTF-8", GERMAN, 1048576, 5},
    };
    libraries[0] = library_load(wanted("PRELOAD"));
    libraries[1] = library_load("libc.so.6");
    const char *beside = getenv("BESIDE");
    if (beside) {
        libraries[2] = library_load(beside);
        library_count = 3;
    }
    for (size_t i = 0; i < sizeof TASKS / sizeof *TASKS; i++)
        run(&TASKS[i]);
    open_again("UTF-16LE", "UTF-8");
    open_again("UTF-8", "KOI8-R");
    exchange(1, 85, 85, 1000);
    exchange(2, 32768, 64512, 50);
    return 0;
}
