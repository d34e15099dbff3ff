/* How long fork() takes beside threads that convert 64 bytes without a pause: by the library, by the C library, and beside threads that
 * send 64 bytes to an echo, which have the same system calls and no library. Of each the median and the most, and the library's share
 * of fork(). It asserts nothing.
 *
 * PRELOAD is the library. Arguments: threads (4), forks (500). */
#include <pthread.h>
#include <stdbool.h>
#include <string.h>
#include <sys/socket.h>
#include <sys/wait.h>
#include <time.h>
#include <unistd.h>

#include "libraries.h"

enum { MOST_THREADS = 64, MOST_FORKS = 10000, TEXT = 64 };

static struct library ours, theirs;
static int threads = 4, forks = 500, stop;

static double now(void) {
    struct timespec time;
    clock_gettime(CLOCK_MONOTONIC, &time);
    return (double)time.tv_sec * 1e3 + (double)time.tv_nsec / 1e6;
}

/* The library's handlers run between these. Those before a fork() run in the reverse order of their registration. */
static double begun, closed, made, opened;
static void outer_before(void) { begun = now(); }
static void inner_before(void) { closed = now(); }
static void inner_after(void) { made = now(); }
static void outer_after(void) { opened = now(); }

static bool goes_on(void) {
    return !__atomic_load_n(&stop, __ATOMIC_RELAXED);
}

static void *convert(void *argument) {
    const struct library *library = argument;
    char text[TEXT], out[4 * TEXT];
    memset(text, 'x', sizeof text);
    iconv_t cd = library->open("UTF-8", "KOI8-R");
    while (goes_on()) {
        char *in = text, *at = out;
        size_t left = sizeof text, room = sizeof out;
        library->convert(cd, &in, &left, &at, &room);
    }
    library->close(cd);
    return NULL;
}

/* Sends a text and takes it back. */
static void *echo(void *argument) {
    char text[TEXT] = "text";
    int fd = (int)(intptr_t)argument;
    while (goes_on() && send(fd, text, sizeof text, MSG_NOSIGNAL) > 0 && recv(fd, text, sizeof text, 0) > 0)
        ;
    close(fd);
    return NULL;
}

/* Our end of a pair, at whose other end a process gives back what it gets. */
static void *start_echo(void) {
    int pair[2];
    char bytes[TEXT];
    ssize_t got;
    if (socketpair(AF_UNIX, SOCK_STREAM | SOCK_CLOEXEC, 0, pair) != 0)
        exit(2);
    if (fork() == 0) {
        close(pair[0]);
        while ((got = recv(pair[1], bytes, sizeof bytes, 0)) > 0 && send(pair[1], bytes, (size_t)got, MSG_NOSIGNAL) > 0)
            ;
        _exit(0);
    }
    close(pair[1]);
    return (void *)(intptr_t)pair[0];
}

static int compare(const void *one, const void *other) {
    double first = *(const double *)one, second = *(const double *)other;
    return first < second ? -1 : first > second;
}

static void print(const char *what, double *times) {
    qsort(times, (size_t)forks, sizeof *times, compare);
    printf("%-36s median %.3f ms, 99 of 100 %.3f, most %.3f\n", what, times[forks / 2], times[forks * 99 / 100], times[forks - 1]);
}

static void measure(const char *what, void *run(void *), void *arguments[MOST_THREADS]) {
    static double times[MOST_FORKS], shares[MOST_FORKS];
    pthread_t running[MOST_THREADS];
    __atomic_store_n(&stop, 0, __ATOMIC_RELAXED);
    for (int i = 0; i < threads; i++)
        pthread_create(&running[i], NULL, run, arguments[i]);
    usleep(100000);
    for (int i = 0; i < forks; i++) {
        usleep(5000);
        double begin = now();
        pid_t child = fork();
        if (child == 0)
            _exit(0);
        times[i] = now() - begin;
        shares[i] = closed - begun + opened - made;
        waitpid(child, NULL, 0);
    }
    __atomic_store_n(&stop, 1, __ATOMIC_RELAXED);
    for (int i = 0; i < threads; i++)
        pthread_join(running[i], NULL);
    print(what, times);
    print("  of that in the library's handlers", shares);
}

int main(int count, char **words) {
    void *converts[MOST_THREADS], *converts_theirs[MOST_THREADS], *echoes[MOST_THREADS];
    threads = count > 1 ? atoi(words[1]) : threads;
    forks = count > 2 ? atoi(words[2]) : forks;
    if (threads < 1 || threads > MOST_THREADS || forks < 1 || forks > MOST_FORKS)
        return 64;
    ours = library_load(wanted("PRELOAD"));
    theirs = library_load("libc.so.6");
    for (int i = 0; i < threads; i++) {
        converts[i] = &ours;
        converts_theirs[i] = &theirs;
        echoes[i] = start_echo();
    }
    pthread_atfork(inner_before, inner_after, NULL);
    ours.close(ours.open("UTF-8", "KOI8-R"));
    pthread_atfork(outer_before, outer_after, NULL);
    measure("beside the library's calls", convert, converts);
    measure("beside the C library's calls", convert, converts_theirs);
    measure("beside an echo", echo, echoes);
    return 0;
}
