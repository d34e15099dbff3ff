/* The preload library in the life of a program: threads, fork, closed descriptors, an environment that changes.
 *
 *   life TEST ..       each TEST is one of those in the table at the end
 *
 * PRELOAD is the library. What is converted is compared with the C library. */
#include <fcntl.h>
#include <pthread.h>
#include <signal.h>
#include <sys/socket.h>
#include <sys/syscall.h>
#include <sys/wait.h>
#include <unistd.h>

#include "samples.h"

/* Threads that convert until they are told to stop. */
static int stop;

static void *convert_on(void *argument) {
    size_t number = (size_t)(uintptr_t)argument;
    for (size_t i = number; !__atomic_load_n(&stop, __ATOMIC_RELAXED); i++)
        check(is_right(&SAMPLES[i % SAMPLE_COUNT]), "thread %zu: %s to %s", number, SAMPLES[i % SAMPLE_COUNT].from,
              SAMPLES[i % SAMPLE_COUNT].to);
    return NULL;
}

enum { THREADS = 4 };

static void start_threads(pthread_t threads[THREADS]) {
    __atomic_store_n(&stop, 0, __ATOMIC_RELAXED);
    for (size_t i = 0; i < THREADS; i++)
        pthread_create(&threads[i], NULL, convert_on, (void *)(uintptr_t)i);
}

static void stop_threads(pthread_t threads[THREADS]) {
    __atomic_store_n(&stop, 1, __ATOMIC_RELAXED);
    for (size_t i = 0; i < THREADS; i++)
        pthread_join(threads[i], NULL);
}

static void test_threads(void) {
    pthread_t threads[THREADS];
    start_threads(threads);
    sleep_milliseconds(1500);
    stop_threads(threads);
}

/* A conversion moves from thread to thread. */
static void *convert_piece(void *argument) {
    iconv_t cd = argument;
    char text[] = "\u041f\u0440\u0438", out[50], *in = text, *at = out;
    size_t left = sizeof text - 1, room = sizeof out;
    check(ours.convert(cd, &in, &left, &at, &room) == 0 && at - out == 6, "a piece in another thread");
    return NULL;
}

static void test_moving(void) {
    iconv_t cd = ours.open("UTF-16LE", "UTF-8");
    for (int i = 0; i < 50; i++) {
        pthread_t thread;
        pthread_create(&thread, NULL, convert_piece, cd);
        pthread_join(thread, NULL);
    }
    ours.close(cd);
}

/* Threads that are cancelled in the middle of a call leave nothing locked. */
static void test_cancelling(void) {
    for (int round = 0; round < 20; round++) {
        pthread_t threads[THREADS];
        start_threads(threads);
        sleep_milliseconds(5);
        for (size_t i = 0; i < THREADS; i++)
            pthread_cancel(threads[i]);
        stop_threads(threads);
    }
    alarm(60);
    check(all_right(), "after threads were cancelled");
    alarm(0);
}

/* A child that hangs fails by its alarm. */
static void wait_for(pid_t child, const char *what) {
    int status = 0;
    pid_t got = waitpid(child, &status, 0);
    check(got == child && status == 0, "%s: %ld, status %x, %s", what, (long)got, (unsigned)status, strerror(errno));
}

static void test_forks(void) {
    pthread_t threads[THREADS];
    start_threads(threads);
    for (int i = 0; i < 30; i++) {
        sleep_milliseconds(10);
        pid_t child = fork();
        if (child == 0) {
            alarm(60);
            _exit(all_right() ? 0 : 1);
        }
        wait_for(child, "a child of fork()");
    }
    stop_threads(threads);
    check(all_right(), "the parent after its forks");
}

static int compare_counts(const void *one, const void *other) {
    unsigned long first = *(const unsigned long *)one, second = *(const unsigned long *)other;
    return first < second ? -1 : first > second;
}

/* fork() has its turn among threads that convert without a pause: few texts are converted while it is under way. */
static void test_turn(void) {
    enum { FORKS = 51 };
    unsigned long counts[FORKS];
    pthread_t threads[THREADS];
    start_threads(threads);
    for (int i = 0; i < FORKS; i++) {
        sleep_milliseconds(5);
        unsigned long before = __atomic_load_n(&checks_passed, __ATOMIC_RELAXED);
        pid_t child = fork();
        if (child == 0)
            _exit(0);
        counts[i] = __atomic_load_n(&checks_passed, __ATOMIC_RELAXED) - before;
        wait_for(child, "a child of fork()");
    }
    stop_threads(threads);
    qsort(counts, FORKS, sizeof *counts, compare_counts);
    check(counts[FORKS / 2] <= 2 * THREADS, "%lu texts during a fork(), %lu at most", counts[FORKS / 2], counts[FORKS - 1]);
}

/* A child that was made without any handler, while the parent's threads hold locks. It allocates nothing of its own that a thread of
   the parent could have locked, but the library does: so the parent's threads stand still here. */
static void test_clone(void) {
    check(all_right(), "before a clone");
    iconv_t cd = ours.open("KOI8-R", "UTF-8");
    for (int i = 0; i < 5; i++) {
        pid_t child = (pid_t)syscall(SYS_clone, (long)SIGCHLD, 0L, 0L, 0L, 0L);
        if (child == 0) {
            alarm(60);
            char text[] = "\u041f", out[10], *in = text, *at = out;
            size_t left = 2, room = sizeof out;
            _exit(ours.convert(cd, &in, &left, &at, &room) == 0 && at - out == 1 && all_right() ? 0 : 1);
        }
        wait_for(child, "a child of clone()");
        check(all_right(), "after a clone");
    }
    ours.close(cd);
}

/* The host closes all descriptors and opens others on their numbers: nothing may be written to those. */
static void close_and_convert(void) {
    int pairs[300][2], foreign = 0;
    iconv_t cd = ours.open("KOI8-R", "UTF-8");
    check(all_right(), "before closing");
    syscall(SYS_close_range, 3U, ~0U, 0U);
    while (foreign < 300 && socketpair(AF_UNIX, SOCK_STREAM, 0, pairs[foreign]) == 0)
        foreign++;
    check(all_right(), "after closing");
    char text[] = "\u041f", out[10], *in = text, *at = out;
    size_t left = 2, room = sizeof out;
    check(ours.convert(cd, &in, &left, &at, &room) == 0 && at - out == 1, "a conversion that was open before");
    ours.close(cd);
    for (int i = 0; i < foreign; i++) {
        char byte;
        check(recv(pairs[i][0], &byte, 1, MSG_DONTWAIT) < 0 && errno == EAGAIN, "a foreign socket was written to");
        check(recv(pairs[i][1], &byte, 1, MSG_DONTWAIT) < 0 && errno == EAGAIN, "a foreign socket was closed or written to");
    }
}

/* The host has no child that it did not make, and gets no signal. */
static void on_child(int signal) {
    (void)signal;
    check(false, "SIGCHLD");
}

static void test_strange_children(void) {
    signal(SIGCHLD, on_child);
    check(all_right(), "converting");
    sleep_milliseconds(100);
    check(waitpid(-1, NULL, 0) == -1 && errno == ECHILD, "no child");
    signal(SIGCHLD, SIG_DFL);
}

/* The environment is emptied behind the library's back. */
extern char **environ;
static void test_environment(void) {
    static char *empty[] = {NULL};
    check(is_right(&SAMPLES[3]), "before");
    environ = empty;
    pid_t child = fork();
    if (child == 0) {
        alarm(60);
        _exit(all_right() ? 0 : 1);
    }
    wait_for(child, "a child without an environment");
    check(all_right(), "without an environment");
}

static const struct test TESTS[] = {
    {"threads", test_threads}, {"moving", test_moving},      {"forks", test_forks},
    {"clone", test_clone},     {"closed", close_and_convert}, {"children", test_strange_children},
    {"environment", test_environment}, {"cancelling", test_cancelling}, {"turn", test_turn},
};

int main(int count, char **words) {
    return run_tests("life", TESTS, sizeof TESTS / sizeof *TESTS, count, words);
}
