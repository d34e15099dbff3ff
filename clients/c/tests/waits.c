/* A server that went away, that is full and ends new streams, or that is full and lets them wait: a call waits for it within its time
 * limit, and the log names what it is. SERVER is a real one. */
#include "server.h"

#include <signal.h>
#include <sys/wait.h>
#include <time.h>

enum { THREADS = 8, TIMEOUT = 700 };

static pthread_mutex_t lines_mutex = PTHREAD_MUTEX_INITIALIZER;
static char lines[4000];
static int line_count;

static void keep_line(void *context, const char *line) {
    (void)context;
    pthread_mutex_lock(&lines_mutex);
    snprintf(lines + strlen(lines), sizeof lines - strlen(lines), "%s\n", line);
    line_count++;
    pthread_mutex_unlock(&lines_mutex);
}

/* The last line of the log. */
static const char *last_line(void) {
    size_t length = strlen(lines);
    while (length > 1 && lines[length - 2] != '\n')
        length--;
    return length > 0 ? lines + length - 1 : lines;
}

static int milliseconds(clockid_t clock) {
    struct timespec now;
    clock_gettime(clock, &now);
    return (int)(now.tv_sec % 1000000 * 1000 + now.tv_nsec / 1000000);
}

static int connections(void) {
    return __atomic_load_n(&plan.connections, __ATOMIC_SEQ_CST);
}

static iconvd_pool *connect_pool(unsigned streams, int timeout) {
    iconvd_options options = {.streams = streams, .timeout = timeout, .log = keep_line};
    iconvd_pool *pool = NULL;
    line_count = 0;
    lines[0] = 0;
    check(iconvd_connect(where, &options, &pool) == ICONVD_OK, "a server at %s", where);
    return pool;
}

static iconvd_status convert(iconvd_pool *pool, const char *from) {
    iconvd_cd *cd = NULL;
    char text[] = "text", out[9];
    const char *in = text;
    char *out_at = out;
    size_t left = 4, room = sizeof out;
    iconvd_status status = iconvd_open(pool, "UTF-8", from, ICONVD_STRICT, &cd);
    if (status == ICONVD_OK)
        status = iconvd_convert(cd, &in, &left, &out_at, &room, NULL);
    check(status != ICONVD_OK || (left == 0 && room == 5 && memcmp(out, text, 4) == 0), "what a text is converted to");
    iconvd_close(cd);
    return status;
}

static void *convert_one(void *pool) {
    return (void *)(intptr_t)convert(pool, "ASCII");
}

static iconvd_status put_charmap(iconvd_pool *pool) {
    static const char TOY[] = "<code_set_name> TOY\nCHARMAP\n<A> \\x41\nEND CHARMAP\n";
    return iconvd_put_charmap(pool, "TOY", TOY, sizeof TOY - 1, NULL);
}

/* What needs a stream: any one, one of its own, or the first one. */
static iconvd_status call_kind(int kind, iconvd_pool *pool) {
    return kind == 0 ? convert(pool, "ASCII") : kind == 1 ? convert(pool, "UTF-7") : put_charmap(pool);
}

/* A server that ends its first three streams: a call goes on by the fourth, after pauses of 50, 100 and 200 milliseconds. */
static void test_full_for_a_while(int kind) {
    set_plan(CLOSE_AT_ONCE, 0, 3);
    iconvd_pool *pool = connect_pool(1, 20000);
    int begin = milliseconds(CLOCK_MONOTONIC);
    iconvd_status status = call_kind(kind, pool);
    int time = milliseconds(CLOCK_MONOTONIC) - begin;
    check(status == ICONVD_OK && connections() == 4, "call %d: status %d, %d connections", kind, (int)status, connections());
    check(time >= 345, "call %d: %d ms", kind, time);
    check(line_count == 1 && strstr(lines, ": the server closes new connections (full or draining); trying again\n"), "%s", lines);
    iconvd_disconnect(pool);
}

/* One that always does: the call ends with its time limit, and says what it was. Waiting costs no processor. */
static void test_full(int kind) {
    char expected[300];
    set_plan(CLOSE_AT_ONCE, 0, ALL);
    iconvd_pool *pool = connect_pool(1, TIMEOUT);
    int begin = milliseconds(CLOCK_MONOTONIC), processor = milliseconds(CLOCK_PROCESS_CPUTIME_ID);
    iconvd_status status = call_kind(kind, pool);
    int time = milliseconds(CLOCK_MONOTONIC) - begin;
    processor = milliseconds(CLOCK_PROCESS_CPUTIME_ID) - processor;
    check(status == ICONVD_LOST, "call %d: status %d", kind, (int)status);
    check(time >= TIMEOUT - 1 && time < TIMEOUT + 300, "call %d: %d ms", kind, time);
    check(processor < 200, "call %d: %d ms of a processor", kind, processor);
    check(connections() >= 3 && connections() <= 5, "call %d: %d connections", kind, connections());
    snprintf(expected, sizeof expected, "no connection to the service: %s: the server closes new connections (full or draining)\n", where);
    check(line_count == 2 && strcmp(last_line(), expected) == 0, "call %d: %s", kind, lines);
    iconvd_disconnect(pool);
}

/* One that takes a connection and says nothing. */
static void test_silent(void) {
    char expected[300];
    set_plan(RIGHT, 0, 0);
    plan.places = 0;
    iconvd_pool *pool = connect_pool(1, TIMEOUT);
    int begin = milliseconds(CLOCK_MONOTONIC);
    iconvd_status status = convert(pool, "ASCII");
    int time = milliseconds(CLOCK_MONOTONIC) - begin;
    snprintf(expected, sizeof expected, "no connection to the service: %s: no reply within 0.7 s (all places may be taken)\n", where);
    check(status == ICONVD_LOST && time >= TIMEOUT - 1 && time < TIMEOUT + 1000, "a silent server: status %d, %d ms", (int)status, time);
    check(strcmp(lines, expected) == 0, "%s", lines);
    iconvd_disconnect(pool);
}

/* Texts of as many threads at once. How many had the status. */
static int convert_at_once(iconvd_pool *pool, iconvd_status expected) {
    pthread_t threads[THREADS];
    int count = 0;
    for (int i = 0; i < THREADS; i++)
        pthread_create(&threads[i], NULL, convert_one, pool);
    for (int i = 0; i < THREADS; i++) {
        void *status;
        pthread_join(threads[i], &status);
        count += (iconvd_status)(intptr_t)status == expected;
    }
    return count;
}

/* All streams end, and new ones too: the threads wait together, and one of them tries at a time. */
static void test_together(void) {
    set_plan(RIGHT, 0, 0);
    plan.together = THREADS;
    iconvd_pool *pool = connect_pool(THREADS, TIMEOUT);
    check(convert_at_once(pool, ICONVD_OK) == THREADS && connections() == THREADS, "a stream for each thread");
    plan.places = THREADS;
    plan.closes = true;
    plan.delay = 20;
    for (int i = 0; i < THREADS; i++)
        shutdown(plan.ends[i], SHUT_RDWR);
    int begin = milliseconds(CLOCK_MONOTONIC);
    int lost = convert_at_once(pool, ICONVD_LOST), time = milliseconds(CLOCK_MONOTONIC) - begin;
    check(lost == THREADS && time < TIMEOUT + 1000, "%d of the threads end without a server, after %d ms", lost, time);
    check(plan.most_closing == 1, "%d tries at once", plan.most_closing);
    check(connections() <= THREADS + 6, "%d tries", connections() - THREADS);
    iconvd_disconnect(pool);
}

/* A server with two places for more streams than that: all texts go by the two. When one of them ends, everything goes by the other. */
static void test_two_places(void) {
    set_plan(RIGHT, 0, 0);
    plan.places = 2;
    plan.closes = true;
    iconvd_pool *pool = connect_pool(THREADS, 20000);
    int begin = milliseconds(CLOCK_MONOTONIC), right = 0;
    for (int i = 0; i < 20; i++)
        right += convert_at_once(pool, ICONVD_OK);
    int time = milliseconds(CLOCK_MONOTONIC) - begin;
    check(right == 20 * THREADS && time < 5000, "%d texts by two places in %d ms", right, time);
    shutdown(plan.ends[0], SHUT_RDWR);
    for (int kind = 0; kind < 3; kind++)
        check(call_kind(kind, pool) == ICONVD_OK, "call %d by the place that is left: %s", kind, lines);
    check(convert(pool, "UTF-7") == ICONVD_OK, "UTF-7 again");
    iconvd_disconnect(pool);
}

static void *come_back(void *argument) {
    usleep(300000);
    listen_again();
    return argument;
}

static void go_away(void) {
    shutdown(plan.listener, SHUT_RDWR);
    close(plan.listener);
    shutdown(plan.ends[0], SHUT_RDWR);
}

/* A server that is started again, and one that is not. */
static void test_restart(bool comes_back) {
    pthread_t thread;
    set_plan(RIGHT, 0, 0);
    iconvd_pool *pool = connect_pool(1, comes_back ? 20000 : TIMEOUT);
    check(convert(pool, "ASCII") == ICONVD_OK, "before the server goes away");
    go_away();
    if (comes_back)
        pthread_create(&thread, NULL, come_back, NULL);
    iconvd_status status = convert(pool, "ASCII");
    check(status == (comes_back ? ICONVD_OK : ICONVD_LOST), "a server that went away: status %d", (int)status);
    bool told = strncmp(lines, "a connection is lost\nno connection to the service: ", 51) == 0;
    told = told && strstr(lines, ": Connection refused; trying again\n") && line_count == (comes_back ? 2 : 3);
    check(told && (comes_back || strstr(last_line(), ": Connection refused\n")), "%s", lines);
    if (comes_back)
        pthread_join(thread, NULL);
    else
        listen_again();
    iconvd_disconnect(pool);
}

/* What was never there is not waited for. */
static void test_absent(void) {
    iconvd_options options = {.timeout = 20000};
    iconvd_pool *pool = NULL;
    int begin = milliseconds(CLOCK_MONOTONIC);
    iconvd_status status = iconvd_connect("unix:/nonexistent/socket", &options, &pool);
    check(status == ICONVD_LOST && milliseconds(CLOCK_MONOTONIC) - begin < 5000, "no server: status %d", (int)status);
}

static pid_t start_real(const char *at) {
    pid_t child = fork();
    if (child == 0) {
        execl(wanted("SERVER"), "iconvd", "listen", at, "--at-once", "1", "--streams", "100", (char *)NULL);
        _exit(127);
    }
    for (int i = 0; i < 500 && access(at + 5, F_OK) != 0; i++)
        usleep(10000);
    return child;
}

/* The real server with one place: a second client says why it has none, and has it once the first has gone. */
static void test_real(void) {
    static char fake[sizeof where];
    strcpy(fake, where);
    strcat(where, "-real");
    pid_t server = start_real(where);
    iconvd_pool *first = connect_pool(1, 20000);
    check(convert(first, "ASCII") == ICONVD_OK, "the first client");
    iconvd_pool *second = connect_pool(1, TIMEOUT);
    check(convert(second, "ASCII") == ICONVD_LOST, "the second client");
    check(strstr(lines, ": no reply within 0.7 s (all places may be taken)\n") != NULL, "%s", lines);
    iconvd_disconnect(first);
    usleep((TIMEOUT + 100) * 1000);
    check(convert(second, "ASCII") == ICONVD_OK, "the second client, once the first has gone: %s", lines);
    iconvd_disconnect(second);
    kill(server, SIGTERM);
    waitpid(server, NULL, 0);
    unlink(socket_file);
    strcpy(where, fake);
}

int main(void) {
    start_server("waits");
    for (int kind = 0; kind < 3; kind++) {
        test_full_for_a_while(kind);
        test_full(kind);
    }
    test_silent();
    test_together();
    test_two_places();
    test_restart(true);
    test_restart(false);
    test_absent();
    test_real();
    unlink(socket_file);
    return checks_end("waits");
}
