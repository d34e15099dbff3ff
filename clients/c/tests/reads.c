/* A server ends a stream after 1,000,000 reads. The pool leaves a stream before that, so that no text is lost with it; where it cannot,
 * the log names the limit. */
#include "server.h"

/* A text of 1,000,000 bytes may take 992 reads, a short one takes one. */
enum { LONG = 1000000, BEFORE = 1050 };

static char lines[1000], long_in[LONG], long_out[LONG + 1];

static void keep_line(void *context, const char *line) {
    (void)context;
    snprintf(lines + strlen(lines), sizeof lines - strlen(lines), "%s\n", line);
}

static const iconvd_options OPTIONS = {.streams = 1, .timeout = 20000, .log = keep_line};

static int connections(void) {
    return __atomic_load_n(&plan.connections, __ATOMIC_SEQ_CST);
}

static iconvd_pool *connect_pool(void) {
    iconvd_pool *pool = NULL;
    set_plan(RIGHT, 0, 0);
    lines[0] = 0;
    check(iconvd_connect(where, &OPTIONS, &pool) == ICONVD_OK, "the tests' own server");
    return pool;
}

static void convert(iconvd_cd *cd, size_t length) {
    const char *in = long_in;
    char *out = long_out;
    size_t left = length, room = sizeof long_out;
    long_out[length - 1] = 0;
    iconvd_status status = iconvd_convert(cd, &in, &left, &out, &room, NULL);
    check(status == ICONVD_OK && left == 0 && room == sizeof long_out - length && long_out[length - 1] == 'x',
          "%zu bytes: status %d", length, (int)status);
}

static void convert_often(iconvd_pool *pool, int texts) {
    iconvd_cd *cd = NULL;
    check(iconvd_open(pool, "UTF-8", "ASCII", ICONVD_STRICT, &cd) == ICONVD_OK, "a pair");
    for (int i = 0; i < texts; i++)
        convert(cd, LONG);
    iconvd_close(cd);
}

/* The pool goes to another stream by itself. */
static void test_retired(void) {
    iconvd_pool *pool = connect_pool();
    convert_often(pool, BEFORE);
    check(connections() == 2, "%d connections", connections());
    check(lines[0] == 0, "%s", lines);
    iconvd_disconnect(pool);
}

/* A descriptor with a state keeps the stream, which its server ends then. The text goes on by another one. */
static void test_kept(void) {
    iconvd_pool *pool = connect_pool();
    iconvd_cd *cd = NULL;
    check(iconvd_open(pool, "UTF-8", "UTF-7", ICONVD_STRICT, &cd) == ICONVD_OK, "a descriptor with a state");
    convert(cd, 10);
    convert_often(pool, BEFORE);
    check(connections() == 1 && lines[0] == 0, "%d connections: %s", connections(), lines);
    shutdown(plan.ends[0], SHUT_RDWR);
    convert(cd, 10);
    check(connections() == 2, "%d connections after the end", connections());
    check(strcmp(lines, "a connection is lost: it may have reached the limit of 1,000,000 reads\n") == 0, "%s", lines);
    iconvd_close(cd);
    iconvd_disconnect(pool);
}

/* Once that descriptor is closed the stream is left. */
static void test_left(void) {
    iconvd_pool *pool = connect_pool();
    iconvd_cd *cd = NULL;
    check(iconvd_open(pool, "UTF-8", "UTF-7", ICONVD_STRICT, &cd) == ICONVD_OK, "a descriptor with a state");
    convert_often(pool, BEFORE);
    check(connections() == 1, "%d connections while it is open", connections());
    iconvd_close(cd);
    convert_often(pool, 1);
    check(connections() == 2 && lines[0] == 0, "%d connections: %s", connections(), lines);
    iconvd_disconnect(pool);
}

int main(void) {
    memset(long_in, 'x', sizeof long_in);
    start_server("reads");
    test_retired();
    test_kept();
    test_left();
    unlink(socket_file);
    return checks_end("reads");
}
