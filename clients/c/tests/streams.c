/* How many connections a pool makes, and which texts wait for which: a short one never waits for long ones, even of more threads than
 * there are connections. */
#include "server.h"

#include <sched.h>

enum { THREADS = 24, LONG = 100000, SHORT = 100 };

/* The bytes that a thread converts. */
struct text {
    iconvd_pool *pool;
    size_t length;
    iconvd_status status;
};

static void *convert(void *argument) {
    struct text *text = argument;
    iconvd_cd *cd = NULL;
    char *in_bytes = malloc(text->length), *out_bytes = malloc(text->length + 1), *out = out_bytes;
    const char *in = in_bytes;
    size_t left = text->length, room = text->length + 1;
    memset(in_bytes, 'x', text->length);
    text->status = iconvd_open(text->pool, "UTF-8", "ASCII", ICONVD_STRICT, &cd);
    if (text->status == ICONVD_OK)
        text->status = iconvd_convert(cd, &in, &left, &out, &room, NULL);
    iconvd_close(cd);
    free(in_bytes);
    free(out_bytes);
    return NULL;
}

static iconvd_pool *connect_pool(void) {
    iconvd_options options = {.timeout = 20000};
    iconvd_pool *pool = NULL;
    check(iconvd_connect(where, &options, &pool) == ICONVD_OK, "a right server");
    return pool;
}

/* What `streams` 0 is. */
static int usual_streams(void) {
    cpu_set_t processors;
    int number = sched_getaffinity(0, sizeof processors, &processors) == 0 ? CPU_COUNT(&processors) : 16;
    return number < 4 ? 4 : number > 16 ? 16 : number;
}

/* As many threads as there are processors convert at the same time, and more do not make more connections. */
static void test_number(void) {
    pthread_t threads[THREADS];
    struct text texts[THREADS];
    set_plan(RIGHT, 0, 0);
    plan.together = usual_streams();
    iconvd_pool *pool = connect_pool();
    for (int i = 0; i < THREADS; i++) {
        texts[i] = (struct text){.pool = pool, .length = SHORT};
        pthread_create(&threads[i], NULL, convert, &texts[i]);
    }
    for (int i = 0; i < THREADS; i++) {
        pthread_join(threads[i], NULL);
        check(texts[i].status == ICONVD_OK, "text %d of those at once: status %d", i, (int)texts[i].status);
    }
    int connections = __atomic_load_n(&plan.connections, __ATOMIC_SEQ_CST);
    check(connections == usual_streams(), "%d connections", connections);
    iconvd_disconnect(pool);
}

/* The server answers no long text until it has a short one. */
static void test_short_beside_long(void) {
    pthread_t threads[THREADS];
    struct text texts[THREADS];
    set_plan(RIGHT, 0, 0);
    plan.hold = SHORT + 1;
    iconvd_pool *pool = connect_pool();
    for (int i = 0; i < THREADS; i++) {
        texts[i] = (struct text){.pool = pool, .length = LONG};
        pthread_create(&threads[i], NULL, convert, &texts[i]);
    }
    usleep(300000);
    struct text text = {.pool = pool, .length = SHORT};
    convert(&text);
    check(text.status == ICONVD_OK, "a short text beside long ones: status %d", (int)text.status);
    for (int i = 0; i < THREADS; i++) {
        pthread_join(threads[i], NULL);
        check(texts[i].status == ICONVD_OK, "long text %d: status %d", i, (int)texts[i].status);
    }
    iconvd_disconnect(pool);
}

int main(void) {
    start_server("streams");
    test_number();
    test_short_beside_long();
    unlink(socket_file);
    return checks_end("streams");
}
