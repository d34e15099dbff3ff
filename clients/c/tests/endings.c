/* A server that ends connections: a text that was lost with one goes on by another that lives, or by a new one. */
#include "server.h"

enum { STREAMS = 4, OFTEN = 100 };

/* Converts a text once. The status. */
static iconvd_status convert_from(iconvd_pool *pool, const char *from) {
    iconvd_cd *cd = NULL;
    iconvd_status status = iconvd_open(pool, "UTF-8", from, ICONVD_STRICT, &cd);
    char text[] = "text", out[9];
    const char *in = text;
    char *out_at = out;
    size_t left = 4, room = sizeof out;
    if (status == ICONVD_OK)
        status = iconvd_convert(cd, &in, &left, &out_at, &room, NULL);
    check(status != ICONVD_OK || (left == 0 && room == 5 && memcmp(out, text, 4) == 0), "what a text is converted to");
    iconvd_close(cd);
    return status;
}

static void *convert_one(void *pool) {
    return (void *)(intptr_t)convert_from(pool, "ASCII");
}

/* Has one text on each stream at once, so that all are connected and have the pair open. */
static void use_all(iconvd_pool *pool) {
    pthread_t threads[STREAMS];
    for (int i = 0; i < STREAMS; i++)
        pthread_create(&threads[i], NULL, convert_one, pool);
    for (int i = 0; i < STREAMS; i++) {
        void *status;
        pthread_join(threads[i], &status);
        check((intptr_t)status == ICONVD_OK, "text %d of those at once: status %d", i, (int)(intptr_t)status);
    }
}

/* How streams end, and how many connections there have been once a text was converted after it. */
struct ending {
    const char *name;
    int rounds;
    int ended;         /* how many end while nobody uses them, the first one among them */
    int ended_by_text; /* how many end when they are sent a text */
    int places;        /* of the server */
    const char *from;  /* what the text is converted from; ASCII is open on all streams */
    int connections;
};

static const struct ending ENDINGS[] = {
    {"all have ended", OFTEN, STREAMS, 0, ALL, "ASCII", STREAMS + 1},
    {"one has ended, and the server is full", OFTEN, 1, 0, STREAMS, "ASCII", STREAMS},
    {"two have ended, and the server is full", 1, 2, 0, STREAMS, "ASCII", STREAMS},
    {"only one lives, and the server is full", 1, STREAMS - 1, 0, STREAMS, "ASCII", STREAMS},
    {"one has ended, the server is full, and the pair is new", 1, 1, 0, STREAMS, "ISO-8859-1", STREAMS},
    {"all end by a text", 1, 0, STREAMS, ALL, "ASCII", STREAMS + 1},
};

static void test_ending(const struct ending *ending) {
    iconvd_options options = {.streams = STREAMS, .timeout = 20000};
    iconvd_pool *pool = NULL;
    /* The text after OPEN and the first CONV. */
    set_plan(CLOSE_AT_ONCE, 2, ending->ended_by_text);
    plan.places = ending->places;
    plan.together = STREAMS;
    check(iconvd_connect(where, &options, &pool) == ICONVD_OK, "%s: a right server", ending->name);
    use_all(pool);
    int connections = __atomic_load_n(&plan.connections, __ATOMIC_SEQ_CST);
    check(connections == STREAMS, "%s: a stream for each text: %d", ending->name, connections);
    for (int i = 0; i < connections && i < ending->ended; i++)
        shutdown(plan.ends[i], SHUT_RDWR);
    for (int text = 0; text < 3; text++) {
        iconvd_status status = convert_from(pool, ending->from);
        check(status == ICONVD_OK, "%s: text %d: status %d", ending->name, text, status);
    }
    connections = __atomic_load_n(&plan.connections, __ATOMIC_SEQ_CST);
    check(connections == ending->connections, "%s: %d connections", ending->name, connections);
    iconvd_disconnect(pool);
}

/* Rounds end with the first that failed, since a text that is lost takes a time limit. */
int main(void) {
    start_server("endings");
    for (int round = 0; round < OFTEN && checks_failed == 0; round++)
        for (size_t i = 0; i < sizeof ENDINGS / sizeof *ENDINGS; i++)
            if (round < ENDINGS[i].rounds)
                test_ending(&ENDINGS[i]);
    unlink(socket_file);
    return checks_end("endings");
}
