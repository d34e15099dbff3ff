/* A host with two addresses: where the server at one ends new streams, the next one is tried at once. */
#include "server.h"

#include <netdb.h>
#include <netinet/in.h>

enum { ADDRESSES = 2, TIMEOUT = 700 };

/* The servers: which of them close what they take, and how many connections each had. */
static struct {
    struct sockaddr_in at;
    int listener;
    bool closes;
    int connections;
} servers[ADDRESSES];

static char lines[1000];

static void keep_line(void *context, const char *line) {
    (void)context;
    snprintf(lines + strlen(lines), sizeof lines - strlen(lines), "%s\n", line);
}

/* The C library's look-up, for this program: every host has these addresses. */
int getaddrinfo(const char *host, const char *port, const struct addrinfo *hints, struct addrinfo **found) {
    static struct addrinfo list[ADDRESSES];
    (void)host, (void)port, (void)hints;
    for (int i = 0; i < ADDRESSES; i++)
        list[i] = (struct addrinfo){.ai_family = AF_INET,
                                    .ai_socktype = SOCK_STREAM,
                                    .ai_addr = (struct sockaddr *)&servers[i].at,
                                    .ai_addrlen = sizeof servers[i].at,
                                    .ai_next = i + 1 < ADDRESSES ? &list[i + 1] : NULL};
    *found = list;
    return 0;
}

void freeaddrinfo(struct addrinfo *found) {
    (void)found;
}

static void *accept_some(void *argument) {
    int number = (int)(intptr_t)argument, fd;
    while ((fd = accept(servers[number].listener, NULL, NULL)) >= 0) {
        pthread_t thread;
        __atomic_add_fetch(&servers[number].connections, 1, __ATOMIC_SEQ_CST);
        if (servers[number].closes)
            close(fd);
        else if (pthread_create(&thread, NULL, serve, (void *)(intptr_t)fd) == 0)
            pthread_detach(thread);
    }
    return NULL;
}

/* Listens at 127.0.0.1, 127.0.0.2 .., each at a port of its own. */
static void start_servers(void) {
    for (int i = 0; i < ADDRESSES; i++) {
        pthread_t thread;
        socklen_t length = sizeof servers[i].at;
        servers[i].at = (struct sockaddr_in){.sin_family = AF_INET, .sin_addr.s_addr = htonl(INADDR_LOOPBACK + (uint32_t)i)};
        servers[i].listener = socket(AF_INET, SOCK_STREAM, 0);
        if (bind(servers[i].listener, (struct sockaddr *)&servers[i].at, length) != 0 || listen(servers[i].listener, 100) != 0 ||
            getsockname(servers[i].listener, (struct sockaddr *)&servers[i].at, &length) != 0)
            exit(2);
        pthread_create(&thread, NULL, accept_some, (void *)(intptr_t)i);
        pthread_detach(thread);
    }
}

/* Opens a pair while some servers close what they take. */
static iconvd_status open_pair(bool first_closes, bool second_closes) {
    iconvd_options options = {.streams = 1, .timeout = TIMEOUT, .log = keep_line};
    iconvd_pool *pool = NULL;
    iconvd_cd *cd = NULL;
    lines[0] = 0;
    for (int i = 0; i < ADDRESSES; i++) {
        servers[i].closes = i == 0 ? first_closes : second_closes;
        __atomic_store_n(&servers[i].connections, 0, __ATOMIC_SEQ_CST);
    }
    iconvd_status status = iconvd_connect("tcp:two.example:7879", &options, &pool);
    if (status == ICONVD_OK)
        status = iconvd_open(pool, "UTF-8", "ASCII", ICONVD_STRICT, &cd);
    iconvd_close(cd);
    iconvd_disconnect(pool);
    return status;
}

static int connections(int number) {
    return __atomic_load_n(&servers[number].connections, __ATOMIC_SEQ_CST);
}

int main(void) {
    set_plan(RIGHT, 0, 0);
    start_servers();
    check(open_pair(false, false) == ICONVD_OK && connections(0) == 1 && connections(1) == 0, "both have places");
    check(open_pair(true, false) == ICONVD_OK, "the first is full: %s", lines);
    check(connections(0) == 1 && connections(1) == 1 && lines[0] == 0, "the second is asked at once: %d and %d: %s", connections(0),
          connections(1), lines);
    check(open_pair(true, true) == ICONVD_LOST, "both are full");
    check(connections(0) >= 2 && connections(0) - connections(1) <= 1 && connections(1) <= connections(0), "both are asked in turn: %d and %d",
          connections(0), connections(1));
    check(connections(0) <= 5 && strstr(lines, "two.example:7879: the server closes new connections (full or draining)\n"), "%s", lines);
    shutdown(servers[0].listener, SHUT_RDWR);
    close(servers[0].listener);
    check(open_pair(true, false) == ICONVD_OK && connections(1) == 1, "nobody listens at the first");
    return checks_end("addresses");
}
