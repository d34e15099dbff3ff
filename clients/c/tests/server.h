/* A server of the tests' own, in a thread of theirs. It gives each text back as it came, or is wrong in one way, at one request. */
#ifndef ICONVD_SERVER_H
#define ICONVD_SERVER_H

#include <pthread.h>
#include <stdbool.h>
#include <string.h>
#include <sys/socket.h>
#include <sys/un.h>
#include <unistd.h>

#include "../iconvd.h"
#include "check.h"

enum fault {
    RIGHT,
    LENGTH_SHORT,    /* 8 */
    LENGTH_LONG,     /* 1,048,577 */
    LENGTH_HUGE,     /* 4,294,967,295 */
    OTHER_CALLER,
    OTHER_TAG,
    NO_STATUS,       /* 200 */
    REFUSED,         /* EBADF, with an empty body */
    NO_BODY,         /* OK, with an empty body */
    BODY_CUT,        /* OK, three bytes of body */
    LEFT_TOO_MUCH,   /* more bytes left than were sent */
    OUTPUT_TOO_LONG, /* more than the room */
    MORE_BEHIND,     /* a reply, and one byte more */
    TWICE,           /* the reply twice */
    CLOSE_AT_ONCE,
    SILENT,
    FAULTS,
    CLOSE_AFTER = 100 /* CLOSE_AFTER + n: closes after n bytes of the reply */
};

enum { ALL = 1000000, DESCRIPTOR_BITS = 20, DESCRIPTOR = (1 << DESCRIPTOR_BITS) - 1 };

/* What the server does. It is set before a client connects. */
static struct {
    enum fault fault;
    int request;      /* which one of a connection is answered wrongly */
    int wrong;        /* on how many connections, from the first one on */
    int places;       /* how many connections are served; those behind them wait for ever, as for a server whose places are taken */
    int connections;  /* how many there were */
    int ends[16];     /* our ends of the first of them */
    int together;     /* how many texts have to be there before one is answered */
    int texts;        /* how many were sent */
    size_t hold;      /* a text of so many bytes or more is answered after a shorter one; 0: at once */
    int shorter;      /* how many shorter ones were sent */
    bool closes;      /* a server whose places are taken closes those behind them, after `delay` milliseconds, and does not let them wait */
    int delay;
    int closing;      /* how many are being closed now, */
    int most_closing; /* and were at the same time at most */
    int listener;
} plan;

static uint32_t read_number(const unsigned char *bytes) {
    return (uint32_t)bytes[0] << 24 | (uint32_t)bytes[1] << 16 | (uint32_t)bytes[2] << 8 | bytes[3];
}

static void write_number(unsigned char *bytes, uint32_t value) {
    for (int i = 0; i < 4; i++)
        bytes[i] = (unsigned char)(value >> (24 - 8 * i));
}

static bool read_all(int fd, unsigned char *bytes, size_t length) {
    while (length > 0) {
        ssize_t got = read(fd, bytes, length);
        if (got <= 0)
            return false;
        bytes += got;
        length -= (size_t)got;
    }
    return true;
}

/* The right reply: OPEN has descriptor 0, CONV gives its input back, everything else is OK with four bytes. */
static size_t answer(const unsigned char *request, size_t length, unsigned char *reply) {
    size_t body = 4;
    memcpy(reply, request, 12);
    memset(reply + 12, 0, 9);
    if (request[12] == ICONVD_CONV) {
        size_t input = length - ICONVD_CONV_HEAD;
        memcpy(reply + 21, request + 21, input);
        body = 8 + input;
    } else if (request[12] == ICONVD_RESET || request[12] == ICONVD_CLOSE) {
        body = 0;
    }
    write_number(reply, (uint32_t)(9 + body));
    return 13 + body;
}

/* Makes a right reply wrong. Returns how many bytes of it are sent. */
static size_t spoil(enum fault fault, unsigned char *reply, size_t length) {
    switch (fault) {
    case LENGTH_SHORT: write_number(reply, 8); return length;
    case LENGTH_LONG: write_number(reply, 1048577); return length;
    case LENGTH_HUGE: write_number(reply, 0xffffffff); return length;
    case OTHER_CALLER: reply[7] ^= 1; return length;
    case OTHER_TAG: reply[11] ^= 1; return length;
    case NO_STATUS: reply[12] = 200; return length;
    case REFUSED: reply[12] = ICONVD_EBADF; write_number(reply, 9); return 13;
    case NO_BODY: write_number(reply, 9); return 13;
    case BODY_CUT: write_number(reply, 12); return 16;
    case LEFT_TOO_MUCH: reply[13] = 0x7f; return length;
    case OUTPUT_TOO_LONG: write_number(reply, read_number(reply) + 5000); memset(reply + length, 'x', 5000); return length + 5000;
    case MORE_BEHIND: reply[length] = 'x'; return length + 1;
    case TWICE: memcpy(reply + length, reply, length); return 2 * length;
    case CLOSE_AT_ONCE: return 0;
    default: return fault >= CLOSE_AFTER ? (size_t)fault - CLOSE_AFTER : length;
    }
}

static bool closes(enum fault fault) {
    return fault == CLOSE_AT_ONCE || fault >= CLOSE_AFTER;
}

/* Waits until so many texts are there as are to be answered together. */
static void wait_for_others(void) {
    int texts = __atomic_add_fetch(&plan.texts, 1, __ATOMIC_SEQ_CST);
    for (; texts < plan.together; texts = __atomic_load_n(&plan.texts, __ATOMIC_SEQ_CST))
        usleep(1000);
}

/* Holds a long text until a short one was sent. */
static void wait_for_shorter(size_t length) {
    if (length < plan.hold)
        __atomic_add_fetch(&plan.shorter, 1, __ATOMIC_SEQ_CST);
    while (plan.hold > 0 && __atomic_load_n(&plan.shorter, __ATOMIC_SEQ_CST) == 0)
        usleep(1000);
}

static void read_to_end(int fd) {
    char bytes[4096];
    while (read(fd, bytes, sizeof bytes) > 0)
        ;
}

/* Closes a connection that there is no place for. */
static void close_full(int fd) {
    int closing = __atomic_add_fetch(&plan.closing, 1, __ATOMIC_SEQ_CST);
    if (closing > plan.most_closing)
        plan.most_closing = closing;
    usleep((useconds_t)plan.delay * 1000);
    __atomic_sub_fetch(&plan.closing, 1, __ATOMIC_SEQ_CST);
    shutdown(fd, SHUT_RDWR);
}

/* One connection: its descriptor, and in the bits above it how many there were before. */
static void *serve(void *argument) {
    static __thread unsigned char request[1100000], reply[2300000];
    int fd = (int)((intptr_t)argument & DESCRIPTOR), before = (int)((intptr_t)argument >> DESCRIPTOR_BITS);
    bool wrong = before < plan.wrong;
    if (before >= plan.places && plan.closes)
        close_full(fd);
    else if (before >= plan.places)
        read_to_end(fd);
    for (int number = 0; read_all(fd, request, 13); number++) {
        size_t length = 4 + read_number(request);
        if (!read_all(fd, request + 13, length - 13))
            break;
        size_t total = answer(request, length, reply);
        if (request[12] == ICONVD_CONV) {
            wait_for_others();
            wait_for_shorter(length - ICONVD_CONV_HEAD);
        }
        enum fault fault = wrong && number == plan.request ? plan.fault : RIGHT;
        if (fault == SILENT) {
            read_to_end(fd);
            break;
        }
        total = spoil(fault, reply, total);
        if (total > 0 && send(fd, reply, total, MSG_NOSIGNAL) < 0)
            break;
        if (closes(fault))
            break;
    }
    close(fd);
    return NULL;
}

static inline void *accept_all(void *argument) {
    (void)argument;
    for (;;) {
        int fd = accept(plan.listener, NULL, NULL);
        if (fd < 0)
            return NULL;
        int number = __atomic_fetch_add(&plan.connections, 1, __ATOMIC_SEQ_CST);
        if (number < (int)(sizeof plan.ends / sizeof *plan.ends))
            plan.ends[number] = fd;
        pthread_t thread;
        if (pthread_create(&thread, NULL, serve, (void *)((intptr_t)number << DESCRIPTOR_BITS | fd)) == 0)
            pthread_detach(thread);
    }
}

/* What the server does with those who connect from now on. */
static void set_plan(enum fault fault, int request, int wrong) {
    plan.fault = fault;
    plan.request = request;
    plan.wrong = wrong;
    plan.places = ALL;
    plan.closes = false;
    plan.delay = plan.most_closing = 0;
    plan.together = 0;
    plan.hold = 0;
    __atomic_store_n(&plan.shorter, 0, __ATOMIC_SEQ_CST);
    __atomic_store_n(&plan.texts, 0, __ATOMIC_SEQ_CST);
    __atomic_store_n(&plan.connections, 0, __ATOMIC_SEQ_CST);
}

/* Its address, and the file of its socket. */
static char where[200], *socket_file = where + 5;

/* Listens there from now on. */
static inline void listen_again(void) {
    struct sockaddr_un at = {.sun_family = AF_UNIX};
    strcpy(at.sun_path, socket_file);
    unlink(socket_file);
    plan.listener = socket(AF_UNIX, SOCK_STREAM, 0);
    if (bind(plan.listener, (struct sockaddr *)&at, sizeof at) != 0 || listen(plan.listener, 100) != 0)
        exit(2);
    pthread_t thread;
    pthread_create(&thread, NULL, accept_all, NULL);
    pthread_detach(thread);
}

static inline void start_server(const char *name) {
    snprintf(where, sizeof where, "unix:/tmp/iconvd-%s-%ld", name, (long)getpid());
    listen_again();
}

#endif
