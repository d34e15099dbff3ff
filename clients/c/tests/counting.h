/* A relay between a client and the service, in threads of the test's own. It counts what the client sends. */
#ifndef ICONVD_COUNTING_H
#define ICONVD_COUNTING_H

#include <pthread.h>
#include <spawn.h>
#include <stdatomic.h>
#include <stdbool.h>
#include <string.h>
#include <sys/socket.h>
#include <sys/un.h>
#include <unistd.h>

#include "../iconvd.h"
#include "check.h"

/* What has been sent since the start: texts are CONV requests, whole. */
static atomic_ullong texts_sent, text_bytes_sent, other_bytes_sent;

/* A frame whose beginning has been seen. */
struct seen {
    unsigned char head[ICONVD_FRAME_HEAD];
    size_t got;
    size_t left; /* of its body */
};

/* Counts the bytes of a stream. */
static void count_sent(struct seen *seen, const unsigned char *bytes, size_t length) {
    for (size_t at = 0; at < length;) {
        bool is_head = seen->got < ICONVD_FRAME_HEAD;
        size_t step = is_head ? 1 : seen->left < length - at ? seen->left : length - at;
        if (is_head)
            seen->head[seen->got++] = bytes[at];
        else
            seen->left -= step;
        at += step;
        if (is_head && seen->got == ICONVD_FRAME_HEAD) {
            size_t total = (size_t)seen->head[0] << 24 | (size_t)seen->head[1] << 16 | (size_t)seen->head[2] << 8 | seen->head[3];
            bool is_text = seen->head[12] == ICONVD_CONV;
            seen->left = total + 4 - ICONVD_FRAME_HEAD;
            atomic_fetch_add(&texts_sent, is_text);
            atomic_fetch_add(is_text ? &text_bytes_sent : &other_bytes_sent, total + 4);
        }
        if (seen->got == ICONVD_FRAME_HEAD && seen->left == 0)
            seen->got = 0;
    }
}

/* One direction of a connection. */
struct direction {
    int from, to;
    bool counts;
};

static void *relay_one(void *argument) {
    static _Thread_local unsigned char bytes[65536];
    struct direction direction = *(struct direction *)argument;
    struct seen seen = {.got = 0};
    free(argument);
    for (ssize_t got; (got = read(direction.from, bytes, sizeof bytes)) > 0;) {
        if (direction.counts)
            count_sent(&seen, bytes, (size_t)got);
        for (ssize_t sent = 0, step; sent < got; sent += step)
            if ((step = send(direction.to, bytes + sent, (size_t)(got - sent), MSG_NOSIGNAL)) <= 0)
                got = sent;
    }
    shutdown(direction.to, SHUT_WR);
    if (!direction.counts)
        shutdown(direction.from, SHUT_RD);
    return NULL;
}

static void relay_begin(int from, int to, bool counts) {
    struct direction *direction = malloc(sizeof *direction);
    pthread_t thread;
    *direction = (struct direction){.from = from, .to = to, .counts = counts};
    pthread_create(&thread, NULL, relay_one, direction);
    pthread_detach(thread);
}

/* A service of its own for each connection. */
static void *accept_counted(void *listener) {
    extern char **environ;
    char *words[] = {(char *)(uintptr_t)wanted("SERVER"), (char *)(uintptr_t)"pipe", NULL};
    for (;;) {
        int client = accept4((int)(intptr_t)listener, NULL, NULL, SOCK_CLOEXEC), ends[2];
        if (client < 0 || socketpair(AF_UNIX, SOCK_STREAM | SOCK_CLOEXEC, 0, ends) != 0)
            return NULL;
        posix_spawn_file_actions_t actions;
        posix_spawn_file_actions_init(&actions);
        posix_spawn_file_actions_adddup2(&actions, ends[1], 0);
        posix_spawn_file_actions_adddup2(&actions, ends[1], 1);
        pid_t child;
        int error = posix_spawn(&child, words[0], &actions, NULL, words, environ);
        posix_spawn_file_actions_destroy(&actions);
        close(ends[1]);
        check(error == 0, "%s: %s", words[0], strerror(error));
        relay_begin(client, ends[0], true);
        relay_begin(ends[0], client, false);
    }
}

/* Starts the relay, and says where it is. */
static const char *start_counting(const char *name) {
    static char where[100];
    struct sockaddr_un at = {.sun_family = AF_UNIX};
    snprintf(where, sizeof where, "unix:/tmp/iconvd-%s-%ld", name, (long)getpid());
    strcpy(at.sun_path, where + 5);
    int listener = socket(AF_UNIX, SOCK_STREAM | SOCK_CLOEXEC, 0);
    if (bind(listener, (struct sockaddr *)&at, sizeof at) != 0 || listen(listener, 100) != 0)
        exit(2);
    pthread_t thread;
    pthread_create(&thread, NULL, accept_counted, (void *)(intptr_t)listener);
    pthread_detach(thread);
    return where;
}

#endif
