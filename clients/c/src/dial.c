/* Makes connections to an address. */
#include "stream.h"

#include <errno.h>
#include <netdb.h>
#include <netinet/in.h>
#include <netinet/tcp.h>
#include <string.h>
#include <sys/socket.h>
#include <sys/time.h>
#include <sys/un.h>
#include <unistd.h>

/* Below 0 is without end, which the system calls 0. */
void stream_limit(const struct stream *stream, int timeout) {
    if (timeout <= 0)
        return;
    struct timeval limit = {.tv_sec = timeout / 1000, .tv_usec = timeout % 1000 * 1000};
    setsockopt(stream->fd, SOL_SOCKET, SO_RCVTIMEO, &limit, sizeof limit);
    setsockopt(stream->fd, SOL_SOCKET, SO_SNDTIMEO, &limit, sizeof limit);
}

/* Gives a new socket to the stream, so that a child that is made meanwhile closes it. */
static bool take_socket(struct stream *stream, int fd) {
    if (fd < 0 || !stream_register(stream, fd))
        return false;
    stream_limit(stream, stream->timeout);
    return true;
}

/* Waits for the peer, outside of the gate. */
static bool connect_to(struct stream *stream, const struct sockaddr *to, socklen_t length) {
    gate_leave(&stream->pass);
    bool connected = connect(stream->fd, to, length) == 0;
    int saved = errno;
    gate_enter(&stream->pass);
    if (!connected)
        stream_close(stream);
    errno = saved;
    return connected;
}

static bool connect_unix(const char *path, struct stream *stream) {
    struct sockaddr_un to = {.sun_family = AF_UNIX};
    memcpy(to.sun_path, path, strlen(path) + 1);
    return take_socket(stream, socket(AF_UNIX, SOCK_STREAM | SOCK_CLOEXEC, 0)) &&
           connect_to(stream, (struct sockaddr *)&to, sizeof to);
}

static bool connect_one(const struct addrinfo *to, struct stream *stream) {
    if (!take_socket(stream, socket(to->ai_family, to->ai_socktype | SOCK_CLOEXEC, to->ai_protocol)) ||
        !connect_to(stream, to->ai_addr, to->ai_addrlen))
        return false;
    /* A small request is sent at once: Nagle's algorithm would hold it back until the last one is acknowledged. */
    int on = 1;
    setsockopt(stream->fd, IPPROTO_TCP, TCP_NODELAY, &on, sizeof on);
    return true;
}

static struct addrinfo *look_up(const struct address *address, struct stream *stream) {
    struct addrinfo hints = {.ai_socktype = SOCK_STREAM, .ai_flags = AI_ADDRCONFIG}, *found = NULL;
    gate_leave(&stream->pass);
    if (getaddrinfo(address->text, address->port, &hints, &found) != 0)
        found = NULL;
    gate_enter(&stream->pass);
    return found;
}

/* Tries the addresses of a host one after another, from the one on whose turn it is. */
static bool connect_any(const struct addrinfo *found, struct stream *stream) {
    bool connected = false;
    unsigned number = 0;
    for (const struct addrinfo *to = found; to; to = to->ai_next)
        number++;
    stream->addresses = number;
    errno = EHOSTUNREACH;
    for (unsigned i = 0; i < number && !connected; i++) {
        const struct addrinfo *to = found;
        for (unsigned skip = (stream->turn + i) % number; skip > 0; skip--)
            to = to->ai_next;
        connected = connect_one(to, stream);
    }
    return connected;
}

static bool connect_tcp(const struct address *address, struct stream *stream) {
    struct addrinfo *found = look_up(address, stream);
    bool connected = connect_any(found, stream);
    int saved = errno;
    if (found)
        freeaddrinfo(found);
    errno = saved;
    return connected;
}

bool address_connect(const struct address *address, struct stream *stream) {
    stream->addresses = 1;
    if (address->kind == ADDRESS_UNIX)
        return connect_unix(address->text, stream);
    if (address->kind == ADDRESS_TCP)
        return connect_tcp(address, stream);
    return take_socket(stream, spawn_connected(address));
}

iconvd_status iconvd_dial(const char *where, int timeout, int *descriptor) {
    struct stream stream = {.fd = -1, .timeout = timeout};
    struct address address;
    int cancelling;
    iconvd_status status = address_read(&address, where);
    if (status != ICONVD_OK)
        return status;
    pthread_setcancelstate(PTHREAD_CANCEL_DISABLE, &cancelling);
    bool connected = address_connect(&address, &stream);
    pthread_setcancelstate(cancelling, NULL);
    address_free(&address);
    *descriptor = stream.fd;
    return connected ? ICONVD_OK : ICONVD_LOST;
}
