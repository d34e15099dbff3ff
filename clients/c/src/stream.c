/* One connection. */
#include "stream.h"

#include <errno.h>
#include <fcntl.h>
#include <sys/socket.h>
#include <sys/stat.h>
#include <unistd.h>

#include "transfer.h"

/* How many reads of a stream a server makes, and after how many the stream is not used for another text. What is sent for one, with two
   charmaps of 8 MB, takes some 20,000. */
enum { MOST_READS = 1000000, ENOUGH_READS = 900000 };

/* Above what programs that close "all" descriptors one by one usually count to, and within the usual limit of 1,024. */
enum { HIGH_DESCRIPTOR = 400 };

bool stream_register(struct stream *stream, int fd) {
    struct stat status;
    if (fstat(fd, &status) != 0) {
        close(fd);
        return false;
    }
    stream->fd = fd;
    stream->device = status.st_dev;
    stream->inode = status.st_ino;
    return true;
}

bool stream_connect(struct stream *stream, const struct address *address) {
    stream->timed_out = stream->ended = false;
    stream->heard = stream->answered = false;
    stream->reads = 0;
    if (!address_connect(address, stream))
        return false;
    int high = fcntl(stream->fd, F_DUPFD_CLOEXEC, HIGH_DESCRIPTOR);
    if (high >= 0) {
        close(stream->fd);
        stream->fd = high;
    }
    return true;
}

bool stream_is_intact(const struct stream *stream) {
    struct stat status;
    return stream->fd >= 0 && fstat(stream->fd, &status) == 0 && status.st_dev == stream->device &&
           status.st_ino == stream->inode;
}

bool stream_has_ended(const struct stream *stream) {
    char byte;
    if (!stream_is_intact(stream))
        return true;
    return recv(stream->fd, &byte, 1, MSG_PEEK | MSG_DONTWAIT) >= 0 || (errno != EAGAIN && errno != EWOULDBLOCK);
}

bool stream_may_be_used_up(const struct stream *stream) {
    return stream->reads >= MOST_READS;
}

bool stream_is_worn(const struct stream *stream) {
    return stream->reads >= ENOUGH_READS;
}

void stream_close(struct stream *stream) {
    if (stream_is_intact(stream))
        close(stream->fd);
    stream->fd = -1;
}

/* The round trip itself. */
static bool send_and_receive(struct stream *stream, struct call *call) {
    struct sending sending;
    struct receiving receiving = {.got = 0};
    uint32_t tag = ++stream->tag;
    if (!sending_begin(&sending, call, tag) || sending_go_on(stream, &sending, 0) != TRANSFER_DONE)
        return false;
    enum transfer state = receiving_go_on(stream, &receiving, call, tag, true);
    if (state != TRANSFER_AGAIN)
        return state == TRANSFER_DONE;
    /* The kernel limits each wait. A service that sends a byte now and then is held to the limit here. */
    long long end = now_in_milliseconds() + stream->timeout;
    while (state == TRANSFER_AGAIN) {
        state = receiving_go_on(stream, &receiving, call, tag, true);
        if (state == TRANSFER_AGAIN && stream->timeout > 0 && now_in_milliseconds() > end) {
            stream->timed_out = true;
            return false;
        }
    }
    return state == TRANSFER_DONE;
}

bool stream_call(struct stream *stream, struct call *call) {
    gate_leave(&stream->pass);
    bool whole = send_and_receive(stream, call);
    gate_enter(&stream->pass);
    return whole;
}
