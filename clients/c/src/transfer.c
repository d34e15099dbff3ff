/* Sends requests and receives replies, a system call at a time. */
#include "transfer.h"

#include <errno.h>
#include <sys/socket.h>
#include <time.h>

long long now_in_milliseconds(void) {
    struct timespec now;
    clock_gettime(CLOCK_MONOTONIC, &now);
    return now.tv_sec * 1000LL + now.tv_nsec / 1000000;
}

/* Drops the first `by` bytes of three parts. */
static void advance(struct iovec parts[3], size_t by) {
    for (int i = 0; i < 3; i++) {
        size_t step = by < parts[i].iov_len ? by : parts[i].iov_len;
        parts[i].iov_base = step ? (char *)parts[i].iov_base + step : parts[i].iov_base;
        parts[i].iov_len -= step;
        by -= step;
    }
}

bool sending_begin(struct sending *sending, const struct call *call, uint32_t tag) {
    size_t body = call->head_length + call->input_length;
    iconvd_asker asker = {.caller = call->caller, .tag = tag};
    sending->parts[0] = (struct iovec){.iov_base = sending->frame, .iov_len = ICONVD_FRAME_HEAD};
    /* sendmsg() does not write to what it sends; struct iovec cannot say so. */
    sending->parts[1] = (struct iovec){.iov_base = (void *)(uintptr_t)call->head, .iov_len = call->head_length};
    sending->parts[2] = (struct iovec){.iov_base = (void *)(uintptr_t)call->input, .iov_len = call->input_length};
    sending->left = ICONVD_FRAME_HEAD + body;
    return iconvd_frame_head(sending->frame, asker, call->op, body) != 0;
}

/* Whether an error says that the peer has closed the stream. */
static bool is_end(int error) {
    return error == EPIPE || error == ECONNRESET;
}

enum transfer sending_go_on(struct stream *stream, struct sending *sending, int flags) {
    while (sending->left > 0) {
        struct msghdr message = {.msg_iov = sending->parts, .msg_iovlen = 3};
        ssize_t sent = sendmsg(stream->fd, &message, MSG_NOSIGNAL | flags);
        if (sent < 0 && errno == EINTR)
            continue;
        if (sent < 0) {
            bool waits = errno == EAGAIN || errno == EWOULDBLOCK;
            stream->timed_out = waits && !(flags & MSG_DONTWAIT);
            stream->ended = is_end(errno);
            return waits && (flags & MSG_DONTWAIT) ? TRANSFER_AGAIN : TRANSFER_LOST;
        }
        advance(sending->parts, (size_t)sent);
        sending->left -= (size_t)sent;
        /* A short request is one read. A long one is cut by the network, into pieces of a kilobyte at least. */
        stream->reads += 1 + (size_t)sent / 1024;
    }
    return TRANSFER_DONE;
}

/* How many bytes the reply has by its first four; 0 where these are not there yet. */
static size_t reply_total(const struct receiving *receiving) {
    return receiving->got < 4 ? 0 : 4 + (size_t)get_u32(receiving->frame);
}

/* Whether what the frame says of itself is what was asked for: its length has the room that the call has. */
static bool frame_fits(const struct receiving *receiving, const struct call *call, uint32_t tag) {
    size_t total = reply_total(receiving);
    if (total < ICONVD_FRAME_HEAD || total > ICONVD_FRAME_HEAD + call->reply_room + call->output_room)
        return false;
    return get_u32(receiving->frame + 4) == call->caller && get_u32(receiving->frame + 8) == tag;
}

/* Takes the whole reply apart. */
static void finish(const struct receiving *receiving, struct call *call) {
    size_t body = receiving->got - ICONVD_FRAME_HEAD;
    call->status = receiving->frame[12];
    call->reply_length = body < call->reply_room ? body : call->reply_room;
    call->output_length = body - call->reply_length;
}

/* One recvmsg() of the parts that are still to come. Of a reply that others may follow no more is read than belongs to it: first its
   head, then its body. */
static ssize_t receive_once(struct stream *stream, const struct receiving *receiving, const struct call *call, bool alone) {
    struct iovec parts[3] = {
        {.iov_base = (void *)(uintptr_t)receiving->frame, .iov_len = ICONVD_FRAME_HEAD},
        {.iov_base = call->reply, .iov_len = call->reply_room},
        {.iov_base = call->output, .iov_len = call->output_room},
    };
    if (!alone && receiving->got < ICONVD_FRAME_HEAD) {
        parts[1].iov_len = parts[2].iov_len = 0;
    } else if (!alone) {
        size_t body = reply_total(receiving) - ICONVD_FRAME_HEAD;
        parts[1].iov_len = body < call->reply_room ? body : call->reply_room;
        parts[2].iov_len = body - parts[1].iov_len;
    }
    advance(parts, receiving->got);
    struct msghdr message = {.msg_iov = parts, .msg_iovlen = 3};
    return recvmsg(stream->fd, &message, 0);
}

enum transfer receiving_go_on(struct stream *stream, struct receiving *receiving, struct call *call, uint32_t tag, bool alone) {
    ssize_t read = receive_once(stream, receiving, call, alone);
    if (read < 0 && errno == EINTR)
        return TRANSFER_AGAIN;
    if (read <= 0) {
        stream->timed_out = read < 0 && (errno == EAGAIN || errno == EWOULDBLOCK);
        stream->ended = read == 0 || is_end(errno);
        return TRANSFER_LOST;
    }
    stream->heard = true;
    receiving->got += (size_t)read;
    if (receiving->got < ICONVD_FRAME_HEAD)
        return TRANSFER_AGAIN;
    if (!frame_fits(receiving, call, tag) || receiving->got > reply_total(receiving))
        return TRANSFER_LOST;
    if (receiving->got < reply_total(receiving))
        return TRANSFER_AGAIN;
    finish(receiving, call);
    stream->answered = true;
    return TRANSFER_DONE;
}
