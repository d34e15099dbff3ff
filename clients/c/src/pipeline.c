/* Requests that are sent before the earlier ones are answered.
 *
 * A service whose replies are not taken reads nothing more. So nothing here waits in a send: it sends what the socket takes, and
 * waits for either direction. */
#include <errno.h>
#include <poll.h>
#include <sys/socket.h>

#include "transfer.h"

/* How many requests are under way at most. More gain nothing where each has 64 KiB. */
enum { DEPTH = 4 };

struct pipeline {
    struct stream *stream;
    struct call *calls;
    size_t number;
    size_t placed;   /* how many replies have a place for their output */
    size_t begun;    /* how many requests are sent or being sent */
    size_t answered; /* how many replies are whole */
    struct sending sending;
    struct receiving receiving;
    uint32_t first_tag;
};

/* Sends as much as fits in the socket and in the depth. */
static enum transfer send_more(struct pipeline *line) {
    for (;;) {
        enum transfer state = sending_go_on(line->stream, &line->sending, MSG_DONTWAIT);
        if (state != TRANSFER_DONE)
            return state;
        if (line->begun == line->number || line->begun - line->answered >= DEPTH)
            return TRANSFER_DONE;
        if (!sending_begin(&line->sending, &line->calls[line->begun], line->first_tag + (uint32_t)line->begun))
            return TRANSFER_LOST;
        line->begun++;
    }
}

/* Waits until the socket can be read, or written where something is left to send. */
static bool wait_for(struct pipeline *line) {
    short events = POLLIN | (line->sending.left > 0 ? POLLOUT : 0);
    struct pollfd wait = {.fd = line->stream->fd, .events = events};
    int ready;
    do
        ready = poll(&wait, 1, line->stream->timeout > 0 ? line->stream->timeout : -1);
    while (ready < 0 && errno == EINTR);
    line->stream->timed_out = ready == 0;
    return ready > 0;
}

/* Whether there is something to read now. */
static bool is_readable(const struct pipeline *line) {
    struct pollfd wait = {.fd = line->stream->fd, .events = POLLIN};
    return poll(&wait, 1, 0) > 0;
}

static enum transfer receive_more(struct pipeline *line) {
    struct call *call = &line->calls[line->answered];
    uint32_t tag = line->first_tag + (uint32_t)line->answered;
    enum transfer state = receiving_go_on(line->stream, &line->receiving, call, tag, false);
    if (state == TRANSFER_DONE) {
        line->receiving.got = 0;
        line->answered++;
    }
    return state;
}

/* Finds a place for the output of the next reply. It may turn out that no more requests are wanted. Returns whether a reply is due. */
static bool place_next(struct pipeline *line, stream_place *place, void *context) {
    if (line->placed == line->answered && !place(context, &line->calls[line->placed++]))
        line->number = line->begun;
    return line->answered < line->number;
}

/* Sends what there is to send, and reads a reply when there is one. */
static bool go_on(struct pipeline *line) {
    if (send_more(line) == TRANSFER_LOST)
        return false;
    if (line->sending.left > 0 && !is_readable(line)) {
        if (!wait_for(line))
            return false;
        if (!is_readable(line))
            return true;
    }
    return receive_more(line) != TRANSFER_LOST;
}

/* All round trips, until no more are wanted. */
static bool send_and_receive(struct stream *stream, struct call *calls, size_t number, size_t *answered, stream_place *place,
                             void *context) {
    struct pipeline line = {.stream = stream, .calls = calls, .number = number, .first_tag = stream->tag + 1};
    stream->tag += (uint32_t)number;
    bool well = true;
    /* As for one call: a service that sends a byte now and then is held to a limit. */
    long long end = now_in_milliseconds() + (long long)number * stream->timeout;
    while (well && line.answered < line.number) {
        stream->timed_out = stream->timeout > 0 && now_in_milliseconds() > end;
        if (stream->timed_out)
            break;
        well = !place_next(&line, place, context) || go_on(&line);
    }
    *answered = line.answered;
    return line.answered == line.number;
}

bool stream_pipeline(struct stream *stream, struct call *calls, size_t number, size_t *answered, stream_place *place,
                     void *context) {
    gate_leave(&stream->pass);
    bool whole = send_and_receive(stream, calls, number, answered, place, context);
    gate_enter(&stream->pass);
    return whole;
}
