/* One connection: requests out, replies in. */
#ifndef ICONVD_STREAM_H
#define ICONVD_STREAM_H

#include <stdbool.h>
#include <sys/types.h>

#include "address.h"
#include "gate.h"

struct stream {
    int fd;           /* -1: not connected */
    dev_t device;     /* which socket `fd` is, since the host may close it and open something else on its number */
    ino_t inode;
    uint32_t tag;     /* of the last request */
    int timeout;      /* of one call, in milliseconds; below 0 without end */
    bool timed_out;   /* why it was lost */
    bool ended;       /* the same: the server has closed it */
    bool heard;       /* a byte was read, since it was connected */
    bool answered;    /* a whole reply was */
    unsigned turn;    /* which of the host's addresses is the first to be tried */
    unsigned addresses; /* how many of them there were */
    uint64_t reads;   /* how many the server has made of it at most */
    struct pass pass; /* with which who uses it is inside the gate, but while it waits for the service */
};

/* A request with its reply. The bodies stand in two parts each, so that text is neither copied on its way out nor in. */
struct call {
    uint32_t caller;
    uint8_t op;
    const void *head;  /* the first bytes of the request's body */
    size_t head_length;
    const void *input; /* those behind them */
    size_t input_length;
    unsigned char *reply; /* where the first bytes of the reply's body go */
    size_t reply_room;
    char *output; /* where those behind them go */
    size_t output_room;
    iconvd_status status; /* what the reply says */
    size_t reply_length;
    size_t output_length;
};

/* Connects. The descriptor is moved to a high number, out of the way of hosts that close the low ones. */
bool stream_connect(struct stream *stream, const struct address *address);

/* Limits how long connect() and each wait for the service take, in milliseconds; 0 and less change nothing. */
void stream_limit(const struct stream *stream, int timeout);

/* Takes a socket that is not connected yet, or is. False: it is none, and closed. */
bool stream_register(struct stream *stream, int fd);

/* Whether `fd` is still the socket that it was. */
bool stream_is_intact(const struct stream *stream);

/* Whether a stream on which nothing is under way is known to be lost: it has an end, or bytes that nobody has asked for. */
bool stream_has_ended(const struct stream *stream);

/* Whether the server may have made as many reads of the stream as it makes of one, after which it ends it. The client cannot tell: it
   knows what it sent, and not how that was cut. */
bool stream_may_be_used_up(const struct stream *stream);

/* Whether it may soon be used up, so that another one is better for the next text. */
bool stream_is_worn(const struct stream *stream);

/* Closes the connection, unless the host has closed it or something else has its number now. */
void stream_close(struct stream *stream);

/* One round trip. False: the stream is lost, and the reply is not there. */
bool stream_call(struct stream *stream, struct call *call);

/* Several requests, of which later ones are sent before earlier ones are answered. Before it reads the reply to calls[i] it asks
   `place` where its output goes; where that returns false, no more requests are sent than have been begun. False: the stream is lost;
   calls[0] to calls[*answered - 1] have their replies. */
typedef bool stream_place(void *context, struct call *call);
bool stream_pipeline(struct stream *stream, struct call *calls, size_t number, size_t *answered, stream_place *place,
                     void *context);

#endif
