/* What stream.c and pipeline.c share: pieces of frames on their way. */
#ifndef ICONVD_TRANSFER_H
#define ICONVD_TRANSFER_H

#include <sys/uio.h>

#include "frames.h"
#include "stream.h"

/* A request on its way out. */
struct sending {
    unsigned char frame[ICONVD_FRAME_HEAD];
    struct iovec parts[3];
    size_t left;
};

/* A reply on its way in. */
struct receiving {
    unsigned char frame[ICONVD_FRAME_HEAD];
    size_t got;
};

enum transfer { TRANSFER_DONE, TRANSFER_AGAIN, TRANSFER_LOST };

/* Prepares the request of a call with the given tag. False: it fits no frame. */
bool sending_begin(struct sending *sending, const struct call *call, uint32_t tag);

/* Sends as much as it can; AGAIN only where `flags` has MSG_DONTWAIT. */
enum transfer sending_go_on(struct stream *stream, struct sending *sending, int flags);

/* Reads once. AGAIN: the reply is not whole. With `alone` nothing may follow the reply, and so one read may take all of it. */
enum transfer receiving_go_on(struct stream *stream, struct receiving *receiving, struct call *call, uint32_t tag, bool alone);

/* A clock that is never set back, in milliseconds. */
long long now_in_milliseconds(void);

#endif
