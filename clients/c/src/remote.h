/* What the server at the other end of a stream holds for us.
 *
 * Descriptors between encodings other than UTF-7 have no state that a call leaves behind, since the client itself treats the marks
 * of UTF-16 and UTF-32. So each pair of encodings is opened once and shared by all conversions. A caller number has 16 descriptors,
 * 8 charmaps and 262,144 mappings: when one is full the next is begun. */
#ifndef ICONVD_REMOTE_H
#define ICONVD_REMOTE_H

#include "encodings.h"
#include "stream.h"

struct pair {
    struct encoding *to;
    struct encoding *from;
    bool strict; /* stops before what the target lacks; otherwise `?` is written */
};

/* How many mappings the charmaps of a pair may have together. */
enum { CALLER_MAPPINGS = 262144 };

/* Where a descriptor is. */
struct place {
    uint32_t caller;
    uint32_t descriptor;
};

struct remote {
    struct remote_caller *callers; /* number i + 1 is callers[i] */
    size_t caller_count;
    struct remote_descriptor *descriptors;
    size_t descriptor_count;
};

/* Why a request failed where that is worth a line in the log. */
struct refusal {
    struct encoding *encoding; /* of the charmap that was refused; NULL: none */
    iconvd_status status;
    uint32_t line;
    unsigned cause;
    unsigned uploads; /* how many charmaps were sent */
};

/* Whether the pair is open already. */
bool remote_has(const struct remote *remote, const struct pair *pair);

/* The shared descriptor of a pair, opened if it is not yet; charmaps are uploaded as needed. LOST: the stream is. */
iconvd_status remote_find(struct remote *remote, struct stream *stream, const struct pair *pair, struct place *place,
                          struct refusal *refusal);

/* A descriptor that is not shared, for UTF-7. */
iconvd_status remote_open(struct remote *remote, struct stream *stream, const struct pair *pair, struct place *place,
                          struct refusal *refusal);
iconvd_status remote_close(struct remote *remote, struct stream *stream, const struct place *place);

/* Whether one of these is open. Its state would be lost with the stream. */
bool remote_has_own(const struct remote *remote);

/* Forgets everything, when the stream is lost. */
void remote_forget(struct remote *remote);

/* A piece of text on its way through a descriptor. */
struct work {
    const char *in;
    size_t in_length;
    char *out;
    size_t room;
    size_t used;     /* bytes of the input */
    size_t produced; /* bytes of the output */
    uint32_t replaced;
};

/* One CONV. `used`, `produced` and `replaced` are 0 where it is refused. */
iconvd_status remote_convert(struct stream *stream, const struct place *place, struct work *work);

/* What the reply to a CONV says of its work. LOST: it says what cannot be. */
iconvd_status work_answered(const struct call *call, struct work *work);

/* Pieces of one text. Their outputs are written one behind the other from the first piece's `out` on, where the room of all of them
   is. Up to four are sent before they are answered; once one has stopped no more are sent, and the answers to those after it are
   dropped. */
enum { BATCH_PIECES = 16 };
struct batch {
    struct work works[BATCH_PIECES];
    size_t number;
    size_t done;          /* how many were answered, up to the first that stopped */
    iconvd_status status; /* of the last of these */
};

/* Sends the pieces that are not done. LOST: the stream is; `done` says how far it came, and the rest may be sent elsewhere. */
iconvd_status remote_convert_batch(struct stream *stream, const struct place *place, struct batch *batch);

/* One RESET. `produced` says how many bytes were written to `out`. */
iconvd_status remote_reset(struct stream *stream, const struct place *place, char *out, size_t room, size_t *produced);

#endif
