/* One stream: requests out, so many under way, and their replies in. Nothing here waits. */
#ifndef BENCHMARK_CLIENT_H
#define BENCHMARK_CLIENT_H

#include "run.h"
#include "tally.h"

/* A request that is not answered yet. */
struct pending {
    const struct script *script;
    const struct step *step;
    uint32_t caller;
    uint32_t tag;
    uint64_t sent; /* when, in nanoseconds */
};

struct client {
    int fd;                /* -1: not connected */
    struct buffer out;
    size_t out_sent;
    struct buffer in;
    struct pending *ring;  /* of `room` places, a power of two; the oldest is number `first` modulo `room` */
    size_t room, first, under_way;
    uint32_t tag;
    uint32_t caller;       /* whose turn it is */
    uint64_t answered;     /* on this stream, without its opening */
    size_t unopened;       /* requests of the opening that are not answered */
    uint64_t moved;        /* when bytes went or came last, or it began to wait */
    uint64_t random;
    bool waits_to_write;   /* epoll is asked for that */
};

/* What all clients of a thread share. */
struct course {
    const struct options *options;
    const struct workload *workload;
    struct run *run;       /* of all threads */
    struct tally tally;
    uint64_t now;          /* nanoseconds */
    uint64_t heard;        /* when the last reply was read that shows that the server serves */
    bool is_opening;       /* until all streams are open */
    bool is_running;       /* the openings are answered, and requests are asked */
};

bool client_begin(struct client *client, const struct course *course, uint64_t seed);
void client_end(struct client *client);

/* Opens a stream, and puts its opening into what is to be sent. False: there is no connection. */
bool client_connect(struct client *client, struct course *course);

/* Sends and asks as much as the socket and the depth allow. False: the stream is lost. */
bool client_send(struct client *client, struct course *course);

/* Reads what there is. False: the stream is lost. */
bool client_receive(struct client *client, struct course *course);

/* Why a stream is closed before all is answered: it ended, or nothing came within the time limit. */
enum ending { ENDING_LOST, ENDING_SILENT };

/* Closes a stream that is lost, and counts what is not answered. */
void client_lose(struct client *client, struct course *course, enum ending ending);

/* Whether nothing is under way, and so the stream may be closed. */
static inline bool client_is_idle(const struct client *client) {
    return client->under_way == 0;
}

#endif
