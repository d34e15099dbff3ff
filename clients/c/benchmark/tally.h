/* What was measured. */
#ifndef BENCHMARK_TALLY_H
#define BENCHMARK_TALLY_H

#include "histogram.h"
#include "workload.h"

/* A count for each status of the protocol, and one for all numbers that are none. */
enum { STATUSES = 17 };

/* What became of the requests of a script. */
struct outcome {
    struct histogram times;      /* of those that were answered; a refused one has no time */
    uint64_t statuses[STATUSES]; /* replies with each status */
    uint64_t lost;               /* requests whose stream ended before they were answered */
    uint64_t unanswered;         /* requests that were not answered within the time limit */
    uint64_t wrong;              /* replies that are not what they should be, or of another request */
};

/* The requests that open a stream, and replies that nobody asked for, are counted behind the scripts. */
enum { OPENING = MAX_SCRIPTS, OUTCOMES };

struct tally {
    struct outcome outcomes[OUTCOMES];
    uint64_t text;        /* bytes of text that were converted */
    uint64_t streams;     /* that were opened */
    uint64_t unreachable; /* connections that could not be made */
};

/* Counts a reply's status. True: the request was answered, so that its time counts. */
bool outcome_count(struct outcome *outcome, uint8_t status);

void outcome_merge(struct outcome *outcome, const struct outcome *from);

/* Requests that were refused, and CONVs that stopped before the end of their text. */
uint64_t outcome_refused(const struct outcome *outcome);
uint64_t outcome_stopped(const struct outcome *outcome);

/* Whether a conversion gives this status, and has done its work as far as it says. */
bool is_stop(unsigned status);

/* The protocol's name of a status, as ENOMEM. */
const char *status_name(unsigned status);

void tally_merge(struct tally *tally, const struct tally *from);

uint64_t tally_answered(const struct tally *tally);

/* The requests that did not get their right reply. */
uint64_t tally_errors(const struct tally *tally);

#endif
