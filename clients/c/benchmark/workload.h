/* What is asked: requests ready to be sent, and the replies that they should have. */
#ifndef BENCHMARK_WORKLOAD_H
#define BENCHMARK_WORKLOAD_H

#include "../iconvd.h"
#include "options.h"
#include "text.h"

/* A request, but for its caller and its tag, and its reply. */
struct step {
    struct buffer frame;
    struct buffer body;   /* of the reply, if it is known; with --verify it is compared */
    bool body_known;
    bool is_ping;         /* it has a caller of its own */
};

/* Two charmaps, each in nine frames, two OPENs and a CONV. */
enum { MAX_STEPS = 24, MAX_SCRIPTS = MAX_SIZES + KIND_COUNT };

/* Requests that belong together, in this order and of one caller. */
struct script {
    enum kind kind;
    size_t bytes;   /* of text, in a CONV */
    unsigned share;
    struct step steps[MAX_STEPS];
    size_t step_count;
};

struct workload {
    struct script opening; /* what each caller asks first: its charmaps and its descriptor */
    struct script scripts[MAX_SCRIPTS];
    size_t script_count;
    unsigned shares; /* of all scripts together */
};

/* Makes everything that the options say. */
void workload_make(struct workload *workload, const struct options *options);

/* Writes the caller and the tag into a frame that was copied. */
void frame_address(char *frame, uint32_t caller, uint32_t tag);

#endif
