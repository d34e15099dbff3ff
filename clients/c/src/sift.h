/* The parts of a chunk of a source: what the service converts of it, and what is left out or replaced. */
#ifndef ICONVD_SIFT_H
#define ICONVD_SIFT_H

#include "phrases.h"

/* A chunk that is being sifted. */
struct sift {
    struct iconvd_cd *cd;
    struct fronts from;
    struct fronts to;
    bool lacks;         /* whether the target has each character is looked at, too */
    bool by_runs;       /* characters that are kept are one part with those after them, where nothing else is looked at */
    const char *in;     /* the chunk */
    size_t length;
    size_t whole;       /* how long the source is from there */
    struct buffer text; /* its characters in UTF-8, where the source does not tell them */
    struct buffer kept; /* those of its characters that the service converts, in the source's encoding */
    struct phrases phrases;
};

/* The next part of a chunk. */
struct part {
    enum { KEPT, REPLACED, LEFT_OUT, NO_CHARACTER, END } kind; /* LEFT_OUT: the target lacks it; NO_CHARACTER: faulty bytes */
    size_t length;               /* in the source */
    const struct phrase *phrase; /* REPLACED: by which one */
    iconvd_status status;        /* END: why. OK: all of the chunk was gone through */
};

/* How far a chunk has been gone through. All zero at its start. */
struct walk {
    size_t used; /* bytes of the chunk */
    size_t text; /* bytes of `text` */
};

/* The next part, and goes on to what follows it. At the end it stays. */
struct part sift_next(struct sift *sift, struct walk *walk);

/* What a whole chunk has. */
struct sums {
    size_t used;
    size_t replaced;
    size_t left_out;
    size_t faults;       /* sequences of faulty bytes */
    size_t last_faults;  /* those after everything else */
    size_t faulty_bytes; /* of the last ones */
    iconvd_status status;
};

/* Goes through the chunk: what the service converts goes to `kept`, and phrases are found. ENOMEM, LOST. */
iconvd_status sift_gather(struct sift *sift, struct sums *sums);

#endif
