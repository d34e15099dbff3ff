/* What a conversion that stops at faults will meet after one.
 *
 * A caller that goes on a byte (a unit of UTF-16 or UTF-32) after each fault makes a call for each, and a call is a round trip. So after a
 * fault a call looks further.
 * Which of the bytes there are characters is told here, and these are converted at once (stretches.h). The next calls are answered from
 * that, as long as the caller goes on so and its bytes are those that were looked at. How far a call looks grows while this is so. */
#include "stretches.h"

enum { LEAST = 256, GROWTH = 8 };

struct foresight {
    struct stretches stretches;
    size_t used, written, next; /* what calls have had of these */
    size_t window;           /* how far the next look goes */
    unsigned failed, pause;  /* looks that showed nothing are made less often: how many calls are between two, and are still to come */
};

/* Whether the bytes of the next stretch, and those that decide what follows it, are the caller's. */
static bool is_next(const struct foresight *foresight, const struct progress *progress) {
    const struct stretches *stretches = &foresight->stretches;
    if (foresight->next >= stretch_count(stretches))
        return false;
    size_t left = stretches->in.length - foresight->used, needed = stretch_at(stretches, foresight->next)->length + CODE;
    needed = needed < left ? needed : left;
    return needed <= progress->in_left && memcmp(stretches->in.bytes + foresight->used, progress->in, needed) == 0;
}

/* Moves on by a stretch. False: it has no room. */
static bool take(struct foresight *foresight, struct progress *progress, size_t unit) {
    const struct stretch *stretch = stretch_at(&foresight->stretches, foresight->next);
    if (progress->out_left == 0 || stretch->written + stretch->ends_empty > progress->out_left)
        return false;
    if (stretch->written > 0)
        memcpy(progress->out, foresight->stretches.out.bytes + foresight->written, stretch->written);
    progress_add(progress, &(struct work){
                               .used = stretch->length, .produced = stretch->written, .replaced = (uint32_t)stretch->replaced});
    foresight->used += stretch->length + unit;
    foresight->written += stretch->written;
    foresight->next++;
    return true;
}

/* Looks further than before if calls have had all of that. */
static bool look_again(struct iconvd_cd *cd, struct foresight *foresight, const struct progress *progress) {
    if (foresight->pause > 0) {
        foresight->pause--;
        return false;
    }
    bool all = foresight->next > 0 && foresight->next == stretch_count(&foresight->stretches);
    size_t unit = unit_length(cd->pair.from->kind);
    foresight->window = all ? GROWTH * foresight->window : LEAST * unit;
    foresight->window = foresight->window < MOST_WINDOW * unit ? foresight->window : MOST_WINDOW * unit;
    foresight->used = foresight->written = foresight->next = 0;
    bool seen = stretches_find(&foresight->stretches, cd, progress, foresight->window);
    foresight->failed = seen ? 0 : foresight->failed < 32 ? 2 * foresight->failed + 1 : foresight->failed;
    foresight->pause = foresight->failed;
    return seen;
}

bool foresight_answer(struct iconvd_cd *cd, struct progress *progress) {
    if (!cd->foresight)
        cd->foresight = calloc(1, sizeof *cd->foresight);
    struct foresight *foresight = cd->foresight;
    if (!foresight)
        return false;
    return (is_next(foresight, progress) || look_again(cd, foresight, progress)) &&
           take(foresight, progress, unit_length(cd->pair.from->kind));
}

void foresight_end(struct iconvd_cd *cd) {
    if (!cd->foresight)
        return;
    stretches_free(&cd->foresight->stretches);
    free(cd->foresight);
    cd->foresight = NULL;
}
