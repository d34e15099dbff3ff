/* iconvd_open(), iconvd_convert() and their companions. */
#include "composed.h"

/* A server reads 65,536 bytes at a time: a request of one read is answered at once. From WORTH_CUTTING on a text between the service's own
   encodings goes in PARTS, so that the service converts one while the next is under way; more of them gain nothing, and by a charmap two gain
   nothing. What is computed here (computed.c) goes in chunks whose output has room in one request. */
enum { ONE_READ = 65536 - ICONVD_CONV_HEAD, CHUNK = 262144, COMPUTED_CHUNK = 131072, WORTH_CUTTING = 32768, PARTS = 2 };

iconvd_status convert_piece(struct iconvd_cd *cd, struct work *work) {
    if (cd->is_copy || cd->is_single)
        return cd->is_copy ? units_copy(work) : single_convert(cd->pool, cd->pair.from, work);
    return cd->own ? own_convert(cd, work) : pool_convert(cd->pool, &cd->pair, work);
}

size_t input_for_room(size_t in_left, size_t out_left) {
    return out_left < in_left / 4 && in_left > 4 * out_left + 64 ? 4 * out_left + 64 : in_left;
}

/* How many bytes the output of so much input has at most. */
static size_t most_output(const struct pair *pair, size_t length) {
    bool halves = pair->from->kind == UTF_8 && (pair->to->kind == UTF_16LE || pair->to->kind == UTF_16BE);
    size_t most = halves ? 2 : encoding_most_bytes(pair->to);
    return (length / encoding_least_bytes(pair->from) + 1) * most;
}

/* Cuts a long input into pieces that go under way together. 0: it cannot be cut, or the room may not be enough for two. */
static size_t cut_into_batch(const struct iconvd_cd *cd, const struct progress *progress, struct batch *batch) {
    size_t in_left = progress->in_left, out_left = progress->out_left;
    bool by_charmap = cd->pair.from->kind == BUILTIN_COUNT || cd->pair.to->kind == BUILTIN_COUNT;
    size_t piece = by_charmap || in_left > 2 * ONE_READ ? ONE_READ : in_left / PARTS + 1;
    size_t most = cd->ahead / piece < BATCH_PIECES ? cd->ahead / piece : BATCH_PIECES;
    const char *in = progress->in;
    batch->number = 0;
    /* A piece to GB18030 may need more than its own request. */
    bool alone = cd->own || cd->is_copy || cd->is_single || cd->pair.to->is_computed;
    while (!alone && in_left > 0 && batch->number < most) {
        size_t length = in_left > piece ? cut_length(cd->pair.from, in, piece) : in_left;
        size_t room = most_output(&cd->pair, length);
        if (length == 0 || room > out_left || room > ICONVD_MAX_ROOM)
            break;
        batch->works[batch->number++] = (struct work){.in = in, .in_length = length, .out = progress->out, .room = room};
        in += length;
        in_left -= length;
        out_left -= room;
    }
    return batch->number < 2 ? 0 : batch->number;
}

/* Converts a batch and moves on by what was answered. */
static iconvd_status convert_batch(struct iconvd_cd *cd, struct progress *progress, struct batch *batch) {
    batch->done = 0;
    batch->status = ICONVD_OK;
    iconvd_status status = pool_convert_batch(cd->pool, &cd->pair, batch);
    for (size_t i = 0; i < batch->done; i++)
        progress_add(progress, &batch->works[i]);
    return status;
}

/* Whether a piece that stopped so only stopped since it was a piece: there is more input, or more room, for it to go on with. */
static bool goes_on(iconvd_status status, const struct work *work, const struct progress *progress) {
    if (status == ICONVD_OK)
        return progress->in_left > 0;
    if (status == ICONVD_E2BIG)
        return work->produced > 0 && work->room == ICONVD_MAX_ROOM && progress->out_left > 0;
    return status == ICONVD_EINVAL && work->used > 0 && work->in_length - work->used < progress->in_left;
}

size_t room_for(const struct iconvd_cd *cd, size_t length, size_t room) {
    size_t most = cd->own ? room : most_output(&cd->pair, length);
    most = most < room ? most : room;
    return most < ICONVD_MAX_ROOM ? most : ICONVD_MAX_ROOM;
}

/* Converts the next piece and moves on by it. Returns whether there is more to do. */
static bool convert_next(struct iconvd_cd *cd, struct progress *progress, iconvd_status *status) {
    bool is_computed = cd->pair.from->is_computed || cd->pair.to->is_computed;
    size_t most = progress->in_left <= 2 * ONE_READ ? ONE_READ : is_computed ? COMPUTED_CHUNK : CHUNK;
    most = cd->ahead < most ? cd->ahead : most;
    size_t length = input_for_room(progress->in_left < most ? progress->in_left : most, progress->out_left);
    struct work work = {
        .in = progress->in, .in_length = length, .out = progress->out, .room = room_for(cd, length, progress->out_left)};
    *status = convert_piece(cd, &work);
    progress_add(progress, &work);
    return goes_on(*status, &work, progress);
}

/* Converts until all is used or something is in the way. */
static iconvd_status convert_until_stop(struct iconvd_cd *cd, struct progress *progress) {
    iconvd_status status = ICONVD_OK;
    bool more = true;
    while (more) {
        struct batch batch;
        if (progress->in_left > WORTH_CUTTING && cut_into_batch(cd, progress, &batch) > 0) {
            status = convert_batch(cd, progress, &batch);
            more = batch.done > 0 && goes_on(status, &batch.works[batch.done - 1], progress);
        } else {
            more = convert_next(cd, progress, &status);
        }
        cd->ahead = cd->ahead < CHUNK ? 4 * cd->ahead : SIZE_MAX;
    }
    return status;
}

/* Whether a fault ends a call, so that the caller has to go on after it. A text that has stopped at what the target lacks does not stop
   there again by //TRANSLIT, but at the next fault. */
static bool stops_at_faults(const struct iconvd_cd *cd) {
    return !cd->own && (cd->policy == ICONVD_STRICT || cd->policy == ICONVD_TRANSLIT);
}

/* The same, with the C library's reasons. */
static iconvd_status convert_direct(struct iconvd_cd *cd, struct progress *progress) {
    bool foreseen = cd->ahead == AHEAD_AFTER_STOP && stops_at_faults(cd) && foresight_answer(cd, progress);
    iconvd_status status = foreseen ? ICONVD_EILSEQ : convert_until_stop(cd, progress);
    if (status == ICONVD_ENOCHAR || status == ICONVD_EILSEQ)
        cd->ahead = AHEAD_AFTER_STOP;
    /* It looks for room before it looks at the character. */
    if (status == ICONVD_ENOCHAR && progress->out_left == 0)
        return ICONVD_E2BIG;
    if (status == ICONVD_EILSEQ && may_be_completed(cd->pair.from->kind, progress->in, progress->in_left))
        return ICONVD_EINVAL;
    return status;
}

/* Whether the policy says what to do at a stop. */
static bool has_policy(const struct iconvd_cd *cd, iconvd_status status) {
    return (status == ICONVD_ENOCHAR && cd->policy & (ICONVD_IGNORE | ICONVD_TRANSLIT)) ||
           (status == ICONVD_EILSEQ && cd->policy & ICONVD_IGNORE);
}

/* Goes on over faulty bytes and what the target lacks, if the policy says so. Chunks without either bring it back to the direct way. */
static iconvd_status convert_all(struct iconvd_cd *cd, struct progress *progress) {
    if (progress->in_left == 0)
        return ICONVD_OK;
    /* What a policy is about is met once in a call, and not once for each of it. */
    if (cd->policy & ICONVD_IGNORE)
        cd->ahead = SIZE_MAX;
    iconvd_status status = convert_direct(cd, progress);
    while (has_policy(cd, status)) {
        status = convert_sifted(cd, progress, status);
        if (status != ICONVD_OK || progress->in_left == 0)
            break;
        cd->ahead = ONE_READ;
        status = convert_direct(cd, progress);
    }
    /* Faulty bytes in front of a character that has no room are left out again by the next call, as in the C library. */
    if (status == ICONVD_E2BIG)
        progress_back(progress);
    return status;
}

iconvd_status next_character(struct iconvd_cd *cd, const struct progress *progress, uint32_t *character, size_t *length) {
    struct pair pair = {.to = encoding_builtin(UTF_32BE), .from = cd->pair.from, .strict = true};
    unsigned char out[4];
    size_t length_seen = progress->in_left < 16 ? progress->in_left : 16;
    struct work work = {.in = progress->in, .in_length = length_seen, .out = (char *)out, .room = sizeof out};
    if (cd->own)
        return ICONVD_UNSUPPORTED;
    iconvd_status status = pool_convert(cd->pool, &pair, &work);
    if (work.produced != 4)
        return status == ICONVD_OK ? ICONVD_LOST : status;
    *character = (uint32_t)out[0] << 24 | (uint32_t)out[1] << 16 | (uint32_t)out[2] << 8 | out[3];
    *length = work.used;
    return ICONVD_OK;
}

/* Says why the conversion stopped. The lacking character is asked for; where the service has gone meanwhile it stays unknown. */
static void describe(struct iconvd_cd *cd, const struct progress *progress, iconvd_status status, iconvd_stop *stop) {
    *stop = (iconvd_stop){.status = status, .replaced = progress->replaced, .skipped = progress->skipped};
    if (cd->is_replacement)
        stop->length = status == ICONVD_EILSEQ ? progress->in_left : 0;
    else if (cd->composed)
        composed_describe(cd, progress, stop);
    else if (cd->shifted)
        shifted_describe(cd, progress, stop);
    else if (status == ICONVD_EILSEQ)
        stop->length = faulty_length(cd->pair.from->kind, progress->in, progress->in_left);
    else if (status == ICONVD_ENOCHAR && next_character(cd, progress, &stop->character, &stop->length) != ICONVD_OK)
        stop->character = 0;
}

iconvd_status convert_part(struct iconvd_cd *cd, struct progress *progress) {
    struct progress before = *progress;
    iconvd_status status = mark_read(cd, progress);
    if (status != ICONVD_OK)
        return status;
    mark_reserve(cd, progress);
    status = convert_all(cd, progress);
    mark_settle(cd, progress, &before, status);
    return status;
}

iconvd_status convert_any(struct iconvd_cd *cd, struct progress *progress) {
    if (cd->is_replacement)
        return replacement_convert(cd, progress);
    if (cd->composed)
        return composed_convert(cd, progress);
    return cd->shifted ? shifted_convert(cd, progress) : convert_part(cd, progress);
}

iconvd_status convert_text(struct iconvd_cd *cd, struct progress *progress) {
    atomic_fetch_add_explicit(&cd->pool->conversions, 1, memory_order_relaxed);
    return convert_any(cd, progress);
}

iconvd_status iconvd_convert(iconvd_cd *cd, const char **in, size_t *in_left, char **out, size_t *out_left, iconvd_stop *stop) {
    struct progress progress = {.in = *in, .in_left = *in_left, .out = *out, .out_left = *out_left};
    iconvd_status status = convert_text(cd, &progress);
    *in = progress.in;
    *in_left = progress.in_left;
    *out = progress.out;
    *out_left = progress.out_left;
    if (stop)
        describe(cd, &progress, status, stop);
    return status;
}

/* The two encodings of a conversion, with what stands behind the target's name. */
static iconvd_status find_encodings(struct iconvd_cd *cd, const char *to, const char *from, bool *to_wide) {
    struct parsed_name target, source;
    if (!name_parse(&target, to) || !name_parse(&source, from))
        return ICONVD_UNSUPPORTED;
    cd->from_wide = strcmp(source.name, "WCHAR_T") == 0;
    *to_wide = strcmp(target.name, "WCHAR_T") == 0;
    cd->policy |= (target.translit ? ICONVD_TRANSLIT : 0) | (target.ignore ? ICONVD_IGNORE : 0);
    if (cd->policy != ICONVD_SUBSTITUTE && (cd->policy & ~(ICONVD_IGNORE | ICONVD_TRANSLIT)) != 0)
        return ICONVD_BADPOLICY;
    iconvd_status status = pool_find(cd->pool, target.name, &cd->to);
    if (status == ICONVD_OK)
        status = pool_find(cd->pool, source.name, &cd->from);
    return status == ICONVD_OK ? replacement_begin(cd, target.name) : status;
}

iconvd_status open_pair(struct iconvd_cd *cd) {
    bool little = machine_is_little();
    cd->pair = (struct pair){.to = encoding_written(mark_free(cd->to, little)),
                             .from = mark_free(cd->from, little),
                             .strict = !(cd->policy & ICONVD_SUBSTITUTE)};
    if (cd->to->kind != UTF_7 && cd->from->kind != UTF_7)
        return pool_open(cd->pool, &cd->pair);
    /* What is left of UTF-7 at a stop means something to its descriptor alone, and so nothing can be left out of it. */
    if (cd->from->kind == UTF_7 && cd->policy & (ICONVD_IGNORE | ICONVD_TRANSLIT))
        return ICONVD_UNSUPPORTED;
    cd->own = own_begin(cd->pool);
    return cd->own ? own_open(cd) : ICONVD_ENOMEM;
}

iconvd_status convert_open(struct iconvd_cd *cd, bool to_wide) {
    /* The descriptor of UTF-7 reads no characters that are computed here. */
    bool computes = cd->to->kind == UTF_7 && cd->from->is_computed;
    if (cd->to->composing || composing_reads(cd->from->composing) || computes)
        return composed_open(cd, to_wide);
    return cd->to->kind == SHIFTED || cd->from->kind == SHIFTED ? shifted_open(cd, to_wide) : open_pair(cd);
}

iconvd_status iconvd_open(iconvd_pool *pool, const char *to, const char *from, int policy, iconvd_cd **cd) {
    fork_check(pool);
    struct iconvd_cd *made = calloc(1, sizeof *made);
    if (!made)
        return ICONVD_ENOMEM;
    made->pool = pool;
    made->policy = policy;
    made->ahead = SIZE_MAX;
    bool to_wide;
    iconvd_status status = find_encodings(made, to, from, &to_wide);
    if (status == ICONVD_OK)
        status = convert_open(made, to_wide);
    if (status == ICONVD_OK)
        *cd = made;
    else
        iconvd_close(made);
    return status;
}

iconvd_status iconvd_reset(iconvd_cd *cd, char **out, size_t *out_left) {
    cd->fault_told = false;
    if (cd->composed)
        return composed_reset(cd, out, out_left);
    if (cd->shifted)
        return shifted_reset(cd, out, out_left);
    iconvd_status status = cd->own ? own_reset(cd, out, out_left) : ICONVD_OK;
    if (status != ICONVD_OK)
        return status;
    cd->mark_written = false;
    cd->order_known = false;
    cd->ahead = SIZE_MAX;
    foresight_end(cd);
    return ICONVD_OK;
}

void iconvd_close(iconvd_cd *cd) {
    if (!cd)
        return;
    own_end(cd);
    foresight_end(cd);
    shifted_end(cd);
    composed_end(cd);
    free(cd);
}
