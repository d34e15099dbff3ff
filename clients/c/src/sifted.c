/* //IGNORE and //TRANSLIT: goes on where bytes are no character, or where the target lacks one.
 *
 * A round trip for each of them would let a hostile text cost far more than its length. So the source is taken in chunks. What is
 * no character is told here, without the service. Which characters the target lacks is told here too: of a charmap the service is
 * asked for the chunk in UTF-8 once. What is left of the chunk is converted by one request, and replacements are put in between its
 * characters. So a chunk takes three round trips at most, and is sent twice at most. */
#include "sift.h"

/* A chunk with the head of its request is what the service reads at a time. The first one of a call is shorter where there is little
   room: what finds no room is sent again by the next call. */
enum { CHUNK = 65536 - ICONVD_CONV_HEAD, FIRST_CHUNK = 4096 };

/* A chunk that is put together. */
struct settling {
    struct progress *progress;
    const char *output; /* what the service wrote, where phrases go in between; else NULL: it is in its place */
    size_t output_left;
    size_t kept_left;   /* bytes of what is kept that the service has used */
    iconvd_status stop; /* why it goes no further */
};

/* Converts what is kept of a chunk. */
static iconvd_status send_kept(struct sift *sift, char *out, size_t room, struct work *work) {
    size_t length = input_for_room(sift->kept.length, room);
    *work = (struct work){.in = sift->kept.bytes, .in_length = length, .out = out, .room = room_for(sift->cd, length, room)};
    iconvd_status status = length > 0 ? convert_piece(sift->cd, work) : ICONVD_OK;
    if (status == ICONVD_EINVAL)
        return ICONVD_OK; /* the request cut a character */
    /* What the target lacks is not among what is kept. */
    return status == ICONVD_ENOCHAR && sift->lacks ? ICONVD_LOST : status;
}

/* Copies a character that the service has written. */
static bool copy_character(struct sift *sift, struct settling *settling) {
    struct progress *progress = settling->progress;
    size_t written = 0, left = settling->output_left;
    bool there = left > 0 && front_at(&sift->to, settling->output, left, &written) == WELL_FORMED;
    if (!there || written > progress->out_left) {
        settling->stop = there ? ICONVD_E2BIG : ICONVD_LOST;
        return false;
    }
    /* A loop: memcpy() of a byte or two is a call. */
    for (size_t i = 0; i < written; i++)
        progress->out[i] = settling->output[i];
    progress_add(progress, &(struct work){.produced = written});
    settling->output += written;
    settling->output_left -= written;
    return true;
}

/* A character that the service has converted. Like the others it returns false where it is not taken. */
static bool take_kept(struct sift *sift, struct settling *settling, size_t length) {
    if (settling->kept_left < length || (settling->output && !copy_character(sift, settling)))
        return false;
    settling->kept_left -= length;
    progress_add(settling->progress, &(struct work){.used = length});
    return true;
}

/* A character that the target lacks. As in the C library nothing happens to it where there is no room at all. */
static bool take_lacking(struct sift *sift, struct settling *settling, const struct part *part) {
    struct progress *progress = settling->progress;
    size_t length = part->kind == REPLACED ? part->phrase->length : 0;
    bool full = progress->out_left == 0 && (settling->output || settling->kept_left == 0);
    if (full || length > progress->out_left) {
        settling->stop = ICONVD_E2BIG;
        return false;
    }
    if (length > 0)
        memcpy(progress->out, sift->phrases.bytes.bytes + part->phrase->at, length);
    progress_add(progress, &(struct work){.used = part->length, .produced = length, .replaced = part->kind == REPLACED});
    progress->skipped += part->kind == LEFT_OUT;
    progress->lacking += part->kind == LEFT_OUT;
    return true;
}

static bool take_part(struct sift *sift, struct settling *settling, const struct part *part) {
    if (part->kind == KEPT)
        return take_kept(sift, settling, part->length);
    if (part->kind != NO_CHARACTER)
        return take_lacking(sift, settling, part);
    progress_pass(settling->progress, part->length, 1);
    return true;
}

/* Goes through the chunk again, and moves on by each of its parts until one has no room or was not converted. */
static iconvd_status settle(struct sift *sift, struct settling *settling) {
    struct walk walk = {.used = 0};
    struct part part = sift_next(sift, &walk);
    while (part.kind != END && take_part(sift, settling, &part))
        part = sift_next(sift, &walk);
    return part.kind == END ? part.status : settling->stop;
}

/* The same for a chunk that was converted whole, in its place. */
static iconvd_status take_all(struct progress *progress, const struct sums *sums) {
    progress_add(progress, &(struct work){.used = sums->used - sums->faulty_bytes});
    progress->skipped += sums->left_out + sums->faults - sums->last_faults;
    progress->lacking += sums->left_out;
    progress_pass(progress, sums->faulty_bytes, sums->last_faults);
    return sums->status;
}

/* What is kept goes to its place at once. */
static iconvd_status convert_in_place(struct sift *sift, struct progress *progress, const struct sums *sums) {
    struct work work;
    iconvd_status status = send_kept(sift, progress->out, progress->out_left, &work);
    if (status == ICONVD_LOST || status == ICONVD_ENOMEM)
        return status;
    progress_add(progress, &(struct work){.produced = work.produced, .replaced = work.replaced});
    if (work.used == sift->kept.length && (progress->out_left > 0 || sums->left_out == 0))
        return take_all(progress, sums);
    struct settling settling = {.progress = progress, .kept_left = work.used, .stop = status};
    return settle(sift, &settling);
}

/* What is kept is converted apart, and put together with what is written instead of the rest. */
static iconvd_status convert_apart(struct sift *sift, struct progress *progress) {
    struct buffer output = {.bytes = NULL};
    struct work work;
    size_t room = room_for(sift->cd, sift->kept.length, progress->out_left);
    iconvd_status status = fronts_of(sift->cd->pair.to, &sift->to);
    if (status != ICONVD_OK || !buffer_reserve(&output, room + 1))
        return ICONVD_ENOMEM;
    status = send_kept(sift, output.bytes, room, &work);
    if (status != ICONVD_LOST && status != ICONVD_ENOMEM) {
        struct settling settling = {
            .progress = progress, .output = output.bytes, .output_left = work.produced, .kept_left = work.used, .stop = status};
        status = settle(sift, &settling);
    }
    buffer_free(&output);
    return status;
}

/* Converts one chunk, and moves on by what was done of it. */
static iconvd_status convert_chunk(struct sift *sift, struct progress *progress, size_t most, struct sums *sums) {
    const char *in = progress->in;
    sift->in = in;
    sift->whole = progress->in_left;
    sift->length = progress->in_left < most ? progress->in_left : most;
    iconvd_status status = sift_gather(sift, sums);
    if (status == ICONVD_OK)
        status = sums->replaced > 0 ? convert_apart(sift, progress) : convert_in_place(sift, progress, sums);
    if (status == ICONVD_ENOCHAR && progress->out_left == 0)
        return ICONVD_E2BIG;
    /* The chunk cut a character. */
    if (status == ICONVD_EINVAL && progress->in != in && sift->length < sift->whole)
        status = ICONVD_OK;
    return status == ICONVD_OK && progress->in == in ? ICONVD_LOST : status;
}

/* Whether a stop is one that the next chunk goes on from. */
static bool go_on(struct sift *sift, struct progress *progress, iconvd_status status) {
    if (status == ICONVD_EILSEQ && sift->cd->policy & ICONVD_IGNORE) {
        /* The service finds faulty what is well formed here. */
        progress_pass(progress, faulty_length(sift->from.kind, progress->in, progress->in_left), 1);
        return true;
    }
    bool news = status == ICONVD_ENOCHAR && !sift->lacks && sift->cd->policy & (ICONVD_IGNORE | ICONVD_TRANSLIT);
    sift->lacks |= news;
    return news;
}

iconvd_status convert_sifted(struct iconvd_cd *cd, struct progress *progress, iconvd_status stop) {
    struct sift sift = {.cd = cd, .lacks = stop == ICONVD_ENOCHAR};
    struct sums sums = {.used = 0};
    size_t most = progress->out_left < FIRST_CHUNK / 4 ? FIRST_CHUNK : CHUNK;
    bool clean = false;
    iconvd_status status = fronts_of(cd->pair.from, &sift.from);
    while (status == ICONVD_OK && progress->in_left > 0 && !clean) {
        status = convert_chunk(&sift, progress, most, &sums);
        clean = status == ICONVD_OK && sums.faults + sums.left_out + sums.replaced == 0;
        if (go_on(&sift, progress, status))
            status = ICONVD_OK;
        most = CHUNK;
    }
    phrases_free(&sift.phrases);
    buffer_free(&sift.text);
    buffer_free(&sift.kept);
    return status;
}
