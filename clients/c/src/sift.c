/* Takes a chunk of a source apart. */
#include "sift.h"

#include "repertoire.h"

/* The character of `length` bytes, from the source itself or from its text in UTF-8. False: that ends before it. */
static bool read_character(const struct sift *sift, struct walk *walk, const char *at, size_t length, uint32_t *character) {
    if (front_character(&sift->from, at, length, character))
        return true;
    if (walk->text >= sift->text.length)
        return false;
    walk->text += utf8_read(sift->text.bytes + walk->text, character);
    return true;
}

/* What becomes of a character. */
static struct part judge(struct sift *sift, uint32_t character, size_t length) {
    const struct encoding *to = sift->cd->pair.to;
    int policy = sift->cd->policy;
    struct part part = {.kind = KEPT, .length = length};
    if (repertoire_has(to, character))
        return part;
    if (policy & ICONVD_TRANSLIT) {
        part.phrase = phrases_find(&sift->phrases, to, character);
        if (!part.phrase)
            return (struct part){.kind = END, .status = ICONVD_ENOMEM};
        part.kind = part.phrase->state == NONE ? KEPT : REPLACED;
    }
    if (part.kind == KEPT && policy & ICONVD_IGNORE)
        part.kind = LEFT_OUT;
    return part.kind == KEPT ? (struct part){.kind = END, .status = ICONVD_ENOCHAR} : part;
}

/* What is at a place of the chunk. */
static struct part look(struct sift *sift, struct walk *walk) {
    const char *at = sift->in + walk->used;
    size_t left = walk->used < sift->length ? sift->length - walk->used : 0, length = 0;
    uint32_t character;
    switch (left > 0 ? front_at(&sift->from, at, left, &length) : CUT_OFF) {
    case CUT_OFF: return (struct part){.kind = END, .status = left > 0 ? ICONVD_EINVAL : ICONVD_OK};
    case FAULTY:
        if (sift->cd->policy & ICONVD_IGNORE)
            return (struct part){.kind = NO_CHARACTER, .length = faulty_length(sift->from.kind, at, sift->whole - walk->used)};
        return (struct part){.kind = END, .status = ICONVD_EILSEQ};
    default: break;
    }
    if (!sift->lacks)
        return (struct part){.kind = KEPT, .length = sift->by_runs ? front_run(&sift->from, at, left) : length};
    if (!read_character(sift, walk, at, length, &character))
        return (struct part){.kind = END, .status = ICONVD_OK};
    return judge(sift, character, length);
}

struct part sift_next(struct sift *sift, struct walk *walk) {
    struct part part = look(sift, walk);
    walk->used += part.length;
    return part;
}

/* Adds a part to the sums. */
static void count(struct sums *sums, const struct part *part) {
    bool faulty = part->kind == NO_CHARACTER;
    sums->used += part->length;
    sums->replaced += part->kind == REPLACED;
    sums->left_out += part->kind == LEFT_OUT;
    sums->faults += faulty;
    sums->last_faults = faulty ? sums->last_faults + 1 : 0;
    sums->faulty_bytes = faulty ? sums->faulty_bytes + part->length : 0;
}

/* Keeps the bytes before `end` that are kept one after another. There is room for all of the chunk. */
static void keep(struct sift *sift, size_t end, size_t *run) {
    buffer_append(&sift->kept, sift->in + end - *run, *run);
    *run = 0;
}

/* Goes through the chunk once. */
static iconvd_status gather(struct sift *sift, struct sums *sums) {
    struct walk walk = {.used = 0};
    struct part part;
    size_t run = 0;
    *sums = (struct sums){.used = 0};
    sift->kept.length = 0;
    if (!buffer_reserve(&sift->kept, sift->length))
        return ICONVD_ENOMEM;
    sift->by_runs = true;
    while ((part = sift_next(sift, &walk)).kind != END) {
        if (part.kind == KEPT)
            run += part.length;
        else
            keep(sift, walk.used - part.length, &run);
        count(sums, &part);
    }
    keep(sift, walk.used, &run);
    sift->by_runs = false;
    sums->status = part.status;
    return part.status == ICONVD_ENOMEM ? ICONVD_ENOMEM : ICONVD_OK;
}

/* Brings the characters of the chunk to UTF-8, if the source does not tell which ones they are. */
static iconvd_status decode(struct sift *sift) {
    struct pair pair = {.to = encoding_builtin(UTF_8), .from = sift->cd->pair.from, .strict = true};
    struct sums sums;
    sift->text.length = 0;
    if (sift->from.kind != BUILTIN_COUNT)
        return ICONVD_OK;
    sift->lacks = false;
    iconvd_status status = gather(sift, &sums);
    sift->lacks = true;
    size_t length = sift->kept.length, room = 4 * length;
    if (status != ICONVD_OK || length == 0)
        return status;
    if (!buffer_reserve(&sift->text, room))
        return ICONVD_ENOMEM;
    struct work work = {.in = sift->kept.bytes, .in_length = length, .out = sift->text.bytes, .room = room};
    status = pool_convert(sift->cd->pool, &pair, &work);
    sift->text.length = work.produced;
    if (status == ICONVD_ENOMEM)
        return status;
    return work.used > 0 ? ICONVD_OK : ICONVD_LOST;
}

iconvd_status sift_gather(struct sift *sift, struct sums *sums) {
    iconvd_status status = ICONVD_OK;
    if (sift->lacks)
        status = repertoire_prepare(sift->cd->pool, sift->cd->pair.to);
    if (status == ICONVD_OK && sift->lacks)
        status = decode(sift);
    if (status == ICONVD_OK)
        status = gather(sift, sums);
    return status == ICONVD_OK ? phrases_encode(&sift->phrases, sift->cd) : status;
}
