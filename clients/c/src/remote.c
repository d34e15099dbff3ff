/* Opens descriptors and uploads charmaps on one stream. */
#include "remote.h"

#include "frames.h"

enum { CALLER_DESCRIPTORS = 16, CALLER_CHARMAPS = 8 };

struct remote_caller {
    unsigned descriptors;
    unsigned charmap_count;
    struct encoding *charmaps[CALLER_CHARMAPS];
    uint32_t mappings;
    bool full; /* of charmaps */
};

struct remote_descriptor {
    struct pair pair;
    struct place place;
};

static bool is_same(const struct pair *one, const struct pair *other) {
    return one->to == other->to && one->from == other->from && one->strict == other->strict;
}

static const struct remote_descriptor *find(const struct remote *remote, const struct pair *pair) {
    for (size_t i = 0; i < remote->descriptor_count; i++)
        if (is_same(&remote->descriptors[i].pair, pair))
            return &remote->descriptors[i];
    return NULL;
}

bool remote_has(const struct remote *remote, const struct pair *pair) {
    return find(remote, pair) != NULL;
}

bool remote_has_own(const struct remote *remote) {
    size_t open = 0;
    for (size_t i = 0; i < remote->caller_count; i++)
        open += remote->callers[i].descriptors;
    return open > remote->descriptor_count;
}

void remote_forget(struct remote *remote) {
    free(remote->callers);
    free(remote->descriptors);
    *remote = (struct remote){.callers = NULL};
}

/* Sends a request whose reply is at most eight bytes. A status that the protocol has not is rubbish. */
static iconvd_status ask(struct stream *stream, struct call *call, unsigned char reply[8]) {
    call->reply = reply;
    call->reply_room = 8;
    return stream_call(stream, call) && call->status <= ICONVD_ENOCHAR ? call->status : ICONVD_LOST;
}

static iconvd_status send_part(struct stream *stream, uint32_t caller, const char *text, size_t length) {
    unsigned char reply[8];
    struct call call = {.caller = caller, .op = ICONVD_PART, .input = text, .input_length = length};
    return ask(stream, &call, reply);
}

/* Sends a charmap's text: behind an empty PART, since a refused upload leaves its part, and in several if it is long. */
static iconvd_status put(struct stream *stream, uint32_t caller, const struct buffer *text, struct refusal *refusal) {
    iconvd_status status = send_part(stream, caller, NULL, 0);
    size_t sent = 0;
    for (; status == ICONVD_OK && text->length - sent > ICONVD_MAX_BODY; sent += ICONVD_MAX_BODY)
        status = send_part(stream, caller, text->bytes + sent, ICONVD_MAX_BODY);
    if (status != ICONVD_OK)
        return status;
    unsigned char reply[8];
    struct call call = {.caller = caller, .op = ICONVD_PUT, .input = text->bytes + sent, .input_length = text->length - sent};
    status = ask(stream, &call, reply);
    if (status == ICONVD_BADMAP && call.reply_length == 5) {
        refusal->line = get_u32(reply);
        refusal->cause = reply[4];
    }
    if (status == ICONVD_OK && call.reply_length == 4)
        refusal->uploads++;
    return status;
}

static bool caller_has(const struct remote_caller *caller, const struct encoding *encoding) {
    if (encoding->kind != BUILTIN_COUNT)
        return true;
    for (unsigned i = 0; i < caller->charmap_count; i++)
        if (caller->charmaps[i] == encoding)
            return true;
    return false;
}

static iconvd_status upload_to(struct remote *remote, struct stream *stream, size_t index, struct encoding *encoding,
                               struct refusal *refusal) {
    struct remote_caller *caller = &remote->callers[index];
    if (caller_has(caller, encoding))
        return ICONVD_OK;
    iconvd_status status = put(stream, (uint32_t)index + 1, &encoding->map.text, refusal);
    if (status == ICONVD_OK) {
        caller->charmaps[caller->charmap_count++] = encoding;
        caller->mappings += encoding->map.mappings;
    } else if (status != ICONVD_LOST) {
        refusal->encoding = encoding;
        refusal->status = status;
    }
    return status;
}

/* Whether a caller has the charmaps of a pair, or has room for those that it lacks; and for one more descriptor. */
static bool caller_suits(const struct remote_caller *caller, const struct pair *pair) {
    unsigned charmaps = caller->charmap_count;
    uint64_t mappings = caller->mappings;
    if (!caller_has(caller, pair->to)) {
        charmaps++;
        mappings += pair->to->map.mappings;
    }
    if (!caller_has(caller, pair->from) && pair->from != pair->to) {
        charmaps++;
        mappings += pair->from->map.mappings;
    }
    if (charmaps == caller->charmap_count)
        return caller->descriptors < CALLER_DESCRIPTORS;
    return !caller->full && caller->descriptors < CALLER_DESCRIPTORS && charmaps <= CALLER_CHARMAPS &&
           (mappings <= CALLER_MAPPINGS || caller->charmap_count == 0);
}

/* One more element of an array. NULL: out of memory, and the array is as it was. */
static void *grow(void **array, size_t count, size_t size) {
    void *bigger = realloc(*array, (count + 1) * size);
    if (!bigger)
        return NULL;
    *array = bigger;
    return memset((char *)bigger + count * size, 0, size);
}

/* The caller for a pair: one that has its charmaps, else one with room for them, else a new one. */
static iconvd_status choose_caller(struct remote *remote, const struct pair *pair, size_t *index) {
    size_t roomy = remote->caller_count;
    for (size_t i = remote->caller_count; i-- > 0;) {
        const struct remote_caller *caller = &remote->callers[i];
        if (!caller_suits(caller, pair))
            continue;
        roomy = i;
        if (caller_has(caller, pair->to) && caller_has(caller, pair->from))
            break;
    }
    *index = roomy;
    if (roomy < remote->caller_count)
        return ICONVD_OK;
    void *callers = remote->callers;
    if (!grow(&callers, remote->caller_count, sizeof *remote->callers))
        return ICONVD_ENOMEM;
    remote->callers = callers;
    remote->caller_count++;
    return ICONVD_OK;
}

/* The caller for a pair, with its charmaps. Where one turns out to have no room, since nobody had counted the mappings of a charmap of
   the host's own, it is taken for full, and another one is chosen. */
static iconvd_status prepare_caller(struct remote *remote, struct stream *stream, const struct pair *pair, size_t *index,
                                    struct refusal *refusal) {
    iconvd_status status = ICONVD_QUOTA;
    /* No caller has room for two charmaps such as those of GB18030 and EUC-TW. */
    bool fresh = (uint64_t)pair->to->map.mappings + pair->from->map.mappings > CALLER_MAPPINGS && pair->to != pair->from;
    while (status == ICONVD_QUOTA && !fresh) {
        status = choose_caller(remote, pair, index);
        if (status != ICONVD_OK)
            return status;
        fresh = remote->callers[*index].charmap_count == 0;
        refusal->encoding = NULL;
        status = upload_to(remote, stream, *index, pair->to, refusal);
        if (status == ICONVD_OK)
            status = upload_to(remote, stream, *index, pair->from, refusal);
        if (status == ICONVD_QUOTA)
            remote->callers[*index].full = true;
    }
    return status;
}

iconvd_status remote_open(struct remote *remote, struct stream *stream, const struct pair *pair, struct place *place,
                          struct refusal *refusal) {
    size_t index = 0;
    iconvd_status status = prepare_caller(remote, stream, pair, &index, refusal);
    if (status != ICONVD_OK)
        return status;
    unsigned char frame[ICONVD_OPEN_FRAME], reply[8];
    iconvd_asker asker = {.caller = (uint32_t)index + 1};
    size_t length = iconvd_frame_open(frame, asker, pair->to->name, pair->from->name, pair->strict);
    struct call call = {.caller = asker.caller,
                        .op = ICONVD_OPEN,
                        .head = frame + ICONVD_FRAME_HEAD,
                        .head_length = length - ICONVD_FRAME_HEAD};
    status = ask(stream, &call, reply);
    if (status == ICONVD_UNSUPPORTED || status == ICONVD_ENOMEM)
        return status;
    if (status != ICONVD_OK || call.reply_length != 4)
        return ICONVD_LOST;
    remote->callers[index].descriptors++;
    *place = (struct place){.caller = asker.caller, .descriptor = get_u32(reply)};
    return ICONVD_OK;
}

iconvd_status remote_close(struct remote *remote, struct stream *stream, const struct place *place) {
    unsigned char head[4], reply[8];
    put_u32(head, place->descriptor);
    struct call call = {.caller = place->caller, .op = ICONVD_CLOSE, .head = head, .head_length = sizeof head};
    iconvd_status status = ask(stream, &call, reply);
    if (status == ICONVD_OK)
        remote->callers[place->caller - 1].descriptors--;
    return status;
}

iconvd_status remote_find(struct remote *remote, struct stream *stream, const struct pair *pair, struct place *place,
                          struct refusal *refusal) {
    const struct remote_descriptor *known = find(remote, pair);
    if (known) {
        *place = known->place;
        return ICONVD_OK;
    }
    void *descriptors = remote->descriptors;
    struct remote_descriptor *fresh = grow(&descriptors, remote->descriptor_count, sizeof *fresh);
    if (!fresh)
        return ICONVD_ENOMEM;
    remote->descriptors = descriptors;
    iconvd_status status = remote_open(remote, stream, pair, place, refusal);
    if (status == ICONVD_OK) {
        *fresh = (struct remote_descriptor){.pair = *pair, .place = *place};
        remote->descriptor_count++;
    }
    return status;
}

iconvd_status remote_convert(struct stream *stream, const struct place *place, struct work *work) {
    unsigned char head[8], reply[8];
    put_u32(head, place->descriptor);
    put_u32(head + 4, (uint32_t)work->room);
    struct call call = {.caller = place->caller,
                        .op = ICONVD_CONV,
                        .head = head,
                        .head_length = sizeof head,
                        .input = work->in,
                        .input_length = work->in_length,
                        .reply = reply,
                        .reply_room = sizeof reply,
                        .output = work->out,
                        .output_room = work->room};
    work->used = work->produced = work->replaced = 0;
    if (!stream_call(stream, &call))
        return ICONVD_LOST;
    return work_answered(&call, work);
}

iconvd_status work_answered(const struct call *call, struct work *work) {
    /* Every other refusal means that the two sides differ about what is open. A new stream puts that right. */
    if (!has_progress((uint8_t)call->status))
        return call->status == ICONVD_ENOMEM ? ICONVD_ENOMEM : ICONVD_LOST;
    uint32_t left = call->reply_length == 8 ? get_u32(call->reply) : UINT32_MAX;
    if (left > work->in_length || (call->status == ICONVD_OK && left > 0))
        return ICONVD_LOST;
    work->used = work->in_length - left;
    work->replaced = get_u32(call->reply + 4);
    work->produced = call->output_length;
    return call->status;
}

iconvd_status remote_reset(struct stream *stream, const struct place *place, char *out, size_t room, size_t *produced) {
    unsigned char head[8];
    put_u32(head, place->descriptor);
    put_u32(head + 4, (uint32_t)room);
    struct call call = {.caller = place->caller,
                        .op = ICONVD_RESET,
                        .head = head,
                        .head_length = sizeof head,
                        .output = out,
                        .output_room = room};
    if (!stream_call(stream, &call))
        return ICONVD_LOST;
    *produced = call.output_length;
    return call.status == ICONVD_OK || call.status == ICONVD_E2BIG ? call.status : ICONVD_LOST;
}
