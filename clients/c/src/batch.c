/* Converts pieces of one text by requests that are under way at the same time. */
#include "frames.h"
#include "remote.h"

/* The requests of a batch. */
struct requests {
    struct batch *batch;
    struct call calls[BATCH_PIECES];
    unsigned char heads[BATCH_PIECES][8];
    unsigned char replies[BATCH_PIECES][8];
    size_t first;  /* the number of the piece that calls[0] is of */
    bool rubbish;  /* a reply said what cannot be */
    char *scratch; /* where the outputs behind a piece that stopped go */
};

static void prepare(struct requests *requests, const struct place *place) {
    for (size_t i = 0; requests->first + i < requests->batch->number; i++) {
        const struct work *work = &requests->batch->works[requests->first + i];
        put_u32(requests->heads[i], place->descriptor);
        put_u32(requests->heads[i] + 4, (uint32_t)work->room);
        requests->calls[i] = (struct call){.caller = place->caller,
                                           .op = ICONVD_CONV,
                                           .head = requests->heads[i],
                                           .head_length = 8,
                                           .input = work->in,
                                           .input_length = work->in_length,
                                           .reply = requests->replies[i],
                                           .reply_room = 8};
    }
}

/* Whether a piece stopped. Those behind it have no place in the text. */
static bool has_stopped(const struct batch *batch) {
    return batch->done > 0 && batch->status != ICONVD_OK;
}

/* Takes the reply to the next piece that is not done. */
static void take_reply(struct requests *requests) {
    struct batch *batch = requests->batch;
    struct work *work = &batch->works[batch->done];
    iconvd_status status = work_answered(&requests->calls[batch->done - requests->first], work);
    requests->rubbish = status == ICONVD_LOST;
    if (requests->rubbish)
        return;
    batch->status = status;
    batch->done++;
    if (batch->done < batch->number)
        batch->works[batch->done].out = work->out + work->produced;
}

/* Where the output of a piece goes: the reply before it, which is taken now, says where its own has ended. False: a piece has stopped,
   and those after this one are not wanted. */
static bool place_output(void *context, struct call *call) {
    struct requests *requests = context;
    struct batch *batch = requests->batch;
    if (call > requests->calls && !requests->rubbish && !has_stopped(batch))
        take_reply(requests);
    const struct work *work = &batch->works[requests->first + (size_t)(call - requests->calls)];
    call->output = work->out;
    call->output_room = work->room;
    if (!requests->rubbish && !has_stopped(batch))
        return true;
    if (!requests->scratch)
        requests->scratch = malloc(ICONVD_MAX_ROOM);
    call->output = requests->scratch;
    call->output_room = requests->scratch ? work->room : 0;
    return false;
}

iconvd_status remote_convert_batch(struct stream *stream, const struct place *place, struct batch *batch) {
    if (has_stopped(batch))
        return batch->status;
    struct requests requests = {.batch = batch, .first = batch->done};
    prepare(&requests, place);
    size_t number = batch->number - requests.first, answered = 0;
    bool whole = stream_pipeline(stream, requests.calls, number, &answered, place_output, &requests);
    /* The last reply that came has none behind it that would have taken it. */
    if (answered > batch->done - requests.first && !requests.rubbish && !has_stopped(batch))
        take_reply(&requests);
    free(requests.scratch);
    return whole && !requests.rubbish ? batch->status : ICONVD_LOST;
}
