/* One stream. */
#include "client.h"

#include <errno.h>
#include <fcntl.h>
#include <sys/socket.h>
#include <unistd.h>

/* No more is put into what is to be sent while there is so much of it. */
enum { OUT_ENOUGH = 1 << 17, READ = 1 << 16 };

/* Whose BYE changes nothing. */
static const uint32_t NOBODY = 0xFFFFFFFF;

bool client_begin(struct client *client, const struct course *course, uint64_t seed) {
    size_t opening = course->workload->opening.step_count * course->options->callers;
    size_t wanted = opening > course->options->depth ? opening : course->options->depth;
    *client = (struct client){.fd = -1, .room = 1, .random = seed * 0x9E3779B97F4A7C15u | 1};
    while (client->room < wanted + MAX_STEPS)
        client->room *= 2;
    client->ring = calloc(client->room, sizeof *client->ring);
    return client->ring != NULL;
}

void client_end(struct client *client) {
    if (client->fd >= 0)
        close(client->fd);
    buffer_free(&client->out);
    buffer_free(&client->in);
    free(client->ring);
}

/* The same numbers in each run (xorshift). */
static uint32_t next_random(uint64_t *state) {
    *state ^= *state << 13;
    *state ^= *state >> 7;
    *state ^= *state << 17;
    return (uint32_t)(*state >> 32);
}

/* Puts the requests of a script behind those that are to be sent. */
static void ask(struct client *client, const struct script *script, uint32_t caller, uint64_t now) {
    if (client->under_way == 0)
        client->moved = now;
    for (size_t i = 0; i < script->step_count; i++) {
        const struct step *step = &script->steps[i];
        struct pending asked = {script, step, step->is_ping ? NOBODY : caller, client->tag++, now};
        size_t at = client->out.length;
        if (!buffer_append(&client->out, step->frame.bytes, step->frame.length))
            give_up(1, "out of memory");
        frame_address(client->out.bytes + at, asked.caller, asked.tag);
        client->ring[(client->first + client->under_way++) & (client->room - 1)] = asked;
    }
}

bool client_connect(struct client *client, struct course *course) {
    client->out.length = client->out_sent = client->in.length = 0;
    client->under_way = 0;
    client->answered = 0;
    iconvd_status status = iconvd_dial(course->options->where, course->options->timeout, &client->fd);
    course->now = now_in_nanoseconds();
    if (status == ICONVD_BADADDRESS)
        give_up(2, "neither tcp:HOST:PORT nor unix:PATH nor exec:COMMAND: %s", course->options->where);
    if (status != ICONVD_OK) {
        client->fd = -1;
        course->tally.unreachable++;
        return false;
    }
    fcntl(client->fd, F_SETFL, fcntl(client->fd, F_GETFL) | O_NONBLOCK);
    course->tally.streams++;
    for (uint32_t caller = 1; caller <= course->options->callers; caller++)
        ask(client, &course->workload->opening, caller, course->now);
    client->unopened = client->under_way;
    return true;
}

/* Which script is next, by the shares. */
static const struct script *choose(struct client *client, const struct workload *workload) {
    uint32_t number = next_random(&client->random) % workload->shares;
    const struct script *script = workload->scripts;
    while (number >= script->share)
        number -= script++->share;
    return script;
}

/* Asks until the depth is reached, or nothing is left to ask. */
static void ask_more(struct client *client, struct course *course) {
    const struct options *options = course->options;
    while (course->is_running && client->unopened == 0 && client->under_way < options->depth && client->answered < options->keep &&
           client->out.length < OUT_ENOUGH) {
        const struct script *script = choose(client, course->workload);
        if (atomic_fetch_sub_explicit(&course->run->left, (int64_t)script->step_count, memory_order_relaxed) <= 0) {
            course->is_running = false;
            return;
        }
        client->caller = client->caller % options->callers + 1;
        ask(client, script, client->caller, course->now);
    }
}

bool client_send(struct client *client, struct course *course) {
    for (;;) {
        ask_more(client, course);
        if (client->out_sent == client->out.length)
            return true;
        ssize_t sent = send(client->fd, client->out.bytes + client->out_sent, client->out.length - client->out_sent, MSG_NOSIGNAL);
        if (sent < 0 && errno == EINTR)
            continue;
        if (sent < 0)
            return errno == EAGAIN || errno == EWOULDBLOCK;
        client->moved = course->now;
        client->out_sent += (size_t)sent;
        if (client->out_sent == client->out.length)
            client->out_sent = client->out.length = 0;
    }
}

/* Whether a reply is right. A body that should be there and is not known is not compared. */
static bool is_right(const struct pending *asked, const iconvd_reply *reply, bool verify) {
    const struct buffer *body = &asked->step->body;
    if (reply->caller != asked->caller || reply->tag != asked->tag)
        return false;
    if (reply->status != ICONVD_OK || !verify || !asked->step->body_known)
        return true;
    return reply->body_length == body->length && (body->length == 0 || memcmp(reply->body, body->bytes, body->length) == 0);
}

static struct outcome *outcome_of(struct course *course, const struct script *script) {
    bool is_opening = script == &course->workload->opening;
    return &course->tally.outcomes[is_opening ? OPENING : script - course->workload->scripts];
}

/* How much of its text a CONV has converted: all, or as far as it says. */
static size_t text_of(const struct pending *asked, const iconvd_reply *reply) {
    iconvd_converted converted;
    bool stopped = is_stop(reply->status) && iconvd_reply_converted(reply, &converted) && converted.left <= asked->script->bytes;
    return asked->script->bytes - (stopped ? converted.left : 0);
}

/* Takes a reply to a stream's first requests, among them a CONV, which may stop. False: the stream cannot be used. */
static bool take_opening(struct client *client, struct course *course, uint8_t status) {
    bool is_well = status == ICONVD_OK || is_stop(status);
    if (!is_well && course->is_opening)
        give_up(1, "the service refused the stream's first requests: %s: %s", status_name(status),
                iconvd_status_text((iconvd_status)status));
    client->unopened -= is_well;
    if (course->is_opening || client->unopened == 0)
        course->heard = course->now;
    return is_well;
}

/* Counts a reply. False: it is of another request, and so nothing behind it means anything; or the stream cannot be used. */
static bool take_reply(struct client *client, struct course *course, const iconvd_reply *reply) {
    if (client->under_way == 0) {
        course->tally.outcomes[OPENING].wrong++;
        return false;
    }
    const struct pending *asked = &client->ring[client->first & (client->room - 1)];
    struct outcome *outcome = outcome_of(course, asked->script);
    bool right = is_right(asked, reply, course->options->verify);
    bool is_opening = asked->script == &course->workload->opening;
    bool answered = outcome_count(outcome, is_opening && is_stop(reply->status) ? ICONVD_OK : reply->status);
    client->first++;
    client->under_way--;
    outcome->wrong += !right;
    if (is_opening)
        return take_opening(client, course, reply->status) && right;
    client->answered++;
    course->heard = course->now;
    if (answered) {
        course->tally.text += text_of(asked, reply);
        histogram_add(&outcome->times, course->now - asked->sent);
    }
    return right || reply->tag == asked->tag;
}

static bool take_replies(struct client *client, struct course *course) {
    size_t at = 0, used = 0;
    iconvd_reply reply;
    iconvd_framing framing;
    bool well = true;
    while (well && (framing = iconvd_frame_read((unsigned char *)client->in.bytes + at, client->in.length - at, &reply, &used)) !=
                       ICONVD_FRAME_MORE) {
        well = framing == ICONVD_FRAME_WHOLE && take_reply(client, course, &reply);
        at += framing == ICONVD_FRAME_WHOLE ? used : 0;
        course->tally.outcomes[OPENING].wrong += framing == ICONVD_FRAME_BAD;
    }
    client->in.length -= at;
    if (client->in.length > 0)
        memmove(client->in.bytes, client->in.bytes + at, client->in.length);
    return well;
}

bool client_receive(struct client *client, struct course *course) {
    if (!buffer_reserve(&client->in, READ))
        give_up(1, "out of memory");
    ssize_t got = recv(client->fd, client->in.bytes + client->in.length, client->in.room - client->in.length, 0);
    if (got < 0)
        return errno == EAGAIN || errno == EWOULDBLOCK || errno == EINTR;
    if (got == 0)
        return false;
    client->moved = course->now;
    client->in.length += (size_t)got;
    return take_replies(client, course);
}

void client_lose(struct client *client, struct course *course, enum ending ending) {
    for (; client->under_way > 0; client->under_way--) {
        struct outcome *outcome = outcome_of(course, client->ring[client->first++ & (client->room - 1)].script);
        *(ending == ENDING_SILENT ? &outcome->unanswered : &outcome->lost) += 1;
    }
    close(client->fd);
    client->fd = -1;
}
