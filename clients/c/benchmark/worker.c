/* A thread that keeps its streams busy. */
#include "worker.h"

#include <errno.h>
#include <string.h>
#include <sys/epoll.h>
#include <time.h>
#include <unistd.h>

/* Pauses are milliseconds: between tries of a server that went away, and between looks at what no event tells. */
enum { EVENTS = 256, MOST_FAILURES = 6, FIRST_PAUSE = 50, MOST_PAUSE = 1000, LOOK = 50 };

static const uint64_t MILLISECOND = 1000000;

void worker_begin(struct worker *worker, size_t first) {
    worker->clients = calloc(worker->client_count, sizeof *worker->clients);
    worker->poll = epoll_create1(EPOLL_CLOEXEC);
    if (!worker->clients || worker->poll < 0)
        give_up(1, "out of memory");
    for (size_t i = 0; i < worker->client_count; i++)
        if (!client_begin(&worker->clients[i], &worker->course, first + i + 1))
            give_up(1, "out of memory");
}

void worker_end(struct worker *worker) {
    for (size_t i = 0; i < worker->client_count; i++)
        client_end(&worker->clients[i]);
    free(worker->clients);
    close(worker->poll);
}

static uint64_t limit_of(const struct course *course) {
    return (uint64_t)course->options->timeout * MILLISECOND;
}

/* Waits for the directions that the client needs now. */
static void watch(struct worker *worker, struct client *client, int operation) {
    client->waits_to_write = client->out_sent < client->out.length;
    struct epoll_event event = {.events = EPOLLIN | (client->waits_to_write ? (uint32_t)EPOLLOUT : 0u), .data.ptr = client};
    if (epoll_ctl(worker->poll, operation, client->fd, &event) != 0)
        give_up(1, "epoll: no memory or no descriptor");
}

/* No stream could be opened. Before the next try there is a pause, each time twice as long. Streams that fail meanwhile count with it. */
static void fail(struct worker *worker) {
    struct course *course = &worker->course;
    uint64_t pause = (uint64_t)FIRST_PAUSE << (worker->failures < 5 ? worker->failures : 5);
    if (course->now < worker->retry_at)
        return;
    worker->failures++;
    worker->retry_at = course->now + (pause < MOST_PAUSE ? pause : MOST_PAUSE) * MILLISECOND;
    if (!course->is_opening && course->run->opened == 0)
        course->run->is_away = true;
}

/* Tries to connect once. */
static bool connect_client(struct worker *worker, struct client *client) {
    struct course *course = &worker->course;
    uint64_t before = course->now = now_in_nanoseconds();
    if (client_connect(client, course)) {
        watch(worker, client, EPOLL_CTL_ADD);
        return true;
    }
    if (has_passed(course->now, before, limit_of(course)) && course->is_opening)
        give_up(1, "cannot connect to %s within %g s: its queue of connections is full, or nothing answers there", course->options->where,
                course->options->timeout / 1e3);
    if (course->tally.streams == 0)
        give_up(1, "cannot connect to %s", course->options->where);
    fail(worker);
    return false;
}

/* Whether each stream is a program of its own. */
static bool is_program(const struct course *course) {
    return strncmp(course->options->where, "exec:", 5) == 0;
}

/* Ends the program where not all streams could be opened. */
static void give_up_opening(const struct worker *worker) {
    const struct course *course = &worker->course;
    const struct options *options = course->options;
    const char *others = "accepted, and not answered", *cause = ": all places of the server are taken, or it hangs";
    if (worker->failures > 0 && course->run->opened == 0 && course->tally.unreachable == 0 && is_program(course))
        give_up(1, "%s ends its streams before it answers", options->where);
    if (worker->failures > 0 && course->run->opened == 0 && course->tally.unreachable == 0)
        give_up(1, "%s: the server closes new connections (full or draining)", options->where);
    if (worker->failures > 0) {
        others = "ended before they were answered";
        cause = ": the server closes new connections (full or draining), or it has no memory for more";
    }
    if (course->tally.unreachable > 0) {
        others = "not connected";
        cause = "";
    }
    give_up(1, "%s: %u of %u streams are open; the others were %s for %g s%s", options->where, course->run->opened, options->streams,
            others, options->timeout / 1e3, cause);
}

/* Closes a stream, and opens another if there is more to ask. */
static void replace(struct worker *worker, struct client *client, enum ending ending) {
    struct course *course = &worker->course;
    bool was_open = client->unopened == 0;
    client_lose(client, course, ending);
    if (was_open)
        course->run->opened--;
    else
        fail(worker);
    /* A server may have places again within the time limit; a program is what it is. */
    if (course->is_opening && course->run->opened == 0 && worker->failures == MOST_FAILURES && is_program(course))
        give_up_opening(worker);
    if ((course->is_opening || course->is_running) && course->now >= worker->retry_at)
        connect_client(worker, client);
}

/* A stream is open: the server is well. */
static void note_opened(struct worker *worker) {
    worker->failures = 0;
    worker->retry_at = 0;
    worker->course.run->opened++;
}

/* What an event of the client brings. */
static void serve(struct worker *worker, struct client *client, uint32_t events) {
    struct course *course = &worker->course;
    bool was_open = client->unopened == 0;
    bool well = !(events & (EPOLLIN | EPOLLHUP | EPOLLERR)) || client_receive(client, course);
    if (!was_open && client->unopened == 0)
        note_opened(worker);
    well = well && client_send(client, course);
    bool is_used_up = well && client_is_idle(client) && client->answered >= course->options->keep;
    if (!well || is_used_up)
        replace(worker, client, ENDING_LOST);
    else if (client->waits_to_write != (client->out_sent < client->out.length))
        watch(worker, client, EPOLL_CTL_MOD);
}

/* No stream has had a reply for so long. */
static void give_up_server(struct worker *worker) {
    struct course *course = &worker->course;
    if (course->is_opening)
        give_up_opening(worker);
    for (size_t i = 0; i < worker->client_count; i++)
        if (worker->clients[i].fd >= 0)
            client_lose(&worker->clients[i], course, ENDING_SILENT);
    course->is_running = false;
    course->run->is_away = true;
}

/* A stream on which nothing has moved for too long is lost. What may have come meanwhile is read first. */
static void look_at(struct worker *worker, struct client *client) {
    struct course *course = &worker->course;
    if (client->fd < 0 && (course->is_opening || course->is_running) && course->now >= worker->retry_at)
        connect_client(worker, client);
    bool may_wait = client->fd < 0 || client->under_way == 0 || course->is_opening;
    if (may_wait || !has_passed(course->now, client->moved, limit_of(course)))
        return;
    serve(worker, client, EPOLLIN);
    if (client->fd >= 0 && has_passed(course->now, client->moved, limit_of(course)))
        replace(worker, client, ENDING_SILENT);
}

/* Tells other threads what was counted since it last did. */
static void publish(struct worker *worker) {
    struct run *run = worker->course.run;
    uint64_t answered = tally_answered(&worker->course.tally), errors = tally_errors(&worker->course.tally);
    run->answered += answered - worker->answered;
    run->errors += errors - worker->errors;
    worker->answered = answered;
    worker->errors = errors;
}

/* Tells other threads of replies, and looks after what no event tells: silence, and streams that are to be opened again. */
static void look(struct worker *worker) {
    struct course *course = &worker->course;
    if (course->heard != worker->published)
        run_heard(course->run, course->heard);
    worker->published = course->heard;
    if (course->now < worker->next_look)
        return;
    worker->next_look = course->now + LOOK * MILLISECOND;
    publish(worker);
    course->is_running = course->is_running && course->run->left > 0;
    if (has_passed(course->now, course->run->heard, limit_of(course))) {
        give_up_server(worker);
        return;
    }
    for (size_t i = 0; i < worker->client_count; i++)
        look_at(worker, &worker->clients[i]);
}

/* Whether replies are to come, or streams to be opened. */
static bool is_busy(const struct worker *worker) {
    bool busy = worker->course.is_running;
    for (size_t i = 0; i < worker->client_count && !busy; i++)
        busy = worker->clients[i].under_way > 0 || (worker->course.is_opening && worker->clients[i].fd < 0);
    return busy;
}

/* Serves events until no reply is to come. */
static void loop(struct worker *worker) {
    struct course *course = &worker->course;
    struct epoll_event events[EVENTS];
    while (is_busy(worker)) {
        int count = epoll_wait(worker->poll, events, EVENTS, LOOK);
        if (count < 0 && errno != EINTR)
            give_up(1, "epoll failed");
        course->now = now_in_nanoseconds();
        for (int i = 0; i < count; i++)
            serve(worker, events[i].data.ptr, events[i].events);
        look(worker);
        if (course->options->seconds > 0 && (double)(course->now - course->run->begin) >= course->options->seconds * 1e9)
            course->is_running = false;
    }
}

/* Connects all streams of the worker. */
static void connect_all(struct worker *worker) {
    struct course *course = &worker->course;
    for (size_t i = 0; i < worker->client_count; i++) {
        uint64_t first = now_in_nanoseconds();
        while (!connect_client(worker, &worker->clients[i])) {
            if (has_passed(course->now, first, limit_of(course)))
                give_up(1, "cannot connect to %s: %llu streams are connected, and no more can be", course->options->where,
                        (unsigned long long)course->tally.streams);
            struct timespec pause = {.tv_nsec = FIRST_PAUSE * 1000000L};
            nanosleep(&pause, NULL);
        }
    }
    course->run->heard = now_in_nanoseconds();
}

void *worker_run(void *argument) {
    struct worker *worker = argument;
    struct course *course = &worker->course;
    struct run *run = course->run;
    course->is_opening = true;
    connect_all(worker);
    loop(worker);
    if (pthread_barrier_wait(worker->opened) == PTHREAD_BARRIER_SERIAL_THREAD) {
        run->heard = run->begin = now_in_nanoseconds();
        run->processor = processor_nanoseconds();
    }
    pthread_barrier_wait(worker->opened);
    course->is_opening = false;
    course->is_running = true;
    course->now = now_in_nanoseconds();
    for (size_t i = 0; i < worker->client_count; i++)
        serve(worker, &worker->clients[i], 0);
    loop(worker);
    worker->end = now_in_nanoseconds();
    return NULL;
}
