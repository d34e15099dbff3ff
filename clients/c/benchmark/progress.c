/* A line on a terminal that says how far the run is. */
#include "progress.h"

#include <pthread.h>
#include <stdio.h>
#include <string.h>
#include <sys/ioctl.h>
#include <time.h>
#include <unistd.h>

enum { LINE = 128, USUAL_COLUMNS = 80 };

static const uint64_t PERIOD = 500000000;

static struct {
    pthread_mutex_t lock;
    const struct options *options;
    const struct run *run;
    uint64_t answered, time; /* when the line was last written */
    int shown;               /* how many columns it takes */
    bool is_over;
} progress = {.lock = PTHREAD_MUTEX_INITIALIZER};

/* A line that is longer would be continued on the next, and could not be rewritten. */
static int columns(void) {
    struct winsize size = {.ws_col = 0};
    int known = ioctl(STDERR_FILENO, TIOCGWINSZ, &size) == 0 && size.ws_col > 1 ? size.ws_col : USUAL_COLUMNS;
    return known < LINE ? known : LINE;
}

static double seconds_since(uint64_t now, uint64_t then) {
    return now > then ? (double)(now - then) / 1e9 : 0;
}

/* Requests a second since the line was last written. */
static double rate_now(uint64_t answered, uint64_t now) {
    double seconds = seconds_since(now, progress.time > progress.run->begin ? progress.time : progress.run->begin);
    return seconds > 0 ? (double)(answered - progress.answered) / seconds : 0;
}

static void write_line(char line[LINE], uint64_t now) {
    const struct run *run = progress.run;
    const struct options *options = progress.options;
    uint64_t answered = run->answered, errors = run->errors;
    double seconds = seconds_since(now, run->begin);
    if (run->begin == 0)
        snprintf(line, LINE, "%u of %u streams are open", run->opened, options->streams);
    else if (run->is_away)
        snprintf(line, LINE, "%.0f s: the server went away %.0f s ago", seconds, seconds_since(now, run->heard));
    else if (options->seconds > 0)
        snprintf(line, LINE, "%.0f of %g s: %llu requests, %.0f a second, %llu errors", seconds, options->seconds,
                 (unsigned long long)answered, rate_now(answered, now), (unsigned long long)errors);
    else
        snprintf(line, LINE, "%.0f s: %llu of %llu requests, %.0f a second, %llu errors", seconds, (unsigned long long)answered,
                 (unsigned long long)options->requests, rate_now(answered, now), (unsigned long long)errors);
    progress.answered = answered;
    progress.time = now;
}

/* Writes the line over the last one. */
static void show(const char *line) {
    int length = (int)strlen(line), most = columns() - 1;
    length = length < most ? length : most;
    fprintf(stderr, "\r%.*s%*s", length, line, progress.shown > length ? progress.shown - length : 0, "");
    fflush(stderr);
    progress.shown = length;
}

static void *keep_showing(void *nothing) {
    struct timespec pause = {.tv_nsec = (long)PERIOD};
    bool is_over = false;
    while (!is_over) {
        char line[LINE];
        nanosleep(&pause, NULL);
        pthread_mutex_lock(&progress.lock);
        is_over = progress.is_over;
        if (!is_over) {
            write_line(line, now_in_nanoseconds());
            show(line);
        }
        pthread_mutex_unlock(&progress.lock);
    }
    return nothing;
}

void progress_begin(const struct options *options, const struct run *run) {
    pthread_t thread;
    progress.options = options;
    progress.run = run;
    if (isatty(STDERR_FILENO) && pthread_create(&thread, NULL, keep_showing, NULL) == 0)
        pthread_detach(thread);
}

void progress_end(void) {
    pthread_mutex_lock(&progress.lock);
    if (progress.shown > 0)
        fprintf(stderr, "\r%*s\r", progress.shown, "");
    fflush(stderr);
    progress.shown = 0;
    progress.is_over = true;
    pthread_mutex_unlock(&progress.lock);
}
