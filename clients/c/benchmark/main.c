/* iconvd-benchmark: how many requests a second an iconvd answers, and how long each takes. */
#include <stdio.h>
#include <sys/resource.h>

#include "progress.h"
#include "report.h"
#include "worker.h"

/* As many descriptors as the system allows: a stream is one. */
static void raise_limit(void) {
    struct rlimit limit;
    if (getrlimit(RLIMIT_NOFILE, &limit) == 0) {
        limit.rlim_cur = limit.rlim_max;
        setrlimit(RLIMIT_NOFILE, &limit);
    }
}

/* Shares the streams out among the threads, and starts these. */
static void start(struct worker *workers, const struct worker *model, pthread_barrier_t *opened) {
    unsigned threads = model->course.options->threads, streams = model->course.options->streams;
    size_t first = 0;
    for (unsigned i = 0; i < threads; i++) {
        workers[i] = *model;
        workers[i].opened = opened;
        workers[i].client_count = streams / threads + (i < streams % threads);
        worker_begin(&workers[i], first);
        first += workers[i].client_count;
    }
    for (unsigned i = 0; i < threads; i++)
        if (pthread_create(&workers[i].thread, NULL, worker_run, &workers[i]) != 0)
            give_up(1, "cannot start %u threads", threads);
}

/* Prints what was measured, in the form that is asked for. */
static void report(struct measured *measured) {
    const struct options *options = measured->options;
    for (int i = 0; i < OUTCOMES; i++)
        outcome_merge(&measured->all, &measured->tally->outcomes[i]);
    if (options->csv)
        report_csv(measured);
    else if (options->json)
        report_json(measured);
    else
        report_text(measured);
    if (fflush(stdout) != 0)
        give_up(1, "write failed");
    if (measured->server_lost && (options->csv || options->json))
        fprintf(stderr, "iconvd-benchmark: %s: the server was lost after %.2f s\n", options->where, measured->seconds + measured->away);
}

/* The time that counts ends at `end`, or, where the server was lost, when it was last heard. */
static void note_times(struct measured *measured, const struct run *run, uint64_t end) {
    measured->server_lost = run->is_away;
    uint64_t time = (measured->server_lost ? run->heard : end) - run->begin, away = run->away;
    measured->away = (double)away / 1e9;
    measured->seconds = time > away ? (double)(time - away) / 1e9 : 0;
    measured->processor = (double)(processor_nanoseconds() - run->processor) / 1e9;
}

int main(int count, char **words) {
    static struct options options;
    static struct workload workload;
    static struct tally tally;
    static struct run run;
    static struct measured measured = {.options = &options, .workload = &workload, .tally = &tally};
    static struct worker model = {.course = {.options = &options, .workload = &workload, .run = &run}};
    pthread_barrier_t opened;
    options_read(&options, count, words);
    workload_make(&workload, &options);
    raise_limit();
    run.left = options.seconds > 0 ? INT64_MAX / 2 : (int64_t)options.requests;
    pthread_barrier_init(&opened, NULL, options.threads);
    struct worker *workers = calloc(options.threads, sizeof *workers);
    if (!workers)
        give_up(1, "out of memory");
    progress_begin(&options, &run);
    start(workers, &model, &opened);
    uint64_t end = 0;
    for (unsigned i = 0; i < options.threads; i++) {
        pthread_join(workers[i].thread, NULL);
        tally_merge(&tally, &workers[i].course.tally);
        end = workers[i].end > end ? workers[i].end : end;
        worker_end(&workers[i]);
    }
    free(workers);
    progress_end();
    note_times(&measured, &run, end);
    report(&measured);
    return measured.server_lost ? 3 : tally_errors(&tally) > 0;
}
