/* Prints what was measured, for people. */
#include "report.h"

#include <stdio.h>

const char *const FIGURE_NAMES[FIGURES] = {"minimum", "mean", "p50", "p95", "p99", "p99.9", "maximum"};

double figure(const struct histogram *times, int number) {
    static const double SHARES[FIGURES] = {0, 0, 0.5, 0.95, 0.99, 0.999, 1};
    if (times->count == 0)
        return 0;
    if (number == 0)
        return (double)times->minimum / 1e3;
    if (number == 1)
        return (double)times->sum / (double)times->count / 1e3;
    return (double)histogram_quantile(times, SHARES[number]) / 1e3;
}

double rate(const struct measured *measured, const struct outcome *outcome) {
    return measured->seconds > 0 ? (double)outcome->times.count / measured->seconds : 0;
}

void describe(char *out, size_t room, const struct options *options, const struct script *script) {
    if (script->kind == KIND_CONV)
        snprintf(out, room, "conv, %zu bytes", script->bytes);
    else if (script->kind == KIND_UPLOAD)
        snprintf(out, room, "upload, %u mappings", options->mappings);
    else
        snprintf(out, room, "%s", KIND_NAMES[script->kind]);
}

/* What was never answered has no rate and no times. */
static void print_row(const struct measured *measured, const char *name, const struct outcome *outcome) {
    bool is_answered = outcome->times.count > 0 && measured->seconds > 0;
    printf("  %-22s", name);
    if (is_answered)
        printf(" %10.0f", rate(measured, outcome));
    else
        printf(" %10s", "-");
    for (int i = 0; i < FIGURES; i++) {
        if (is_answered)
            printf(" %9.1f", figure(&outcome->times, i));
        else
            printf(" %9s", "-");
    }
    putchar('\n');
}

static void print_rows(const struct measured *measured) {
    const struct workload *workload = measured->workload;
    char name[64] = "all";
    printf("  %-22s %10s", "microseconds", "a second");
    for (int i = 0; i < FIGURES; i++)
        printf(" %9s", FIGURE_NAMES[i]);
    putchar('\n');
    for (size_t i = 0; i < workload->script_count && workload->script_count > 1; i++) {
        char script[64];
        describe(script, sizeof script, measured->options, &workload->scripts[i]);
        print_row(measured, script, &measured->tally->outcomes[i]);
    }
    if (workload->script_count == 1)
        describe(name, sizeof name, measured->options, workload->scripts);
    print_row(measured, name, &measured->all);
}

/* "(2 ENOMEM: out of memory; 3 BUSY: a descriptor uses the charmap)", of the statuses that are stops or of the others. */
static void print_statuses(const struct outcome *outcome, bool stops) {
    const char *between = " (";
    for (unsigned status = 1; status < STATUSES; status++) {
        if (outcome->statuses[status] == 0 || is_stop(status) != stops)
            continue;
        printf("%s%llu %s: %s", between, (unsigned long long)outcome->statuses[status], status_name(status),
               iconvd_status_text((iconvd_status)status));
        between = "; ";
    }
    fputs(between[0] == ' ' ? " (none)" : ")", stdout);
}

static void print_errors(const struct measured *measured) {
    const struct outcome *all = &measured->all;
    if (tally_errors(measured->tally) == 0) {
        puts("no errors");
        return;
    }
    printf("errors: %llu lost, %llu refused", (unsigned long long)all->lost, (unsigned long long)outcome_refused(all));
    print_statuses(all, false);
    printf(", %llu wrong, %llu connections refused", (unsigned long long)all->wrong, (unsigned long long)measured->tally->unreachable);
    if (all->unanswered > 0)
        printf(", %llu not answered within %g s", (unsigned long long)all->unanswered, measured->options->timeout / 1e3);
    if (outcome_stopped(all) > 0) {
        printf(", %llu stopped", (unsigned long long)outcome_stopped(all));
        print_statuses(all, true);
    }
    putchar('\n');
}

void report_text(const struct measured *measured) {
    const struct options *options = measured->options;
    double seconds = measured->seconds > 0 ? measured->seconds : 1;
    printf("%s: %s text, %s to %s; streams %u, callers %u, depth %u%s\n", options->where, options->text, options->from, options->to,
           options->streams, options->callers, options->depth, options->verify ? "; verified" : "");
    printf("%llu requests in %.2f s, %.1f MB of text a second, %llu streams opened, %.2f processors for this program\n",
           (unsigned long long)measured->all.times.count, measured->seconds, (double)measured->tally->text / 1e6 / seconds,
           (unsigned long long)measured->tally->streams, measured->processor / seconds);
    print_rows(measured);
    print_errors(measured);
    if (measured->away > 0)
        printf("the server was away for %.2f s, which do not count\n", measured->away);
    if (measured->server_lost)
        printf("the server was lost after %.2f s: the figures are of the time until then\n", measured->seconds + measured->away);
}
