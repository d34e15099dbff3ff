/* Prints what was measured as comma-separated values (RFC 4180, with line feeds alone). */
#include "report.h"

#include <stdio.h>
#include <string.h>

/* What is said of the run is the same in each row; `kind` begins what is said of the row. */
static const char HEADER[] = "where,from,to,text,streams,callers,depth,seconds,seconds_away,server_lost,unreachable,kind,size,requests,"
                             "requests_per_second,minimum_us,mean_us,p50_us,p95_us,p99_us,p99.9_us,maximum_us,lost,unanswered,refused,"
                             "stopped,wrong,statuses";

/* A value and its comma, in quotes where it needs them. */
static void print_string(const char *value) {
    bool is_quoted = strpbrk(value, ",\"\r\n") != NULL;
    if (is_quoted)
        putchar('"');
    for (; *value; value++) {
        if (*value == '"')
            putchar('"');
        putchar(*value);
    }
    fputs(is_quoted ? "\"," : ",", stdout);
}

static void print_run(const struct measured *measured) {
    const struct options *options = measured->options;
    print_string(options->where);
    print_string(options->from);
    print_string(options->to);
    print_string(options->text);
    printf("%u,%u,%u,%.6f,%.6f,%d,%llu,", options->streams, options->callers, options->depth, measured->seconds, measured->away,
           measured->server_lost, (unsigned long long)measured->tally->unreachable);
}

/* Bytes of text or mappings; of other kinds none. */
static void print_kind(const struct measured *measured, const struct script *script) {
    printf("%s,", script ? KIND_NAMES[script->kind] : "all");
    if (script && script->kind == KIND_CONV)
        printf("%zu", script->bytes);
    if (script && script->kind == KIND_UPLOAD)
        printf("%u", measured->options->mappings);
    putchar(',');
}

/* `script` NULL: of all. What was never answered has no figures. */
static void print_row(const struct measured *measured, const struct script *script, const struct outcome *outcome) {
    bool is_answered = outcome->times.count > 0 && measured->seconds > 0;
    const char *between = "";
    print_run(measured);
    print_kind(measured, script);
    printf("%llu,", (unsigned long long)outcome->times.count);
    if (is_answered)
        printf("%.1f", rate(measured, outcome));
    for (int i = 0; i < FIGURES; i++) {
        putchar(',');
        if (is_answered)
            printf("%.1f", figure(&outcome->times, i));
    }
    printf(",%llu,%llu,%llu,%llu,%llu,", (unsigned long long)outcome->lost, (unsigned long long)outcome->unanswered,
           (unsigned long long)outcome_refused(outcome), (unsigned long long)outcome_stopped(outcome), (unsigned long long)outcome->wrong);
    for (unsigned status = 1; status < STATUSES; status++) {
        if (outcome->statuses[status] == 0)
            continue;
        printf("%s%s:%llu", between, status_name(status), (unsigned long long)outcome->statuses[status]);
        between = " ";
    }
    putchar('\n');
}

void report_csv(const struct measured *measured) {
    puts(HEADER);
    for (size_t i = 0; i < measured->workload->script_count; i++)
        print_row(measured, &measured->workload->scripts[i], &measured->tally->outcomes[i]);
    print_row(measured, NULL, &measured->all);
}
