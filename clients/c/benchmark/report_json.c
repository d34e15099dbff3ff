/* Prints what was measured as one JSON object. */
#include "report.h"

#include <stdio.h>

static void print_string(const char *name, const char *value) {
    printf("\"%s\": \"", name);
    for (; *value; value++) {
        if ((unsigned char)*value < 32 || *value == '"' || *value == '\\')
            printf("\\u%04x", (unsigned char)*value);
        else
            putchar(*value);
    }
    printf("\", ");
}

/* The figures in the order that they have had, and those that came later. What was never answered has none. */
static void print_row(const struct measured *measured, const char *name, const struct outcome *outcome) {
    static const int ORDER[FIGURES] = {2, 4, 5, 6, 1, 0, 3};
    bool is_answered = outcome->times.count > 0 && measured->seconds > 0;
    printf("{\"name\": \"%s\", \"requests\": %llu, \"requests_per_second\": ", name, (unsigned long long)outcome->times.count);
    if (is_answered)
        printf("%.1f", rate(measured, outcome));
    else
        printf("null");
    printf(", \"microseconds\": {");
    for (int i = 0; i < FIGURES; i++) {
        printf("%s\"%s\": ", i > 0 ? ", " : "", FIGURE_NAMES[ORDER[i]]);
        if (is_answered)
            printf("%.1f", figure(&outcome->times, ORDER[i]));
        else
            printf("null");
    }
    printf("}}");
}

/* How many replies had each status, but OK. */
static void print_statuses(const struct outcome *all) {
    const char *between = "";
    printf("\"statuses\": {");
    for (unsigned status = 1; status < STATUSES; status++) {
        if (all->statuses[status] == 0)
            continue;
        printf("%s\"%s\": %llu", between, status_name(status), (unsigned long long)all->statuses[status]);
        between = ", ";
    }
    printf("}, ");
}

static void print_errors(const struct measured *measured) {
    const struct outcome *all = &measured->all;
    printf("\"errors\": {\"lost\": %llu, \"refused\": %llu, \"wrong\": %llu, \"unreachable\": %llu, \"stopped\": %llu, "
           "\"unanswered\": %llu}, ",
           (unsigned long long)all->lost, (unsigned long long)outcome_refused(all), (unsigned long long)all->wrong,
           (unsigned long long)measured->tally->unreachable, (unsigned long long)outcome_stopped(all),
           (unsigned long long)all->unanswered);
    print_statuses(all);
}

void report_json(const struct measured *measured) {
    const struct options *options = measured->options;
    const struct tally *tally = measured->tally;
    putchar('{');
    print_string("where", options->where);
    print_string("text", options->text);
    print_string("from", options->from);
    print_string("to", options->to);
    printf("\"streams\": %u, \"callers\": %u, \"depth\": %u, \"verified\": %s, \"seconds\": %.6f, \"processor_seconds\": %.6f, ",
           options->streams, options->callers, options->depth, options->verify ? "true" : "false", measured->seconds, measured->processor);
    printf("\"text_bytes\": %llu, \"streams_opened\": %llu, ", (unsigned long long)tally->text, (unsigned long long)tally->streams);
    printf("\"seconds_away\": %.6f, \"server_lost\": %s, ", measured->away, measured->server_lost ? "true" : "false");
    print_errors(measured);
    printf("\"all\": ");
    print_row(measured, "all", &measured->all);
    printf(", \"kinds\": [");
    for (size_t i = 0; i < measured->workload->script_count; i++) {
        char name[64];
        describe(name, sizeof name, options, &measured->workload->scripts[i]);
        printf("%s", i > 0 ? ", " : "");
        print_row(measured, name, &tally->outcomes[i]);
    }
    puts("]}");
}
