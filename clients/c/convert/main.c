/* iconvd-convert: converts files by the service iconvd, with the options of iconv(1). */
#include <errno.h>
#include <signal.h>
#include <stdio.h>
#include <string.h>
#include <unistd.h>

#include "complain.h"
#include "options.h"
#include "output.h"
#include "text.h"

/* Passes on what the library has to say, and notes whether it was a charmap that is missing or refused. */
static void log_line(void *context, const char *line) {
    complain(0, "%s", line);
    *(int *)context |= strncmp(line, "charmap ", 8) == 0;
}

/* Why a conversion could not be opened. Both names may be known: nothing is left out of UTF-7, and it is not read for encodings with shifts. */
static int complain_of_names(iconvd_pool *pool, const struct settings *settings, iconvd_status status, int no_charmap) {
    const char *why = iconvd_status_text(status);
    if (status == ICONVD_UNSUPPORTED && no_charmap)
        why = "there is no charmap";
    else if (status == ICONVD_UNSUPPORTED && iconvd_supports(pool, settings->from) && iconvd_supports(pool, settings->to))
        why = "both encodings are known, but not this conversion with these options";
    return complain(exit_for(status), "from %s to %s: %s", settings->from, settings->to, why);
}

/* Converts the files, with the conversion that is open. */
static int convert(const struct settings *settings, struct job *job) {
    int result = output_open(settings, &job->out);
    if (result != 0)
        return result;
    result = job_convert(job, settings->files);
    if (job->out != 1 && close(job->out) != 0)
        result = complain(EXIT_TEXT, "%s: %s", settings->output, strerror(errno));
    return result;
}

/* Connects, opens, converts. */
static int run(const struct settings *settings, struct job *job) {
    int no_charmap = 0;
    iconvd_pool *pool = NULL;
    iconvd_options options = {.streams = 1, .log = log_line, .context = &no_charmap};
    const char *usual = iconvd_environment(&options), *service = settings->service ? settings->service : usual;
    iconvd_status status = iconvd_connect(service, &options, &pool);
    if (status != ICONVD_OK)
        return complain(exit_for(status), "%s: %s", service, iconvd_status_text(status));
    status = iconvd_open(pool, settings->to, settings->from, settings->policy, &job->cd);
    int result = status == ICONVD_OK ? convert(settings, job) : complain_of_names(pool, settings, status, no_charmap);
    if (settings->stats)
        fprintf(stderr, "%llu bytes read, %llu bytes written, %llu characters replaced, %llu left out\n", job->read, job->written,
                job->replaced, job->skipped);
    iconvd_close(job->cd);
    iconvd_disconnect(pool);
    return result;
}

int main(int count, char **words) {
    struct settings settings;
    int result = read_options(&settings, count, words);
    if (result >= 0)
        return result;
    /* An output that nobody reads any more ends the program as it ends cat(1), once the terminal is in order. */
    struct job job = {.ends_by_signal = signal(SIGPIPE, SIG_IGN) != SIG_IGN};
    iconvd_status status = job_begin(&job);
    result = status == ICONVD_OK ? run(&settings, &job) : complain(exit_for(status), "%s", iconvd_status_text(status));
    job_end(&job);
    return result;
}
