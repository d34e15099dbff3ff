/* Converts files piece by piece. */
#include "text.h"

#include <errno.h>
#include <fcntl.h>
#include <signal.h>
#include <stdio.h>
#include <stdlib.h>
#include <string.h>
#include <sys/stat.h>
#include <unistd.h>

#include "complain.h"

enum { IN_ROOM = 1 << 20, OUT_ROOM = 1 << 22, PROGRESS_FROM = 10 * 1000 * 1000 };

iconvd_status job_begin(struct job *job) {
    job->in_bytes = malloc(IN_ROOM);
    job->out_bytes = malloc(OUT_ROOM);
    return job->in_bytes && job->out_bytes ? ICONVD_OK : ICONVD_ENOMEM;
}

void job_end(struct job *job) {
    free(job->in_bytes);
    free(job->out_bytes);
}

/* One line, written over and over, for a long file on a terminal. */
static void show_progress(const struct job *job, int done) {
    if (job->size == 0)
        return;
    if (done)
        fputs("\r\033[K", stderr);
    else
        fprintf(stderr, "\r%s: %llu of %llu MB", job->name, job->position / 1000000, (unsigned long long)job->size / 1000000);
}

/* Nobody reads the output any more, as after `| head`. That is no fault, and nothing is said. */
static int end_quietly(const struct job *job) {
    show_progress(job, 1);
    if (job->ends_by_signal) {
        signal(SIGPIPE, SIG_DFL);
        raise(SIGPIPE);
    }
    return EXIT_TEXT;
}

static int write_all(struct job *job, const char *bytes, size_t length) {
    while (length > 0) {
        ssize_t written = write(job->out, bytes, length);
        if (written < 0 && errno == EINTR)
            continue;
        if (written < 0 && errno == EPIPE)
            return end_quietly(job);
        if (written < 0)
            return complain(EXIT_TEXT, "write failed after %llu bytes: %s", job->written, strerror(errno));
        bytes += written;
        length -= (size_t)written;
        job->written += (size_t)written;
    }
    return 0;
}

/* Says where the text is faulty, and by which bytes. */
static int complain_about(const struct job *job, const char *in, size_t left, const iconvd_stop *stop) {
    unsigned long long position = job->position + (unsigned long long)(in - job->in_bytes);
    char bytes[40] = "";
    size_t length = stop->length ? stop->length : left;
    for (size_t i = 0; i < length && i < 8 && i < left; i++)
        snprintf(bytes + 3 * i, 4, " %02x", (unsigned char)in[i]);
    if (stop->status == ICONVD_ENOCHAR && stop->character)
        return complain(EXIT_TEXT, "%s: byte %llu:%s: the target lacks U+%04X", job->name, position, bytes, (unsigned)stop->character);
    if (stop->status == ICONVD_LOST || stop->status == ICONVD_ENOMEM)
        return complain(EXIT_SERVICE, "%s: byte %llu: %s", job->name, position, iconvd_status_text(stop->status));
    return complain(EXIT_TEXT, "%s: byte %llu:%s: %s", job->name, position, bytes, iconvd_status_text(stop->status));
}

/* Converts the first `length` bytes that were read, and keeps those of a character that their end cuts. */
static int convert_bytes(struct job *job, size_t length) {
    const char *in = job->in_bytes;
    for (;;) {
        char *out = job->out_bytes;
        size_t room = OUT_ROOM;
        iconvd_stop stop;
        iconvd_status status = iconvd_convert(job->cd, &in, &length, &out, &room, &stop);
        job->replaced += stop.replaced;
        job->skipped += stop.skipped;
        if (write_all(job, job->out_bytes, OUT_ROOM - room) != 0)
            return EXIT_TEXT;
        if (status == ICONVD_OK || (status == ICONVD_EINVAL && length < 64))
            break;
        if (status != ICONVD_E2BIG)
            return complain_about(job, in, length, &stop);
    }
    memmove(job->in_bytes, in, length);
    job->position += (unsigned long long)(in - job->in_bytes);
    job->kept = length;
    return 0;
}

static int convert_descriptor(struct job *job, int in) {
    struct stat status;
    int shown = isatty(2) && fstat(in, &status) == 0 && S_ISREG(status.st_mode) && status.st_size > PROGRESS_FROM;
    job->size = shown ? status.st_size : 0;
    job->position = 0;
    job->kept = 0;
    for (;;) {
        ssize_t got = read(in, job->in_bytes + job->kept, IN_ROOM - job->kept);
        if (got < 0 && errno == EINTR)
            continue;
        if (got < 0)
            return complain(EXIT_TEXT, "%s: %s", job->name, strerror(errno));
        if (got == 0)
            break;
        job->read += (size_t)got;
        int result = convert_bytes(job, job->kept + (size_t)got);
        if (result != 0)
            return result;
        show_progress(job, 0);
    }
    show_progress(job, 1);
    if (job->kept > 0)
        return complain(EXIT_TEXT, "%s: byte %llu: %s", job->name, job->position, iconvd_status_text(ICONVD_EINVAL));
    return 0;
}

static int convert_file(struct job *job, const char *name) {
    if (strcmp(name, "-") == 0) {
        job->name = "standard input";
        return convert_descriptor(job, 0);
    }
    job->name = name;
    int in = open(name, O_RDONLY | O_CLOEXEC);
    if (in < 0)
        return complain(EXIT_TEXT, "%s: %s", name, strerror(errno));
    int result = convert_descriptor(job, in);
    close(in);
    return result;
}

/* The bytes that close the text. */
static int finish(struct job *job) {
    char *out = job->out_bytes;
    size_t room = OUT_ROOM;
    iconvd_status status = iconvd_reset(job->cd, &out, &room);
    if (status != ICONVD_OK)
        return complain(exit_for(status), "%s", iconvd_status_text(status));
    return write_all(job, job->out_bytes, OUT_ROOM - room);
}

int job_convert(struct job *job, char **files) {
    int result = 0;
    for (char **file = files; *file && result == 0; file++)
        result = convert_file(job, *file);
    return result != 0 ? result : finish(job);
}
