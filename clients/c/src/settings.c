/* Reads the environment of a host, and writes the log. */
#define _GNU_SOURCE
#include <dlfcn.h>
#include <errno.h>
#include <fcntl.h>
#include <stdarg.h>
#include <stdio.h>
#include <unistd.h>

#include "preload.h"

static struct settings chosen;
static char *log_path;

/* A variable, unless it is empty. Not in a program that runs with other rights than its caller's. */
static const char *variable(const char *name) {
    const char *value = secure_getenv(name);
    return value && *value ? value : NULL;
}

void settings_log(const char *format, ...) {
    if (!log_path)
        return;
    int saved = errno, cancelling = cancelling_off();
    char line[500];
    int length = snprintf(line, sizeof line, "%s[%ld]: ", program_invocation_short_name, (long)getpid());
    va_list arguments;
    va_start(arguments, format);
    length += vsnprintf(line + length, sizeof line - (size_t)length - 1, format, arguments);
    va_end(arguments);
    if (length > (int)sizeof line - 2)
        length = (int)sizeof line - 2;
    line[length++] = '\n';
    int fd = open(log_path, O_WRONLY | O_APPEND | O_CREAT | O_CLOEXEC, 0666);
    if (fd >= 0) {
        /* A log that cannot be written is no fault of the text. */
        ssize_t written = write(fd, line, (size_t)length);
        (void)written;
        close(fd);
    }
    cancelling_as(cancelling);
    errno = saved;
}

static void log_line(void *context, const char *line) {
    (void)context;
    settings_log("%s", line);
}

static void find_libc(struct libc *libc) {
    void *library = dlopen("libc.so.6", RTLD_LAZY | RTLD_NOLOAD);
    /* POSIX has dlsym() give functions, which ISO C has no conversion for. */
    *(void **)&libc->open = dlsym(library, "iconv_open");
    *(void **)&libc->convert = dlsym(library, "iconv");
    *(void **)&libc->close = dlsym(library, "iconv_close");
}

static void before_fork(void) {
    iconvd_before_fork(chosen.pool);
}

static void in_parent(void) {
    iconvd_after_fork_in_parent(chosen.pool);
}

static void in_child(void) {
    iconvd_after_fork_in_child(chosen.pool);
}

static void begin(void) {
    find_libc(&chosen.libc);
    const char *path = variable("ICONVD_LOG"), *fallback = variable("ICONVD_FALLBACK");
    log_path = path ? strdup(path) : NULL;
    chosen.falls_back = !fallback || strcmp(fallback, "never") != 0;
    iconvd_options options = {.log = log_line};
    const char *where = iconvd_environment(&options);
    iconvd_status status = pool_begin(where, &options, &chosen.pool);
    /* The C library converts at once what would have to wait for the service. */
    if (status == ICONVD_OK)
        chosen.pool->waits = !chosen.falls_back;
    if (status == ICONVD_OK)
        pthread_atfork(before_fork, in_parent, in_child);
    else
        settings_log("ICONVD=%s: %s", where, iconvd_status_text(status));
}

const struct settings *settings(void) {
    static pthread_once_t once = PTHREAD_ONCE_INIT;
    pthread_once(&once, begin);
    return &chosen;
}

/* Says at the end what was done, so that it can be seen that the service was used. */
__attribute__((destructor)) static void say_what_was_done(void) {
    iconvd_counters counters = {.conversions = 0};
    if (chosen.pool && log_path)
        iconvd_count(chosen.pool, &counters);
    if (counters.conversions > 0)
        settings_log("%llu calls, %llu pieces, %llu connections, %llu charmaps", (unsigned long long)counters.conversions,
                     (unsigned long long)counters.round_trips, (unsigned long long)counters.connections,
                     (unsigned long long)counters.uploads);
}
