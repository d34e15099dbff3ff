/* Reads the command line. */
#include "options.h"

#include <errno.h>
#include <getopt.h>
#include <stdarg.h>
#include <stdio.h>
#include <stdlib.h>
#include <string.h>

#include "../iconvd.h"
#include "progress.h"

const char *const KIND_NAMES[KIND_COUNT] = {"conv", "open", "reset", "upload", "ping"};

static const char USAGE[] =
    "Usage: iconvd-benchmark [OPTION ..] [WHERE]\n"
    "\n"
    "Measures how many requests a second an iconvd answers, and how long each takes.\n"
    "WHERE is tcp:HOST:PORT, unix:PATH or exec:COMMAND; otherwise ICONVD of the environment, else \"exec:iconvd pipe\".\n"
    "\n"
    "  -c, --streams=N       streams at once [50]\n"
    "  -k, --callers=N       callers on each stream, which take turns [1]\n"
    "  -d, --depth=N         requests under way on each stream [1]\n"
    "  -n, --requests=N      requests in all [100000]\n"
    "  -s, --seconds=S       measure for so long, whatever number of requests it is\n"
    "  -b, --bytes=N[,N..]   bytes of text in a CONV; of several sizes each is as frequent [64]\n"
    "  -f, --from=NAME       encoding of the text; charmaps of the system are uploaded [UTF-8]\n"
    "  -t, --to=NAME         encoding that it is converted to [UTF-16BE]\n"
    "  -x, --text=TEXT       ascii, latin, cyrillic, cjk, emoji, or a file in UTF-8 [ascii]\n"
    "  -m, --mix=KIND[:N],.. what is asked, and how often: conv, open (OPEN and CLOSE), reset,\n"
    "                        upload (PUT and DROP), ping (BYE of nobody) [conv]\n"
    "      --mappings=N      mappings of the charmap that `upload` puts, 1 to 32768 [256]\n"
    "      --keep=N          close each stream after N requests and open another [500000]\n"
    "      --strict          open strict descriptors\n"
    "      --threads=N       threads of this program [1]\n"
    "      --timeout=S       how long a connection may take, and a reply [10]\n"
    "      --verify          compare every reply with the bytes that it should have\n"
    "      --json            print one JSON object\n"
    "      --csv             print comma-separated values: a header, a row for each kind of request, and one for all\n"
    "  -h, --help            print this help\n"
    "  -V, --version         print the version\n"
    "\n"
    "The exit status is 0, 1 if a request failed or was answered wrongly, 2 for a fault of the command line, or 3 if the server\n"
    "was lost while it was measured.\n";

enum { OPTION_MAPPINGS = 256, OPTION_KEEP, OPTION_STRICT, OPTION_THREADS, OPTION_TIMEOUT, OPTION_VERIFY, OPTION_JSON, OPTION_CSV };

static const struct option LONG[] = {
    {"streams", required_argument, NULL, 'c'},
    {"callers", required_argument, NULL, 'k'},
    {"depth", required_argument, NULL, 'd'},
    {"requests", required_argument, NULL, 'n'},
    {"seconds", required_argument, NULL, 's'},
    {"bytes", required_argument, NULL, 'b'},
    {"from", required_argument, NULL, 'f'},
    {"to", required_argument, NULL, 't'},
    {"text", required_argument, NULL, 'x'},
    {"mix", required_argument, NULL, 'm'},
    {"mappings", required_argument, NULL, OPTION_MAPPINGS},
    {"keep", required_argument, NULL, OPTION_KEEP},
    {"strict", no_argument, NULL, OPTION_STRICT},
    {"threads", required_argument, NULL, OPTION_THREADS},
    {"timeout", required_argument, NULL, OPTION_TIMEOUT},
    {"verify", no_argument, NULL, OPTION_VERIFY},
    {"json", no_argument, NULL, OPTION_JSON},
    {"csv", no_argument, NULL, OPTION_CSV},
    {"help", no_argument, NULL, 'h'},
    {"version", no_argument, NULL, 'V'},
    {NULL, 0, NULL, 0},
};

void give_up(int status, const char *format, ...) {
    va_list arguments;
    progress_end();
    va_start(arguments, format);
    fputs("iconvd-benchmark: ", stderr);
    vfprintf(stderr, format, arguments);
    fputc('\n', stderr);
    va_end(arguments);
    if (status == 2)
        fputs("Try 'iconvd-benchmark --help'.\n", stderr);
    exit(status);
}

/* A whole number from `least` to `most` at the front of `text`; `*end` is what stands behind it. */
static uint64_t number_at(const char *text, uint64_t least, uint64_t most, char **end) {
    errno = 0;
    unsigned long long value = strtoull(text, end, 10);
    if (*text < '0' || *text > '9' || errno != 0 || value < least || value > most)
        give_up(2, "not a number from %llu to %llu: %s", (unsigned long long)least, (unsigned long long)most, text);
    return value;
}

static uint64_t number(const char *text, uint64_t least, uint64_t most) {
    char *end;
    uint64_t value = number_at(text, least, most, &end);
    if (*end != '\0')
        give_up(2, "not a number from %llu to %llu: %s", (unsigned long long)least, (unsigned long long)most, text);
    return value;
}

static double seconds(const char *text) {
    char *end;
    double value = strtod(text, &end);
    if (end == text || *end != '\0' || !(value > 0 && value <= 1e6))
        give_up(2, "not a number of seconds: %s", text);
    return value;
}

static void read_sizes(struct options *options, const char *text) {
    options->size_count = 0;
    for (;;) {
        char *end;
        if (options->size_count == MAX_SIZES)
            give_up(2, "more than %d sizes: %s", MAX_SIZES, text);
        options->sizes[options->size_count++] = number_at(text, 1, ICONVD_MAX_INPUT, &end);
        if (*end == '\0')
            return;
        if (*end != ',')
            give_up(2, "not sizes: %s", text);
        text = end + 1;
    }
}

static enum kind kind_named(const char *name, size_t length) {
    for (int kind = 0; kind < KIND_COUNT; kind++)
        if (strlen(KIND_NAMES[kind]) == length && strncmp(KIND_NAMES[kind], name, length) == 0)
            return (enum kind)kind;
    give_up(2, "no kind of request: %.*s", (int)length, name);
}

static void read_mix(struct options *options, const char *text) {
    memset(options->shares, 0, sizeof options->shares);
    for (;;) {
        size_t length = strcspn(text, ":,");
        enum kind kind = kind_named(text, length);
        char *end = (char *)(uintptr_t)(text + length);
        options->shares[kind] = *end == ':' ? (unsigned)number_at(end + 1, 1, 1000000, &end) : 1;
        if (*end == '\0')
            return;
        if (*end != ',')
            give_up(2, "not a mix: %s", text);
        text = end + 1;
    }
}

static void read_option(struct options *options, int letter, const char *value) {
    switch (letter) {
    case 'c': options->streams = (unsigned)number(value, 1, 100000); break;
    case 'k': options->callers = (unsigned)number(value, 1, 100000); break;
    case 'd': options->depth = (unsigned)number(value, 1, 4096); break;
    case 'n': options->requests = number(value, 1, UINT64_MAX / 2); break;
    case 's': options->seconds = seconds(value); break;
    case 'b': read_sizes(options, value); break;
    case 'f': options->from = value; break;
    case 't': options->to = value; break;
    case 'x': options->text = value; break;
    case 'm': read_mix(options, value); break;
    case OPTION_MAPPINGS: options->mappings = (unsigned)number(value, 1, 32768); break;
    case OPTION_KEEP: options->keep = number(value, 1, UINT64_MAX / 2); break;
    case OPTION_STRICT: options->strict = true; break;
    case OPTION_THREADS: options->threads = (unsigned)number(value, 1, 256); break;
    case OPTION_TIMEOUT: options->timeout = (int)(seconds(value) * 1000 + 0.999); break;
    case OPTION_VERIFY: options->verify = true; break;
    case OPTION_JSON: options->json = true; break;
    case OPTION_CSV: options->csv = true; break;
    case 'h': fputs(USAGE, stdout); exit(0);
    case 'V': puts("iconvd-benchmark " VERSION); exit(0);
    default: fputs("Try 'iconvd-benchmark --help'.\n", stderr); exit(2);
    }
}

void options_read(struct options *options, int count, char **words) {
    *options = (struct options){.where = getenv("ICONVD"),
                                .from = "UTF-8",
                                .to = "UTF-16BE",
                                .text = "ascii",
                                .shares = {[KIND_CONV] = 1},
                                .sizes = {64},
                                .size_count = 1,
                                .mappings = 256,
                                .streams = 50,
                                .callers = 1,
                                .depth = 1,
                                .threads = 1,
                                .keep = 500000,
                                .requests = 100000,
                                .timeout = 10000};
    int letter;
    while ((letter = getopt_long(count, words, "c:k:d:n:s:b:f:t:x:m:hV", LONG, NULL)) >= 0)
        read_option(options, letter, optarg);
    if (optind < count)
        options->where = words[optind++];
    if (optind < count)
        give_up(2, "one word too many: %s", words[optind]);
    if (options->json && options->csv)
        give_up(2, "either --json or --csv");
    if (!options->where)
        options->where = "exec:iconvd pipe";
    if (options->threads > options->streams)
        options->threads = options->streams;
}
