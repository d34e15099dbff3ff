/* The preload library and its service: one that goes away, comes back or stops, that ends its streams, and more of everything than a
 * caller number has room for.
 *
 *   service TEST ..    each TEST is one of those in the table at the end
 *
 * PRELOAD is the library, SERVER the program that serves, RELAY the relay. What is converted is compared with the C library. */
#include <pthread.h>
#include <signal.h>
#include <sys/wait.h>
#include <unistd.h>

#include "samples.h"

/* More pairs and charmaps than one caller number has room for, all open at once. */
static void test_many(void) {
    static const char *const NAMES[] = {"KOI8-R", "CP1251", "LATIN2", "LATIN5", "GREEK", "HEBREW", "CP1252", "CP1250",
                                        "MACINTOSH", "IBM037", "CP850", "CP437", "TIS-620"};
    enum { NAME_COUNT = sizeof NAMES / sizeof *NAMES };
    static iconv_t open[NAME_COUNT][NAME_COUNT];
    for (int round = 0; round < 2; round++)
        for (size_t i = 0; i < NAME_COUNT; i++)
            for (size_t k = 0; k < NAME_COUNT; k++) {
                char text[] = "\x41\x4d", mine[20], other[20];
                struct sample sample = {.to = NAMES[i], .from = NAMES[k], .text = text};
                if (round == 0)
                    open[i][k] = ours.open(NAMES[i], NAMES[k]);
                check(open[i][k] != (iconv_t)-1, "%s to %s", NAMES[k], NAMES[i]);
                ssize_t length = convert(&ours, &sample, mine, sizeof mine);
                check(length == convert(&theirs, &sample, other, sizeof other) && (length < 0 || memcmp(mine, other, (size_t)length) == 0),
                      "%s to %s", NAMES[k], NAMES[i]);
            }
    for (size_t i = 0; i < NAME_COUNT; i++)
        for (size_t k = 0; k < NAME_COUNT; k++)
            ours.close(open[i][k]);
}

/* How many lines of the log that ICONVD_LOG names have a word. */
static int lines_with(const char *word) {
    char line[500];
    int count = 0;
    FILE *log = fopen(wanted("ICONVD_LOG"), "r");
    while (log && fgets(line, sizeof line, log))
        count += strstr(line, word) != NULL;
    if (log)
        fclose(log);
    return count;
}

/* More calls than a stream of the service serves, which is no fault: the log has no line of it. */
static void test_million(void) {
    const char *count = getenv("LIFE_CALLS");
    long calls = count ? atol(count) : 1100000;
    iconv_t cd = ours.open("UTF-16LE", "UTF-8");
    long wrong = 0;
    for (long i = 0; i < calls; i++) {
        char text[] = "abc\u00e9", out[20], *in = text, *at = out;
        size_t left = 5, room = sizeof out;
        wrong += ours.convert(cd, &in, &left, &at, &room) != 0 || at - out != 8 || left != 0;
    }
    check(wrong == 0, "%ld of %ld calls failed", wrong, calls);
    check(lines_with("lost") == 0, "a stream that was used up is told as a lost connection");
    ours.close(cd);
}

/* The relay, with the Unix socket that ICONVD names, after a pause. What it says is read from `out`. */
static pid_t begin_relay(long pause, int out[2]) {
    if (pipe(out) != 0)
        exit(2);
    pid_t relay = fork();
    if (relay == 0) {
        setpgid(0, 0);
        dup2(out[1], 1);
        sleep_milliseconds(pause);
        execl(wanted("RELAY"), "relay", wanted("ICONVD") + 5, wanted("SERVER"), "pipe", (char *)NULL);
        _exit(127);
    }
    close(out[1]);
    return relay;
}

static void await_relay(const int out[2]) {
    char line[20];
    check(read(out[0], line, sizeof line) > 0, "the relay listens");
    close(out[0]);
}

static pid_t start_relay(void) {
    int out[2];
    pid_t relay = begin_relay(0, out);
    await_relay(out);
    return relay;
}

static void stop_relay(pid_t relay) {
    kill(-relay, SIGKILL);
    waitpid(relay, NULL, 0);
}

/* A text in two halves, and what they are converted to. Where the C library goes on after the first one, it goes on from the first set. */
static const struct halves_row {
    const char *to, *from, *first, *second;
    const char *right, *right_by_fallback;
    size_t length, length_by_fallback;
} HALVES[] = {
#define MARKED "\xff\xfe\x1f\x04\x40\x04\x38\x04\x32\x04\x35\x04\x42\x04"
    {"UTF-16", "UTF-8", "\u041f\u0440\u0438", "\u0432\u0435\u0442", MARKED, MARKED, 14, 14},
    {"UTF-8", "ISO-2022-JP", "\x1b$BF|", "K\\\x1b(Ba", "\u65e5\u672c" "a", "\u65e5\u672c" "a", 7, 7},
    {"UTF-7", "ISO-2022-JP", "\x1b$BF|", "K\\\x1b(Ba", "+ZeVnLA-a", "+ZeU-+Zyw-a", 9, 11},
    {"UTF-7", "GB18030", "\x90\x30\x81\x30", "\x90\x30\x81\x30" "a", "+2ADcANgA3AA-a", "+2ADcAA-+2ADcAA-a", 14, 17},
    {"ISO-2022-JP", "UTF-8", "\u65e5", "\u672c" "a", "\x1b$BF|K\\\x1b(Ba", "\x1b$BF|\x1b(B\x1b$BK\\\x1b(Ba", 11, 17},
};
enum { HALVES_COUNT = sizeof HALVES / sizeof *HALVES };

/* The first half of each, then something happens, then the second half. */
struct half {
    iconv_t cd;
    char out[60];
    char *at;
    size_t room;
};
struct halves {
    struct half halves[HALVES_COUNT];
};

static bool convert_half(struct half *half, const char *text) {
    char *in = (char *)(uintptr_t)text;
    size_t left = strlen(text);
    return ours.convert(half->cd, &in, &left, &half->at, &half->room) == 0;
}

static void begin_halves(struct halves *halves) {
    for (size_t i = 0; i < HALVES_COUNT; i++) {
        struct half *half = &halves->halves[i];
        *half = (struct half){.room = sizeof half->out, .cd = ours.open(HALVES[i].to, HALVES[i].from)};
        half->at = half->out;
        check(convert_half(half, HALVES[i].first), "the first half, to %s", HALVES[i].to);
    }
}

/* True: the second halves are converted. */
static bool end_halves(struct halves *halves) {
    bool all = true;
    int saved = 0;
    for (size_t i = 0; i < HALVES_COUNT; i++) {
        const struct halves_row *row = &HALVES[i];
        struct half *half = &halves->halves[i];
        bool well = convert_half(half, row->second);
        saved = well ? saved : errno;
        size_t length = (size_t)(half->at - half->out);
        bool right = length == row->length && memcmp(half->out, row->right, length) == 0;
        right |= length == row->length_by_fallback && memcmp(half->out, row->right_by_fallback, length) == 0;
        check(!well || right, "both halves, to %s: %.*s", row->to, (int)length, half->out);
        all &= well;
        ours.close(half->cd);
    }
    errno = saved;
    return all;
}

static bool falls_back(void) {
    const char *fallback = getenv("ICONVD_FALLBACK");
    return !fallback || strcmp(fallback, "never") != 0;
}

static void test_restart(void) {
    struct halves halves;
    pid_t relay = start_relay();
    check(all_right(), "before the service is killed");
    begin_halves(&halves);
    stop_relay(relay);
    check(end_halves(&halves) == falls_back() && (falls_back() || errno == EIO), "in the middle of a text, without a service");
    check(all_right() == falls_back(), "without a service");
    relay = start_relay();
    /* After a refused connection none is tried for a second. */
    sleep_milliseconds(1500);
    check(all_right(), "after the service has come back");
    stop_relay(relay);
    relay = start_relay();
    check(all_right(), "after a restart between two calls");
    stop_relay(relay);
}

static long now_in_milliseconds(void) {
    struct timespec now;
    clock_gettime(CLOCK_MONOTONIC, &now);
    return now.tv_sec * 1000 + now.tv_nsec / 1000000;
}

/* A service that is back after two seconds is waited for, unless the C library can go on at once. */
static void test_back(void) {
    struct halves halves;
    int out[2];
    pid_t relay = start_relay();
    check(all_right(), "before the service is killed");
    begin_halves(&halves);
    stop_relay(relay);
    relay = begin_relay(2000, out);
    long begin = now_in_milliseconds();
    check(end_halves(&halves), "in the middle of a text, by a service that comes back");
    long time = now_in_milliseconds() - begin;
    check(falls_back() ? time < 1900 : time >= 1900, "it took %ld ms", time);
    await_relay(out);
    stop_relay(relay);
}

static void test_stopped(void) {
    struct halves halves;
    pid_t relay = start_relay();
    check(all_right(), "before the service is stopped");
    begin_halves(&halves);
    kill(-relay, SIGSTOP);
    check(end_halves(&halves) == falls_back() && (falls_back() || errno == EIO), "in the middle of a text, by a service that is stopped");
    kill(-relay, SIGCONT);
    stop_relay(relay);
}

static int answered;

static void *convert_one(void *argument) {
    bool right = is_right(&SAMPLES[0]);
    __atomic_store_n(&answered, 1, __ATOMIC_SEQ_CST);
    check(right, "a text whose service was stopped for a while");
    return argument;
}

static void fork_once(bool converts) {
    pid_t child = fork();
    if (child == 0) {
        alarm(60);
        _exit(converts && !all_right());
    }
    int status = 1;
    check(waitpid(child, &status, 0) == child && status == 0, "a child of fork()");
}

/* fork() does not wait for a service that is stopped, while a thread does. */
static void test_forking(void) {
    pthread_t thread;
    pid_t relay = start_relay();
    check(all_right(), "before the service is stopped");
    kill(-relay, SIGSTOP);
    pthread_create(&thread, NULL, convert_one, NULL);
    for (int i = 0; i < 3; i++) {
        sleep_milliseconds(100);
        fork_once(false);
    }
    check(!__atomic_load_n(&answered, __ATOMIC_SEQ_CST), "fork() waits for no service");
    kill(-relay, SIGCONT);
    pthread_join(thread, NULL);
    fork_once(true);
    check(all_right(), "after the service has gone on");
    stop_relay(relay);
}

/* What the standard of WHATWG reads otherwise than the C library is left to that: UCS-2 has no surrogates there. */
static void test_whatwg_name(void) {
    char text[] = "\x3d\xd8\x00\xde", room[8], *in = text, *out = room;
    size_t in_left = 4, out_left = sizeof room;
    iconv_t cd = ours.open("UTF-8", "UCS-2");
    check(cd != (iconv_t)-1, "UCS-2 is not opened");
    size_t result = ours.convert(cd, &in, &in_left, &out, &out_left);
    check(falls_back() ? result == (size_t)-1 : result == 0 && out_left == sizeof room - 4, "a surrogate of UCS-2: %zu", result);
    ours.close(cd);
}

static void test_names(void) {
    errno = 0;
    check(ours.open("NOPE", "UTF-8") == (iconv_t)-1 && errno == EINVAL, "a name that nobody has");
    iconv_t cd = ours.open("UTF-8", "");
    check(cd != (iconv_t)-1 && ours.close(cd) == 0, "the locale's encoding");
    errno = 0;
    check(ours.close((iconv_t)-1) == -1 && errno == EBADF, "no iconv_t");
    cd = ours.open("UTF-8", "ISO-2022-JP-3");
    check(falls_back() == (cd != (iconv_t)-1), "a name that the C library alone has");
    if (cd != (iconv_t)-1)
        ours.close(cd);
    cd = ours.open("EUC-TW", "GB18030");
    check(cd != (iconv_t)-1 && ours.close(cd) == 0, "the two largest charmaps");
    cd = ours.open("L1", "L1");
    check(cd != (iconv_t)-1 && ours.close(cd) == 0, "what iconv -l opens");
    test_whatwg_name();
}

/* Two charmaps that no caller number has room for together. Their folder is in ICONVD_CHARMAPS. */
static void test_quota(void) {
    errno = 0;
    iconv_t cd = ours.open("KOI8-U", "KOI8-R");
    check(falls_back() ? cd != (iconv_t)-1 : errno == EMFILE, "two charmaps of 140,000 mappings: %s", strerror(errno));
    if (cd != (iconv_t)-1)
        ours.close(cd);
}

static const struct test TESTS[] = {
    {"many", test_many}, {"million", test_million}, {"restart", test_restart}, {"stopped", test_stopped}, {"names", test_names},
    {"forking", test_forking}, {"back", test_back}, {"quota", test_quota},
};

int main(int count, char **words) {
    return run_tests("service", TESTS, sizeof TESTS / sizeof *TESTS, count, words);
}
