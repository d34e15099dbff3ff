/* A caller that goes on a byte after each fault, or a unit of UTF-16: its calls cost together what one call costs, and each does what it
 * does by itself. A relay counts the requests. */
#include "texts.h"

/* Where a call has stopped. */
struct step {
    size_t left, room, replaced;
    iconvd_status status;
};

/* A caller that goes on a byte after each fault. */
struct loop {
    const char *to, *from;
    enum text kind;
    int policy;
    size_t count; /* of the first steps, which are kept */
    struct step steps[100];
};

static char loop_text[SMALL], loop_out[8 * SMALL], loop_other[8 * SMALL];

/* A call after another one. */
static struct step step_after(iconvd_cd *cd, const struct step *last, char *out) {
    struct step step = *last;
    const char *in = loop_text + sizeof loop_text - step.left;
    out += sizeof loop_out - step.room;
    iconvd_stop stop;
    step.status = iconvd_convert(cd, &in, &step.left, &out, &step.room, &stop);
    step.replaced = stop.replaced;
    return step;
}

static size_t unit_of(const char *name) {
    return strcmp(name, "UTF-16LE") == 0 ? 2 : 1;
}

static const struct step FIRST = {.left = sizeof loop_text, .room = sizeof loop_out, .status = ICONVD_EILSEQ};

static bool is_shifted(const char *name) {
    return strncmp(name, "ISO-2022", 8) == 0 || strcmp(name, "HZ") == 0;
}

static bool is_composing(const char *name) {
    return strcmp(name, "CP1255") == 0 || strcmp(name, "CP1258") == 0 || strcmp(name, "TCVN") == 0 || strcmp(name, "BIG5-HKSCS") == 0;
}

/* Its calls cost together what one call costs; twice as many requests where the target lacks characters. */
static void meter_loop(struct loop *loop) {
    iconvd_cd *cd = NULL;
    struct step step = FIRST;
    uint64_t most = (strcmp(loop->to, "UTF-8") == 0 ? 8 : 16) * ((SMALL + 65535) / 65536);
    /* Each window is converted twice with shifts: its sets, and all of it to the target. */
    most *= is_shifted(loop->from) ? 2 : 1;
    loop->count = 0;
    check(iconvd_open(pool, loop->to, loop->from, loop->policy, &cd) == ICONVD_OK, "%s to %s", loop->from, loop->to);
    uint64_t bytes = text_bytes_sent, requests = texts_sent;
    while (step.status == ICONVD_EILSEQ && step.left > 0) {
        step = step_after(cd, &step, loop_out);
        if (loop->count < sizeof loop->steps / sizeof *loop->steps)
            loop->steps[loop->count++] = step;
        step.left -= step.status == ICONVD_EILSEQ ? unit_of(loop->from) : 0;
    }
    bytes = text_bytes_sent - bytes;
    requests = texts_sent - requests;
    check(step.left < 8 && bytes <= 4 * SMALL + 65536 && requests <= most,
          "%s to %s, %s, policy %d, a loop: %zu bytes left, %llu requests, %llu bytes", loop->from, loop->to, TEXT_NAMES[loop->kind],
          loop->policy, step.left, (unsigned long long)requests, (unsigned long long)bytes);
    iconvd_close(cd);
}

/* Each does what it does by itself. */
static void compare_loop(const struct loop *loop) {
    struct step last = FIRST;
    for (size_t i = 0; i < loop->count; i++) {
        const struct step *seen = &loop->steps[i];
        iconvd_cd *cd = NULL;
        iconvd_open(pool, loop->to, loop->from, loop->policy, &cd);
        last = step_after(cd, &last, loop_other);
        check(last.left == seen->left && last.room == seen->room && last.status == seen->status && last.replaced == seen->replaced,
              "%s to %s, %s, policy %d, call %zu of a loop", loop->from, loop->to, TEXT_NAMES[loop->kind], loop->policy, i);
        last.left -= last.status == ICONVD_EILSEQ ? unit_of(loop->from) : 0;
        iconvd_close(cd);
    }
    check(memcmp(loop_out, loop_other, sizeof loop_other - last.room) == 0, "%s to %s, %s, policy %d: the output of a loop", loop->from,
          loop->to, TEXT_NAMES[loop->kind], loop->policy);
}

/* To a target that has all characters, to one that lacks many, and to one of several bytes; what these lack is replaced. */
static void test_loops(void) {
    static const char *const FROM[] = {"EUC-KR",      "UTF-8", "UTF-16LE", "GB18030", "SHIFT_JIS", "BIG5",      "EUC-JP", "US-ASCII", "ISO-2022-JP",
                                       "ISO-2022-KR", "HZ",    "CP1255",   "CP1258",  "TCVN",      "BIG5-HKSCS", "VISCII"};
    static const enum text KINDS[] = {RANDOM, GERMAN, FRENCH, EACH_SECOND, FAULTS, LEADS, DAMAGED, SHIFTS};
    static const struct {
        const char *to;
        int policy;
    } TARGETS[] = {{"UTF-8", ICONVD_STRICT},     {"UTF-8", ICONVD_TRANSLIT},  {"KOI8-R", ICONVD_TRANSLIT},    {"EUC-KR", ICONVD_TRANSLIT},
                   {"CP1255", ICONVD_TRANSLIT}, {"CP1258", ICONVD_TRANSLIT}, {"BIG5-HKSCS", ICONVD_TRANSLIT}};
    enum { TARGET_COUNT = sizeof TARGETS / sizeof *TARGETS };
    for (size_t i = 0; i < sizeof FROM / sizeof *FROM; i++)
        for (size_t j = 0; j < TARGET_COUNT * sizeof KINDS / sizeof *KINDS; j++) {
            struct loop loop = {.from = FROM[i], .kind = KINDS[j / TARGET_COUNT]};
            if (is_shifted(loop.from) != (loop.kind == SHIFTS) && loop.kind != RANDOM && loop.kind != EACH_SECOND)
                continue;
            loop.to = TARGETS[j % TARGET_COUNT].to;
            loop.policy = TARGETS[j % TARGET_COUNT].policy;
            /* From the ones to the others there is no way. */
            if (is_shifted(loop.from) && is_composing(loop.to))
                continue;
            make_text(loop.kind, loop.from, loop_text, sizeof loop_text);
            meter_loop(&loop);
            /* A conversion of its own for each call has no shifts before it, and holds no letter: shifts.c and composing.c compare these
               with the C library. */
            if (!is_shifted(loop.from) && !is_composing(loop.from) && !is_composing(loop.to))
                compare_loop(&loop);
        }
}

/* A character for which nothing is written needs room all the same, as in a call that is the first one. */
static void test_empty(void) {
    static const char TEXT[] = "a\xffz\u030c\xff";
    for (int skips = 0; skips < 2; skips++) {
        iconvd_cd *cd = NULL;
        char out_bytes[1], *out = out_bytes;
        const char *in = TEXT;
        size_t left = skips ? sizeof TEXT - 1 : 0, room = 1;
        iconvd_open(pool, "EUC-KR", "UTF-8", ICONVD_TRANSLIT, &cd);
        if (skips)
            iconvd_convert(cd, &in, &left, &out, &room, NULL);
        in = TEXT + 2;
        out = out_bytes;
        left = 4;
        room = 1;
        iconvd_status status = iconvd_convert(cd, &in, &left, &out, &room, NULL);
        check(status == ICONVD_E2BIG && left == 3 && room == 0, "%d, an empty phrase without room: %s, %zu bytes left", skips,
              iconvd_status_text(status), left);
        iconvd_close(cd);
    }
}

int main(void) {
    where = start_counting("loops");
    connect_anew("loops");
    test_loops();
    test_empty();
    iconvd_disconnect(pool);
    unlink(where + 5);
    return checks_end("loops");
}
