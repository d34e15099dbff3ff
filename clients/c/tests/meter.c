/* Hostile text costs its length: what a conversion sends is at most four times its input and 64 KiB, in at most eight requests for each
 * 64 KiB, whatever the text, the encodings, the policy and the room are. A relay counts it.
 *
 *   meter texts    texts of every kind
 *   meter names    each name that the library knows
 *
 * METER_TIMES=1 also says how long each of the large texts takes. */
#include <time.h>

#include "../src/encodings.h"
#include "texts.h"

enum { LARGE = 1 << 20, OUT = 8 * LARGE };

static unsigned long names;

/* One call. */
struct call {
    const char *to, *from;
    int policy;
    enum text kind;
    size_t room;
};

/* What is sent for one call, beside its bounds. */
static void meter(const struct call *call, iconvd_cd *cd, const char *text, size_t length) {
    static char out[OUT];
    const char *in = text;
    char *out_at = out;
    size_t left = length, room = call->room;
    uint64_t bytes = text_bytes_sent, requests = texts_sent;
    iconvd_status status = iconvd_convert(cd, &in, &left, &out_at, &room, NULL);
    bytes = text_bytes_sent - bytes;
    requests = texts_sent - requests;
    check(status != ICONVD_LOST && status != ICONVD_ENOMEM, "%s to %s, %s: %s", call->from, call->to, TEXT_NAMES[call->kind],
          iconvd_status_text(status));
    check(!(call->policy & ICONVD_IGNORE) || left < 8 || status == ICONVD_E2BIG, "%s to %s, %s, policy %d: %zu bytes left: %s",
          call->from, call->to, TEXT_NAMES[call->kind], call->policy, left, iconvd_status_text(status));
    check(bytes <= 4 * length + 65536, "%s to %s, %s, policy %d, room %zu: %llu bytes sent for %zu", call->from, call->to,
          TEXT_NAMES[call->kind], call->policy, call->room, (unsigned long long)bytes, length);
    check(requests <= 8 * ((length + 65535) / 65536), "%s to %s, %s, policy %d, room %zu: %llu requests for %zu bytes", call->from,
          call->to, TEXT_NAMES[call->kind], call->policy, call->room, (unsigned long long)requests, length);
}

/* A text by one pair and policy. */
static void test(const struct call *call, const char *text, size_t length) {
    iconvd_cd *cd = NULL;
    iconvd_status status = iconvd_open(pool, call->to, call->from, call->policy, &cd);
    /* Nothing is left out of UTF-7, and there is no way from it, or from shifts, to encodings that compose. */
    if (status == ICONVD_UNSUPPORTED)
        return;
    check(status == ICONVD_OK, "%s to %s: %s", call->from, call->to, iconvd_status_text(status));
    if (status == ICONVD_OK)
        meter(call, cd, text, length);
    iconvd_close(cd);
}

/* The policies and their sums. */
static const int POLICIES[] = {ICONVD_IGNORE, ICONVD_TRANSLIT, ICONVD_IGNORE | ICONVD_TRANSLIT, ICONVD_STRICT, ICONVD_SUBSTITUTE};
enum { POLICY_COUNT = sizeof POLICIES / sizeof *POLICIES };

static double seconds(void) {
    struct timespec now;
    clock_gettime(CLOCK_MONOTONIC, &now);
    return (double)now.tv_sec + (double)now.tv_nsec / 1e9;
}

/* A large text by one policy. */
static void test_large_text(const char *from, const char *to, enum text kind, int policy) {
    static char text[LARGE];
    struct call call = {.to = to, .from = from, .policy = policy, .kind = kind, .room = OUT};
    make_text(kind, from, text, sizeof text);
    double begin = seconds();
    test(&call, text, sizeof text);
    if (getenv("METER_TIMES"))
        printf("%s to %s, %s, policy %d: %.1f ms\n", from, to, TEXT_NAMES[kind], policy, 1000 * (seconds() - begin));
}

/* Large texts of the encodings that mail has most: random ones of all, and every kind of two. */
static void test_large(void) {
    static const char *const FROM[] = {"EUC-KR", "UTF-8", "ISO-2022-JP-2", "EUC-JP", "BIG5", "GB18030", "SHIFT_JIS", "UTF-16", "KOI8-R"};
    for (size_t i = 0; i < sizeof FROM / sizeof *FROM * TEXTS; i++) {
        enum text kind = (enum text)(i % TEXTS);
        if (i >= 3 * TEXTS && kind != RANDOM)
            continue;
        test_large_text(FROM[i / TEXTS], "UTF-8", kind, ICONVD_IGNORE);
        test_large_text(FROM[i / TEXTS], "KOI8-R", kind, ICONVD_IGNORE | ICONVD_TRANSLIT);
    }
}

/* Characters that the client computes, each after one that the service converts. */
static void test_planes(void) {
    static const char *const PAIRS[][2] = {{"UTF-8", "GB18030"}, {"GB18030", "UTF-8"},  {"UTF-16LE", "GB18030"},
                                           {"GB18030", "UTF-16"}, {"GB18030", "KOI8-R"}, {"GB18030", "GB18030"}};
    for (size_t i = 0; i < sizeof PAIRS / sizeof *PAIRS * POLICY_COUNT; i++)
        test_large_text(PAIRS[i / POLICY_COUNT][0], PAIRS[i / POLICY_COUNT][1], PLANES, POLICIES[i % POLICY_COUNT]);
}

/* Little room. */
static void test_rooms(void) {
    static const char *const FROM[] = {"EUC-KR", "UTF-8", "ISO-2022-JP-2", "HZ", "GB18030", "KOI8-R"};
    static const size_t ROOMS[] = {0, 1, 10, 1000, 30000};
    static char text[SMALL];
    for (size_t i = 0; i < sizeof FROM / sizeof *FROM * TEXTS; i++) {
        const char *from = FROM[i / TEXTS];
        enum text kind = (enum text)(i % TEXTS);
        make_text(kind, from, text, sizeof text);
        for (size_t j = 0; j < sizeof ROOMS / sizeof *ROOMS * 3; j++) {
            struct call call = {.to = "KOI8-R", .from = from, .policy = POLICIES[j % 3], .kind = kind, .room = ROOMS[j / 3]};
            test(&call, text, sizeof text);
        }
    }
}

/* An encoding: random bytes by all policies, German text that is labelled so, and damaged text. */
static void test_encoding(const char *name) {
    static const enum text KINDS[] = {RANDOM, GERMAN, DAMAGED, SHIFTS};
    static char text[SMALL];
    for (size_t i = 0; i < sizeof KINDS / sizeof *KINDS * POLICY_COUNT; i++) {
        struct call call = {.to = "KOI8-R", .from = name, .policy = POLICIES[i % POLICY_COUNT], .kind = KINDS[i / POLICY_COUNT], .room = OUT};
        if (i % POLICY_COUNT == 0)
            make_text(call.kind, name, text, sizeof text);
        if (call.kind == RANDOM || call.policy & ICONVD_IGNORE)
            test(&call, text, sizeof text);
        call.to = "UTF-8";
        if (call.policy == ICONVD_IGNORE)
            test(&call, text, sizeof text);
    }
}

/* Texts to an encoding with shifts, or that composes, from others and from one with shifts. */
static void test_writing(const char *name) {
    static const char *const FROM[] = {"UTF-8", "EUC-JP", "WCHAR_T", "ISO-2022-JP-2"};
    static const enum text KINDS[] = {RANDOM, DAMAGED, SHIFTS, LACKING};
    static const size_t ROOMS[] = {OUT, 1000};
    static char text[SMALL];
    enum { KIND_COUNT = sizeof KINDS / sizeof *KINDS };
    for (size_t i = 0; i < sizeof FROM / sizeof *FROM * KIND_COUNT; i++) {
        enum text kind = KINDS[i % KIND_COUNT];
        make_text(kind, FROM[i / KIND_COUNT], text, sizeof text);
        for (size_t j = 0; j < sizeof ROOMS / sizeof *ROOMS * POLICY_COUNT; j++) {
            struct call call = {
                .to = name, .from = FROM[i / KIND_COUNT], .policy = POLICIES[j % POLICY_COUNT], .kind = kind, .room = ROOMS[j / POLICY_COUNT]};
            test(&call, text, sizeof text);
        }
    }
}

/* The same to all of them, and the longest texts from them. */
static void test_shifted(void) {
    const struct encoding *encoding;
    for (size_t i = 0; (encoding = encoding_shifted(i)); i++) {
        connect_anew("meter");
        test_writing(encoding->name);
        test_large_text("UTF-8", encoding->name, LACKING, ICONVD_IGNORE | ICONVD_TRANSLIT);
        for (enum text kind = SHIFTS; kind <= KANA; kind++) {
            test_large_text(encoding->name, "UTF-8", kind, ICONVD_IGNORE);
            test_large_text(encoding->name, "KOI8-R", kind, ICONVD_IGNORE | ICONVD_TRANSLIT);
        }
    }
}

/* Texts to encodings that compose. */
static void test_composing(void) {
    static const char *const TO[] = {"CP1255", "CP1258", "TCVN", "BIG5-HKSCS"};
    for (size_t i = 0; i < sizeof TO / sizeof *TO; i++) {
        connect_anew("meter");
        test_writing(TO[i]);
        test_large_text("UTF-8", TO[i], LACKING, ICONVD_IGNORE | ICONVD_TRANSLIT);
        test_large_text(TO[i], "KOI8-R", DAMAGED, ICONVD_IGNORE);
        test_large_text(TO[i], TO[(i + 1) % 4], RANDOM, ICONVD_IGNORE);
    }
}

/* All names of an encoding; by the first of them all policies. */
static void test_number(int number) {
    static char text[SMALL];
    const char *name;
    bool is_first = true;
    if (number % 8 == 0)
        connect_anew("meter");
    for (size_t i = 0; (name = iconvd_name(i)); i++) {
        struct call call = {.to = "KOI8-R", .from = name, .policy = ICONVD_IGNORE, .kind = RANDOM, .room = OUT};
        if (name_find(name) != number)
            continue;
        if (is_first)
            test_encoding(name);
        make_text(RANDOM, name, text, sizeof text);
        test(&call, text, sizeof text);
        is_first = false;
        names++;
    }
}

static void test_texts(void) {
    double begin = seconds();
    test_large();
    test_planes();
    double large = seconds();
    test_rooms();
    double rooms = seconds();
    test_shifted();
    test_composing();
    printf("meter: %.1f s large texts, %.1f s rooms, %.1f s shifts and compositions\n", large - begin, rooms - large, seconds() - rooms);
}

static void test_names(void) {
    double begin = seconds();
    int number = 0, charmaps_end = BUILTIN_COUNT + (int)charmap_count();
    for (; number < charmaps_end || encoding_shifted((size_t)(number - charmaps_end)); number++)
        test_number(number);
    printf("meter: %.1f s the %lu names\n", seconds() - begin, names);
}

int main(int count, char **words) {
    where = start_counting("meter");
    connect_anew("meter");
    if (count > 1 && strcmp(words[1], "names") == 0)
        test_names();
    else
        test_texts();
    iconvd_disconnect(pool);
    unlink(where + 5);
    printf("meter: %llu requests, %llu bytes of text\n", (unsigned long long)texts_sent, (unsigned long long)text_bytes_sent);
    return checks_end("meter");
}
