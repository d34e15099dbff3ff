/* PEER TO FROM CALL ROUNDS: prints the nanoseconds of the fastest of ROUNDS rounds for the text on standard input, in calls of
   CALL bytes, as crates/bench_convert does for ours. The bytes that a call leaves are given to the next. With 0 rounds it writes the
   output, for comparison. PEER alone prints the library's version. Status 3: the library doesn't have this conversion. */
#include "peer.h"
#include <stdint.h>
#include <stdio.h>
#include <stdlib.h>
#include <time.h>

enum { EXPANSION = 8, NO_SUCH_CONVERSION = 3 };

struct text {
    char *bytes;
    size_t length;
};

static uint64_t now(void)
{
    struct timespec t;
    clock_gettime(CLOCK_MONOTONIC, &t);
    return (uint64_t)t.tv_sec * 1000000000u + (uint64_t)t.tv_nsec;
}

static void *allocated(size_t size)
{
    void *memory = aligned_alloc(64, (size + 63) / 64 * 64);
    if (!memory) {
        fputs("peer: out of memory\n", stderr);
        exit(1);
    }
    return memory;
}

static struct text read_text(void)
{
    enum { MOST = 1 << 27 };
    struct text text = {allocated(MOST), 0};
    text.length = fread(text.bytes, 1, MOST, stdin);
    return text;
}

/* Converts the whole text, from a new start. If `output` is given, the output of each call is written there. */
static uint64_t convert_all(void *peer, struct text text, size_t call, char *out, FILE *output)
{
    uint64_t start = now();
    for (size_t at = 0; at < text.length;) {
        size_t rest = text.length - at, written = 0;
        size_t used = peer_convert(peer, text.bytes + at, rest < call ? rest : call, out, call * EXPANSION, &written);
        if (output)
            fwrite(out, 1, written, output);
        if (used == 0)
            break;
        at += used;
    }
    return now() - start;
}

int main(int argc, char **argv)
{
    if (argc == 1)
        return puts(peer_version()) < 0;
    if (argc != 5)
        return 2;
    struct text text = read_text();
    size_t call = strtoull(argv[3], NULL, 10), rounds = strtoull(argv[4], NULL, 10);
    char *out = allocated(call * EXPANSION);
    uint64_t fastest = UINT64_MAX;
    for (size_t round = 0; round < rounds || round == 0; round++) {
        void *peer = peer_open(argv[1], argv[2]);
        if (!peer)
            return NO_SUCH_CONVERSION;
        uint64_t spent = convert_all(peer, text, call, out, rounds == 0 ? stdout : NULL);
        fastest = spent < fastest ? spent : fastest;
        peer_close(peer);
    }
    if (rounds > 0)
        printf("%llu\n", (unsigned long long)fastest);
    return 0;
}
