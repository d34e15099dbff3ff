/* A server that is wrong in one way, at one request: the client has to notice, to write nothing twice and lose nothing, and to go on
 * with a server that is right. */
#include "server.h"

/* A server that ends a stream without a word is taken for a full one, which is waited for. */
static bool closes_unheard(int fault) {
    return fault == CLOSE_AT_ONCE || fault == CLOSE_AFTER;
}

/* Converts a text by three calls. The status of the last one; what was written is compared with what was used. */
static iconvd_status convert(size_t length, int fault, bool always, int request) {
    static char text[400000], out[900000];
    bool waits = fault == SILENT || (always && closes_unheard(fault));
    iconvd_options options = {.streams = 1, .timeout = waits ? 200 : 5000};
    iconvd_pool *pool = NULL;
    iconvd_cd *cd = NULL;
    set_plan((enum fault)fault, request, always ? ALL : 1);
    for (size_t i = 0; i < length; i++)
        text[i] = (char)('a' + i % 26);
    iconvd_status status = iconvd_connect(where, &options, &pool);
    if (status == ICONVD_OK)
        status = iconvd_open(pool, "UTF-8", "ASCII", ICONVD_STRICT, &cd);
    const char *in = text;
    char *out_at = out;
    size_t left = length, all_room = length <= 100 ? length : 2 * length, room = all_room;
    for (int call = 0; status == ICONVD_OK && call < 3; call++) {
        in = text;
        out_at = out;
        left = length;
        room = all_room;
        memset(out, '#', length);
        status = iconvd_convert(cd, &in, &left, &out_at, &room, NULL);
    }
    size_t used = length - left, written = all_room - room;
    check(in == text + used && out_at == out + written, "fault %d at request %d: pointers and counts", fault, request);
    check(!cd || (used == written && memcmp(out, text, written) == 0), "fault %d at request %d: what was written", fault, request);
    check(status != ICONVD_OK || !cd || left == 0, "fault %d at request %d: all is used", fault, request);
    iconvd_close(cd);
    iconvd_disconnect(pool);
    return status;
}

/* Faults that cannot be told from a right answer: a descriptor may be any number, and a text that fits in the room any text. */
static bool is_plausible(int fault, int request, size_t length) {
    return (fault == LEFT_TOO_MUCH && request == 0) || (fault == OUTPUT_TOO_LONG && length > 100);
}

static void test_fault(int fault, int request, size_t length) {
    /* Once, and then a right server: nothing is to be noticed. */
    if (is_plausible(fault, request, length))
        return;
    if (fault != SILENT)
        check(convert(length, fault, false, request) == ICONVD_OK, "fault %d once, at request %d, of %zu bytes", fault, request, length);
    /* Always: the call fails, after three connections at most for each call, and as many for a server that is waited for for 200 ms. */
    iconvd_status status = convert(length, fault, true, request);
    int connections = __atomic_load_n(&plan.connections, __ATOMIC_SEQ_CST);
    /* A new connection answers some requests rightly before the wrong one, and that may be all that one more try needs. */
    bool enough = request == 2 || (request == 1 && length > 100);
    /* What stands behind a reply is noticed at the next one, which it then spoils. */
    enough |= request == 1 && (fault == MORE_BEHIND || fault == TWICE);
    check(status == ICONVD_LOST || (enough && status == ICONVD_OK), "fault %d always, at request %d: status %d", fault, request, status);
    check(connections <= 10, "fault %d always, at request %d: %d connections", fault, request, connections);
}

int main(void) {
    start_server("hostile");
    for (int request = 0; request < 3; request++)
        for (int fault = RIGHT + 1; fault < FAULTS; fault++)
            for (size_t length = 10; length <= 300000; length += 299990)
                test_fault(fault, request, length);
    /* Each point of closing: in the reply to OPEN, of 17 bytes, and in that to CONV, of 31. */
    for (int point = 0; point < 31; point++) {
        test_fault(CLOSE_AFTER + point, 1, 10);
        if (point < 17)
            test_fault(CLOSE_AFTER + point, 0, 10);
    }
    unlink(socket_file);
    return checks_end("hostile");
}
