/* echo FACTOR [listen]: a server that does nothing with its frames, so that a bench can tell how much of a request's cost is
   reading and writing. It reads 65,536 bytes at a time as iconvd does, and writes the replies to all whole requests in one
   call. The reply to a CONV has the input FACTOR times; any other reply has four bytes. It serves standard input to standard
   output, or prints `listening ADDRESS:PORT` and serves one stream. */
#include <arpa/inet.h>
#include <netinet/in.h>
#include <netinet/tcp.h>
#include <stdint.h>
#include <stdio.h>
#include <stdlib.h>
#include <string.h>
#include <sys/socket.h>
#include <unistd.h>

enum { READ = 65536, HEAD = 13, CONV = 4, CONV_HEAD = 8, MOST_FRAME = 1 << 20, MOST_FACTOR = 4 };

static void put_number(unsigned char *at, uint32_t number)
{
    for (int k = 0; k < 4; k++)
        at[k] = (unsigned char)(number >> (24 - 8 * k));
}

/* Writes the reply to a request, and returns its size. */
static size_t reply_to(const unsigned char *request, size_t size, size_t factor, unsigned char *out)
{
    size_t body = 4;
    memset(out + HEAD, 0, CONV_HEAD);
    if (request[HEAD - 1] == CONV) {
        size_t input = size - HEAD - CONV_HEAD;
        body = CONV_HEAD + factor * input;
        for (size_t k = 0; k < factor; k++)
            memcpy(out + HEAD + CONV_HEAD + k * input, request + HEAD + CONV_HEAD, input);
    }
    put_number(out, (uint32_t)(HEAD - 4 + body));
    memcpy(out + 4, request + 4, 8);
    out[HEAD - 1] = 0;
    return HEAD + body;
}

static int write_all(int to, const unsigned char *bytes, size_t size)
{
    while (size > 0) {
        ssize_t n = write(to, bytes, size);
        if (n <= 0)
            return 0;
        bytes += n;
        size -= (size_t)n;
    }
    return 1;
}

static void serve(int from, int to, size_t factor)
{
    static unsigned char held[MOST_FRAME + READ], out[MOST_FACTOR * (MOST_FRAME + READ)];
    size_t length = 0;
    ssize_t n;
    while ((n = read(from, held + length, READ)) > 0) {
        size_t at = 0, written = 0;
        length += (size_t)n;
        while (length - at >= HEAD) {
            const unsigned char *next = held + at;
            size_t size = 4 + ((size_t)next[0] << 24 | (size_t)next[1] << 16 | (size_t)next[2] << 8 | next[3]);
            if (size > length - at)
                break;
            written += reply_to(next, size, factor, out + written);
            at += size;
        }
        memmove(held, held + at, length - at);
        length -= at;
        if (!write_all(to, out, written))
            return;
    }
}

static int accept_one(void)
{
    struct sockaddr_in address = {.sin_family = AF_INET, .sin_addr.s_addr = htonl(INADDR_LOOPBACK)};
    socklen_t size = sizeof address;
    int listener = socket(AF_INET, SOCK_STREAM, 0), one = 1;
    if (bind(listener, (struct sockaddr *)&address, size) || listen(listener, 1))
        return -1;
    getsockname(listener, (struct sockaddr *)&address, &size);
    printf("listening 127.0.0.1:%d\n", ntohs(address.sin_port));
    fflush(stdout);
    int stream = accept(listener, NULL, NULL);
    setsockopt(stream, IPPROTO_TCP, TCP_NODELAY, &one, sizeof one);
    return stream;
}

int main(int argc, char **argv)
{
    size_t factor = argc > 1 ? strtoull(argv[1], NULL, 10) : 0;
    if (factor < 1 || factor > MOST_FACTOR)
        return 2;
    int stream = argc > 2 ? accept_one() : -1;
    if (argc > 2 && stream < 0)
        return 1;
    serve(stream < 0 ? 0 : stream, stream < 0 ? 1 : stream, factor);
    return 0;
}
