/* iconv(3) of the C library. A character that the target lacks is written by the system's own substitution. */
#include "peer.h"
#include <gnu/libc-version.h>
#include <iconv.h>
#include <stdio.h>

const char *peer_version(void)
{
    static char version[40];
    snprintf(version, sizeof version, "glibc %s", gnu_get_libc_version());
    return version;
}

void *peer_open(const char *to, const char *from)
{
    char name[64];
    snprintf(name, sizeof name, "%s//TRANSLIT", to);
    iconv_t descriptor = iconv_open(name, from);
    return descriptor == (iconv_t)-1 ? NULL : descriptor;
}

size_t peer_convert(void *peer, const char *text, size_t length, char *out, size_t room, size_t *written)
{
    char *from = (char *)text, *to = out;
    size_t left = length, free = room;
    iconv(peer, &from, &left, &to, &free);
    *written += room - free;
    return length - left;
}

void peer_close(void *peer)
{
    iconv_close(peer);
}
