/* How the harness (time.c) calls a conversion library. Each peer is one file that defines these functions, and one program. */
#ifndef PEER_H
#define PEER_H

#include <stddef.h>

#ifdef __cplusplus
extern "C" {
#endif

/* The library's version, for the figures. */
const char *peer_version(void);

/* A conversion at its start, or NULL if the library doesn't have it. */
void *peer_open(const char *to, const char *from);

/* Converts from the start of a text, and returns how many of its bytes it used; 0: it can't go on. It adds the number of bytes
   that it writes to `written`. A library without state leaves a character that is cut off. `out` has room for eight times the
   text. */
size_t peer_convert(void *peer, const char *text, size_t length, char *out, size_t room, size_t *written);

void peer_close(void *peer);

#ifdef __cplusplus
}
#endif

#endif
