/* Bytes that grow. */
#ifndef ICONVD_BUFFER_H
#define ICONVD_BUFFER_H

#include <stdbool.h>
#include <stdlib.h>
#include <string.h>

struct buffer {
    char *bytes;
    size_t length;
    size_t room;
};

/* Makes room for `more` bytes behind those that are there. False: out of memory, and nothing has changed. */
static inline bool buffer_reserve(struct buffer *buffer, size_t more) {
    if (buffer->room - buffer->length >= more)
        return true;
    size_t room = buffer->room * 2 > buffer->length + more ? buffer->room * 2 : buffer->length + more;
    char *bytes = realloc(buffer->bytes, room);
    if (!bytes)
        return false;
    buffer->bytes = bytes;
    buffer->room = room;
    return true;
}

static inline bool buffer_append(struct buffer *buffer, const char *bytes, size_t length) {
    if (!buffer_reserve(buffer, length))
        return false;
    if (length > 0)
        memcpy(buffer->bytes + buffer->length, bytes, length);
    buffer->length += length;
    return true;
}

static inline bool buffer_put_in_front(struct buffer *buffer, const char *bytes, size_t length) {
    if (!buffer_reserve(buffer, length))
        return false;
    memmove(buffer->bytes + length, buffer->bytes, buffer->length);
    memcpy(buffer->bytes, bytes, length);
    buffer->length += length;
    return true;
}

static inline void buffer_free(struct buffer *buffer) {
    free(buffer->bytes);
    *buffer = (struct buffer){.bytes = NULL};
}

#endif
