/* Frames: requests and replies in memory, without I/O. */
#include "frames.h"

#include <string.h>

void put_u32(unsigned char *out, uint32_t value) {
    out[0] = (unsigned char)(value >> 24);
    out[1] = (unsigned char)(value >> 16);
    out[2] = (unsigned char)(value >> 8);
    out[3] = (unsigned char)value;
}

uint32_t get_u32(const unsigned char *bytes) {
    return (uint32_t)bytes[0] << 24 | (uint32_t)bytes[1] << 16 | (uint32_t)bytes[2] << 8 | bytes[3];
}

size_t iconvd_frame_head(unsigned char out[ICONVD_FRAME_HEAD], iconvd_asker asker, uint8_t op, size_t body) {
    if (body > ICONVD_MAX_BODY)
        return 0;
    put_u32(out, (uint32_t)(FRAME_LEAST + body));
    put_u32(out + 4, asker.caller);
    put_u32(out + 8, asker.tag);
    out[12] = op;
    return ICONVD_FRAME_HEAD;
}

size_t iconvd_frame_conv(unsigned char out[ICONVD_CONV_HEAD], iconvd_asker asker, uint32_t descriptor, uint32_t room,
                         size_t input) {
    if (input > ICONVD_MAX_INPUT || room > ICONVD_MAX_ROOM)
        return 0;
    iconvd_frame_head(out, asker, ICONVD_CONV, 8 + input);
    put_u32(out + 13, descriptor);
    put_u32(out + 17, room);
    return ICONVD_CONV_HEAD;
}

size_t iconvd_frame_reset(unsigned char out[ICONVD_CONV_HEAD], iconvd_asker asker, uint32_t descriptor, uint32_t room) {
    if (room > ICONVD_MAX_ROOM)
        return 0;
    iconvd_frame_head(out, asker, ICONVD_RESET, 8);
    put_u32(out + 13, descriptor);
    put_u32(out + 17, room);
    return ICONVD_CONV_HEAD;
}

size_t iconvd_frame_close(unsigned char out[ICONVD_CONV_HEAD], iconvd_asker asker, uint32_t descriptor) {
    iconvd_frame_head(out, asker, ICONVD_CLOSE, 4);
    put_u32(out + 13, descriptor);
    return ICONVD_FRAME_HEAD + 4;
}

/* A name with its length in front. */
static unsigned char *put_name(unsigned char *out, const char *name, size_t length) {
    *out++ = (unsigned char)length;
    memcpy(out, name, length);
    return out + length;
}

size_t iconvd_frame_open(unsigned char out[ICONVD_OPEN_FRAME], iconvd_asker asker, const char *to, const char *from, int strict) {
    size_t to_length = strlen(to), from_length = strlen(from);
    if (to_length > 255 || from_length > 255)
        return 0;
    unsigned char *end = put_name(out + ICONVD_FRAME_HEAD, to, to_length);
    end = put_name(end, from, from_length);
    *end++ = strict != 0;
    size_t body = (size_t)(end - out) - ICONVD_FRAME_HEAD;
    iconvd_frame_head(out, asker, ICONVD_OPEN, body);
    return ICONVD_FRAME_HEAD + body;
}

iconvd_framing iconvd_frame_read(const unsigned char *bytes, size_t length, iconvd_reply *reply, size_t *used) {
    if (length < 4)
        return ICONVD_FRAME_MORE;
    uint32_t follows = get_u32(bytes);
    if (follows < FRAME_LEAST || follows > FRAME_LEAST + ICONVD_MAX_BODY)
        return ICONVD_FRAME_BAD;
    if (length - 4 < follows)
        return ICONVD_FRAME_MORE;
    *reply = (iconvd_reply){.caller = get_u32(bytes + 4),
                            .tag = get_u32(bytes + 8),
                            .status = bytes[12],
                            .body = bytes + ICONVD_FRAME_HEAD,
                            .body_length = follows - FRAME_LEAST};
    *used = 4 + (size_t)follows;
    return ICONVD_FRAME_WHOLE;
}

int has_progress(uint8_t status) {
    return status <= ICONVD_EINVAL || status == ICONVD_ENOCHAR;
}

int iconvd_reply_converted(const iconvd_reply *reply, iconvd_converted *converted) {
    if (!has_progress(reply->status) || reply->body_length < 8)
        return 0;
    *converted = (iconvd_converted){.left = get_u32(reply->body),
                                    .replaced = get_u32(reply->body + 4),
                                    .output = reply->body + 8,
                                    .output_length = reply->body_length - 8};
    return 1;
}

int iconvd_reply_number(const iconvd_reply *reply, uint32_t *number) {
    if (reply->status != ICONVD_OK || reply->body_length != 4)
        return 0;
    *number = get_u32(reply->body);
    return 1;
}
