/* What the stream shares with the frames. */
#ifndef ICONVD_FRAMES_H
#define ICONVD_FRAMES_H

#include "../iconvd.h"

/* The least length that a frame may state: caller, tag and op or status. */
#define FRAME_LEAST 9u

void put_u32(unsigned char *out, uint32_t value);
uint32_t get_u32(const unsigned char *bytes);

/* Whether a reply of this status to CONV says how far it came; every other status is a refusal. */
int has_progress(uint8_t status);

#endif
