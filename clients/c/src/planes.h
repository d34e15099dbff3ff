/* The characters above U+FFFF in GB18030, whose codes of four bytes count up from 90308130, as digits of 10, 126, 10 and 126. */
#ifndef ICONVD_PLANES_H
#define ICONVD_PLANES_H

#include "codes.h"
#include "pool.h"

enum { PLANE_CODE = 4 };

/* The character of four bytes. False: they are none of these codes. */
bool plane_read(const unsigned char *in, uint32_t *character);
void plane_write(unsigned char out[PLANE_CODE], uint32_t character);

/* Whether there is one of these codes, or the beginning of one, at the front of a text. What has fewer than two bytes may be any code. */
bool plane_front(const unsigned char *in, size_t left, enum front *front);

#endif
