/* Texts in the encoding that they are converted from, and what a conversion of them should give. */
#ifndef BENCHMARK_TEXT_H
#define BENCHMARK_TEXT_H

#include <stdbool.h>
#include <stddef.h>
#include <stdint.h>

#include "../src/buffer.h"

/* A CONV's input, the output that it should have, and how many characters are `?` in it since the target lacks them. */
struct sample {
    struct buffer input;
    struct buffer output;
    uint32_t replaced;
};

struct text_request {
    const char *text; /* ascii, latin, cyrillic, cjk, emoji, or a file in UTF-8 */
    const char *from; /* names of the service */
    const char *to;
    size_t bytes;     /* of the input, at most */
    bool expected;    /* whether `output` is wanted */
};

/* Makes a sample by the C library's iconv(). It ends the program where that does not know an encoding. */
void text_make(struct sample *sample, const struct text_request *request);

#endif
