/* A program that knows nothing of the service. */
#include <iconv.h>
#include <stdio.h>

int main(void) {
    char bytes[] = "\xc1\xc2", text[9], *in = bytes, *out = text;
    size_t in_left = 2, room = sizeof text;
    iconv_t cd = iconv_open("UTF-8", "KOI8-R");
    size_t result = cd == (iconv_t)-1 ? 1 : iconv(cd, &in, &in_left, &out, &room);
    printf("%.*s: %zu\n", (int)(out - text), text, result);
    return result != 0;
}
