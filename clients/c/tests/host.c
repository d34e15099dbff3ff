/* host: a program that calls iconv(3). It says whether it runs with other rights than its caller's, which file its iconv() is of, and
 * what it has converted. Status 1: wrongly. */
#include <dlfcn.h>
#include <iconv.h>
#include <stdio.h>
#include <string.h>
#include <sys/auxv.h>

int main(void) {
    char text[] = "\xf0\xd2\xc9", out[20] = "", *in = text, *at = out;
    size_t left = 3, room = sizeof out - 1;
    size_t (*function)(iconv_t, char **, size_t *, char **, size_t *) = iconv;
    void *address = *(void **)&function;
    Dl_info info = {.dli_fname = "nothing"};
    iconv_t cd = iconv_open("UTF-8", "KOI8-R");
    size_t result = cd != (iconv_t)-1 ? iconv(cd, &in, &left, &at, &room) : (size_t)-1;
    dladdr(address, &info);
    printf("secure %lu by %s: %s\n", getauxval(AT_SECURE), info.dli_fname, out);
    return result == 0 && strcmp(out, "\u041f\u0440\u0438") == 0 ? 0 : 1;
}
