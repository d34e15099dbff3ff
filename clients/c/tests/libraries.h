/* iconv() of the preload library and iconv() of the C library, side by side in one process. */
#ifndef ICONVD_LIBRARIES_H
#define ICONVD_LIBRARIES_H

#include <dlfcn.h>
#include <iconv.h>

#include "check.h"

struct library {
    iconv_t (*open)(const char *to, const char *from);
    size_t (*convert)(iconv_t cd, char **in, size_t *in_left, char **out, size_t *out_left);
    int (*close)(iconv_t cd);
};

static inline struct library library_load(const char *path) {
    void *file = dlopen(path, RTLD_NOW | RTLD_LOCAL);
    if (!file) {
        fprintf(stderr, "%s\n", dlerror());
        exit(2);
    }
    struct library library;
    *(void **)&library.open = dlsym(file, "iconv_open");
    *(void **)&library.convert = dlsym(file, "iconv");
    *(void **)&library.close = dlsym(file, "iconv_close");
    return library;
}

#endif
