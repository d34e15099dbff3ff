/* iconv_open(), iconv() and iconv_close() by the service. */
#include <errno.h>

#include "composed.h"
#include "preload.h"

const char HANDLE_MARK[] = "iconvd";

static bool is_foreign(iconv_t cd) {
    return ((const struct handle *)cd)->mark != HANDLE_MARK;
}

static int errno_of(iconvd_status status) {
    switch (status) {
    case ICONVD_E2BIG: return E2BIG;
    case ICONVD_EILSEQ:
    case ICONVD_ENOCHAR: return EILSEQ;
    case ICONVD_EINVAL:
    case ICONVD_UNSUPPORTED: return EINVAL;
    case ICONVD_ENOMEM: return ENOMEM;
    case ICONVD_QUOTA:
    case ICONVD_EMFILE: return EMFILE;
    default: return EIO;
    }
}

static void handle_free(struct handle *handle) {
    if (!handle)
        return;
    iconvd_close(handle->cd);
    free(handle->to);
    free(handle->from);
    free(handle);
}

/* iconv -l opens this pair to have the C library read its tables, which it then lists. */
static bool is_listing(const char *to, const char *from) {
    return strcmp(to, "L1") == 0 && strcmp(from, "L1") == 0;
}

/* Opens by the service, else by the C library. */
static iconvd_status handle_open(struct handle *handle, const char *to, const char *from) {
    const struct settings *set = settings();
    iconvd_status status = ICONVD_LOST;
    if (is_listing(to, from))
        handle->real = set->libc.open(to, from);
    else if (set->falls_back && (name_is_whatwg(to) || name_is_whatwg(from)))
        status = ICONVD_UNSUPPORTED;
    else if (set->pool)
        status = iconvd_open(set->pool, to, from, ICONVD_STRICT, &handle->cd);
    if (handle->cd || handle->real != (iconv_t)-1)
        return ICONVD_OK;
    if (status == ICONVD_ENOMEM || !set->falls_back)
        return status;
    handle->real = set->libc.open(to, from);
    settings_log("%s to %s: %s; the C library %s", from, to, iconvd_status_text(status),
                 handle->real != (iconv_t)-1 ? "converts" : "has none either");
    return handle->real != (iconv_t)-1 ? ICONVD_OK : ICONVD_UNSUPPORTED;
}

ICONVD_API iconv_t iconv_open(const char *to, const char *from) {
    int before = errno;
    struct handle *handle = calloc(1, sizeof *handle);
    iconvd_status status = ICONVD_ENOMEM;
    if (handle) {
        handle->mark = HANDLE_MARK;
        handle->real = (iconv_t)-1;
        handle->to = strdup(to);
        handle->from = strdup(from);
        if (handle->to && handle->from)
            status = handle_open(handle, to, from);
    }
    /* A call that succeeds leaves errno alone, whatever was tried on the way. */
    errno = status == ICONVD_OK ? before : errno_of(status);
    if (status == ICONVD_OK)
        return handle;
    before = errno;
    handle_free(handle);
    errno = before;
    return (iconv_t)-1;
}

ICONVD_API int iconv_close(iconv_t cd) {
    if (cd == (iconv_t)-1) {
        errno = EBADF;
        return -1;
    }
    if (is_foreign(cd))
        return settings()->libc.close(cd);
    struct handle *handle = cd;
    int result = handle->real != (iconv_t)-1 ? settings()->libc.close(handle->real) : 0;
    int before = errno;
    handle_free(handle);
    errno = before;
    return result;
}

static size_t failed(iconvd_status status) {
    errno = errno_of(status);
    return (size_t)-1;
}

/* iconv() without input. */
static size_t reset(struct handle *handle, char **out, size_t *out_left) {
    const struct libc *libc = &settings()->libc;
    if (handle->real == (iconv_t)-1) {
        iconvd_status status = iconvd_reset(handle->cd, out, out_left);
        if (status == ICONVD_OK)
            return handle->cd->composed ? handle->cd->composed->replaced : 0;
        if (status == ICONVD_LOST && !handle_shift_back(handle, out, out_left))
            return failed(ICONVD_E2BIG);
        if (status != ICONVD_LOST || !handle_fall_back(handle, status))
            return failed(status);
    }
    size_t result = libc->convert(handle->real, NULL, NULL, out, out_left);
    return result != (size_t)-1 && !handle_start_again(handle) ? (size_t)-1 : result;
}

/* A call by the C library, or the rest of one. */
static size_t go_on(const struct handle *handle, char **in, size_t *in_left, char **out, size_t *out_left) {
    return settings()->libc.convert(handle->real, in, in_left, out, out_left);
}

/* Whether a call says that //IGNORE left something out: at its end, when all of the input is used. Where the end cuts a character the
   C library says that instead of faulty bytes: its converter of the source reports the last thing that it has met. What the target
   lacks is reported by the next converter, if there is one. */
static bool is_told(const struct iconvd_cd *cd, const struct progress *progress, iconvd_status status) {
    return status == ICONVD_OK || (status == ICONVD_EINVAL && progress->lacking > 0 && !cd->from_wide);
}

/* iconv() with input, by the service. */
static size_t convert(struct handle *handle, char **in, size_t *in_left, char **out, size_t *out_left) {
    int before = errno;
    bool writes = out && *out;
    struct progress progress = {
        .in = *in, .in_left = *in_left, .out = writes ? *out : NULL, .out_left = writes ? *out_left : 0};
    iconvd_status status = convert_text(handle->cd, &progress);
    *in = (char *)(uintptr_t)progress.in;
    *in_left = progress.in_left;
    if (writes) {
        *out = progress.out;
        *out_left = progress.out_left;
    }
    if (status == ICONVD_LOST && !handle_shift_back(handle, out, out_left))
        return failed(ICONVD_E2BIG);
    if (status == ICONVD_LOST && handle_fall_back(handle, status)) {
        size_t more = go_on(handle, in, in_left, out, out_left);
        return more == (size_t)-1 ? more : more + progress.replaced;
    }
    if (progress.skipped > 0 && is_told(handle->cd, &progress, status))
        status = ICONVD_EILSEQ;
    errno = status == ICONVD_OK ? before : errno_of(status);
    return status == ICONVD_OK ? progress.replaced : (size_t)-1;
}

ICONVD_API size_t iconv(iconv_t cd, char **in, size_t *in_left, char **out, size_t *out_left) {
    if (cd == (iconv_t)-1) {
        errno = EBADF;
        return (size_t)-1;
    }
    if (is_foreign(cd))
        return settings()->libc.convert(cd, in, in_left, out, out_left);
    struct handle *handle = cd;
    if (!in || !*in)
        return reset(handle, out, out_left);
    if (handle->real != (iconv_t)-1)
        return go_on(handle, in, in_left, out, out_left);
    return convert(handle, in, in_left, out, out_left);
}
