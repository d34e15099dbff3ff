/* ICU's converters: one call of ucnv_toUnicode or ucnv_fromUnicode if one side is UTF-16LE, ICU's own form of text on this
   machine, and else ucnv_convertEx with a pivot. */
#include "peer.h"
#include <stdlib.h>
#include <string.h>
#include <unicode/ucnv.h>
#include <unicode/uversion.h>

enum { PIVOT = 4096 };

/* A side without a converter is UTF-16LE. */
struct icu {
    UConverter *from, *to;
    UChar *source, *target, pivot[PIVOT];
};

const char *peer_version(void)
{
    return "ICU " U_ICU_VERSION;
}

static int is_own(const char *name)
{
    return strcmp(name, "UTF-16LE") == 0;
}

static UConverter *converter(const char *name)
{
    UErrorCode error = U_ZERO_ERROR;
    UConverter *opened = ucnv_open(name, &error);
    return U_FAILURE(error) ? NULL : opened;
}

void peer_close(void *peer)
{
    struct icu *icu = peer;
    if (icu->from)
        ucnv_close(icu->from);
    if (icu->to)
        ucnv_close(icu->to);
    free(icu);
}

void *peer_open(const char *to, const char *from)
{
    struct icu *icu = calloc(1, sizeof *icu);
    int reads = !is_own(from) || is_own(to), writes = !is_own(to);
    icu->source = icu->target = icu->pivot;
    icu->from = reads ? converter(from) : NULL;
    icu->to = writes ? converter(to) : NULL;
    if ((reads && !icu->from) || (writes && !icu->to)) {
        peer_close(icu);
        return NULL;
    }
    return icu;
}

size_t peer_convert(void *peer, const char *text, size_t length, char *out, size_t room, size_t *written)
{
    struct icu *icu = peer;
    UErrorCode error = U_ZERO_ERROR;
    const char *from = text;
    char *to = out;
    if (!icu->to) {
        UChar *units = (UChar *)out;
        ucnv_toUnicode(icu->from, &units, units + room / sizeof *units, &from, text + length, NULL, 0, &error);
        to = (char *)units;
    } else if (!icu->from) {
        const UChar *units = (const UChar *)text;
        ucnv_fromUnicode(icu->to, &to, out + room, &units, units + length / sizeof *units, NULL, 0, &error);
        from = (const char *)units;
    } else {
        ucnv_convertEx(icu->to, icu->from, &to, out + room, &from, text + length, icu->pivot, &icu->source, &icu->target,
                       icu->pivot + PIVOT, 0, 0, &error);
    }
    *written += (size_t)(to - out);
    return (size_t)(from - text);
}
