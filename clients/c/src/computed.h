/* Conversions of GB18030 with characters that no charmap has room for.
 *
 * The service converts the other characters of a piece by one request, and what it wrote and what is computed are put together here: in the
 * target, if that is a form of Unicode, and else in UTF-8. So a piece costs one more round trip at most, or two to GB18030, however its
 * characters alternate. */
#ifndef ICONVD_COMPUTED_H
#define ICONVD_COMPUTED_H

#include "convert.h"
#include "planes.h"

/* A piece on its way. */
struct computing {
    struct iconvd_pool *pool;
    struct encoding *from;
    const struct repairs *repairs; /* of GB18030 */
    struct fronts fronts;          /* of the source */
    struct buffer kept;            /* the characters that the service converts, in the source's encoding or in UTF-8 */
    struct buffer output;          /* what it wrote for them */
    struct buffer text;            /* all characters in a form of Unicode */
};

/* computed.c */

/* The length of the first `characters` of a source. */
size_t computing_measure(const struct fronts *fronts, const char *in, size_t length, size_t characters);

/* Converts what is kept to `output`: all of a text that has no fault. `room` is enough. */
iconvd_status computing_convert_kept(struct computing *computing, struct pair pair, size_t room, struct work *work);

/* Converts a source of which nothing is computed, unless the end of a code that would be is cut off. */
iconvd_status computing_convert_mapped(struct iconvd_pool *pool, const struct pair *pair, struct work *work);

/* computed_read.c and computed_write.c: the ways from GB18030 and to it. All that is in `computing` is freed by the caller. */
typedef iconvd_status computed_way(struct computing *computing, const struct pair *pair, struct work *work);
computed_way computed_read, computed_write;

#endif
