/* Says whether a pool has an encoding of a name. */
#include <stdio.h>
#include <unistd.h>

#include "pool.h"

/* Whether the file of a charmap that has not been read yet can be. */
static bool is_readable(const struct iconvd_pool *pool, size_t number) {
    char path[600];
    int length = snprintf(path, sizeof path, "%s/%s.gz", pool->encodings.directory, charmap_file(number));
    return length > 0 && (size_t)length < sizeof path && access(path, R_OK) == 0;
}

int iconvd_supports(iconvd_pool *pool, const char *name) {
    struct parsed_name parsed;
    fork_check(pool);
    if (!name_parse(&parsed, name))
        return 0;
    struct encoding *known = encodings_known(&pool->encodings, parsed.name);
    if (known)
        return !atomic_load(&known->refused);
    int number = name_find(parsed.name);
    return number >= BUILTIN_COUNT && is_readable(pool, (size_t)number - BUILTIN_COUNT);
}
