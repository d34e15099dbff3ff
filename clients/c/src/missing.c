/* Finds the encoding of a name, and says in the log which charmap is missing for it. */
#include "pool.h"

#include <stdio.h>
#include <unistd.h>

/* Why the charmap of a file could not be read. */
static void note_missing(const struct iconvd_pool *pool, const char *file) {
    static const char HELP[] = "Debian's package locales has the system's charmaps";
    const char *folder = pool->encodings.directory;
    char path[600];
    snprintf(path, sizeof path, "%s/%s.gz", folder, file);
    if (access(folder, F_OK) != 0)
        pool_log(pool, "charmap %s: no charmap folder %s was found; %s", file, folder, HELP);
    else if (access(path, R_OK) != 0)
        pool_log(pool, "charmap %s: no file %s can be read; %s", file, path, HELP);
    else
        pool_log(pool, "charmap %s: the file %s has no mapping", file, path);
}

iconvd_status pool_find(struct iconvd_pool *pool, const char *name, struct encoding **found) {
    iconvd_status status = encodings_find(&pool->encodings, name, found);
    /* One that the service has refused was found, and was told of when it was refused. */
    int number = status == ICONVD_UNSUPPORTED && !*found ? name_find(name) : -1;
    if (number >= BUILTIN_COUNT && number < BUILTIN_COUNT + (int)charmap_count())
        note_missing(pool, charmap_file((size_t)number - BUILTIN_COUNT));
    return status;
}
