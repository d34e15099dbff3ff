/* Lines of a file that gzip packed. */
#include "gz_lines.h"

#include <stdlib.h>
#include <string.h>

bool gz_lines_begin(struct gz_lines *lines, const char *path, bool *there) {
    *lines = (struct gz_lines){.file = gzopen(path, "rbe")};
    *there = lines->file != NULL;
    if (!*there)
        return false;
    /* With a buffer of half of what is asked for at once, zlib unpacks to where it is wanted. */
    gzbuffer(lines->file, GZ_BLOCK / 2);
    lines->block = malloc(GZ_LINE + GZ_BLOCK + 1);
    if (!lines->block)
        gz_lines_end(lines);
    return lines->block != NULL;
}

void gz_lines_end(struct gz_lines *lines) {
    free(lines->block);
    gzclose(lines->file);
}

/* Unpacks a block after what is left of the last one. That is a part of one line, of which more than GZ_LINE bytes are not wanted.
   False: there is no more. */
static bool unpack(struct gz_lines *lines) {
    size_t left = lines->end - lines->begin;
    left = left < GZ_LINE ? left : GZ_LINE;
    memmove(lines->block, lines->block + lines->begin, left);
    int got = gzread(lines->file, lines->block + left, GZ_BLOCK);
    lines->begin = 0;
    lines->end = left + (got > 0 ? (size_t)got : 0);
    return got > 0;
}

char *gz_lines_next(struct gz_lines *lines) {
    char *feed;
    do
        feed = memchr(lines->block + lines->begin, '\n', lines->end - lines->begin);
    while (!feed && unpack(lines));
    char *line = lines->block + lines->begin;
    char *end = feed ? feed : lines->block + lines->end;
    if (!feed && line == end)
        return NULL;
    lines->begin = (size_t)(end - lines->block) + (feed != NULL);
    if (end - line >= GZ_LINE)
        line[GZ_LINE - 1] = 0;
    else if (!feed)
        *end = 0;
    return line;
}
