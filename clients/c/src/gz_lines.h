/* Lines of a file that gzip packed. */
#ifndef ICONVD_GZ_LINES_H
#define ICONVD_GZ_LINES_H

#include <stdbool.h>
#include <stddef.h>
#include <zlib.h>

enum { GZ_LINE = 512, GZ_BLOCK = 65536 };

/* A block of the file is unpacked where its lines are read, since a large charmap has 90,000 of them. */
struct gz_lines {
    gzFile file;
    char *block; /* GZ_LINE bytes that the last block has left, GZ_BLOCK bytes, and a zero byte */
    size_t begin, end;
};

/* UNSUPPORTED and ENOMEM are told apart by `there`: whether the file is there. */
bool gz_lines_begin(struct gz_lines *lines, const char *path, bool *there);
void gz_lines_end(struct gz_lines *lines);

/* The next line, which a line feed or a zero byte ends. It may be written to, and is there until the next one is asked for. Of a longer
   line the first GZ_LINE - 1 bytes are there. NULL: there is none, or the rest of the file cannot be read. */
char *gz_lines_next(struct gz_lines *lines);

#endif
