/* The conversion of files by iconvd-convert. */
#ifndef CONVERT_TEXT_H
#define CONVERT_TEXT_H

#include <sys/types.h>

#include "../iconvd.h"

/* A conversion under way. */
struct job {
    iconvd_cd *cd;
    int out;              /* descriptor */
    int ends_by_signal;   /* when nobody reads the output any more */
    char *in_bytes;
    char *out_bytes;
    size_t kept;          /* bytes of a character that the end of the last piece cut */
    const char *name;     /* of the file that is read */
    unsigned long long read, written, replaced, skipped;
    unsigned long long position; /* in the file, of in_bytes */
    off_t size;           /* of the file, if it is shown; else 0 */
};

/* Makes room for pieces of text. ENOMEM; what there is belongs to the job, which job_end() frees. */
iconvd_status job_begin(struct job *job);
void job_end(struct job *job);

/* Converts the files one after another, and closes the text. Returns the exit status. */
int job_convert(struct job *job, char **files);

#endif
