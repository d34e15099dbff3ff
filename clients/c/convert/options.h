/* The command line of iconvd-convert. */
#ifndef CONVERT_OPTIONS_H
#define CONVERT_OPTIONS_H

struct settings {
    const char *from;
    const char *to;
    const char *output;   /* "-" is standard output */
    const char *service;  /* NULL: what the environment says */
    int policy;
    int stats;
    char **files;         /* ended by NULL; one "-" where none is named */
};

/* Reads the command line. Below 0: go on; else the exit status. */
int read_options(struct settings *settings, int count, char **words);

#endif
