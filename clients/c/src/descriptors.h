/* The descriptors of a program that is started. */
#ifndef ICONVD_DESCRIPTORS_H
#define ICONVD_DESCRIPTORS_H

#include <stdbool.h>

/* In a process that is to become a program, before execve(): the socket is its standard input and output, its standard error is
   /dev/null, and it has no other descriptor. False: errno says why it has not. */
bool descriptors_give(int socket);

#endif
