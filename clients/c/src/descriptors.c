/* Gives a program its descriptors. It runs in the host's memory, and so by syscall() alone (spawn.c). */
#define _GNU_SOURCE
#include "descriptors.h"

#include <errno.h>
#include <fcntl.h>
#include <stddef.h>
#include <stdint.h>
#include <sys/resource.h>
#include <sys/syscall.h>
#include <unistd.h>

#define NOT_SANITIZED __attribute__((no_sanitize("address", "undefined")))

enum { FIRST_FOREIGN = 3, MOST_NUMBERS = 1 << 20 };

/* What getdents64() writes. */
struct entry {
    uint64_t inode;
    int64_t offset;
    unsigned short length;
    unsigned char type;
    char name[];
};

/* Closes those that one read of the folder lists, but for the folder's own. */
NOT_SANITIZED static void close_listed(const char *bytes, long length, long folder) {
    for (long at = 0; at < length;) {
        const struct entry *entry = (const struct entry *)(const void *)(bytes + at);
        long number = 0;
        for (const char *digit = entry->name; *digit >= '0' && *digit <= '9'; digit++)
            number = 10 * number + (*digit - '0');
        if (number >= FIRST_FOREIGN && number != folder)
            syscall(SYS_close, number);
        at += entry->length;
    }
}

/* False: there is no such folder. */
NOT_SANITIZED static bool close_by_folder(void) {
    _Alignas(struct entry) char bytes[4096];
    long folder = syscall(SYS_openat, AT_FDCWD, "/proc/self/fd", O_RDONLY | O_DIRECTORY, 0);
    long length = 1;
    while (folder >= 0 && length > 0) {
        length = syscall(SYS_getdents64, folder, bytes, sizeof bytes);
        close_listed(bytes, length, folder);
    }
    if (folder >= 0)
        syscall(SYS_close, folder);
    return folder >= 0 && length == 0;
}

/* Closes all numbers that there may be. The limit may have been lowered since a descriptor was made, so it is the highest one. */
NOT_SANITIZED static void close_by_number(void) {
    struct rlimit limit = {.rlim_max = MOST_NUMBERS};
    syscall(SYS_prlimit64, 0, RLIMIT_NOFILE, NULL, &limit);
    long end = limit.rlim_max < MOST_NUMBERS ? (long)limit.rlim_max : MOST_NUMBERS;
    for (long number = FIRST_FOREIGN; number < end; number++)
        syscall(SYS_close, number);
}

/* Old kernels have no close_range(), and a filter of system calls may refuse it. */
NOT_SANITIZED static void close_foreign(void) {
    if (syscall(SYS_close_range, FIRST_FOREIGN, ~0U, 0U) != 0 && !close_by_folder())
        close_by_number();
}

NOT_SANITIZED bool descriptors_give(int socket) {
    /* The socket may be one of 0, 1 and 2 in a host that closed them. */
    long from = socket >= FIRST_FOREIGN ? socket : syscall(SYS_fcntl, socket, F_DUPFD, FIRST_FOREIGN);
    if (from < 0 || syscall(SYS_dup3, from, 0, 0) < 0 || syscall(SYS_dup3, from, 1, 0) < 0)
        return false;
    close_foreign();
    /* The lowest free number is 2 now. Without a /dev/null there is no standard error. */
    syscall(SYS_close, 2);
    syscall(SYS_openat, AT_FDCWD, "/dev/null", O_WRONLY, 0);
    return true;
}
