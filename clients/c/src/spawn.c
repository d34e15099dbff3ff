/* Starts the program of an exec: address, without the host noticing.
 *
 * The program is a grandchild: init reaps it, so that the host's wait() never sees it. The child between has exit signal 0, so
 * that the host gets no SIGCHLD; only wait4() with __WALL reaps such a child. Where the host itself is what init is to others, no
 * program is started.
 *
 * Both run in the host's memory until the program is there, as after vfork(): the page tables of a large host take long to copy. So
 * each has a stack of its own, the thread that starts them waits, and all signals are blocked. Between clone() and execve() there are
 * only system calls, and those by syscall(): a sanitizer keeps tables of handlers and descriptors, which are the host's here. */
#define _GNU_SOURCE
#include <errno.h>
#include <fcntl.h>
#include <sched.h>
#include <signal.h>
#include <sys/auxv.h>
#include <sys/mman.h>
#include <sys/prctl.h>
#include <sys/socket.h>
#include <sys/syscall.h>
#include <sys/wait.h>
#include <unistd.h>

#include "address.h"
#include "descriptors.h"

#define NOT_SANITIZED __attribute__((no_sanitize("address", "undefined")))

enum { STACK = 65536, SIGNALS = 64 };

struct start {
    const struct address *address;
    int socket;
    char *stacks; /* two of them */
    int error;    /* why the program did not start; 0: it did */
};

/* Signals that the host ignores or handles must not be so in the program, nor blocked. What is zero is SIG_DFL, and blocks none. */
NOT_SANITIZED static void restore_signals(void) {
    const long zero[8] = {0};
    for (int number = 1; number <= SIGNALS; number++)
        syscall(SYS_rt_sigaction, number, zero, NULL, SIGNALS / 8);
    syscall(SYS_rt_sigprocmask, SIG_SETMASK, zero, NULL, SIGNALS / 8);
}

NOT_SANITIZED static int become_program(void *argument) {
    struct start *start = argument;
    const struct address *address = start->address;
    restore_signals();
    syscall(SYS_setsid);
    if (descriptors_give(start->socket))
        syscall(SYS_execve, address->program, address->argv, address->environment);
    start->error = errno;
    return 127;
}

NOT_SANITIZED static int start_program(void *argument) {
    struct start *start = argument;
    if (clone(become_program, start->stacks + STACK, CLONE_VM | CLONE_VFORK | SIGCHLD, start) < 0)
        start->error = errno;
    return 0;
}

/* False: errno says why. */
static bool start_and_wait(struct start *start) {
    pid_t child = clone(start_program, start->stacks + 2 * STACK, CLONE_VM | CLONE_VFORK, start);
    if (child < 0)
        return false;
    while (syscall(SYS_wait4, child, NULL, __WALL, NULL) < 0 && errno == EINTR)
        ;
    errno = start->error;
    return start->error == 0;
}

static bool start_blocked(const struct address *address, int socket) {
    struct start start = {.address = address, .socket = socket};
    start.stacks = mmap(NULL, 2 * STACK, PROT_READ | PROT_WRITE, MAP_PRIVATE | MAP_ANONYMOUS | MAP_STACK, -1, 0);
    if (start.stacks == MAP_FAILED)
        return false;
    /* Also the two signals of the C library's own, which pthread_sigmask() leaves alone. */
    const uint64_t all = UINT64_MAX;
    uint64_t before;
    syscall(SYS_rt_sigprocmask, SIG_SETMASK, &all, &before, SIGNALS / 8);
    bool started = start_and_wait(&start);
    int saved = errno;
    syscall(SYS_rt_sigprocmask, SIG_SETMASK, &before, NULL, SIGNALS / 8);
    munmap(start.stacks, 2 * STACK);
    errno = saved;
    return started;
}

const char *spawn_refused(void) {
    int reaper = getpid() == 1;
    if (getauxval(AT_SECURE))
        return "a program with other rights than its caller's starts no service";
    if (!reaper)
        prctl(PR_GET_CHILD_SUBREAPER, &reaper, 0L, 0L, 0L);
    return reaper ? "process 1 and subreapers start no service, since they would become its parent" : NULL;
}

int spawn_connected(const struct address *address) {
    int pair[2];
    if (spawn_refused()) {
        errno = EPERM;
        return -1;
    }
    if (socketpair(AF_UNIX, SOCK_STREAM | SOCK_CLOEXEC, 0, pair) != 0)
        return -1;
    bool started = start_blocked(address, pair[1]);
    int saved = errno;
    close(pair[1]);
    if (!started)
        close(pair[0]);
    errno = saved;
    return started ? pair[0] : -1;
}
