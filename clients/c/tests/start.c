/* How the preload library starts a program by exec:, and what of it the host and the program see.
 *
 *   start TEST ..      each TEST is one of those in the table at the end, in a process of its own
 *
 * PRELOAD is the library, WITNESS_PROGRAM a program that says what it has been given. */
#include <fcntl.h>
#include <linux/filter.h>
#include <linux/seccomp.h>
#include <sched.h>
#include <signal.h>
#include <stddef.h>
#include <sys/mman.h>
#include <sys/mount.h>
#include <sys/prctl.h>
#include <sys/resource.h>
#include <sys/stat.h>
#include <sys/syscall.h>
#include <sys/wait.h>
#include <unistd.h>

#include "samples.h"

/* A folder of the test's own, and the file that the witness writes. */
static char folder[] = "/tmp/iconvd-start-XXXXXX", file[200], line[2000];

static void make_folder(void) {
    check(mkdtemp(folder) != NULL, "a folder");
    snprintf(file, sizeof file, "%s/witness", folder);
}

static void remove_folder(void) {
    unlink(file);
    rmdir(folder);
}

/* Has the library start a program. True: it has left a line, which is read. */
static bool starts(const char *command) {
    char where[600];
    line[0] = 0;
    snprintf(where, sizeof where, "exec:%s %s", command, file);
    setenv("ICONVD", where, 1);
    iconv_t cd = ours.open("KOI8-R", "UTF-8");
    if (cd != (iconv_t)-1)
        ours.close(cd);
    int from = open(file, O_RDONLY);
    ssize_t length = from >= 0 ? read(from, line, sizeof line - 1) : 0;
    line[length > 0 ? length : 0] = 0;
    close(from);
    return length > 0;
}

/* Descriptors that stay open when a program is executed. */
static void open_descriptors(void) {
    int one = open("/dev/null", O_RDONLY);
    check(one >= 0 && dup2(one, 300) == 300 && dup2(one, 1023) == 1023, "descriptors of the host");
}

static void check_descriptors(void) {
    make_folder();
    open_descriptors();
    check(starts(wanted("WITNESS_PROGRAM")), "the program is started");
    check(strstr(line, "descriptors 0 1 2\n") != NULL, "it has no descriptors of the host: %s", line);
    remove_folder();
}

static void test_descriptors(void) {
    check_descriptors();
}

/* As an old kernel does it, or a filter that does not know the call. */
static void refuse_close_range(void) {
    struct sock_filter rules[] = {
        BPF_STMT(BPF_LD | BPF_W | BPF_ABS, offsetof(struct seccomp_data, nr)),
        BPF_JUMP(BPF_JMP | BPF_JEQ | BPF_K, SYS_close_range, 0, 1),
        BPF_STMT(BPF_RET | BPF_K, SECCOMP_RET_ERRNO | EPERM),
        BPF_STMT(BPF_RET | BPF_K, SECCOMP_RET_ALLOW),
    };
    struct sock_fprog program = {.len = sizeof rules / sizeof *rules, .filter = rules};
    check(prctl(PR_SET_NO_NEW_PRIVS, 1, 0, 0, 0) == 0 && prctl(PR_SET_SECCOMP, SECCOMP_MODE_FILTER, &program, 0, 0) == 0, "a filter");
    check(syscall(SYS_close_range, 2000U, 2000U, 0U) == -1 && errno == EPERM, "close_range() is refused");
}

static void test_refused(void) {
    refuse_close_range();
    check_descriptors();
}

/* Runs the rest of a test in a process that nobody looks into at its end: LeakSanitizer needs /proc, and processes. */
static void in_child(void (*run)(void)) {
    pid_t child = fork();
    if (child == 0) {
        run();
        _exit(checks_failed > 0);
    }
    int status = 1;
    check(waitpid(child, &status, 0) == child && status == 0, "the child ends with %x", (unsigned)status);
}

static void without_proc(void) {
    if (unshare(CLONE_NEWNS) != 0 || mount(NULL, "/", NULL, MS_REC | MS_PRIVATE, NULL) != 0 ||
        mount("none", "/proc", "tmpfs", 0, NULL) != 0) {
        puts("start no_proc: skipped: this machine gives no mounts of its own");
        return;
    }
    refuse_close_range();
    check_descriptors();
}

static void test_no_proc(void) {
    in_child(without_proc);
}

static const char *const *path;

static void start_nothing(void) {
    setenv("PATH", *path, 1);
    check(!starts("iconvd-own"), "no program by the path \"%s\"", *path);
}

/* A program is in the working folder, and PATH names that folder by names that are not absolute, or not at all. */
static void test_path(void) {
    static const char *const PATHS[] = {"", ":", ".", "./", "..:.", "/nonexistent", "/nonexistent::/nonexistent", "bin", NULL};
    make_folder();
    check(chdir(folder) == 0 && symlink(wanted("WITNESS_PROGRAM"), "iconvd-own") == 0 && mkdir("bin", 0700) == 0 &&
              symlink(wanted("WITNESS_PROGRAM"), "bin/iconvd-own") == 0, "a program in the working folder");
    for (path = PATHS; *path; path++)
        in_child(start_nothing);
    setenv("PATH", folder, 1);
    check(starts("iconvd-own"), "a program by an absolute path");
    unlink("iconvd-own");
    unlink("bin/iconvd-own");
    rmdir("bin");
    remove_folder();
}

/* A host to which the orphans of others come has none of ours, and converts nevertheless. */
static void check_no_children(void) {
    setenv("ICONVD_FALLBACK", "usual", 1);
    check(all_right(), "converting");
    sleep_milliseconds(100);
    check(waitpid(-1, NULL, WNOHANG) == -1 && errno == ECHILD, "no child");
    check(waitpid(-1, NULL, WNOHANG | __WALL) == -1 && errno == ECHILD, "no child of any kind");
}

static void test_subreaper(void) {
    check(prctl(PR_SET_CHILD_SUBREAPER, 1, 0, 0, 0) == 0, "a subreaper");
    check_no_children();
}

static void as_first(void) {
    check(getpid() == 1, "the first process");
    check_no_children();
}

static void above_first(void) {
    if (unshare(CLONE_NEWPID) == 0)
        in_child(as_first);
    else
        puts("start first: skipped: this machine gives no process numbers of one's own");
}

static void test_first(void) {
    in_child(above_first);
}

static long faults(void) {
    struct rusage usage;
    getrusage(RUSAGE_SELF, &usage);
    return usage.ru_minflt;
}

/* The memory of the host is not copied for the start: a page that was shared with a copy costs a fault when it is written again. */
static void test_memory(void) {
    enum { PAGE_BYTES = 4096, PAGES = 16384 };
    char *memory = mmap(NULL, (size_t)PAGES * PAGE_BYTES, PROT_READ | PROT_WRITE, MAP_PRIVATE | MAP_ANONYMOUS, -1, 0);
    check(memory != MAP_FAILED && madvise(memory, (size_t)PAGES * PAGE_BYTES, MADV_NOHUGEPAGE) == 0, "memory");
    memset(memory, 1, (size_t)PAGES * PAGE_BYTES);
    check(all_right(), "converting");
    long before = faults();
    memset(memory, 2, (size_t)PAGES * PAGE_BYTES);
    long after = faults();
    check(after - before < PAGES / 10, "%ld faults in %d pages", after - before, (int)PAGES);
}

static const struct test TESTS[] = {
    {"descriptors", test_descriptors}, {"refused", test_refused},     {"no_proc", test_no_proc}, {"path", test_path},
    {"subreaper", test_subreaper},     {"first", test_first}, {"memory", test_memory},
};

int main(int count, char **words) {
    return run_tests("start", TESTS, sizeof TESTS / sizeof *TESTS, count, words);
}
