/* refuse.so, a library to preload: it makes one allocation fail, number FAIL_NTH, counted from 1. sweep.py runs programs with 1, 2 and
   so on, until a run has fewer allocations. Allocations of fewer bytes than FAIL_FROM, if that is set, are not counted.

   The count is a long in the file that COUNT_TO names, so that it can be read however the program ends. It begins just before the
   program's own start, without the loader's allocations. Those of threads are counted as they come. glibc has a second name for each
   of these functions, so none has to be looked up, which would itself allocate. */
#include <errno.h>
#include <fcntl.h>
#include <stdatomic.h>
#include <stdlib.h>
#include <sys/mman.h>
#include <unistd.h>

void *__libc_malloc(size_t size);
void *__libc_calloc(size_t count, size_t size);
void *__libc_realloc(void *block, size_t size);
void *__libc_memalign(size_t alignment, size_t size);

static atomic_long alone, *asked = &alone;
static long refused, least;

static int is_refused(size_t size)
{
    if ((long)size < least)
        return 0;
    if (atomic_fetch_add(asked, 1) + 1 != refused)
        return 0;
    errno = ENOMEM;
    return 1;
}

__attribute__((constructor)) static void begin(void)
{
    const char *nth = getenv("FAIL_NTH"), *from = getenv("FAIL_FROM"), *file = getenv("COUNT_TO");
    int descriptor = file ? open(file, O_RDWR | O_CREAT | O_CLOEXEC, 0644) : -1;
    if (descriptor >= 0 && ftruncate(descriptor, sizeof *asked) == 0) {
        void *shared = mmap(NULL, sizeof *asked, PROT_READ | PROT_WRITE, MAP_SHARED, descriptor, 0);
        if (shared != MAP_FAILED)
            asked = shared;
    }
    if (descriptor >= 0)
        close(descriptor);
    refused = nth ? strtol(nth, NULL, 10) : 0;
    least = from ? strtol(from, NULL, 10) : 0;
    atomic_store(asked, 0);
}

void *malloc(size_t size)
{
    return is_refused(size) ? NULL : __libc_malloc(size);
}

void *calloc(size_t count, size_t size)
{
    return is_refused(count * size) ? NULL : __libc_calloc(count, size);
}

/* A size of 0 frees the block, and is not counted. */
void *realloc(void *block, size_t size)
{
    return size > 0 && is_refused(size) ? NULL : __libc_realloc(block, size);
}

void *aligned_alloc(size_t alignment, size_t size)
{
    return is_refused(size) ? NULL : __libc_memalign(alignment, size);
}

int posix_memalign(void **block, size_t alignment, size_t size)
{
    if (alignment == 0 || alignment % sizeof(void *) != 0 || (alignment & (alignment - 1)) != 0)
        return EINVAL;
    void *found = is_refused(size) ? NULL : __libc_memalign(alignment, size);
    if (!found)
        return ENOMEM;
    *block = found;
    return 0;
}
