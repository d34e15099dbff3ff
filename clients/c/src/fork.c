/* Pools and fork().
 *
 * A child must not use the streams of its parent: both would read the same replies. pthread_atfork() handlers, or a host that calls
 * the functions below, close the gate before fork(), so that the child finds everything whole, but for mutexes that are locked by
 * threads that it has not: these are made anew. A child that was made by a raw clone() has run no handlers, and may find something
 * half written. So there is also a page that the kernel zeroes in every child (MADV_WIPEONFORK), which is looked at before anything is
 * locked. */
#include "pool.h"

#include <sched.h>
#include <sys/mman.h>

enum { WIPED = 0, REVIVING = 1, ALIVE = 2 };

#define PAGE 4096u

bool fork_begin(struct iconvd_pool *pool) {
    void *page = mmap(NULL, PAGE, PROT_READ | PROT_WRITE, MAP_PRIVATE | MAP_ANONYMOUS, -1, 0);
    if (page == MAP_FAILED)
        return false;
    if (madvise(page, PAGE, MADV_WIPEONFORK) != 0) {
        munmap(page, PAGE);
        return true;
    }
    pool->page = page;
    pool->alive = page;
    atomic_store(pool->alive, ALIVE);
    return true;
}

void fork_end(struct iconvd_pool *pool) {
    if (pool->page)
        munmap(pool->page, PAGE);
}

/* Mutexes and the gate as at the start. */
static void renew_locks(struct iconvd_pool *pool) {
    turns_renew(pool);
    redial_renew(&pool->redial);
    pthread_mutex_init(&pool->known_mutex, NULL);
    encodings_renew(&pool->encodings);
    gate_renew(&pool->gate);
}

/* Puts everything back to its start. What the slots held is not freed: it may have been half written when the child was made. */
static void revive(struct iconvd_pool *pool) {
    for (size_t i = 0; i < pool->slot_count; i++) {
        struct slot *slot = &pool->slots[i];
        stream_close(&slot->stream);
        slot->state = UNCONNECTED;
        slot->remote = (struct remote){.callers = NULL};
        slot->generation++;
    }
    atomic_store(&pool->live, 0);
    renew_locks(pool);
}

void fork_check(struct iconvd_pool *pool) {
    if (!pool->alive)
        return;
    while (atomic_load_explicit(pool->alive, memory_order_acquire) != ALIVE) {
        int wiped = WIPED;
        if (atomic_compare_exchange_strong(pool->alive, &wiped, REVIVING)) {
            revive(pool);
            atomic_store_explicit(pool->alive, ALIVE, memory_order_release);
        } else {
            sched_yield();
        }
    }
}

void iconvd_before_fork(iconvd_pool *pool) {
    fork_check(pool);
    gate_close(&pool->gate);
    pthread_mutex_lock(&pool->encodings.mutex);
    pthread_mutex_lock(&pool->known_mutex);
}

void iconvd_after_fork_in_parent(iconvd_pool *pool) {
    pthread_mutex_unlock(&pool->known_mutex);
    pthread_mutex_unlock(&pool->encodings.mutex);
    gate_open(&pool->gate);
}

void iconvd_after_fork_in_child(iconvd_pool *pool) {
    renew_locks(pool);
    for (size_t i = 0; i < pool->slot_count; i++)
        slot_reset(pool, &pool->slots[i]);
    atomic_store(&pool->live, 0);
    if (pool->alive)
        atomic_store(pool->alive, ALIVE);
}
