#define _GNU_SOURCE
#include "world.h"

#include <errno.h>
#include <fcntl.h>
#include <pthread.h>
#include <signal.h>
#include <stdatomic.h>
#include <stdlib.h>
#include <sys/eventfd.h>
#include <sys/stat.h>
#include <time.h>
#include <unistd.h>

#include "files.h"
#include "interpose.h"
#include "log.h"
#include "own.h"
#include "processes.h"
#include "record.h"
#include "signals.h"
#include "thing.h"

#define EXPORTED __attribute__((visibility("default")))

static pthread_mutex_t mutex = PTHREAD_MUTEX_INITIALIZER;
static struct kqueue *kqueues;
/* whether there is a system, and of which process; by any thread, without the lock */
static atomic_bool is_begun;
static atomic_int owner;
static bool is_child;
/* of the clock: the time of day less the monotonic one, and what the system was told */
static int64_t base, told;
static unsigned long drops;

/* ---- the lock */

/* Of this thread: it has the lock, or is about to; and the numbers that a signal's handler closed meanwhile. */
enum { MOST_LATE = 16 };
static _Thread_local volatile sig_atomic_t is_inside;
static _Thread_local atomic_int late_count;
static _Thread_local volatile int late[MOST_LATE];

/* By a handler, which another may interrupt. */
static void drop_later(int fd) {
    int place = atomic_fetch_add(&late_count, 1);
    if (place < MOST_LATE)
        late[place] = fd;
    else
        late_count--; /* (the next change of this number finds it) */
}

static void drop_late(void) {
    int count = late_count;
    while (count > 0) {
        int fd = late[count - 1];
        if (!atomic_compare_exchange_strong(&late_count, &count, count - 1))
            continue; /* (a handler came) */
        world_drop(fd);
        count = late_count;
    }
}

void lock(void) {
    is_inside = is_inside + 1;
    if (is_inside > 1)
        return; /* (a signal's handler, while its thread has it) */
    pthread_mutex_lock(&mutex);
    drop_late();
}

void unlock(void) {
    if (is_inside == 1) {
        drop_late();
        pthread_mutex_unlock(&mutex);
    }
    is_inside = is_inside - 1;
}

bool is_inside_call(void) { return is_inside > 0; }

bool world_is_here(void) { return is_begun && owner == getpid(); }

/* ---- the clock */

static int64_t nanoseconds(clockid_t clock) {
    struct timespec at;
    clock_gettime(clock, &at);
    return (int64_t)at.tv_sec * 1000000000 + at.tv_nsec;
}

int64_t world_now(void) { return base + nanoseconds(CLOCK_MONOTONIC); }

void world_tell_clock(void) {
    int64_t now = world_now();
    if (now > told && record_clock(now) == KQSIM_OK)
        told = now;
}

/* ---- kqueues */

struct kqueue *kqueue_at(int fd) {
    struct kqueue *kqueue = kqueues;
    while (kqueue != NULL && kqueue->fd != fd)
        kqueue = kqueue->next;
    return kqueue;
}

static void ring(int eventfd) {
    const uint64_t one = 1;
    if (write(eventfd, &one, sizeof one) != sizeof one)
        return; /* (it rings already) */
}

void kqueue_wake(struct kqueue *kqueue) {
    if (kqueue->waiting > 0)
        ring(kqueue->wake);
}

void kqueue_wake_others(const struct kqueue *but) {
    for (struct kqueue *kqueue = kqueues; kqueue != NULL; kqueue = kqueue->next)
        if (kqueue != but)
            kqueue_wake(kqueue);
}

static void set_pending(struct kqueue *kqueue, bool is_pending) {
    uint64_t count;
    if (is_pending == kqueue->is_pending)
        return;
    kqueue->is_pending = is_pending;
    if (is_pending)
        ring(kqueue->pending);
    else if (read(kqueue->pending, &count, sizeof count) < 0)
        return; /* (it was not readable) */
}

void kqueue_say_pending(struct kqueue *kqueue) {
    if (kqueue->pending >= 0)
        set_pending(kqueue, kqueue->watches.hot_count > 0 || record_is_pending((uint32_t)kqueue->fd));
}

void kqueue_say_none(struct kqueue *kqueue) {
    if (kqueue->pending >= 0)
        set_pending(kqueue, false);
}

void kqueue_free(struct kqueue *kqueue) {
    own_close(kqueue->wake);
    free(kqueue);
}

static void kqueue_end(struct kqueue *kqueue) {
    struct kqueue **at = &kqueues;
    while (*at != kqueue)
        at = &(*at)->next;
    *at = kqueue->next;
    record_close((uint32_t)kqueue->fd);
    for (int number = 1; number < 64; number++)
        if (kqueue->signals >> number & 1)
            signal_unwatch(number);
    watches_end(&kqueue->watches);
    own_close(kqueue->pending);
    kqueue->is_closed = true;
    if (kqueue->waiting > 0)
        ring(kqueue->wake);
    else
        kqueue_free(kqueue);
}

/* What stands in the epoll of each kqueue: 0, or an errno. */
static int fill(struct kqueue *kqueue) {
    kqueue->wake = own_keep(eventfd(0, EFD_CLOEXEC | EFD_NONBLOCK));
    int error = kqueue->wake < 0 ? errno : watches_begin(&kqueue->watches, kqueue->fd);
    if (error == 0)
        error = watch_source(kqueue->fd, kqueue->wake, FROM_WAKE, 0, EPOLLIN | EPOLLET);
    if (error != 0 || getenv("KQSIM_POLLABLE") == NULL)
        return error;
    kqueue->pending = own_keep(eventfd(0, EFD_CLOEXEC | EFD_NONBLOCK));
    return kqueue->pending < 0 ? errno : watch_source(kqueue->fd, kqueue->pending, FROM_PENDING, 0, EPOLLIN);
}

/* ---- the process */

static int begin(void) {
    if (is_begun)
        return 0;
    int error = record_begin((uint32_t)getpid(), is_child);
    if (error != 0)
        return error;
    base = nanoseconds(CLOCK_REALTIME) - nanoseconds(CLOCK_MONOTONIC);
    told = 0;
    owner = getpid();
    is_begun = true;
    return 0;
}

static int add(struct kqueue *kqueue) {
    int error = begin();
    if (error == 0)
        error = fill(kqueue);
    if (error != 0)
        return error;
    world_drop(kqueue->fd); /* (what had this number before) */
    if (record_kqueue((uint32_t)kqueue->fd) != KQSIM_OK)
        return ENOMEM;
    kqueue->next = kqueues;
    kqueues = kqueue;
    return 0;
}

static int make(void) {
    if (is_inside > 0) {
        errno = EDEADLK;
        return -1;
    }
    struct kqueue *kqueue = calloc(1, sizeof *kqueue);
    if (kqueue == NULL)
        return -1;
    kqueue->wake = kqueue->pending = kqueue->watches.out = -1;
    kqueue->fd = epoll_create1(EPOLL_CLOEXEC);
    int error = kqueue->fd < 0 ? errno : 0;
    if (error == 0) {
        lock();
        error = add(kqueue);
        if (error != 0) {
            own_close(kqueue->pending);
            own_close(kqueue->watches.out);
            own_close(kqueue->wake);
            real_close(kqueue->fd);
        }
        unlock();
    }
    if (error == 0)
        return kqueue->fd;
    free(kqueue);
    errno = error;
    return -1;
}

EXPORTED int kqueue(void) { return make(); }

EXPORTED int kqueue1(int flags) {
    if (flags & ~O_CLOEXEC) {
        errno = EINVAL;
        return -1;
    }
    return make();
}

/* ---- numbers that are closed */


unsigned long world_drops(void) { return drops; }

void world_drop(int fd) {
    struct kqueue *kqueue = kqueue_at(fd);
    drops++;
    if (kqueue != NULL) {
        kqueue_end(kqueue);
        return;
    }
    if (fd < 0 || thing_at((uintptr_t)fd) == NULL)
        return;
    for (kqueue = kqueues; kqueue != NULL; kqueue = kqueue->next)
        watch_end(&kqueue->watches, fd);
    thing_forget(fd);
}

bool world_closing(int fd) {
    int kept = errno;
    if (!world_is_here() || fd < 0)
        return true;
    if (is_inside > 0) {
        drop_later(fd);
        return true;
    }
    lock();
    bool is_programs = !is_own(fd);
    if (is_programs)
        world_drop(fd);
    unlock();
    errno = kept;
    return is_programs;
}

unsigned world_numbers(void) {
    if (!world_is_here() || is_inside > 0)
        return 0;
    lock();
    size_t numbers = things_room() > own_room() ? things_room() : own_room();
    for (const struct kqueue *kqueue = kqueues; kqueue != NULL; kqueue = kqueue->next)
        if ((size_t)kqueue->fd >= numbers)
            numbers = (size_t)kqueue->fd + 1;
    unlock();
    return (unsigned)numbers;
}

void world_shut(int fd) {
    if (!world_is_here() || is_inside > 0)
        return;
    lock();
    sample_shut_writing(fd);
    unlock();
}

/* ---- fork and exit */

static void before_fork(void) { lock(); }
static void in_parent(void) { unlock(); }

static void forget_kqueues(void) {
    while (kqueues != NULL) {
        struct kqueue *kqueue = kqueues;
        kqueues = kqueue->next;
        real_close(kqueue->fd);
        kqueue->watches.out = -1; /* (own_close_all has closed it) */
        watches_end(&kqueue->watches);
            free(kqueue);
    }
}

/* A child of fork has no kqueue, and begins anew with its first. */
static void in_child(void) {
    own_close_all();
    forget_kqueues();
    things_forget_all();
    signals_forget_all();
    files_forget_all();
    processes_forget_all();
    if (is_begun)
        record_forget();
    is_begun = false;
    is_child = true;
    is_inside = 0;
    pthread_mutex_init(&mutex, NULL);
}

void world_end(void) {
    if (!world_is_here())
        return;
    lock();
    log_end();
    unlock();
}

__attribute__((constructor)) static void loaded(void) {
    if (pthread_atfork(before_fork, in_parent, in_child) != 0)
        abort();
}

__attribute__((destructor)) static void unloaded(void) { world_end(); }
