/* kevent(2). A call
 *   1. samples the descriptors that may have changed, and tells the system the difference, as records;
 *   2. makes the record `kevent`, whose answer is the call's;
 *   3. waits, where the answer is empty and there is time left, in epoll_pwait2(2) on the kqueue's own descriptor.
 */
#define _GNU_SOURCE
#include <errno.h>
#include <limits.h>
#include <stdlib.h>
#include <sys/stat.h>

#include "files.h"
#include "log.h"
#include "processes.h"
#include "record.h"
#include "signals.h"
#include "thing.h"
#include "world.h"

enum { FEW = 16, TAKEN = 256 };

#define KNOWN_FLAGS \
    (EV_ADD | EV_DELETE | EV_ENABLE | EV_DISABLE | EV_ONESHOT | EV_CLEAR | EV_RECEIPT | EV_DISPATCH | EV_EOF | EV_ERROR)

struct call {
    struct kqueue *kqueue;
    struct kevent *changes, *copy; /* those that are still to be made, and all */
    size_t count;
    struct kevent *events;
    size_t room, given;
    int64_t end; /* of world_now; 0: it does not wait, INT64_MAX: it waits for ever */
    struct kevent few[FEW];
};

/* ---- before a change is made: the system is told what it is about */

static bool is_kqueue(int fd) {
    struct stat status;
    /* (an epoll is of no type; of another the kqueue was closed, and nobody said so) */
    return kqueue_at(fd) != NULL && fstat(fd, &status) == 0 && (status.st_mode & S_IFMT) == 0;
}

/* The descriptor is in the epoll before it is sampled, so that what comes later is an edge. */
static int watch_thing(struct kqueue *kqueue, struct thing *thing, unsigned char bit) {
    int error = watch_expect(&kqueue->watches, thing->fd, bit);
    if (error != 0)
        return error;
    if (thing->kind != REGULAR)
        return watch_begin(&kqueue->watches, thing->fd, bit);
    error = file_watch(thing);
    if (error == 0 && !kqueue->has_files)
        error = watch_source(kqueue->fd, files_descriptor(), FROM_FILES, 0, EPOLLIN | EPOLLET);
    kqueue->has_files |= error == 0;
    return error;
}

static int expect_descriptor(struct kqueue *kqueue, const struct kevent *change, unsigned char bit) {
    if (change->ident > INT_MAX || change->ident == (uintptr_t)kqueue->fd || is_kqueue((int)change->ident))
        return 0; /* (the system refuses it) */
    struct thing *thing = thing_met((int)change->ident);
    if (thing == NULL || !(change->flags & (EV_ADD | EV_ENABLE)) || change->flags & EV_DELETE)
        return 0;
    int error = change->flags & EV_ADD ? watch_thing(kqueue, thing, bit) : 0;
    if (error == 0)
        sample_alone(thing);
    return error;
}

static int expect_process(struct kqueue *kqueue, struct kevent *change) {
    int error = 0;
    if (change->flags & EV_ADD && change->ident <= INT_MAX) {
        int fd = process_descriptor((uint32_t)change->ident);
        if (fd >= 0)
            error = watch_source(kqueue->fd, fd, FROM_PROCESS, (uint32_t)change->ident, EPOLLIN | EPOLLET);
    }
    change->ident = process_number(change->ident);
    return error;
}

static int expect_signal(struct kqueue *kqueue, const struct kevent *change) {
    if (!(change->flags & EV_ADD) || change->ident == 0 || change->ident > 63 ||
        kqueue->signals >> change->ident & 1)
        return 0;
    if (!kqueue->has_signals) {
        if (signals_descriptor() < 0)
            return errno;
        int error = watch_source(kqueue->fd, signals_descriptor(), FROM_SIGNALS, 0, EPOLLIN | EPOLLET);
        if (error != 0)
            return error;
        kqueue->has_signals = true;
    }
    kqueue->signals |= (uint64_t)1 << change->ident;
    signal_watch((int)change->ident);
    return 0;
}

static int expect(struct kqueue *kqueue, struct kevent *change) {
    unsigned char bit = filter_bit(change->filter);
    if (bit != 0)
        return expect_descriptor(kqueue, change, bit);
    if (change->filter == EVFILT_PROC)
        return expect_process(kqueue, change);
    if (change->filter == EVFILT_SIGNAL)
        return expect_signal(kqueue, change);
    kqueue->has_timers |= change->filter == EVFILT_TIMER;
    return 0;
}

/* ---- the record, and what it means here */

static void changed(struct kqueue *kqueue, const struct kevent *change, bool is_sure) {
    unsigned char bit = filter_bit(change->filter);
    if (bit != 0 && change->ident <= INT_MAX && thing_at(change->ident) != NULL)
        watch_changed(&kqueue->watches, change, bit, is_sure);
    bool is_deleted = is_sure && change->flags & EV_DELETE;
    if (change->filter == EVFILT_SIGNAL && is_deleted && change->ident < 64 && kqueue->signals >> change->ident & 1) {
        kqueue->signals &= ~((uint64_t)1 << change->ident);
        signal_unwatch((int)change->ident);
    }
}

static void gave(struct call *call) {
    for (size_t i = 0; i < call->given; i++) {
        struct kevent *event = &call->events[i];
        unsigned char bit = filter_bit(event->filter);
        if (event->filter == EVFILT_PROC)
            event->ident = process_pid(event->ident);
        if (bit != 0 && !(event->flags & EV_ERROR))
            watch_given(&call->kqueue->watches, event, bit);
    }
}

/* What libkqsim says, as an errno. */
static int error_of(int number) {
    switch (number) {
    case KQSIM_FULL: return ENOMEM;
    case KQSIM_ARGUMENT:
    case KQSIM_TOO_MANY: return EINVAL;
    default: return number < KQSIM_NO_PROCESS ? number : EBADF;
    }
}

/* Makes the record with the next changes, at most `count`: 0, or an errno. */
static int apply(struct call *call, size_t count, size_t room) {
    struct kqueue *kqueue = call->kqueue;
    const struct kevent *changes = call->changes;
    signals_sample();
    if (kqueue->has_timers)
        world_tell_clock();
    int number = record_call((uint32_t)kqueue->fd, changes, count, call->events, room, &call->given);
    /* (without room for a further entry later changes are not made) */
    bool is_full = call->given == room && room > 0 && call->events[0].flags & EV_ERROR;
    for (size_t i = 0; i < count; i++)
        changed(kqueue, &changes[i], number == KQSIM_OK && !is_full);
    call->changes += count;
    call->count -= count;
    if (number != KQSIM_OK)
        return error_of(number);
    gave(call);
    if (kqueue->waiting > 0 && (count > 0 || (call->given > 0 && record_is_pending((uint32_t)kqueue->fd))))
        kqueue_wake(kqueue); /* (for another thread) */
    return 0;
}

/* ---- samples */

static void take_one(struct kqueue *kqueue, enum source source, uint32_t number, uint32_t found) {
    uint64_t before = records_told();
    switch (source) {
    case FROM_DESCRIPTOR: watch_take_in(&kqueue->watches, (int)number, found); return;
    case FROM_OUT: watch_take_out(&kqueue->watches); return;
    case FROM_FILES: files_sample(); break;
    case FROM_PROCESS: process_ended(number); break;
    case FROM_WAKE:
    case FROM_SIGNALS:
    case FROM_PENDING: return;
    }
    if (records_told() != before)
        kqueue_wake_others(kqueue);
}

/* is_stale: numbers were closed since the epoll was asked, so it may speak of others. */
static void take(struct kqueue *kqueue, const struct epoll_event *them, int count, bool is_stale) {
    for (int i = 0; i < count; i++) {
        enum source source = (enum source)(them[i].data.u64 >> 32);
        uint32_t number = (uint32_t)them[i].data.u64, found = them[i].events;
        struct pollfd again = {.fd = (int)number, .events = POLLIN | POLLRDHUP};
        if (is_stale && source == FROM_DESCRIPTOR)
            found = poll_now(&again, 1) == 1 ? (uint32_t)again.revents : 0;
        take_one(kqueue, source, number, found);
    }
}

/* Samples what has an edge, and what was ready before. */
static void observe(struct kqueue *kqueue) {
    struct epoll_event found[TAKEN];
    int count;
    do {
        count = epoll_wait(kqueue->fd, found, TAKEN, 0);
        take(kqueue, found, count, false);
    } while (count == TAKEN);
    watch_sample_hot(&kqueue->watches);
}

/* ---- the wait */

/* epoll_pwait2(2), or as well as epoll_wait(2) can; `wait` is NULL for ever. */
static int wait_for(int epoll, struct epoll_event *found, const struct timespec *wait) {
    int count = epoll_pwait2(epoll, found, TAKEN, wait, NULL);
    if (count >= 0 || errno != ENOSYS)
        return count;
    int64_t milliseconds = wait == NULL ? -1 : wait->tv_sec * 1000 + (wait->tv_nsec + 999999) / 1000000;
    return epoll_wait(epoll, found, TAKEN, milliseconds > INT_MAX ? INT_MAX : (int)milliseconds);
}

/* The time from now on until the call's end or the next timer; false: there is neither. */
static bool is_limited(const struct call *call, struct timespec *left) {
    int64_t next = call->kqueue->has_timers ? record_next((uint32_t)call->kqueue->fd) : INT64_MAX;
    int64_t until = next < call->end ? next : call->end;
    if (until == INT64_MAX)
        return false;
    int64_t nanoseconds = until - world_now();
    if (nanoseconds < 0)
        nanoseconds = 0;
    *left = (struct timespec){nanoseconds / 1000000000, nanoseconds % 1000000000};
    return true;
}

/* Waits without the lock. With a trace it looks first: what was logged is written while the process sleeps. */
static int sleep_in(struct call *call, struct epoll_event *found) {
    struct kqueue *kqueue = call->kqueue;
    struct timespec left;
    bool is_ended = is_limited(call, &left);
    int count = 0, error;
    if (log_is_on()) {
        count = epoll_wait(kqueue->fd, found, TAKEN, 0);
        if (count != 0)
            return count;
        log_flush();
    }
    kqueue->waiting++;
    unlock();
    count = wait_for(kqueue->fd, found, is_ended ? &left : NULL);
    error = errno;
    lock();
    kqueue->waiting--;
    errno = error;
    return count;
}

/* Waits once, and samples what has come: 0, or an errno. EINTR: a signal came that is no event of a kqueue alone. */
static int wait_once(struct call *call) {
    struct kqueue *kqueue = call->kqueue;
    struct epoll_event found[TAKEN];
    unsigned long heard = signals_heard(), handled = signals_handled(), drops = world_drops();
    kqueue_say_none(kqueue);
    int count = sleep_in(call, found), error = count < 0 ? errno : 0;
    if (kqueue->is_closed)
        return EBADF;
    kqueue->watches.round++;
    if (count > 0)
        take(kqueue, found, count, world_drops() != drops);
    if (count < 0 && error != EINTR)
        return error;
    if (count < 0 || count == TAKEN)
        observe(kqueue);
    else
        watch_sample_hot(&kqueue->watches);
    return error == EINTR && (signals_heard() == heard || signals_handled() != handled) ? EINTR : 0;
}

/* ---- the call */

static bool is_over(const struct call *call) {
    return call->room == 0 || call->end == 0 || (call->end != INT64_MAX && world_now() >= call->end);
}

static int make_changes(struct call *call) {
    int error = 0;
    for (size_t i = 0; i < call->count && error == 0; i++)
        error = expect(call->kqueue, &call->changes[i]);
    /* (more than a record can have: without room, so that an error ends the call) */
    while (error == 0 && call->count > MOST_CHANGES)
        error = apply(call, MOST_CHANGES, 0);
    return error;
}

static int run(struct call *call) {
    struct kqueue *kqueue = call->kqueue;
    kqueue->watches.round++;
    int error = make_changes(call), interrupted = 0;
    /* Where nothing can wait in the queue, and nothing was ready, the wait does for the samples too. */
    bool is_wait_first = call->count == 0 && kqueue->watches.hot_count == 0 && call->end != 0 && call->room > 0 &&
                         !record_is_pending((uint32_t)kqueue->fd);
    if (error == 0 && !is_wait_first) {
        if (call->room > 0)
            observe(kqueue);
        error = apply(call, call->count, call->room);
    }
    while (error == 0 && call->given == 0 && interrupted == 0 && (is_wait_first || !is_over(call))) {
        is_wait_first = false;
        error = wait_once(call);
        if (error == EINTR) {
            interrupted = EINTR;
            error = 0;
        }
        if (error == 0)
            error = apply(call, 0, call->room);
    }
    return error == 0 && call->given == 0 ? interrupted : error;
}

static bool is_time(const struct timespec *timeout) {
    return timeout == NULL || (timeout->tv_sec >= 0 && timeout->tv_nsec >= 0 && timeout->tv_nsec < 1000000000);
}

static int64_t end_of(const struct timespec *timeout) {
    if (timeout == NULL)
        return INT64_MAX;
    if (timeout->tv_sec == 0 && timeout->tv_nsec == 0)
        return 0;
    int64_t seconds = timeout->tv_sec > 1000000000 ? 1000000000 : timeout->tv_sec;
    return world_now() + seconds * 1000000000 + timeout->tv_nsec;
}

/* A copy, since the list may be where the events are written. An unknown filter is one that is refused. */
static bool copy_changes(struct call *call, const struct kevent *changelist, size_t count) {
    call->copy = count > FEW ? malloc(count * sizeof *call->copy) : call->few;
    if (call->copy == NULL)
        return false;
    for (size_t i = 0; i < count; i++) {
        struct kevent *change = &call->copy[i];
        *change = changelist[i];
        if (change->filter >= 0 || change->filter < -EVFILT_SYSCOUNT ||
            change->flags & (unsigned short)~(KNOWN_FLAGS | EV_SYSFLAGS))
            change->filter = EVFILT_EMPTY;
        change->flags &= KNOWN_FLAGS;
    }
    call->changes = call->copy;
    call->count = count;
    return true;
}

/* With the lock: the whole call; 0, or an errno. */
static int enter(struct call *call, int kq, const struct kevent *changelist, size_t count) {
    call->kqueue = kqueue_at(kq);
    if (call->kqueue == NULL)
        return EBADF;
    if (!copy_changes(call, changelist, count))
        return ENOMEM;
    int error = run(call);
    struct kqueue *kqueue = call->kqueue;
    if (!kqueue->is_closed)
        kqueue_say_pending(kqueue);
    else if (kqueue->waiting == 0)
        kqueue_free(kqueue);
    return error;
}

__attribute__((visibility("default")))
int kevent(int kq, const struct kevent *changelist, int nchanges, struct kevent *eventlist, int nevents,
           const struct timespec *timeout) {
    struct call call;
    if (nchanges < 0 || nevents < 0 || !is_time(timeout)) {
        errno = EINVAL;
        return -1;
    }
    if ((changelist == NULL && nchanges > 0) || (eventlist == NULL && nevents > 0)) {
        errno = EFAULT;
        return -1;
    }
    if (is_inside_call()) {
        errno = EDEADLK;
        return -1;
    }
    lock();
    call.copy = call.few;
    call.events = eventlist;
    call.given = 0;
    call.room = nevents > MOST_ROOM ? MOST_ROOM : (size_t)nevents;
    call.end = end_of(timeout);
    int error = enter(&call, kq, changelist, (size_t)nchanges);
    unlock();
    if (call.copy != call.few)
        free(call.copy);
    if (error == 0)
        return (int)call.given;
    errno = error;
    return -1;
}
