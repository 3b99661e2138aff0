/* The process's kqueues, one system for all of them, and the lock. */
#ifndef WORLD_H
#define WORLD_H

#include <stdbool.h>
#include <stdint.h>

#include "watch.h"

struct kqueue {
    struct kqueue *next;
    int fd;      /* an epoll: `watches.in` */
    int wake;    /* an eventfd: another thread made a change */
    int pending; /* with KQSIM_POLLABLE an eventfd that is readable while events may wait; or -1 */
    struct watches watches;
    uint64_t signals; /* that are watched: a bit each */
    bool has_signals, has_files, has_timers, is_pending; /* has: it has, or had */
    bool is_closed; /* the last of those that wait frees it */
    unsigned waiting;
};

/* A signal's handler that closes a number while its thread has the lock does not wait for it. */
void lock(void);
void unlock(void);
/* Whether this is a signal's handler that has interrupted its thread within a call. */
bool is_inside_call(void);

/* ---- with the lock */

/* The kqueue of a number in this process; NULL where there is none. */
struct kqueue *kqueue_at(int fd);
/* Wakes a thread that waits at the kqueue. */
void kqueue_wake(struct kqueue *kqueue);
/* Wakes one at each other kqueue: what another has sampled may be theirs too, and no edge says so. */
void kqueue_wake_others(const struct kqueue *but);
/* Says whether events may wait, where KQSIM_POLLABLE is set; before a wait none do. */
void kqueue_say_pending(struct kqueue *kqueue);
void kqueue_say_none(struct kqueue *kqueue);
void kqueue_free(struct kqueue *kqueue);
/* A number is gone, or of another thing; and how often that was. */
void world_drop(int fd);
unsigned long world_drops(void);
/* The clock of the trace: the time of day when the first kqueue was made, and monotonic from there. */
int64_t world_now(void);
/* Tells the system the present clock. */
void world_tell_clock(void);

/* ---- without the lock */

/* Whether this process has a system; a child of vfork, which has its parent's memory, has none. */
bool world_is_here(void);
/* A number is about to be closed: false where it is the library's own. */
bool world_closing(int fd);
/* One more than the greatest number that the library knows. */
unsigned world_numbers(void);
/* The program has shut a socket for writing. */
void world_shut(int fd);
/* The process ends. */
void world_end(void);

#endif
