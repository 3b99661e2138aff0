#define _GNU_SOURCE
#include "watch.h"

#include <errno.h>
#include <stdlib.h>
#include <string.h>

#include "own.h"
#include "thing.h"
#include "world.h"

enum { TAKEN = 256 };

/* What is watched of one number. */
struct watch {
    unsigned char filters; /* that it may have; exact but after a call that failed */
    bool is_in, is_out;    /* it stands in that epoll */
    unsigned char hot;  /* filters whose condition may hold */
    unsigned char cold; /* filters whose event was given and reset, and of which nothing was heard since */
    int place;          /* in the list of hot ones, from 1; or 0 */
    unsigned round;
    bool was_given;    /* READ with EV_CLEAR, when */
    uint32_t given_at; /* so many arrivals were told */
};

static struct watch *watch_at(const struct watches *watches, int fd) {
    return (size_t)fd < watches->room ? &watches->all[fd] : NULL;
}

static struct watch *watch_made(struct watches *watches, int fd) {
    if ((size_t)fd >= watches->room) {
        size_t more = (size_t)fd + (size_t)fd / 2 + 64;
        struct watch *grown = realloc(watches->all, more * sizeof *grown);
        if (grown == NULL)
            return NULL;
        memset(grown + watches->room, 0, (more - watches->room) * sizeof *grown);
        watches->all = grown;
        watches->room = more;
    }
    return &watches->all[fd];
}

unsigned char filter_bit(short filter) {
    switch (filter) {
    case EVFILT_READ: return READ_FILTER;
    case EVFILT_WRITE: return WRITE_FILTER;
    case EVFILT_VNODE: return VNODE_FILTER;
    default: return 0;
    }
}

/* ---- the epolls */

int watch_source(int epoll, int fd, enum source source, uint32_t number, uint32_t events) {
    struct epoll_event what = {.events = events, .data.u64 = (uint64_t)source << 32 | number};
    if (epoll_ctl(epoll, EPOLL_CTL_ADD, fd, &what) == 0)
        return 0;
    if (errno != EEXIST)
        return errno;
    return epoll_ctl(epoll, EPOLL_CTL_MOD, fd, &what) == 0 ? 0 : errno;
}

int watches_begin(struct watches *watches, int in) {
    watches->in = in;
    watches->out = own_keep(epoll_create1(EPOLL_CLOEXEC));
    return watches->out < 0 ? errno : watch_source(in, watches->out, FROM_OUT, 0, EPOLLIN | EPOLLET);
}

int watch_expect(struct watches *watches, int fd, unsigned char bit) {
    struct watch *watch = watch_made(watches, fd);
    if (watch == NULL)
        return ENOMEM;
    watch->filters |= bit;
    return 0;
}

int watch_begin(struct watches *watches, int fd, unsigned char bit) {
    struct watch *watch = &watches->all[fd];
    const struct thing *thing = thing_at((uintptr_t)fd);
    bool is_writing = bit == WRITE_FILTER, *is_there = is_writing ? &watch->is_out : &watch->is_in;
    /* (what has no inode of its own may have been closed, and nobody said so) */
    if (*is_there && thing != NULL && thing->kind != OTHER)
        return 0;
    int error = is_writing
                    ? watch_source(watches->out, fd, FROM_DESCRIPTOR, (uint32_t)fd, EPOLLOUT | EPOLLET)
                    : watch_source(watches->in, fd, FROM_DESCRIPTOR, (uint32_t)fd, EPOLLIN | EPOLLRDHUP | EPOLLET);
    *is_there = error == 0;
    return error == EPERM ? 0 : error; /* (a device that is always ready has no edges) */
}

/* ---- hot ones */

static bool is_readable(const struct thing *thing) {
    return thing->waiting > 0 || thing->is_shut[0] || (thing->kind == PIPE && !thing->has_far_end);
}

static bool is_writable(const struct thing *thing) {
    if (thing->kind == PIPE)
        return thing->waiting == 0 || !thing->has_far_end;
    return thing->is_shut[1] || (thing->is_connected && !thing->is_full);
}

static unsigned char heat_of(const struct watch *watch, int fd) {
    const struct thing *thing = thing_at((uintptr_t)fd);
    unsigned char hot = 0;
    if (thing == NULL)
        return 0;
    if (thing->kind == REGULAR)
        return watch->filters & READ_FILTER; /* (lseek(2) is no edge) */
    if (is_readable(thing))
        hot |= READ_FILTER;
    if (is_writable(thing))
        hot |= WRITE_FILTER;
    return hot & watch->filters & (unsigned char)~watch->cold;
}

static bool has_hot_room(struct watches *watches) {
    if (watches->hot_count < watches->hot_room)
        return true;
    size_t more = watches->hot_room * 2 + 64;
    int *grown = realloc(watches->hot, more * sizeof *grown);
    if (grown != NULL)
        watches->hot = grown;
    struct pollfd *asked = realloc(watches->asked, more * sizeof *asked);
    if (asked != NULL)
        watches->asked = asked;
    if (grown == NULL || asked == NULL)
        return false;
    watches->hot_room = more;
    return true;
}

/* Puts it into the list of hot ones, or takes it out. */
static void heat(struct watches *watches, int fd) {
    struct watch *watch = watch_at(watches, fd);
    if (watch == NULL)
        return;
    watch->hot = heat_of(watch, fd);
    if (watch->hot != 0 && watch->place == 0) {
        if (!has_hot_room(watches))
            return; /* (it is sampled at its next edge) */
        watches->hot[watches->hot_count++] = fd;
        watch->place = (int)watches->hot_count;
    } else if (watch->hot == 0 && watch->place > 0) {
        int last = watches->hot[--watches->hot_count];
        watches->hot[watch->place - 1] = last;
        watches->all[last].place = watch->place;
        watch->place = 0;
    }
}

void watch_changed(struct watches *watches, const struct kevent *change, unsigned char bit, bool is_sure) {
    int fd = (int)change->ident;
    struct watch *watch = watch_at(watches, fd);
    if (watch == NULL)
        return;
    if (is_sure && change->flags & EV_DELETE)
        watch->filters &= (unsigned char)~bit;
    watch->cold &= (unsigned char)~bit;
    heat(watches, fd);
}

void watch_given(struct watches *watches, const struct kevent *event, unsigned char bit) {
    int fd = (int)event->ident;
    const struct thing *thing = thing_at(event->ident);
    struct watch *watch = watch_at(watches, fd);
    if (thing == NULL || watch == NULL)
        return;
    if (event->flags & EV_ONESHOT)
        watch->filters &= (unsigned char)~bit;
    if (event->flags & (EV_CLEAR | EV_DISPATCH))
        watch->cold |= bit;
    if (event->flags & EV_CLEAR && bit == READ_FILTER) {
        watch->was_given = true;
        watch->given_at = thing->arrivals;
    }
    heat(watches, fd);
}

/* ---- samples */

static void take(struct watches *watches, int fd, uint32_t found, unsigned asked) {
    struct watch *watch = watch_at(watches, fd);
    struct thing *thing = thing_at((uintptr_t)fd);
    if (watch == NULL || thing == NULL)
        return;
    if (watch->filters == 0) {
        watch_end(watches, fd);
        return;
    }
    watch->cold &= (unsigned char)~(asked & POLLOUT ? WRITE_FILTER : READ_FILTER | VNODE_FILTER);
    if (!(watch->filters & WRITE_FILTER) || asked & POLLOUT)
        watch->round = watches->round; /* (else the other side is still to be asked) */
    bool is_after_event = watch->was_given && watch->given_at == thing->arrivals;
    sample(thing, found, asked, is_after_event ? EDGE_AFTER_EVENT : EDGE);
    heat(watches, fd);
}

void watch_take_in(struct watches *watches, int fd, uint32_t found) {
    take(watches, fd, found, POLLIN | POLLRDHUP);
}

void watch_take_out(struct watches *watches) {
    struct epoll_event found[TAKEN];
    int count;
    do {
        count = epoll_wait(watches->out, found, TAKEN, 0);
        for (int i = 0; i < count; i++)
            take(watches, (int)(uint32_t)found[i].data.u64, found[i].events, POLLOUT);
    } while (count == TAKEN);
}

/* The hot ones that were not sampled in this round; their number. */
static nfds_t ask_hot(struct watches *watches) {
    nfds_t count = 0;
    for (size_t i = 0; i < watches->hot_count; i++) {
        int fd = watches->hot[i];
        if (watches->all[fd].round == watches->round)
            continue;
        short events = POLLIN | POLLRDHUP;
        if (watches->all[fd].filters & WRITE_FILTER)
            events |= POLLOUT;
        watches->asked[count++] = (struct pollfd){.fd = fd, .events = events};
    }
    return count;
}

void watch_sample_hot(struct watches *watches) {
    nfds_t count = ask_hot(watches);
    if (count == 0 || poll_now(watches->asked, count) < 0)
        return;
    for (nfds_t i = 0; i < count; i++) {
        struct pollfd one = watches->asked[i];
        struct thing *thing = thing_at((uintptr_t)one.fd);
        if (one.revents & POLLNVAL)
            world_drop(one.fd);
        else if (thing != NULL) {
            sample(thing, (unsigned)one.revents, (unsigned)one.events, NO_EDGE);
            heat(watches, one.fd);
        }
    }
}

/* ---- ends */

void watch_end(struct watches *watches, int fd) {
    struct watch *watch = watch_at(watches, fd);
    if (watch == NULL)
        return;
    /* (an error: the number is closed, and no longer there) */
    if (watch->is_in)
        epoll_ctl(watches->in, EPOLL_CTL_DEL, fd, NULL);
    if (watch->is_out)
        epoll_ctl(watches->out, EPOLL_CTL_DEL, fd, NULL);
    watch->filters = watch->cold = 0;
    watch->is_in = watch->is_out = watch->was_given = false;
    heat(watches, fd);
}

void watches_end(struct watches *watches) {
    own_close(watches->out);
    free(watches->all);
    free(watches->hot);
    free(watches->asked);
}
