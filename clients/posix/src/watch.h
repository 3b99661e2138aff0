/* Which descriptors of a kqueue are sampled.
 *
 * A kqueue's own descriptor is an epoll(7). What the kqueue watches stands in it, edge triggered: a descriptor with an
 * edge is sampled. What is watched for writing stands in a second epoll within the first, so that an edge of one
 * direction is not taken for one of the other.
 *
 * A descriptor that was ready when it was sampled is "hot": the program may have read from it since, which is no
 * edge, so each call asks for it again, all by one poll(2). What is neither costs nothing. The lock is held.
 */
#ifndef WATCH_H
#define WATCH_H

#include <poll.h>
#include <stdbool.h>
#include <stddef.h>
#include <stdint.h>
#include <sys/epoll.h>

#include "sys/event.h"

/* Filters of a descriptor. */
enum { READ_FILTER = 1, WRITE_FILTER = 2, VNODE_FILTER = 4 };

/* What stands in the epoll of a kqueue. */
enum source { FROM_DESCRIPTOR, FROM_OUT, FROM_WAKE, FROM_SIGNALS, FROM_FILES, FROM_PROCESS, FROM_PENDING };

struct watches {
    int in, out; /* the epolls */
    struct watch *all;
    size_t room;
    int *hot;
    size_t hot_count, hot_room;
    struct pollfd *asked; /* as long as `hot` */
    unsigned round;       /* what was sampled in this round is not asked again */
};

/* Sets the bits of a source in an epoll: 0, or an errno. */
int watch_source(int epoll, int fd, enum source source, uint32_t number, uint32_t events);
/* `in` is the kqueue's own descriptor: 0, or an errno. */
int watches_begin(struct watches *watches, int in);
/* The bit of a filter of a descriptor; 0 of another filter. */
unsigned char filter_bit(short filter);
/* A change that adds a filter of an open descriptor is about to be made: 0, or an errno. */
int watch_expect(struct watches *watches, int fd, unsigned char bit);
/* Begins to watch it, where edges tell of its kind: 0, or an errno. */
int watch_begin(struct watches *watches, int fd, unsigned char bit);
/* A change of the filter was made, or, where that is not sure, may have been; or its event was given. */
void watch_changed(struct watches *watches, const struct kevent *change, unsigned char bit, bool is_sure);
void watch_given(struct watches *watches, const struct kevent *event, unsigned char bit);
/* The number is gone, or has no filters any more. */
void watch_end(struct watches *watches, int fd);
void watches_end(struct watches *watches);

/* Samples a descriptor with an edge of reading, or all with an edge of writing. */
void watch_take_in(struct watches *watches, int fd, uint32_t found);
void watch_take_out(struct watches *watches);
void watch_sample_hot(struct watches *watches);

#endif
