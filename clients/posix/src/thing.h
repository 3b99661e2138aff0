/* What the program's descriptors are of, and what the system has been told of each. The lock is held. */
#ifndef THING_H
#define THING_H

#include <poll.h>
#include <stdbool.h>
#include <stdint.h>
#include <sys/types.h>

/* A number that no descriptor has is this one and a descriptor's: the far end of a pipe, a connection before it is
 * accepted. */
#define FAR_END 0x1000000u
/* The process that does what others do to a file. */
#define OTHERS 4294967295u

enum kind {
    SOCKET,
    LISTENER,
    PIPE,
    REGULAR, /* a file or a directory */
    OTHER    /* an eventfd, a terminal: played as a connected socket */
};

struct thing {
    int fd;
    enum kind kind;
    dev_t device;
    ino_t inode;
    uint32_t size;    /* of the send buffer, or the pipe */
    uint32_t waiting; /* bytes, or connections */
    bool is_stream, is_internet, is_connected, is_full;
    bool is_shut[2];   /* by enum kqsim_side */
    bool is_reader;    /* of a pipe */
    bool has_far_end;  /* of a pipe */
    uint32_t arrivals; /* how often it was told that something came */
    uint32_t file;     /* the system's number of it */
    int64_t file_size, offset;
    nlink_t links;
    bool is_directory, is_deleted;
    int notes; /* of inotify, or -1 */
};

/* The thing of a number that was met; else NULL. */
struct thing *thing_at(uintptr_t fd);
/* The thing of an open descriptor, made where it was not met; NULL where the number is not open. */
struct thing *thing_met(int fd);
/* One more than the greatest number that can have a thing. */
size_t things_room(void);
/* The number is closed, or of another thing. */
void thing_forget(int fd);
void things_forget_all(void);

/* ---- sample.c: tells the system what the kernel says of a thing since before */

/* Whether epoll has reported it, and whether after a READ event with EV_CLEAR, since which nothing was told to come. */
enum edge { NO_EDGE, EDGE, EDGE_AFTER_EVENT };
/* `found` is of poll(2), and `asked` what it was asked for. */
void sample(struct thing *thing, unsigned found, unsigned asked, enum edge edge);
/* poll(2) that does not wait, and is not interrupted. */
int poll_now(struct pollfd *asked, nfds_t count);
/* Asks poll(2) by itself. */
void sample_alone(struct thing *thing);
/* The program has shut its side of a socket for writing. */
void sample_shut_writing(int fd);

#endif
