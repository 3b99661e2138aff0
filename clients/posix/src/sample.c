/* What the kernel says of a thing, and the records that make the system say the same. */
#define _GNU_SOURCE
#include <errno.h>
#include <netinet/in.h>
#include <netinet/tcp.h>
#include <poll.h>
#include <sys/ioctl.h>
#include <sys/socket.h>
#include <sys/stat.h>
#include <unistd.h>

#include "record.h"
#include "thing.h"

/* Whether an edge has to be told though there is not more than before: with EV_CLEAR the program was told of what
 * waited, took it, and as much or less has come since. Without this rule a program that reads just `data` bytes of
 * each event would wait for ever. */
static bool is_taken_and_more(const struct thing *thing, uint32_t now, enum edge edge) {
    return edge == EDGE_AFTER_EVENT && now > 0 && now <= thing->waiting;
}

/* ---- sockets, and what is played as one */

static void shut(struct thing *thing, enum kqsim_side side, int error) {
    if (thing->is_shut[side])
        return;
    record_shut((uint32_t)thing->fd, side, (uint32_t)error);
    thing->is_shut[side] = true;
}

static bool has_peer(int fd) {
    struct sockaddr_storage name;
    socklen_t size = sizeof name;
    return getpeername(fd, (struct sockaddr *)&name, &size) == 0;
}

static bool is_listening(int fd) {
    int value = 0;
    socklen_t size = sizeof value;
    return getsockopt(fd, SOL_SOCKET, SO_ACCEPTCONN, &value, &size) == 0 && value != 0;
}

/* The bytes to read; 1 where there is something, and the kernel does not say how much. */
static uint32_t bytes(const struct thing *thing, unsigned found) {
    int count = 0;
    if (!(found & POLLIN))
        return 0;
    if (ioctl(thing->fd, FIONREAD, &count) != 0)
        return 1;
    if (count > 0)
        return (uint32_t)count;
    return thing->kind == OTHER || !thing->is_stream ? 1 : 0; /* (an empty datagram; of a stream it is the end) */
}

static void sample_in(struct thing *thing, unsigned found, enum edge edge) {
    uint32_t now = bytes(thing, found), fd = (uint32_t)thing->fd;
    if (thing->is_shut[KQSIM_SIDE_READ]) {
        /* (no more comes) */
        if (now < thing->waiting) {
            record_read(fd, thing->waiting - now);
            thing->waiting = now;
        }
        return;
    }
    if (is_taken_and_more(thing, now, edge)) {
        record_read(fd, thing->waiting);
        thing->waiting = 0;
    } else if (now < thing->waiting)
        record_read(fd, thing->waiting - now);
    if (now > thing->waiting) {
        record_rx(fd, now - thing->waiting);
        thing->arrivals++;
    }
    thing->waiting = now;
}

/* All of the send buffer is free, or nothing. */
static void sample_out(struct thing *thing, unsigned found, enum edge edge) {
    bool is_free = found & (POLLOUT | POLLERR | POLLHUP);
    if (thing->is_shut[KQSIM_SIDE_WRITE])
        return;
    if (!thing->is_full && (!is_free || (edge != NO_EDGE && found & POLLOUT))) {
        /* (an edge: it was full between two samples) */
        record_write((uint32_t)thing->fd, thing->size);
        thing->is_full = true;
    }
    if (thing->is_full && is_free) {
        record_tx((uint32_t)thing->fd, thing->size);
        thing->is_full = false;
    }
}

/* Ends of a stream: what came before the end was told. */
static void sample_ends(struct thing *thing, unsigned found) {
    if (thing->kind == OTHER) {
        if (found & POLLHUP)
            shut(thing, KQSIM_SIDE_READ, 0);
        return;
    }
    if (!thing->is_stream)
        return;
    /* (a guess: to ask for SO_ERROR takes the error from the program's own next call) */
    int error = found & POLLERR ? ECONNRESET : 0;
    if (found & (POLLERR | POLLRDHUP | POLLHUP))
        shut(thing, KQSIM_SIDE_READ, error);
    if (found & (POLLERR | POLLHUP))
        shut(thing, KQSIM_SIDE_WRITE, error);
}

/* Whether it has a connection by now, or had one. */
static void sample_connection(struct thing *thing, unsigned found) {
    /* (one that has lost its peer was connected; a fresh one shows POLLHUP alone) */
    if (has_peer(thing->fd) || (found & POLLRDHUP && !(found & POLLERR))) {
        record_connect((uint32_t)thing->fd);
        thing->is_connected = true;
    } else if (found & POLLERR) {
        /* (a guess, as above) */
        shut(thing, KQSIM_SIDE_READ, ECONNREFUSED);
        shut(thing, KQSIM_SIDE_WRITE, ECONNREFUSED);
    }
}

static void sample_socket(struct thing *thing, unsigned found, unsigned asked, enum edge edge) {
    if (!thing->is_connected)
        sample_connection(thing, found);
    if (!thing->is_connected)
        return;
    if (asked & POLLIN)
        sample_in(thing, found, edge);
    if (asked & POLLOUT)
        sample_out(thing, found, edge);
    sample_ends(thing, found);
}

/* ---- listening sockets */

/* How many connections wait: TCP says so of a socket that listens; of another kind only whether one does. */
static uint32_t connections(const struct thing *thing, unsigned found) {
    struct tcp_info info;
    socklen_t size = sizeof info;
    if (!(found & POLLIN))
        return 0;
    if (!thing->is_internet || getsockopt(thing->fd, IPPROTO_TCP, TCP_INFO, &info, &size) != 0)
        return 1;
    return info.tcpi_unacked > 0 ? info.tcpi_unacked : 1;
}

static void sample_listener(struct thing *thing, unsigned found, enum edge edge) {
    uint32_t now = connections(thing, found), fd = (uint32_t)thing->fd;
    uint32_t kept = is_taken_and_more(thing, now, edge) ? now - 1 : now;
    for (; thing->waiting > kept; thing->waiting--) {
        record_accept(fd, FAR_END + fd);
        record_close(FAR_END + fd);
    }
    for (; thing->waiting < now; thing->waiting++) {
        record_arrive(fd);
        thing->arrivals++;
    }
}

/* ---- pipes */

static void sample_reader(struct thing *thing, unsigned found, enum edge edge) {
    uint32_t self = (uint32_t)thing->fd, now = 0;
    int count = 0;
    if (found & POLLIN && ioctl(thing->fd, FIONREAD, &count) == 0 && count > 0)
        now = (uint32_t)count < thing->size ? (uint32_t)count : thing->size;
    if (thing->has_far_end && is_taken_and_more(thing, now, edge)) {
        record_read(self, thing->waiting);
        thing->waiting = 0;
    } else if (now < thing->waiting) {
        record_read(self, thing->waiting - now);
        thing->waiting = now;
    }
    if (thing->has_far_end && now > thing->waiting) {
        record_write(FAR_END + self, now - thing->waiting);
        thing->waiting = now;
        thing->arrivals++;
    }
}

/* All of the pipe is free, or nothing. */
static void sample_writer(struct thing *thing, unsigned found, enum edge edge) {
    uint32_t self = (uint32_t)thing->fd;
    bool is_free = found & (POLLOUT | POLLERR);
    if (thing->waiting == 0 && (!is_free || edge != NO_EDGE)) {
        record_write(self, thing->size);
        thing->waiting = thing->size;
    }
    if (thing->waiting > 0 && is_free) {
        record_read(FAR_END + self, thing->waiting);
        thing->waiting = 0;
    }
}

static void sample_pipe(struct thing *thing, unsigned found, unsigned asked, enum edge edge) {
    if (thing->is_reader && asked & POLLIN)
        sample_reader(thing, found, edge);
    if (!thing->is_reader && asked & POLLOUT && thing->has_far_end)
        sample_writer(thing, found, edge);
    if (found & (POLLHUP | POLLERR) && thing->has_far_end) {
        record_close(FAR_END + (uint32_t)thing->fd);
        thing->has_far_end = false;
    }
}

/* ---- files */

static void grow(const struct thing *thing, int64_t more) {
    record_seek(OTHERS, thing->file, thing->file_size);
    while (more > 0) {
        uint32_t count = more > MOST_SIZE ? MOST_SIZE : (uint32_t)more;
        record_write_of(OTHERS, thing->file, count);
        more -= count;
    }
}

static void sample_file(struct thing *thing) {
    struct stat status;
    if (thing->is_directory || fstat(thing->fd, &status) != 0)
        return;
    if (status.st_size > thing->file_size)
        grow(thing, status.st_size - thing->file_size);
    else if (status.st_size < thing->file_size && !thing->is_deleted)
        record_truncate(thing->file, status.st_size);
    thing->file_size = status.st_size;
    int64_t offset = lseek(thing->fd, 0, SEEK_CUR);
    if (offset >= 0 && offset != thing->offset) {
        record_own_seek((uint32_t)thing->fd, offset);
        thing->offset = offset;
    }
}

/* ---- all */

void sample(struct thing *thing, unsigned found, unsigned asked, enum edge edge) {
    if (thing->kind == SOCKET && !thing->is_connected && is_listening(thing->fd)) {
        record_listen((uint32_t)thing->fd, MOST_SIZE);
        thing->kind = LISTENER;
    }
    switch (thing->kind) {
    case SOCKET:
    case OTHER: sample_socket(thing, found, asked, edge); break;
    case LISTENER:
        if (asked & POLLIN)
            sample_listener(thing, found, edge);
        break;
    case PIPE: sample_pipe(thing, found, asked, edge); break;
    case REGULAR: sample_file(thing); break;
    }
}

int poll_now(struct pollfd *asked, nfds_t count) {
    int found;
    do
        found = poll(asked, count, 0);
    while (found < 0 && errno == EINTR);
    return found;
}

void sample_alone(struct thing *thing) {
    struct pollfd one = {.fd = thing->fd, .events = POLLIN | POLLRDHUP | POLLOUT};
    if (thing->kind != REGULAR && poll_now(&one, 1) < 0)
        return;
    sample(thing, (unsigned)one.revents, (unsigned)one.events, NO_EDGE);
}

void sample_shut_writing(int fd) {
    struct thing *thing = thing_at((uintptr_t)fd);
    if (thing != NULL && thing->kind == SOCKET)
        shut(thing, KQSIM_SIDE_WRITE, 0);
}
