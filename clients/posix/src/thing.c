#define _GNU_SOURCE
#include "thing.h"

#include <fcntl.h>
#include <netinet/in.h>
#include <stdlib.h>
#include <string.h>
#include <sys/socket.h>
#include <sys/stat.h>

#include "files.h"
#include "record.h"
#include "world.h"

/* by number */
static struct thing **things;
static size_t room;
static uint32_t files;

struct thing *thing_at(uintptr_t fd) { return fd < room ? things[fd] : NULL; }

size_t things_room(void) { return room; }

static int option(int fd, int name) {
    int value = 0;
    socklen_t size = sizeof value;
    return getsockopt(fd, SOL_SOCKET, name, &value, &size) == 0 ? value : 0;
}

static void make_socket(struct thing *thing) {
    int size = option(thing->fd, SO_SNDBUF), domain = option(thing->fd, SO_DOMAIN);
    thing->kind = SOCKET;
    thing->is_stream = option(thing->fd, SO_TYPE) != SOCK_DGRAM;
    thing->is_internet = domain == AF_INET || domain == AF_INET6;
    thing->size = size > 0 ? (uint32_t)size : 1;
    record_socket((uint32_t)thing->fd, MOST_SIZE, thing->size);
    if (!thing->is_stream) {
        record_connect((uint32_t)thing->fd);
        thing->is_connected = true;
    }
}

static void make_pipe(struct thing *thing) {
    int size = fcntl(thing->fd, F_GETPIPE_SZ), mode = fcntl(thing->fd, F_GETFL);
    uint32_t self = (uint32_t)thing->fd, far_end = FAR_END + self;
    thing->kind = PIPE;
    thing->size = size > 0 ? (uint32_t)size : 65536;
    thing->has_far_end = true;
    thing->is_reader = (mode & O_ACCMODE) != O_WRONLY;
    record_pipe(thing->is_reader ? self : far_end, thing->is_reader ? far_end : self, thing->size);
}

static void make_file(struct thing *thing, const struct stat *status) {
    thing->kind = REGULAR;
    thing->is_directory = S_ISDIR(status->st_mode);
    thing->file = ++files;
    thing->file_size = thing->is_directory ? 0 : status->st_size;
    thing->links = status->st_nlink;
    record_file(thing->file, thing->file_size);
    if (files == 1)
        record_process(OTHERS);
    record_open(OTHERS, thing->file, thing->file);
    record_own_open((uint32_t)thing->fd, thing->file);
}

static void make_other(struct thing *thing) {
    thing->kind = OTHER;
    thing->size = MOST_SIZE;
    record_socket((uint32_t)thing->fd, MOST_SIZE, MOST_SIZE);
    record_connect((uint32_t)thing->fd);
    thing->is_connected = true;
}

static struct thing *made(int fd, const struct stat *status) {
    struct thing *thing = calloc(1, sizeof *thing);
    if (thing == NULL)
        return NULL;
    thing->fd = fd;
    thing->device = status->st_dev;
    thing->inode = status->st_ino;
    thing->notes = -1;
    if (S_ISSOCK(status->st_mode))
        make_socket(thing);
    else if (S_ISFIFO(status->st_mode))
        make_pipe(thing);
    else if (S_ISREG(status->st_mode) || S_ISDIR(status->st_mode))
        make_file(thing, status);
    else
        make_other(thing);
    return thing;
}

static bool has_room(int fd) {
    if ((size_t)fd < room)
        return true;
    size_t more = (size_t)fd + (size_t)fd / 2 + 64;
    struct thing **grown = realloc(things, more * sizeof *grown);
    if (grown == NULL)
        return false;
    memset(grown + room, 0, (more - room) * sizeof *grown);
    things = grown;
    room = more;
    return true;
}

struct thing *thing_met(int fd) {
    struct thing *thing = thing_at((uintptr_t)fd);
    struct stat status;
    if (fstat(fd, &status) != 0) {
        world_drop(fd);
        return NULL;
    }
    if (thing != NULL && thing->device == status.st_dev && thing->inode == status.st_ino)
        return thing;
    world_drop(fd); /* (it was closed, and nobody said so) */
    if (!has_room(fd))
        return NULL;
    return things[fd] = made(fd, &status);
}

void thing_forget(int fd) {
    struct thing *thing = thing_at((uintptr_t)fd);
    if (thing == NULL)
        return;
    things[fd] = NULL;
    record_close((uint32_t)fd);
    if (thing->kind == PIPE && thing->has_far_end)
        record_close(FAR_END + (uint32_t)fd);
    if (thing->kind == REGULAR)
        file_unwatch(thing);
    free(thing);
}

void things_forget_all(void) {
    for (size_t fd = 0; fd < room; fd++) {
        free(things[fd]);
        things[fd] = NULL;
    }
    files = 0;
}
