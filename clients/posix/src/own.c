#define _GNU_SOURCE
#include "own.h"

#include <fcntl.h>
#include <stddef.h>
#include <stdlib.h>
#include <string.h>
#include <sys/resource.h>

#include "interpose.h"

/* by number: whether it is the library's */
static bool *kept;
static size_t room;

/* The least number for an own descriptor: beyond what select(2) programs use, within the limit. */
static int least_number(void) {
    struct rlimit limit;
    if (getrlimit(RLIMIT_NOFILE, &limit) != 0)
        return 0;
    return limit.rlim_cur >= 1024 ? 512 : (int)(limit.rlim_cur / 2);
}

static bool has_room(int fd) {
    if ((size_t)fd < room)
        return true;
    size_t more = (size_t)fd + 256;
    bool *grown = realloc(kept, more * sizeof *grown);
    if (grown == NULL)
        return false;
    memset(grown + room, 0, (more - room) * sizeof *grown);
    kept = grown;
    room = more;
    return true;
}

int own_keep(int fd) {
    if (fd < 0)
        return -1;
    int high = fcntl(fd, F_DUPFD_CLOEXEC, least_number());
    if (high >= 0) {
        real_close(fd);
        fd = high;
    }
    if (!has_room(fd)) {
        real_close(fd);
        return -1;
    }
    kept[fd] = true;
    return fd;
}

size_t own_room(void) { return room; }

bool is_own(int fd) { return fd >= 0 && (size_t)fd < room && kept[fd]; }

void own_close(int fd) {
    if (!is_own(fd))
        return;
    kept[fd] = false;
    real_close(fd);
}

void own_close_all(void) {
    for (size_t fd = 0; fd < room; fd++)
        own_close((int)fd);
}
