#define _GNU_SOURCE
#include "processes.h"

#include <poll.h>
#include <stdbool.h>
#include <stddef.h>
#include <stdlib.h>
#include <string.h>
#include <sys/pidfd.h>
#include <sys/wait.h>
#include <unistd.h>

#include "own.h"
#include "record.h"

/* A pid of Linux is less than 2^22, so 2^10 processes of one pid have numbers below 2^32. */
#define PID_BITS 22
#define PIDS ((uintptr_t)1 << PID_BITS)
#define MOST_COUNT 1022

/* those that live, as far as is known */
static struct process {
    uint32_t pid;
    int fd;
} *living;
static size_t count, room;
/* by pid: how many processes of this pid the system knows */
static uint16_t *known;

uintptr_t process_number(uintptr_t pid) {
    if (known == NULL || pid >= PIDS || known[pid] < 2)
        return pid;
    return pid | (uintptr_t)(known[pid] - 1) << PID_BITS;
}

uintptr_t process_pid(uintptr_t number) {
    uintptr_t pid = number & (PIDS - 1);
    return number != pid && process_number(pid) >= number ? pid : number;
}

static struct process *living_at(uint32_t pid) {
    for (size_t i = 0; i < count; i++)
        if (living[i].pid == pid)
            return &living[i];
    return NULL;
}

static bool has_room(void) {
    if (known == NULL)
        known = calloc(PIDS, sizeof *known);
    if (count == room) {
        size_t more = room * 2 + 16;
        struct process *grown = realloc(living, more * sizeof *grown);
        if (grown == NULL)
            return false;
        living = grown;
        room = more;
    }
    return known != NULL;
}

static bool has_exited(int fd) {
    struct pollfd one = {.fd = fd, .events = POLLIN};
    return poll(&one, 1, 0) == 1;
}

int process_descriptor(uint32_t pid) {
    struct process *process = living_at(pid);
    if (process != NULL)
        return process->fd;
    if (pid == 0 || pid >= PIDS || pid == (uint32_t)getpid() || !has_room())
        return -1;
    int fd = own_keep(pidfd_open((pid_t)pid, 0));
    /* (a zombie of which the system was told, and not another process) */
    bool is_zombie = fd >= 0 && known[pid] > 0 && has_exited(fd);
    if (fd < 0 || is_zombie || known[pid] == MOST_COUNT) {
        own_close(fd);
        return -1;
    }
    known[pid]++;
    record_process((uint32_t)process_number(pid));
    living[count++] = (struct process){pid, fd};
    return fd;
}

/* The status of wait(2), or 0 where this process is not its parent. */
static uint32_t status_of(int fd) {
    siginfo_t info;
    memset(&info, 0, sizeof info);
    if (waitid(P_PIDFD, (id_t)fd, &info, WEXITED | WNOHANG | WNOWAIT) != 0 || info.si_pid == 0)
        return 0;
    if (info.si_code == CLD_EXITED)
        return (uint32_t)(info.si_status & 0xff) << 8;
    return (uint32_t)info.si_status | (info.si_code == CLD_DUMPED ? 0x80 : 0);
}

void process_ended(uint32_t pid) {
    struct process *process = living_at(pid);
    if (process == NULL)
        return; /* (another kqueue has told it) */
    record_exit((uint32_t)process_number(pid), status_of(process->fd));
    own_close(process->fd);
    *process = living[--count];
}

void processes_forget_all(void) {
    count = 0; /* (own_close_all has closed the descriptors) */
    free(known);
    known = NULL;
}
