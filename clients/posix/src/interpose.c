/* The program's own calls that the library has to hear of come here first: what closes a number, what replaces a
 * signal's handler, what shuts a socket for writing, what ends the process without exit(3). */
#define _GNU_SOURCE
#include "interpose.h"

#include <dlfcn.h>
#include <errno.h>
#include <limits.h>
#include <linux/close_range.h>
#include <stdarg.h>
#include <stdatomic.h>
#include <stddef.h>
#include <stdio.h>
#include <sys/socket.h>
#include <sys/syscall.h>
#include <unistd.h>

#include "signals.h"
#include "world.h"

#define EXPORTED __attribute__((visibility("default")))

/* `real` is the function of this name that comes next, libc's. */
#define REAL(name) \
    static _Atomic(__typeof__(&name)) found; \
    __typeof__(&name) real = found; \
    if (real == NULL) \
        found = real = (__typeof__(&name))dlsym(RTLD_NEXT, #name)

int real_close(int fd) {
    REAL(close);
    return real(fd);
}

int real_sigaction(int signal, const struct sigaction *action, struct sigaction *former) {
    REAL(sigaction);
    return real(signal, action, former);
}

static int refused(int error) {
    errno = error;
    return -1;
}

/* ---- what closes a number */

EXPORTED int close(int fd) { return world_closing(fd) ? real_close(fd) : refused(EBADF); }

EXPORTED int dup2(int fd, int to) {
    REAL(dup2);
    return fd == to || world_closing(to) ? real(fd, to) : refused(EBUSY);
}

EXPORTED int dup3(int fd, int to, int flags) {
    REAL(dup3);
    return fd == to || world_closing(to) ? real(fd, to, flags) : refused(EBUSY);
}

EXPORTED int fclose(FILE *file) {
    REAL(fclose);
    if (file != NULL)
        world_closing(fileno(file));
    return real(file);
}

/* In pieces, between the library's own numbers. */
EXPORTED int close_range(unsigned first, unsigned last, int flags) {
    REAL(close_range);
    unsigned numbers = world_numbers();
    if (flags & CLOSE_RANGE_CLOEXEC || first > last)
        return real(first, last, flags);
    for (unsigned fd = first; fd <= last && fd < numbers; fd++) {
        if (world_closing((int)fd))
            continue;
        if (fd > first && real(first, fd - 1, flags) != 0)
            return -1;
        first = fd + 1;
    }
    return first <= last ? real(first, last, flags) : 0;
}

EXPORTED void closefrom(int first) { close_range(first < 0 ? 0 : (unsigned)first, UINT_MAX, 0); }

/* (libuv closes by this) */
EXPORTED long syscall(long number, ...) {
    REAL(syscall);
    long words[6];
    va_list rest;
    va_start(rest, number);
    for (int i = 0; i < 6; i++)
        words[i] = va_arg(rest, long);
    va_end(rest);
    if (number == SYS_close && !world_closing((int)words[0]))
        return refused(EBADF);
    return real(number, words[0], words[1], words[2], words[3], words[4], words[5]);
}

/* ---- the rest */

EXPORTED int sigaction(int signal, const struct sigaction *restrict action, struct sigaction *restrict former) {
    return signal_action(signal, action, former);
}

EXPORTED __sighandler_t signal(int number, __sighandler_t handler) {
    struct sigaction action = {.sa_handler = handler, .sa_flags = SA_RESTART}, former;
    sigemptyset(&action.sa_mask);
    if (handler == SIG_ERR || sigaddset(&action.sa_mask, number) != 0) {
        errno = EINVAL;
        return SIG_ERR;
    }
    return signal_action(number, &action, &former) == 0 ? former.sa_handler : SIG_ERR;
}

EXPORTED int shutdown(int fd, int how) {
    REAL(shutdown);
    int result = real(fd, how);
    if (result == 0 && how != SHUT_RD)
        world_shut(fd);
    return result;
}

/* (a child of fork often ends so, and has a trace to write) */
EXPORTED _Noreturn void _exit(int status) {
    REAL(_exit);
    world_end();
    for (;;)
        real(status);
}

EXPORTED _Noreturn void _Exit(int status) { _exit(status); }
