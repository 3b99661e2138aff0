/* speed [COUNT]: how often a second a pipe is written, waited for and read, beside so many idle ones, by kevent and by
 * epoll: the best of some turns. It prints; it tests nothing. */
#define _GNU_SOURCE
#include <sys/event.h>

#include <stdio.h>
#include <stdlib.h>
#include <sys/epoll.h>
#include <sys/resource.h>
#include <time.h>
#include <unistd.h>

static const int idle_counts[] = {0, 100, 1000, 5000};
enum { STEPS = sizeof idle_counts / sizeof *idle_counts, TURNS = 100 };
static int busy[2], kq, epoll;

static double now(void) {
    struct timespec at;
    clock_gettime(CLOCK_MONOTONIC, &at);
    return (double)at.tv_sec + (double)at.tv_nsec / 1e9;
}

static void watch(int fd) {
    struct kevent it;
    struct epoll_event what = {.events = EPOLLIN, .data.fd = fd};
    EV_SET(&it, fd, EVFILT_READ, EV_ADD, 0, 0, NULL);
    if (kevent(kq, &it, 1, NULL, 0, NULL) != 0 || epoll_ctl(epoll, EPOLL_CTL_ADD, fd, &what) != 0)
        abort();
}

static int by_kevent(void) {
    struct kevent got[8];
    return kevent(kq, NULL, 0, got, 8, NULL);
}

static int by_epoll(void) {
    struct epoll_event got[8];
    return epoll_wait(epoll, got, 8, -1);
}

static double rate(int (*wait)(void), int count) {
    char one;
    double from = now();
    for (int i = 0; i < count; i++)
        if (write(busy[1], "x", 1) != 1 || wait() != 1 || read(busy[0], &one, 1) != 1)
            abort();
    return count / (now() - from);
}

static void better(double *best, double it) {
    if (it > *best)
        *best = it;
}

int main(int argc, char **argv) {
    int count = argc > 1 ? atoi(argv[1]) : 2000, made = 0, ends[2];
    struct rlimit most = {20000, 20000};
    if (setrlimit(RLIMIT_NOFILE, &most) != 0 || pipe(busy) != 0)
        return 1;
    kq = kqueue();
    epoll = epoll_create1(0);
    watch(busy[0]);
    for (int step = 0; step < STEPS; step++) {
        for (; made < idle_counts[step]; made++) {
            if (pipe(ends) != 0)
                return 1;
            watch(ends[0]);
        }
        double kevents = 0, epolls = 0;
        for (int turn = 0; turn < TURNS; turn++) {
            better(&kevents, rate(by_kevent, count));
            better(&epolls, rate(by_epoll, count));
        }
        printf("%5d idle: kevent %.0f a second, epoll %.0f, %.2f of it\n", made, kevents, epolls, kevents / epolls);
    }
    return 0;
}
