/* An event loop that was written to kqueue(2). Its only change is the first line below: <sys/event.h> before. */
#define KQSIM_AS_KQUEUE
#include "kqsim.h"

#include <stdio.h>
#include <stdlib.h>

/* ---- the loop: it reads from a socket, ticks by a timer, and ends when its doorbell rings */

static int bytes_read, ticks, rings;

static void on_event(const struct kevent *event, void (*read_bytes)(int, int)) {
    switch (event->filter) {
    case EVFILT_READ:
        read_bytes((int)event->ident, (int)event->data);
        bytes_read += (int)event->data;
        break;
    case EVFILT_TIMER:
        ticks += (int)event->data;
        break;
    case EVFILT_USER:
        rings += *(int *)event->udata;
        break;
    }
}

static int turn(int kq, void (*read_bytes)(int, int)) {
    struct kevent events[8];
    struct timespec none = {0, 0};
    int n = kevent(kq, NULL, 0, events, 8, &none), i;
    for (i = 0; i < n; i++)
        on_event(&events[i], read_bytes);
    return n;
}

static int start(int fd, int *weight) {
    struct kevent changes[3];
    int kq = kqueue();
    EV_SET(&changes[0], fd, EVFILT_READ, EV_ADD, 0, 0, NULL);
    EV_SET(&changes[1], 1, EVFILT_TIMER, EV_ADD, NOTE_MSECONDS, 10, NULL);
    EV_SET(&changes[2], 2, EVFILT_USER, EV_ADD | EV_CLEAR, 0, 0, weight);
    if (kq < 0 || kevent(kq, changes, 3, NULL, 0, NULL) != 0)
        return -1;
    return kq;
}

static int ring(int kq, int *weight) {
    struct kevent change;
    EV_SET(&change, 2, EVFILT_USER, 0, NOTE_TRIGGER, 0, weight);
    return kevent(kq, &change, 1, NULL, 0, NULL);
}

/* ---- the simulated side: what happens to the loop */

struct kqsim_process kqsim_process;

enum { PID = 1, SOCKET = 3 };

static void want(int holds, const char *what) {
    if (!holds) {
        printf("loop: not so: %s\n", what);
        exit(1);
    }
}

static void read_bytes(int fd, int n) {
    want(kqsim_read(kqsim_process.sim, PID, (uint32_t)fd, (uint32_t)n) == KQSIM_OK, "the bytes are read");
}

int main(void) {
    struct kqsim *sim = NULL;
    struct kevent change;
    int weight = 5, kq;
    want(kqsim_new(3, &sim) == KQSIM_ARGUMENT && sim == NULL, "version 3 is refused");
    want(kqsim_new(2, &sim) == KQSIM_OK, "a system is made");
    want(kqsim_proc(sim, PID) == KQSIM_OK, "a process starts");
    want(kqsim_proc(sim, PID) == KQSIM_USED_PID, "its pid is used");
    want(kqsim_socket(sim, PID, SOCKET, 4096, 4096) == KQSIM_OK, "it makes a socket");
    want(kqsim_connect(sim, PID, SOCKET) == KQSIM_OK, "the socket is connected");
    kqsim_process.sim = sim;
    kqsim_process.pid = PID;
    kqsim_process.next = 10;

    kq = start(SOCKET, &weight);
    want(kq == 10, "the loop starts");
    want(turn(kq, read_bytes) == 0, "nothing has happened");
    want(kqsim_rx(sim, PID, SOCKET, 300) == KQSIM_OK, "bytes come");
    want(kqsim_rx(sim, PID, SOCKET, 4000) == KQSIM_TOO_MANY, "more than fit do not");
    want(turn(kq, read_bytes) == 1 && bytes_read == 300, "the loop reads them");
    want(turn(kq, read_bytes) == 0, "and reads them once");
    want(kqsim_clock(sim, 35000000) == KQSIM_OK, "35 ms pass");
    want(turn(kq, read_bytes) == 1 && ticks == 3, "the timer expired three times");
    want(ring(kq, &weight) == 0 && turn(kq, read_bytes) == 1 && rings == 5, "the doorbell rings, with its udata");
    want(turn(kq, read_bytes) == 0, "and rings once");

    EV_SET(&change, 9, EVFILT_USER, EV_DELETE, 0, 0, NULL);
    errno = 0;
    want(kevent(kq, &change, 1, NULL, 0, NULL) == -1 && errno == ENOENT, "a kevent that is not there is ENOENT");
    EV_SET(&change, 9, EVFILT_USER, 0x200, 0, 0, NULL);
    want(kevent(kq, &change, 1, NULL, 0, NULL) == -1 && errno == EINVAL, "a flag that is not known is refused");
    EV_SET(&change, 9, -20, EV_ADD, 0, 0, NULL);
    want(kevent(kq, &change, 1, NULL, 0, NULL) == -1 && errno == EINVAL, "so is a filter");
    want(kevent(kq + 1, NULL, 0, NULL, 0, NULL) == -1 && errno == EBADF, "another number is no kqueue");
    want(kqsim_shut(sim, PID, SOCKET, 2, 0) == KQSIM_ARGUMENT, "a socket has two sides");
    want(kqsim_close(sim, PID, (uint32_t)kq) == KQSIM_OK, "the kqueue is closed");
    kqsim_free(sim);
    printf("read %d bytes, %d ticks, %d rings\n", bytes_read, ticks, rings);
    return 0;
}
