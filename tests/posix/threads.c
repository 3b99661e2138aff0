/* Threads share a kqueue: with EV_DISPATCH each event goes to one of them, no byte is lost and none read twice, and
 * what is closed by one while the others wait is nobody's. Each thread has a kqueue of its own too. */
#define _GNU_SOURCE
#include "check.h"

#include <pthread.h>
#include <stdatomic.h>
#include <stdlib.h>
#include <sys/socket.h>
#include <unistd.h>

enum { PAIRS = 32, ROUNDS = 200, THREADS = 4, TEXT = 10, BELL = 1 };
static int kq, ends[PAIRS][2];
static atomic_long bytes, twice;
static atomic_int busy[PAIRS];

static void ring(int at) {
    struct kevent it;
    EV_SET(&it, BELL, EVFILT_USER, 0, NOTE_TRIGGER, 0, NULL);
    if (kevent(at, &it, 1, NULL, 0, NULL) != 0)
        abort();
}

static void take_pair(const struct kevent *event) {
    struct kevent again;
    char text[512];
    long pair = (long)event->udata;
    if (atomic_fetch_add(&busy[pair], 1) != 0)
        twice++;
    ssize_t count = recv(ends[pair][0], text, sizeof text, MSG_DONTWAIT);
    bytes += count > 0 ? count : 0;
    atomic_fetch_sub(&busy[pair], 1);
    EV_SET(&again, event->ident, EVFILT_READ, EV_ENABLE, 0, 0, event->udata);
    if (kevent(kq, &again, 1, NULL, 0, NULL) != 0)
        abort();
}

/* Takes until the bell rings, which stays: it is without EV_CLEAR. */
static void *take_all(void *argument) {
    struct kevent events[4];
    (void)argument;
    for (;;) {
        int count = kevent(kq, NULL, 0, events, 4, NULL);
        if (count < 0)
            abort();
        for (int i = 0; i < count; i++) {
            if (events[i].filter == EVFILT_USER)
                return NULL;
            take_pair(&events[i]);
        }
    }
}

static void *give(void *argument) {
    for (int round = 0; round < ROUNDS; round++)
        for (long pair = (long)argument; pair < PAIRS; pair += THREADS)
            if (write(ends[pair][1], "0123456789", TEXT) != TEXT)
                abort();
    return NULL;
}

/* Opens, watches and closes numbers that come again, in the shared kqueue and in one of its own. */
static void *churn(void *argument) {
    int own = kqueue(), more[2];
    struct kevent it, event;
    struct timespec second = {10, 0};
    (void)argument;
    for (int round = 0; round < ROUNDS; round++) {
        if (socketpair(AF_UNIX, SOCK_STREAM, 0, more) != 0)
            abort();
        EV_SET(&it, more[0], EVFILT_WRITE, EV_ADD | EV_DISABLE, 0, 0, NULL);
        if (kevent(kq, &it, 1, NULL, 0, NULL) != 0)
            abort();
        EV_SET(&it, more[0], EVFILT_READ, EV_ADD | EV_ONESHOT, 0, 0, NULL);
        if (write(more[1], "x", 1) != 1 || kevent(own, &it, 1, &event, 1, &second) != 1 || event.ident != it.ident)
            abort();
        close(more[0]);
        close(more[1]);
    }
    close(own);
    return NULL;
}

static void begin(pthread_t *threads, void *(*work)(void *)) {
    for (long i = 0; i < THREADS; i++)
        WANT(pthread_create(&threads[i], NULL, work, (void *)i) == 0);
}

static void end(pthread_t *threads) {
    for (int i = 0; i < THREADS; i++)
        WANT(pthread_join(threads[i], NULL) == 0);
}

int main(void) {
    pthread_t takers[THREADS], givers[THREADS], churners[THREADS];
    kq = kqueue();
    for (long pair = 0; pair < PAIRS; pair++) {
        struct kevent it;
        WANT(socketpair(AF_UNIX, SOCK_STREAM, 0, ends[pair]) == 0);
        EV_SET(&it, ends[pair][0], EVFILT_READ, EV_ADD | EV_DISPATCH, 0, 0, (void *)pair);
        WANT(kevent(kq, &it, 1, NULL, 0, NULL) == 0);
    }
    WANT(change(kq, BELL, EVFILT_USER, EV_ADD, 0, 0) == 0);
    begin(takers, take_all);
    begin(givers, give);
    begin(churners, churn);
    end(givers);
    end(churners);
    for (int i = 0; i < SOON && bytes < PAIRS * ROUNDS * TEXT; i++)
        usleep(1000);
    ring(kq);
    end(takers);
    WANT(bytes == PAIRS * ROUNDS * TEXT && twice == 0);
    return check_end("threads");
}
