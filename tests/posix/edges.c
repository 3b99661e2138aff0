/* EV_CLEAR as an event loop uses it that answers each event by reading just the bytes that it told of, while others
 * write: no edge may be lost. */
#define _GNU_SOURCE
#include "check.h"

#include <arpa/inet.h>
#include <pthread.h>
#include <stdatomic.h>
#include <stdbool.h>
#include <stdlib.h>
#include <sys/socket.h>
#include <unistd.h>

enum { PAIRS = 32, ROUNDS = 1000, THREADS = 4, MOST = 400 };
static int ends[PAIRS][2];
static atomic_long sent;
static atomic_int giving = THREADS;

/* Writes to each of its pairs in turn, often the same count twice. */
static void *give(void *argument) {
    static const char text[MOST];
    unsigned seed = (unsigned)(long)argument;
    for (int round = 0; round < ROUNDS; round++)
        for (long pair = (long)argument; pair < PAIRS; pair += THREADS) {
            size_t count = rand_r(&seed) % 4 == 0 ? 10 : 1 + (size_t)rand_r(&seed) % MOST;
            if (send(ends[pair][1], text, count, 0) != (ssize_t)count)
                abort();
            sent += (long)count;
        }
    giving--;
    return NULL;
}

/* Every second pair is of TCP. */
static void make_pair(int pair) {
    struct sockaddr_in name = {.sin_family = AF_INET, .sin_addr.s_addr = htonl(INADDR_LOOPBACK)};
    socklen_t size = sizeof name;
    if (pair % 2 == 0) {
        WANT(socketpair(AF_UNIX, SOCK_STREAM, 0, ends[pair]) == 0);
        return;
    }
    int listener = socket(AF_INET, SOCK_STREAM, 0);
    WANT(bind(listener, (struct sockaddr *)&name, size) == 0 && listen(listener, 1) == 0);
    WANT(getsockname(listener, (struct sockaddr *)&name, &size) == 0);
    ends[pair][1] = socket(AF_INET, SOCK_STREAM, 0);
    WANT(connect(ends[pair][1], (struct sockaddr *)&name, size) == 0);
    ends[pair][0] = accept(listener, NULL, NULL);
    close(listener);
}

/* The bytes of one event. */
static long read_event(const struct kevent *event) {
    static char text[1 << 20];
    ssize_t count = recv((int)event->ident, text, (size_t)event->data, MSG_DONTWAIT);
    WANT(event->data > 0 && count == (ssize_t)event->data);
    return count > 0 ? count : 0;
}

int main(void) {
    pthread_t givers[THREADS];
    long bytes = 0;
    bool is_over = false;
    int kq = kqueue(), count;
    for (int pair = 0; pair < PAIRS; pair++) {
        make_pair(pair);
        WANT(change(kq, (uintptr_t)ends[pair][0], EVFILT_READ, EV_ADD | EV_CLEAR, 0, 0) == 0);
    }
    for (long i = 0; i < THREADS; i++)
        WANT(pthread_create(&givers[i], NULL, give, (void *)i) == 0);
    while (!is_over) {
        bool is_giving = giving > 0;
        count = take(kq, is_giving ? 10 : SOON);
        WANT(count >= 0);
        for (int i = 0; i < count; i++)
            bytes += read_event(&got[i]);
        is_over = !is_giving && (count <= 0 || bytes == sent);
    }
    WANT(bytes == sent && take(kq, 0) == 0);
    for (int i = 0; i < THREADS; i++)
        WANT(pthread_join(givers[i], NULL) == 0);
    return check_end("edges");
}
