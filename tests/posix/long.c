/* long ROUNDS [flat]: numbers, timers and kqueues come and go. With `flat` as many rounds again, after which the process
 * has at most a tenth more memory than before them: what was lost in each round would have doubled. The system has lists
 * of its first 2^20 records, some megabytes in all, so the first rounds have to make as many. */
#define _GNU_SOURCE
#include "check.h"

#include <stdlib.h>
#include <sys/socket.h>
#include <unistd.h>

/* Kilobytes of the process, in memory. */
static long resident(void) {
    long all = 0, pages = 0;
    FILE *file = fopen("/proc/self/statm", "r");
    WANT(file != NULL && fscanf(file, "%ld %ld", &all, &pages) == 2);
    fclose(file);
    return pages * (sysconf(_SC_PAGESIZE) / 1024);
}

static void turn(int kq, int round) {
    char text[8];
    int ends[2], other = round % 16 == 0 ? kqueue() : -1;
    if (round % 2 == 0)
        WANT(socketpair(AF_UNIX, SOCK_STREAM, 0, ends) == 0);
    else
        WANT(pipe(ends) == 0);
    WANT(change(kq, (uintptr_t)ends[0], EVFILT_READ, EV_ADD | (round % 3 == 0 ? EV_CLEAR : 0), 0, 0) == 0);
    WANT(change(kq, (uintptr_t)round, EVFILT_TIMER, EV_ADD | EV_ONESHOT, NOTE_SECONDS, 1000) == 0);
    if (other >= 0)
        WANT(change(other, (uintptr_t)ends[0], EVFILT_READ, EV_ADD, 0, 0) == 0);
    WANT(write(ends[1], "hello", 5) == 5 && take(kq, SOON) == 1 && got[0].data == 5);
    WANT(read(ends[0], text, sizeof text) == 5 && take(kq, 0) == 0);
    WANT(change(kq, (uintptr_t)round, EVFILT_TIMER, EV_DELETE, 0, 0) == 0);
    close(ends[0]);
    close(ends[1]);
    if (other >= 0)
        close(other);
}

int main(int argc, char **argv) {
    int rounds = argc > 1 ? atoi(argv[1]) : 100000, kq = kqueue();
    long start = resident();
    for (int round = 0; round < rounds; round++)
        turn(kq, round);
    if (argc > 2) {
        long once = resident() - start;
        for (int round = 0; round < rounds; round++)
            turn(kq, rounds + round);
        long twice = resident() - start;
        printf("long: %ld kB more after %d rounds, %ld kB after twice as many\n", once, rounds, twice);
        WANT(twice <= once + once / 10);
    }
    return check_end("long");
}
