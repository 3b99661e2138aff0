/* Children of fork have no kqueue of their parent's, and a trace of their own with their first. One ends by _exit; one
 * is killed while it waits, and what it has logged is there. */
#define _GNU_SOURCE
#include "check.h"

#include <errno.h>
#include <signal.h>
#include <stdlib.h>
#include <sys/wait.h>
#include <unistd.h>

static void of_own(int kq, int ends[2]) {
    char text[8];
    if (take(kq, 0) != -1 || errno != EBADF)
        _exit(1);
    int own = kqueue(); /* (often of the same number) */
    if (change(own, (uintptr_t)ends[0], EVFILT_READ, EV_ADD, 0, 0) != 0 || write(ends[1], "x", 1) != 1)
        _exit(2);
    _exit(take(own, SOON) == 1 && got[0].data == 1 && read(ends[0], text, 1) == 1 && take(own, 0) == 0 ? 0 : 3);
}

static void that_waits(void) {
    int own = kqueue();
    if (change(own, 1, EVFILT_TIMER, EV_ADD | EV_ONESHOT, NOTE_MSECONDS, 1) != 0 || take(own, SOON) != 1)
        _exit(1);
    kevent(own, NULL, 0, got, 1, NULL);
    _exit(2);
}

/* The letter of proc(5): S is a process that sleeps. */
static char state_of(pid_t pid) {
    char path[64], state = 0;
    snprintf(path, sizeof path, "/proc/%d/stat", (int)pid);
    FILE *file = fopen(path, "r");
    if (file == NULL)
        return 0;
    if (fscanf(file, "%*d (%*[^)]) %c", &state) != 1)
        state = 0;
    fclose(file);
    return state;
}

/* Whether it has slept each time that it was looked at, for a while. */
static int is_asleep(pid_t pid) {
    int times = 0;
    for (int i = 0; i < SOON && times < 50; i++) {
        times = state_of(pid) == 'S' ? times + 1 : 0;
        usleep(1000);
    }
    return times == 50;
}

int main(void) {
    int kq = kqueue(), ends[2], status;
    WANT(kq >= 0 && pipe(ends) == 0);
    WANT(change(kq, (uintptr_t)ends[0], EVFILT_READ, EV_ADD | EV_CLEAR, 0, 0) == 0 && take(kq, 0) == 0);
    pid_t child = fork();
    if (child == 0)
        of_own(kq, ends);
    WANT(waitpid(child, &status, 0) == child && status == 0);
    child = fork();
    if (child == 0)
        that_waits();
    WANT(is_asleep(child) && kill(child, SIGKILL) == 0 && waitpid(child, &status, 0) == child);
    WANT(WIFSIGNALED(status) && WTERMSIG(status) == SIGKILL);
    WANT(write(ends[1], "x", 1) == 1 && take(kq, SOON) == 1);
    return check_end("children");
}
