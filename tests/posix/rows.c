/* Each filter over real descriptors, in one thread: what is wanted is what kqueue(2) of FreeBSD says. */
#define _GNU_SOURCE
#include "check.h"

#include <arpa/inet.h>
#include <errno.h>
#include <fcntl.h>
#include <poll.h>
#include <pthread.h>
#include <signal.h>
#include <stdatomic.h>
#include <stdbool.h>
#include <stdlib.h>
#include <string.h>
#include <sys/eventfd.h>
#include <sys/pidfd.h>
#include <sys/socket.h>
#include <sys/stat.h>
#include <sys/syscall.h>
#include <sys/wait.h>
#include <unistd.h>

static int kq;

/* ---- descriptors */

static void pipes(void) {
    int ends[2];
    char text[100];
    WANT(pipe(ends) == 0);
    WANT(change(kq, ends[0], EVFILT_READ, EV_ADD, 0, 0) == 0 && take(kq, 0) == 0);
    WANT(write(ends[1], "hello", 5) == 5);
    WANT(take(kq, SOON) == 1 && got[0].data == 5 && got[0].ident == (uintptr_t)ends[0] && got[0].udata == (void *)0x77);
    WANT(take(kq, 0) == 1 && read(ends[0], text, 3) == 3 && take(kq, 0) == 1 && got[0].data == 2);
    WANT(read(ends[0], text, 3) == 2 && take(kq, 0) == 0);
    WANT(change(kq, ends[1], EVFILT_WRITE, EV_ADD | EV_CLEAR, 0, 0) == 0);
    WANT(take(kq, 0) == 1 && got[0].filter == EVFILT_WRITE && got[0].data == fcntl(ends[1], F_GETPIPE_SZ));
    WANT(take(kq, 0) == 0);
    close(ends[1]);
    WANT(take(kq, SOON) == 1 && got[0].flags & EV_EOF && got[0].data == 0);
    close(ends[0]);
    WANT(take(kq, 0) == 0);
    WANT(change(kq, ends[0], EVFILT_READ, EV_DELETE, 0, 0) == -1 && errno == EBADF);
}

static void full_pipe(void) {
    static char text[1 << 16];
    int ends[2];
    WANT(pipe2(ends, O_NONBLOCK) == 0);
    while (write(ends[1], text, sizeof text) > 0)
        continue;
    WANT(change(kq, ends[1], EVFILT_WRITE, EV_ADD, 0, 0) == 0 && take(kq, 0) == 0);
    while (read(ends[0], text, sizeof text) > 0)
        continue;
    WANT(take(kq, SOON) == 1 && got[0].filter == EVFILT_WRITE && got[0].data > 0);
    close(ends[0]);
    WANT(take(kq, SOON) == 1 && got[0].flags & EV_EOF);
    close(ends[1]);
}

static int listening(struct sockaddr_in *name) {
    socklen_t size = sizeof *name;
    int listener = socket(AF_INET, SOCK_STREAM, 0);
    *name = (struct sockaddr_in){.sin_family = AF_INET, .sin_addr.s_addr = htonl(INADDR_LOOPBACK)};
    WANT(bind(listener, (struct sockaddr *)name, size) == 0 && listen(listener, 8) == 0);
    WANT(getsockname(listener, (struct sockaddr *)name, &size) == 0);
    return listener;
}

static int connected(const struct sockaddr_in *name) {
    int fd = socket(AF_INET, SOCK_STREAM, 0);
    WANT(connect(fd, (const struct sockaddr *)name, sizeof *name) == 0);
    return fd;
}

/* Whether so many are told, once all that is on its way has come. */
static int comes_to(int64_t data) {
    for (int i = 0; i < SOON; i++) {
        if (take(kq, SOON) == 1 && got[0].data >= data)
            return got[0].data == data;
        usleep(1000);
    }
    return 0;
}

static void listeners(void) {
    struct sockaddr_in name;
    int listener = listening(&name), ends[3], accepted[3];
    WANT(change(kq, listener, EVFILT_READ, EV_ADD, 0, 0) == 0 && take(kq, 0) == 0);
    for (int i = 0; i < 3; i++) {
        ends[i] = connected(&name);
        WANT(comes_to(i + 1) && got[0].ident == (uintptr_t)listener);
    }
    for (int i = 0; i < 3; i++) {
        accepted[i] = accept(listener, NULL, NULL);
        WANT(take(kq, 0) == (i < 2) && (i == 2 || got[0].data == 2 - i));
    }
    for (int i = 0; i < 3; i++) {
        close(ends[i]);
        close(accepted[i]);
    }
    close(listener);
}

static void sockets(void) {
    struct sockaddr_in name;
    char text[100];
    int listener = listening(&name), a = connected(&name), b = accept(listener, NULL, NULL);
    /* An edge for each arrival, also where the count is the same when it is looked at. */
    WANT(change(kq, b, EVFILT_READ, EV_ADD | EV_CLEAR, 0, 0) == 0);
    for (int i = 0; i < 3; i++) {
        WANT(send(a, "12345", 5, 0) == 5 && take(kq, SOON) == 1 && got[0].data == 5 && take(kq, 0) == 0);
        WANT(read(b, text, 5) == 5);
    }
    WANT(change(kq, b, EVFILT_READ, EV_ADD, NOTE_LOWAT, 8) == 0 && take(kq, 0) == 0);
    WANT(send(a, "12345", 5, 0) == 5 && take(kq, 20) == 0);
    WANT(send(a, "abc", 3, 0) == 3 && take(kq, SOON) == 1 && got[0].data == 8);
    WANT(shutdown(a, SHUT_WR) == 0 && take(kq, SOON) == 1 && got[0].flags & EV_EOF && got[0].data == 8);
    /* A closed number has no kevents, and its next use starts anew. */
    close(b);
    WANT(take(kq, 0) == 0 && dup2(a, b) == b && take(kq, 0) == 0);
    WANT(change(kq, b, EVFILT_WRITE, EV_ENABLE, 0, 0) == -1 && errno == ENOENT);
    close(a);
    close(b);
    close(listener);
}

/* Two kqueues with EV_CLEAR tell of each arrival once, each. */
static void sockets_of_two(void) {
    int ends[2], other = kqueue();
    char text[8];
    WANT(socketpair(AF_UNIX, SOCK_STREAM, 0, ends) == 0);
    WANT(change(kq, ends[0], EVFILT_READ, EV_ADD | EV_CLEAR, 0, 0) == 0 && take(kq, 0) == 0);
    WANT(change(other, ends[0], EVFILT_READ, EV_ADD | EV_CLEAR, 0, 0) == 0 && take(other, 0) == 0);
    for (int i = 0; i < 3; i++) {
        WANT(write(ends[1], "12345", 5) == 5);
        WANT(take(kq, SOON) == 1 && got[0].data == 5 && take(other, SOON) == 1 && got[0].data == 5);
        WANT(take(kq, 0) == 0 && take(other, 0) == 0 && read(ends[0], text, 5) == 5);
    }
    close(other);
    close(ends[0]);
    close(ends[1]);
}

static void connections(void) {
    struct sockaddr_in name;
    int listener = listening(&name), a = socket(AF_INET, SOCK_STREAM | SOCK_NONBLOCK, 0), b;
    WANT(connect(a, (struct sockaddr *)&name, sizeof name) == 0 || errno == EINPROGRESS);
    WANT(change(kq, a, EVFILT_WRITE, EV_ADD | EV_ONESHOT, 0, 0) == 0);
    WANT(take(kq, SOON) == 1 && got[0].filter == EVFILT_WRITE && !(got[0].flags & EV_EOF) && take(kq, 0) == 0);
    close(a);
    close(listener);
    /* (nobody listens there now) */
    b = socket(AF_INET, SOCK_STREAM | SOCK_NONBLOCK, 0);
    WANT(connect(b, (struct sockaddr *)&name, sizeof name) == -1);
    if (errno == EINPROGRESS) {
        WANT(change(kq, b, EVFILT_WRITE, EV_ADD, 0, 0) == 0);
        WANT(take(kq, SOON) == 1 && got[0].flags & EV_EOF && got[0].fflags == ECONNREFUSED);
    }
    close(b);
}

static void datagrams(void) {
    int ends[2];
    char text[100];
    WANT(socketpair(AF_UNIX, SOCK_DGRAM, 0, ends) == 0);
    WANT(change(kq, ends[0], EVFILT_READ, EV_ADD, 0, 0) == 0 && take(kq, 0) == 0);
    WANT(send(ends[1], "hello", 5, 0) == 5 && take(kq, SOON) == 1 && got[0].data == 5);
    WANT(recv(ends[0], text, sizeof text, 0) == 5 && take(kq, 0) == 0);
    close(ends[0]);
    close(ends[1]);
}

static void counters(void) {
    int counter = eventfd(0, EFD_NONBLOCK);
    uint64_t value = 3;
    WANT(change(kq, counter, EVFILT_READ, EV_ADD | EV_CLEAR, 0, 0) == 0 && take(kq, 0) == 0);
    for (int i = 0; i < 2; i++) {
        WANT(write(counter, &value, sizeof value) == sizeof value);
        WANT(take(kq, SOON) == 1 && got[0].ident == (uintptr_t)counter && take(kq, 0) == 0);
    }
    WANT(read(counter, &value, sizeof value) == sizeof value && value == 6 && take(kq, 0) == 0);
    close(counter);
}

static void terminals(void) {
    int master = posix_openpt(O_RDWR | O_NOCTTY);
    if (master < 0 || grantpt(master) != 0 || unlockpt(master) != 0) {
        printf("rows: no terminal: not tried\n");
        return;
    }
    char text[100];
    int terminal = open(ptsname(master), O_RDWR | O_NOCTTY);
    WANT(terminal >= 0);
    WANT(change(kq, terminal, EVFILT_READ, EV_ADD, 0, 0) == 0 && take(kq, 0) == 0);
    WANT(write(master, "line\n", 5) == 5 && take(kq, SOON) == 1 && got[0].data == 5);
    WANT(read(terminal, text, sizeof text) == 5 && take(kq, 0) == 0);
    close(master);
    WANT(take(kq, SOON) == 1 && got[0].flags & EV_EOF);
    close(terminal);
}

/* ---- timers, user events */

static void timers(void) {
    struct timespec day;
    WANT(change(kq, 1, EVFILT_TIMER, EV_ADD, NOTE_MSECONDS, 5) == 0);
    WANT(take(kq, SOON) == 1 && got[0].data >= 1 && got[0].ident == 1);
    usleep(30000);
    WANT(take(kq, 0) == 1 && got[0].data >= 4);
    WANT(change(kq, 1, EVFILT_TIMER, EV_DELETE, 0, 0) == 0 && take(kq, 20) == 0);
    WANT(change(kq, 2, EVFILT_TIMER, EV_ADD | EV_ONESHOT, NOTE_USECONDS, 3000) == 0);
    WANT(take(kq, SOON) == 1 && got[0].data == 1 && take(kq, 10) == 0);
    WANT(change(kq, 2, EVFILT_TIMER, EV_DELETE, 0, 0) == -1 && errno == ENOENT);
    WANT(change(kq, 3, EVFILT_TIMER, EV_ADD | EV_ONESHOT, NOTE_NSECONDS, 2000000) == 0 && take(kq, SOON) == 1);
    WANT(change(kq, 4, EVFILT_TIMER, EV_ADD, NOTE_SECONDS, 1000) == 0 && take(kq, 0) == 0);
    WANT(change(kq, 4, EVFILT_TIMER, EV_DELETE, 0, 0) == 0);
    clock_gettime(CLOCK_REALTIME, &day);
    int64_t moment = (int64_t)day.tv_sec * 1000 + day.tv_nsec / 1000000 + 100;
    WANT(change(kq, 5, EVFILT_TIMER, EV_ADD | EV_ONESHOT, NOTE_MSECONDS | NOTE_ABSTIME, moment) == 0);
    WANT(take(kq, SOON) == 1 && got[0].ident == 5);
    clock_gettime(CLOCK_REALTIME, &day);
    WANT((int64_t)day.tv_sec * 1000 + day.tv_nsec / 1000000 >= moment);
}

/* A timer that expires while another kqueue is called, or this one without room, is not lost. */
static void timers_unseen(void) {
    int other = kqueue();
    for (int round = 0; round < 2; round++) {
        WANT(change(other, 1, EVFILT_TIMER, EV_ADD | EV_ONESHOT, NOTE_MSECONDS, 50) == 0);
        if (take(other, 0) > 0)
            continue; /* (this machine is slow) */
        usleep(60000);
        WANT(round == 0 ? take(kq, 0) == 0 : kevent(other, NULL, 0, NULL, 0, NULL) == 0);
        WANT(take(other, SOON) == 1 && got[0].data == 1);
    }
    close(other);
}

/* A user event without EV_CLEAR is given until it is taken back. */
static void user_events(void) {
    struct timespec minute = {60, 0};
    WANT(change(kq, 9, EVFILT_USER, EV_ADD | EV_CLEAR, NOTE_FFCOPY | 5, 0) == 0 && take(kq, 0) == 0);
    WANT(change(kq, 9, EVFILT_USER, 0, NOTE_TRIGGER | NOTE_FFOR | 2, 0) == 0);
    WANT(take(kq, SOON) == 1 && got[0].fflags == 7 && take(kq, 0) == 0);
    WANT(change(kq, 9, EVFILT_USER, EV_DELETE, 0, 0) == 0);
    WANT(change(kq, 9, EVFILT_USER, EV_ADD, NOTE_TRIGGER, 0) == 0);
    for (int i = 0; i < 3; i++)
        WANT(kevent(kq, NULL, 0, got, ROOM, &minute) == 1 && got[0].filter == EVFILT_USER);
    WANT(change(kq, 9, EVFILT_USER, EV_DELETE, 0, 0) == 0 && take(kq, 0) == 0);
}

static void *trigger(void *argument) {
    usleep(20000);
    WANT(change(*(int *)argument, 9, EVFILT_USER, 0, NOTE_TRIGGER, 0) == 0);
    return NULL;
}

static void user_from_a_thread(void) {
    pthread_t thread;
    WANT(change(kq, 9, EVFILT_USER, EV_ADD | EV_CLEAR, 0, 0) == 0 && take(kq, 0) == 0);
    WANT(pthread_create(&thread, NULL, trigger, &kq) == 0);
    WANT(take(kq, SOON) == 1 && got[0].filter == EVFILT_USER && take(kq, 0) == 0);
    pthread_join(thread, NULL);
    WANT(change(kq, 9, EVFILT_USER, EV_DELETE, 0, 0) == 0);
}

/* ---- signals, processes */

static volatile sig_atomic_t handled, to_close = -1;
static void on_signal(int number) {
    int kept = errno;
    handled += number == SIGUSR1;
    if (to_close >= 0)
        close(to_close);
    errno = kept;
}

static void signals(void) {
    signal(SIGUSR1, SIG_IGN);
    WANT(change(kq, SIGUSR1, EVFILT_SIGNAL, EV_ADD, 0, 0) == 0 && take(kq, 0) == 0);
    kill(getpid(), SIGUSR1);
    WANT(take(kq, SOON) == 1 && got[0].ident == SIGUSR1 && got[0].data == 1 && take(kq, 0) == 0);
    WANT(signal(SIGUSR1, on_signal) == SIG_IGN);
    kill(getpid(), SIGUSR1);
    WANT(take(kq, SOON) == 1 && handled == 1);
    WANT(change(kq, SIGUSR1, EVFILT_SIGNAL, EV_DELETE, 0, 0) == 0);
    kill(getpid(), SIGUSR1);
    WANT(handled == 2 && take(kq, 0) == 0);
    WANT(signal(SIGUSR1, SIG_DFL) == on_signal);
}

static atomic_bool is_interrupted;

/* (again and again: the first may come before the call waits) */
static void *interrupt(void *argument) {
    while (!is_interrupted) {
        usleep(20000);
        pthread_kill(*(pthread_t *)argument, SIGUSR1);
    }
    return NULL;
}

/* A handler ends a call that waits, also where SA_RESTART is set; and it may close what is watched. */
static void interrupted(void) {
    pthread_t thread, self = pthread_self();
    int ends[2];
    WANT(pipe(ends) == 0 && change(kq, ends[0], EVFILT_READ, EV_ADD, 0, 0) == 0 && write(ends[1], "x", 1) == 1);
    WANT(take(kq, SOON) == 1);
    WANT(change(kq, ends[0], EVFILT_READ, EV_DISABLE, 0, 0) == 0);
    to_close = ends[0];
    signal(SIGUSR1, on_signal);
    WANT(pthread_create(&thread, NULL, interrupt, &self) == 0);
    WANT(take(kq, SOON) == -1 && errno == EINTR);
    is_interrupted = true;
    pthread_join(thread, NULL);
    WANT(change(kq, ends[0], EVFILT_READ, EV_ENABLE, 0, 0) == -1 && errno == EBADF);
    signal(SIGUSR1, SIG_DFL);
    to_close = -1;
    close(ends[1]);
}

/* (valgrind has no pidfd_open) */
static int has_processes(void) {
    int fd = pidfd_open(getpid(), 0);
    if (fd < 0) {
        printf("rows: no pidfd_open: not tried\n");
        return 0;
    }
    close(fd);
    return 1;
}

static volatile sig_atomic_t storms;
static void on_storm(int number) {
    int kept = errno;
    (void)number;
    close(dup(0));
    storms = storms + 1;
    errno = kept;
}

static void *storm(void *argument) {
    while (!is_interrupted)
        pthread_kill(*(pthread_t *)argument, SIGUSR1);
    return NULL;
}

/* A handler that closes numbers may come at any moment of a call. */
static void storms_of_signals(void) {
    pthread_t thread, self = pthread_self();
    int ends[2];
    WANT(pipe(ends) == 0 && change(kq, ends[0], EVFILT_READ, EV_ADD, 0, 0) == 0);
    signal(SIGUSR1, on_storm);
    is_interrupted = false;
    WANT(pthread_create(&thread, NULL, storm, &self) == 0);
    int64_t start = milliseconds_now();
    for (int i = 0; i < 300 || (storms < 100 && milliseconds_now() - start < SOON); i++) {
        char one;
        int count = write(ends[1], "x", 1) == 1 ? take(kq, 0) : 0;
        WANT(count == 1 && got[0].data == 1 && read(ends[0], &one, 1) == 1);
    }
    is_interrupted = true;
    pthread_join(thread, NULL);
    signal(SIGUSR1, SIG_DFL);
    WANT(storms >= 100 && take(kq, 0) == 0);
    close(ends[0]);
    close(ends[1]);
}

static void processes(void) {
    const struct timespec none = {0, 0};
    int gate[2];
    char one;
    WANT(pipe(gate) == 0);
    fflush(stdout);
    pid_t child = fork();
    if (child == 0) {
        if (read(gate[0], &one, 1) != 1)
            _exit(5);
        /* no kqueue in a child */
        _exit(kevent(kq, NULL, 0, got, 1, &none) == -1 && errno == EBADF ? 3 : 4);
    }
    WANT(change(kq, (uintptr_t)child, EVFILT_PROC, EV_ADD, NOTE_EXIT, 0) == 0 && take(kq, 0) == 0);
    WANT(write(gate[1], "x", 1) == 1);
    close(gate[0]);
    close(gate[1]);
    WANT(take(kq, SOON) == 1 && got[0].ident == (uintptr_t)child && got[0].fflags == NOTE_EXIT);
    WANT(got[0].data == 3 << 8 && got[0].flags & EV_EOF && take(kq, 0) == 0);
    WANT(change(kq, (uintptr_t)child, EVFILT_PROC, EV_ADD, NOTE_EXIT, 0) == -1 && errno == ESRCH);
    WANT(waitpid(child, NULL, 0) == child);
    WANT(change(kq, (uintptr_t)child, EVFILT_PROC, EV_ADD, NOTE_EXIT, 0) == -1 && errno == ESRCH);
}

/* A child that waits until it is killed; with the pid that was asked for, where the machine gives it. */
static pid_t child_of_pid(pid_t pid) {
    FILE *last = pid > 0 ? fopen("/proc/sys/kernel/ns_last_pid", "w") : NULL;
    if (last != NULL) {
        fprintf(last, "%d", (int)pid - 1);
        fclose(last);
    }
    fflush(stdout);
    pid_t child = fork();
    if (child == 0)
        for (;;)
            pause();
    return child;
}

static void pids_again(void) {
    pid_t first = child_of_pid(0), child = first;
    for (int i = 0; i < 3 && child == first; i++) {
        WANT(change(kq, (uintptr_t)child, EVFILT_PROC, EV_ADD, NOTE_EXIT, 0) == 0 && take(kq, 0) == 0);
        WANT(kill(child, SIGKILL) == 0 && take(kq, SOON) == 1);
        WANT(got[0].ident == (uintptr_t)child && got[0].data == SIGKILL);
        WANT(waitpid(child, NULL, 0) == child);
        child = i < 2 ? child_of_pid(first) : 0;
    }
    if (child == 0)
        return;
    printf("rows: a pid did not come again: not tried\n");
    WANT(kill(child, SIGKILL) == 0 && waitpid(child, NULL, 0) == child);
}

/* ---- files */

static void files(void) {
    char path[] = "/tmp/kqsim-rows-XXXXXX", other[40];
    int fd = mkstemp(path), more = open(path, O_WRONLY | O_APPEND);
    snprintf(other, sizeof other, "%s.2", path);
    WANT(change(kq, fd, EVFILT_VNODE, EV_ADD | EV_CLEAR, 0x7f, 0) == 0 && take(kq, 0) == 0);
    WANT(write(more, "hello", 5) == 5 && take(kq, SOON) == 1 && got[0].fflags == (NOTE_WRITE | NOTE_EXTEND));
    WANT(pwrite(fd, "J", 1, 0) == 1 && take(kq, SOON) == 1 && got[0].fflags == NOTE_WRITE);
    WANT(change(kq, fd, EVFILT_READ, EV_ADD, 0, 0) == 0 && take(kq, 0) == 1 && got[0].data == 5);
    WANT(lseek(fd, 0, SEEK_END) == 5 && take(kq, 0) == 0);
    WANT(write(more, "abc", 3) == 3 && take(kq, SOON) == 2);
    WANT(change(kq, fd, EVFILT_READ, EV_DELETE, 0, 0) == 0);
    WANT(link(path, other) == 0 && take(kq, SOON) == 1 && got[0].fflags == NOTE_LINK);
    WANT(unlink(path) == 0 && take(kq, SOON) == 1 && got[0].fflags == NOTE_LINK);
    WANT(rename(other, path) == 0 && take(kq, SOON) == 1 && got[0].fflags & NOTE_RENAME);
    WANT(fchmod(fd, 0600) == 0 && take(kq, SOON) == 1 && got[0].fflags == NOTE_ATTRIB);
    WANT(ftruncate(fd, 2) == 0 && take(kq, SOON) == 1 && got[0].fflags & NOTE_ATTRIB);
    WANT(unlink(path) == 0 && take(kq, SOON) == 1 && got[0].fflags & NOTE_DELETE);
    close(fd);
    close(more);
}

/* A note that another kqueue has sampled is this one's too. */
static void files_of_two(void) {
    char path[] = "/tmp/kqsim-rows-XXXXXX";
    int fd = mkstemp(path), other = kqueue();
    WANT(change(kq, fd, EVFILT_VNODE, EV_ADD | EV_CLEAR, NOTE_WRITE, 0) == 0);
    WANT(change(other, fd, EVFILT_VNODE, EV_ADD | EV_CLEAR, NOTE_WRITE, 0) == 0);
    WANT(take(kq, 0) == 0 && take(other, 0) == 0 && write(fd, "x", 1) == 1);
    WANT(take(kq, SOON) == 1 && take(other, SOON) == 1 && take(kq, 0) == 0 && take(other, 0) == 0);
    close(other);
    close(fd);
    unlink(path);
}

static void directories(void) {
    char path[] = "/tmp/kqsim-rows-XXXXXX", entry[40];
    WANT(mkdtemp(path) != NULL);
    int fd = open(path, O_RDONLY | O_DIRECTORY);
    snprintf(entry, sizeof entry, "%s/entry", path);
    WANT(change(kq, fd, EVFILT_VNODE, EV_ADD | EV_CLEAR, NOTE_WRITE | NOTE_LINK, 0) == 0 && take(kq, 0) == 0);
    WANT(mkdir(entry, 0700) == 0 && take(kq, SOON) == 1 && got[0].fflags == (NOTE_WRITE | NOTE_LINK));
    WANT(rmdir(entry) == 0 && take(kq, SOON) == 1 && got[0].fflags & NOTE_WRITE);
    close(fd);
    rmdir(path);
}

/* ---- calls */

static void errors(void) {
    const struct timespec none = {0, 0}, wrong = {0, 1000000000}, past = {-1, 0};
    struct kevent it;
    EV_SET(&it, 1, EVFILT_USER, EV_ADD, 0, 0, NULL);
    WANT(change(kq, (uintptr_t)-1, EVFILT_READ, EV_ADD, 0, 0) == -1 && errno == EBADF);
    WANT(change(kq, (uintptr_t)kq, EVFILT_READ, EV_ADD, 0, 0) == -1 && errno == EINVAL);
    WANT(change(kq, 5, EVFILT_USER, EV_DELETE, 0, 0) == -1 && errno == ENOENT);
    WANT(change(kq, 5, EVFILT_AIO, EV_ADD, 0, 0) == -1 && errno == EINVAL);
    WANT(change(kq, 5, -20, EV_ADD, 0, 0) == -1 && errno == EINVAL);
    WANT(change(kq, 5, EVFILT_USER, EV_ADD | 0x200, 0, 0) == -1 && errno == EINVAL);
    WANT(kevent(kq, &it, 1, got, 1, &wrong) == -1 && errno == EINVAL);
    WANT(kevent(kq, &it, 1, got, 1, &past) == -1 && errno == EINVAL);
    WANT(kevent(kq, &it, -1, got, 1, &none) == -1 && errno == EINVAL);
    WANT(kevent(kq, NULL, 1, got, 1, &none) == -1 && errno == EFAULT);
    WANT(kevent(9999, NULL, 0, got, 1, &none) == -1 && errno == EBADF);
    WANT(change(kq, 1, EVFILT_USER, EV_DELETE, 0, 0) == -1 && errno == ENOENT);
    WANT(kqueue1(1 << 30) == -1 && errno == EINVAL);
}

static void receipts(void) {
    struct kevent two[2];
    EV_SET(&two[0], 5, EVFILT_USER, EV_ADD | EV_RECEIPT, 0, 0, NULL);
    EV_SET(&two[1], 6, EVFILT_USER, EV_DELETE, 0, 0, NULL);
    WANT(kevent(kq, two, 2, two, 2, NULL) == 2 && two[0].flags & EV_ERROR && two[0].data == 0);
    WANT(two[1].flags & EV_ERROR && two[1].data == ENOENT);
    WANT(change(kq, 5, EVFILT_USER, EV_DELETE, 0, 0) == 0);
}

/* More changes than one record has. */
static void many_changes(void) {
    enum { MANY = 3000 };
    static struct kevent many[MANY], all[MANY];
    const struct timespec none = {0, 0};
    for (int i = 0; i < MANY; i++)
        EV_SET(&many[i], i, EVFILT_USER, EV_ADD | EV_ONESHOT, NOTE_TRIGGER, 0, NULL);
    WANT(kevent(kq, many, MANY, NULL, 0, NULL) == 0);
    WANT(kevent(kq, NULL, 0, all, MANY, &none) == MANY && all[MANY - 1].ident == MANY - 1);
    WANT(take(kq, 0) == 0);
}

static int is_readable(int fd) {
    struct pollfd one = {.fd = fd, .events = POLLIN};
    return poll(&one, 1, 0) == 1;
}

/* With KQSIM_POLLABLE a kqueue is readable while events may wait. */
static void pollable(void) {
    int ends[2], own;
    char text[8];
    WANT(setenv("KQSIM_POLLABLE", "1", 1) == 0);
    own = kqueue();
    WANT(own >= 0 && unsetenv("KQSIM_POLLABLE") == 0 && pipe(ends) == 0);
    WANT(change(own, ends[0], EVFILT_READ, EV_ADD, 0, 0) == 0 && take(own, 0) == 0 && !is_readable(own));
    WANT(write(ends[1], "x", 1) == 1 && is_readable(own));
    WANT(take(own, 0) == 1 && is_readable(own) && take(own, 0) == 1);
    WANT(read(ends[0], text, 1) == 1 && take(own, 0) == 0 && !is_readable(own));
    WANT(change(own, 1, EVFILT_USER, EV_ADD | EV_CLEAR, NOTE_TRIGGER, 0) == 0 && is_readable(own));
    WANT(take(own, 0) == 1 && !is_readable(own));
    close(own);
    close(ends[0]);
    close(ends[1]);
}

/* A program may close every number it knows; the library's own stay. */
static void numbers(void) {
    int ends[2], kept = kqueue1(O_CLOEXEC);
    WANT(kept >= 0 && fcntl(kept, F_GETFD) == FD_CLOEXEC && pipe(ends) == 0);
    WANT(change(kept, ends[0], EVFILT_READ, EV_ADD, 0, 0) == 0 && take(kept, 0) == 0);
    WANT(change(kept, SIGUSR2, EVFILT_SIGNAL, EV_ADD, 0, 0) == 0);
    for (int fd = 200; fd < 1024; fd++)
        close(fd);
    closefrom(200);
    WANT(kill(getpid(), SIGUSR2) == 0 && take(kept, SOON) == 1);
    WANT(write(ends[1], "x", 1) == 1 && take(kept, SOON) == 1);
    WANT(close_range((unsigned)kept, (unsigned)kept, 0) == 0);
    WANT(take(kept, 0) == -1 && errno == EBADF);
    close(ends[0]);
    close(ends[1]);
}

/* A number that was closed, and nobody said so, names another thing: its next change finds that. */
static void numbers_unseen(void) {
    int ends[2], others[2];
    char one;
    WANT(pipe(ends) == 0 && change(kq, ends[0], EVFILT_READ, EV_ADD, 0, 0) == 0);
    WANT(write(ends[1], "xy", 2) == 2 && take(kq, SOON) == 1 && got[0].data == 2);
    WANT(syscall(SYS_close_range, ends[0], ends[0], 0) == 0 && pipe(others) == 0 && others[0] == ends[0]);
    WANT(change(kq, others[0], EVFILT_READ, EV_ADD, 0, 0) == 0 && take(kq, 0) == 0);
    for (int turn = 0; turn < 2; turn++) {
        WANT(write(others[1], "x", 1) == 1 && take(kq, SOON) == 1 && got[0].data == 1);
        WANT(read(others[0], &one, 1) == 1 && take(kq, 0) == 0);
    }
    close(ends[1]);
    close(others[0]);
    close(others[1]);
}

int main(void) {
    kq = kqueue();
    WANT(kq >= 0);
    signal(SIGUSR2, SIG_IGN);
    pipes(), full_pipe(), listeners(), sockets(), sockets_of_two(), connections(), datagrams(), counters(), terminals();
    timers(), timers_unseen(), user_events(), user_from_a_thread();
    signals(), interrupted(), storms_of_signals();
    if (has_processes())
        processes(), pids_again();
    files(), files_of_two(), directories();
    errors(), receipts(), many_changes(), pollable(), numbers(), numbers_unseen();
    WANT(close(kq) == 0 && take(kq, 0) == -1 && errno == EBADF);
    return check_end("rows");
}
