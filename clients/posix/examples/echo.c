/* echo: an event loop that is written to kevent(2) alone, as it would be on FreeBSD.
 *
 * It listens on the loopback interface, gives back each line that its clients send, and closes who is silent for too
 * long. Its clients are children of its own. It ends when the last of them has exited and its clock has ticked, and
 * says what it has done.
 *
 *     cc -I include -o echo examples/echo.c -L out -lkqueue_kqsim && LD_LIBRARY_PATH=out ./echo 8 200
 */
#include <sys/event.h>

#include <arpa/inet.h>
#include <errno.h>
#include <signal.h>
#include <stdio.h>
#include <stdlib.h>
#include <string.h>
#include <sys/socket.h>
#include <sys/wait.h>
#include <unistd.h>

enum { EVENTS = 32, LINE = 64, SILENT_MS = 30000, TICK = 0, TICK_MS = 10 };

/* What it has done. */
static struct {
    long connections, bytes, ticks, children, failed, hangups;
} done;

static void die(const char *what) {
    perror(what);
    exit(1);
}

static void change(int kq, uintptr_t ident, short filter, unsigned short flags, unsigned fflags, int64_t data) {
    struct kevent it;
    EV_SET(&it, ident, filter, flags, fflags, data, NULL);
    if (kevent(kq, &it, 1, NULL, 0, NULL) != 0)
        die("kevent");
}

/* ---- a client, in a process of its own: it sends lines, and wants each back */

static void give_and_take(int fd, const char *line) {
    char back[LINE];
    size_t taken = 0;
    if (write(fd, line, LINE) != LINE)
        _exit(2);
    while (taken < LINE) {
        ssize_t count = read(fd, back + taken, LINE - taken);
        if (count <= 0)
            _exit(3);
        taken += (size_t)count;
    }
    if (memcmp(line, back, LINE) != 0)
        _exit(4);
}

static void client(const struct sockaddr_in *server, int lines) {
    char line[LINE];
    int fd = socket(AF_INET, SOCK_STREAM, 0);
    if (fd < 0 || connect(fd, (const struct sockaddr *)server, sizeof *server) != 0)
        _exit(1);
    for (int i = 0; i < lines; i++) {
        memset(line, 'a' + i % 26, sizeof line);
        give_and_take(fd, line);
    }
    _exit(0);
}

/* ---- the server */

static int listening(struct sockaddr_in *name) {
    socklen_t size = sizeof *name;
    int fd = socket(AF_INET, SOCK_STREAM, 0);
    *name = (struct sockaddr_in){.sin_family = AF_INET, .sin_addr.s_addr = htonl(INADDR_LOOPBACK)};
    if (fd < 0 || bind(fd, (struct sockaddr *)name, size) != 0 || listen(fd, 128) != 0 ||
        getsockname(fd, (struct sockaddr *)name, &size) != 0)
        die("listen");
    return fd;
}

/* A connection has a timer of its own number, which begins anew with each line. */
static void expect_line(int kq, int fd) {
    change(kq, (uintptr_t)fd, EVFILT_TIMER, EV_ADD | EV_ONESHOT, NOTE_MSECONDS, SILENT_MS);
}

static void hang_up(int kq, int fd) {
    struct kevent it;
    EV_SET(&it, fd, EVFILT_TIMER, EV_DELETE, 0, 0, NULL);
    if (kevent(kq, &it, 1, NULL, 0, NULL) != 0 && errno != ENOENT)
        die("kevent");
    close(fd); /* (its kevents go with it) */
    done.hangups++;
}

static void take_connections(int kq, int listener, int64_t count) {
    while (count-- > 0) {
        int fd = accept(listener, NULL, NULL);
        if (fd < 0)
            die("accept");
        change(kq, (uintptr_t)fd, EVFILT_READ, EV_ADD | EV_CLEAR, 0, 0);
        expect_line(kq, fd);
        done.connections++;
    }
}

static void take_bytes(int kq, const struct kevent *event) {
    char text[4096];
    int fd = (int)event->ident;
    for (int64_t left = event->data; left > 0;) {
        ssize_t count = read(fd, text, left < (int64_t)sizeof text ? (size_t)left : sizeof text);
        if (count <= 0 || write(fd, text, (size_t)count) != count) {
            hang_up(kq, fd);
            return;
        }
        left -= count;
        done.bytes += count;
    }
    if (event->flags & EV_EOF)
        hang_up(kq, fd);
    else
        expect_line(kq, fd);
}

static void take_exit(const struct kevent *event) {
    int status;
    if (waitpid((pid_t)event->ident, &status, 0) < 0)
        die("waitpid");
    if (status != event->data || status != 0)
        done.failed++;
    done.children--;
}

static void take(int kq, int listener, const struct kevent *event) {
    switch (event->filter) {
    case EVFILT_READ:
        if (event->ident == (uintptr_t)listener)
            take_connections(kq, listener, event->data);
        else
            take_bytes(kq, event);
        break;
    case EVFILT_TIMER:
        if (event->ident == TICK)
            done.ticks += event->data;
        else
            hang_up(kq, (int)event->ident);
        break;
    case EVFILT_PROC: take_exit(event); break;
    }
}

static void start_client(int kq, const struct sockaddr_in *server, int lines) {
    pid_t child = fork();
    if (child < 0)
        die("fork");
    if (child == 0)
        client(server, lines);
    change(kq, (uintptr_t)child, EVFILT_PROC, EV_ADD, NOTE_EXIT, 0);
    done.children++;
}

int main(int argc, char **argv) {
    int clients = argc > 1 ? atoi(argv[1]) : 4, lines = argc > 2 ? atoi(argv[2]) : 100;
    struct sockaddr_in name;
    struct kevent events[EVENTS];
    signal(SIGPIPE, SIG_IGN);
    int listener = listening(&name), kq = kqueue();
    if (kq < 0)
        die("kqueue");
    change(kq, (uintptr_t)listener, EVFILT_READ, EV_ADD, 0, 0);
    change(kq, TICK, EVFILT_TIMER, EV_ADD, NOTE_MSECONDS, TICK_MS);
    for (int i = 0; i < clients; i++)
        start_client(kq, &name, lines);
    while (done.children > 0 || done.hangups < done.connections || done.ticks == 0) {
        int count = kevent(kq, NULL, 0, events, EVENTS, NULL);
        if (count < 0)
            die("kevent");
        for (int i = 0; i < count; i++)
            take(kq, listener, &events[i]);
    }
    close(kq);
    close(listener);
    printf("%ld connections, %ld bytes, %ld children failed\n", done.connections, done.bytes, done.failed);
    return done.failed != 0;
}
