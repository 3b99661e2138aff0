/* libev_loop kqueue|epoll: a program written to libev, which says what its watchers saw. It says the same with each
 * back end. It is compiled with ev.c, since libev is made to be. */
#include "ev.c"

#include <arpa/inet.h>
#include <stdbool.h>
#include <stdio.h>
#include <string.h>
#include <sys/socket.h>
#include <sys/wait.h>

enum { CLIENTS = 20, LINES = 50, SIZE = 100 };

static struct ev_loop *loop;
static struct sockaddr_in server;
static long lines_served, bytes_back, clients_done, ticks, signals_seen, children_seen, stats_seen, asyncs_seen;

/* ---- a server that echoes, and clients in the same loop */

static void on_readable(struct ev_loop *of, ev_io *watcher, int events) {
    char text[4096];
    ssize_t count = read(watcher->fd, text, sizeof text);
    (void)events;
    if (count > 0 && write(watcher->fd, text, (size_t)count) == count) {
        lines_served += count / SIZE;
        return;
    }
    ev_io_stop(of, watcher);
    close(watcher->fd);
    free(watcher);
}

static ev_io *watched(int fd, int events, void (*on)(struct ev_loop *, ev_io *, int)) {
    ev_io *watcher = calloc(1, sizeof *watcher);
    ev_io_init(watcher, on, fd, events);
    ev_io_start(loop, watcher);
    return watcher;
}

static void on_connection(struct ev_loop *of, ev_io *watcher, int events) {
    (void)of, (void)events;
    watched(accept(watcher->fd, NULL, NULL), EV_READ, on_readable);
}

struct client {
    ev_io io;
    int line, back;
};

static void send_line(struct client *client) {
    char text[SIZE];
    memset(text, 'a' + client->line++ % 26, sizeof text);
    if (write(client->io.fd, text, sizeof text) != sizeof text)
        abort();
    client->back = 0;
}

static void on_client(struct ev_loop *of, ev_io *watcher, int events) {
    struct client *client = (struct client *)watcher;
    char text[SIZE];
    if (events & EV_WRITE) {
        /* it is connected */
        ev_io_stop(of, watcher);
        ev_io_set(watcher, watcher->fd, EV_READ);
        ev_io_start(of, watcher);
        send_line(client);
        return;
    }
    ssize_t count = read(watcher->fd, text, (size_t)(SIZE - client->back));
    if (count <= 0)
        abort();
    bytes_back += count;
    client->back += (int)count;
    if (client->back == SIZE && client->line < LINES)
        send_line(client);
    else if (client->back == SIZE) {
        ev_io_stop(of, watcher);
        close(watcher->fd);
        clients_done++;
    }
}

static void start_clients(void) {
    static struct client clients[CLIENTS];
    for (int i = 0; i < CLIENTS; i++) {
        int fd = socket(AF_INET, SOCK_STREAM | SOCK_NONBLOCK, 0);
        if (connect(fd, (struct sockaddr *)&server, sizeof server) != 0 && errno != EINPROGRESS)
            abort();
        ev_io_init(&clients[i].io, on_client, fd, EV_WRITE);
        ev_io_start(loop, &clients[i].io);
    }
}

static void start_server(void) {
    socklen_t size = sizeof server;
    int fd = socket(AF_INET, SOCK_STREAM, 0);
    server = (struct sockaddr_in){.sin_family = AF_INET, .sin_addr.s_addr = htonl(INADDR_LOOPBACK)};
    if (bind(fd, (struct sockaddr *)&server, size) != 0 || listen(fd, 64) != 0 ||
        getsockname(fd, (struct sockaddr *)&server, &size) != 0)
        abort();
    watched(fd, EV_READ, on_connection);
}

/* ---- the other watchers */

static char path[] = "/tmp/kqsim-libev-XXXXXX";
static ev_async async_watcher;

static bool is_done(void) {
    return clients_done == CLIENTS && ticks >= 5 && signals_seen == 1 && children_seen == 1 && stats_seen >= 1 &&
           asyncs_seen == 1;
}

static void on_tick(struct ev_loop *of, ev_timer *watcher, int events) {
    (void)events;
    ticks++;
    if (ticks == 1)
        raise(SIGUSR1);
    if (ticks == 2)
        ev_async_send(of, &async_watcher);
    if (ticks == 3) {
        FILE *file = fopen(path, "a");
        fputs("more", file);
        fclose(file);
    }
    if (is_done()) {
        ev_timer_stop(of, watcher);
        ev_break(of, EVBREAK_ALL);
    }
}

static void on_signal(struct ev_loop *of, ev_signal *watcher, int events) {
    (void)of, (void)watcher, (void)events;
    signals_seen++;
}

static void on_async(struct ev_loop *of, ev_async *watcher, int events) {
    (void)of, (void)watcher, (void)events;
    asyncs_seen++;
}

static void on_stat(struct ev_loop *of, ev_stat *watcher, int events) {
    (void)of, (void)events;
    stats_seen += watcher->attr.st_size == 4 && watcher->prev.st_size == 0;
}

static void on_child(struct ev_loop *of, ev_child *watcher, int events) {
    (void)of, (void)events;
    children_seen += WIFEXITED(watcher->rstatus) && WEXITSTATUS(watcher->rstatus) == 7;
}

static void on_end(struct ev_loop *of, ev_timer *watcher, int events) {
    (void)watcher, (void)events;
    ev_break(of, EVBREAK_ALL);
}

/* A child of fork has the loop too, and makes its kernel state anew. */
static int child(void) {
    static ev_timer timer;
    ev_loop_fork(loop);
    ev_timer_init(&timer, on_end, 0.02, 0);
    ev_timer_start(loop, &timer);
    ev_run(loop, 0);
    return 7;
}

int main(int argc, char **argv) {
    static ev_timer timer;
    static ev_signal signal_watcher;
    static ev_stat stat_watcher;
    static ev_child child_watcher;
    bool is_kqueue = argc > 1 && strcmp(argv[1], "kqueue") == 0;
    loop = ev_default_loop(is_kqueue ? EVBACKEND_KQUEUE : EVBACKEND_EPOLL);
    if (loop == NULL || ev_backend(loop) != (is_kqueue ? EVBACKEND_KQUEUE : EVBACKEND_EPOLL))
        return 2;
    close(mkstemp(path));
    pid_t pid = fork();
    if (pid == 0)
        _exit(child());
    start_server();
    start_clients();
    ev_child_init(&child_watcher, on_child, pid, 0);
    ev_child_start(loop, &child_watcher);
    ev_signal_init(&signal_watcher, on_signal, SIGUSR1);
    ev_signal_start(loop, &signal_watcher);
    ev_async_init(&async_watcher, on_async);
    ev_async_start(loop, &async_watcher);
    ev_stat_init(&stat_watcher, on_stat, path, 0.1);
    ev_stat_start(loop, &stat_watcher);
    ev_timer_init(&timer, on_tick, 0.02, 0.02);
    ev_timer_start(loop, &timer);
    ev_run(loop, 0);
    unlink(path);
    printf("%ld lines, %ld bytes back, %ld clients, %ld signals, %ld children, %ld asyncs, %s\n", lines_served,
           bytes_back, clients_done, signals_seen, children_seen, asyncs_seen, stats_seen > 0 ? "stat" : "no stat");
    return 0;
}
