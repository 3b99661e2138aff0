#include "record.h"

#include <errno.h>
#include <inttypes.h>
#include <stdio.h>
#include <stdlib.h>

#include "log.h"

/* libkqsim is given the array of a program as its own. */
_Static_assert(sizeof(struct kevent) == sizeof(struct kqsim_kevent), "a kevent has one layout");
_Static_assert(offsetof(struct kevent, fflags) == offsetof(struct kqsim_kevent, fflags), "a kevent has one layout");
_Static_assert(offsetof(struct kevent, udata) == offsetof(struct kqsim_kevent, udata), "a kevent has one layout");

static struct kqsim *system_of;
static uint32_t self;
static uint64_t told;
static bool is_debugged;

uint64_t records_told(void) { return told; }

int64_t record_next(uint32_t kq) {
    int64_t next = -1;
    kqsim_next(system_of, self, kq, &next);
    return next < 0 ? INT64_MAX : next;
}

bool record_is_pending(uint32_t kq) {
    uint32_t count = 0;
    kqsim_pending(system_of, self, kq, 1, &count);
    return count > 0;
}

int record_begin(uint32_t pid, bool is_child) {
    is_debugged = getenv("KQSIM_DEBUG") != NULL;
    if (kqsim_new(2, &system_of) != KQSIM_OK)
        return ENOMEM;
    self = pid;
    log_begin(system_of, pid, is_child);
    if (record_process(pid) == KQSIM_OK)
        return 0;
    record_forget();
    return ENOMEM;
}

void record_forget(void) {
    if (system_of != NULL)
        kqsim_free(system_of);
    system_of = NULL;
    log_forget();
}

static int outcome(int number, const char *name, uint32_t what) {
    told++;
    log_after(number);
    if (is_debugged && number != KQSIM_OK)
        dprintf(2, "libkqueue_kqsim: %s of %" PRIu32 ": error %d\n", name, what, number);
    return number;
}

#define RECORD(name, what, call) \
    do { \
        log_before(); \
        return outcome(call, name, what); \
    } while (0)

int record_process(uint32_t pid) { RECORD("proc", pid, kqsim_proc(system_of, pid)); }

int record_exit(uint32_t pid, uint32_t status) { RECORD("exit", pid, kqsim_exit(system_of, pid, status)); }

int record_signal(uint32_t number) { RECORD("sig", number, kqsim_sig(system_of, self, number)); }

int record_kqueue(uint32_t fd) { RECORD("kqueue", fd, kqsim_kqueue(system_of, self, fd)); }

int record_close(uint32_t fd) { RECORD("close", fd, kqsim_close(system_of, self, fd)); }

int record_socket(uint32_t fd, uint32_t receive, uint32_t send) {
    RECORD("socket", fd, kqsim_socket(system_of, self, fd, receive, send));
}

int record_listen(uint32_t fd, uint32_t backlog) { RECORD("listen", fd, kqsim_listen(system_of, self, fd, backlog)); }

int record_arrive(uint32_t fd) { RECORD("arrive", fd, kqsim_arrive(system_of, self, fd)); }

int record_accept(uint32_t fd, uint32_t to) { RECORD("accept", fd, kqsim_accept(system_of, self, fd, to, 1, 1)); }

int record_connect(uint32_t fd) { RECORD("connect", fd, kqsim_connect(system_of, self, fd)); }

int record_rx(uint32_t fd, uint32_t count) { RECORD("rx", fd, kqsim_rx(system_of, self, fd, count)); }

int record_tx(uint32_t fd, uint32_t count) { RECORD("tx", fd, kqsim_tx(system_of, self, fd, count)); }

int record_shut(uint32_t fd, enum kqsim_side side, uint32_t error) {
    RECORD("shut", fd, kqsim_shut(system_of, self, fd, side, error));
}

int record_pipe(uint32_t reader, uint32_t writer, uint32_t capacity) {
    RECORD("pipe", reader, kqsim_pipe(system_of, self, reader, writer, capacity));
}

int record_read(uint32_t fd, uint32_t count) { RECORD("read", fd, kqsim_read(system_of, self, fd, count)); }

int record_write(uint32_t fd, uint32_t count) { return record_write_of(self, fd, count); }

int record_write_of(uint32_t pid, uint32_t fd, uint32_t count) {
    RECORD("write", fd, kqsim_write(system_of, pid, fd, count));
}

int record_file(uint32_t file, int64_t size) { RECORD("file", file, kqsim_file(system_of, file, size)); }

int record_open(uint32_t pid, uint32_t fd, uint32_t file) {
    RECORD("open", fd, kqsim_open(system_of, pid, fd, file, KQSIM_MODE_BOTH));
}

int record_own_open(uint32_t fd, uint32_t file) { return record_open(self, fd, file); }

int record_seek(uint32_t pid, uint32_t fd, int64_t offset) {
    RECORD("seek", fd, kqsim_seek(system_of, pid, fd, offset));
}

int record_own_seek(uint32_t fd, int64_t offset) { return record_seek(self, fd, offset); }

int record_truncate(uint32_t file, int64_t size) { RECORD("truncate", file, kqsim_truncate(system_of, file, size)); }

int record_note(uint32_t file, uint32_t note) { RECORD("note", file, kqsim_note(system_of, file, note)); }

int record_clock(int64_t nanoseconds) { RECORD("clock", 0, kqsim_clock(system_of, nanoseconds)); }

int record_call(uint32_t kq, const struct kevent *changes, size_t count, struct kevent *events, size_t room,
                size_t *given) {
    log_before();
    int number = kqsim_kevent(system_of, self, kq, (const struct kqsim_kevent *)changes, count,
                              (struct kqsim_kevent *)events, room, given);
    log_after(number);
    return number;
}
