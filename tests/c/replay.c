/* Replays a trace by libkqsim, and prints its report. Standard input has the version, and then a line of words for
 * each record: its name and its numbers. A call is `kevent PID FD ROOM COUNT` and six numbers for each change.
 *
 *     replay [TRACE REPORT]     also logs, and writes the log to these files */
#include <inttypes.h>
#include <stdio.h>
#include <stdlib.h>
#include <string.h>

#include "kqsim.h"

static const char *const REASONS[] = {"NoProcess", "UsedPid", "NoDescriptor", "UsedDescriptor", "WrongKind",
                                      "Absent", "UsedFile", "ClockBack", "TooMany"};

static const struct { unsigned short flag; const char *name; } FLAGS[] = {
    {KQSIM_EV_ADD, "ADD"}, {KQSIM_EV_DELETE, "DELETE"}, {KQSIM_EV_ENABLE, "ENABLE"}, {KQSIM_EV_DISABLE, "DISABLE"},
    {KQSIM_EV_ONESHOT, "ONESHOT"}, {KQSIM_EV_CLEAR, "CLEAR"}, {KQSIM_EV_DISPATCH, "DISPATCH"},
    {KQSIM_EV_RECEIPT, "RECEIPT"}, {KQSIM_EV_EOF, "EOF"}, {KQSIM_EV_ERROR, "ERROR"}};

static const char *const FILTERS[] = {"", "READ", "WRITE", "AIO", "VNODE", "PROC", "SIGNAL", "TIMER", "PROCDESC",
                                      "FS", "LIO", "USER", "SENDFILE", "EMPTY"};

struct counts { uint64_t calls, events, records; };

/* a record of numbers: what it is called, how many it has, and what applies it */
typedef int applied(struct kqsim *, const int64_t *);
#define U(i) ((uint32_t)w[i])
#define RECORD(name, ...) \
    static int do_##name(struct kqsim *s, const int64_t *w) { return kqsim_##name(s, __VA_ARGS__); }
RECORD(proc, U(0))
RECORD(fork, U(0), U(1))
RECORD(exec, U(0))
RECORD(exit, U(0), U(1))
RECORD(sigset, U(0), U(1), w[2] != 0)
RECORD(sig, U(0), U(1))
RECORD(kqueue, U(0), U(1))
RECORD(dup, U(0), U(1), U(2))
RECORD(close, U(0), U(1))
RECORD(socket, U(0), U(1), U(2), U(3))
RECORD(listen, U(0), U(1), U(2))
RECORD(arrive, U(0), U(1))
RECORD(accept, U(0), U(1), U(2), U(3), U(4))
RECORD(connect, U(0), U(1))
RECORD(rx, U(0), U(1), U(2))
RECORD(tx, U(0), U(1), U(2))
RECORD(shut, U(0), U(1), U(2), U(3))
RECORD(lowat, U(0), U(1), U(2), U(3))
RECORD(pipe, U(0), U(1), U(2), U(3))
RECORD(read, U(0), U(1), U(2))
RECORD(write, U(0), U(1), U(2))
RECORD(file, U(0), w[1])
RECORD(open, U(0), U(1), U(2), U(3))
RECORD(seek, U(0), U(1), w[2])
RECORD(truncate, U(0), w[1])
RECORD(note, U(0), U(1))
RECORD(clock, w[0])

static const struct { const char *name; int count; applied *apply; } RECORDS[] = {
    {"proc", 1, do_proc}, {"fork", 2, do_fork}, {"exec", 1, do_exec}, {"exit", 2, do_exit},
    {"sigset", 3, do_sigset}, {"sig", 2, do_sig}, {"kqueue", 2, do_kqueue}, {"dup", 3, do_dup},
    {"close", 2, do_close}, {"socket", 4, do_socket}, {"listen", 3, do_listen}, {"arrive", 2, do_arrive},
    {"accept", 5, do_accept}, {"connect", 2, do_connect}, {"rx", 3, do_rx}, {"tx", 3, do_tx},
    {"shut", 4, do_shut}, {"lowat", 4, do_lowat}, {"pipe", 4, do_pipe}, {"read", 3, do_read},
    {"write", 3, do_write}, {"file", 2, do_file}, {"open", 4, do_open}, {"seek", 3, do_seek},
    {"truncate", 2, do_truncate}, {"note", 2, do_note}, {"clock", 1, do_clock}};

static void fail(const char *why) {
    fprintf(stderr, "replay: %s\n", why);
    exit(1);
}

static int64_t number(void) {
    int64_t n;
    if (scanf("%" SCNd64, &n) != 1)
        fail("a number is missing");
    return n;
}

static uint64_t whole(void) {
    uint64_t n;
    if (scanf("%" SCNu64, &n) != 1)
        fail("a number is missing");
    return n;
}

static void print_event(const struct kqsim_kevent *e) {
    const char *before = "";
    size_t i;
    printf("{\"data\":%" PRId64 ",\"fflags\":%u,\"filter\":\"%s\",\"flags\":[", e->data, e->fflags,
           FILTERS[-e->filter]);
    for (i = 0; i < sizeof FLAGS / sizeof *FLAGS; i++)
        if (e->flags & FLAGS[i].flag) {
            printf("%s\"%s\"", before, FLAGS[i].name);
            before = ",";
        }
    printf("],\"ident\":%" PRIuPTR ",\"udata\":%" PRIuPTR "}", e->ident, (uintptr_t)e->udata);
}

/* what a number says that is no 0 */
static void print_number(int n, struct counts *counts) {
    if (n >= KQSIM_NO_PROCESS && n <= KQSIM_TOO_MANY) {
        printf("{\"at\":%" PRIu64 ",\"impossible\":\"%s\"}\n", counts->records, REASONS[n - KQSIM_NO_PROCESS]);
    } else if (n == KQSIM_ENOENT || n == KQSIM_ESRCH || n == KQSIM_EBADF || n == KQSIM_EINVAL) {
        counts->calls++;
        printf("{\"at\":%" PRIu64 ",\"failed\":%d}\n", counts->records, n);
    } else {
        fail("a number that no record of a trace has");
    }
}

static void call(struct kqsim *sim, struct counts *counts) {
    uint32_t pid = (uint32_t)whole(), kq = (uint32_t)whole();
    size_t room = (size_t)whole(), count = (size_t)whole(), n = 77, i;
    struct kqsim_kevent *changes = count ? calloc(count, sizeof *changes) : NULL;
    /* one more, which no call may touch */
    struct kqsim_kevent *events = calloc(room + 1, sizeof *events);
    int answer;
    if ((count && !changes) || !events)
        fail("out of memory");
    for (i = 0; i < count; i++) {
        changes[i].ident = whole();
        changes[i].filter = (short)number();
        changes[i].flags = (unsigned short)whole();
        changes[i].fflags = (unsigned int)whole();
        changes[i].data = number();
        changes[i].udata = (void *)(uintptr_t)whole();
    }
    memset(events, 0x5a, (room + 1) * sizeof *events);
    answer = kqsim_kevent(sim, pid, kq, changes, count, room ? events : NULL, room, &n);
    if (answer != KQSIM_OK && n != 0)
        fail("a count after an error");
    for (i = n; i <= room; i++)
        if (events[i].ident != UINT64_C(0x5a5a5a5a5a5a5a5a))
            fail("an event beyond the count");
    if (answer == KQSIM_OK) {
        counts->calls++;
        counts->events += n;
        printf("{\"at\":%" PRIu64 ",\"events\":[", counts->records);
        for (i = 0; i < n; i++) {
            if (i)
                putchar(',');
            print_event(&events[i]);
        }
        puts("]}");
    } else {
        print_number(answer, counts);
    }
    free(changes);
    free(events);
}

static void record(struct kqsim *sim, const char *name, struct counts *counts) {
    int64_t words[5];
    size_t i;
    int j, answer;
    for (i = 0; i < sizeof RECORDS / sizeof *RECORDS; i++)
        if (!strcmp(name, RECORDS[i].name)) {
            for (j = 0; j < RECORDS[i].count; j++)
                words[j] = number();
            answer = RECORDS[i].apply(sim, words);
            if (answer != KQSIM_OK)
                print_number(answer, counts);
            return;
        }
    fail("a record that is not known");
}

/* ---- the log */

static FILE *trace, *report;

static int write_text(void *to, const char *text, size_t size) {
    return fwrite(text, 1, size, to) != size;
}

static void begin_log(struct kqsim *sim, char **names) {
    trace = fopen(names[0], "wb");
    report = fopen(names[1], "wb");
    if (!trace || !report || kqsim_log(sim) != KQSIM_OK)
        fail("no log");
}

static void write_log(struct kqsim *sim) {
    if (trace && kqsim_log_to(sim, write_text, trace, report) != 0)
        fail("the log cannot be written");
}

static void end_log(struct kqsim *sim) {
    if (trace && kqsim_log_end(sim) != KQSIM_OK)
        fail("the log cannot be ended");
    write_log(sim);
    if (trace && (fclose(trace) != 0 || fclose(report) != 0))
        fail("the log cannot be closed");
}

int main(int argc, char **argv) {
    struct kqsim *sim = NULL;
    struct counts counts = {0, 0, 0};
    char name[16];
    if (kqsim_new((uint32_t)whole(), &sim) != KQSIM_OK)
        fail("no system");
    if (argc == 3)
        begin_log(sim, argv + 1);
    while (scanf("%15s", name) == 1) {
        counts.records++;
        if (!strcmp(name, "kevent"))
            call(sim, &counts);
        else
            record(sim, name, &counts);
        write_log(sim);
    }
    end_log(sim);
    printf("{\"calls\":%" PRIu64 ",\"events\":%" PRIu64 ",\"records\":%" PRIu64 "}\n", counts.calls, counts.events,
           counts.records);
    kqsim_free(sim);
    return 0;
}
