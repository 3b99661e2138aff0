/* Questions about a kqueue, calls with changes that are not known and in one array, logs, and the numbers of the header.
 * It is linked with --wrap=malloc and --wrap=realloc, so that memory can fail. */
#define KQSIM_AS_KQUEUE
#include "kqsim.h"

#include <stdio.h>
#include <stdlib.h>
#include <string.h>

struct kqsim_process kqsim_process;

enum { PID = 1, SOCKET = 3, KQ = 10, MS = 1000000 };

/* ---- memory that fails */

static int is_short, asked;

void *__real_malloc(size_t size);
void *__real_realloc(void *at, size_t size);
void *__wrap_malloc(size_t size);
void *__wrap_realloc(void *at, size_t size);

void *__wrap_malloc(size_t size) {
    asked += is_short;
    return is_short ? NULL : __real_malloc(size);
}

void *__wrap_realloc(void *at, size_t size) {
    asked += is_short;
    return is_short ? NULL : __real_realloc(at, size);
}

/* ---- what is wanted */

static int tests;

static void want(int holds, const char *what) {
    tests++;
    if (!holds) {
        fprintf(stderr, "not so: %s\n", what);
        exit(1);
    }
}

static struct kqsim *sim;

static void change(uintptr_t ident, short filter, unsigned short flags, unsigned int fflags, int64_t data,
                   void *udata) {
    struct kevent it;
    size_t n;
    EV_SET(&it, ident, filter, flags, fflags, data, udata);
    want(kqsim_kevent(sim, PID, KQ, &it, 1, NULL, 0, &n) == KQSIM_OK, "a change is made");
}

static int64_t next(void) {
    int64_t ns = -7;
    want(kqsim_next(sim, PID, KQ, &ns) == KQSIM_OK, "the kqueue is asked for its next expiry");
    return ns;
}

static uint32_t pending(uint32_t room) {
    uint32_t n = 77;
    want(kqsim_pending(sim, PID, KQ, room, &n) == KQSIM_OK, "the kqueue is asked for its pending events");
    return n;
}

/* As many events as a poll with this room gives on a kqueue that is as this one. */
static size_t polled(size_t room) {
    struct kevent events[8];
    size_t n;
    want(kqsim_kevent(sim, PID, KQ, NULL, 0, events, room, &n) == KQSIM_OK, "a poll");
    return n;
}

/* ---- the tests */

static void numbers(void) {
    int number, known = 0;
    want(kqsim_version() == KQSIM_VERSION_NUMBER, "the library and the header are of one version");
    want(strcmp(kqsim_strerror(KQSIM_OK), "Done") == 0, "0 is success");
    for (number = 1; number < 300; number++)
        known += strcmp(kqsim_strerror(number), "Unknown number") != 0;
    want(known == 16, "each number has words");
    want(strcmp(kqsim_strerror(-1), "Unknown number") == 0, "-1 is no number of the library");
}

static void expiries(void) {
    want(next() == -1, "no timer expires in an empty kqueue");
    change(1, EVFILT_TIMER, EV_ADD, 0, 30, NULL);
    want(next() == 30 * MS, "a timer expires first after a period");
    change(2, EVFILT_TIMER, EV_ADD, 0, 20, NULL);
    want(next() == 20 * MS, "the earlier one counts");
    change(2, EVFILT_TIMER, EV_DISABLE, 0, 0, NULL);
    want(next() == 20 * MS, "a timer that is disabled expires too");
    want(kqsim_clock(sim, 20 * MS) == KQSIM_OK && next() == 30 * MS, "the moment of the clock is over");
    want(kqsim_clock(sim, 30 * MS) == KQSIM_OK && next() == 40 * MS, "a timer goes on");
    change(2, EVFILT_TIMER, EV_DELETE, 0, 0, NULL);
    want(next() == 60 * MS, "a timer that is gone counts no more");
    change(1, EVFILT_TIMER, EV_DELETE, 0, 0, NULL);
    change(3, EVFILT_TIMER, EV_ADD | EV_ONESHOT, 0, 5, NULL);
    want(next() == 35 * MS && kqsim_clock(sim, 35 * MS) == KQSIM_OK && next() == -1, "a ONESHOT timer expires once");
    want(pending(8) == 1 && polled(8) == 1 && next() == -1, "and its event is its last");
}

static void events(void) {
    want(pending(8) == 0 && polled(8) == 0, "nothing is pending");
    change(7, EVFILT_USER, EV_ADD | EV_CLEAR, 0, 0, NULL);
    change(8, EVFILT_USER, EV_ADD | EV_CLEAR, 0, 0, NULL);
    change(SOCKET, EVFILT_READ, EV_ADD, 0, 0, NULL);
    want(pending(8) == 0, "no condition holds");
    change(7, EVFILT_USER, 0, NOTE_TRIGGER, 0, NULL);
    change(8, EVFILT_USER, 0, NOTE_TRIGGER, 0, NULL);
    want(kqsim_rx(sim, PID, SOCKET, 5) == KQSIM_OK && pending(8) == 3, "three conditions hold");
    want(pending(2) == 2 && pending(0) == 0 && pending(3) == 3, "no more than there is room for");
    want(kqsim_read(sim, PID, SOCKET, 5) == KQSIM_OK && pending(8) == 2, "an idle one is not counted");
    change(8, EVFILT_USER, EV_DISABLE, 0, 0, NULL);
    want(pending(8) == 1 && polled(8) == 1 && pending(8) == 0, "as many as a poll gives");
    change(8, EVFILT_USER, EV_DELETE, 0, 0, NULL);
    change(7, EVFILT_USER, EV_DELETE, 0, 0, NULL);
}

static void knotes(void) {
    struct kqsim_knote it;
    int mark;
    memset(&it, 0x55, sizeof it);
    want(kqsim_find(sim, PID, KQ, SOCKET, EVFILT_WRITE, &it) == KQSIM_ENOENT && it.fflags == 0x55555555, "none");
    want(kqsim_find(sim, PID, KQ, SOCKET, -14, &it) == KQSIM_ARGUMENT && it.fflags == 0x55555555, "no filter");
    want(kqsim_find(sim, PID, KQ, SOCKET, EVFILT_READ, &it) == KQSIM_OK && it.enabled && it.flags == 0, "one is there");
    change(9, EVFILT_USER, EV_ADD | EV_CLEAR | EV_DISPATCH, NOTE_FFCOPY | 3, -4, &mark);
    want(kqsim_find(sim, PID, KQ, 9, EVFILT_USER, &it) == KQSIM_OK, "another");
    want(it.flags == (EV_CLEAR | EV_DISPATCH) && it.udata == &mark && it.data == -4, "its parameters");
    want(it.enabled && !it.active, "it is enabled, and not active");
    change(9, EVFILT_USER, 0, NOTE_TRIGGER, 0, &mark);
    want(kqsim_find(sim, PID, KQ, 9, EVFILT_USER, &it) == KQSIM_OK && it.active, "it was triggered");
    want(polled(8) == 1 && kqsim_find(sim, PID, KQ, 9, EVFILT_USER, &it) == KQSIM_OK, "it is still there");
    want(!it.enabled && !it.active, "DISPATCH has disabled it");
    change(9, EVFILT_USER, EV_DELETE, 0, 0, NULL);
    want(kqsim_find(sim, PID, KQ, 9, EVFILT_USER, &it) == KQSIM_ENOENT, "it is gone");
}

static void reasons(void) {
    struct kqsim_knote it;
    int64_t ns = -7;
    uint32_t n = 77;
    want(kqsim_next(sim, 2, KQ, &ns) == KQSIM_NO_PROCESS && ns == -7, "no process");
    want(kqsim_pending(sim, PID, 99, 1, &n) == KQSIM_NO_DESCRIPTOR && n == 77, "no descriptor");
    want(kqsim_find(sim, PID, SOCKET, 9, EVFILT_USER, &it) == KQSIM_WRONG_KIND, "no kqueue");
    want(kqsim_pending(sim, PID, KQ, 65537, &n) == KQSIM_TOO_MANY && n == 77, "as a call with so much room");
}

static void without_memory(void) {
    struct kqsim_knote it;
    change(4, EVFILT_TIMER, EV_ADD, 0, 10, NULL);
    is_short = 1;
    want(next() > 0 && pending(8) == 0, "questions take no memory");
    want(kqsim_find(sim, PID, KQ, 4, EVFILT_TIMER, &it) == KQSIM_OK && it.data == 10, "no memory to find a knote");
    want(asked == 0, "none was asked for");
    want(kqsim_fork(sim, PID, 2) == KQSIM_ENOMEM && asked > 0, "a fork takes memory");
    is_short = 0;
    change(4, EVFILT_TIMER, EV_DELETE, 0, 0, NULL);
}

static void unknown(void) {
    struct kevent it[3], out[3];
    size_t n;
    struct kqsim_knote found;
    EV_SET(&it[0], 1, EVFILT_USER, EV_ADD, 0, 0, NULL);
    EV_SET(&it[1], 2, -99, EV_ADD, 5, 0, NULL);
    EV_SET(&it[2], 3, EVFILT_USER, EV_ADD, 0, 0, NULL);
    want(kqsim_kevent(sim, PID, KQ, it, 3, out, 3, &n) == KQSIM_OK && n == 1, "one change is refused");
    want(out[0].flags == EV_ERROR && out[0].data == KQSIM_EINVAL && out[0].ident == 2, "with EINVAL");
    want(out[0].filter == -99 && out[0].fflags == 5, "and its own filter");
    want(kqsim_find(sim, PID, KQ, 1, EVFILT_USER, &found) == KQSIM_OK, "the change before it is made");
    want(kqsim_find(sim, PID, KQ, 3, EVFILT_USER, &found) == KQSIM_OK, "and the one behind it");
    EV_SET(&it[0], 4, EVFILT_USER, EV_ADD, 0, 0, NULL);
    EV_SET(&it[1], 5, EVFILT_USER, EV_ADD | EV_FLAG1, 0, 0, NULL);
    EV_SET(&it[2], 6, EVFILT_USER, EV_ADD, 0, 0, NULL);
    want(kqsim_kevent(sim, PID, KQ, it, 3, NULL, 0, &n) == KQSIM_EINVAL && n == 0, "without room the call fails");
    want(kqsim_find(sim, PID, KQ, 4, EVFILT_USER, &found) == KQSIM_OK, "the change before is made");
    want(kqsim_find(sim, PID, KQ, 6, EVFILT_USER, &found) == KQSIM_ENOENT, "and the one behind is not");
    EV_SET(&it[0], 0, 13, EV_ADD, 0, 0, NULL);
    EV_SET(&it[1], 1, EVFILT_EMPTY, EV_ADD, 0, 0, NULL);
    EV_SET(&it[2], 2, -14, EV_ADD, 0, 0, NULL);
    want(kqsim_kevent(sim, PID, KQ, it, 3, it, 3, &n) == KQSIM_OK && n == 3, "in one array");
    want(it[0].filter == 13 && it[1].filter == EVFILT_EMPTY && it[2].filter == -14, "each has its own filter");
    EV_SET(&it[0], 1, EVFILT_USER, EV_DELETE, 0, 0, NULL);
    EV_SET(&it[1], 3, EVFILT_USER, EV_DELETE | EV_RECEIPT, 0, 0, NULL);
    EV_SET(&it[2], 4, EVFILT_USER, EV_DELETE | EV_RECEIPT, 0, 0, NULL);
    want(kqsim_kevent(sim, PID, KQ, it, 3, it + 1, 2, &n) == KQSIM_OK && n == 2, "events over the later changes");
    want(it[1].ident == 3 && it[1].data == 0 && it[2].ident == 4 && it[2].data == 0, "are receipts of these");
}

/* Whether this is all text of the trace, or of the report, that is left. */
static int has_text(struct kqsim *it, size_t read(struct kqsim *, char *, size_t), const char *wanted) {
    char text[256];
    size_t n = read(it, text, sizeof text);
    return n == strlen(wanted) && memcmp(text, wanted, n) == 0 && read(it, text, sizeof text) == 0;
}

static int stopped(void *to, const char *text, size_t size) {
    (void)text;
    *(size_t *)to += size;
    return 7;
}

static void logs(void) {
    struct kqsim *it = NULL;
    struct kevent change;
    char text[8];
    size_t n;
    want(kqsim_log(sim) == KQSIM_ARGUMENT && kqsim_log_end(sim) == KQSIM_ARGUMENT, "too late for a log");
    want(kqsim_read_trace(sim, text, 8) == 0 && kqsim_read_report(sim, text, 8) == 0, "and none is there");
    want(kqsim_new(2, &it) == KQSIM_OK && kqsim_log_end(it) == KQSIM_ARGUMENT, "no log to end");
    is_short = 1;
    want(kqsim_log(it) == KQSIM_ENOMEM && kqsim_read_trace(it, text, 8) == 0, "no memory for the header");
    is_short = 0;
    want(kqsim_log(it) == KQSIM_OK && kqsim_log(it) == KQSIM_ARGUMENT, "a log is begun once");
    want(kqsim_read_trace(it, text, 5) == 5 && memcmp(text, "{\"kqs", 5) == 0, "a part of its header");
    want(kqsim_read_trace(it, text, 0) == 0, "no room");
    want(has_text(it, kqsim_read_trace, "im\":2}\n"), "the rest of it");
    is_short = 1;
    want(kqsim_proc(it, 1) == KQSIM_ENOMEM, "no memory for a record");
    is_short = 0;
    want(has_text(it, kqsim_read_trace, ""), "what was refused is not logged");
    want(kqsim_proc(it, 1) == KQSIM_OK && kqsim_proc(it, 1) == KQSIM_USED_PID, "a process");
    want(has_text(it, kqsim_read_report, "{\"at\":2,\"impossible\":\"UsedPid\"}\n"), "it is used");
    want(has_text(it, kqsim_read_trace, "{\"op\":\"proc\",\"pid\":1}\n{\"op\":\"proc\",\"pid\":1}\n"), "twice");
    want(kqsim_note(it, 1, 3) == KQSIM_ARGUMENT && has_text(it, kqsim_read_trace, ""), "no record");
    want(kqsim_kqueue(it, 1, 3) == KQSIM_OK, "a kqueue");
    want(has_text(it, kqsim_read_trace, "{\"fd\":3,\"op\":\"kqueue\",\"pid\":1}\n"), "its line");
    EV_SET(&change, 1, EVFILT_TIMER, EV_ADD, 0, 10, NULL);
    is_short = 1;
    want(kqsim_kevent(it, 1, 3, &change, 1, NULL, 0, &n) == KQSIM_ENOMEM, "no memory for a call");
    is_short = 0;
    want(has_text(it, kqsim_read_trace, "") && has_text(it, kqsim_read_report, ""), "and no line of it");
    want(kqsim_kevent(it, 1, 3, &change, 1, NULL, 0, &n) == KQSIM_OK, "a call");
    want(has_text(it, kqsim_read_trace, "{\"changes\":[{\"data\":10,\"fflags\":0,\"filter\":\"TIMER\","
         "\"flags\":[\"ADD\"],\"ident\":1,\"udata\":0}],\"fd\":3,\"op\":\"kevent\",\"pid\":1,\"room\":0}\n"), "its line");
    want(has_text(it, kqsim_read_report, "{\"at\":4,\"events\":[]}\n"), "its answer");
    want(kqsim_exec(it, 1) == KQSIM_OK, "a record that is not taken yet");
    n = 0;
    want(kqsim_log_to(it, stopped, &n, &n) == 7 && n == strlen("{\"op\":\"exec\",\"pid\":1}\n"), "a write stops");
    want(kqsim_log_end(it) == KQSIM_OK, "the log is ended");
    want(has_text(it, kqsim_read_report, "{\"calls\":1,\"events\":0,\"records\":5}\n"), "by its last line");
    want(kqsim_proc(it, 2) == KQSIM_OK && has_text(it, kqsim_read_trace, ""), "nothing is logged behind the end");
    want(kqsim_log(it) == KQSIM_ARGUMENT && kqsim_log_end(it) == KQSIM_ARGUMENT, "and none is begun again");
    kqsim_free(it);
}

int main(void) {
    want(kqsim_new(2, &sim) == KQSIM_OK, "a system");
    want(kqsim_proc(sim, PID) == KQSIM_OK && kqsim_socket(sim, PID, SOCKET, 100, 100) == KQSIM_OK, "a process");
    want(kqsim_connect(sim, PID, SOCKET) == KQSIM_OK && kqsim_kqueue(sim, PID, KQ) == KQSIM_OK, "a kqueue");
    numbers();
    expiries();
    events();
    knotes();
    reasons();
    without_memory();
    unknown();
    logs();
    kqsim_free(sim);
    printf("%d tests\n", tests);
    return 0;
}
