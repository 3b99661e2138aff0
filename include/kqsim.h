/* SPDX-License-Identifier: BSD-2-Clause
 * Copyright (c) 2026, The kqsim authors
 *
 * kqsim: a simulated FreeBSD kqueue, for C99 and C++.
 *
 * A `struct kqsim` is a system of processes with descriptors and kqueues. A function tells it one thing that happened,
 * makes one call of kevent(2) in it, or asks what comes of a kqueue. docs/TRACE.md says what each record does and asks
 * for. Nothing waits and nothing is shared: each call answers at once, a system is used by one thread at a time, and
 * two systems know nothing of each other. A system takes 2^31 - 1 records and no more.
 *
 * Link with libkqsim.a. It calls malloc, realloc and free. Numbers and pointers have to be of 64 bits (LP64).
 */
#ifndef KQSIM_H
#define KQSIM_H

#include <stdbool.h>
#include <stddef.h>
#include <stdint.h>

#ifdef __cplusplus
extern "C" {
#endif

/* The version of this header: as text, and as 10,000 times the first number, 100 times the second and the third. */
#define KQSIM_VERSION "0.16.0"
#define KQSIM_VERSION_NUMBER 1600

/* The number of the library's version. */
uint32_t kqsim_version(void);

struct kqsim;

/* What a function gives. After another number than 0 nothing has changed in the system, but for a call of kevent(2)
 * that failed: the changes before the one that failed are made. */
enum kqsim_error {
    KQSIM_OK = 0,
    /* a call of kevent(2) failed with this errno; the numbers are FreeBSD's */
    KQSIM_ENOENT = 2,
    KQSIM_ESRCH = 3,
    KQSIM_EBADF = 9,
    KQSIM_EINVAL = 22,
    /* there is no memory left for it */
    KQSIM_ENOMEM = 12,
    /* the record cannot be (docs/TRACE.md has the reasons); it counts as one that was applied */
    KQSIM_NO_PROCESS = 101,
    KQSIM_USED_PID = 102,
    KQSIM_NO_DESCRIPTOR = 103,
    KQSIM_USED_DESCRIPTOR = 104,
    KQSIM_WRONG_KIND = 105,
    KQSIM_ABSENT = 106,
    KQSIM_USED_FILE = 107,
    KQSIM_CLOCK_BACK = 108,
    KQSIM_TOO_MANY = 109,
    /* an argument is none that the function takes: the version, a filter, a side, a mode or a note */
    KQSIM_ARGUMENT = 201,
    /* the system has taken 2^31 - 1 records */
    KQSIM_FULL = 202
};

/* What a number says, in a few words. */
static inline const char *kqsim_strerror(int number) {
    switch (number) {
    case KQSIM_OK: return "Done";
    case KQSIM_ENOENT: return "No such knote";
    case KQSIM_ESRCH: return "No such process to watch";
    case KQSIM_EBADF: return "The descriptor is not open";
    case KQSIM_EINVAL: return "Invalid change";
    case KQSIM_ENOMEM: return "No memory";
    case KQSIM_NO_PROCESS: return "The process is not live";
    case KQSIM_USED_PID: return "The pid was used";
    case KQSIM_NO_DESCRIPTOR: return "The number is not open";
    case KQSIM_USED_DESCRIPTOR: return "The number is open";
    case KQSIM_WRONG_KIND: return "The number names another kind of object";
    case KQSIM_ABSENT: return "What the record needs is not there";
    case KQSIM_USED_FILE: return "The file is there";
    case KQSIM_CLOCK_BACK: return "The clock does not go back";
    case KQSIM_TOO_MANY: return "Too many";
    case KQSIM_ARGUMENT: return "Unknown argument";
    case KQSIM_FULL: return "The system takes no more records";
    default: return "Unknown number";
    }
}

/* A kevent as sys/event.h has it, without `ext` of FreeBSD 12 and later: the simulator keeps none, so a program that
 * uses it does not compile. With KQSIM_AS_KQUEUE its name is `struct kevent`. */
#ifdef KQSIM_AS_KQUEUE
#define KQSIM_KEVENT kevent
#else
#define KQSIM_KEVENT kqsim_kevent
#endif
struct KQSIM_KEVENT {
    uintptr_t ident;     /* a descriptor, a pid, a signal, or a number of the caller's own */
    short filter;        /* KQSIM_EVFILT_ */
    unsigned short flags; /* KQSIM_EV_ */
    unsigned int fflags; /* KQSIM_NOTE_ */
    int64_t data;
    void *udata;         /* given back in each event */
};

/* No array of these lengths is possible where numbers and pointers have other sizes. */
typedef char kqsim_needs_lp64[sizeof(void *) == 8 && sizeof(long) == 8 && sizeof(size_t) == 8 ? 1 : -1];
typedef char kqsim_kevent_has_32_bytes[sizeof(struct KQSIM_KEVENT) == 32 ? 1 : -1];

/* FreeBSD's numbers. The filters from AIO on are answered EINVAL. */
#define KQSIM_EVFILT_READ (-1)
#define KQSIM_EVFILT_WRITE (-2)
#define KQSIM_EVFILT_AIO (-3)
#define KQSIM_EVFILT_VNODE (-4)
#define KQSIM_EVFILT_PROC (-5)
#define KQSIM_EVFILT_SIGNAL (-6)
#define KQSIM_EVFILT_TIMER (-7)
#define KQSIM_EVFILT_PROCDESC (-8)
#define KQSIM_EVFILT_FS (-9)
#define KQSIM_EVFILT_LIO (-10)
#define KQSIM_EVFILT_USER (-11)
#define KQSIM_EVFILT_SENDFILE (-12)
#define KQSIM_EVFILT_EMPTY (-13)
#define KQSIM_EVFILT_SYSCOUNT 13

#define KQSIM_EV_ADD 0x0001
#define KQSIM_EV_DELETE 0x0002
#define KQSIM_EV_ENABLE 0x0004
#define KQSIM_EV_DISABLE 0x0008
#define KQSIM_EV_ONESHOT 0x0010
#define KQSIM_EV_CLEAR 0x0020
#define KQSIM_EV_RECEIPT 0x0040
#define KQSIM_EV_DISPATCH 0x0080
#define KQSIM_EV_FORCEONESHOT 0x0100
#define KQSIM_EV_KEEPUDATA 0x0200
#define KQSIM_EV_SYSFLAGS 0xf000
#define KQSIM_EV_DROP 0x1000
#define KQSIM_EV_FLAG1 0x2000
#define KQSIM_EV_FLAG2 0x4000
#define KQSIM_EV_ERROR 0x4000
#define KQSIM_EV_EOF 0x8000

/* READ, WRITE */
#define KQSIM_NOTE_LOWAT 0x0001
#define KQSIM_NOTE_FILE_POLL 0x0002
/* VNODE */
#define KQSIM_NOTE_DELETE 0x0001
#define KQSIM_NOTE_WRITE 0x0002
#define KQSIM_NOTE_EXTEND 0x0004
#define KQSIM_NOTE_ATTRIB 0x0008
#define KQSIM_NOTE_LINK 0x0010
#define KQSIM_NOTE_RENAME 0x0020
#define KQSIM_NOTE_REVOKE 0x0040
#define KQSIM_NOTE_OPEN 0x0080
#define KQSIM_NOTE_CLOSE 0x0100
#define KQSIM_NOTE_CLOSE_WRITE 0x0200
#define KQSIM_NOTE_READ 0x0400
/* PROC */
#define KQSIM_NOTE_EXIT 0x80000000U
#define KQSIM_NOTE_FORK 0x40000000U
#define KQSIM_NOTE_EXEC 0x20000000U
#define KQSIM_NOTE_PCTRLMASK 0xf0000000U
#define KQSIM_NOTE_PDATAMASK 0x000fffffU
#define KQSIM_NOTE_TRACK 0x00000001U
#define KQSIM_NOTE_TRACKERR 0x00000002U
#define KQSIM_NOTE_CHILD 0x00000004U
/* TIMER */
#define KQSIM_NOTE_SECONDS 0x00000001U
#define KQSIM_NOTE_MSECONDS 0x00000002U
#define KQSIM_NOTE_USECONDS 0x00000004U
#define KQSIM_NOTE_NSECONDS 0x00000008U
#define KQSIM_NOTE_ABSTIME 0x00000010U
/* USER */
#define KQSIM_NOTE_FFNOP 0x00000000U
#define KQSIM_NOTE_FFAND 0x40000000U
#define KQSIM_NOTE_FFOR 0x80000000U
#define KQSIM_NOTE_FFCOPY 0xc0000000U
#define KQSIM_NOTE_FFCTRLMASK 0xc0000000U
#define KQSIM_NOTE_FFLAGSMASK 0x00ffffffU
#define KQSIM_NOTE_TRIGGER 0x01000000U

/* The sides of a socket, as SHUT_RD and SHUT_WR; the modes of a file, as O_RDONLY, O_WRONLY and O_RDWR. */
enum kqsim_side { KQSIM_SIDE_READ = 0, KQSIM_SIDE_WRITE = 1 };
enum kqsim_mode { KQSIM_MODE_READ = 0, KQSIM_MODE_WRITE = 1, KQSIM_MODE_BOTH = 2 };

/* Makes an empty system for version 1 or 2 of the trace's format, and writes its address to `out`, which has to hold
 * a pointer, as NULL, before. After another number than 0 it is as it was. */
int kqsim_new(uint32_t version, struct kqsim **out);

/* Ends a system that kqsim_new made, which is not NULL. */
void kqsim_free(struct kqsim *sim);

/* A record of the trace each. No system here is NULL. */
int kqsim_proc(struct kqsim *sim, uint32_t pid);
int kqsim_fork(struct kqsim *sim, uint32_t pid, uint32_t child);
int kqsim_exec(struct kqsim *sim, uint32_t pid);
int kqsim_exit(struct kqsim *sim, uint32_t pid, uint32_t status);
int kqsim_sigset(struct kqsim *sim, uint32_t pid, uint32_t sig, bool ignore);
int kqsim_sig(struct kqsim *sim, uint32_t pid, uint32_t sig);
int kqsim_kqueue(struct kqsim *sim, uint32_t pid, uint32_t fd);
int kqsim_dup(struct kqsim *sim, uint32_t pid, uint32_t fd, uint32_t to);
int kqsim_close(struct kqsim *sim, uint32_t pid, uint32_t fd);
int kqsim_socket(struct kqsim *sim, uint32_t pid, uint32_t fd, uint32_t rcv, uint32_t snd);
int kqsim_listen(struct kqsim *sim, uint32_t pid, uint32_t fd, uint32_t backlog);
int kqsim_arrive(struct kqsim *sim, uint32_t pid, uint32_t fd);
int kqsim_accept(struct kqsim *sim, uint32_t pid, uint32_t fd, uint32_t to, uint32_t rcv, uint32_t snd);
int kqsim_connect(struct kqsim *sim, uint32_t pid, uint32_t fd);
int kqsim_rx(struct kqsim *sim, uint32_t pid, uint32_t fd, uint32_t n);
int kqsim_tx(struct kqsim *sim, uint32_t pid, uint32_t fd, uint32_t n);
int kqsim_shut(struct kqsim *sim, uint32_t pid, uint32_t fd, uint32_t side, uint32_t error);
int kqsim_lowat(struct kqsim *sim, uint32_t pid, uint32_t fd, uint32_t side, uint32_t n);
int kqsim_pipe(struct kqsim *sim, uint32_t pid, uint32_t rfd, uint32_t wfd, uint32_t cap);
int kqsim_read(struct kqsim *sim, uint32_t pid, uint32_t fd, uint32_t n);
int kqsim_write(struct kqsim *sim, uint32_t pid, uint32_t fd, uint32_t n);
int kqsim_file(struct kqsim *sim, uint32_t file, int64_t size);
int kqsim_open(struct kqsim *sim, uint32_t pid, uint32_t fd, uint32_t file, uint32_t mode);
int kqsim_seek(struct kqsim *sim, uint32_t pid, uint32_t fd, int64_t offset);
int kqsim_truncate(struct kqsim *sim, uint32_t file, int64_t size);
/* `note` is KQSIM_NOTE_DELETE, _ATTRIB, _LINK, _RENAME or _REVOKE. */
int kqsim_note(struct kqsim *sim, uint32_t file, uint32_t note);
int kqsim_clock(struct kqsim *sim, int64_t ns);

/* What kqsim_kevent calls, with pointers that are not NULL, and arrays that do not overlap. */
int kqsim_call(struct kqsim *sim, uint32_t pid, uint32_t kq, const struct KQSIM_KEVENT *changes, size_t nchanges,
               struct KQSIM_KEVENT *events, size_t nevents, size_t *n);

/* A change with a filter that is not there is made as one of EMPTY, which is refused: its event gets its own filter
 * back. Events with EV_ERROR stand in the order of their changes. */
static inline void kqsim_own_filters(const struct KQSIM_KEVENT *changes, size_t nchanges, struct KQSIM_KEVENT *events,
                                     size_t n) {
    size_t i = 0, at;
    for (at = 0; at < n; at++) {
        if (events[at].filter != KQSIM_EVFILT_EMPTY)
            continue;
        while (i < nchanges && changes[i].filter >= KQSIM_EVFILT_SENDFILE && changes[i].filter <= KQSIM_EVFILT_READ)
            i++;
        if (i < nchanges)
            events[at].filter = changes[i++].filter;
    }
}

/* The most changes of a call. */
#define KQSIM_MOST_CHANGES 1024

/* The same where the arrays overlap. */
static inline int kqsim_call_in_place(struct kqsim *sim, uint32_t pid, uint32_t kq, const struct KQSIM_KEVENT *changes,
                                      size_t nchanges, struct KQSIM_KEVENT *events, size_t nevents, size_t *n) {
    struct KQSIM_KEVENT copy[KQSIM_MOST_CHANGES], no_events[1] = {{0, 0, 0, 0, 0, NULL}};
    size_t i;
    int number;
    if (nchanges > KQSIM_MOST_CHANGES)
        return kqsim_call(sim, pid, kq, changes, nchanges, no_events, 0, n);
    for (i = 0; i < nchanges; i++)
        copy[i] = changes[i];
    number = kqsim_call(sim, pid, kq, copy, nchanges, events, nevents, n);
    kqsim_own_filters(copy, nchanges, events, *n);
    return number;
}

/* The record `kevent`: the process calls kevent(2) on its kqueue. At most `nevents` events are written to `events`,
 * and `*n` is their number, 0 after an error. An array of length 0 may be NULL, and one array may serve as both. A
 * change with a filter or a flag that is not known is answered EINVAL. More than 1,024 changes, or room for more than
 * 65,536 events, is KQSIM_TOO_MANY. */
static inline int kqsim_kevent(struct kqsim *sim, uint32_t pid, uint32_t kq, const struct KQSIM_KEVENT *changes,
                               size_t nchanges, struct KQSIM_KEVENT *events, size_t nevents, size_t *n) {
    struct KQSIM_KEVENT no_changes[1] = {{0, 0, 0, 0, 0, NULL}}, no_events[1] = {{0, 0, 0, 0, 0, NULL}};
    int number;
    if ((changes == NULL && nchanges > 0) || (events == NULL && nevents > 0)) {
        *n = 0;
        return KQSIM_ARGUMENT;
    }
    if (nchanges > 0 && nevents > 0 && (uintptr_t)changes < (uintptr_t)(events + nevents)
        && (uintptr_t)events < (uintptr_t)(changes + nchanges))
        return kqsim_call_in_place(sim, pid, kq, changes, nchanges, events, nevents, n);
    changes = nchanges > 0 ? changes : no_changes;
    events = nevents > 0 ? events : no_events;
    number = kqsim_call(sim, pid, kq, changes, nchanges, events, nevents, n);
    kqsim_own_filters(changes, nchanges, events, *n);
    return number;
}

/* ---- The log: what is told and what was answered, as text.
 *
 * From kqsim_log on, each record that is applied is a line of a trace in its canonical text (docs/TRACE.md), and each
 * answer a line of its report (docs/REPORT.md); the header of the trace is there from the start. `kqsim replay` of the
 * trace gives the report, as long as it has no more than 1,000,000 records. A record that is refused by KQSIM_ENOMEM,
 * _ARGUMENT or _FULL is not logged. Memory for the lines is asked for before a record is applied, for a call as much
 * as its room asks for. */

/* Begins the log, of a system to which no record was applied yet; later, and where there was a log, it is
 * KQSIM_ARGUMENT. */
int kqsim_log(struct kqsim *sim);

/* Ends the log by the last line of the report, which counts. From there on nothing is logged. Without a log it is
 * KQSIM_ARGUMENT. */
int kqsim_log_end(struct kqsim *sim);

/* Take text that was logged and not taken yet: up to `room` bytes, written to `text`, which is not NULL. They give
 * the number of bytes, 0 where there is no text left or no room. Text is kept until it is taken, or its system ends. */
size_t kqsim_read_trace(struct kqsim *sim, char *text, size_t room);
size_t kqsim_read_report(struct kqsim *sim, char *text, size_t room);

/* What is given text: `to` is what the caller gave. Another number than 0 stops. */
typedef int kqsim_write_text(void *to, const char *text, size_t size);

/* Gives all text that was logged and not taken yet to `write`: that of the trace with `trace`, and that of the report
 * with `report`. The number is 0, or that of the write that stopped; the text that it was given has been taken. */
static inline int kqsim_log_to(struct kqsim *sim, kqsim_write_text *write, void *trace, void *report) {
    char text[4096];
    size_t size;
    int number = 0;
    while (number == 0 && (size = kqsim_read_trace(sim, text, sizeof text)) > 0)
        number = write(trace, text, size);
    while (number == 0 && (size = kqsim_read_report(sim, text, sizeof text)) > 0)
        number = write(report, text, size);
    return number;
}

/* ---- Questions about the kqueue that a number names. Nothing is changed, and no record is applied. The number is 0 or
 * that of the reason why a call of kevent(2) is impossible; then nothing is written. */

/* The first moment after the clock's at which a timer expires, in ns, or -1 where none does. A timer that is disabled
 * expires too. */
int kqsim_next(struct kqsim *sim, uint32_t pid, uint32_t kq, int64_t *ns);

/* How many events a call with no changes and room for `nevents` would give now. */
int kqsim_pending(struct kqsim *sim, uint32_t pid, uint32_t kq, uint32_t nevents, uint32_t *n);

/* What is registered for an ident and a filter. */
struct kqsim_knote {
    void *udata;
    int64_t data;          /* of the last change that set it, as fflags */
    unsigned int fflags;
    unsigned short flags;  /* of KQSIM_EV_ONESHOT, _CLEAR and _DISPATCH */
    bool enabled;
    bool active;           /* its condition was seen to hold, and nothing has taken that back */
};
typedef char kqsim_knote_has_24_bytes[sizeof(struct kqsim_knote) == 24 ? 1 : -1];

/* KQSIM_ENOENT where nothing is, and KQSIM_ARGUMENT where no filter has this number. */
int kqsim_find(struct kqsim *sim, uint32_t pid, uint32_t kq, uintptr_t ident, short filter,
               struct kqsim_knote *knote);

#ifdef __cplusplus
}
#endif

/* ---- kqueue(2) itself
 *
 * With KQSIM_AS_KQUEUE defined, a loop that was written to kqueue(2) includes this file in place of sys/event.h and
 * is otherwise as it was: `struct kevent`, EV_SET, kqueue, kevent and FreeBSD's names. Every call is a poll: `timeout`
 * is not looked at. One file of the program defines kqsim_process, and sets it before the first call of kqueue.
 */
#ifdef KQSIM_AS_KQUEUE
#include <errno.h>
#include <time.h>

/* C99 alone does not define it */
struct timespec;

struct kqsim_process {
    struct kqsim *sim;
    uint32_t pid;
    /* the number that kqueue gives next */
    uint32_t next;
};
extern struct kqsim_process kqsim_process;

/* The errno of a number: that of the call, ESRCH and EBADF for the reasons that they fit, else EINVAL. */
static inline int kqsim_errno(int number) {
    switch (number) {
    case KQSIM_ENOENT: return ENOENT;
    case KQSIM_ESRCH: case KQSIM_NO_PROCESS: return ESRCH;
    case KQSIM_EBADF: case KQSIM_NO_DESCRIPTOR: case KQSIM_WRONG_KIND: return EBADF;
    case KQSIM_ENOMEM: return ENOMEM;
    default: return EINVAL;
    }
}

static inline int kqueue(void) {
    int number = kqsim_kqueue(kqsim_process.sim, kqsim_process.pid, kqsim_process.next);
    if (number != KQSIM_OK) {
        errno = kqsim_errno(number);
        return -1;
    }
    return (int)kqsim_process.next++;
}

static inline int kevent(int kq, const struct kevent *changelist, int nchanges, struct kevent *eventlist, int nevents,
                         const struct timespec *timeout) {
    size_t n = 0;
    int number = KQSIM_ARGUMENT;
    (void)timeout;
    if (nchanges >= 0 && nevents >= 0)
        number = kqsim_kevent(kqsim_process.sim, kqsim_process.pid, (uint32_t)kq, changelist, (size_t)nchanges,
                              eventlist, (size_t)nevents, &n);
    if (number != KQSIM_OK) {
        errno = kqsim_errno(number);
        return -1;
    }
    return (int)n;
}

#define EV_SET(kevp, a, b, c, d, e, f) \
    do { \
        struct kevent *kqsim_set = (kevp); \
        kqsim_set->ident = (uintptr_t)(a); \
        kqsim_set->filter = (b); \
        kqsim_set->flags = (c); \
        kqsim_set->fflags = (d); \
        kqsim_set->data = (e); \
        kqsim_set->udata = (f); \
    } while (0)

#define EVFILT_READ KQSIM_EVFILT_READ
#define EVFILT_WRITE KQSIM_EVFILT_WRITE
#define EVFILT_AIO KQSIM_EVFILT_AIO
#define EVFILT_VNODE KQSIM_EVFILT_VNODE
#define EVFILT_PROC KQSIM_EVFILT_PROC
#define EVFILT_SIGNAL KQSIM_EVFILT_SIGNAL
#define EVFILT_TIMER KQSIM_EVFILT_TIMER
#define EVFILT_PROCDESC KQSIM_EVFILT_PROCDESC
#define EVFILT_FS KQSIM_EVFILT_FS
#define EVFILT_LIO KQSIM_EVFILT_LIO
#define EVFILT_USER KQSIM_EVFILT_USER
#define EVFILT_SENDFILE KQSIM_EVFILT_SENDFILE
#define EVFILT_EMPTY KQSIM_EVFILT_EMPTY
#define EVFILT_SYSCOUNT KQSIM_EVFILT_SYSCOUNT
#define EV_ADD KQSIM_EV_ADD
#define EV_DELETE KQSIM_EV_DELETE
#define EV_ENABLE KQSIM_EV_ENABLE
#define EV_DISABLE KQSIM_EV_DISABLE
#define EV_ONESHOT KQSIM_EV_ONESHOT
#define EV_CLEAR KQSIM_EV_CLEAR
#define EV_RECEIPT KQSIM_EV_RECEIPT
#define EV_DISPATCH KQSIM_EV_DISPATCH
#define EV_FORCEONESHOT KQSIM_EV_FORCEONESHOT
#define EV_KEEPUDATA KQSIM_EV_KEEPUDATA
#define EV_SYSFLAGS KQSIM_EV_SYSFLAGS
#define EV_DROP KQSIM_EV_DROP
#define EV_FLAG1 KQSIM_EV_FLAG1
#define EV_FLAG2 KQSIM_EV_FLAG2
#define EV_ERROR KQSIM_EV_ERROR
#define EV_EOF KQSIM_EV_EOF
#define NOTE_LOWAT KQSIM_NOTE_LOWAT
#define NOTE_FILE_POLL KQSIM_NOTE_FILE_POLL
#define NOTE_DELETE KQSIM_NOTE_DELETE
#define NOTE_WRITE KQSIM_NOTE_WRITE
#define NOTE_EXTEND KQSIM_NOTE_EXTEND
#define NOTE_ATTRIB KQSIM_NOTE_ATTRIB
#define NOTE_LINK KQSIM_NOTE_LINK
#define NOTE_RENAME KQSIM_NOTE_RENAME
#define NOTE_REVOKE KQSIM_NOTE_REVOKE
#define NOTE_OPEN KQSIM_NOTE_OPEN
#define NOTE_CLOSE KQSIM_NOTE_CLOSE
#define NOTE_CLOSE_WRITE KQSIM_NOTE_CLOSE_WRITE
#define NOTE_READ KQSIM_NOTE_READ
#define NOTE_EXIT KQSIM_NOTE_EXIT
#define NOTE_FORK KQSIM_NOTE_FORK
#define NOTE_EXEC KQSIM_NOTE_EXEC
#define NOTE_PCTRLMASK KQSIM_NOTE_PCTRLMASK
#define NOTE_PDATAMASK KQSIM_NOTE_PDATAMASK
#define NOTE_TRACK KQSIM_NOTE_TRACK
#define NOTE_TRACKERR KQSIM_NOTE_TRACKERR
#define NOTE_CHILD KQSIM_NOTE_CHILD
#define NOTE_SECONDS KQSIM_NOTE_SECONDS
#define NOTE_MSECONDS KQSIM_NOTE_MSECONDS
#define NOTE_USECONDS KQSIM_NOTE_USECONDS
#define NOTE_NSECONDS KQSIM_NOTE_NSECONDS
#define NOTE_ABSTIME KQSIM_NOTE_ABSTIME
#define NOTE_FFNOP KQSIM_NOTE_FFNOP
#define NOTE_FFAND KQSIM_NOTE_FFAND
#define NOTE_FFOR KQSIM_NOTE_FFOR
#define NOTE_FFCOPY KQSIM_NOTE_FFCOPY
#define NOTE_FFCTRLMASK KQSIM_NOTE_FFCTRLMASK
#define NOTE_FFLAGSMASK KQSIM_NOTE_FFLAGSMASK
#define NOTE_TRIGGER KQSIM_NOTE_TRIGGER
#endif

#endif
