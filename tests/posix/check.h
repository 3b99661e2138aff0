/* What the test programs share: a want that does not hold is printed with its line, and counted. */
#ifndef CHECK_H
#define CHECK_H

#include <stdatomic.h>
#include <stdio.h>
#include <sys/event.h>
#include <time.h>

static atomic_int wanted, failed; /* (threads want too) */

#define WANT(holds) want((holds), #holds, __FILE__, __LINE__)

static inline void want(int holds, const char *what, const char *file, int line) {
    wanted++;
    if (holds)
        return;
    failed++;
    printf("%s: line %d: not so: %s\n", file, line, what);
}

static inline int check_end(const char *name) {
    printf("%s: %d of %d hold\n", name, wanted - failed, wanted);
    return failed != 0;
}

/* One change, which takes no event. */
static inline int change(int kq, uintptr_t ident, int filter, int flags, unsigned fflags, int64_t data) {
    struct kevent it;
    EV_SET(&it, ident, (short)filter, (unsigned short)flags, fflags, data, (void *)0x77);
    return kevent(kq, &it, 1, NULL, 0, NULL);
}

/* Long enough, in milliseconds, for what is on its way. */
enum { SOON = 10000 };

static inline int64_t milliseconds_now(void) {
    struct timespec at;
    clock_gettime(CLOCK_MONOTONIC, &at);
    return (int64_t)at.tv_sec * 1000 + at.tv_nsec / 1000000;
}

/* What comes within so many milliseconds. What comes only with the end of a long wait was lost until then. */
enum { ROOM = 16 };
static struct kevent got[ROOM];
static inline int take(int kq, int milliseconds) {
    struct timespec left = {milliseconds / 1000, milliseconds % 1000 * 1000000};
    int64_t start = milliseconds_now();
    int count = kevent(kq, NULL, 0, got, ROOM, &left);
    if (milliseconds == SOON && count > 0)
        WANT(milliseconds_now() - start < SOON);
    return count;
}

#endif
