/* Preloaded into a program: refuses one call of malloc, calloc or realloc, or one of pthread_create, and says that it
 * did.
 *
 * REFUSE_AT    which call is refused, counted from 1 over all threads, from the moment that this library stands.
 *              What the dynamic loader took before is not counted. 0, or no such variable: none is.
 * REFUSE_START which call of pthread_create is refused, in the same way.
 * REFUSE_SAYS  the number of an open descriptor, to which one byte is written as the call is refused.
 *
 * The real calls are reached by the names that glibc keeps for them, or as those behind these. */
#define _GNU_SOURCE
#include <dlfcn.h>
#include <errno.h>
#include <pthread.h>
#include <stddef.h>
#include <stdlib.h>
#include <unistd.h>

extern void *__libc_malloc(size_t size);
extern void *__libc_calloc(size_t count, size_t size);
extern void *__libc_realloc(void *old, size_t size);

typedef int create(pthread_t *, const pthread_attr_t *, void *(*)(void *), void *);

static unsigned long at, start;
static int says = -1;
static unsigned long calls, starts;
static create *real_create;

__attribute__((constructor)) static void begin(void) {
    const char *text = getenv("REFUSE_SAYS");
    if (text != NULL)
        says = atoi(text);
    text = getenv("REFUSE_AT");
    if (text != NULL)
        at = strtoul(text, NULL, 10);
    text = getenv("REFUSE_START");
    if (text != NULL)
        start = strtoul(text, NULL, 10);
    real_create = (create *)dlsym(RTLD_NEXT, "pthread_create");
    __atomic_store_n(&calls, 0, __ATOMIC_SEQ_CST);
}

static int is_refused(unsigned long *count, unsigned long which) {
    if (__atomic_add_fetch(count, 1, __ATOMIC_SEQ_CST) != which || which == 0)
        return 0;
    if (says >= 0 && write(says, "r", 1) != 1)
        abort();
    return 1;
}

static int refused(void) {
    if (!is_refused(&calls, at))
        return 0;
    errno = ENOMEM;
    return 1;
}

void *malloc(size_t size) {
    return refused() ? NULL : __libc_malloc(size);
}

void *calloc(size_t count, size_t size) {
    return refused() ? NULL : __libc_calloc(count, size);
}

void *realloc(void *old, size_t size) {
    return refused() ? NULL : __libc_realloc(old, size);
}

int pthread_create(pthread_t *thread, const pthread_attr_t *attributes, void *(*run)(void *), void *given) {
    return is_refused(&starts, start) ? EAGAIN : real_create(thread, attributes, run, given);
}
