#define _GNU_SOURCE
#include "signals.h"

#include <errno.h>
#include <stdatomic.h>
#include <stdbool.h>
#include <stdint.h>
#include <sys/eventfd.h>
#include <unistd.h>

#include "interpose.h"
#include "own.h"
#include "record.h"
#include "world.h"

enum { SIGNALS = 65 };

static atomic_int bell = -1;
static int watched[SIGNALS];
static struct sigaction programs[SIGNALS];
static atomic_uint pending[SIGNALS];
static atomic_ulong heard, handled;

int signals_descriptor(void) {
    if (bell < 0)
        bell = own_keep(eventfd(0, EFD_NONBLOCK | EFD_CLOEXEC));
    return bell;
}

unsigned long signals_heard(void) { return heard; }
unsigned long signals_handled(void) { return handled; }

static bool is_ignored_by_default(int number) {
    return number == SIGCHLD || number == SIGURG || number == SIGWINCH || number == SIGCONT;
}

static bool has_handler(const struct sigaction *action) {
    return action->sa_flags & SA_SIGINFO || (action->sa_handler != SIG_DFL && action->sa_handler != SIG_IGN);
}

/* What the signal does by the program's own will. */
static void pass_on(int number, siginfo_t *info, void *context) {
    struct sigaction to = programs[number];
    if (has_handler(&to)) {
        handled++;
        if (to.sa_flags & (int)SA_RESETHAND)
            programs[number] = (struct sigaction){.sa_handler = SIG_DFL};
        if (to.sa_flags & SA_SIGINFO)
            to.sa_sigaction(number, info, context);
        else
            to.sa_handler(number);
    } else if (to.sa_handler == SIG_DFL && !is_ignored_by_default(number)) {
        real_sigaction(number, &to, NULL);
        raise(number);
    }
}

static void on_signal(int number, siginfo_t *info, void *context) {
    const uint64_t one = 1;
    int kept = errno;
    pending[number]++;
    heard++;
    if (write(bell, &one, sizeof one) != sizeof one)
        errno = kept; /* (it rings already) */
    pass_on(number, info, context);
    errno = kept;
}

static int install(int number) {
    struct sigaction ours = programs[number];
    if (!has_handler(&ours))
        ours.sa_flags |= SA_RESTART;
    ours.sa_sigaction = on_signal;
    ours.sa_flags = (ours.sa_flags | SA_SIGINFO) & ~(int)SA_RESETHAND;
    return real_sigaction(number, &ours, NULL);
}

void signal_watch(int number) {
    if (watched[number]++ > 0)
        return;
    /* (of SIGKILL and SIGSTOP nothing is ever heard) */
    if (real_sigaction(number, NULL, &programs[number]) != 0 || install(number) != 0)
        watched[number] = 0;
}

void signal_unwatch(int number) {
    if (watched[number] > 0 && --watched[number] == 0)
        real_sigaction(number, &programs[number], NULL);
}

int signal_action(int number, const struct sigaction *action, struct sigaction *former) {
    int result = 0;
    if (!world_is_here())
        return real_sigaction(number, action, former);
    lock();
    if (number <= 0 || number >= SIGNALS || watched[number] == 0)
        result = real_sigaction(number, action, former);
    else {
        struct sigaction before = programs[number];
        if (action != NULL) {
            programs[number] = *action;
            result = install(number);
        }
        if (former != NULL)
            *former = before;
    }
    unlock();
    return result;
}

void signals_sample(void) {
    static unsigned long sampled;
    if (sampled == heard)
        return;
    sampled = heard;
    for (int number = 1; number < SIGNALS; number++)
        if (watched[number] > 0)
            for (unsigned n = atomic_exchange(&pending[number], 0); n > 0; n--)
                record_signal((uint32_t)number);
}

void signals_forget_all(void) {
    for (int number = 1; number < SIGNALS; number++) {
        if (watched[number] > 0)
            real_sigaction(number, &programs[number], NULL);
        watched[number] = 0;
        pending[number] = 0;
    }
    bell = -1; /* (own_close_all has closed it) */
}
