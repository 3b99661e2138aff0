/* Signals that a kqueue watches: a handler of the library's own stands before the program's, and counts. The lock is
 * held, but where it says otherwise. */
#ifndef SIGNALS_H
#define SIGNALS_H

#include <signal.h>

/* The descriptor on which each signal that is watched is an edge; -1, with errno, where there is none. */
int signals_descriptor(void);
void signal_watch(int number);
void signal_unwatch(int number);
/* Tells of those that came. */
void signals_sample(void);
/* In a child of fork: the program's own handlers again. */
void signals_forget_all(void);

/* How many came, and how many of them a handler of the program's took; by any thread, without the lock. */
unsigned long signals_heard(void);
unsigned long signals_handled(void);

/* What sigaction(2) is of a signal that is watched; without the lock. */
int signal_action(int number, const struct sigaction *action, struct sigaction *former);

#endif
