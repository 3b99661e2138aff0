/* Processes that a kqueue watches, by pidfd_open(2). The lock is held.
 *
 * The system knows a process by a number of its own: its pid, and from the second process of one pid on the pid and a
 * count above it, since a pid of the system is never used again.
 */
#ifndef PROCESSES_H
#define PROCESSES_H

#include <stdint.h>

/* The system's number of a pid, and back. */
uintptr_t process_number(uintptr_t pid);
uintptr_t process_pid(uintptr_t number);
/* Makes a process known to the system, and returns a descriptor that is readable once it has exited, or -1. */
int process_descriptor(uint32_t pid);
/* It has exited. */
void process_ended(uint32_t pid);
/* In a child of fork, where no process is known. */
void processes_forget_all(void);

#endif
