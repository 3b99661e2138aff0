/* The simulated system, and one function for each record that is told to it. Each returns what libkqsim says.
 *
 * A process has one system. The records are those of docs/TRACE.md, of the process itself where no pid is given. The
 * lock is held.
 */
#ifndef RECORD_H
#define RECORD_H

#include <stdbool.h>
#include <stddef.h>
#include <stdint.h>

#include "kqsim.h"
#include "sys/event.h"

/* The most that fits a size of the system. */
#define MOST_SIZE 2147483647u
#define MOST_CHANGES 1024
#define MOST_ROOM 65536

/* Makes a system with one process: 0, or ENOMEM. */
int record_begin(uint32_t pid, bool is_child);
/* In a child of fork: the parent's system is not the child's. */
void record_forget(void);
/* How many records were told, but calls. */
uint64_t records_told(void);
/* The first moment after the system's clock at which a timer of the kqueue expires; INT64_MAX where none does. */
int64_t record_next(uint32_t kq);
/* Whether a call would be given an event now. */
bool record_is_pending(uint32_t kq);

int record_process(uint32_t pid);
int record_exit(uint32_t pid, uint32_t status);
int record_signal(uint32_t number);
int record_kqueue(uint32_t fd);
int record_close(uint32_t fd);
int record_socket(uint32_t fd, uint32_t receive, uint32_t send);
int record_listen(uint32_t fd, uint32_t backlog);
int record_arrive(uint32_t fd);
int record_accept(uint32_t fd, uint32_t to);
int record_connect(uint32_t fd);
int record_rx(uint32_t fd, uint32_t count);
int record_tx(uint32_t fd, uint32_t count);
int record_shut(uint32_t fd, enum kqsim_side side, uint32_t error);
int record_pipe(uint32_t reader, uint32_t writer, uint32_t capacity);
int record_read(uint32_t fd, uint32_t count);
int record_write(uint32_t fd, uint32_t count);
/* A write by another process. */
int record_write_of(uint32_t pid, uint32_t fd, uint32_t count);
int record_file(uint32_t file, int64_t size);
int record_open(uint32_t pid, uint32_t fd, uint32_t file);
int record_own_open(uint32_t fd, uint32_t file);
int record_seek(uint32_t pid, uint32_t fd, int64_t offset);
int record_own_seek(uint32_t fd, int64_t offset);
int record_truncate(uint32_t file, int64_t size);
int record_note(uint32_t file, uint32_t note);
int record_clock(int64_t nanoseconds);
/* `*given` is the number of events. */
int record_call(uint32_t kq, const struct kevent *changes, size_t count, struct kevent *events, size_t room,
                size_t *given);

#endif
