/* The trace and its report, as text.
 *
 * With KQSIM_TRACE=NAME each record is a line of NAME, and each answer a line of NAME.report. %p in NAME is the pid;
 * without it a child of fork writes NAME.PID. Both files end with the last record that a trace can have. libkqsim makes
 * the text (kqsim_log). The lock is held.
 */
#ifndef LOG_H
#define LOG_H

#include <stdbool.h>
#include <stdint.h>

#include "kqsim.h"

/* Opens the files, if they are asked for, and begins the log of a system without a record. */
void log_begin(struct kqsim *sim, uint32_t pid, bool is_child);
/* In a child of fork: what the parent has logged is not the child's. */
void log_forget(void);
bool log_is_on(void);
/* Writes what was logged to the files. */
void log_flush(void);
/* Writes the last line of the report, and closes the files. */
void log_end(void);

/* A record is about to be told. */
void log_before(void);
/* What libkqsim said of it. */
void log_after(int number);

#endif
