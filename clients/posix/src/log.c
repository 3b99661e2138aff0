#define _GNU_SOURCE
#include "log.h"

#include <errno.h>
#include <fcntl.h>
#include <inttypes.h>
#include <stdio.h>
#include <stdlib.h>
#include <string.h>
#include <unistd.h>

#include "own.h"

/* What `kqsim replay` reads of one trace. */
#define MOST_RECORDS 1000000u
/* Records that are kept before they are written. */
#define FULL_AT 256u

static struct kqsim *logged;
static int trace = -1, report = -1;
static uint64_t records;
static bool is_on;
/* Whether the system is in use, for a record or its text. */
static bool is_telling;

bool log_is_on(void) { return is_on; }

static void give_up(const char *why) {
    static const char said[] = "libkqueue_kqsim: the trace ends early: ";
    is_on = false;
    if (write(STDERR_FILENO, said, sizeof said - 1) < 0 || write(STDERR_FILENO, why, strlen(why)) < 0 ||
        write(STDERR_FILENO, "\n", 1) < 0)
        return; /* (there is nobody to tell) */
}

/* ---- files */

/* The trace's name: false where none is asked for, or it is too long. */
static bool is_named(uint32_t pid, bool is_child, char *name, size_t size) {
    const char *form = getenv("KQSIM_TRACE");
    if (form == NULL || *form == 0)
        return false;
    const char *mark = strstr(form, "%p");
    int length;
    if (mark != NULL)
        length = snprintf(name, size, "%.*s%" PRIu32 "%s", (int)(mark - form), form, pid, mark + 2);
    else if (is_child)
        length = snprintf(name, size, "%s.%" PRIu32, form, pid);
    else
        length = snprintf(name, size, "%s", form);
    return length > 0 && (size_t)length < size;
}

static int made_file(const char *name) { return own_keep(open(name, O_WRONLY | O_CREAT | O_TRUNC | O_CLOEXEC, 0644)); }

static void close_files(void) {
    own_close(trace);
    own_close(report);
    trace = report = -1;
}

/* Writes text to a file: 0, or why it could not be. */
static int write_text(void *file, const char *text, size_t size) {
    while (size > 0) {
        ssize_t n = write(*(int *)file, text, size);
        if (n < 0 && errno == EINTR)
            continue;
        if (n <= 0)
            return n < 0 ? errno : EIO;
        text += n;
        size -= (size_t)n;
    }
    return 0;
}

void log_flush(void) {
    if (!is_on)
        return;
    is_telling = true;
    int error = kqsim_log_to(logged, write_text, &trace, &report);
    is_telling = false;
    if (error == 0)
        return;
    give_up(strerror(error));
    kqsim_log_end(logged); /* (so that it keeps no text that nobody takes) */
}

/* ---- the log */

void log_begin(struct kqsim *sim, uint32_t pid, bool is_child) {
    char name[4096], other[4096 + sizeof ".report"];
    if (!is_named(pid, is_child, name, sizeof name))
        return;
    snprintf(other, sizeof other, "%s.report", name);
    trace = made_file(name);
    report = made_file(other);
    int error = trace < 0 || report < 0 ? errno : kqsim_log(sim) == KQSIM_OK ? 0 : ENOMEM;
    if (error != 0) {
        give_up(strerror(error));
        close_files();
        return;
    }
    logged = sim;
    is_on = true;
    log_flush();
}

void log_forget(void) {
    is_on = is_telling = false;
    logged = NULL;
    trace = report = -1;
    records = 0;
}

void log_end(void) {
    if (!is_on)
        return;
    /* (where the process ends in a signal's handler amid a call of libkqsim, the files stay as they are) */
    if (!is_telling) {
        kqsim_log_end(logged);
        log_flush();
    }
    is_on = false;
    close_files();
}

void log_before(void) { is_telling = true; }

void log_after(int number) {
    is_telling = false;
    if (!is_on || number == KQSIM_ENOMEM || number == KQSIM_ARGUMENT || number == KQSIM_FULL)
        return;
    records++;
    if (records == MOST_RECORDS)
        log_end();
    else if (records % FULL_AT == 0)
        log_flush();
}
