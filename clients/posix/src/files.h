/* What is done to files, by inotify(7). The lock is held. */
#ifndef FILES_H
#define FILES_H

#include <stdbool.h>

#include "thing.h"

/* The descriptor that is readable when something was done to a file; -1, with errno, where there is none. */
int files_descriptor(void);
/* 0, or an errno. */
int file_watch(struct thing *thing);
void file_unwatch(struct thing *thing);
/* Tells what was done. */
void files_sample(void);
void files_forget_all(void);

#endif
