/* What libc has, where the program's own calls come to this library first. */
#ifndef INTERPOSE_H
#define INTERPOSE_H

#include <signal.h>

int real_close(int fd);
int real_sigaction(int signal, const struct sigaction *action, struct sigaction *former);

#endif
