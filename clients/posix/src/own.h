/* The library's own descriptors. They have high numbers, out of the way of programs that count on small ones, and a
 * program that closes all numbers does not close them. The lock is held. */
#ifndef OWN_H
#define OWN_H

#include <stdbool.h>
#include <stddef.h>

/* Takes a descriptor, and returns its number from there on; -1, with errno, where `fd` is -1 or there is no memory. */
int own_keep(int fd);
bool is_own(int fd);
/* One more than the greatest number that can be own. */
size_t own_room(void);
/* Closes it; -1 is none. */
void own_close(int fd);
void own_close_all(void);

#endif
