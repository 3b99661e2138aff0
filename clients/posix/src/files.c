#define _GNU_SOURCE
#include "files.h"

#include <errno.h>
#include <stdio.h>
#include <stdlib.h>
#include <sys/inotify.h>
#include <sys/stat.h>
#include <unistd.h>

#include "own.h"
#include "record.h"

#define IN_ENTRIES (IN_CREATE | IN_DELETE | IN_MOVED_FROM | IN_MOVED_TO)
#define IN_NOTED (IN_MODIFY | IN_ATTRIB | IN_MOVE_SELF | IN_DELETE_SELF | IN_ENTRIES)

static int notes = -1;
/* Descriptors may be of one file, which inotify watches once. */
static struct watched {
    int notes, fd;
} *watched;
static size_t count, room;

int files_descriptor(void) {
    if (notes < 0)
        notes = own_keep(inotify_init1(IN_NONBLOCK | IN_CLOEXEC));
    return notes;
}

static bool has_room(void) {
    if (count < room)
        return true;
    size_t more = room * 2 + 16;
    struct watched *grown = realloc(watched, more * sizeof *grown);
    if (grown == NULL)
        return false;
    watched = grown;
    room = more;
    return true;
}

int file_watch(struct thing *thing) {
    char path[64];
    if (thing->notes >= 0)
        return 0;
    if (files_descriptor() < 0)
        return errno;
    if (!has_room())
        return ENOMEM;
    snprintf(path, sizeof path, "/proc/self/fd/%d", thing->fd);
    thing->notes = inotify_add_watch(notes, path, IN_NOTED);
    if (thing->notes < 0)
        return errno;
    watched[count++] = (struct watched){thing->notes, thing->fd};
    return 0;
}

void file_unwatch(struct thing *thing) {
    bool is_of_another = false;
    if (thing->notes < 0)
        return;
    for (size_t i = 0; i < count;) {
        if (watched[i].notes == thing->notes && watched[i].fd == thing->fd)
            watched[i] = watched[--count];
        else
            is_of_another |= watched[i++].notes == thing->notes;
    }
    if (!is_of_another)
        inotify_rm_watch(notes, thing->notes); /* (an error: the file is gone, and its watch with it) */
    thing->notes = -1;
}

/* A directory is played as a file to which a process outside writes nothing: that tells WRITE. */
static void tell_entries(const struct thing *thing, uint32_t mask) {
    if (!(mask & IN_ENTRIES))
        return;
    record_write_of(OTHERS, thing->file, 0);
    if (mask & IN_ISDIR)
        record_note(thing->file, NOTE_LINK);
}

static void tell_change(struct thing *thing) {
    int64_t before = thing->file_size;
    sample(thing, 0, 0, EDGE);
    if (thing->file_size == before)
        record_write_of(OTHERS, thing->file, 0); /* (within what was there) */
}

/* inotify says IN_ATTRIB of a link too, and of the last unlink of a file that is open. */
static void tell_attributes(struct thing *thing, nlink_t links) {
    if (links == 0) {
        record_note(thing->file, NOTE_DELETE);
        thing->is_deleted = true;
    } else
        record_note(thing->file, links != thing->links && !thing->is_directory ? NOTE_LINK : NOTE_ATTRIB);
    thing->links = links;
}

static void tell(struct thing *thing, uint32_t mask) {
    struct stat status;
    if (thing->is_deleted || fstat(thing->fd, &status) != 0)
        return;
    if (thing->is_directory)
        tell_entries(thing, mask);
    else if (mask & IN_MODIFY)
        tell_change(thing);
    if (mask & IN_MOVE_SELF)
        record_note(thing->file, NOTE_RENAME);
    if (mask & (IN_ATTRIB | IN_DELETE_SELF))
        tell_attributes(thing, status.st_nlink);
}

static void tell_all(const struct inotify_event *event) {
    for (size_t i = 0; i < count; i++) {
        struct thing *thing = watched[i].notes == event->wd ? thing_at((uintptr_t)watched[i].fd) : NULL;
        if (thing != NULL)
            tell(thing, event->mask);
    }
}

void files_sample(void) {
    char text[4096] __attribute__((aligned(__alignof__(struct inotify_event))));
    ssize_t size;
    if (notes < 0)
        return;
    while ((size = read(notes, text, sizeof text)) > 0)
        for (ssize_t at = 0; at < size;) {
            const struct inotify_event *event = (const struct inotify_event *)(text + at);
            tell_all(event);
            at += (ssize_t)(sizeof *event + event->len);
        }
}

void files_forget_all(void) {
    notes = -1; /* (own_close_all has closed it) */
    count = 0;
}
