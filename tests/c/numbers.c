/* The numbers of the header, compared as it is compiled with those that docs/TRACE.md lists ("Bits of fflags"), with
 * the numbers of filters in crates/kq_freebsd/specs/Numbers.antt and of flags in crates/kq_model/src/event_flags.rt.
 * What the simulator gives no meaning to stands at the end: no page lists it. */
#define KQSIM_AS_KQUEUE
#include "kqsim.h"

/* no array of length -1 is possible */
#define IS(name, number) \
    typedef char name##_is_so[KQSIM_##name == (number) && name == KQSIM_##name ? 1 : -1]

IS(EVFILT_READ, -1);
IS(EVFILT_WRITE, -2);
IS(EVFILT_AIO, -3);
IS(EVFILT_VNODE, -4);
IS(EVFILT_PROC, -5);
IS(EVFILT_SIGNAL, -6);
IS(EVFILT_TIMER, -7);
IS(EVFILT_PROCDESC, -8);
IS(EVFILT_FS, -9);
IS(EVFILT_LIO, -10);
IS(EVFILT_USER, -11);
IS(EVFILT_SENDFILE, -12);
IS(EVFILT_EMPTY, -13);
IS(EVFILT_SYSCOUNT, 13);

IS(EV_ADD, 1);
IS(EV_DELETE, 2);
IS(EV_ENABLE, 4);
IS(EV_DISABLE, 8);
IS(EV_ONESHOT, 16);
IS(EV_CLEAR, 32);
IS(EV_RECEIPT, 64);
IS(EV_DISPATCH, 128);
IS(EV_ERROR, 16384);
IS(EV_EOF, 32768);

IS(NOTE_LOWAT, 1);
IS(NOTE_DELETE, 1);
IS(NOTE_WRITE, 2);
IS(NOTE_EXTEND, 4);
IS(NOTE_ATTRIB, 8);
IS(NOTE_LINK, 16);
IS(NOTE_RENAME, 32);
IS(NOTE_REVOKE, 64);
IS(NOTE_OPEN, 128);
IS(NOTE_CLOSE, 256);
IS(NOTE_CLOSE_WRITE, 512);
IS(NOTE_READ, 1024);
IS(NOTE_EXIT, 2147483648U);
IS(NOTE_FORK, 1073741824U);
IS(NOTE_EXEC, 536870912U);
IS(NOTE_TRACK, 1U);
IS(NOTE_CHILD, 4U);
IS(NOTE_SECONDS, 1U);
IS(NOTE_MSECONDS, 2U);
IS(NOTE_USECONDS, 4U);
IS(NOTE_NSECONDS, 8U);
IS(NOTE_ABSTIME, 16U);
IS(NOTE_TRIGGER, 16777216U);
IS(NOTE_FFNOP, 0U);
IS(NOTE_FFAND, 1073741824U);
IS(NOTE_FFOR, 2147483648U);
IS(NOTE_FFCOPY, 3221225472U);
/* the top two bits are USER's control, and the low 24 its own */
IS(NOTE_FFCTRLMASK, 3221225472U);
IS(NOTE_FFLAGSMASK, 16777215U);

/* of no meaning here: EV_DROP, EV_FLAG1 and EV_FLAG2 are among the system's flags, and EV_ERROR is one of them */
IS(EV_SYSFLAGS, 61440);
IS(EV_DROP, 4096);
IS(EV_FLAG1, 8192);
IS(EV_FLAG2, 16384);
IS(EV_FORCEONESHOT, 256);
IS(EV_KEEPUDATA, 512);
IS(NOTE_FILE_POLL, 2);
IS(NOTE_TRACKERR, 2U);
IS(NOTE_PCTRLMASK, 4026531840U);
IS(NOTE_PDATAMASK, 1048575U);
