//! What the crate libc has of kqueue(2) for FreeBSD and lacks for Linux, as Rust's polling uses it.
pub use ::libc::*;

#[derive(Debug, Clone, Copy)]
#[repr(C)]
pub struct kevent {
    pub ident: uintptr_t,
    pub filter: c_short,
    pub flags: c_ushort,
    pub fflags: c_uint,
    pub data: int64_t,
    pub udata: *mut c_void,
}

pub const EVFILT_READ: c_short = -1;
pub const EVFILT_WRITE: c_short = -2;
pub const EV_ADD: c_ushort = 0x0001;
pub const EV_DELETE: c_ushort = 0x0002;
pub const EV_ONESHOT: c_ushort = 0x0010;
pub const EV_RECEIPT: c_ushort = 0x0040;
pub const EV_ERROR: c_ushort = 0x4000;
pub const EV_EOF: c_ushort = 0x8000;

#[link(name = "kqueue_kqsim")]
extern "C" {
    pub fn kqueue() -> c_int;
    pub fn kevent(
        kq: c_int,
        changelist: *const kevent,
        nchanges: c_int,
        eventlist: *mut kevent,
        nevents: c_int,
        timeout: *const timespec,
    ) -> c_int;
}
