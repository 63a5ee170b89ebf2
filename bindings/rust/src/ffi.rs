//! The calls of inroot.h that the binding makes. Types are those of 64-bit Linux.

use std::os::raw::{c_char, c_int, c_uint, c_void};

/// `struct inroot_error`.
#[repr(C)]
pub struct Error {
    pub error: c_int,
    pub step: *const c_char,
    pub name: [c_char; 256],
    pub _reserved: [u64; 15],
}

/// `struct timespec`.
#[repr(C)]
pub struct Timespec {
    pub seconds: i64,
    pub nanoseconds: i64,
}

extern "C" {
    pub fn inroot_use_proc(proc: c_int) -> c_int;
    pub fn inroot_use_private_proc() -> c_int;
    pub fn inroot_proc_open(base: c_int, path: *const c_char, open_flags: c_int) -> c_int;
    pub fn inroot_proc_readlink(base: c_int, path: *const c_char, text: *mut c_char, size: usize) -> isize;
    pub fn inroot_version() -> *const c_char;
    pub fn inroot_last_error(error: *mut Error) -> c_int;
    pub fn inroot_last_error_text(text: *mut c_char, size: usize) -> c_int;
    pub fn inroot_open(root: c_int, path: *const c_char, flags: c_int) -> c_int;
    pub fn inroot_openat(root: c_int, path: *const c_char, open_flags: c_int, mode: c_uint, flags: c_int) -> c_int;
    pub fn inroot_reopen(fd: c_int, open_flags: c_int) -> c_int;
    pub fn inroot_readlink(root: c_int, path: *const c_char, flags: c_int, text: *mut c_char, size: usize) -> isize;
    pub fn inroot_fchmod(fd: c_int, mode: c_uint) -> c_int;
    pub fn inroot_fchown(fd: c_int, user: c_uint, group: c_uint) -> c_int;
    pub fn inroot_futimens(fd: c_int, times: *const Timespec) -> c_int;
    pub fn inroot_fsetxattr(fd: c_int, name: *const c_char, value: *const c_void, size: usize, flags: c_int) -> c_int;
    pub fn inroot_fgetxattr(fd: c_int, name: *const c_char, value: *mut c_void, size: usize) -> isize;
    pub fn inroot_flistxattr(fd: c_int, names: *mut c_char, size: usize) -> isize;
    pub fn inroot_fremovexattr(fd: c_int, name: *const c_char) -> c_int;
    pub fn inroot_mknod(root: c_int, path: *const c_char, mode: c_uint, dev: u64, flags: c_int) -> c_int;
    pub fn inroot_mkdir(root: c_int, path: *const c_char, mode: c_uint, flags: c_int) -> c_int;
    pub fn inroot_symlink(root: c_int, text: *const c_char, path: *const c_char, flags: c_int) -> c_int;
    pub fn inroot_link(root: c_int, existing: *const c_char, path: *const c_char, flags: c_int) -> c_int;
    pub fn inroot_link_fd(root: c_int, fd: c_int, path: *const c_char, flags: c_int) -> c_int;
    pub fn inroot_unlink(root: c_int, path: *const c_char, flags: c_int) -> c_int;
    pub fn inroot_rmdir(root: c_int, path: *const c_char, flags: c_int) -> c_int;
    pub fn inroot_rename(root: c_int, from: *const c_char, to: *const c_char, mode: c_int, flags: c_int) -> c_int;
    pub fn inroot_mkdir_all(root: c_int, path: *const c_char, mode: c_uint, flags: c_int) -> c_int;
    pub fn inroot_open_parent(root: c_int, path: *const c_char, flags: c_int, last: *mut c_char) -> c_int;
    pub fn inroot_place(root: c_int, fd: c_int, path: *mut c_char, size: usize) -> isize;
    pub fn inroot_mkfile_all(root: c_int, path: *const c_char, mode: c_uint, above: c_uint, flags: c_int) -> c_int;
    pub fn inroot_remove_all(root: c_int, path: *const c_char, flags: c_int) -> isize;
}
