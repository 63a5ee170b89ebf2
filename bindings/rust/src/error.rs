//! Errors: each call gives the error's number, as an [`io::Error`].

use crate::ffi;
use std::ffi::{CStr, CString, OsString};
use std::io;
use std::mem::MaybeUninit;
use std::os::raw::{c_char, c_int};
use std::os::unix::ffi::{OsStrExt, OsStringExt};
use std::os::unix::io::{FromRawFd, OwnedFd};
use std::path::{Path, PathBuf};

/// Why a call failed, for whoever wants to print it.
#[derive(Clone, Debug, PartialEq, Eq)]
#[non_exhaustive]
pub struct Cause {
    /// The error's number.
    pub error: i32,
    /// The last step that the call made, as `Open`; empty where it failed before the first.
    pub step: String,
    /// The name that the step was about, or empty.
    pub name: OsString,
    /// All of it in one sentence, in one line.
    pub text: String,
}

/// Why the thread's last call failed, where one has. After a call that succeeded it says nothing of that call.
///
/// ```
/// # let root = include!("../tests/shared/example.rs");
/// root.symlink("none", "link")?;
/// assert!(root.open("link/conf").is_err());
/// let cause = inroot::last_error().unwrap();
/// assert_eq!((cause.step.as_str(), cause.name.to_str()), ("Open", Some("none")));
/// assert_eq!(cause.text, "can't look up \"none\": No such file or directory (ENOENT)");
/// # Ok::<(), std::io::Error>(())
/// ```
pub fn last_error() -> Option<Cause> {
    let mut told = MaybeUninit::<ffi::Error>::uninit();
    let mut text = [0; 2048];
    // SAFETY: the library writes the whole structure where it gives 0, and its texts end with a NUL.
    unsafe {
        if ffi::inroot_last_error(told.as_mut_ptr()) != 0 {
            return None;
        }
        ffi::inroot_last_error_text(text.as_mut_ptr(), text.len());
        let told = &*told.as_ptr();
        Some(Cause {
            error: told.error,
            step: CStr::from_ptr(told.step).to_string_lossy().into_owned(),
            name: text_of(told.name.as_ptr()),
            text: CStr::from_ptr(text.as_ptr()).to_string_lossy().into_owned(),
        })
    }
}

/// # Safety
/// The bytes end with a NUL.
pub(crate) unsafe fn text_of(bytes: *const c_char) -> OsString {
    OsString::from_vec(CStr::from_ptr(bytes).to_bytes().to_vec())
}

/// A path as C has it. One with a NUL in it names nothing: EINVAL.
pub(crate) fn c_path(path: &Path) -> io::Result<CString> {
    const EINVAL: i32 = 22;
    CString::new(path.as_os_str().as_bytes()).map_err(|_| io::Error::from_raw_os_error(EINVAL))
}

/// What a call gave that gives a number.
pub(crate) fn count_of(result: isize) -> io::Result<usize> {
    usize::try_from(result).map_err(|_| io::Error::from_raw_os_error(-result as i32))
}

/// The text that a call writes into a room, whose size it takes; it gives the length.
pub(crate) fn text_from(call: impl FnOnce(*mut c_char, usize) -> isize) -> io::Result<PathBuf> {
    let mut text = vec![0u8; 4096];
    let given = call(text.as_mut_ptr().cast(), text.len());
    text.truncate(count_of(given)?);
    Ok(PathBuf::from(OsString::from_vec(text)))
}

/// What a call gave that gives nothing.
pub(crate) fn done(result: c_int) -> io::Result<()> {
    count_of(result as isize).map(|_| ())
}

/// What a call gives that changes nothing: it is made again where a signal interrupts it, as std does.
pub(crate) fn again(call: impl Fn() -> c_int) -> c_int {
    const EINTR: c_int = 4;
    loop {
        let given = call();
        if given != -EINTR {
            return given;
        }
    }
}

/// What a call gave that gives a descriptor.
pub(crate) fn opened(result: c_int) -> io::Result<OwnedFd> {
    count_of(result as isize)?;
    // SAFETY: the call has just opened it, and nobody else knows it.
    Ok(unsafe { OwnedFd::from_raw_fd(result) })
}
