//! Which proc(5) the calls ask, and files in it.

use crate::error::{again, c_path, done, opened, text_from};
use crate::{ffi, OpenOptions};
use std::fs::File;
use std::io;
use std::os::raw::c_int;
use std::os::unix::io::{AsFd, AsRawFd};
use std::path::{Path, PathBuf};

/// Has the calls ask the proc(5) of which this is the topmost directory, in place of /proc: inroot_use_proc(3). Before the
/// first other call; the descriptor may be closed afterwards.
///
/// ```
/// inroot::use_proc(std::fs::File::open("/proc")?)?;
/// assert!(inroot::Root::open_ambient_dir("/")?.exists("proc/version"));
/// # Ok::<(), std::io::Error>(())
/// ```
pub fn use_proc(proc: impl AsFd) -> io::Result<()> {
    // SAFETY: it takes a number alone.
    done(unsafe { ffi::inroot_use_proc(proc.as_fd().as_raw_fd()) })
}

/// Has the calls ask a proc(5) that is mounted nowhere, in place of /proc: inroot_use_private_proc(3). Before the first
/// other call.
///
/// ```
/// if let Err(refused) = inroot::use_private_proc() {
///     eprintln!("the calls go by /proc: {refused}"); // as EPERM
/// }
/// # Ok::<(), std::io::Error>(())
/// ```
pub fn use_private_proc() -> io::Result<()> {
    // SAFETY: it takes nothing.
    done(unsafe { ffi::inroot_use_private_proc() })
}

/// Where a path in the proc(5) begins.
#[derive(Clone, Copy, Debug, PartialEq, Eq)]
#[non_exhaustive]
pub enum ProcfsBase {
    /// At the topmost directory.
    ProcRoot,
    /// At the process that has this number there.
    ProcPid(u32),
    /// At this process.
    ProcSelf,
    /// At this thread.
    ProcThreadSelf,
}

impl ProcfsBase {
    fn number(self) -> c_int {
        match self {
            ProcfsBase::ProcRoot => -201,
            // No process has a number that is none here; the call refuses it.
            ProcfsBase::ProcPid(process) => c_int::try_from(process).unwrap_or(-1),
            ProcfsBase::ProcSelf => -202,
            ProcfsBase::ProcThreadSelf => -203,
        }
    }
}

/// Opens a file of the proc(5) by which the calls go, and fails where something is mounted over it or over a part of the
/// path: inroot_proc_open(3). A link at the end is followed, but for `O_NOFOLLOW`. EINVAL of options that make a file.
///
/// ```
/// use inroot::{OpenOptions, ProcfsBase};
///
/// let comm = inroot::proc_open(ProcfsBase::ProcSelf, "comm", OpenOptions::new().read(true))?;
/// assert!(comm.metadata()?.is_file());
/// # Ok::<(), std::io::Error>(())
/// ```
pub fn proc_open(base: ProcfsBase, path: impl AsRef<Path>, options: &OpenOptions) -> io::Result<File> {
    let (flags, _) = options.numbers()?;
    let path = c_path(path.as_ref())?;
    // SAFETY: the path ends with a NUL and stays during the call, here and below.
    opened(again(|| unsafe { ffi::inroot_proc_open(base.number(), path.as_ptr(), flags) })).map(File::from)
}

/// The text of a link there.
///
/// ```
/// let program = inroot::proc_readlink(inroot::ProcfsBase::ProcSelf, "exe")?;
/// assert_eq!(program, std::env::current_exe()?);
/// # Ok::<(), std::io::Error>(())
/// ```
pub fn proc_readlink(base: ProcfsBase, path: impl AsRef<Path>) -> io::Result<PathBuf> {
    let path = c_path(path.as_ref())?;
    // SAFETY: it writes at most the size of the room.
    text_from(|room, size| unsafe { ffi::inroot_proc_readlink(base.number(), path.as_ptr(), room, size) })
}
