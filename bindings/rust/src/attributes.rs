//! Mode, owner, times and extended attributes of what was found, by the object itself.

use crate::error::{c_path, count_of, done};
use crate::root::mode_of;
use crate::{ffi, Handle};
use std::ffi::{OsStr, OsString};
use std::fs::Permissions;
use std::io;
use std::os::raw::c_int;
use std::os::unix::ffi::OsStringExt;
use std::os::unix::io::{AsFd, AsRawFd};
use std::path::Path;
use std::time::{SystemTime, UNIX_EPOCH};

const UTIME_OMIT: i64 = (1 << 30) - 2;
const EINVAL: i32 = 22;
const ERANGE: i32 = 34;
/// All ones: it changes nothing.
const STAYS: u32 = u32::MAX;

/// How [`Handle::set_xattr`] treats an attribute that is there already, or isn't.
#[derive(Clone, Copy, Debug, PartialEq, Eq, Default)]
#[non_exhaustive]
pub enum XattrMode {
    /// It is set in either case.
    #[default]
    Set,
    /// EEXIST where it is there already.
    Create,
    /// ENODATA where it isn't there.
    Replace,
}

impl Handle {
    fn number(&self) -> c_int {
        self.as_fd().as_raw_fd()
    }

    /// Sets the mode. EOPNOTSUPP of a link.
    ///
    /// ```
    /// # let root = include!("../tests/shared/example.rs");
    /// use std::{fs::Permissions, os::unix::fs::PermissionsExt};
    ///
    /// root.resolve("etc/conf")?.set_permissions(Permissions::from_mode(0o400))?;
    /// # assert_eq!(root.metadata("etc/conf")?.permissions().mode() & 0o7777, 0o400);
    /// # Ok::<(), std::io::Error>(())
    /// ```
    pub fn set_permissions(&self, permissions: Permissions) -> io::Result<()> {
        // SAFETY: it takes numbers alone.
        done(unsafe { ffi::inroot_fchmod(self.number(), mode_of(&permissions)) })
    }

    /// Sets the owner and the group; `None` leaves it. EINVAL of the number of all ones, which is nobody's.
    ///
    /// ```
    /// # let root = include!("../tests/shared/example.rs");
    /// let conf = root.resolve("etc/conf")?;
    /// let owner = std::os::unix::fs::MetadataExt::uid(&conf.metadata()?);
    /// conf.chown(Some(owner), None)?;
    /// # Ok::<(), std::io::Error>(())
    /// ```
    pub fn chown(&self, user: Option<u32>, group: Option<u32>) -> io::Result<()> {
        if user == Some(STAYS) || group == Some(STAYS) {
            return Err(io::Error::from_raw_os_error(EINVAL));
        }
        let (user, group) = (user.unwrap_or(STAYS), group.unwrap_or(STAYS));
        // SAFETY: it takes numbers alone.
        done(unsafe { ffi::inroot_fchown(self.number(), user, group) })
    }

    /// Sets the times of the last access and of the last change of the contents; `None` leaves it.
    ///
    /// ```
    /// # let root = include!("../tests/shared/example.rs");
    /// use std::time::UNIX_EPOCH;
    ///
    /// root.resolve("etc/conf")?.set_times(None, Some(UNIX_EPOCH))?;
    /// assert_eq!(root.metadata("etc/conf")?.modified()?, UNIX_EPOCH);
    /// # Ok::<(), std::io::Error>(())
    /// ```
    pub fn set_times(&self, accessed: Option<SystemTime>, modified: Option<SystemTime>) -> io::Result<()> {
        let times = [spec_of(accessed), spec_of(modified)];
        // SAFETY: it reads two times.
        done(unsafe { ffi::inroot_futimens(self.number(), times.as_ptr()) })
    }

    /// Sets an extended attribute.
    ///
    /// ```
    /// # let root = include!("../tests/shared/example.rs");
    /// let conf = root.resolve("etc/conf")?;
    /// // EOPNOTSUPP where the file system has none.
    /// if conf.set_xattr("user.origin", b"here", inroot::XattrMode::Set).is_ok() {
    ///     assert_eq!(conf.xattr("user.origin")?, b"here");
    /// }
    /// # Ok::<(), std::io::Error>(())
    /// ```
    pub fn set_xattr(&self, name: impl AsRef<OsStr>, value: &[u8], mode: XattrMode) -> io::Result<()> {
        let name = c_path(Path::new(name.as_ref()))?;
        let (bytes, size) = (value.as_ptr().cast(), value.len());
        // SAFETY: the name ends with a NUL, and it reads the size of the value, here and below.
        done(unsafe { ffi::inroot_fsetxattr(self.number(), name.as_ptr(), bytes, size, mode as c_int) })
    }

    /// The value of an extended attribute.
    ///
    /// ```
    /// # let root = include!("../tests/shared/example.rs");
    /// let conf = root.resolve("etc/conf")?;
    /// // EOPNOTSUPP where the file system has none.
    /// if conf.set_xattr("user.origin", b"here", inroot::XattrMode::Set).is_ok() {
    ///     assert_eq!(conf.xattr("user.origin")?.len(), 4);
    /// }
    /// # Ok::<(), std::io::Error>(())
    /// ```
    pub fn xattr(&self, name: impl AsRef<OsStr>) -> io::Result<Vec<u8>> {
        let name = c_path(Path::new(name.as_ref()))?;
        // SAFETY: it writes at most the size of the room.
        all_of(|room, size| unsafe { ffi::inroot_fgetxattr(self.number(), name.as_ptr(), room.cast(), size) })
    }

    /// The names of the extended attributes.
    ///
    /// ```
    /// # let root = include!("../tests/shared/example.rs");
    /// let conf = root.resolve("etc/conf")?;
    /// // EOPNOTSUPP where the file system has none.
    /// if conf.set_xattr("user.origin", b"here", inroot::XattrMode::Set).is_ok() {
    ///     assert!(conf.xattrs()?.iter().any(|name| name == "user.origin"));
    /// }
    /// # Ok::<(), std::io::Error>(())
    /// ```
    pub fn xattrs(&self) -> io::Result<Vec<OsString>> {
        // SAFETY: it writes at most the size of the room.
        let text = all_of(|room, size| unsafe { ffi::inroot_flistxattr(self.number(), room.cast(), size) })?;
        let names = text.split(|byte| *byte == 0).filter(|name| !name.is_empty());
        Ok(names.map(|name| OsString::from_vec(name.to_vec())).collect())
    }

    /// Removes an extended attribute.
    ///
    /// ```
    /// # let root = include!("../tests/shared/example.rs");
    /// let conf = root.resolve("etc/conf")?;
    /// // EOPNOTSUPP where the file system has none.
    /// if conf.set_xattr("user.origin", b"here", inroot::XattrMode::Set).is_ok() {
    ///     conf.remove_xattr("user.origin")?;
    /// }
    /// # Ok::<(), std::io::Error>(())
    /// ```
    pub fn remove_xattr(&self, name: impl AsRef<OsStr>) -> io::Result<()> {
        let name = c_path(Path::new(name.as_ref()))?;
        // SAFETY: the name ends with a NUL.
        done(unsafe { ffi::inroot_fremovexattr(self.number(), name.as_ptr()) })
    }
}

/// As the kernel has it. Before 1970 the nanoseconds count upwards as well.
fn spec_of(time: Option<SystemTime>) -> ffi::Timespec {
    let time = match time {
        Some(time) => time,
        None => return ffi::Timespec { seconds: 0, nanoseconds: UTIME_OMIT },
    };
    match time.duration_since(UNIX_EPOCH) {
        Ok(after) => ffi::Timespec { seconds: after.as_secs() as i64, nanoseconds: i64::from(after.subsec_nanos()) },
        Err(before) => {
            let before = before.duration();
            let part = i64::from(before.subsec_nanos());
            let borrowed = i64::from(part > 0);
            ffi::Timespec {
                seconds: (before.as_secs() as i64).wrapping_neg() - borrowed,
                nanoseconds: (1_000_000_000 - part) * borrowed,
            }
        }
    }
}

/// What is read into as much room as it takes, which may grow meanwhile.
fn all_of(read: impl Fn(*mut u8, usize) -> isize) -> io::Result<Vec<u8>> {
    loop {
        let mut room = vec![0u8; count_of(read(std::ptr::null_mut(), 0))?];
        if room.is_empty() {
            return Ok(room);
        }
        let given = read(room.as_mut_ptr(), room.len());
        if given != -(ERANGE as isize) {
            room.truncate(count_of(given)?);
            return Ok(room);
        }
    }
}
