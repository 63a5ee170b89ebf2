//! Parts of paths, and what is missing of them.

use crate::change::INROOT_FOLLOW;
use crate::error::{c_path, opened, text_from, text_of};
use crate::root::mode_of;
use crate::{ffi, Handle, Root};
use std::ffi::OsString;
use std::fs::Permissions;
use std::io;
use std::os::raw::{c_char, c_int};
use std::os::unix::io::{AsFd, AsRawFd};
use std::path::{Path, PathBuf};

const INROOT_DIRECTORY: c_int = 1024;

impl Root {
    /// The directory of the path's entry, as the calls that change an entry walk to it, and the entry's name. A slash at
    /// the end of the path is ENOTDIR.
    ///
    /// ```
    /// # let root = include!("../tests/shared/example.rs");
    /// let (etc, name) = root.resolve_parent("etc/new")?;
    /// assert!(etc.metadata()?.is_dir() && name == "new");
    /// # Ok::<(), std::io::Error>(())
    /// ```
    pub fn resolve_parent(&self, path: impl AsRef<Path>) -> io::Result<(Handle, OsString)> {
        self.parent(path.as_ref(), 0)
    }

    /// The same, and a slash at the end of the path, as of a directory's, is no error.
    ///
    /// ```
    /// # let root = include!("../tests/shared/example.rs");
    /// assert_eq!(root.resolve_directory_parent("etc/new/")?.1, "new");
    /// # Ok::<(), std::io::Error>(())
    /// ```
    pub fn resolve_directory_parent(&self, path: impl AsRef<Path>) -> io::Result<(Handle, OsString)> {
        self.parent(path.as_ref(), INROOT_DIRECTORY)
    }

    fn parent(&self, path: &Path, more: c_int) -> io::Result<(Handle, OsString)> {
        let path = c_path(path)?;
        let flags = self.flags.bits() | more;
        let mut last: [c_char; 256] = [0; 256];
        // SAFETY: the path ends with a NUL and stays during the call, which writes at most 256 bytes with a NUL.
        let given = unsafe { ffi::inroot_open_parent(self.number(), path.as_ptr(), flags, last.as_mut_ptr()) };
        let dir = opened(given)?;
        // SAFETY: they end with a NUL.
        Ok((Handle::from(dir), unsafe { text_of(last.as_ptr()) }))
    }

    /// Where what the descriptor is open on stands below the root: its names, with a slash before each.
    ///
    /// ```
    /// # let root = include!("../tests/shared/example.rs");
    /// root.symlink("/etc/conf", "link")?;
    /// assert_eq!(root.place(root.open("link")?)?.to_str(), Some("/etc/conf"));
    /// # Ok::<(), std::io::Error>(())
    /// ```
    pub fn place(&self, object: impl AsFd) -> io::Result<PathBuf> {
        // SAFETY: it writes at most the size of the room.
        text_from(|room, size| unsafe { ffi::inroot_place(self.number(), object.as_fd().as_raw_fd(), room, size) })
    }

    /// A file that is missing, made or opened where it is there, by a handle of it. See `mkfile_all`.
    fn all(&self, path: &Path, mode: u32, above: u32, more: c_int) -> io::Result<Handle> {
        let path = c_path(path)?;
        let flags = self.flags.bits() | more;
        // SAFETY: the path ends with a NUL and stays during the call.
        opened(unsafe { ffi::inroot_mkfile_all(self.number(), path.as_ptr(), mode, above, flags) }).map(Handle::from)
    }

    /// Gives what is there, unless it is a directory, or makes an empty file, and each directory above it that is
    /// missing, of the mode `above`. ENOENT where a link leads to what is missing.
    ///
    /// ```
    /// # let root = include!("../tests/shared/example.rs");
    /// use std::{fs::Permissions, os::unix::fs::PermissionsExt};
    ///
    /// let (mode, above) = (Permissions::from_mode(0o600), Permissions::from_mode(0o755));
    /// let made = root.mkfile_all("run/app/pid", &mode, &above)?;
    /// assert!(made.metadata()?.is_file());
    /// # Ok::<(), std::io::Error>(())
    /// ```
    pub fn mkfile_all(&self, path: impl AsRef<Path>, mode: &Permissions, above: &Permissions) -> io::Result<Handle> {
        self.all(path.as_ref(), mode_of(mode), mode_of(above), 0)
    }

    /// The same, and what a link leads to is made where it is missing, below the root.
    ///
    /// ```
    /// # let root = include!("../tests/shared/example.rs");
    /// use std::{fs::Permissions, os::unix::fs::PermissionsExt};
    ///
    /// root.symlink("/run", "var-run")?;
    /// let (mode, above) = (Permissions::from_mode(0o600), Permissions::from_mode(0o755));
    /// root.mkfile_all_followed("var-run/pid", &mode, &above)?;
    /// assert!(root.exists("run/pid"));
    /// # Ok::<(), std::io::Error>(())
    /// ```
    pub fn mkfile_all_followed(
        &self,
        path: impl AsRef<Path>,
        mode: &Permissions,
        above: &Permissions,
    ) -> io::Result<Handle> {
        self.all(path.as_ref(), mode_of(mode), mode_of(above), INROOT_FOLLOW)
    }
}
