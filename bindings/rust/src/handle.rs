//! An object that was found.

use crate::error::{again, opened};
use crate::{ffi, OpenOptions};
use std::fs::{File, Metadata};
use std::io;
use std::mem::ManuallyDrop;
use std::os::unix::io::{AsFd, AsRawFd, BorrowedFd, FromRawFd, OwnedFd};

/// An object that a path meant below a root, by a descriptor with O_PATH. It stood there at a moment of the call.
///
/// Any descriptor is a handle, too: `Handle::from(fd)`, and `OwnedFd::from(handle)` back.
#[derive(Debug)]
pub struct Handle {
    fd: OwnedFd,
}

impl Handle {
    /// Opens the object for use. No path is walked again. EINVAL of options that make a file.
    ///
    /// ```
    /// # let root = include!("../tests/shared/example.rs");
    /// let found = root.resolve("etc/conf")?;
    /// assert!(found.metadata()?.is_file()); // and no FIFO, whose opening may wait
    /// let file = found.reopen(inroot::OpenOptions::new().read(true))?;
    /// # assert_eq!(file.metadata()?.len(), 5);
    /// # Ok::<(), std::io::Error>(())
    /// ```
    pub fn reopen(&self, options: &OpenOptions) -> io::Result<File> {
        let (flags, _) = options.numbers()?;
        // SAFETY: it takes numbers alone.
        opened(again(|| unsafe { ffi::inroot_reopen(self.fd.as_raw_fd(), flags) })).map(File::from)
    }

    /// What fstat(2) says of the object. It takes no descriptor more.
    ///
    /// ```
    /// # let root = include!("../tests/shared/example.rs");
    /// assert!(root.resolve("etc")?.metadata()?.is_dir());
    /// # Ok::<(), std::io::Error>(())
    /// ```
    pub fn metadata(&self) -> io::Result<Metadata> {
        // SAFETY: the file is never dropped, so the descriptor stays this handle's.
        let file = ManuallyDrop::new(unsafe { File::from_raw_fd(self.fd.as_raw_fd()) });
        file.metadata()
    }

    /// A second handle of the object.
    ///
    /// ```
    /// # let root = include!("../tests/shared/example.rs");
    /// let second = root.resolve("etc")?.try_clone()?;
    /// assert!(second.metadata()?.is_dir());
    /// # Ok::<(), std::io::Error>(())
    /// ```
    pub fn try_clone(&self) -> io::Result<Handle> {
        Ok(Handle { fd: self.fd.try_clone()? })
    }
}

impl AsFd for Handle {
    fn as_fd(&self) -> BorrowedFd<'_> {
        self.fd.as_fd()
    }
}

impl From<Handle> for OwnedFd {
    fn from(handle: Handle) -> OwnedFd {
        handle.fd
    }
}

impl From<OwnedFd> for Handle {
    fn from(fd: OwnedFd) -> Handle {
        Handle { fd }
    }
}
