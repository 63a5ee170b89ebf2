//! The entries of a directory.

use crate::error::{c_path, opened, text_of};
use crate::root::INROOT_NOFOLLOW;
use crate::{ffi, Handle, OpenFlags, OpenOptions, ResolverFlags, Root};
use std::ffi::OsString;
use std::fmt;
use std::fs::{FileType, Metadata};
use std::io;
use std::os::raw::{c_char, c_int};
use std::os::unix::io::{AsRawFd, IntoRawFd};
use std::path::{Path, PathBuf};
use std::sync::Arc;

/// `DIR`, of which only the C library knows what is in it.
#[repr(C)]
struct Stream {
    _private: [u8; 0],
}

/// `struct dirent` of readdir(3), up to the name's begin.
#[repr(C)]
struct Told {
    inode: u64,
    _offset: i64,
    _length: u16,
    _kind: u8,
    name: [c_char; 256],
}

extern "C" {
    fn fdopendir(fd: c_int) -> *mut Stream;
    fn readdir(stream: *mut Stream) -> *const Told;
    fn closedir(stream: *mut Stream) -> c_int;
    fn __errno_location() -> *mut c_int;
}

/// A directory that is open, and the path by which it was found.
struct Directory {
    stream: *mut Stream,
    fd: c_int,
    flags: ResolverFlags,
    path: PathBuf,
}

// SAFETY: a stream belongs to no thread. One ReadDir alone reads it, by `&mut self`; its entries use the descriptor.
unsafe impl Send for Directory {}
// SAFETY: as above.
unsafe impl Sync for Directory {}

impl Drop for Directory {
    fn drop(&mut self) {
        // SAFETY: nobody uses it afterwards. It closes the descriptor.
        unsafe { closedir(self.stream) };
    }
}

/// The entries of a directory: an iterator, as [`std::fs::ReadDir`] is one. It ends after an error.
pub struct ReadDir {
    directory: Arc<Directory>,
    ended: bool,
}

/// An entry of a directory. It keeps the directory open.
pub struct DirEntry {
    directory: Arc<Directory>,
    name: OsString,
    inode: u64,
}

impl Root {
    /// The entries of a directory, in no order, without `.` and `..`.
    ///
    /// ```
    /// # let root = include!("../tests/shared/example.rs");
    /// for entry in root.read_dir("etc")? {
    ///     assert_eq!(root.read(entry?.path())?, b"text\n");
    /// }
    /// # Ok::<(), std::io::Error>(())
    /// ```
    pub fn read_dir(&self, path: impl AsRef<Path>) -> io::Result<ReadDir> {
        let path = path.as_ref();
        let file = self.open_with(path, OpenOptions::new().read(true).custom_flags(OpenFlags::O_DIRECTORY))?;
        // SAFETY: the descriptor is open.
        let stream = unsafe { fdopendir(file.as_raw_fd()) };
        if stream.is_null() {
            return Err(io::Error::last_os_error());
        }
        // The descriptor is the stream's from here on.
        let fd = file.into_raw_fd();
        let directory = Directory { stream, fd, flags: self.flags, path: path.to_owned() };
        Ok(ReadDir { directory: Arc::new(directory), ended: false })
    }
}

impl Iterator for ReadDir {
    type Item = io::Result<DirEntry>;

    fn next(&mut self) -> Option<io::Result<DirEntry>> {
        while !self.ended {
            // SAFETY: the stream is open, nobody else reads it, and an entry stays until the next one is read.
            let (name, inode) = unsafe {
                *__errno_location() = 0;
                let told = readdir(self.directory.stream);
                if told.is_null() {
                    self.ended = true;
                    let error = io::Error::last_os_error();
                    return if error.raw_os_error() == Some(0) { None } else { Some(Err(error)) };
                }
                (text_of(std::ptr::addr_of!((*told).name).cast()), (*told).inode)
            };
            if name != "." && name != ".." {
                return Some(Ok(DirEntry { directory: Arc::clone(&self.directory), name, inode }));
            }
        }
        None
    }
}

impl DirEntry {
    /// The path that was read, with the name behind it: a path below the same root.
    ///
    /// ```
    /// # let root = include!("../tests/shared/example.rs");
    /// let entry = root.read_dir("/etc")?.next().unwrap()?;
    /// assert_eq!(entry.path().to_str(), Some("/etc/conf"));
    /// # Ok::<(), std::io::Error>(())
    /// ```
    pub fn path(&self) -> PathBuf {
        self.directory.path.join(&self.name)
    }

    /// The name.
    ///
    /// ```
    /// # let root = include!("../tests/shared/example.rs");
    /// assert_eq!(root.read_dir("etc")?.next().unwrap()?.file_name(), "conf");
    /// # Ok::<(), std::io::Error>(())
    /// ```
    pub fn file_name(&self) -> OsString {
        self.name.clone()
    }

    /// What fstat(2) says of what has the name in this directory now; of a link, of the link itself.
    ///
    /// ```
    /// # let root = include!("../tests/shared/example.rs");
    /// assert_eq!(root.read_dir("etc")?.next().unwrap()?.metadata()?.len(), 5);
    /// # Ok::<(), std::io::Error>(())
    /// ```
    pub fn metadata(&self) -> io::Result<Metadata> {
        let name = c_path(Path::new(&self.name))?;
        let flags = self.directory.flags.bits() | INROOT_NOFOLLOW;
        // SAFETY: the name ends with a NUL and stays during the call.
        let given = unsafe { ffi::inroot_open(self.directory.fd, name.as_ptr(), flags) };
        Handle::from(opened(given)?).metadata()
    }

    /// The kind of that object. It asks as `metadata` does.
    ///
    /// ```
    /// # let root = include!("../tests/shared/example.rs");
    /// assert!(root.read_dir("etc")?.next().unwrap()?.file_type()?.is_file());
    /// # Ok::<(), std::io::Error>(())
    /// ```
    pub fn file_type(&self) -> io::Result<FileType> {
        Ok(self.metadata()?.file_type())
    }

    /// The number that the directory has for the entry's object.
    ///
    /// ```
    /// # let root = include!("../tests/shared/example.rs");
    /// use std::os::unix::fs::MetadataExt;
    ///
    /// let entry = root.read_dir("etc")?.next().unwrap()?;
    /// assert_eq!(entry.ino(), entry.metadata()?.ino());
    /// # Ok::<(), std::io::Error>(())
    /// ```
    pub fn ino(&self) -> u64 {
        self.inode
    }
}

impl fmt::Debug for ReadDir {
    fn fmt(&self, to: &mut fmt::Formatter<'_>) -> fmt::Result {
        to.debug_tuple("ReadDir").field(&self.directory.path).finish()
    }
}

impl fmt::Debug for DirEntry {
    fn fmt(&self, to: &mut fmt::Formatter<'_>) -> fmt::Result {
        to.debug_tuple("DirEntry").field(&self.path()).finish()
    }
}
