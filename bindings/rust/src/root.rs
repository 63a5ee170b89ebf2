//! A directory, and what is found, opened, read and written below it.

use crate::error::{again, c_path, opened, text_from};
use crate::options::MODE;
use crate::{ffi, Handle, OpenFlags, OpenOptions, ResolverFlags};
use std::fs::{File, Metadata, Permissions};
use std::io::{self, Read, Write};
use std::os::raw::c_int;
use std::os::unix::fs::{OpenOptionsExt, PermissionsExt};
use std::os::unix::io::{AsFd, AsRawFd, BorrowedFd, OwnedFd};
use std::path::{Path, PathBuf};

pub(crate) const INROOT_NOFOLLOW: c_int = 4;

/// A directory below which paths are resolved. Any number of threads may make calls on it.
///
/// A descriptor of a directory is a root, too: `Root::from(fd)`, and `OwnedFd::from(root)` back. If it isn't one of a
/// directory, the calls give ENOTDIR.
#[derive(Debug)]
pub struct Root {
    fd: OwnedFd,
    pub(crate) flags: ResolverFlags,
}

impl Root {
    /// Opens a directory as the root. Its path is walked as open(2) does, so it should be one that nobody else can
    /// change.
    ///
    /// ```
    /// let root = inroot::Root::open_ambient_dir("/")?;
    /// assert!(root.exists("proc/version"));
    /// # Ok::<(), std::io::Error>(())
    /// ```
    pub fn open_ambient_dir(path: impl AsRef<Path>) -> io::Result<Root> {
        let flags = OpenFlags::O_PATH | OpenFlags::O_DIRECTORY;
        let file = std::fs::OpenOptions::new().read(true).custom_flags(flags.bits()).open(path)?;
        Ok(Root::from(OwnedFd::from(file)))
    }

    /// Opens a directory below this root as a root of its own, of which nothing leads up to this one. It has the same
    /// restrictions.
    ///
    /// ```
    /// # let root = include!("../tests/shared/example.rs");
    /// let etc = root.open_dir("etc")?;
    /// assert_eq!(etc.read_to_string("../../conf")?, "text\n");
    /// # Ok::<(), std::io::Error>(())
    /// ```
    pub fn open_dir(&self, path: impl AsRef<Path>) -> io::Result<Root> {
        let flags = OpenFlags::O_PATH | OpenFlags::O_DIRECTORY;
        let found = self.open_with(path, OpenOptions::new().read(true).custom_flags(flags))?;
        Ok(Root { fd: found.into(), flags: self.flags })
    }

    /// The same root, whose calls are restricted so.
    ///
    /// ```
    /// # let root = include!("../tests/shared/example.rs");
    /// use inroot::ResolverFlags;
    ///
    /// root.symlink("etc/conf", "conf")?;
    /// let plain = root.try_clone()?.with_resolver_flags(ResolverFlags::NO_SYMLINKS);
    /// assert_eq!(plain.open("conf").unwrap_err().raw_os_error(), Some(40)); // ELOOP
    /// # Ok::<(), std::io::Error>(())
    /// ```
    pub fn with_resolver_flags(mut self, flags: ResolverFlags) -> Root {
        self.flags = flags;
        self
    }

    /// The same root by a descriptor of its own.
    ///
    /// ```
    /// # let root = include!("../tests/shared/example.rs");
    /// let second = root.try_clone()?;
    /// assert!(std::thread::spawn(move || second.exists("etc")).join().unwrap());
    /// # Ok::<(), std::io::Error>(())
    /// ```
    pub fn try_clone(&self) -> io::Result<Root> {
        Ok(Root { fd: self.fd.try_clone()?, flags: self.flags })
    }

    pub(crate) fn number(&self) -> c_int {
        self.fd.as_raw_fd()
    }

    /// Finds what the path means. A link at its end is followed.
    ///
    /// ```
    /// # let root = include!("../tests/shared/example.rs");
    /// let found = root.resolve("etc/conf")?;
    /// assert_eq!(found.metadata()?.len(), 5);
    /// # Ok::<(), std::io::Error>(())
    /// ```
    pub fn resolve(&self, path: impl AsRef<Path>) -> io::Result<Handle> {
        self.find(path.as_ref(), 0)
    }

    /// Finds what the path means. A link at its end is what is found.
    ///
    /// ```
    /// # let root = include!("../tests/shared/example.rs");
    /// root.symlink("nowhere", "link")?;
    /// root.resolve_nofollow("link")?.chown(None, None)?;
    /// # Ok::<(), std::io::Error>(())
    /// ```
    pub fn resolve_nofollow(&self, path: impl AsRef<Path>) -> io::Result<Handle> {
        self.find(path.as_ref(), INROOT_NOFOLLOW)
    }

    fn find(&self, path: &Path, more: c_int) -> io::Result<Handle> {
        let path = c_path(path)?;
        // SAFETY: the path ends with a NUL and stays during the call, here and below.
        opened(unsafe { ffi::inroot_open(self.number(), path.as_ptr(), self.flags.bits() | more) }).map(Handle::from)
    }

    /// Opens a file for reading, as [`File::open`] does.
    ///
    /// ```
    /// # let root = include!("../tests/shared/example.rs");
    /// let lines = std::io::BufRead::lines(std::io::BufReader::new(root.open("/etc/conf")?));
    /// assert_eq!(lines.count(), 1);
    /// # Ok::<(), std::io::Error>(())
    /// ```
    pub fn open(&self, path: impl AsRef<Path>) -> io::Result<File> {
        self.open_with(path, OpenOptions::new().read(true))
    }

    /// Opens a file for writing, as [`File::create`] does: what is missing is made, and what is there made empty.
    ///
    /// ```
    /// # let root = include!("../tests/shared/example.rs");
    /// use std::io::Write;
    ///
    /// root.create("etc/new")?.write_all(b"one")?;
    /// # assert_eq!(root.read("etc/new")?, b"one");
    /// # Ok::<(), std::io::Error>(())
    /// ```
    pub fn create(&self, path: impl AsRef<Path>) -> io::Result<File> {
        self.open_with(path, OpenOptions::new().write(true).create(true).truncate(true))
    }

    /// Makes a file, for reading and writing, or gives EEXIST, as `File::create_new` of std does.
    ///
    /// ```
    /// # let root = include!("../tests/shared/example.rs");
    /// root.create_new("etc/new")?;
    /// assert_eq!(root.create_new("etc/new").unwrap_err().kind(), std::io::ErrorKind::AlreadyExists);
    /// # Ok::<(), std::io::Error>(())
    /// ```
    pub fn create_new(&self, path: impl AsRef<Path>) -> io::Result<File> {
        self.open_with(path, OpenOptions::new().read(true).write(true).create_new(true))
    }

    /// Opens a file as the options say.
    ///
    /// ```
    /// # let root = include!("../tests/shared/example.rs");
    /// use inroot::OpenOptions;
    /// use std::io::Write;
    ///
    /// root.open_with("etc/conf", OpenOptions::new().append(true))?.write_all(b"more\n")?;
    /// # assert_eq!(root.read_to_string("etc/conf")?, "text\nmore\n");
    /// # Ok::<(), std::io::Error>(())
    /// ```
    pub fn open_with(&self, path: impl AsRef<Path>, options: &OpenOptions) -> io::Result<File> {
        let (flags, mode) = options.numbers()?;
        let path = c_path(path.as_ref())?;
        // SAFETY: as above.
        let call = || unsafe { ffi::inroot_openat(self.number(), path.as_ptr(), flags, mode, self.flags.bits()) };
        // What makes a file would find its own at a second time.
        let makes = flags & OpenFlags::O_EXCL.bits() != 0;
        opened(if makes { call() } else { again(call) }).map(File::from)
    }

    /// Makes a file without a name in the file system of this directory. [`Root::hard_link_fd`] gives it one.
    ///
    /// ```
    /// # let root = include!("../tests/shared/example.rs");
    /// use std::{fs::Permissions, io::Write, os::unix::fs::PermissionsExt};
    ///
    /// let mut file = root.create_unnamed("etc", &Permissions::from_mode(0o644))?;
    /// file.write_all(b"whole")?;
    /// root.hard_link_fd(&file, "etc/whole")?;
    /// # assert_eq!(root.read("etc/whole")?, b"whole");
    /// # Ok::<(), std::io::Error>(())
    /// ```
    pub fn create_unnamed(&self, directory: impl AsRef<Path>, mode: &Permissions) -> io::Result<File> {
        let mut options = OpenOptions::new();
        options.read(true).write(true).mode(mode.mode()).custom_flags(OpenFlags::O_TMPFILE);
        self.open_with(directory, &options)
    }

    /// Reads a whole file.
    ///
    /// ```
    /// # let root = include!("../tests/shared/example.rs");
    /// assert_eq!(root.read("etc/conf")?, b"text\n");
    /// # Ok::<(), std::io::Error>(())
    /// ```
    pub fn read(&self, path: impl AsRef<Path>) -> io::Result<Vec<u8>> {
        let mut bytes = Vec::new();
        self.open(path)?.read_to_end(&mut bytes)?;
        Ok(bytes)
    }

    /// Reads a whole file, which is UTF-8; else the error is of the kind `InvalidData`.
    ///
    /// ```
    /// # let root = include!("../tests/shared/example.rs");
    /// assert_eq!(root.read_to_string("etc/conf")?, "text\n");
    /// # Ok::<(), std::io::Error>(())
    /// ```
    pub fn read_to_string(&self, path: impl AsRef<Path>) -> io::Result<String> {
        let mut text = String::new();
        self.open(path)?.read_to_string(&mut text)?;
        Ok(text)
    }

    /// Writes a whole file, which is made where it is missing.
    ///
    /// ```
    /// # let root = include!("../tests/shared/example.rs");
    /// root.write("etc/conf", "other\n")?;
    /// # assert_eq!(root.read("etc/conf")?, b"other\n");
    /// # Ok::<(), std::io::Error>(())
    /// ```
    pub fn write(&self, path: impl AsRef<Path>, contents: impl AsRef<[u8]>) -> io::Result<()> {
        self.create(path)?.write_all(contents.as_ref())
    }

    /// What fstat(2) says of the object that the path means.
    ///
    /// ```
    /// # let root = include!("../tests/shared/example.rs");
    /// assert!(root.metadata("etc")?.is_dir());
    /// # Ok::<(), std::io::Error>(())
    /// ```
    pub fn metadata(&self, path: impl AsRef<Path>) -> io::Result<Metadata> {
        self.resolve(path)?.metadata()
    }

    /// The same, of a link at its end of the link itself.
    ///
    /// ```
    /// # let root = include!("../tests/shared/example.rs");
    /// root.symlink("nowhere", "link")?;
    /// assert!(root.symlink_metadata("link")?.file_type().is_symlink());
    /// # Ok::<(), std::io::Error>(())
    /// ```
    pub fn symlink_metadata(&self, path: impl AsRef<Path>) -> io::Result<Metadata> {
        self.resolve_nofollow(path)?.metadata()
    }

    /// Sets the mode of the object that the path means. A link at its end is followed.
    ///
    /// ```
    /// # let root = include!("../tests/shared/example.rs");
    /// use std::{fs::Permissions, os::unix::fs::PermissionsExt};
    ///
    /// root.set_permissions("etc/conf", Permissions::from_mode(0o600))?;
    /// assert_eq!(root.metadata("etc/conf")?.permissions().mode() & 0o7777, 0o600);
    /// # Ok::<(), std::io::Error>(())
    /// ```
    pub fn set_permissions(&self, path: impl AsRef<Path>, permissions: Permissions) -> io::Result<()> {
        self.resolve(path)?.set_permissions(permissions)
    }

    /// Whether the path leads to an object. If that can't be told, it is `false`.
    ///
    /// ```
    /// # let root = include!("../tests/shared/example.rs");
    /// root.symlink("nowhere", "link")?;
    /// assert!(root.exists("etc/conf") && !root.exists("link"));
    /// # Ok::<(), std::io::Error>(())
    /// ```
    pub fn exists(&self, path: impl AsRef<Path>) -> bool {
        self.resolve(path).is_ok()
    }

    /// Whether the path leads to an object, or why that can't be told.
    ///
    /// ```
    /// # let root = include!("../tests/shared/example.rs");
    /// assert!(!root.try_exists("etc/none")?);
    /// assert!(root.try_exists("etc/conf/none").is_err()); // ENOTDIR
    /// # Ok::<(), std::io::Error>(())
    /// ```
    pub fn try_exists(&self, path: impl AsRef<Path>) -> io::Result<bool> {
        match self.resolve(path) {
            Ok(_) => Ok(true),
            Err(error) if error.kind() == io::ErrorKind::NotFound => Ok(false),
            Err(error) => Err(error),
        }
    }

    /// The text of the link at the end of the path.
    ///
    /// ```
    /// # let root = include!("../tests/shared/example.rs");
    /// root.symlink("/etc/conf", "link")?;
    /// assert_eq!(root.read_link("link")?.to_str(), Some("/etc/conf"));
    /// # Ok::<(), std::io::Error>(())
    /// ```
    pub fn read_link(&self, path: impl AsRef<Path>) -> io::Result<PathBuf> {
        let path = c_path(path.as_ref())?;
        let (root, flags) = (self.number(), self.flags.bits());
        // SAFETY: as above, and it writes at most the size of the room.
        text_from(|room, size| unsafe { ffi::inroot_readlink(root, path.as_ptr(), flags, room, size) })
    }
}

impl AsFd for Root {
    fn as_fd(&self) -> BorrowedFd<'_> {
        self.fd.as_fd()
    }
}

impl From<OwnedFd> for Root {
    fn from(fd: OwnedFd) -> Root {
        Root { fd, flags: ResolverFlags::default() }
    }
}

impl From<Root> for OwnedFd {
    fn from(root: Root) -> OwnedFd {
        root.fd
    }
}

/// The bits that the kernel takes for a new entry: those of the kind are the call's own.
pub(crate) fn mode_of(mode: &Permissions) -> u32 {
    mode.mode() & MODE
}
