//! Entries that are made, renamed and removed.

use crate::error::{c_path, count_of, done, opened};
use crate::options::MODE;
use crate::root::mode_of;
use crate::{ffi, DirBuilder, Handle, RenameFlags, Root};
use std::fs::Permissions;
use std::io;
use std::os::raw::c_int;
use std::os::unix::ffi::OsStrExt;
use std::os::unix::io::{AsFd, AsRawFd};
use std::path::{Path, PathBuf};

const ENOENT: i32 = 2;
const EEXIST: i32 = 17;
const ENOTDIR: i32 = 20;
const ELOOP: i32 = 40;
const S_IFIFO: u32 = 0o010000;
const S_IFCHR: u32 = 0o020000;
const S_IFBLK: u32 = 0o060000;
const S_IFREG: u32 = 0o100000;
const S_IFSOCK: u32 = 0o140000;
pub(crate) const INROOT_FOLLOW: c_int = 16;
const INROOT_GIVE: c_int = 256;

/// What [`Root::create_inode`] and [`Root::mknod`] make. Modes are taken less the umask.
#[derive(Clone, Debug)]
#[non_exhaustive]
pub enum InodeType {
    /// An empty file.
    File(Permissions),
    /// A symbolic link with this text.
    Symlink(PathBuf),
    /// A second name of what this path means below the root; of a link at its end, of the link itself.
    Hardlink(PathBuf),
    /// A FIFO.
    Fifo(Permissions),
    /// A socket.
    Socket(Permissions),
    /// A node of the character device with this number.
    CharacterDevice(Permissions, u64),
    /// A node of the block device with this number.
    BlockDevice(Permissions, u64),
}

impl Root {
    /// Makes an empty directory, of the mode 0o777 less the umask.
    ///
    /// ```
    /// # let root = include!("../tests/shared/example.rs");
    /// root.create_dir("var")?;
    /// assert_eq!(root.create_dir("var").unwrap_err().kind(), std::io::ErrorKind::AlreadyExists);
    /// # Ok::<(), std::io::Error>(())
    /// ```
    pub fn create_dir(&self, path: impl AsRef<Path>) -> io::Result<()> {
        let path = c_path(path.as_ref())?;
        // SAFETY: the path ends with a NUL and stays during the call, here and below.
        done(unsafe { ffi::inroot_mkdir(self.number(), path.as_ptr(), 0o777, self.flags.bits()) })
    }

    /// Makes each directory of the path that is missing, none through a link. Of an empty path it makes nothing, as in
    /// std, so that the parent of a path of one name may be given.
    ///
    /// ```
    /// # let root = include!("../tests/shared/example.rs");
    /// root.create_dir_all("var/lib/data")?;
    /// root.create_dir_all("var/lib/data")?;
    /// # assert!(root.metadata("var/lib/data")?.is_dir());
    /// # Ok::<(), std::io::Error>(())
    /// ```
    pub fn create_dir_all(&self, path: impl AsRef<Path>) -> io::Result<()> {
        let path = path.as_ref();
        if path.as_os_str().is_empty() {
            return Ok(());
        }
        match self.create_dir_with(path, DirBuilder::new().recursive(true)) {
            // What is there and is no directory is EEXIST in std.
            Err(error)
                if matches!(error.raw_os_error(), Some(ENOENT | ENOTDIR | ELOOP))
                    && self.resolve_nofollow(path).is_ok() =>
            {
                Err(io::Error::from_raw_os_error(EEXIST))
            }
            made => made.map(|_| ()),
        }
    }

    /// Makes a directory as the builder says, and gives it. Without `recursive`, EAGAIN says that the directory was made
    /// and that others took it away before it could be opened.
    ///
    /// ```
    /// # let root = include!("../tests/shared/example.rs");
    /// let data = root.create_dir_with("var/data", inroot::DirBuilder::new().recursive(true).mode(0o700))?;
    /// data.set_times(None, Some(std::time::UNIX_EPOCH))?;
    /// # Ok::<(), std::io::Error>(())
    /// ```
    pub fn create_dir_with(&self, path: impl AsRef<Path>, builder: &DirBuilder) -> io::Result<Handle> {
        let path = c_path(path.as_ref())?;
        let (root, mode) = (self.number(), builder.mode & MODE);
        let flags = self.flags.bits() | if builder.through_links { INROOT_FOLLOW } else { 0 };
        // SAFETY: as above.
        let given = match builder.recursive {
            true => unsafe { ffi::inroot_mkdir_all(root, path.as_ptr(), mode, flags) },
            false => unsafe { ffi::inroot_mkdir(root, path.as_ptr(), mode, flags | INROOT_GIVE) },
        };
        opened(given).map(Handle::from)
    }

    /// Makes an entry that isn't there yet, and gives what it made; or EEXIST. A file, or what got a second name, is
    /// just that one; of any other only the kind, a link's text and a device's number are known. EAGAIN says that the
    /// entry was made and that others took it away before it could be opened.
    ///
    /// ```
    /// # let root = include!("../tests/shared/example.rs");
    /// use inroot::InodeType;
    /// use std::{fs::Permissions, os::unix::fs::FileTypeExt, os::unix::fs::PermissionsExt};
    ///
    /// let fifo = root.create_inode("etc/fifo", &InodeType::Fifo(Permissions::from_mode(0o600)))?;
    /// assert!(fifo.metadata()?.file_type().is_fifo());
    /// # Ok::<(), std::io::Error>(())
    /// ```
    pub fn create_inode(&self, path: impl AsRef<Path>, what: &InodeType) -> io::Result<Handle> {
        opened(self.put(path.as_ref(), what, INROOT_GIVE)?).map(Handle::from)
    }

    /// The same, and gives nothing: no descriptor is opened.
    ///
    /// ```
    /// # let root = include!("../tests/shared/example.rs");
    /// use std::{fs::Permissions, os::unix::fs::PermissionsExt};
    ///
    /// root.mknod("etc/empty", &inroot::InodeType::File(Permissions::from_mode(0o600)))?;
    /// assert_eq!(root.read("etc/empty")?, b"");
    /// # Ok::<(), std::io::Error>(())
    /// ```
    pub fn mknod(&self, path: impl AsRef<Path>, what: &InodeType) -> io::Result<()> {
        done(self.put(path.as_ref(), what, 0)?)
    }

    fn put(&self, path: &Path, what: &InodeType, more: c_int) -> io::Result<c_int> {
        let (kind, mode, device) = match what {
            InodeType::Symlink(text) => return self.put_symlink(text, path, more),
            InodeType::Hardlink(existing) => return self.put_link(existing, path, more),
            InodeType::File(mode) => (S_IFREG, mode, 0),
            InodeType::Fifo(mode) => (S_IFIFO, mode, 0),
            InodeType::Socket(mode) => (S_IFSOCK, mode, 0),
            InodeType::CharacterDevice(mode, device) => (S_IFCHR, mode, *device),
            InodeType::BlockDevice(mode, device) => (S_IFBLK, mode, *device),
        };
        let path = c_path(path)?;
        let flags = self.flags.bits() | more;
        // SAFETY: as above.
        Ok(unsafe { ffi::inroot_mknod(self.number(), path.as_ptr(), kind | mode_of(mode), device, flags) })
    }

    fn put_symlink(&self, text: &Path, path: &Path, more: c_int) -> io::Result<c_int> {
        let (text, path) = (c_path(text)?, c_path(path)?);
        // SAFETY: as above, of both paths.
        Ok(unsafe { ffi::inroot_symlink(self.number(), text.as_ptr(), path.as_ptr(), self.flags.bits() | more) })
    }

    fn put_link(&self, existing: &Path, path: &Path, more: c_int) -> io::Result<c_int> {
        let (existing, path) = (c_path(existing)?, c_path(path)?);
        // SAFETY: as above, of both paths.
        Ok(unsafe { ffi::inroot_link(self.number(), existing.as_ptr(), path.as_ptr(), self.flags.bits() | more) })
    }

    /// Makes a symbolic link with the text `original`, which is any text.
    ///
    /// ```
    /// # let root = include!("../tests/shared/example.rs");
    /// root.symlink("/etc", "config")?;
    /// assert_eq!(root.read("config/conf")?, b"text\n");
    /// # Ok::<(), std::io::Error>(())
    /// ```
    pub fn symlink(&self, original: impl AsRef<Path>, link: impl AsRef<Path>) -> io::Result<()> {
        done(self.put_symlink(original.as_ref(), link.as_ref(), 0)?)
    }

    /// Gives what `original` means, of a link at its end the link itself, a second name.
    ///
    /// ```
    /// # let root = include!("../tests/shared/example.rs");
    /// root.hard_link("etc/conf", "conf")?;
    /// # assert_eq!(root.read("conf")?, b"text\n");
    /// # Ok::<(), std::io::Error>(())
    /// ```
    pub fn hard_link(&self, original: impl AsRef<Path>, link: impl AsRef<Path>) -> io::Result<()> {
        done(self.put_link(original.as_ref(), link.as_ref(), 0)?)
    }

    /// Gives what `original` means, of a link at its end what that leads to, a second name.
    ///
    /// ```
    /// # let root = include!("../tests/shared/example.rs");
    /// root.symlink("/etc/conf", "link")?;
    /// root.hard_link_followed("link", "conf")?;
    /// assert!(root.symlink_metadata("conf")?.is_file());
    /// # Ok::<(), std::io::Error>(())
    /// ```
    pub fn hard_link_followed(&self, original: impl AsRef<Path>, link: impl AsRef<Path>) -> io::Result<()> {
        done(self.put_link(original.as_ref(), link.as_ref(), INROOT_FOLLOW)?)
    }

    /// Gives what the descriptor is open on, wherever that is, this name.
    ///
    /// ```
    /// # let root = include!("../tests/shared/example.rs");
    /// let found = root.resolve("etc/conf")?;
    /// root.hard_link_fd(&found, "conf")?;
    /// # assert_eq!(root.read("conf")?, b"text\n");
    /// # Ok::<(), std::io::Error>(())
    /// ```
    pub fn hard_link_fd(&self, object: impl AsFd, link: impl AsRef<Path>) -> io::Result<()> {
        let link = c_path(link.as_ref())?;
        let fd = object.as_fd().as_raw_fd();
        // SAFETY: as above.
        done(unsafe { ffi::inroot_link_fd(self.number(), fd, link.as_ptr(), self.flags.bits()) })
    }

    /// Renames the entry, which stays below the root. An entry that is there is replaced.
    ///
    /// ```
    /// # let root = include!("../tests/shared/example.rs");
    /// root.rename("etc/conf", "conf")?;
    /// assert!(root.exists("conf") && !root.exists("etc/conf"));
    /// # Ok::<(), std::io::Error>(())
    /// ```
    pub fn rename(&self, from: impl AsRef<Path>, to: impl AsRef<Path>) -> io::Result<()> {
        self.rename_with(from, to, RenameFlags::default())
    }

    /// Renames the entry, and treats one that is there as the flags say.
    ///
    /// ```
    /// # let root = include!("../tests/shared/example.rs");
    /// root.write("new", "other")?;
    /// root.rename_with("new", "etc/conf", inroot::RenameFlags::RENAME_EXCHANGE)?;
    /// assert_eq!((root.read("new")?, root.read("etc/conf")?), (b"text\n".to_vec(), b"other".to_vec()));
    /// # Ok::<(), std::io::Error>(())
    /// ```
    pub fn rename_with(&self, from: impl AsRef<Path>, to: impl AsRef<Path>, flags: RenameFlags) -> io::Result<()> {
        let (from, to) = (c_path(from.as_ref())?, c_path(to.as_ref())?);
        let (root, restricted) = (self.number(), self.flags.bits());
        // SAFETY: as above, of both paths.
        done(unsafe { ffi::inroot_rename(root, from.as_ptr(), to.as_ptr(), flags.bits(), restricted) })
    }

    /// Removes a non-directory; of a link the link alone.
    ///
    /// ```
    /// # let root = include!("../tests/shared/example.rs");
    /// root.remove_file("etc/conf")?;
    /// assert!(!root.exists("etc/conf"));
    /// # Ok::<(), std::io::Error>(())
    /// ```
    pub fn remove_file(&self, path: impl AsRef<Path>) -> io::Result<()> {
        let path = c_path(path.as_ref())?;
        // SAFETY: as above.
        done(unsafe { ffi::inroot_unlink(self.number(), path.as_ptr(), self.flags.bits()) })
    }

    /// Removes an empty directory.
    ///
    /// ```
    /// # let root = include!("../tests/shared/example.rs");
    /// assert!(root.remove_dir("etc").is_err()); // ENOTEMPTY
    /// root.remove_file("etc/conf")?;
    /// root.remove_dir("etc")?;
    /// # assert!(!root.exists("etc"));
    /// # Ok::<(), std::io::Error>(())
    /// ```
    pub fn remove_dir(&self, path: impl AsRef<Path>) -> io::Result<()> {
        let path = c_path(path.as_ref())?;
        // SAFETY: as above.
        done(unsafe { ffi::inroot_rmdir(self.number(), path.as_ptr(), self.flags.bits()) })
    }

    /// Removes a directory with all that is below it; of a link the link alone. ENOENT where nothing is there, ENOTDIR
    /// of a file, and of a link with a slash behind it. What others put into the directory's place meanwhile is removed as [`Root::remove_all`] does.
    ///
    /// ```
    /// # let root = include!("../tests/shared/example.rs");
    /// root.remove_dir_all("etc")?;
    /// assert_eq!(root.remove_dir_all("etc").unwrap_err().kind(), std::io::ErrorKind::NotFound);
    /// # Ok::<(), std::io::Error>(())
    /// ```
    pub fn remove_dir_all(&self, path: impl AsRef<Path>) -> io::Result<()> {
        let path = path.as_ref();
        let kind = self.symlink_metadata(path)?.file_type();
        if kind.is_symlink() {
            return self.remove_file(path);
        }
        // With a slash behind it a link is followed.
        let name = path.components().as_path();
        let slash = path.as_os_str().as_bytes().ends_with(b"/");
        if !kind.is_dir() || slash && self.symlink_metadata(name)?.file_type().is_symlink() {
            return Err(io::Error::from_raw_os_error(ENOTDIR));
        }
        match self.remove_all(path)? {
            0 => Err(io::Error::from_raw_os_error(ENOENT)),
            _ => Ok(()),
        }
    }

    /// Removes an entry of any kind with all that is below it, and gives how many entries it removed: 0 where there was
    /// none.
    ///
    /// ```
    /// # let root = include!("../tests/shared/example.rs");
    /// assert_eq!(root.remove_all("etc")?, 2);
    /// assert_eq!(root.remove_all("etc")?, 0);
    /// # Ok::<(), std::io::Error>(())
    /// ```
    pub fn remove_all(&self, path: impl AsRef<Path>) -> io::Result<usize> {
        let path = c_path(path.as_ref())?;
        // SAFETY: as above.
        count_of(unsafe { ffi::inroot_remove_all(self.number(), path.as_ptr(), self.flags.bits()) })
    }
}
