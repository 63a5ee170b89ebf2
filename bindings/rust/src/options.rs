//! How a file is opened, and how a directory is made: by the names of std::fs.

use crate::flags::OpenFlags;
use std::io;

const EINVAL: i32 = 22;
const O_ACCMODE: i32 = 3;
/// The bit of O_TMPFILE that O_DIRECTORY hasn't.
const TMPFILE: i32 = 0o20000000;
/// The bits that the kernel takes for a new entry.
pub(crate) const MODE: u32 = 0o7777;

/// How a file is opened for use. It has the methods of [`std::fs::OpenOptions`], of which nobody else can read what was
/// set, and their meaning. `O_CLOEXEC` and `O_NOCTTY` are always set.
///
/// ```
/// # let root = include!("../tests/shared/example.rs");
/// use inroot::OpenOptions;
/// use std::io::Write;
///
/// let mut log = root.open_with("log", OpenOptions::new().append(true).create(true).mode(0o640))?;
/// log.write_all(b"begun\n")?;
/// # assert_eq!(root.read("log")?, b"begun\n");
/// # Ok::<(), std::io::Error>(())
/// ```
#[derive(Clone, Debug)]
pub struct OpenOptions {
    read: bool,
    write: bool,
    append: bool,
    truncate: bool,
    create: bool,
    create_new: bool,
    mode: u32,
    custom_flags: i32,
}

impl Default for OpenOptions {
    fn default() -> OpenOptions {
        OpenOptions::new()
    }
}

impl OpenOptions {
    /// Nothing is set, and the mode is 0o666.
    ///
    /// ```
    /// # let root = include!("../tests/shared/example.rs");
    /// # use inroot::{DirBuilder, OpenOptions};
    /// assert!(root.open_with("etc/conf", &OpenOptions::new()).is_err()); // for no use
    /// # Ok::<(), std::io::Error>(())
    /// ```
    pub fn new() -> OpenOptions {
        OpenOptions {
            read: false,
            write: false,
            append: false,
            truncate: false,
            create: false,
            create_new: false,
            mode: 0o666,
            custom_flags: 0,
        }
    }

    /// For reading.
    ///
    /// ```
    /// # let root = include!("../tests/shared/example.rs");
    /// # use inroot::{DirBuilder, OpenOptions};
    /// let file = root.open_with("etc/conf", OpenOptions::new().read(true))?;
    /// # Ok::<(), std::io::Error>(())
    /// ```
    pub fn read(&mut self, read: bool) -> &mut OpenOptions {
        self.read = read;
        self
    }

    /// For writing.
    ///
    /// ```
    /// # let root = include!("../tests/shared/example.rs");
    /// # use inroot::{DirBuilder, OpenOptions};
    /// std::io::Write::write_all(&mut root.open_with("etc/conf", OpenOptions::new().write(true))?, b"n")?;
    /// assert_eq!(root.read("etc/conf")?, b"next\n");
    /// # Ok::<(), std::io::Error>(())
    /// ```
    pub fn write(&mut self, write: bool) -> &mut OpenOptions {
        self.write = write;
        self
    }

    /// For writing at the end.
    ///
    /// ```
    /// # let root = include!("../tests/shared/example.rs");
    /// # use inroot::{DirBuilder, OpenOptions};
    /// std::io::Write::write_all(&mut root.open_with("etc/conf", OpenOptions::new().append(true))?, b"end")?;
    /// assert_eq!(root.read("etc/conf")?, b"text\nend");
    /// # Ok::<(), std::io::Error>(())
    /// ```
    pub fn append(&mut self, append: bool) -> &mut OpenOptions {
        self.append = append;
        self
    }

    /// What is there is made empty.
    ///
    /// ```
    /// # let root = include!("../tests/shared/example.rs");
    /// # use inroot::{DirBuilder, OpenOptions};
    /// root.open_with("etc/conf", OpenOptions::new().write(true).truncate(true))?;
    /// assert_eq!(root.metadata("etc/conf")?.len(), 0);
    /// # Ok::<(), std::io::Error>(())
    /// ```
    pub fn truncate(&mut self, truncate: bool) -> &mut OpenOptions {
        self.truncate = truncate;
        self
    }

    /// What is missing is made. A link whose target is missing is followed, and stays below the root.
    ///
    /// ```
    /// # let root = include!("../tests/shared/example.rs");
    /// # use inroot::{DirBuilder, OpenOptions};
    /// root.symlink("/etc/new", "link")?;
    /// root.open_with("link", OpenOptions::new().write(true).create(true))?;
    /// assert!(root.exists("etc/new"));
    /// # Ok::<(), std::io::Error>(())
    /// ```
    pub fn create(&mut self, create: bool) -> &mut OpenOptions {
        self.create = create;
        self
    }

    /// The file is made: EEXIST where there is such an entry, a link too.
    ///
    /// ```
    /// # let root = include!("../tests/shared/example.rs");
    /// # use inroot::{DirBuilder, OpenOptions};
    /// assert!(root.open_with("etc/conf", OpenOptions::new().write(true).create_new(true)).is_err());
    /// # Ok::<(), std::io::Error>(())
    /// ```
    pub fn create_new(&mut self, create_new: bool) -> &mut OpenOptions {
        self.create_new = create_new;
        self
    }

    /// The mode of a file that is made, less the umask.
    ///
    /// ```
    /// # let root = include!("../tests/shared/example.rs");
    /// # use inroot::OpenOptions;
    /// let key = root.open_with("key", OpenOptions::new().write(true).create_new(true).mode(0o600))?;
    /// # assert_eq!(std::os::unix::fs::MetadataExt::mode(&key.metadata()?), 0o100600);
    /// # Ok::<(), std::io::Error>(())
    /// ```
    pub fn mode(&mut self, mode: u32) -> &mut OpenOptions {
        self.mode = mode;
        self
    }

    /// Further flags of open(2), as [`OpenFlags`] or by their number. Those that say whether to read or to write don't
    /// count. A flag that inroot_openat(3) doesn't take gives EINVAL.
    ///
    /// ```
    /// # let root = include!("../tests/shared/example.rs");
    /// use inroot::{OpenFlags, OpenOptions};
    ///
    /// root.symlink("etc/conf", "conf")?;
    /// let refused = root.open_with("conf", OpenOptions::new().read(true).custom_flags(OpenFlags::O_NOFOLLOW));
    /// assert_eq!(refused.unwrap_err().raw_os_error(), Some(40)); // ELOOP
    /// # Ok::<(), std::io::Error>(())
    /// ```
    pub fn custom_flags(&mut self, flags: impl Into<i32>) -> &mut OpenOptions {
        self.custom_flags = flags.into();
        self
    }

    /// The flags of open(2), and the mode, which is 0 where nothing is made.
    pub(crate) fn numbers(&self) -> io::Result<(i32, u32)> {
        let flags = self.access()? | self.creation()? | self.custom_flags & !O_ACCMODE;
        let makes = flags & (OpenFlags::O_CREAT.bits() | TMPFILE) != 0;
        Ok((flags, if makes { self.mode & MODE } else { 0 }))
    }

    fn access(&self) -> io::Result<i32> {
        let flags = match (self.read, self.write, self.append) {
            (true, false, false) => OpenFlags::O_RDONLY,
            (false, true, false) => OpenFlags::O_WRONLY,
            (true, true, false) => OpenFlags::O_RDWR,
            (false, _, true) => OpenFlags::O_WRONLY | OpenFlags::O_APPEND,
            (true, _, true) => OpenFlags::O_RDWR | OpenFlags::O_APPEND,
            (false, false, false) => return Err(io::Error::from_raw_os_error(EINVAL)),
        };
        Ok(flags.bits())
    }

    fn creation(&self) -> io::Result<i32> {
        let writes = self.write || self.append;
        let makes = self.create || self.create_new;
        // What is to be made empty, and to be written at its end, is refused by std, too.
        if !writes && (self.truncate || makes) || self.append && self.truncate && !self.create_new {
            return Err(io::Error::from_raw_os_error(EINVAL));
        }
        let flags = match (self.create_new, self.create, self.truncate) {
            (true, _, _) => OpenFlags::O_CREAT | OpenFlags::O_EXCL,
            (false, true, true) => OpenFlags::O_CREAT | OpenFlags::O_TRUNC,
            (false, true, false) => OpenFlags::O_CREAT,
            (false, false, true) => OpenFlags::O_TRUNC,
            (false, false, false) => OpenFlags::default(),
        };
        Ok(flags.bits())
    }
}

/// How a directory is made, by [`Root::create_dir_with`](crate::Root::create_dir_with). It has the methods of
/// [`std::fs::DirBuilder`], of which nobody else can read what was set.
#[derive(Clone, Debug)]
pub struct DirBuilder {
    pub(crate) recursive: bool,
    pub(crate) through_links: bool,
    pub(crate) mode: u32,
}

impl Default for DirBuilder {
    fn default() -> DirBuilder {
        DirBuilder::new()
    }
}

impl DirBuilder {
    /// Only the last directory is made, and the mode is 0o777.
    ///
    /// ```
    /// # let root = include!("../tests/shared/example.rs");
    /// # use inroot::{DirBuilder, OpenOptions};
    /// root.create_dir_with("var", &DirBuilder::new())?;
    /// # Ok::<(), std::io::Error>(())
    /// ```
    pub fn new() -> DirBuilder {
        DirBuilder { recursive: false, through_links: false, mode: 0o777 }
    }

    /// Each directory of the path that is missing is made, and it is no error that the last is there.
    ///
    /// ```
    /// # let root = include!("../tests/shared/example.rs");
    /// # use inroot::{DirBuilder, OpenOptions};
    /// root.create_dir_with("var/lib", DirBuilder::new().recursive(true))?;
    /// # Ok::<(), std::io::Error>(())
    /// ```
    pub fn recursive(&mut self, recursive: bool) -> &mut DirBuilder {
        self.recursive = recursive;
        self
    }

    /// What a link leads to is made where it is missing, below the root. With `recursive` alone; else EINVAL.
    ///
    /// ```
    /// # let root = include!("../tests/shared/example.rs");
    /// use inroot::DirBuilder;
    ///
    /// root.symlink("/run", "var-run")?;
    /// root.create_dir_with("var-run/lock", DirBuilder::new().recursive(true).through_links(true))?;
    /// assert!(root.metadata("run/lock")?.is_dir());
    /// # Ok::<(), std::io::Error>(())
    /// ```
    pub fn through_links(&mut self, through_links: bool) -> &mut DirBuilder {
        self.through_links = through_links;
        self
    }

    /// The mode of each directory that is made, less the umask.
    ///
    /// ```
    /// # let root = include!("../tests/shared/example.rs");
    /// let keys = root.create_dir_with("keys", inroot::DirBuilder::new().mode(0o700))?;
    /// # assert_eq!(std::os::unix::fs::MetadataExt::mode(&keys.metadata()?), 0o40700);
    /// # Ok::<(), std::io::Error>(())
    /// ```
    pub fn mode(&mut self, mode: u32) -> &mut DirBuilder {
        self.mode = mode;
        self
    }
}
