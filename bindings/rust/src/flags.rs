//! Flags, as the kernel and the library number them.

use std::ops::{BitOr, BitOrAssign};

macro_rules! joined {
    ($name:ident) => {
        impl BitOr for $name {
            type Output = $name;
            fn bitor(self, other: $name) -> $name {
                $name(self.0 | other.0)
            }
        }

        impl BitOrAssign for $name {
            fn bitor_assign(&mut self, other: $name) {
                self.0 |= other.0;
            }
        }

        impl $name {
            /// The number that the kernel or the library has for them.
            ///
            /// ```
            /// assert_eq!(inroot::RenameFlags::RENAME_NOREPLACE.bits(), 1);
            /// ```
            pub const fn bits(self) -> i32 {
                self.0
            }

            /// Whether all of the other's flags are set.
            ///
            /// ```
            /// use inroot::OpenFlags;
            ///
            /// assert!((OpenFlags::O_PATH | OpenFlags::O_NOFOLLOW).contains(OpenFlags::O_PATH));
            /// ```
            pub const fn contains(self, other: $name) -> bool {
                self.0 & other.0 == other.0
            }
        }
    };
}

macro_rules! of_number {
    ($name:ident, $($flag:ident)|+) => {
        impl $name {
            /// The flags that have this number; `None` of a number that stands for others, too.
            ///
            /// ```
            /// assert_eq!(inroot::ResolverFlags::from_bits(1), Some(inroot::ResolverFlags::BENEATH));
            /// assert_eq!(inroot::ResolverFlags::from_bits(256), None); // INROOT_GIVE restricts nothing
            /// ```
            pub const fn from_bits(bits: i32) -> Option<$name> {
                if bits & !(0 $(| $name::$flag.0)+) == 0 {
                    Some($name(bits))
                } else {
                    None
                }
            }
        }
    };
}

/// The flags that have other numbers on another machine: the one for O_DIRECTORY here is that for O_DIRECT there.
#[cfg(target_arch = "aarch64")]
mod machine {
    pub const O_DIRECTORY: i32 = 0o40000;
    pub const O_NOFOLLOW: i32 = 0o100000;
    pub const O_DIRECT: i32 = 0o200000;
}
#[cfg(not(target_arch = "aarch64"))]
mod machine {
    pub const O_DIRECT: i32 = 0o40000;
    pub const O_DIRECTORY: i32 = 0o200000;
    pub const O_NOFOLLOW: i32 = 0o400000;
}

/// Flags of open(2) for which [`OpenOptions`](crate::OpenOptions) has no method: its `custom_flags` takes them.
#[derive(Clone, Copy, Debug, PartialEq, Eq, Default)]
pub struct OpenFlags(i32);

impl OpenFlags {
    pub(crate) const O_RDONLY: OpenFlags = OpenFlags(0);
    pub(crate) const O_WRONLY: OpenFlags = OpenFlags(0o1);
    pub(crate) const O_RDWR: OpenFlags = OpenFlags(0o2);
    pub(crate) const O_TRUNC: OpenFlags = OpenFlags(0o1000);
    pub(crate) const O_APPEND: OpenFlags = OpenFlags(0o2000);
    /// With `O_PATH`, by which nothing is written: what is missing is made, as an empty file.
    pub const O_CREAT: OpenFlags = OpenFlags(0o100);
    /// With `O_PATH` and `O_CREAT`: EEXIST where there is such an entry. With `O_TMPFILE`: the file never gets a name.
    pub const O_EXCL: OpenFlags = OpenFlags(0o200);
    /// The opening of a FIFO or a device doesn't wait.
    pub const O_NONBLOCK: OpenFlags = OpenFlags(0o4000);
    /// A write ends as the data is on the device.
    pub const O_DSYNC: OpenFlags = OpenFlags(0o10000);
    /// A write ends as the data and all about the file are on the device.
    pub const O_SYNC: OpenFlags = OpenFlags(0o4010000);
    /// Reads and writes pass the cache by.
    pub const O_DIRECT: OpenFlags = OpenFlags(machine::O_DIRECT);
    /// ENOTDIR of what is no directory.
    pub const O_DIRECTORY: OpenFlags = OpenFlags(machine::O_DIRECTORY);
    /// ELOOP of a link at the end of the path; with `O_PATH` the link itself is opened.
    pub const O_NOFOLLOW: OpenFlags = OpenFlags(machine::O_NOFOLLOW);
    /// Reading doesn't set the time of the last access.
    pub const O_NOATIME: OpenFlags = OpenFlags(0o1000000);
    /// The object is opened for no use: as [`Root::resolve`](crate::Root::resolve) does.
    pub const O_PATH: OpenFlags = OpenFlags(0o10000000);
    /// A file without a name, in the file system of the directory: as
    /// [`Root::create_unnamed`](crate::Root::create_unnamed) does.
    pub const O_TMPFILE: OpenFlags = OpenFlags(0o20000000 | machine::O_DIRECTORY);
}

impl From<OpenFlags> for i32 {
    fn from(flags: OpenFlags) -> i32 {
        flags.0
    }
}

joined!(OpenFlags);

/// Restrictions of each call of a [`Root`](crate::Root).
#[derive(Clone, Copy, Debug, PartialEq, Eq, Default)]
pub struct ResolverFlags(i32);

impl ResolverFlags {
    /// Refuses what would lead out of the root, with EXDEV.
    pub const BENEATH: ResolverFlags = ResolverFlags(1);
    /// Refuses every symbolic link on the way, with ELOOP.
    pub const NO_SYMLINKS: ResolverFlags = ResolverFlags(2);
    /// Refuses to leave the mount that the root is on, by a bind mount as well, with EXDEV.
    pub const NO_XDEV: ResolverFlags = ResolverFlags(128);
    /// Makes one try, where others are in the way.
    pub const NO_RETRY: ResolverFlags = ResolverFlags(8);
    /// Walks by single steps, and asks at the end at which names the object stands, all at one moment.
    pub const EXACT: ResolverFlags = ResolverFlags(16384);
}

joined!(ResolverFlags);
of_number!(ResolverFlags, BENEATH | NO_SYMLINKS | NO_XDEV | NO_RETRY | EXACT);

/// How a rename treats an entry that is there already.
#[derive(Clone, Copy, Debug, PartialEq, Eq, Default)]
pub struct RenameFlags(i32);

impl RenameFlags {
    /// It fails with EEXIST.
    pub const RENAME_NOREPLACE: RenameFlags = RenameFlags(1);
    /// The two entries are exchanged.
    pub const RENAME_EXCHANGE: RenameFlags = RenameFlags(2);
    /// A whiteout is left behind, by itself or together with `RENAME_NOREPLACE`.
    pub const RENAME_WHITEOUT: RenameFlags = RenameFlags(4);
}

joined!(RenameFlags);
of_number!(RenameFlags, RENAME_NOREPLACE | RENAME_EXCHANGE | RENAME_WHITEOUT);
