//! Paths below a directory, of which nothing leads out: a binding to libinroot.
//!
//! A [`Root`] is a directory. Each call takes a path below it, as openat2(2) does with `RESOLVE_IN_ROOT`: an absolute
//! path and an absolute link begin at the root, and `..` at the root is the root, whoever renames directories
//! meanwhile. What is promised, and the order of the errors, is that of libinroot(7).
//!
//! Its methods are named as the functions of [`std::fs`], as those of cap-std's `Dir` are: they take the same arguments
//! and give std's types and errors, with the kernel's number. Where a path would lead out, cap-std gives an error; here
//! the path stays below the root. Where a signal interrupts a call that opens, the call is made again, as by std. One
//! that changes something gives `Interrupted`, and nobody knows whether it has.
//!
//! ```
//! # let root = include!("../tests/shared/example.rs");
//! // let root = inroot::Root::open_ambient_dir("/srv/box")?;
//! root.create_dir_all("var/log")?;
//! root.write("var/log/first", "begun\n")?;
//! root.symlink("/var/log/first", "latest")?;
//! assert_eq!(root.read_to_string("../../latest")?, "begun\n");
//! root.remove_dir_all("var")?;
//! # Ok::<(), std::io::Error>(())
//! ```
//!
//! What std has no function for is beside them: a [`Handle`] of what was found, which is opened, changed or linked by
//! itself ([`Root::resolve`]); restrictions of the walk ([`ResolverFlags`]); nodes ([`Root::create_inode`], [`Root::mknod`]); missing
//! objects that links lead to ([`DirBuilder::through_links`]); an object's path ([`Root::place`]); and files of /proc
//! ([`proc_open`]). What std has and the crate has not: `copy` and `canonicalize`.

#[cfg(not(all(
    target_os = "linux",
    target_pointer_width = "64",
    target_endian = "little",
    any(target_arch = "x86_64", target_arch = "aarch64")
)))]
compile_error!("libinroot is there for 64-bit Linux on x86-64 and arm64 alone");

mod attributes;
mod change;
mod error;
mod ffi;
mod flags;
mod handle;
mod options;
mod parts;
mod proc;
mod read_dir;
mod root;

pub use attributes::XattrMode;
pub use change::InodeType;
pub use error::{last_error, Cause};
pub use flags::{OpenFlags, RenameFlags, ResolverFlags};
pub use handle::Handle;
pub use options::{DirBuilder, OpenOptions};
pub use proc::{proc_open, proc_readlink, use_private_proc, use_proc, ProcfsBase};
pub use read_dir::{DirEntry, ReadDir};
pub use root::Root;

/// The version of the library that is linked.
///
/// ```
/// assert!(inroot::version().starts_with("0."));
/// ```
pub fn version() -> String {
    // SAFETY: the library gives a text that ends with a NUL and stays as long as the program.
    let text = unsafe { std::ffi::CStr::from_ptr(ffi::inroot_version()) };
    text.to_string_lossy().into_owned()
}
