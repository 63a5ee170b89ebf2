//! The tree of the tests, and what they compare.

#![allow(dead_code)] // no test takes all of it

use inroot::Root;
use std::fs::{self, Permissions};
use std::io;
use std::os::unix::fs::{symlink, MetadataExt, PermissionsExt};
use std::path::PathBuf;
use std::sync::atomic::{AtomicU32, Ordering};

pub const ENOENT: i32 = 2;
pub const EAGAIN: i32 = 11;
pub const EEXIST: i32 = 17;
pub const EXDEV: i32 = 18;
pub const ENOTDIR: i32 = 20;
pub const EISDIR: i32 = 21;
pub const EINVAL: i32 = 22;
pub const ENAMETOOLONG: i32 = 36;
pub const ELOOP: i32 = 40;
pub const ENODATA: i32 = 61;
pub const EOPNOTSUPP: i32 = 95;

/// A new directory, which is removed at the end.
pub struct Room(pub PathBuf);

impl Room {
    pub fn new() -> Room {
        static NUMBER: AtomicU32 = AtomicU32::new(0);
        let name = format!("inroot-rust-{}-{}", std::process::id(), NUMBER.fetch_add(1, Ordering::Relaxed));
        let top = std::env::temp_dir().join(name);
        fs::create_dir(&top).unwrap();
        Room(top)
    }
}

impl Drop for Room {
    fn drop(&mut self) {
        let _ = fs::remove_dir_all(&self.0);
    }
}

/// A directory with `outside/secret`, and the root `box` beside it, whose links lead out.
pub struct Tree {
    room: Room,
}

impl Tree {
    pub fn new() -> Tree {
        let tree = Tree { room: Room::new() };
        fs::create_dir_all(tree.at("box/a/b")).unwrap();
        fs::create_dir(tree.at("outside")).unwrap();
        fs::write(tree.at("outside/secret"), "secret").unwrap();
        fs::write(tree.at("box/a/b/f"), "inside").unwrap();
        symlink("/a/../../a/b", tree.at("box/in")).unwrap();
        symlink("../outside", tree.at("box/up")).unwrap();
        symlink(tree.at("outside"), tree.at("box/abs")).unwrap();
        symlink("loop", tree.at("box/loop")).unwrap();
        tree
    }

    pub fn root(&self) -> Root {
        Root::open_ambient_dir(self.at("box")).unwrap()
    }

    pub fn at(&self, path: &str) -> PathBuf {
        self.room.0.join(path)
    }

    /// The number of the object that has this name below the root.
    pub fn inode(&self, path: &str) -> u64 {
        fs::symlink_metadata(self.at("box").join(path)).unwrap().ino()
    }

    /// Nothing was made, changed or removed beside the root.
    pub fn outside_is_untouched(&self) {
        let names: Vec<_> = fs::read_dir(self.at("outside")).unwrap().map(|entry| entry.unwrap().file_name()).collect();
        assert_eq!(names, ["secret"]);
        assert_eq!(fs::read_to_string(self.at("outside/secret")).unwrap(), "secret");
        assert_eq!(fs::metadata(self.at("outside/secret")).unwrap().nlink(), 1);
    }
}

pub fn mode(bits: u32) -> Permissions {
    Permissions::from_mode(bits)
}

/// The number of the error that the result is.
pub fn number<T: std::fmt::Debug>(result: io::Result<T>) -> Option<i32> {
    result.unwrap_err().raw_os_error()
}
