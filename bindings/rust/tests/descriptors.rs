//! No call leaves a descriptor open, whether it succeeds or fails. In a program of its own: no other test opens any.

mod shared;

use inroot::{DirBuilder, InodeType, OpenFlags, OpenOptions, Root};
use shared::{mode, Room};
use std::fs;
use std::os::raw::c_int;
use std::os::unix::io::{AsRawFd, OwnedFd};

extern "C" {
    fn getrlimit(resource: c_int, limits: *mut [u64; 2]) -> c_int;
    fn setrlimit(resource: c_int, limits: *const [u64; 2]) -> c_int;
}

/// Lets so many descriptors be open. Gives how many could be before.
fn with_limit(limit: u64) -> u64 {
    const RLIMIT_NOFILE: c_int = 7;
    let mut limits = [0; 2];
    // SAFETY: both take a structure of two numbers.
    unsafe {
        assert_eq!(getrlimit(RLIMIT_NOFILE, &mut limits), 0);
        let before = limits[0];
        limits[0] = limit;
        assert_eq!(setrlimit(RLIMIT_NOFILE, &limits), 0);
        before
    }
}

fn open_now() -> usize {
    fs::read_dir("/proc/self/fd").unwrap().count()
}

#[test]
fn none_is_left_open() {
    let room = Room::new();
    fs::create_dir(room.0.join("a")).unwrap();
    fs::write(room.0.join("a/f"), "x").unwrap();
    let root = Root::open_ambient_dir(&room.0).unwrap();
    let reading = OpenOptions::new().read(true).clone();
    let all = || {
        drop(root.resolve("a/f").unwrap().reopen(&reading).unwrap());
        drop(root.create_dir_with("a/x/y", DirBuilder::new().recursive(true)).unwrap());
        drop(root.create("a/g").unwrap());
        drop(root.create_inode("a/p", &InodeType::Fifo(mode(0o600))).unwrap());
        drop(root.create_unnamed("a", &mode(0o600)).unwrap());
        drop(OwnedFd::from(root.try_clone().unwrap().open_dir("a").unwrap()));
        drop(root.read_dir("a").unwrap().next().unwrap().unwrap());
        assert!(root.read_dir("a").unwrap().all(|entry| entry.unwrap().metadata().is_ok()));
        assert_eq!((root.read("a/f").unwrap(), root.metadata("a/f").unwrap().len()), (b"x".to_vec(), 1));
        root.create_dir_all("a/x/y/z").unwrap();
        root.remove_dir_all("a/x").unwrap();
        assert_eq!(root.remove_all("a/p").unwrap(), 1);
        assert!(root.resolve("none/f").is_err() && root.create_dir_all("a/f/x").is_err());
        assert!(root.create_dir_all("a/f").is_err() && root.remove_dir_all("a/f").is_err());
        assert!(root.read_link("a").is_err() && root.create("a").is_err() && root.create_new("a/f").is_err());
        assert!(root.read("a").is_err() && root.read_dir("a/f").is_err() && root.open_dir("a/f").is_err());
        let directory = OpenOptions::new().read(true).custom_flags(OpenFlags::O_DIRECTORY).clone();
        assert!(root.resolve("a/f").unwrap().reopen(&directory).is_err());
    };
    // The first calls open /proc, which stays.
    all();
    let before = open_now();
    (0..50).for_each(|_| all());
    assert_eq!(open_now(), before);
    // What is found is looked at also where no descriptor is left.
    let found = root.resolve("a/f").unwrap();
    let last = fs::File::open("/dev/null").unwrap();
    let limit = with_limit(last.as_raw_fd() as u64);
    assert!(fs::File::open("/dev/null").is_err());
    let about = found.metadata();
    with_limit(limit);
    assert_eq!(about.unwrap().len(), 1);
}
