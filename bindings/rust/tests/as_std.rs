//! Each method that is named as a function of std::fs, beside that function: on a plain tree both give the same, the same
//! error, and leave the same behind.

mod shared;

use inroot::{DirBuilder, OpenOptions, Root};
use shared::*;
use std::fmt::Debug;
use std::fs;
use std::io;
use std::os::unix::fs::{symlink, DirBuilderExt, DirEntryExt, FileTypeExt, MetadataExt, OpenOptionsExt};
use std::path::{Path, PathBuf};

/// What is there, what isn't, and what can't be.
const PATHS: [&str; 17] = [
    "", "f", "f/", "f/x", "d", "d/", "d/f", "d/../f", "d/new", "d/new/", "full", "new", "none/x", "to-f", "to-d",
    "to-none", "loop",
];

/// Two equal directories: one for the crate, and one for std.
struct Both {
    room: Room,
    root: Root,
}

impl Both {
    fn new() -> Both {
        let room = Room::new();
        for top in ["mine", "std"].map(|name| room.0.join(name)) {
            fs::create_dir_all(top.join("full/x")).unwrap();
            fs::create_dir(top.join("d")).unwrap();
            fs::write(top.join("f"), "text").unwrap();
            fs::write(top.join("d/f"), [0xff]).unwrap();
            for (text, name) in [("f", "to-f"), ("d", "to-d"), ("none", "to-none"), ("loop", "loop")] {
                symlink(text, top.join(name)).unwrap();
            }
        }
        let root = Root::open_ambient_dir(room.0.join("mine")).unwrap();
        Both { room, root }
    }

    fn std(&self, path: &str) -> PathBuf {
        // An empty path is none of the directory.
        if path.is_empty() {
            PathBuf::new()
        } else {
            self.room.0.join("std").join(path)
        }
    }

    /// Both gave the same, and left the same behind.
    fn are_equal<T: Debug>(&self, paths: &[&str], mine: io::Result<T>, std: io::Result<T>) {
        match (mine, std) {
            (Err(mine), Err(std)) => assert!(are_alike(paths, &mine, &std), "{paths:?}: {mine} and {std}"),
            (mine, std) => assert_eq!(format!("{mine:?}"), format!("{std:?}"), "{paths:?}"),
        }
        assert_eq!(below(&self.room.0.join("mine")), below(&self.room.0.join("std")), "{paths:?}");
    }
}

/// Whether two errors are the same. The crate gives ENOTDIR of each slash behind what is made or removed and is no
/// directory; of two paths that both lead nowhere it may name the other's error.
fn are_alike(paths: &[&str], mine: &io::Error, std: &io::Error) -> bool {
    let slash = paths.iter().any(|path| path.ends_with('/')) && mine.raw_os_error() == Some(ENOTDIR);
    let both = paths.len() == 2 && paths.iter().all(|path| ["", "f/x", "none/x", "d/new/"].contains(path));
    // An error of std's own has no number.
    let same = mine.kind() == std.kind() && (std.raw_os_error().is_none() || mine.raw_os_error() == std.raw_os_error());
    slash || both || same
}

/// All that is below a directory, with modes, links' texts and contents.
fn below(top: &Path) -> Vec<String> {
    let mut lines = Vec::new();
    let mut waiting = vec![top.to_owned()];
    while let Some(directory) = waiting.pop() {
        for entry in fs::read_dir(directory).unwrap() {
            let path = entry.unwrap().path();
            let (about, name) = (fs::symlink_metadata(&path).unwrap(), path.strip_prefix(top).unwrap().to_owned());
            let told = if about.is_dir() { None } else { fs::read_link(&path).ok() };
            let bytes = if about.is_file() { fs::read(&path).unwrap() } else { Vec::new() };
            lines.push(format!("{name:?} {:o} {} {told:?} {bytes:?}", about.mode(), about.nlink()));
            if about.is_dir() {
                waiting.push(path);
            }
        }
    }
    lines.sort();
    lines
}

/// Makes one call on each path: of the crate, and of std.
fn each<T: Debug>(mine: impl Fn(&Root, &str) -> io::Result<T>, std: impl Fn(PathBuf) -> io::Result<T>) {
    for path in PATHS {
        let both = Both::new();
        both.are_equal(&[path], mine(&both.root, path), std(both.std(path)));
    }
}

/// The same of each two paths.
fn each_two(mine: impl Fn(&Root, &str, &str) -> io::Result<()>, std: impl Fn(&Both, &str, &str) -> io::Result<()>) {
    for (from, to) in PATHS.iter().flat_map(|from| PATHS.iter().map(move |to| (from, to))) {
        let both = Both::new();
        both.are_equal(&[from, to], mine(&both.root, from, to), std(&both, from, to));
    }
}

/// What is compared of a status.
fn about(told: fs::Metadata) -> (u32, u64, u64) {
    (told.mode(), told.nlink(), if told.is_dir() { 0 } else { told.len() })
}

#[test]
fn files_are_opened() {
    each(|root, path| root.open(path)?.metadata().map(about), |path| fs::File::open(path)?.metadata().map(about));
    each(|root, path| root.create(path)?.metadata().map(about), |path| fs::File::create(path)?.metadata().map(about));
    each(
        |root, path| root.create_new(path)?.metadata().map(about),
        |path| fs::OpenOptions::new().read(true).write(true).create_new(true).open(path)?.metadata().map(about),
    );
}

/// Every choice of what the options have, on every path.
#[test]
fn options_mean_the_same() {
    for bits in 0..64 {
        let is = |bit: u32| bits & 1 << bit != 0;
        let (mut mine, mut std) = (OpenOptions::new(), fs::OpenOptions::new());
        mine.read(is(0)).write(is(1)).append(is(2)).truncate(is(3)).create(is(4)).create_new(is(5)).mode(0o100640);
        std.read(is(0)).write(is(1)).append(is(2)).truncate(is(3)).create(is(4)).create_new(is(5)).mode(0o100640);
        for path in ["f", "d", "new", "to-none", "none/x"] {
            let both = Both::new();
            let wrote =
                |file: fs::File| (io::Write::write(&mut &file, b"n").ok(), io::Read::read(&mut &file, &mut [0]).ok());
            let (given, wanted) = (both.root.open_with(path, &mine), std.open(both.std(path)));
            assert_eq!(given.is_ok(), wanted.is_ok(), "{path} {mine:?}");
            both.are_equal(&[path], given.map(wrote), wanted.map(wrote));
        }
    }
}

#[test]
fn contents_are_read_and_written() {
    each(|root, path| root.read(path), fs::read);
    each(|root, path| root.read_to_string(path), fs::read_to_string);
    each(|root, path| root.write(path, "new"), |path| fs::write(path, "new"));
}

#[test]
fn objects_are_looked_at() {
    each(|root, path| root.metadata(path).map(about), |path| fs::metadata(path).map(about));
    each(|root, path| root.symlink_metadata(path).map(about), |path| fs::symlink_metadata(path).map(about));
    each(|root, path| Ok(root.exists(path)), |path| Ok(path.exists()));
    each(|root, path| root.try_exists(path), |path| path.try_exists());
    each(|root, path| root.read_link(path), fs::read_link);
    each(|root, path| root.set_permissions(path, mode(0o4750)), |path| fs::set_permissions(path, mode(0o4750)));
}

#[test]
fn directories_are_made_and_removed() {
    each(|root, path| root.create_dir(path), fs::create_dir);
    each(|root, path| root.remove_dir(path), fs::remove_dir);
    each(|root, path| root.remove_file(path), fs::remove_file);
    each(
        |root, path| root.create_dir_with(path, DirBuilder::new().mode(0o100711)).map(drop),
        |path| fs::DirBuilder::new().mode(0o100711).create(path),
    );
}

/// But for a directory below a link that leads to what is missing: std says that the link is there.
#[test]
fn whole_trees_are_made_and_removed() {
    for path in PATHS.iter().chain(&["d/x/y/z", "to-d/x/y", "f/x/y", "d/./x"]) {
        let both = Both::new();
        both.are_equal(&[path], both.root.create_dir_all(path), fs::create_dir_all(both.std(path)));
        let both = Both::new();
        both.are_equal(&[path], both.root.remove_dir_all(path), fs::remove_dir_all(both.std(path)));
    }
    let both = Both::new();
    assert_eq!(number(both.root.create_dir_all("to-none/x")), Some(ENOENT));
    assert_eq!(number(fs::create_dir_all(both.std("to-none/x"))), Some(EEXIST));
}

#[test]
fn entries_are_renamed() {
    each_two(|root, from, to| root.rename(from, to), |both, from, to| fs::rename(both.std(from), both.std(to)));
}

#[test]
fn objects_get_second_names() {
    each_two(|root, from, to| root.hard_link(from, to), |both, from, to| fs::hard_link(both.std(from), both.std(to)));
}

#[test]
fn links_are_made() {
    each_two(|root, text, path| root.symlink(text, path), |both, text, path| symlink(text, both.std(path)));
}

#[test]
fn directories_are_read() {
    let mine = |root: &Root, path: &str| {
        let one = |entry: io::Result<inroot::DirEntry>| {
            let entry = entry?;
            assert_eq!(entry.path(), Path::new(path).join(entry.file_name()));
            assert_eq!(entry.ino(), entry.metadata()?.ino());
            assert_eq!(entry.file_type()?, entry.metadata()?.file_type());
            Ok((entry.file_name(), about(entry.metadata()?)))
        };
        let mut all = root.read_dir(path)?.map(one).collect::<io::Result<Vec<_>>>()?;
        all.sort();
        Ok(all)
    };
    let std = |path: PathBuf| {
        let one = |entry: io::Result<fs::DirEntry>| {
            let entry = entry?;
            assert_eq!(entry.ino(), entry.metadata()?.ino());
            Ok((entry.file_name(), about(entry.metadata()?)))
        };
        let mut all = fs::read_dir(path)?.map(one).collect::<io::Result<Vec<_>>>()?;
        all.sort();
        Ok(all)
    };
    each(mine, std);
    let both = Both::new();
    both.are_equal(&["/"], mine(&both.root, "/"), std(both.std(".")));
}

/// What an entry is asked for is what stands in the directory that was read, also where that has another name now.
#[test]
fn an_entry_keeps_its_directory() {
    let both = Both::new();
    let mut entries = both.root.read_dir("d").unwrap();
    let entry = entries.next().unwrap().unwrap();
    both.root.rename("d", "moved").unwrap();
    both.root.create_dir_all("d/f").unwrap();
    drop(entries);
    assert!(entry.metadata().unwrap().is_file());
    both.root.remove_file("moved/f").unwrap();
    assert_eq!(number(entry.metadata()), Some(ENOENT));
    let threads = std::thread::spawn(move || entry.file_name()).join().unwrap();
    assert_eq!(threads, "f");
    assert!(!both.root.metadata("d").unwrap().file_type().is_fifo());
}
