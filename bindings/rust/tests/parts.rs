//! Parents and places, and what is missing of a path.

mod shared;

use inroot::{DirBuilder, InodeType, OpenFlags, OpenOptions, ResolverFlags, Root};
use shared::*;
use std::fs;
use std::io;
use std::os::unix::fs::{symlink, FileTypeExt, MetadataExt};
use std::path::Path;

fn fails<T: std::fmt::Debug>(result: io::Result<T>, error: i32) {
    assert_eq!(number(result), Some(error));
}

#[test]
fn a_path_is_taken_apart() {
    let tree = Tree::new();
    let root = tree.root();
    let (dir, last) = root.resolve_parent("in/none").unwrap();
    assert_eq!((dir.metadata().unwrap().ino(), last.to_str()), (tree.inode("a/b"), Some("none")));
    fails(root.resolve_parent("in/.."), EINVAL);
    fails(root.resolve_parent("in/x/"), ENOTDIR);
    let (dir, last) = root.resolve_directory_parent("in/x/").unwrap();
    assert_eq!((dir.metadata().unwrap().ino(), last.to_str()), (tree.inode("a/b"), Some("x")));
    let file = root.resolve("in/f").unwrap();
    assert_eq!(root.place(&file).unwrap(), Path::new("/a/b/f"));
    assert_eq!(root.place(&root).unwrap(), Path::new("/"));
    fails(root.place(fs::File::open(tree.at("outside")).unwrap()), EXDEV);
}

#[test]
fn what_is_missing_is_made() {
    let tree = Tree::new();
    let root = tree.root();
    symlink("../run/pid", tree.at("box/a/to")).unwrap();
    let file = root.mkfile_all("a/x/y", &mode(0o640), &mode(0o711)).unwrap();
    assert_eq!(file.metadata().unwrap().ino(), tree.inode("a/x/y"));
    fails(root.mkfile_all("a/x", &mode(0o640), &mode(0o711)), EISDIR);
    fails(root.mkfile_all("a/to", &mode(0o640), &mode(0o711)), ENOENT);
    let file = root.mkfile_all_followed("a/to", &mode(0o640), &mode(0o711)).unwrap();
    assert_eq!(file.metadata().unwrap().ino(), tree.inode("run/pid"));
    root.remove_all("run").unwrap();
    fails(root.create_dir_all("a/to/x"), ENOENT);
    let dir = root.create_dir_with("a/to/x", DirBuilder::new().recursive(true).through_links(true)).unwrap();
    assert_eq!(dir.metadata().unwrap().ino(), tree.inode("run/pid/x"));
}

#[test]
fn what_was_made_is_given() {
    let tree = Tree::new();
    let root = tree.root();
    for what in [
        InodeType::File(mode(0o600)),
        InodeType::Symlink("text".into()),
        InodeType::Hardlink("in/f".into()),
        InodeType::Fifo(mode(0o600)),
    ] {
        let made = root.create_inode("in/new", &what).unwrap();
        assert_eq!(made.metadata().unwrap().ino(), tree.inode("a/b/new"));
        assert_eq!(made.metadata().unwrap().file_type().is_fifo(), matches!(what, InodeType::Fifo(_)));
        fails(root.create_inode("in/new", &what), EEXIST);
        root.remove_all("in/new").unwrap();
    }
    let made = root.create_dir_with("in/dir", &DirBuilder::new()).unwrap();
    assert_eq!(made.metadata().unwrap().ino(), tree.inode("a/b/dir"));
    fails(root.create_dir_with("in/dir", &DirBuilder::new()), EEXIST);
    let path = OpenOptions::new().read(true).custom_flags(OpenFlags::O_PATH | OpenFlags::O_CREAT).mode(0o600).clone();
    let given = root.open_with("in/path", &path).unwrap();
    assert_eq!((given.metadata().unwrap().ino(), given.metadata().unwrap().mode()), (tree.inode("a/b/path"), 0o100600));
}

/// By single steps one that is at no certain place isn't found: the kernel writes the same behind that of a removed one.
#[test]
fn exact_calls_ask_for_a_place() {
    let tree = Tree::new();
    fs::write(tree.at("box/a/b/f (deleted)"), "").unwrap();
    let found = tree.root().resolve("in/f (deleted)").unwrap();
    assert_eq!(found.metadata().unwrap().ino(), tree.inode("a/b/f (deleted)"));
    let exact = tree.root().with_resolver_flags(ResolverFlags::EXACT | ResolverFlags::NO_RETRY);
    fails(exact.resolve("in/f (deleted)"), EAGAIN);
    assert_eq!(exact.resolve("in/f").unwrap().metadata().unwrap().ino(), tree.inode("a/b/f"));
}

#[test]
fn magic_links_are_refused() {
    let root = Root::open_ambient_dir("/").unwrap();
    fails(root.resolve("proc/self/cwd"), ELOOP);
    root.resolve("proc/self/comm").unwrap();
}
