//! Mode, owner, times and extended attributes of what was found.

mod shared;

use inroot::XattrMode;
use shared::*;
use std::fs;
use std::os::unix::fs::MetadataExt;
use std::time::{Duration, UNIX_EPOCH};

#[test]
fn what_was_found_is_changed() {
    let tree = Tree::new();
    let root = tree.root();
    let file = root.resolve("in/f").unwrap();
    file.set_permissions(mode(0o4751)).unwrap();
    assert_eq!(fs::metadata(tree.at("box/a/b/f")).unwrap().mode() & 0o7777, 0o4751);
    let owner = file.metadata().unwrap().uid();
    file.chown(Some(owner), None).unwrap();
    for (user, group) in [(Some(u32::MAX), None), (None, Some(u32::MAX))] {
        assert_eq!(file.chown(user, group).unwrap_err().raw_os_error(), Some(EINVAL));
    }
    let (accessed, modified) = (UNIX_EPOCH + Duration::new(5, 6), UNIX_EPOCH - Duration::new(1, 250_000_000));
    file.set_times(Some(accessed), Some(modified)).unwrap();
    file.set_times(None, None).unwrap();
    let about = fs::metadata(tree.at("box/a/b/f")).unwrap();
    assert_eq!((about.atime(), about.atime_nsec()), (5, 6));
    assert_eq!((about.mtime(), about.mtime_nsec()), (-2, 750_000_000));
    // The first second that there is: a file system keeps its own first one, or refuses it. Rust 1.63 subtracts no more than
    // i64::MAX seconds at once.
    let first = UNIX_EPOCH - Duration::from_secs(i64::MAX as u64) - Duration::from_secs(1);
    let set = file.set_times(None, Some(first));
    let kept = fs::metadata(tree.at("box/a/b/f")).unwrap().mtime();
    assert!(set.is_err() || kept < -2, "{set:?} {kept}");
}

#[test]
fn a_link_is_changed_itself() {
    let tree = Tree::new();
    let root = tree.root();
    let before = fs::metadata(tree.at("outside")).unwrap();
    let link = root.resolve_nofollow("up").unwrap();
    let refused = link.set_permissions(mode(0o777)).unwrap_err();
    assert_eq!(refused.raw_os_error(), Some(EOPNOTSUPP));
    link.set_times(Some(UNIX_EPOCH), Some(UNIX_EPOCH + Duration::from_secs(7))).unwrap();
    assert_eq!(fs::symlink_metadata(tree.at("box/up")).unwrap().mtime(), 7);
    let after = fs::metadata(tree.at("outside")).unwrap();
    assert_eq!((after.mode(), after.mtime(), after.mtime_nsec()), (before.mode(), before.mtime(), before.mtime_nsec()));
}

#[test]
fn extended_attributes_are_set_and_removed() {
    let tree = Tree::new();
    let root = tree.root();
    let file = root.resolve("in/f").unwrap();
    match file.set_xattr("user.inroot", b"one", XattrMode::Create) {
        // A file system that has none says so of each call.
        Err(refused) if refused.raw_os_error() == Some(EOPNOTSUPP) => {
            assert_eq!(file.xattr("user.inroot").unwrap_err().raw_os_error(), Some(EOPNOTSUPP));
            assert_eq!(file.remove_xattr("user.inroot").unwrap_err().raw_os_error(), Some(EOPNOTSUPP));
            return;
        }
        set => set.unwrap(),
    }
    let again = file.set_xattr("user.inroot", b"two", XattrMode::Create).unwrap_err();
    assert_eq!(again.raw_os_error(), Some(EEXIST));
    assert_eq!(file.xattr("user.inroot").unwrap(), b"one");
    file.set_xattr("user.inroot", b"", XattrMode::Replace).unwrap();
    assert_eq!(file.xattr("user.inroot").unwrap(), b"");
    assert!(file.xattrs().unwrap().iter().any(|name| name == "user.inroot"));
    file.remove_xattr("user.inroot").unwrap();
    assert_eq!(file.xattr("user.inroot").unwrap_err().raw_os_error(), Some(ENODATA));
}
