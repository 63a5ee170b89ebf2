//! The calls on a tree whose links lead out of its root.

mod shared;

use inroot::{DirBuilder, InodeType, OpenFlags, OpenOptions, RenameFlags, ResolverFlags, Root};
use shared::*;
use std::ffi::OsStr;
use std::fs;
use std::io::{self, Write};
use std::os::raw::c_int;
use std::os::unix::ffi::OsStrExt;
use std::os::unix::fs::{symlink, FileTypeExt, MetadataExt};
use std::os::unix::io::OwnedFd;
use std::path::Path;
use std::sync::atomic::{AtomicBool, AtomicUsize, Ordering};
use std::time::Duration;

#[test]
fn what_is_inside_is_found() {
    let tree = Tree::new();
    let root = tree.root();
    let wanted = fs::metadata(tree.at("box/a/b/f")).unwrap().ino();
    for path in ["a/b/f", "in/f", "/a/../../in/f", "../../a/b/f"] {
        assert_eq!(root.read_to_string(path).unwrap(), "inside", "{path}");
        let reopened = root.resolve(path).unwrap().reopen(OpenOptions::new().read(true)).unwrap();
        assert_eq!(reopened.metadata().unwrap().ino(), wanted, "{path}");
    }
    assert_eq!(root.metadata("in/f").unwrap().ino(), wanted);
    let fd: OwnedFd = root.resolve("a").unwrap().into();
    assert_eq!(Root::from(fd).read("b/f").unwrap(), b"inside");
}

#[test]
fn no_link_leads_out() {
    let tree = Tree::new();
    let root = tree.root();
    for path in ["up/secret", "abs/secret", "../outside/secret", "in/../../../outside/secret"] {
        let missing = Some(ENOENT);
        assert_eq!(number(root.resolve(path)), missing, "{path}");
        assert_eq!(number(root.read(path)), missing, "{path}");
        assert_eq!(number(root.write(path, "stolen")), missing, "{path}");
        assert_eq!(number(root.open_with(path, OpenOptions::new().append(true))), missing, "{path}");
        assert_eq!(number(root.create_new(path)), missing, "{path}");
        assert_eq!(number(root.metadata(path)), missing, "{path}");
        assert_eq!(number(root.symlink_metadata(path)), missing, "{path}");
        assert_eq!(number(root.set_permissions(path, mode(0o777))), missing, "{path}");
        assert_eq!(number(root.remove_file(path)), missing, "{path}");
        assert_eq!(number(root.rename(path, "stolen")), missing, "{path}");
        assert_eq!(number(root.rename("a/b/f", path)), missing, "{path}");
        assert_eq!(number(root.hard_link(path, "stolen")), missing, "{path}");
        assert_eq!(number(root.hard_link("a/b/f", path)), missing, "{path}");
        assert_eq!(number(root.symlink("a", path)), missing, "{path}");
        assert_eq!(number(root.read_link(path)), missing, "{path}");
        assert_eq!(number(root.create_dir(path)), missing, "{path}");
        assert_eq!(number(root.create_inode(path, &InodeType::Fifo(mode(0o600)))), missing, "{path}");
        assert!(!root.exists(path) && !root.try_exists(path).unwrap(), "{path}");
    }
    assert_eq!(number(root.resolve("loop")), Some(ELOOP));
    for path in ["up", "abs", "../outside", "in/../../../outside"] {
        assert_eq!(number(root.read_dir(path)), Some(ENOENT), "{path}");
        assert_eq!(number(root.open_dir(path)), Some(ENOENT), "{path}");
    }
    tree.outside_is_untouched();
}

#[test]
fn what_would_be_outside_is_made_inside() {
    let tree = Tree::new();
    let root = tree.root();
    for path in ["up/x", "abs/secret/x", "in/../../../up/x"] {
        assert_eq!(number(root.create_dir_all(path)), Some(ENOENT), "{path}");
    }
    // Below the root `..` is the root: these are directories inside.
    root.create_dir_all("../outside/x").unwrap();
    assert!(tree.at("box/outside/x").is_dir());
    // So the link leads there now, and what is written through one whose target is missing is inside, too.
    symlink("../../outside/secret", tree.at("box/a/key")).unwrap();
    root.write("a/key", "inside").unwrap();
    assert_eq!(fs::read_to_string(tree.at("box/outside/secret")).unwrap(), "inside");
    root.remove_dir_all("../outside").unwrap();
    tree.outside_is_untouched();
}

#[test]
fn a_root_below_the_root_is_one() {
    let tree = Tree::new();
    let inner = tree.root().open_dir("in").unwrap();
    assert_eq!(inner.read_to_string("../../../f").unwrap(), "inside");
    assert_eq!(number(inner.resolve("../../a")), Some(ENOENT));
    assert_eq!(number(tree.root().open_dir("in/f")), Some(ENOTDIR));
    let plain = tree.root().with_resolver_flags(ResolverFlags::NO_SYMLINKS).open_dir("a").unwrap();
    symlink("b", tree.at("box/a/link")).unwrap();
    assert_eq!(number(plain.read_dir("link")), Some(ELOOP));
}

#[test]
fn restrictions_are_kept() {
    let tree = Tree::new();
    let beneath = tree.root().with_resolver_flags(ResolverFlags::BENEATH);
    assert_eq!(number(beneath.resolve("in/f")), Some(EXDEV));
    assert_eq!(beneath.read("a/b/f").unwrap(), b"inside");
    let plain = tree.root().with_resolver_flags(ResolverFlags::BENEATH | ResolverFlags::NO_SYMLINKS);
    assert_eq!(number(plain.try_clone().unwrap().resolve("a/../in")), Some(ELOOP));
    assert_eq!(plain.read("a/../a/b/f").unwrap(), b"inside");
    let slow = tree.root().with_resolver_flags(ResolverFlags::EXACT | ResolverFlags::NO_RETRY);
    assert_eq!(slow.read("in/f").unwrap(), b"inside");
}

/// Of no flags of a root does any call say EINVAL: what isn't for every call is none of them.
#[test]
fn every_call_takes_the_flags_of_a_root() {
    for bit in (0..31).map(|bit| 1 << bit) {
        let flags = match ResolverFlags::from_bits(bit) {
            None => continue,
            // The directory for new files is on the same mount as the root, and no link stands on the way.
            Some(flags) => flags,
        };
        let tree = Tree::new();
        let root = tree.root().with_resolver_flags(flags);
        root.write("a/new", "new").unwrap();
        root.rename("a/new", "a/old").unwrap();
        root.hard_link("a/old", "a/second").unwrap();
        root.symlink("old", "a/link").unwrap();
        root.read_link("a/link").unwrap();
        root.create_dir("a/dir").unwrap();
        root.create_dir_all("a/dir/x/y").unwrap();
        root.create_inode("a/fifo", &InodeType::Fifo(mode(0o600))).unwrap();
        root.mkfile_all("a/x/y", &mode(0o600), &mode(0o700)).unwrap();
        root.set_permissions("a/old", mode(0o600)).unwrap();
        root.resolve_parent("a/none").unwrap();
        assert!(root.read_dir("a").unwrap().all(|entry| entry.unwrap().metadata().is_ok()));
        root.remove_file("a/old").unwrap();
        root.remove_dir("a/dir/x/y").unwrap();
        root.remove_dir_all("a").unwrap();
    }
    assert_eq!(ResolverFlags::from_bits(1 << 20), None);
    assert_eq!(RenameFlags::from_bits(8), None);
    assert_eq!(RenameFlags::from_bits(5), Some(RenameFlags::RENAME_NOREPLACE | RenameFlags::RENAME_WHITEOUT));
}

#[test]
fn a_call_stays_on_its_mount() {
    // There is a /proc, which is a mount of its own.
    let whole = Root::open_ambient_dir("/").unwrap();
    assert!(whole.metadata("proc/version").is_ok());
    for more in [ResolverFlags::default(), ResolverFlags::EXACT] {
        let stays = whole.try_clone().unwrap().with_resolver_flags(ResolverFlags::NO_XDEV | more);
        assert_eq!(number(stays.resolve("proc/version")), Some(EXDEV));
        assert_eq!(number(stays.remove_all("proc/none/x")), Some(EXDEV));
        let tree = Tree::new();
        assert_eq!(tree.root().with_resolver_flags(ResolverFlags::NO_XDEV | more).read("in/f").unwrap(), b"inside");
    }
}

#[test]
fn links_are_read_and_found_themselves() {
    let tree = Tree::new();
    let root = tree.root();
    assert_eq!(root.read_link("up").unwrap(), Path::new("../outside"));
    assert_eq!(number(root.read_link("a")), Some(EINVAL));
    assert!(root.resolve_nofollow("up").unwrap().metadata().unwrap().file_type().is_symlink());
    assert!(root.symlink_metadata("up").unwrap().file_type().is_symlink());
    assert!(root.symlink_metadata("in/f").unwrap().file_type().is_file());
    let reading = OpenOptions::new().read(true).clone();
    assert_eq!(number(root.resolve_nofollow("up").unwrap().reopen(&reading)), Some(ELOOP));
    let nofollow = reading.clone().custom_flags(OpenFlags::O_NOFOLLOW).clone();
    assert_eq!(number(root.open_with("in", &nofollow)), Some(ELOOP));
}

#[test]
fn entries_are_made_with_their_modes() {
    let tree = Tree::new();
    let root = tree.root();
    for (path, what) in [
        ("in/file", InodeType::File(mode(0o600))),
        ("in/link", InodeType::Symlink("/a/b/f".into())),
        ("in/fifo", InodeType::Fifo(mode(0o600))),
        ("in/socket", InodeType::Socket(mode(0o600))),
        ("in/second", InodeType::Hardlink("in/f".into())),
    ] {
        root.create_inode(path, &what).unwrap();
        assert_eq!(number(root.create_inode(path, &what)), Some(EEXIST));
        assert_eq!(number(root.mknod(path, &what)), Some(EEXIST));
    }
    root.create_dir_with("in/dir", DirBuilder::new().mode(0o700)).unwrap();
    root.mknod("plain", &InodeType::Fifo(mode(0o620))).unwrap();
    root.hard_link_followed("in/link", "third").unwrap();
    let about = |path: &str| fs::symlink_metadata(tree.at("box").join(path)).unwrap();
    assert_eq!(about("a/b/file").mode(), 0o100600);
    assert_eq!(about("a/b/dir").mode(), 0o40700);
    assert!(about("a/b/fifo").file_type().is_fifo());
    assert!(about("plain").file_type().is_fifo());
    assert!(about("a/b/socket").file_type().is_socket());
    assert_eq!((about("a/b/second").ino(), about("third").ino()), (about("a/b/f").ino(), about("a/b/f").ino()));
    assert_eq!(fs::read_link(tree.at("box/a/b/link")).unwrap(), Path::new("/a/b/f"));
    assert_eq!(number(root.create_dir("in")), Some(EEXIST));
    tree.outside_is_untouched();
}

#[test]
fn files_are_made_opened_and_written() {
    let tree = Tree::new();
    let root = tree.root();
    let exclusive = OpenOptions::new().write(true).create_new(true).mode(0o640).clone();
    root.open_with("in/new", &exclusive).unwrap().write_all(b"written").unwrap();
    assert_eq!(fs::read_to_string(tree.at("box/a/b/new")).unwrap(), "written");
    assert_eq!(fs::metadata(tree.at("box/a/b/new")).unwrap().mode(), 0o100640);
    assert_eq!(number(root.open_with("in/new", &exclusive)), Some(EEXIST));
    assert_eq!(number(root.create("a")), Some(EISDIR));
    let appended = root.resolve("in/new").unwrap().reopen(OpenOptions::new().append(true));
    appended.unwrap().write_all(b" twice").unwrap();
    assert_eq!(root.read_to_string("a/b/new").unwrap(), "written twice");
    // What makes a file, or is no flag, is refused by what opens an object once more.
    for options in [OpenOptions::new().write(true).create(true), OpenOptions::new().read(true).custom_flags(1 << 30)] {
        assert_eq!(number(root.resolve("in/new").unwrap().reopen(options)), Some(EINVAL));
    }
}

#[test]
fn directories_are_made() {
    let tree = Tree::new();
    let root = tree.root();
    let all = DirBuilder::new().recursive(true).mode(0o711).clone();
    let made = root.create_dir_with("in/x/y/z", &all).unwrap();
    assert_eq!(made.metadata().unwrap().ino(), tree.inode("a/b/x/y/z"));
    assert_eq!(fs::metadata(tree.at("box/a/b/x")).unwrap().mode(), 0o40711);
    assert_eq!(number(root.create_dir_with("a/b/f/x", &all)), Some(ENOTDIR));
    assert_eq!(number(root.create_dir_with("d", DirBuilder::new().through_links(true))), Some(EINVAL));
    tree.outside_is_untouched();
}

#[test]
fn a_removal_follows_no_link() {
    let tree = Tree::new();
    let root = tree.root();
    symlink("../../../../outside", tree.at("box/a/b/out")).unwrap();
    symlink(tree.at("outside/secret"), tree.at("box/a/key")).unwrap();
    assert_eq!(root.remove_all("a").unwrap(), 5);
    assert_eq!(root.remove_all("a").unwrap(), 0);
    symlink("d", tree.at("box/to-d")).unwrap();
    root.create_dir("d").unwrap();
    for path in ["to-d/", "to-d//"] {
        assert_eq!(number(root.remove_dir_all(path)), Some(ENOTDIR));
    }
    assert!(root.metadata("to-d").unwrap().is_dir());
    root.remove_dir_all("d//").unwrap();
    root.remove_dir_all("up").unwrap();
    assert_eq!(number(root.remove_all("abs/secret")), Some(ENOENT));
    assert_eq!(number(root.remove_dir_all("abs/secret")), Some(ENOENT));
    root.remove_file("loop").unwrap();
    assert_eq!(number(root.remove_dir("abs")), Some(ENOTDIR));
    tree.outside_is_untouched();
}

#[test]
fn entries_are_renamed() {
    let tree = Tree::new();
    let root = tree.root();
    root.rename("in/f", "g").unwrap();
    assert_eq!(root.read("g").unwrap(), b"inside");
    assert_eq!(number(root.rename_with("g", "in", RenameFlags::RENAME_NOREPLACE)), Some(EEXIST));
    root.rename_with("g", "up", RenameFlags::RENAME_EXCHANGE).unwrap();
    assert_eq!(root.read("up").unwrap(), b"inside");
    assert_eq!(root.read_link("g").unwrap(), Path::new("../outside"));
    tree.outside_is_untouched();
}

#[test]
fn errors_are_told() {
    let tree = Tree::new();
    let root = tree.root();
    for path in ["a\0b", "\0", "a/b/f\0"] {
        assert_eq!(number(root.resolve(path)), Some(EINVAL));
        assert_eq!(number(root.write(path, "")), Some(EINVAL));
        assert_eq!(number(root.symlink(path, "new")), Some(EINVAL));
    }
    assert_eq!(number(root.resolve("")), Some(ENOENT));
    assert_eq!(number(root.resolve("in/none/c")), Some(ENOENT));
    let cause = inroot::last_error().unwrap();
    assert_eq!((cause.error, cause.name.to_str()), (ENOENT, Some("none")));
    assert!(cause.step == "Open", "{cause:?}");
    let file = root.resolve("a/b/f").unwrap();
    assert_eq!(number(Root::from(OwnedFd::from(file)).resolve("x")), Some(ENOTDIR));
    assert_eq!(inroot::version(), env!("CARGO_PKG_VERSION"));
}

#[test]
fn names_are_any_bytes() {
    let tree = Tree::new();
    let root = tree.root();
    for name in [&b"\xff\xfe"[..], b"a\nb", b" ", b"-rf", b"\xc3\xbc", b"...", &[b'x'; 255]] {
        let (name, path) = (OsStr::from_bytes(name), Path::new("in").join(OsStr::from_bytes(name)));
        root.write(&path, name.as_bytes()).unwrap();
        assert!(root.read_dir("in").unwrap().any(|entry| entry.unwrap().file_name() == name), "{name:?}");
        assert_eq!(fs::read(tree.at("box/a/b").join(name)).unwrap(), name.as_bytes());
        assert_eq!(root.read(&path).unwrap(), name.as_bytes());
        root.symlink(name, "link").unwrap();
        assert_eq!(root.read_link("link").unwrap(), Path::new(name));
        root.rename("link", &path).unwrap();
        root.remove_file(&path).unwrap();
    }
    for path in ["x".repeat(256), "x/".repeat(2048)] {
        assert_eq!(number(root.create(&path)), number(fs::File::create(tree.at("box").join(&path))), "{path}");
        assert_eq!(number(root.create_dir(&path)), Some(ENAMETOOLONG), "{path}");
        assert_eq!(number(root.metadata(&path)), Some(ENAMETOOLONG), "{path}");
    }
}

/// A signal interrupts no opening, as it interrupts none of std.
#[test]
fn a_signal_interrupts_no_opening() {
    const SIGUSR1: c_int = 10;
    static RUNG: AtomicUsize = AtomicUsize::new(0);
    extern "C" fn rings(_: c_int) {
        RUNG.fetch_add(1, Ordering::Relaxed);
    }
    extern "C" {
        fn signal(number: c_int, handler: extern "C" fn(c_int)) -> usize;
        fn siginterrupt(number: c_int, interrupts: c_int) -> c_int;
        fn pthread_self() -> usize;
        fn pthread_kill(thread: usize, number: c_int) -> c_int;
    }
    let tree = Tree::new();
    let root = tree.root();
    root.mknod("fifo", &InodeType::Fifo(mode(0o600))).unwrap();
    let found = root.resolve("fifo").unwrap();
    let reading = OpenOptions::new().read(true).clone();
    // SAFETY: the handler does nothing but count.
    unsafe { (signal(SIGUSR1, rings), siginterrupt(SIGUSR1, 1)) };
    let all: [&(dyn Fn() -> io::Result<fs::File> + Sync); 2] = [&|| root.open("fifo"), &|| found.reopen(&reading)];
    for opens in all {
        let (tells, told) = std::sync::mpsc::channel();
        std::thread::scope(|scope| {
            // SAFETY: it takes nothing.
            let reader = scope.spawn(move || (tells.send(unsafe { pthread_self() }), opens()).1);
            let thread = told.recv().unwrap();
            for _ in 0..20 {
                // SAFETY: the thread was not joined yet.
                unsafe { pthread_kill(thread, SIGUSR1) };
                std::thread::sleep(Duration::from_millis(2));
            }
            let writer = fs::OpenOptions::new().read(true).write(true).open(tree.at("box/fifo")).unwrap();
            reader.join().unwrap().unwrap();
            drop(writer);
        });
    }
    assert!(RUNG.load(Ordering::Relaxed) > 0);
}

#[test]
fn no_race_leads_out() {
    let tree = Tree::new();
    let root = tree.root();
    fs::create_dir(tree.at("box/swap")).unwrap();
    fs::write(tree.at("box/swap/secret"), "inside").unwrap();
    symlink("../outside", tree.at("box/other")).unwrap();
    let ends = AtomicBool::new(false);
    std::thread::scope(|scope| {
        scope.spawn(|| {
            let attacker = tree.root();
            while !ends.load(Ordering::Relaxed) {
                attacker.rename_with("swap", "other", RenameFlags::RENAME_EXCHANGE).unwrap();
            }
        });
        let (mut found, mut tries) = (0, 0);
        while found < 500 && tries < 200_000 {
            tries += 1;
            if let Ok(read) = root.read_to_string("swap/secret") {
                assert_eq!(read, "inside");
                found += 1;
            }
        }
        ends.store(true, Ordering::Relaxed);
        assert_eq!(found, 500);
    });
    tree.outside_is_untouched();
}
