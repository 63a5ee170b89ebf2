//! A proc(5) that is handed in. In a process of its own, since it comes before the first other call there.

use inroot::{proc_open, proc_readlink, OpenOptions, ProcfsBase, Root};
use std::fs::File;
use std::io::{self, Read};
use std::os::unix::fs::MetadataExt;

fn fails(result: io::Result<()>, error: i32) {
    assert_eq!(result.unwrap_err().raw_os_error(), Some(error));
}

#[test]
fn calls_ask_the_one_that_is_handed_in() {
    fails(inroot::use_proc(File::open(std::env::temp_dir()).unwrap()), 22);
    inroot::use_proc(File::open("/proc").unwrap()).unwrap();
    fails(inroot::use_proc(File::open("/proc").unwrap()), 16);
    fails(inroot::use_private_proc(), 16);
    let (reading, mut text) = (OpenOptions::new().read(true).clone(), String::new());
    let found = Root::open_ambient_dir("/").unwrap().resolve("proc/self/comm").unwrap();
    found.reopen(&reading).unwrap().read_to_string(&mut text).unwrap();
    assert!(!text.is_empty());
    for base in [ProcfsBase::ProcSelf, ProcfsBase::ProcPid(std::process::id())] {
        let mut again = String::new();
        proc_open(base, "comm", &reading).unwrap().read_to_string(&mut again).unwrap();
        assert_eq!(again, text);
        let program = proc_readlink(base, "exe").unwrap();
        assert_eq!(program, std::env::current_exe().unwrap());
        let opened = proc_open(base, "exe", &reading).unwrap();
        assert_eq!(opened.metadata().unwrap().ino(), std::fs::metadata(program).unwrap().ino());
    }
    fails(proc_open(ProcfsBase::ProcRoot, "../etc/passwd", &reading).map(|_| ()), 18);
    fails(proc_open(ProcfsBase::ProcThreadSelf, "root/etc", &reading).map(|_| ()), 40);
    fails(proc_readlink(ProcfsBase::ProcPid(u32::MAX), "exe").map(|_| ()), 22);
}
