//! Finds libinroot: in `INROOT_LIB_DIR` where that is set, else where `pkg-config` (or `PKG_CONFIG`) says. That one refuses
//! a library that is older than this crate.
//! With `INROOT_STATIC` set it is linked statically. Where documentation alone is built (`DOCS_RS`), no library is needed.

use std::env;
use std::process::Command;

fn main() {
    for name in ["DOCS_RS", "INROOT_LIB_DIR", "INROOT_STATIC", "PKG_CONFIG", "PKG_CONFIG_PATH", "PKG_CONFIG_LIBDIR"] {
        println!("cargo:rerun-if-env-changed={name}");
    }
    if env::var_os("DOCS_RS").is_some() {
        return;
    }
    for directory in directories() {
        println!("cargo:rustc-link-search=native={directory}");
    }
    let kind = if env::var_os("INROOT_STATIC").is_some() { "static" } else { "dylib" };
    println!("cargo:rustc-link-lib={kind}=inroot");
}

fn directories() -> Vec<String> {
    if let Ok(directory) = env::var("INROOT_LIB_DIR") {
        return vec![directory];
    }
    let named = |name| env::var_os(name).is_some();
    if env::var_os("HOST") != env::var_os("TARGET") && !named("PKG_CONFIG") && !named("PKG_CONFIG_LIBDIR") {
        // What this machine's pkg-config finds is a library for this machine.
        panic!("To build for another machine, set INROOT_LIB_DIR to the directory of its libinroot, or PKG_CONFIG.");
    }
    let command = env::var_os("PKG_CONFIG").unwrap_or_else(|| "pkg-config".into());
    // A static library is looked for in the directories that are named alone, so those of the system are named too.
    let wanted = concat!("inroot >= ", env!("CARGO_PKG_VERSION"));
    let asked =
        Command::new(&command).args(["--libs-only-L", wanted]).env("PKG_CONFIG_ALLOW_SYSTEM_LIBS", "1").output();
    match asked {
        Ok(told) if told.status.success() => {
            let text = String::from_utf8_lossy(&told.stdout).into_owned();
            text.split_whitespace().filter_map(|word| word.strip_prefix("-L")).map(str::to_owned).collect()
        }
        Ok(told) => panic!(
            "There is no {wanted}. Install it (make -C host install), or set PKG_CONFIG_PATH or INROOT_LIB_DIR. {}",
            String::from_utf8_lossy(&told.stderr)
        ),
        Err(error) => panic!("{command:?} can't be run: {error}. Set INROOT_LIB_DIR to the directory of libinroot."),
    }
}
