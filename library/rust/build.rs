//! Finds the library: in the folder that `CGRLIST_LIB_DIR` names, or else where pkg-config says. With `CGRLIST_STATIC=1` the
//! static one is linked.

use std::env;
use std::process::Command;

/// The folder that pkg-config names, if there is a pkg-config that knows the library.
fn installed() -> Option<String> {
    let ran = Command::new("pkg-config").args(["--variable=libdir", "cgrlist"]).output().ok()?;
    let folder = String::from_utf8(ran.stdout).ok()?;
    (ran.status.success() && !folder.trim().is_empty()).then(|| folder.trim().to_owned())
}

fn main() {
    println!("cargo::rerun-if-env-changed=CGRLIST_LIB_DIR");
    println!("cargo::rerun-if-env-changed=CGRLIST_STATIC");
    if let Some(folder) = env::var("CGRLIST_LIB_DIR").ok().or_else(installed) {
        println!("cargo::rustc-link-search=native={folder}");
    }
    let kind = if env::var("CGRLIST_STATIC").is_ok_and(|it| it == "1") { "static" } else { "dylib" };
    println!("cargo::rustc-link-lib={kind}=cgrlist");
}
