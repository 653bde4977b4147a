//! Links the proved library. AC_C_DIR is the folder of libac_c.a, which `rt lib` in crates/ac_c leaves; RATTLE_C_DIR that
//! of the kit's liblibc_c.a.
use std::env;
use std::path::{Path, PathBuf};
use std::process::Command;

/// The folder that a variable names, or the usual one.
fn folder(variable: &str, usual: impl FnOnce() -> PathBuf) -> PathBuf {
    println!("cargo:rerun-if-env-changed={variable}");
    env::var_os(variable).map_or_else(usual, PathBuf::from)
}

fn folder_of_proved() -> PathBuf {
    Path::new(&env::var_os("CARGO_MANIFEST_DIR").expect("cargo sets it")).join("../../crates/ac_c/out")
}

fn folder_of_kit() -> PathBuf {
    let page = Command::new("rt").arg("doc").output().ok().filter(|ran| ran.status.success());
    let page = page.and_then(|ran| String::from_utf8(ran.stdout).ok());
    Path::new(page.as_deref().unwrap_or("/opt/rattle/WHAT").trim()).with_file_name("c")
}

fn link(folder: &Path, name: &str) {
    let archive = folder.join(format!("lib{name}.a"));
    if !archive.is_file() {
        panic!("{} isn't there: run `rt lib` in crates/ac_c, or set AC_C_DIR and RATTLE_C_DIR", archive.display());
    }
    println!("cargo:rustc-link-search=native={}", folder.display());
    println!("cargo:rustc-link-lib=static={name}");
    println!("cargo:rerun-if-changed={}", archive.display());
}

fn main() {
    link(&folder("AC_C_DIR", folder_of_proved), "ac_c");
    link(&folder("RATTLE_C_DIR", folder_of_kit), "libc_c");
}
