//! Links the library: that of the folder `LGM_LIBRARY_DIR`, its archive if there is one, or else what `pkg-config` finds.

use std::env;
use std::path::Path;
use std::process::Command;

include!("src/version.rs");

fn main() {
    println!("cargo::rerun-if-env-changed=LGM_LIBRARY_DIR");
    match env::var_os("LGM_LIBRARY_DIR") {
        Some(folder) => link_from(Path::new(&folder)),
        None => link_found(),
    }
}

/// Links the library of a folder.
fn link_from(folder: &Path) {
    let archive = folder.join("liblgm.a");
    println!("cargo::rerun-if-changed={}", archive.display());
    println!("cargo::rustc-link-search=native={}", folder.display());
    println!("cargo::rustc-link-lib={}lgm", if archive.exists() { "static=" } else { "" });
}

/// Links the library that is installed.
fn link_found() {
    println!("cargo::rerun-if-env-changed=PKG_CONFIG_PATH");
    let wanted = format!("lgm = {LIBRARY_VERSION}");
    let ran = Command::new("pkg-config").args(["--libs", &wanted]).output();
    let Some(found) = ran.ok().filter(|output| output.status.success()) else {
        panic!("pkg-config doesn't find {wanted}: install it, or name the folder of liblgm.a in LGM_LIBRARY_DIR");
    };
    for word in String::from_utf8_lossy(&found.stdout).split_whitespace() {
        if let Some(folder) = word.strip_prefix("-L") {
            println!("cargo::rustc-link-search=native={folder}");
        } else if let Some(library) = word.strip_prefix("-l") {
            println!("cargo::rustc-link-lib={library}");
        }
    }
}
