//! Finds the library. Links the archive in the folder GIX_REVISION_LIB_DIR if that is set, otherwise
//! the archive in the folder `lib` of this crate if it is there and fits the target. Otherwise links
//! the shared library that pkg-config finds.

use std::env;
use std::path::Path;
use std::process::Command;

fn main() {
    println!("cargo:rerun-if-env-changed=GIX_REVISION_LIB_DIR");
    println!("cargo:rerun-if-changed=build.rs");
    if let Some(folder) = env::var("GIX_REVISION_LIB_DIR").ok().or_else(packaged) {
        println!("cargo:rustc-link-search=native={folder}");
        println!("cargo:rustc-link-lib=static=gix_revision");
        return;
    }
    let said = Command::new("pkg-config")
        .args(["--variable=libdir", "gix_revision"])
        .output();
    let Some(said) = said.ok().filter(|it| it.status.success()) else {
        panic!("gix_revision not found: set GIX_REVISION_LIB_DIR, or PKG_CONFIG_PATH for pkg-config");
    };
    // A blank of the path may have a backslash before it.
    let folder = String::from_utf8_lossy(&said.stdout).replace("\\ ", " ");
    println!("cargo:rustc-link-search=native={}", folder.trim_end());
    println!("cargo:rustc-link-lib=gix_revision");
}

/// Returns the folder of the archive that a packaged crate has, if it fits the target.
fn packaged() -> Option<String> {
    let folder = format!("{}/lib", env::var("CARGO_MANIFEST_DIR").ok()?);
    let fits = env::var("TARGET").ok()? == "x86_64-unknown-linux-gnu";
    (fits && Path::new(&folder).join("libgix_revision.a").exists()).then_some(folder)
}
