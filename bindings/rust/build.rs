//! Finds libsim3.a, or builds it by `bindings/build`, and tells rustc its folder.

#![forbid(unsafe_code)]

use std::path::{Path, PathBuf};
use std::process::Command;

const ARCHIVE: &str = "libsim3.a";

fn has_archive(folder: &Path) -> bool {
    folder.join(ARCHIVE).is_file()
}

/// The folder that the environment variable names.
fn from_environment() -> Option<PathBuf> {
    println!("cargo:rerun-if-env-changed=SIM3_LIB_DIR");
    let folder = PathBuf::from(std::env::var_os("SIM3_LIB_DIR")?);
    assert!(has_archive(&folder), "sim3: SIM3_LIB_DIR is {folder:?}, where there is no {ARCHIVE}");
    Some(folder)
}

/// The folder in which `bindings/install` puts it: this crate is PREFIX/share/sim3/rust.
fn installed(crate_folder: &Path) -> Option<PathBuf> {
    let folder = crate_folder.join("../../../lib");
    has_archive(&folder).then_some(folder)
}

/// The folder in which `bindings/build` builds it: this crate is bindings/rust of the source tree.
fn built(crate_folder: &Path) -> Option<PathBuf> {
    let build = crate_folder.join("../build");
    if !build.is_file() {
        return None;
    }
    let status = Command::new(&build).status();
    let good = status.as_ref().is_ok_and(|status| status.success());
    assert!(good, "sim3: bindings/build made no {ARCHIVE}: {status:?}; its message is above");
    Some(crate_folder.join("../../target/bindings"))
}

/// The folder that pkg-config prints.
fn from_pkg_config() -> Option<PathBuf> {
    let result = Command::new("pkg-config").args(["--variable=libdir", "sim3"]).output().ok()?;
    let folder = PathBuf::from(String::from_utf8(result.stdout).ok()?.trim());
    has_archive(&folder).then_some(folder)
}

fn main() {
    let crate_folder = PathBuf::from(std::env::var_os("CARGO_MANIFEST_DIR").unwrap_or_default());
    let found = from_environment()
        .or_else(|| installed(&crate_folder))
        .or_else(|| built(&crate_folder))
        .or_else(from_pkg_config);
    let folder = found.expect(
        "sim3: no libsim3.a: SIM3_LIB_DIR may name its folder, and bindings/install of the source tree puts it in one",
    );
    println!("cargo:rustc-link-search=native={}", folder.display());
    println!("cargo:rerun-if-changed={}", folder.join(ARCHIVE).display());
}
