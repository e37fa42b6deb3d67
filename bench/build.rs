//! The archive once more, every name in it with a prefix, so that src/plain.rs can give it a `memcpy` of its own.

use std::env;
use std::path::{Path, PathBuf};
use std::process::{exit, Command};

const VARIABLE: &str = "CINGHJALOFA_ARCHIVE";

fn main() {
    println!("cargo:rerun-if-env-changed={VARIABLE}");
    let project = Path::new(env!("CARGO_MANIFEST_DIR")).join("..");
    let of_the_project = match env::var("CARGO_CFG_TARGET_ARCH").as_deref() {
        Ok("aarch64") => project.join("target/library/aarch64/libcinghjalofa.a"),
        _ => project.join("target/library/x86_64/libcinghjalofa.a"),
    };
    let archive = env::var_os(VARIABLE).map_or(of_the_project, PathBuf::from);
    println!("cargo:rerun-if-changed={}", archive.display());
    let out = PathBuf::from(env::var_os("OUT_DIR").unwrap_or_else(|| fail("cargo has set no OUT_DIR")));
    let renamed = Command::new("objcopy").arg("--prefix-symbols=plain_").arg(&archive).arg(out.join("libplain_calls.a")).status();
    if !renamed.map_or(false, |status| status.success()) {
        fail(&format!("`objcopy` could not rename what {} has; tools/setup installs what is needed", archive.display()));
    }
    println!("cargo:rustc-link-search=native={}", out.display());
    println!("cargo:rustc-link-lib=static=plain_calls");
}

fn fail(what: &str) -> ! {
    eprintln!("bench: {what}");
    exit(1)
}
