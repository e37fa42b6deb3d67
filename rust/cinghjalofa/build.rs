//! Finds the archive of the proved calls for the target, and links it. No command is run.

use std::env;
use std::fs;
use std::path::{Path, PathBuf};
use std::process::exit;
use std::time::Duration;

/// Names an archive in place of those that are looked for.
const ARCHIVE: &str = "CINGHJALOFA_ARCHIVE";
/// Names a kind of machine in place of the target's.
const KIND: &str = "CINGHJALOFA_KIND";
/// The archive's name in the package and in the project, below the folder of its kind.
const NAME: &str = "libcinghjalofa.a";

/// A kind of machine that there is an archive for: its name, and what the first object of the archive begins with.
struct Kind {
    name: &'static str,
    object: Object,
}

#[derive(PartialEq)]
enum Object {
    Elf(u16),
    Coff(u16),
    Other,
}

const KINDS: [Kind; 4] = [
    Kind { name: "x86_64", object: Object::Elf(62) },
    Kind { name: "aarch64", object: Object::Elf(183) },
    Kind { name: "aarch64-mmu", object: Object::Elf(183) },
    Kind { name: "aarch64-uefi", object: Object::Coff(0xaa64) },
];

fn main() {
    println!("cargo:rerun-if-env-changed={}", ARCHIVE);
    println!("cargo:rerun-if-env-changed={}", KIND);
    println!("cargo:rerun-if-changed=build.rs");
    tell_of_the_compiler();
    let kind = kind();
    match archive(&kind) {
        Some(archive) => {
            println!("cargo:rerun-if-changed={}", archive.display());
            check_object(&archive, &kind);
            link(&archive);
        }
        None => do_without(&kind),
    }
}

/// The kind of machine that the target is, or the one that is named.
fn kind() -> Kind {
    let wanted = env::var(KIND).unwrap_or_else(|_| of_the_target().to_string());
    match KINDS.into_iter().find(|kind| kind.name == wanted) {
        Some(kind) => kind,
        None => fail(&format!("{} names {:?}, and there is {}", KIND, wanted, KINDS.map(|kind| kind.name).join(", "))),
    }
}

fn of_the_target() -> &'static str {
    let arch = target("ARCH");
    let os = target("OS");
    if target("POINTER_WIDTH") != "64" || target("ENDIAN") != "little" {
        fail("addresses have 64 bits here, and bytes stand with the lowest first: there is no archive for this target");
    }
    match (arch.as_str(), os.as_str()) {
        ("aarch64", "uefi") => "aarch64-uefi",
        (_, "uefi" | "windows" | "cygwin") => fail(&format!(
            "the archive for {} is ELF, and {} links COFF; only for aarch64-unknown-uefi there is one of COFF",
            arch, os
        )),
        (_, "macos" | "ios" | "tvos" | "watchos" | "visionos") => {
            fail(&format!("the archives are ELF, and {} links Mach-O: there is none for it", os))
        }
        ("x86_64", _) => "x86_64",
        ("aarch64", "none") => "aarch64",
        ("aarch64", _) => "aarch64-mmu",
        _ => fail(&format!("there is no archive for {}, only for x86_64 and aarch64", arch)),
    }
}

fn target(what: &str) -> String {
    env::var(format!("CARGO_CFG_TARGET_{}", what)).unwrap_or_default()
}

/// The archive that is named; or the one in the package; or the one in the project that this crate stands in.
fn archive(kind: &Kind) -> Option<PathBuf> {
    if let Some(named) = env::var_os(ARCHIVE) {
        let named = PathBuf::from(named);
        if !named.is_file() {
            fail(&format!("{} names {}, which is no file", ARCHIVE, named.display()));
        }
        return Some(named);
    }
    places(kind).into_iter().find(|place| place.is_file())
}

fn places(kind: &Kind) -> [PathBuf; 2] {
    let package = PathBuf::from(env::var_os("CARGO_MANIFEST_DIR").unwrap_or_default());
    ["archives", "../../target/library"].map(|folder| package.join(folder).join(kind.name).join(NAME))
}

/// A foreign archive would only be noticed by the linker, in words about missing symbols.
fn check_object(archive: &Path, kind: &Kind) {
    let bytes = fs::read(archive).unwrap_or_else(|problem| fail(&format!("{}: {}", archive.display(), problem)));
    if first_object(&bytes) != kind.object {
        fail(&format!("{} holds no code for {}: {} or {} names another", archive.display(), kind.name, ARCHIVE, KIND));
    }
}

/// What the first member of an archive is that is no table: `/` and `//` are. A member has 60 bytes before it: a name of 16,
/// and its size in the ten from the 48th on.
fn first_object(archive: &[u8]) -> Object {
    let mut rest = archive.get(8..).unwrap_or_default();
    while rest.len() > 60 {
        let (header, members) = rest.split_at(60);
        let digits = String::from_utf8_lossy(&header[48..58]);
        let size: usize = digits.trim().parse().unwrap_or(members.len());
        if header[0] != b'/' || header[1].is_ascii_digit() {
            return object(members);
        }
        rest = members.get(size.saturating_add(size % 2)..).unwrap_or_default();
    }
    Object::Other
}

fn object(bytes: &[u8]) -> Object {
    match bytes {
        [0x7f, b'E', b'L', b'F', ..] if bytes.len() > 20 => Object::Elf(u16::from_le_bytes([bytes[18], bytes[19]])),
        [low, high, ..] => Object::Coff(u16::from_le_bytes([*low, *high])),
        _ => Object::Other,
    }
}

/// Links a copy, under both names that a linker may look for.
fn link(archive: &Path) {
    let out = PathBuf::from(env::var_os("OUT_DIR").unwrap_or_else(|| fail("cargo has set no OUT_DIR")));
    for copy in ["libcinghjalofa_calls.a", "cinghjalofa_calls.lib"] {
        let copy = out.join(copy);
        let _ = fs::remove_file(&copy); // it may be one that cannot be written over
        if let Err(problem) = fs::copy(archive, &copy) {
            fail(&format!("{} could not be copied: {}", archive.display(), problem));
        }
    }
    println!("cargo:rustc-link-search=native={}", out.display());
    println!("cargo:rustc-link-lib=static=cinghjalofa_calls");
}

/// `cargo check` and `cargo doc` need no archive. What does is stopped by rustc, which finds none of this name.
fn do_without(kind: &Kind) {
    let [packed, made] = places(kind);
    println!(
        "cargo:warning=the archive of the proved calls for {} is missing: {} or {}.",
        kind.name,
        packed.display(),
        made.display()
    );
    println!("cargo:warning=Take the packed crate, which has it; or run `tools/archives` in the project, with the Rattle kit; or set {} to one.", ARCHIVE);
    println!("cargo:rustc-link-lib=static=cinghjalofa_calls");
}

/// `core::error` has been there since Rust 1.81, as `Duration::abs_diff` has: before, the method of this name is the trait's.
fn tell_of_the_compiler() {
    #[allow(dead_code)] // of one of the two there is no use
    trait Older: Sized {
        fn abs_diff(self, _: Self) -> Before {
            Before
        }
    }
    impl Older for Duration {}
    #[allow(dead_code)]
    struct Before;
    trait Tells {
        const HAS_CORE_ERROR: bool;
        fn has_core_error(&self) -> bool {
            Self::HAS_CORE_ERROR
        }
    }
    impl Tells for Before {
        const HAS_CORE_ERROR: bool = false;
    }
    impl Tells for Duration {
        const HAS_CORE_ERROR: bool = true;
    }
    #[allow(unstable_name_collisions, clippy::incompatible_msrv)]
    let difference = Duration::ZERO.abs_diff(Duration::ZERO);
    if difference.has_core_error() {
        println!("cargo:rustc-check-cfg=cfg(cinghjalofa_core_error)");
        println!("cargo:rustc-cfg=cinghjalofa_core_error");
    }
}

fn fail(what: &str) -> ! {
    eprintln!("cinghjalofa: {}", what);
    exit(1)
}
