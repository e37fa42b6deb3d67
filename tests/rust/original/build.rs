//! Points the crate at the module of MiniVisor, with 256 records: in the folder that MINIVISOR_SRC names, or beside the project. One figure of
//! one line is another, as request T-05 asks; nothing else is changed.

use std::env;
use std::fs;
use std::path::{Path, PathBuf};
use std::process::exit;

const PAGE_SHIFT: &str = "pub const PAGE_SHIFT: usize = 12;";
const FEWER_RECORDS: &str = "    const POOL_SIZE: usize = 64;\n";
const RECORDS: &str = "    const POOL_SIZE: usize = 256;\n";

fn main() {
    println!("cargo:rerun-if-env-changed=MINIVISOR_SRC");
    let beside = Path::new(env!("CARGO_MANIFEST_DIR")).join("../../../../shared/docs/src");
    let sources = env::var_os("MINIVISOR_SRC").map_or(beside, PathBuf::from).join("src");
    let module = fs::canonicalize(sources.join("memory_allocator.rs")).unwrap_or_else(|_| {
        fail(&format!("no memory_allocator.rs in {}; MINIVISOR_SRC may name the folder above", sources.display()))
    });
    println!("cargo:rerun-if-changed={}", module.display());
    if !fs::read_to_string(sources.join("paging.rs")).map_or(false, |text| text.contains(PAGE_SHIFT)) {
        fail(&format!("paging.rs beside {} does not say `{PAGE_SHIFT}`", module.display()));
    }
    let text = fs::read_to_string(&module).unwrap_or_else(|problem| fail(&problem.to_string()));
    if text.matches(FEWER_RECORDS).count() != 1 {
        fail(&format!("{} does not say `{}` once", module.display(), FEWER_RECORDS.trim()));
    }
    let out = PathBuf::from(env::var_os("OUT_DIR").unwrap_or_else(|| fail("cargo has set no OUT_DIR")));
    let copy = out.join("memory_allocator.rs");
    fs::write(&copy, text.replace(FEWER_RECORDS, RECORDS)).unwrap_or_else(|problem| fail(&problem.to_string()));
    let root = format!("mod paging {{\n    {PAGE_SHIFT}\n}}\n#[path = {copy:?}]\npub mod memory_allocator;\n");
    fs::write(out.join("root.rs"), root).unwrap_or_else(|problem| fail(&problem.to_string()));
}

fn fail(what: &str) -> ! {
    eprintln!("original: {what}");
    exit(1)
}
