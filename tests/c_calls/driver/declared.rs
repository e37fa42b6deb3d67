//! The declarations as a crate without the standard library, taken in by `#[path]`, and once more by `include!`.
#![no_std]
#![deny(warnings)]

#[path = "../../../include/cinghjalofa.rs"]
pub mod by_path;

pub mod by_include {
    include!("../../../include/cinghjalofa.rs");
}
