//! MiniVisor's module, untouched. None of it is kept in this project.

#![allow(warnings)] // its warnings are not ours to see

include!(concat!(env!("OUT_DIR"), "/root.rs"));
