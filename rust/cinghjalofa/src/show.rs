//! What is printed of calls and allocators: addresses and sizes in hexadecimal.

use core::fmt;

use crate::{calls, Call, CallAnswer, FreeRanges, HeldRanges, LentAllocator, MemoryAllocator, UncheckedAllocator};
use crate::{HolderAllocator, LentHolderAllocator};

impl fmt::Debug for MemoryAllocator {
    fn fmt(&self, f: &mut fmt::Formatter<'_>) -> fmt::Result {
        show("MemoryAllocator", self.total(), self.ranges(), f)
    }
}

impl fmt::Debug for UncheckedAllocator {
    fn fmt(&self, f: &mut fmt::Formatter<'_>) -> fmt::Result {
        show("UncheckedAllocator", self.total(), self.ranges(), f)
    }
}

impl fmt::Debug for LentAllocator<'_> {
    fn fmt(&self, f: &mut fmt::Formatter<'_>) -> fmt::Result {
        show("LentAllocator", self.total(), self.ranges(), f)
    }
}

impl fmt::Debug for HolderAllocator {
    fn fmt(&self, f: &mut fmt::Formatter<'_>) -> fmt::Result {
        show_holders("HolderAllocator", self.total(), self.ranges(), self.held(), f)
    }
}

impl fmt::Debug for LentHolderAllocator<'_> {
    fn fmt(&self, f: &mut fmt::Formatter<'_>) -> fmt::Result {
        show_holders("LentHolderAllocator", self.total(), self.ranges(), self.held(), f)
    }
}

fn show(name: &str, total: usize, ranges: FreeRanges, f: &mut fmt::Formatter<'_>) -> fmt::Result {
    f.debug_struct(name).field("total", &format_args!("{:#x}", total)).field("ranges", &ranges).finish()
}

fn show_holders(
    name: &str,
    total: usize,
    ranges: FreeRanges,
    held: HeldRanges<'_>,
    f: &mut fmt::Formatter<'_>,
) -> fmt::Result {
    let mut shown = f.debug_struct(name);
    shown.field("total", &format_args!("{:#x}", total)).field("ranges", &ranges).field("held", &held).finish()
}

/// As it is written in Rust.
impl fmt::Debug for Call {
    fn fmt(&self, f: &mut fmt::Formatter<'_>) -> fmt::Result {
        let [kind, x, y, z] = *self.words();
        match kind {
            calls::FREE => write!(f, "Call::free({:#x}, {:#x})", x, y),
            calls::ALLOCATE => write!(f, "Call::allocate({:#x}, {})", x, y),
            _ => write!(f, "Call::reserve_memory({:#x}, {:#x}, {})", x, y, z),
        }
    }
}

/// As its result is.
impl fmt::Debug for CallAnswer {
    fn fmt(&self, f: &mut fmt::Formatter<'_>) -> fmt::Result {
        match self.result() {
            Ok(address) => write!(f, "Ok({:#x})", address),
            Err(error) => write!(f, "Err({:?})", error),
        }
    }
}
