//! A boot: what the machine has, what is taken already, then pages and tables for guests.

use std::alloc::Layout;

use cinghjalofa::{Call, CallAnswer, MemoryAllocator, MemoryError, PAGE_BYTES};

fn main() -> Result<(), MemoryError> {
    let mut memory = MemoryAllocator::new();
    let firmware = [
        Call::free(0x4000_0000, 0x800_0000),  // the map of the firmware: 128 MiB here,
        Call::free(0x8000_0000, 0x1000_0000), // and 256 MiB there
        Call::reserve_memory(0x4008_0000, 0x1_2345, 12), // the kernel, in whole pages
        Call::reserve_memory(0x4400_0000, 0x8000, 12), // the device tree
    ];
    let mut answers = [CallAnswer::default(); 4];
    memory.serve(&firmware, &mut answers)?; // checked once, whatever the length of the list
    for (call, answer) in firmware.iter().zip(answers) {
        println!("{call:?}: {answer:?}");
        answer.result()?;
    }
    let page = Layout::from_size_align(PAGE_BYTES, PAGE_BYTES).expect("a page is a power of two");
    let table = memory.allocate_layout(page)?;
    let guest = memory.allocate_pages(0x4000, 21)?; // 64 MiB at a multiple of 2 MiB
    println!("a table at {table:#x}, a guest at {guest:#x}");
    for range in &memory {
        println!("free: {range:?}, {:#x} bytes", range.size());
    }
    assert_eq!(memory.total(), 0x1800_0000 - 0x13000 - 0x8000 - PAGE_BYTES - 0x400_0000);
    Ok(())
}
