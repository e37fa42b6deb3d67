//! Code as a hypervisor has it around its allocator. It is compiled once over each: only `allocator` is exchanged.

use std::sync::Mutex;

use super::allocator::{MemoryAllocator, MemoryError};
use crate::call::{Answer, Call};

static MEMORY: Mutex<MemoryAllocator> = Mutex::new(MemoryAllocator::new());

/// Begins again with an empty allocator.
pub fn reset() {
    *MEMORY.lock().unwrap() = MemoryAllocator::new();
}

pub fn play(call: Call) -> Answer {
    let memory = &mut *MEMORY.lock().unwrap();
    match result_of(memory, call) {
        Ok(address) => Answer::Accepted(address as u64),
        Err(error) => Answer::Refused(number_of(error)),
    }
}

fn result_of(memory: &mut MemoryAllocator, call: Call) -> Result<usize, MemoryError> {
    match call {
        Call::Allocate { size, order } => memory.allocate(size as usize, order as usize),
        Call::Free { start, size } => {
            memory.free(start as usize, size as usize)?;
            Ok(0)
        }
        Call::Reserve { start, size, order } => {
            memory.reserve_memory(start as usize, size as usize, order as usize)?;
            Ok(0)
        }
    }
}

/// No other variant, and the traits that callers use.
#[allow(clippy::clone_on_copy)]
fn number_of(error: MemoryError) -> u8 {
    let copy = error;
    assert!(copy == error.clone(), "{error:?}");
    match error {
        MemoryError::NoEntry => 1,
        MemoryError::InvalidEntry => 2,
        MemoryError::NoMemory => 3,
        MemoryError::InvalidRequest => 4,
    }
}
