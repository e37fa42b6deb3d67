//! A shutdown: guests hand back what they hold, the books are compared with what the machine had, and the journal is audited.

use cinghjalofa::journal::{answer_of, audit, begin, write, Entry, Verdict, LONGEST_BLOCK};
use cinghjalofa::{Call, FreeRange, MemoryAllocator, MemoryError};

const START: usize = 0x4000_0000;
const SIZE: usize = 0x10_0000;

/// The box: the allocator, and the journal of its calls.
struct Box {
    memory: MemoryAllocator,
    journal: Vec<u8>,
}

impl Box {
    fn new() -> Self {
        let mut journal = vec![0];
        begin(&mut journal).expect("a byte is room enough");
        Self { memory: MemoryAllocator::new(), journal }
    }

    fn record(&mut self, call: Call, result: Result<usize, MemoryError>) -> Result<usize, MemoryError> {
        let mut block = [0; LONGEST_BLOCK];
        let length = write(&mut block, 0, Entry { call, answer: answer_of(result) })?;
        self.journal.extend(&block[..length]);
        result
    }

    fn free(&mut self, start: usize, size: usize) -> Result<(), MemoryError> {
        let result = self.memory.free(start, size).map(|()| 0);
        self.record(Call::free(start, size), result).map(|_| ())
    }

    fn allocate(&mut self, size: usize, order: usize) -> Result<usize, MemoryError> {
        let result = self.memory.allocate(size, order);
        self.record(Call::allocate(size, order), result)
    }
}

fn main() -> Result<(), MemoryError> {
    let mut a_box = Box::new();
    a_box.free(START, SIZE)?;
    let held: Vec<(usize, usize)> = [0x1000, 0x4000, 0x20000]
        .iter()
        .map(|&size| a_box.allocate(size, 12).map(|at| (at, size)))
        .collect::<Result<_, _>>()?;
    println!("held: {held:x?}, free: {:?}", a_box.memory.ranges());
    for (at, size) in held {
        a_box.free(at, size)?;
    }
    assert_eq!(a_box.free(START, 1), Err(MemoryError::InvalidRequest)); // twice is refused, and stands in the journal
    assert!(
        a_box.memory.ranges().eq([FreeRange { start: START, last: START + SIZE - 1 }]),
        "a guest holds bytes still"
    );
    assert_eq!(audit(&a_box.journal), Ok(Verdict::Agrees { total: SIZE }));
    println!("all bytes are back, and the journal agrees: {} bytes", a_box.journal.len());
    Ok(())
}
