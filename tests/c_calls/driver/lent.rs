//! A slice between guard bytes, lent to one call at a time through the safe functions of include/cinghjalofa.rs.

use crate::holder_model;
use crate::report::Report;
use declared::by_path as cinghjalofa;
use std::fmt;

pub use cinghjalofa::{HOLDERS_IMAGE_BYTES, IMAGE_BYTES, MOST_PAGES};

const GUARD: u8 = 0xc9;
const GUARDS: usize = 64;

#[derive(Clone, Copy)]
pub enum Call {
    New,
    Allocate { size: u64, order: u64 },
    Reserve { start: u64, size: u64, order: u64 },
    Free { start: u64, size: u64 },
    AllocatePages { count: u64, order: u64 },
    FreePages { address: u64, count: u64 },
    HoldersNew,
    Holders(holder_model::Call),
}

impl fmt::Display for Call {
    fn fmt(&self, to: &mut fmt::Formatter) -> fmt::Result {
        match self {
            Call::New => write!(to, "new"),
            Call::Allocate { size, order } => write!(to, "allocate(size {size}, order {order})"),
            Call::Reserve { start, size, order } => {
                write!(to, "reserve_memory(start {start}, size {size}, order {order})")
            }
            Call::Free { start, size } => write!(to, "free(start {start}, size {size})"),
            Call::AllocatePages { count, order } => write!(to, "allocate_pages(count {count}, order {order})"),
            Call::FreePages { address, count } => write!(to, "free_pages(address {address}, count {count})"),
            Call::HoldersNew => write!(to, "holders_new"),
            Call::Holders(call) => write!(to, "with holders, {call:?}"),
        }
    }
}

/// Room for a slice of any length up to `most`, with guards on both sides.
pub struct Lent {
    room: Vec<u8>,
    at: usize,
    len: usize,
}

impl Lent {
    /// The slices begin `shift` bytes, 0 to 63, after a multiple of 64.
    pub fn new(most: usize, shift: usize) -> Lent {
        let room = vec![GUARD; most + 4 * GUARDS];
        let at = GUARDS + room.as_ptr().align_offset(64) + shift;
        Lent { room, at, len: 0 }
    }

    /// The slice as the last call left it.
    pub fn slice(&self) -> &[u8] {
        &self.room[self.at..self.at + self.len]
    }

    /// Makes one call over a slice with these contents. A guard that changed, or a byte after a refusal, is a failure.
    pub fn call(&mut self, contents: &[u8], call: Call, report: &mut Report) -> i64 {
        let (at, end) = (self.at, self.at + contents.len());
        self.len = contents.len();
        self.room.fill(GUARD);
        self.room[at..end].copy_from_slice(contents);
        let answer = make(&mut self.room[at..end], call);
        report.calls += 1;
        if self.room[..at].iter().chain(&self.room[end..]).any(|&byte| byte != GUARD) {
            report.fail(&format!("{call} over {} bytes changed a byte beside the slice", self.len));
        }
        if answer < 0 && self.slice() != contents {
            report.fail(&format!("{call} over {} bytes was refused with {answer} and changed a byte", self.len));
        }
        answer
    }

    pub fn expect(&mut self, contents: &[u8], call: Call, wanted: i64, why: &str, report: &mut Report) {
        let answer = self.call(contents, call, report);
        if answer != wanted {
            let len = contents.len();
            report.fail(&format!("{call} over {len} bytes answered {answer}, must be {wanted} ({why})"));
        }
    }
}

fn make(slice: &mut [u8], call: Call) -> i64 {
    match call {
        Call::New => cinghjalofa::new(slice),
        Call::Allocate { size, order } => cinghjalofa::allocate(slice, size, order),
        Call::Reserve { start, size, order } => cinghjalofa::reserve_memory(slice, start, size, order),
        Call::Free { start, size } => cinghjalofa::free(slice, start, size),
        Call::AllocatePages { count, order } => cinghjalofa::allocate_pages(slice, count, order),
        Call::FreePages { address, count } => cinghjalofa::free_pages(slice, address, count),
        Call::HoldersNew => cinghjalofa::holders_new(slice),
        Call::Holders(call) => make_by_holders(slice, call),
    }
}

fn make_by_holders(slice: &mut [u8], call: holder_model::Call) -> i64 {
    match call {
        holder_model::Call::Offer { start, size } => cinghjalofa::holders_offer(slice, start, size),
        holder_model::Call::Allocate { holder, size, order } => {
            cinghjalofa::holders_allocate(slice, holder, size, order)
        }
        holder_model::Call::Reserve { holder, start, size, order } => {
            cinghjalofa::holders_reserve_memory(slice, holder, start, size, order)
        }
        holder_model::Call::Free { holder, start, size } => cinghjalofa::holders_free(slice, holder, start, size),
    }
}
