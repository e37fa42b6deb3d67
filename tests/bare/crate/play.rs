//! Calls by the crate, the same on a bare machine and on this one: `say` is handed each line.

use core::fmt::Arguments;

use cinghjalofa::{Call, CallAnswer, LentAllocator, MemoryAllocator, MemoryError, UncheckedAllocator, IMAGE_BYTES, PAGE_BYTES};

pub const PAGES: usize = 64;

/// Memory that is there, for tables.
#[repr(C, align(4096))]
pub struct Ram(pub [u64; PAGES * PAGE_BYTES / 8]);

/// With room before the image, so that it stands at an odd address.
#[repr(C, align(16))]
pub struct Room(pub [u8; IMAGE_BYTES + 1]);

fn next(seed: &mut u64) -> u64 {
    *seed = seed.wrapping_mul(6364136223846793005).wrapping_add(1442695040888963407);
    *seed >> 33
}

fn mix(digest: u64, number: u64) -> u64 {
    (digest ^ number).wrapping_mul(0x100_0000_01b3).rotate_left(7)
}

fn signed(result: Result<usize, MemoryError>) -> u64 {
    result.map_or_else(|refusal| u64::MAX - u64::from(refusal.number()), |address| address as u64)
}

/// The three allocators answer the same to a thousand calls.
fn side_by_side(room: &mut Room, say: &mut dyn FnMut(Arguments<'_>)) {
    let (mut own, mut unchecked) = (MemoryAllocator::new(), UncheckedAllocator::new());
    let mut lent = LentAllocator::new(&mut room.0[1..]).unwrap();
    let (mut seed, mut digest, mut differing) = (23, 0, 0);
    for _ in 0..1000 {
        let (start, size, order) = (next(&mut seed) % 0x400 * 16, (1 + next(&mut seed) % 20) * 16, next(&mut seed) % 8);
        let (start, size, order) = (start as usize, size as usize, order as usize);
        let answers = match next(&mut seed) % 3 {
            0 => [own.free(start, size).map(|()| 0), unchecked.free(start, size).map(|()| 0), lent.free(start, size).map(|()| 0)],
            1 => [own.allocate(size, order), unchecked.allocate(size, order), lent.allocate(size, order)],
            _ => [
                own.reserve_memory(start, size, order).map(|()| 0),
                unchecked.reserve_memory(start, size, order).map(|()| 0),
                lent.reserve_memory(start, size, order).map(|()| 0),
            ],
        };
        differing += usize::from(answers[0] != answers[1] || answers[0] != answers[2]);
        digest = mix(mix(digest, signed(answers[0])), own.total() as u64);
        differing += usize::from(own.total() != lent.total() || !own.ranges().eq(&lent));
    }
    say(format_args!("side by side: {differing} differ, digest {digest:x}, {} ranges, {:?}", own.ranges().len(), own.ranges().next()));
}

/// A list of calls, and its answers.
fn list(say: &mut dyn FnMut(Arguments<'_>)) {
    let mut memory = MemoryAllocator::new();
    let calls = [Call::free(0x4000_0000, 0x10_0000), Call::reserve_memory(0x4008_0000, 0x1_2345, 12), Call::allocate(0x1000, 12), Call::free(0, 0)];
    let mut answers = [CallAnswer::default(); 4];
    memory.serve(&calls, &mut answers).unwrap();
    say(format_args!("{calls:?}: {answers:?}"));
    say(format_args!("{memory:?}"));
}

/// Tables of three levels in memory that the allocator hands out: `count` pages are mapped and found again.
fn tables(ram: &mut Ram, count: usize, say: &mut dyn FnMut(Arguments<'_>)) {
    let base = ram.0.as_mut_ptr() as usize;
    let mut memory = MemoryAllocator::new();
    memory.free_pages(base, PAGES).unwrap();
    let entry = |table: usize, at: usize| ((table - base) / 8) + (at & 511);
    let root = memory.allocate_pages(1, 12).unwrap();
    let place = |k: usize| (k * 0x4_1234_5000) & 0x7f_ffff_f000;
    for k in 0..count {
        let mut table = root;
        for shift in [30, 21] {
            let at = entry(table, place(k) >> shift);
            if ram.0[at] == 0 {
                let below = memory.allocate_pages(1, 12).unwrap();
                ram.0[entry(below, 0)..=entry(below, 511)].fill(0);
                ram.0[at] = below as u64 | 3;
            }
            table = ram.0[at] as usize & !0xfff;
        }
        ram.0[entry(table, place(k) >> 12)] = (k as u64) << 12 | 0x7ff;
    }
    let mut found = 0;
    for k in 0..count {
        let table = [30, 21].iter().fold(root, |table, shift| ram.0[entry(table, place(k) >> shift)] as usize & !0xfff);
        found += usize::from(ram.0[entry(table, place(k) >> 12)] == (k as u64) << 12 | 0x7ff);
    }
    let held = PAGES - memory.total() / PAGE_BYTES;
    say(format_args!("tables: {found} of {count} pages found by {held} tables"));
}

pub fn play(ram: &mut Ram, room: &mut Room, say: &mut dyn FnMut(Arguments<'_>)) {
    list(say);
    side_by_side(room, say);
    tables(ram, 20, say);
    say(format_args!("{}", MemoryError::NoMemory));
}
