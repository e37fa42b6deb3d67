//! The rows of docs/DIFFERENCES.md on the map: what the library answers, and what the untouched module does.
use crate::port::{free, walk, Ask, Stretch, World};
use crate::{map_by_module, prepare, second_door, BASE};
use std::cell::{Cell, RefCell};
use std::rc::Rc;

const PAGE: u64 = 4096;

/// What the module leaves.
struct Seen {
    is_ok: bool,
    arena: Vec<u64>,
    walked: Vec<Stretch>,
    flushes: u64,
}

impl Seen {
    /// How many bytes of input are translated.
    fn mapped(&self) -> u64 {
        self.walked.iter().map(|stretch| stretch.size).sum()
    }

    fn first(&self) -> Option<&Stretch> {
        self.walked.first()
    }
}

struct Row {
    name: &'static str,
    change: fn(&mut World, &mut Ask),
    answer: i64,
    is_so: fn(&Seen) -> bool,
}

fn table(page: u64) -> u64 {
    BASE + page * PAGE + 0x403
}

fn one_free_page(world: &mut World, empty: &[u8]) {
    world.image = empty.to_vec();
    assert_eq!(free(&mut world.image, BASE + 8 * PAGE, PAGE), 0);
}

// Two kinds are not run: what a processor makes of a top table that is not aligned or of T0SZ out of its bounds, and addresses that the module
// follows to where there is no memory.
#[rustfmt::skip]
const ROWS: &[Row] = &[
    Row { name: "size 0", change: |_, a| a.size = 0, answer: -4, is_so: |s| s.is_ok && s.mapped() == 1 << 32 },
    Row { name: "an input in a page", change: |_, a| a.input = 2048, answer: -4, is_so: |s| s.is_ok && s.first().map_or(false, |f| f.input == 0 && f.output == 0x8000_0000) },
    Row { name: "an input past the last", change: |w, a| { w.vtcr = 0x59; a.input = 1 << 39 }, answer: -4, is_so: |s| s.is_ok && s.first().map_or(false, |f| f.input == 0) },
    Row { name: "a range past the last input", change: |_, a| { a.input = (1 << 32) - PAGE; a.size = 2 * PAGE }, answer: -4, is_so: |s| s.is_ok && s.mapped() == PAGE },
    Row { name: "an output past 2^48", change: |_, a| a.output = 1 << 48, answer: -4, is_so: |s| s.is_ok && s.first().map_or(false, |f| f.output == 0) },
    Row { name: "an output in a page", change: |_, a| a.output += 2048, answer: -4, is_so: |s| s.is_ok && s.first().map_or(false, |f| f.attributes != 0x7fc) },
    Row { name: "a block in the way", change: |w, a| { w.arena[0] = 0x4_0000_07fd; a.input = PAGE }, answer: -4, is_so: |s| s.is_ok && s.mapped() == PAGE },
    Row { name: "a table that is reached twice", change: |w, a| { w.arena[2] = table(1); w.arena[3] = table(1); a.input = 2 << 30 }, answer: -2, is_so: |s| s.is_ok && s.mapped() == 2 * PAGE },
    Row { name: "a table on free bytes", change: |w, _| w.arena[3] = table(8), answer: -2, is_so: |s| s.is_ok && s.arena[0] == s.arena[3] },
    Row { name: "want of a page", change: |w, _| one_free_page(w, &crate::new_image()), answer: -3, is_so: |s| !s.is_ok && s.arena[0] == table(8) && s.mapped() == 0 },
    Row { name: "the TLB", change: |_, _| (), answer: 0, is_so: |s| s.is_ok && s.flushes == 1 },
];

fn world(empty: &[u8]) -> World {
    let mut image = empty.to_vec();
    assert_eq!(free(&mut image, BASE + 8 * PAGE, 8 * PAGE), 0);
    World { image, arena: vec![0; 16 * 512], base: BASE, vttbr: BASE, vtcr: 0x60 }
}

fn by_module(world: &World, ask: Ask, real: &mut [u64]) -> Seen {
    let real = &mut real[..world.arena.len()];
    real.copy_from_slice(&world.arena);
    prepare(world, second_door(Rc::new(RefCell::new(world.image.clone())), Rc::new(Cell::new(0))));
    stage2::FLUSHES.with(|count| count.set(0));
    let is_ok = map_by_module(ask).is_ok();
    let after = World { arena: real.to_vec(), ..world.clone() };
    Seen { is_ok, walked: walk(&after), arena: after.arena, flushes: stage2::FLUSHES.with(|count| count.get()) }
}

fn holds(row: &Row, empty: &[u8], real: &mut [u64]) -> bool {
    let mut world = world(empty);
    let mut ask = Ask { output: 0x8000_0000, input: 0, size: PAGE, readable: true, writable: true };
    (row.change)(&mut world, &mut ask);
    let seen = by_module(&world, ask, real);
    let before = world.clone();
    let answer = world.map(ask);
    answer == row.answer && (answer == 0 || world == before) && (row.is_so)(&seen)
}

/// Whether each row holds; those that do not are named.
pub fn hold(empty: &[u8], real: &mut [u64]) -> bool {
    let wrong: Vec<_> = ROWS.iter().filter(|row| !holds(row, empty, real)).map(|row| row.name).collect();
    wrong.iter().for_each(|name| println!("{name}: not as docs/DIFFERENCES.md has it"));
    println!("{} rows of docs/DIFFERENCES.md tried on both, {} do not hold", ROWS.len(), wrong.len());
    wrong.is_empty()
}
