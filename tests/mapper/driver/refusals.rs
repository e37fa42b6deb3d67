// Every refusal and its order; tables that are shared, lead in a circle or stand elsewhere; what is huge ends soon. A refusal changes nothing.
// usage: refusals [MISTAKE]
mod broken;
mod port;

use port::{free, is_mapped, new_image, walk, Ask, World};
use std::time::{Duration, Instant};

const BASE: u64 = 0x4000_0000;
const PAGE: u64 = 4096;

// T0SZ 32 at level 1: 4 entries of 1 GiB; pages 8 to 15 are free, and hold what looks like pages that are mapped
fn world(empty: &[u8]) -> World {
    let mut image = empty.to_vec();
    assert_eq!(free(&mut image, BASE + 8 * PAGE, 8 * PAGE), 0);
    let mut arena = vec![0; 16 * 512];
    arena[8 * 512..].fill(0x1234_57ff);
    World { image, arena, base: BASE, vttbr: BASE, vtcr: 0x60 }
}

fn table(page: u64) -> u64 {
    BASE + page * PAGE + 0x403
}

// where 12 pages are below 2^48
const HIGH: u64 = (1 << 48) - 12 * PAGE;

/// An allocator without a record to spare: these free ranges, as first byte and size, and single bytes between others for the rest.
fn crowded(ranges: &[(u64, u64)]) -> Vec<u8> {
    let mut image = new_image();
    let others = (0..256 - ranges.len() as u64).map(|i| (BASE + 15 * PAGE + 2 * i, 1));
    for (start, size) in ranges.iter().copied().chain(others) {
        assert_eq!(free(&mut image, start, size), 0);
    }
    assert_eq!(free(&mut image, BASE + 14 * PAGE, 1), -1);
    image
}

/// The arena and its top table from this address on, with so many pages free from the eighth on.
fn moved(w: &mut World, base: u64, pages: u64) {
    w.base = base;
    w.vttbr = base;
    w.image = new_image();
    assert_eq!(free(&mut w.image, base + 8 * PAGE, pages * PAGE), 0);
}

const ONE: Ask = Ask { output: 0x8000_0000, input: 0, size: PAGE, readable: true, writable: true };

type Change = fn(&mut World, &mut Ask);

#[rustfmt::skip]
const CASES: &[(&str, i64, Change)] = &[
    ("one page", 0, |_, _| ()),
    ("a block of 1 GiB", 0, |_, a| a.size = 1 << 30),
    ("all inputs", 0, |_, a| { a.output = 0; a.size = 1 << 32 }),
    ("no permission", 0, |_, a| { a.readable = false; a.writable = false }),
    ("read only", 0, |_, a| a.writable = false),
    ("write only", 0, |_, a| a.readable = false),
    ("size 0", -4, |_, a| a.size = 0),
    ("size of half a page", -4, |_, a| a.size = 2048),
    ("output in a page", -4, |_, a| a.output += 2048),
    ("input in a page", -4, |_, a| a.input = 2048),
    ("base in a page", -4, |w, _| w.base += 2048),
    ("output ends at 2^48", 0, |_, a| a.output = (1 << 48) - PAGE),
    ("output past 2^48", -4, |_, a| a.output = 1 << 48),
    ("output wraps", -4, |_, a| a.output = u64::MAX - 4095),
    ("last input", 0, |_, a| a.input = (1 << 32) - PAGE),
    ("input past the last", -4, |_, a| a.input = 1 << 32),
    ("input wraps", -4, |_, a| a.input = u64::MAX - 4095),
    ("size wraps", -4, |_, a| a.size = u64::MAX - 4095),
    ("level 3", -4, |w, _| w.vtcr = 0xe0),
    ("T0SZ 34 at level 1", -4, |w, _| w.vtcr = 0x62),
    ("T0SZ 20 at level 1", -4, |w, _| w.vtcr = 0x54),
    ("all other bits of VTCR", 0, |w, _| w.vtcr = !0xff | 0x60),
    ("CnP and VMID", 0, |w, _| w.vttbr |= 0xffff << 48 | 1),
    ("top in a page", -4, |w, _| w.vttbr += 2048),
    ("two tables, aligned to one", -4, |w, _| { w.vtcr = 0x58; w.vttbr += PAGE }),
    ("two tables", 0, |w, _| w.vtcr = 0x58),
    ("image one byte short", -2, |w, _| { w.image.pop(); }),
    ("short image before the numbers", -2, |w, a| { w.image.pop(); a.size = 0 }),
    ("damaged image", -2, |w, _| w.image[0] ^= 1),
    ("the numbers before a damaged image", -4, |w, a| { w.image[0] ^= 1; a.size = 0 }),
    ("damaged image, no page wanted", -2, |w, a| { w.image[0] ^= 1; a.size = 1 << 30 }),
    ("arena of 511 words", -2, |w, _| w.arena.truncate(511)),
    ("a free byte past the arena", -2, |w, _| w.arena.truncate(16 * 512 - 1)),
    ("a free byte before the arena", -2, |w, _| { free(&mut w.image, BASE - 1, 1); }),
    ("one word more", 0, |w, _| w.arena.push(7)),
    ("top elsewhere", -2, |w, _| w.vttbr = BASE + 16 * PAGE),
    ("top before", -2, |w, _| w.vttbr = BASE - PAGE),
    ("free pages on both sides of 2^48", -2, |w, _| moved(w, HIGH, 8)),
    ("an arena on both sides of 2^48, free pages below", 0, |w, _| moved(w, HIGH, 4)),
    ("one free byte from 2^48 on", -2, |w, _| { moved(w, HIGH, 4); free(&mut w.image, (1 << 48) + PAGE, 1); }),
    ("arena past 2^48", -2, |w, _| { w.base = 1 << 48; w.vttbr = 0 }),
    ("a table elsewhere", -2, |w, _| w.arena[3] = table(16)),
    ("a table at bits 49:48 and 47:12", 0, |w, _| w.arena[3] = table(1) | 3 << 48),
    ("an entry past the inputs", 0, |w, _| w.arena[4] = table(16)),
    ("a table twice", -2, |w, _| { w.arena[2] = table(1); w.arena[3] = table(1) }),
    ("a table at two levels", -2, |w, _| { w.arena[2] = table(1); w.arena[512] = table(2); w.arena[3] = table(2) }),
    ("a circle", -2, |w, _| { w.arena[3] = table(1); w.arena[512] = table(1) }),
    ("the top table again", -2, |w, _| w.arena[3] = table(0)),
    ("the second of two top tables", -2, |w, _| { w.vtcr = 0x58; w.arena[3] = table(1) }),
    ("a table on free bytes", -2, |w, _| w.arena[3] = table(8)),
    ("a table on one free byte", -2, |w, _| { w.arena[3] = table(5); free(&mut w.image, BASE + 6 * PAGE - 1, 1); }),
    ("the top table on free bytes", -2, |w, _| w.vttbr = BASE + 9 * PAGE),
    ("a page that is mapped twice", 0, |w, _| { w.arena[3] = table(1); w.arena[512] = table(2); w.arena[1024] = 0x7ff; w.arena[1025] = 0x7ff }),
    ("a page of level 3 that names a table", 0, |w, _| { w.arena[3] = table(1); w.arena[512] = table(2); w.arena[1024] = table(1) }),
    ("a block of 1 GiB in the way", -4, |w, _| w.arena[0] = 0x4_0000_07fd),
    ("a block in the way, no page to be had", -4, |w, _| { w.image = new_image(); w.arena[0] = 0x4_0000_07fd }),
    ("a block at the end of the range", -4, |w, a| { w.image = new_image(); w.arena[1] = 0x4_0000_07fd; a.size = (1 << 30) + PAGE }),
    ("a block, whole, and an output that is not aligned", -4, |w, a| { w.arena[0] = table(1); w.arena[512] = 0x40_07fd; a.output += PAGE; a.size = 1 << 21 }),
    ("a block that a block replaces", 0, |w, a| { w.arena[0] = 0x4_0000_07fd; a.size = 1 << 30 }),
    ("a block in a table that is lost", 0, |w, a| { w.arena[0] = table(1); w.arena[512] = 0x40_07fd; a.size = 1 << 30 }),
    ("a reserved word at level 0", 0, |w, _| { w.vtcr = 0x98; w.arena[0] = 0x7fd }),
    ("an empty allocator", -3, |w, _| w.image = new_image()),
    ("one page, two wanted", -3, |w, _| { w.image = new_image(); free(&mut w.image, BASE + 8 * PAGE, PAGE); }),
    ("two pages, two wanted", 0, |w, _| { w.image = new_image(); free(&mut w.image, BASE + 8 * PAGE, 2 * PAGE); }),
    ("a page that would be split off, no record unused", -1, |w, _| w.image = crowded(&[(BASE + 9 * PAGE - 1, PAGE + 2)])),
    ("no record for the second of two pages", -1, |w, _| w.image = crowded(&[(BASE + 9 * PAGE, PAGE + 1), (BASE + 12 * PAGE - 1, PAGE + 2)])),
    ("two pages that no record is wanted for", 0, |w, _| w.image = crowded(&[(BASE + 9 * PAGE, PAGE + 1), (BASE + 12 * PAGE - 1, PAGE + 1)])),
    ("no page fits, no record unused", -3, |w, _| w.image = crowded(&[(BASE + 9 * PAGE - 1, PAGE)])),
    ("2^48 bytes in blocks", -3, |w, a| { w.vtcr = 0x90; a.output = 0; a.size = 1 << 48 }),
    ("all of them but a page, in pages", -3, |w, a| { w.vtcr = 0x90; a.output = PAGE; a.size = (1 << 48) - PAGE }),
    ("2^48 bytes, not aligned", -4, |w, a| { w.vtcr = 0x90; a.output = PAGE; a.size = 1 << 48 }),
    ("tables shared 512 times at each level", -2, |w, _| {
        w.vtcr = 0x90;
        for (page, next) in [(0, 1), (1, 2), (2, 3)] {
            w.arena[page * 512..][..512].fill(table(next));
        }
    }),
    ("512 tables elsewhere in the arena, each of them shared", -2, |w, _| {
        w.vtcr = 0x90;
        w.arena[0] = table(1);
        w.arena[512..1024].fill(table(2));
    }),
];

fn main() {
    let map = broken::chosen(std::env::args().nth(1));
    let empty = new_image();
    let mut failed = 0;
    for (name, wanted, change) in CASES {
        let mut world = world(&empty);
        let mut ask = ONE;
        change(&mut world, &mut ask);
        let before = world.clone();
        let began = Instant::now();
        let answer = map(&mut world, ask);
        let took = began.elapsed();
        let trouble = if answer != *wanted {
            Some(format!("{answer} in place of {wanted}"))
        } else if answer != 0 && world != before {
            Some("refused, and something has changed".into())
        } else if took > Duration::from_secs(2) {
            Some(format!("took {took:?}"))
        } else if answer == 0 {
            is_mapped(&walk(&before), &walk(&world), ask).err()
        } else {
            None
        };
        if let Some(trouble) = trouble {
            println!("{name}: {trouble}");
            failed += 1;
        }
    }
    println!("{} cases of refusals and of what is none, {failed} failed", CASES.len());
    std::process::exit((failed > 0) as i32);
}
