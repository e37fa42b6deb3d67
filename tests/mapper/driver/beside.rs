// Maps by chance, on the port and on MiniVisor's untouched module: every word, every byte and every page, and the walk before and after.
// usage: beside MAPS [MISTAKE]
mod broken;
mod differences;
mod port;

use broken::Map;
use port::{free, is_blocked, is_mapped, new_image, take_page, walk, Ask, Chance, World};
use std::cell::{Cell, RefCell};
use std::rc::Rc;
use std::time::{Duration, Instant};

extern "C" {
    fn mmap(at: *mut u8, size: usize, how: i32, flags: i32, file: i32, offset: i64) -> *mut u8;
}

const BASE: u64 = 0x20_0000_0000; // where neither a system nor an emulator puts anything of its own
const PAGES: u64 = 96;

/// The arena at its true address: the module follows table words as pointers.
fn memory() -> &'static mut [u64] {
    // read and write; private, fixed, anonymous. (An emulator knows no flag that asks not to replace what is there; nothing is there.)
    let at = unsafe { mmap(BASE as *mut u8, (PAGES * 4096) as usize, 3, 0x32, -1, 0) };
    assert_eq!(at as u64, BASE, "the arena's address is not to be had");
    unsafe { std::slice::from_raw_parts_mut(at as *mut u64, (PAGES * 512) as usize) }
}

/// Registers that the request allows, and the pages of their top table.
fn registers(chance: &mut Chance) -> (u64, u64) {
    let (sl, low, high) = [(2, 16, 24), (1, 21, 33), (0, 30, 39)][chance.below(3) as usize];
    let t0sz = low + chance.below(high - low + 1);
    let bits = 43 - t0sz - 9 * sl;
    (sl << 6 | t0sz | 0x8002_3500, if bits > 9 { 1 << (bits - 9) } else { 1 })
}

fn world(chance: &mut Chance, empty: &[u8]) -> World {
    let (vtcr, pages) = registers(chance);
    let mut image = empty.to_vec();
    // the top table stands at a multiple of its size, and free pages behind it
    let from = BASE + 16 * 4096;
    let many = [2, 5, 12, 60][chance.below(4) as usize];
    assert_eq!(free(&mut image, from + 16 * 4096, many * 4096), 0);
    let mut arena = vec![0; (PAGES * 512) as usize];
    for word in arena[(32 * 512)..].iter_mut() {
        *word = chance.0 ^ chance.below(u64::MAX); // free pages hold anything
    }
    let cnp_and_vmid = chance.below(2) | chance.below(1 << 16) << 48;
    assert!(pages <= 16);
    World { image, arena, base: BASE, vttbr: from | cnp_and_vmid, vtcr }
}

fn ask(chance: &mut Chance, world: &World) -> Ask {
    let bits = 64 - (world.vtcr & 63);
    let unit = [12, 21, 30][chance.below(3) as usize];
    let offset = |chance: &mut Chance| if chance.below(3) == 0 { chance.below(512) << 12 } else { 0 };
    let input = ((chance.below(4) << unit) + offset(chance)) % (1 << bits);
    let output = (chance.below(1 << (47 - unit)) << unit) + offset(chance);
    let most = (1u64 << bits) - input;
    let size =
        ((chance.below(3) << [12, 21, 30][chance.below(3) as usize]) + (chance.below(3) << 12)).clamp(4096, most);
    let (readable, writable) = (chance.below(2) == 1, chance.below(2) == 1);
    Ask { output, input, size: size & !0xfff, readable, writable }
}

/// The registers and the door that the module's call finds.
fn prepare(world: &World, door: stage2::Door) {
    stage2::VTTBR.with(|value| value.set(world.vttbr));
    stage2::VTCR.with(|value| value.set(world.vtcr));
    stage2::DOOR.with(|place| *place.borrow_mut() = Some(door));
}

fn map_by_module(ask: Ask) -> Result<(), ()> {
    stage2::paging::map_address_stage2(
        ask.output as usize,
        ask.input as usize,
        ask.size as usize,
        ask.readable,
        ask.writable,
    )
}

/// The library's pages, from a second image; the last answer of the door is kept.
fn second_door(image: Rc<RefCell<Vec<u8>>>, last: Rc<Cell<i64>>) -> stage2::Door {
    Box::new(move |pages, order| {
        assert_eq!((pages, order), (1, 12));
        last.set(take_page(&mut image.borrow_mut()));
        usize::try_from(last.get()).map_err(|_| ())
    })
}

struct Count {
    accepted: u64,
    wanting: u64,
    blocked: u64,
}

fn one(map: Map, world: &mut World, ask: Ask, real: &mut [u64], count: &mut Count) -> Result<(), String> {
    let before = world.clone();
    let walked = walk(&before);
    let answer = map(world, ask);
    let is_blocked = is_blocked(&walked, ask);
    if is_blocked || answer == -4 {
        count.blocked += 1;
        let is_right = is_blocked && answer == -4 && *world == before;
        return if is_right {
            Ok(())
        } else {
            Err(format!("{answer}, and that a block stands in the way is {is_blocked}"))
        };
    }
    let (image, last) = (Rc::new(RefCell::new(before.image.clone())), Rc::new(Cell::new(0)));
    real.copy_from_slice(&before.arena);
    prepare(&before, second_door(image.clone(), last.clone()));
    match (answer, map_by_module(ask)) {
        (0, Ok(())) => {
            count.accepted += 1;
            if let Some(at) = (0..real.len()).find(|&at| real[at] != world.arena[at]) {
                return Err(format!("word {at}: {:#x}, and {:#x} by the module", world.arena[at], real[at]));
            }
            if *image.borrow() != world.image {
                return Err("the allocators differ".into());
            }
            is_mapped(&walked, &walk(world), ask)
        }
        (number, Err(())) if number == last.get() && *world == before => {
            count.wanting += 1;
            Ok(())
        }
        (number, theirs) => Err(format!("{number}, and {theirs:?} by the module, or something has changed")),
    }
}

/// The least time of many calls, on a world that is made anew for each.
fn least(rounds: u32, mut make: impl FnMut() -> World, mut call: impl FnMut(&mut World)) -> Duration {
    (0..rounds)
        .map(|_| {
            let mut world = make();
            let began = Instant::now();
            call(&mut world);
            began.elapsed()
        })
        .min()
        .unwrap()
}

const SIZES: [(&str, u64); 3] =
    [("1 page, two fresh tables", 4096), ("2 MiB, one fresh table", 1 << 21), ("1 GiB, no fresh table", 1 << 30)];

/// As in the hypervisor: the module's own allocator hands out the pages, and both have the same ones.
fn times(empty: &[u8], real: &mut [u64]) {
    let (from, many) = (BASE + 32 * 4096, 60 * 4096);
    let make = || {
        let mut image = empty.to_vec();
        assert_eq!(free(&mut image, from, many), 0);
        World { image, arena: vec![0; (PAGES * 512) as usize], base: BASE, vttbr: BASE, vtcr: 1 << 6 | 32 }
    };
    let own_door = || {
        let mut memory = stage2::memory_allocator::MemoryAllocator::new();
        memory.free(from as usize, many as usize).expect("free bytes");
        Box::new(move |pages: usize, order| memory.allocate(pages * 4096, order).map_err(|_| ()))
    };
    for (name, size) in SIZES {
        let ask = Ask { output: 0x8000_0000, input: 0x4000_0000, size, readable: true, writable: true };
        let ours = least(500, make, |world| assert_eq!(world.map(ask), 0));
        let afresh = || {
            real.fill(0);
            let world = make();
            prepare(&world, own_door());
            world
        };
        let theirs = least(500, afresh, |_| assert_eq!(map_by_module(ask), Ok(())));
        println!("a map of {name}: {:.0} times the module's time", ours.as_secs_f64() / theirs.as_secs_f64());
    }
}

fn main() {
    let mut words = std::env::args().skip(1);
    let maps: u64 = words.next().expect("a number of maps").parse().expect("a number");
    let map = broken::chosen(words.next());
    let real = memory();
    let empty = new_image();
    let mut chance = Chance(0x9e37_79b9_7f4a_7c15);
    let mut count = Count { accepted: 0, wanting: 0, blocked: 0 };
    while count.accepted < maps {
        let mut world = world(&mut chance, &empty);
        for _ in 0..1 + chance.below(8) {
            let ask = ask(&mut chance, &world);
            if let Err(trouble) = one(map, &mut world, ask, real, &mut count) {
                println!("vttbr {:#x}, vtcr {:#x}, {ask:x?}: {trouble}", world.vttbr, world.vtcr);
                std::process::exit(1);
            }
        }
    }
    println!(
        "{} maps beside the module, 0 differences; {} want a page on both sides, {} meet a block",
        count.accepted, count.wanting, count.blocked
    );
    if !differences::hold(&empty, real) {
        std::process::exit(1);
    }
    times(&empty, real);
}
