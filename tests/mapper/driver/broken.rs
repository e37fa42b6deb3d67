//! Ports broken on purpose: the real map with one mistake around it.
use crate::port::{take_page, Ask, World};

pub type Map = fn(&mut World, Ask) -> i64;

const PAGE: u64 = 4096;

const MISTAKES: &[(&str, Map)] = &[
    ("one-too-many", one_too_many),
    ("one-too-few", one_too_few),
    ("want-half-way", want_half_way),
    ("fresh-uncleared", fresh_uncleared),
    ("block-overwritten", block_overwritten),
    ("exchanged", exchanged),
    ("image-before-numbers", image_before_numbers),
    ("table-without-af", table_without_af),
    ("page-lost", page_lost),
];

/// The map with the mistake that is named; the real one where none is.
pub fn chosen(name: Option<String>) -> Map {
    match name {
        Some(name) => MISTAKES.iter().find(|(known, _)| **known == name).unwrap_or_else(|| panic!("no mistake {name}")).1,
        None => World::map,
    }
}

fn one_too_many(world: &mut World, ask: Ask) -> i64 {
    let answer = world.map(ask);
    if answer == 0 {
        world.map(Ask { output: ask.output + ask.size, input: ask.input + ask.size, size: PAGE, ..ask });
    }
    answer
}

fn one_too_few(world: &mut World, ask: Ask) -> i64 {
    world.map(if ask.size > PAGE { Ask { size: ask.size - PAGE, ..ask } } else { ask })
}

/// Where a page is wanting, the first table is there and linked all the same.
fn want_half_way(world: &mut World, ask: Ask) -> i64 {
    let answer = world.map(ask);
    if matches!(answer, -1 | -3) {
        let page = take_page(&mut world.image);
        if page > 0 {
            let (_, at) = world.descriptor(ask.input);
            (0..512).for_each(|entry| world.put(page as u64 + 8 * entry, 0));
            world.put(at, page as u64 | 0x403);
        }
    }
    answer
}

/// A fresh table has in its other words what the page had.
fn fresh_uncleared(world: &mut World, ask: Ask) -> i64 {
    let before = world.clone();
    let answer = world.map(ask);
    if answer == 0 {
        let old = before.tables();
        for table in world.tables().into_iter().filter(|table| !old.contains(table)) {
            for at in (0..512).map(|entry| table + 8 * entry) {
                if world.word(at) == 0 {
                    world.put(at, before.word(at));
                }
            }
        }
    }
    answer
}

/// As the module has it: the block goes, and what it mapped beside the range with it.
fn block_overwritten(world: &mut World, ask: Ask) -> i64 {
    let before = world.clone();
    let answer = world.map(ask);
    if answer == -4 {
        let (level, at) = world.descriptor(ask.input);
        if level < 3 && world.word(at) & 3 == 1 {
            world.put(at, 0);
            if world.map(ask) == 0 {
                return 0;
            }
            *world = before;
        }
    }
    answer
}

fn exchanged(world: &mut World, ask: Ask) -> i64 {
    world.map(Ask { readable: ask.writable, writable: ask.readable, ..ask })
}

fn image_before_numbers(world: &mut World, ask: Ask) -> i64 {
    let answer = world.map(ask);
    let harmless = Ask { output: 0, input: 0, size: PAGE, ..ask };
    if answer == -4 && world.clone().map(harmless) == -2 {
        return -2;
    }
    answer
}

fn table_without_af(world: &mut World, ask: Ask) -> i64 {
    let before = world.clone();
    let answer = world.map(ask);
    for (word, old) in world.arena.iter_mut().zip(&before.arena) {
        if word != old && *word & 0xfff == 0x403 {
            *word -= 0x400;
        }
    }
    answer
}

fn page_lost(world: &mut World, ask: Ask) -> i64 {
    let answer = world.map(ask);
    if answer == 0 {
        take_page(&mut world.image);
    }
    answer
}
