//! Ports broken on purpose. Each takes what the real port has written after an accepted call and changes the image to
//! what a port with that mistake would have written; the next call goes on from there.

use crate::call::Call;
use crate::image;
use crate::port::Port;
use crate::shape::{Record, Shape, FRESH, LISTS, NONE, RECORDS};

#[derive(Clone, Copy)]
pub enum Breakage {
    PlacedAfterEquals,
    HighPiecePlacedFirst,
    HighestUnusedRecord,
    UpperNumberKept,
    DriftedTotal,
    LastBytesKept,
}

impl Breakage {
    pub const ALL: [(Breakage, &'static str); 6] = [
        (Breakage::PlacedAfterEquals, "a range is placed after its equals"),
        (Breakage::HighPiecePlacedFirst, "the high piece of a split is placed before the low one"),
        (Breakage::HighestUnusedRecord, "a new record is the highest unused one"),
        (Breakage::UpperNumberKept, "joined with both neighbours, the upper number stays"),
        (Breakage::DriftedTotal, "a free into a state that is not empty adds its size twice"),
        (Breakage::LastBytesKept, "a take of the last bytes is accepted and leaves them free"),
    ];

    pub fn spoil(self, before: &Port, call: Call, port: &mut Port) {
        if let (Ok(before), Ok(mut shape)) = (before.shape(), port.shape()) {
            match self {
                Breakage::PlacedAfterEquals => place_after_equals(&before, &mut shape),
                Breakage::HighPiecePlacedFirst => exchange_equal_halves(&before, call, &mut shape),
                Breakage::HighestUnusedRecord => use_highest_record(&before, &mut shape),
                Breakage::UpperNumberKept => keep_upper_number(&before, &mut shape),
                Breakage::DriftedTotal => add_twice(&before, call, &mut shape),
                Breakage::LastBytesKept => keep_last_bytes(&before, &mut shape),
            }
            port.image = image::write(&shape);
        }
    }
}

fn place_after_equals(before: &Shape, shape: &mut Shape) {
    let is_placed =
        |record: &Record, old: &Record| record.enabled && (record.start, record.end) != (old.start, old.end);
    let mut placed: Vec<u16> = positions(before, shape, |old, new| is_placed(new, old));
    placed.sort_by_key(|&at| shape.records[at as usize].start);
    for list in 0..LISTS {
        let mut order = shape.walk(shape.heads[list], |record| record.list_next);
        for &at in &placed {
            if let Some(found) = order.iter().position(|&other| other == at) {
                order.remove(found);
                let size = shape.records[at as usize].size();
                let behind = order.iter().take_while(|&&other| shape.records[other as usize].size() <= size).count();
                order.insert(behind, at);
            }
        }
        relink(shape, list, &order);
    }
}

fn exchange_equal_halves(before: &Shape, call: Call, shape: &mut Shape) {
    let added = positions(before, shape, |old, new| !old.enabled && new.enabled);
    let high = match added[..] {
        [high] if !matches!(call, Call::Free { .. }) => high,
        _ => return,
    };
    let low = shape.records[high as usize].previous;
    if shape.records[low as usize].size() != shape.records[high as usize].size() {
        return;
    }
    for list in 0..LISTS {
        let mut order = shape.walk(shape.heads[list], |record| record.list_next);
        if let Some(at) = order.iter().position(|&other| other == high) {
            order.swap(at, at + 1);
            relink(shape, list, &order);
            return;
        }
    }
}

fn use_highest_record(before: &Shape, shape: &mut Shape) {
    let added = positions(before, shape, |old, new| !old.enabled && new.enabled);
    if let [new] = added[..] {
        let highest = before.records.iter().rposition(|record| !record.enabled);
        renumber(shape, new, highest.expect("a record was unused before") as u16);
    }
}

fn keep_upper_number(before: &Shape, shape: &mut Shape) {
    let returned = positions(before, shape, |old, new| old.enabled && !new.enabled);
    let grown = positions(before, shape, |old, new| old.enabled && new.enabled && old.end < new.end);
    if let ([upper], [lower]) = (&returned[..], &grown[..]) {
        renumber(shape, *lower, *upper);
    }
}

fn add_twice(before: &Shape, call: Call, shape: &mut Shape) {
    if let (Call::Free { size, .. }, true) = (call, before.first != NONE) {
        shape.total += size;
    }
}

fn keep_last_bytes(before: &Shape, shape: &mut Shape) {
    if shape.first == NONE {
        *shape = before.clone();
    }
}

fn positions(before: &Shape, shape: &Shape, wanted: impl Fn(&Record, &Record) -> bool) -> Vec<u16> {
    (0..RECORDS as u16).filter(|&at| wanted(&before.records[at as usize], &shape.records[at as usize])).collect()
}

fn relink(shape: &mut Shape, list: usize, order: &[u16]) {
    shape.heads[list] = order.first().copied().unwrap_or(NONE);
    for (at, &record) in order.iter().enumerate() {
        shape.records[record as usize].list_prev = if at == 0 { NONE } else { order[at - 1] };
        shape.records[record as usize].list_next = order.get(at + 1).copied().unwrap_or(NONE);
    }
}

/// Record `from` moves to the unused place `to`, with all that points to it.
fn renumber(shape: &mut Shape, from: u16, to: u16) {
    if from == to {
        return;
    }
    shape.records[to as usize] = shape.records[from as usize];
    shape.records[from as usize] = FRESH;
    let follow = |link: &mut u16| {
        if *link == from {
            *link = to;
        }
    };
    follow(&mut shape.first);
    shape.heads.iter_mut().for_each(follow);
    for record in &mut shape.records {
        let links = [&mut record.previous, &mut record.next, &mut record.list_prev, &mut record.list_next];
        links.into_iter().for_each(follow);
    }
}
