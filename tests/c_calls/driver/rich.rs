//! A sound image with much in it, built by calls.

use crate::fields::{Fields, LISTS, RECORDS};
use crate::judge;
use crate::lent::{Call, Lent, IMAGE_BYTES};
use crate::report::Report;

pub const TOP: u64 = 1 << 63;

/// Accepted by the rich image, each by itself.
pub const ACCEPTED: [Call; 3] = [
    Call::Allocate { size: 1, order: 0 },
    Call::Reserve { start: 0, size: 1, order: 0 },
    Call::Free { start: TOP - 10000, size: 1 },
];

/// Refused with -4 by every sound image.
pub const BAD_REQUESTS: [Call; 3] = [
    Call::Allocate { size: 0, order: 0 },
    Call::Reserve { start: 0, size: 1, order: 64 },
    Call::Free { start: 0, size: 0 },
];

/// On every list two ranges of its least size and two of its greatest, so that none but the last ends by chance.
fn sizes() -> Vec<u64> {
    let least = |list: usize| if list == 0 { 1 } else { (4096 << (list - 1)) + 1 };
    let greatest = |list: usize| if list == LISTS - 1 { 1 << 40 } else { 4096 << list };
    (0..LISTS).flat_map(|list| [least(list), greatest(list), greatest(list), least(list)]).collect()
}

/// Ranges by address from 0 on, with gaps of 1 byte to many pages, and one that ends at the top.
fn ranges() -> Vec<(u64, u64)> {
    let gaps = [1, 4096, 3, 70000, 2, 255];
    let mut from = 0;
    let mut ranges = Vec::new();
    for (at, size) in sizes().into_iter().enumerate() {
        ranges.push((from, size));
        from += size + gaps[at % gaps.len()];
    }
    ranges.push((TOP - 5000, 5000));
    ranges
}

/// Freed out of order, so that record numbers follow neither addresses nor sizes; then some gaps are closed, which leaves
/// unused records between the others, and some ranges are taken apart.
fn calls() -> Vec<Call> {
    let ranges = ranges();
    let mixed = (0..ranges.len()).map(|at| ranges[at * 20 % ranges.len()]);
    let mut calls: Vec<Call> = mixed.map(|(start, size)| Call::Free { start, size }).collect();
    for closed in [6, 18, 30] {
        let end = ranges[closed].0 + ranges[closed].1;
        calls.push(Call::Free { start: end, size: ranges[closed + 1].0 - end });
    }
    calls.push(Call::Allocate { size: 3000, order: 12 });
    calls.push(Call::Reserve { start: ranges[41].0 + 100_000, size: 50_000, order: 12 });
    calls
}

/// As many ranges as there are records, of one size.
pub fn full_pool() -> Vec<(u64, u64)> {
    (1..=RECORDS as u64).map(|k| (8192 * k, 8192 * k + 4095)).collect()
}

pub fn build(report: &mut Report) -> Result<[u8; IMAGE_BYTES], String> {
    let mut lent = Lent::new(IMAGE_BYTES, 1);
    let mut image = [0; IMAGE_BYTES];
    for call in std::iter::once(Call::New).chain(calls()) {
        let answer = lent.call(&image, call, report);
        if answer < 0 {
            report.fail(&format!("{call}, of those that build the rich image, was refused with {answer}"));
            return Err("there is no rich image".to_string());
        }
        image.copy_from_slice(lent.slice());
    }
    if let Some(clause) = judge::broken_clause(&image) {
        report.fail(&format!("the calls that build the rich image left one that breaks {clause:?}"));
    }
    ACCEPTED.iter().for_each(|&call| {
        if lent.call(&image, call, report) < 0 {
            report.fail(&format!("{call} must be accepted by the rich image"));
        }
    });
    check_richness(&Fields::read(&image)).map(|()| image)
}

fn check_richness(fields: &Fields) -> Result<(), String> {
    let (chain, unused) = (fields.chain(), fields.unused());
    let last_used = chain.iter().max().copied().unwrap_or(0);
    let size = |at: &usize| fields.records[*at].size();
    let has_equals = |list: &usize| fields.list(*list).windows(2).any(|pair| size(&pair[0]) == size(&pair[1]));
    let facts = [
        (chain.len() >= 40, "40 ranges"),
        (unused.len() >= 10, "10 unused records"),
        (unused.iter().any(|&at| at < last_used), "an unused record between used ones"),
        (chain.windows(2).any(|pair| pair[0] > pair[1]), "record numbers out of the order of addresses"),
        ((0..LISTS).all(|list| fields.list(list).len() >= 2), "two ranges on every list"),
        ((0..LISTS).filter(has_equals).count() >= 8, "equal sizes on 8 lists"),
    ];
    let missing = facts.iter().find(|(holds, _)| !holds);
    missing.map_or(Ok(()), |(_, what)| Err(format!("the image built for the damages is not rich enough: {what}")))
}
