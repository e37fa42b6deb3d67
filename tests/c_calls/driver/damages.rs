//! Images that break one clause of "A sound state" and must be refused, and unusual ones that break none.

use crate::fields::{list_number, Fields, Record, LISTS, NEVER, NONE, RECORDS};
use crate::judge::{self, Clause};
use crate::lent::{Call, Lent, IMAGE_BYTES};
use crate::report::Report;
use crate::rich::{self, ACCEPTED, BAD_REQUESTS, TOP};

type Change = fn(&mut Fields);
type Range = (u64, u64);

/// Chains without an end.
const CYCLES: [(&str, Clause, Change); 4] = [
    ("the last range leads back to the first", Clause::Chain, |f| link_next(f, last(&f.chain()), f.first)),
    ("the chain is a ring in both directions", Clause::Chain, close_ring),
    ("a range leads to itself", Clause::Chain, |f| link_next(f, f.chain()[4], f.chain()[4] as u16)),
    ("a range leads back to the one before", Clause::Chain, |f| link_next(f, f.chain()[4], f.chain()[3] as u16)),
];

/// Other changes of the rich image's chain.
const CHAIN: [(&str, Clause, Change); 9] = [
    ("the chain leaves a range out", Clause::Chain, |f| leave_out_of_chain(f, &[4])),
    ("two ranges lead to each other beside the chain", Clause::Chain, pair_beside_chain),
    ("the chain begins at its second range", Clause::Chain, |f| f.first = f.chain()[1] as u16),
    ("the chain is lost", Clause::Chain, |f| f.first = NONE),
    ("the chain goes on into an unused record", Clause::Chain, |f| {
        link_next(f, last(&f.chain()), f.unused()[0] as u16)
    }),
    ("two neighbours are exchanged on the chain", Clause::Address, |f| {
        let mut chain = f.chain();
        chain.swap(4, 5);
        f.link_chain(&chain);
    }),
    ("the way back leaves a range out", Clause::Previous, |f| f.records[f.chain()[5]].previous = f.chain()[3] as u16),
    ("the way back ends early", Clause::Previous, |f| f.records[f.chain()[5]].previous = NONE),
    ("the way back goes on to the last range", Clause::Previous, |f| {
        f.records[f.first as usize].previous = last(&f.chain()) as u16;
    }),
];

/// Changes of the rich image's lists.
const LIST: [(&str, Clause, Change); 12] = [
    ("a list leads back to its head", Clause::List, |f| link_list_next(f, last(&f.list(3)), f.heads[3])),
    ("a range leads to itself on its list", Clause::List, |f| link_list_next(f, f.list(3)[1], f.list(3)[1] as u16)),
    ("a list goes on into the next one", Clause::List, |f| link_list_next(f, last(&f.list(3)), f.heads[4])),
    ("two lists share their ends", Clause::List, |f| link_list_next(f, f.list(3)[0], f.list(4)[1] as u16)),
    ("two heads are exchanged", Clause::List, |f| f.heads.swap(3, 4)),
    ("two lists have one head", Clause::List, |f| f.heads[3] = f.heads[4]),
    ("a list is lost", Clause::List, |f| f.heads[3] = NONE),
    ("a range stands on no list", Clause::List, |f| f.link_list(3, &f.list(3)[1..])),
    ("a head leads to an unused record", Clause::List, |f| f.heads[3] = f.unused()[0] as u16),
    ("sizes fall on a list", Clause::Sizes, |f| exchange_on_lists(f, |left, right| left < right)),
    ("the way back on a list ends early", Clause::ListPrev, |f| f.records[f.list(3)[1]].list_prev = NONE),
    ("the way back on a list goes on", Clause::ListPrev, |f| f.records[f.list(3)[0]].list_prev = f.list(2)[0] as u16),
];

/// Changes of the rich image's other fields.
const OTHER: [(&str, Clause, Change); 17] = [
    ("the total is one too many", Clause::Total, |f| f.total += 1),
    ("the total is one too few", Clause::Total, |f| f.total -= 1),
    ("the total is 2^63 too many", Clause::Total, |f| f.total ^= TOP),
    ("one range grew and the total did not", Clause::Total, |f| f.records[last(&f.list(LISTS - 1))].end += 1),
    ("version 0", Clause::Layout, |f| f.version = 0),
    ("version 1, with its length", Clause::Layout, |f| (f.version, f.rest) = (1, 1365)),
    ("the length counts the whole image", Clause::Layout, |f| f.rest = IMAGE_BYTES as u32),
    ("the length is one too few", Clause::Layout, |f| f.rest -= 1),
    ("the length is little-endian", Clause::Layout, |f| f.rest = f.rest.swap_bytes()),
    ("the end of a list is written as version 1's none", Clause::LinkNumber, |f| {
        link_list_next(f, last(&f.list(3)), 65280)
    }),
    ("a used record says 255 for enabled", Clause::Layout, |f| f.records[f.chain()[4]].enabled = 255),
    ("the first record is number 256", Clause::LinkNumber, |f| f.first = RECORDS as u16),
    ("the end of a list is written as 65534", Clause::LinkNumber, |f| link_list_next(f, last(&f.list(3)), NONE - 1)),
    ("an unused record leads to number 256", Clause::LinkNumber, |f| link_next(f, f.unused()[0], RECORDS as u16)),
    ("an unused record kept its range and its links", Clause::Unused, |f| {
        f.records[f.unused()[0]] = Record { enabled: 0, ..f.records[f.chain()[4]] };
    }),
    ("the last record is unused and keeps a range", Clause::Unused, |f| f.records[RECORDS - 1].end = 4095),
    ("a record is enabled that nothing leads to", Clause::Chain, |f| {
        f.records[f.unused()[0]].enabled = 1;
        f.correct_total();
    }),
];

/// Lowest figures that no image with ranges has.
const LOWEST: [(&str, Clause, Change); 3] = [
    ("the lowest figure is one above the total", Clause::Lowest, |f| f.lowest = f.total + 1),
    ("the lowest figure says that nothing was ever offered", Clause::Lowest, |f| f.lowest = NEVER),
    ("the lowest figure is little-endian", Clause::Lowest, |f| f.lowest = f.total.swap_bytes() | 1 << 63),
];

/// Unusual changes of the rich image that leave it sound.
const HARMLESS: [(&str, Change); 8] = [
    ("all neighbours of equal size exchanged on the lists", |f| exchange_on_lists(f, |left, right| left == right)),
    ("two records exchanged, with all that leads to them", |f| exchange_records(f, f.chain()[0], f.chain()[7])),
    ("a range moved to the first unused record", |f| exchange_records(f, f.chain()[3], f.unused()[0])),
    ("a range moved to the last record", |f| exchange_records(f, f.chain()[3], RECORDS - 1)),
    ("the lowest figure is 0", |f| f.lowest = 0),
    ("the lowest figure is the total", |f| f.lowest = f.total),
    ("the lowest figure is no whole page", |f| f.lowest = 5),
    ("a range that grew by a byte, and the total with it", |f| {
        f.records[last(&f.list(LISTS - 1))].end += 1;
        f.correct_total();
    }),
];

/// Ranges that no sound image holds, though links, lists and total are right for them.
const UNSOUND_RANGES: [(&str, Clause, &[Range]); 11] = [
    ("two ranges touch", Clause::Address, &[(0, 9), (10, 19)]),
    ("two ranges share a byte", Clause::Address, &[(0, 10), (10, 19)]),
    ("a range lies inside another", Clause::Address, &[(0, 100), (50, 60)]),
    ("a range stands there twice", Clause::Address, &[(5, 9), (5, 9)]),
    ("two ranges stand in the wrong order", Clause::Address, &[(100, 199), (0, 9)]),
    ("the last of three ranges touches", Clause::Address, &[(0, 9), (20, 29), (30, 30)]),
    ("a range without bytes", Clause::Range, &[(0, 9), (20, 19)]),
    ("a reversed range", Clause::Range, &[(10, 5)]),
    ("a range that ends at 2^63", Clause::Range, &[(100, TOP)]),
    ("a range above 2^63", Clause::Range, &[(TOP, u64::MAX)]),
    ("a range of 2^64 bytes", Clause::Range, &[(0, u64::MAX)]),
];

const SOUND_RANGES: [(&str, &[Range]); 6] = [
    ("no range", &[]),
    ("the byte 0", &[(0, 0)]),
    ("the last byte below 2^63", &[(TOP - 1, TOP - 1)]),
    ("all bytes", &[(0, TOP - 1)]),
    ("a gap of one byte", &[(0, 9), (11, 19)]),
    ("the byte 0 and the last byte", &[(0, 0), (TOP - 1, TOP - 1)]),
];

pub fn run(report: &mut Report) -> Result<(), String> {
    let rich = Fields::read(&rich::build(report)?);
    let full = Fields::of_ranges(&rich::full_pool());
    let mut trial = Trial { lent: Lent::new(IMAGE_BYTES, 3), report, damaged: 0, sound: 0 };
    for (name, clause, change) in CYCLES.into_iter().chain(CHAIN).chain(LIST).chain(OTHER).chain(LOWEST) {
        trial.refuse(name, clause, &changed(&rich, change));
    }
    for (name, clause, change) in CYCLES {
        trial.refuse(&format!("all records used: {name}"), clause, &changed(&full, change));
    }
    for (name, clause, ranges) in UNSOUND_RANGES {
        trial.refuse(name, clause, &Fields::of_ranges(ranges));
    }
    for (name, change) in HARMLESS {
        trial.accept(name, &changed(&rich, change));
    }
    for (name, ranges) in SOUND_RANGES {
        trial.accept(name, &Fields::of_ranges(ranges));
    }
    for lowest in [1, 4096, NEVER - 1] {
        let fields = Fields { lowest, ..Fields::of_ranges(&[]) };
        trial.refuse(&format!("no range and the lowest figure {lowest}"), Clause::Lowest, &fields);
    }
    trial.accept("no range, and none ever", &Fields { lowest: NEVER, ..Fields::of_ranges(&[]) });
    trial.accept("all records used", &full);
    trial.list_limits();
    trial.orders_of_equals();
    println!("tried {} damaged images and {} unusual sound ones", trial.damaged, trial.sound);
    Ok(())
}

struct Trial<'a> {
    lent: Lent,
    report: &'a mut Report,
    damaged: u32,
    sound: u32,
}

impl Trial<'_> {
    /// The image breaks this clause first, and every call answers -2, a bad request too.
    fn refuse(&mut self, name: &str, clause: Clause, damaged: &Fields) {
        let image = damaged.write();
        let broken = judge::broken_clause(&image);
        if broken != Some(clause) {
            self.report.fail(&format!("{name}: the test's own judge says {broken:?}, must be {clause:?}"));
        }
        for call in ACCEPTED.into_iter().chain(BAD_REQUESTS) {
            self.lent.expect(&image, call, -2, name, self.report);
        }
        self.damaged += 1;
    }

    /// The image is sound: no call answers -2, a bad request is -4, and what an accepted call leaves is sound.
    fn accept(&mut self, name: &str, unusual: &Fields) {
        let image = unusual.write();
        if let Some(clause) = judge::broken_clause(&image) {
            self.report.fail(&format!("{name}: the test's own judge says that it breaks {clause:?}"));
        }
        for call in ACCEPTED {
            let answer = self.lent.call(&image, call, self.report);
            let left: &[u8; IMAGE_BYTES] = self.lent.slice().try_into().expect("an image was lent");
            if answer == -2 || !judge::is_sound(left) {
                self.report
                    .fail(&format!("{call} answered {answer} to a sound image ({name}), or left an unsound one"));
            }
        }
        for call in BAD_REQUESTS {
            self.lent.expect(&image, call, -4, name, self.report);
        }
        self.sound += 1;
    }

    /// The greatest size of each list and one byte more: each on its own list, and each on the other's.
    fn list_limits(&mut self) {
        for list in 0..LISTS - 1 {
            for (size, right, wrong) in [(4096 << list, list, list + 1), ((4096 << list) + 1, list + 1, list)] {
                let name = format!("{size} bytes on list {right}");
                let mut fields = Fields::of_ranges(&[(4096, 4095 + size)]);
                if list_number(size) != right {
                    self.report.fail(&format!("{name}: the test's own list number is {}", list_number(size)));
                }
                self.accept(&name, &fields);
                fields.heads.swap(right, wrong);
                self.refuse(&format!("{size} bytes on list {wrong}"), Clause::List, &fields);
            }
        }
    }

    /// Three equal ranges are sound in every order on their list, and the first one serves.
    fn orders_of_equals(&mut self) {
        for order in [[0, 1, 2], [0, 2, 1], [1, 0, 2], [1, 2, 0], [2, 0, 1], [2, 1, 0]] {
            let mut fields = Fields::of_ranges(&[(0, 9), (20, 29), (40, 49)]);
            fields.link_list(0, &order);
            let name = format!("three equal ranges in the order {order:?}");
            self.accept(&name, &fields);
            let first = fields.records[order[0]].start as i64;
            self.lent.expect(&fields.write(), Call::Allocate { size: 10, order: 0 }, first, &name, self.report);
        }
    }
}

fn changed(fields: &Fields, change: Change) -> Fields {
    let mut changed = fields.clone();
    change(&mut changed);
    changed
}

fn last(records: &[usize]) -> usize {
    *records.last().expect("the rich image has ranges on every list")
}

fn link_next(fields: &mut Fields, record: usize, next: u16) {
    fields.records[record].next = next;
}

fn link_list_next(fields: &mut Fields, record: usize, next: u16) {
    fields.records[record].list_next = next;
}

fn close_ring(fields: &mut Fields) {
    let (first, last) = (fields.first, last(&fields.chain()));
    fields.records[last].next = first;
    fields.records[first as usize].previous = last as u16;
}

/// The chain, properly linked, without those at the given places of it.
fn leave_out_of_chain(fields: &mut Fields, places: &[usize]) {
    let chain = fields.chain();
    let kept: Vec<usize> = (0..chain.len()).filter(|at| !places.contains(at)).map(|at| chain[at]).collect();
    fields.link_chain(&kept);
}

fn pair_beside_chain(fields: &mut Fields) {
    let (one, other) = (fields.chain()[4], fields.chain()[5]);
    leave_out_of_chain(fields, &[4, 5]);
    for (record, partner) in [(one, other), (other, one)] {
        fields.records[record].next = partner as u16;
        fields.records[record].previous = partner as u16;
    }
}

/// On every list exchanges the first two neighbours whose sizes are as asked, with proper links.
fn exchange_on_lists(fields: &mut Fields, wanted: fn(u64, u64) -> bool) {
    for list in 0..LISTS {
        let mut order = fields.list(list);
        let size = |at: usize| fields.records[at].size();
        if let Some(at) = order.windows(2).position(|pair| wanted(size(pair[0]), size(pair[1]))) {
            order.swap(at, at + 1);
        }
        fields.link_list(list, &order);
    }
}

/// The two records change places, with all that leads to them; one may be unused.
fn exchange_records(fields: &mut Fields, one: usize, other: usize) {
    fields.records.swap(one, other);
    let follow = |link: &mut u16| match *link as usize {
        at if at == one => *link = other as u16,
        at if at == other => *link = one as u16,
        _ => (),
    };
    follow(&mut fields.first);
    fields.heads.iter_mut().for_each(follow);
    for record in &mut fields.records {
        let links = [&mut record.previous, &mut record.next, &mut record.list_prev, &mut record.list_next];
        links.into_iter().for_each(follow);
    }
}
