//! Everything that can be seen of an allocator's state: what an image holds, and what the accessor shows of the Rust.

pub const RECORDS: usize = 256;
pub const LISTS: usize = 12;
pub const NONE: u16 = u16::MAX;

#[derive(Clone, Copy, PartialEq, Eq, Debug)]
pub struct Record {
    pub enabled: bool,
    pub start: u64,
    pub end: u64,
    pub previous: u16,
    pub next: u16,
    pub list_prev: u16,
    pub list_next: u16,
}

pub const FRESH: Record =
    Record { enabled: false, start: 0, end: 0, previous: NONE, next: NONE, list_prev: NONE, list_next: NONE };

#[derive(Clone, PartialEq, Eq)]
pub struct Shape {
    pub total: u64,
    pub first: u16,
    pub heads: [u16; LISTS],
    pub records: [Record; RECORDS],
}

impl Record {
    pub fn size(&self) -> u64 {
        self.end - self.start + 1
    }
}

impl Shape {
    /// The records met from `from` along `link`; stops after as many steps as there are records.
    pub fn walk(&self, from: u16, link: fn(&Record) -> u16) -> Vec<u16> {
        let mut met = Vec::new();
        let mut at = from;
        while (at as usize) < RECORDS && met.len() <= RECORDS {
            met.push(at);
            at = link(&self.records[at as usize]);
        }
        met
    }

    /// The free ranges by address, as first and last byte.
    pub fn listing(&self) -> Vec<(u64, u64)> {
        let chain = self.walk(self.first, |record| record.next);
        chain.iter().map(|&at| (self.records[at as usize].start, self.records[at as usize].end)).collect()
    }

    /// Whether first record, heads and every field of the enabled records are the same. The total is compared apart,
    /// because the untouched Rust drifts there; old numbers in unused records of the Rust are unseen outside.
    pub fn same_links(&self, other: &Shape) -> bool {
        let same =
            |(mine, theirs): (&Record, &Record)| mine.enabled == theirs.enabled && (!mine.enabled || mine == theirs);
        self.first == other.first && self.heads == other.heads && self.records.iter().zip(&other.records).all(same)
    }

    /// The first place where `same_links` fails, with what each side holds there.
    pub fn describe_difference(&self, mine: &str, other: &Shape, theirs: &str) -> String {
        if self.listing() != other.listing() {
            return format!("listing: {mine} {:?}, {theirs} {:?}", self.listing(), other.listing());
        }
        if self.first != other.first {
            return format!("first record: {mine} {}, {theirs} {}", link_text(self.first), link_text(other.first));
        }
        for list in 0..LISTS {
            let (my_head, their_head) = (self.heads[list], other.heads[list]);
            if my_head != their_head {
                let (my_head, their_head) = (link_text(my_head), link_text(their_head));
                return format!("head of list {list}: {mine} {my_head}, {theirs} {their_head}");
            }
        }
        for at in 0..RECORDS {
            let (my_record, their_record) = (&self.records[at], &other.records[at]);
            if my_record.enabled != their_record.enabled || (my_record.enabled && my_record != their_record) {
                return format!(
                    "record {at}: {mine} {}, {theirs} {}",
                    record_text(my_record),
                    record_text(their_record)
                );
            }
        }
        "no difference".to_string()
    }

    /// A number that changes with any seen part of the state (FNV-1a, 64 bits), the same for every image layout.
    pub fn checksum(&self) -> u64 {
        let mut sum = 0xcbf2_9ce4_8422_2325;
        add_to_checksum(&mut sum, self.total);
        add_to_checksum(&mut sum, self.first as u64);
        self.heads.iter().for_each(|&head| add_to_checksum(&mut sum, head as u64));
        for (at, record) in self.records.iter().enumerate().filter(|(_, record)| record.enabled) {
            let links = [record.previous, record.next, record.list_prev, record.list_next];
            add_to_checksum(&mut sum, at as u64);
            add_to_checksum(&mut sum, record.start);
            add_to_checksum(&mut sum, record.end);
            links.iter().for_each(|&link| add_to_checksum(&mut sum, link as u64));
        }
        sum
    }
}

fn add_to_checksum(sum: &mut u64, value: u64) {
    for byte in value.to_be_bytes() {
        *sum = (*sum ^ byte as u64).wrapping_mul(0x0000_0100_0000_01b3);
    }
}

fn link_text(link: u16) -> String {
    if link == NONE {
        "none".to_string()
    } else {
        link.to_string()
    }
}

fn record_text(record: &Record) -> String {
    if !record.enabled {
        return "unused".to_string();
    }
    let [previous, next, list_prev, list_next] =
        [record.previous, record.next, record.list_prev, record.list_next].map(link_text);
    format!(
        "[{} to {}, previous {previous}, next {next}, list_prev {list_prev}, list_next {list_next}]",
        record.start, record.end
    )
}
