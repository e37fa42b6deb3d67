//! Every field of an image as it stands in the bytes, right or wrong, and images with ranges of one's choice.

use crate::lent::IMAGE_BYTES;

pub const RECORDS: usize = 256;
pub const LISTS: usize = 12;
pub const NONE: u16 = 65535;

pub const VERSION: u8 = 3;
pub const REST: u32 = 6442;
/// the lowest figure before the first accepted free
pub const NEVER: u64 = u64::MAX;

pub const TOTAL_AT: usize = 5;
pub const FIRST_AT: usize = 13;
pub const HEADS_AT: usize = 15;
pub const LOWEST_AT: usize = 39;
pub const RECORDS_AT: usize = 47;
pub const RECORD_BYTES: usize = 25;
pub const LINKS_AT: usize = 17;
pub const LINK_BYTES: usize = 2;

#[derive(Clone, Copy, PartialEq)]
pub struct Record {
    pub start: u64,
    pub end: u64,
    pub enabled: u8,
    pub previous: u16,
    pub next: u16,
    pub list_prev: u16,
    pub list_next: u16,
}

pub const FRESH: Record =
    Record { start: 0, end: 0, enabled: 0, previous: NONE, next: NONE, list_prev: NONE, list_next: NONE };

impl Record {
    /// Meant for start <= end; any other range gives some number.
    pub fn size(&self) -> u64 {
        self.end.wrapping_sub(self.start).wrapping_add(1)
    }
}

#[derive(Clone)]
pub struct Fields {
    pub version: u8,
    pub rest: u32,
    pub total: u64,
    pub first: u16,
    pub heads: [u16; LISTS],
    pub lowest: u64,
    pub records: [Record; RECORDS],
}

/// The least k from 0 with size <= 4096 * 2^k, but never above 11.
pub fn list_number(size: u64) -> usize {
    (0..LISTS - 1).find(|&k| size <= 4096 << k).unwrap_or(LISTS - 1)
}

impl Fields {
    pub fn read(image: &[u8; IMAGE_BYTES]) -> Fields {
        let mut fields = Fields {
            version: image[0],
            rest: u32::from_be_bytes(image[1..TOTAL_AT].try_into().unwrap()),
            total: number(&image[TOTAL_AT..]),
            first: link_at(image, FIRST_AT),
            heads: [NONE; LISTS],
            lowest: number(&image[LOWEST_AT..]),
            records: [FRESH; RECORDS],
        };
        for (list, head) in fields.heads.iter_mut().enumerate() {
            *head = link_at(image, HEADS_AT + LINK_BYTES * list);
        }
        for (record, bytes) in fields.records.iter_mut().zip(image[RECORDS_AT..].chunks(RECORD_BYTES)) {
            *record = Record {
                start: number(bytes),
                end: number(&bytes[8..]),
                enabled: bytes[16],
                previous: link_at(bytes, LINKS_AT),
                next: link_at(bytes, LINKS_AT + LINK_BYTES),
                list_prev: link_at(bytes, LINKS_AT + 2 * LINK_BYTES),
                list_next: link_at(bytes, LINKS_AT + 3 * LINK_BYTES),
            };
        }
        fields
    }

    pub fn write(&self) -> [u8; IMAGE_BYTES] {
        let mut image = [0; IMAGE_BYTES];
        image[0] = self.version;
        image[1..TOTAL_AT].copy_from_slice(&self.rest.to_be_bytes());
        image[TOTAL_AT..FIRST_AT].copy_from_slice(&self.total.to_be_bytes());
        put_links(&mut image[FIRST_AT..HEADS_AT], &[self.first]);
        put_links(&mut image[HEADS_AT..LOWEST_AT], &self.heads);
        image[LOWEST_AT..RECORDS_AT].copy_from_slice(&self.lowest.to_be_bytes());
        for (record, bytes) in self.records.iter().zip(image[RECORDS_AT..].chunks_mut(RECORD_BYTES)) {
            bytes[..8].copy_from_slice(&record.start.to_be_bytes());
            bytes[8..16].copy_from_slice(&record.end.to_be_bytes());
            bytes[16] = record.enabled;
            put_links(&mut bytes[LINKS_AT..], &[record.previous, record.next, record.list_prev, record.list_next]);
        }
        image
    }

    /// An image that is right in all but, perhaps, the ranges: records 0, 1, .. hold them, chained in the order given. The lowest figure is the total.
    pub fn of_ranges(ranges: &[(u64, u64)]) -> Fields {
        let no_links = [NONE; LISTS];
        let mut fields = Fields {
            version: VERSION,
            rest: REST,
            total: 0,
            first: NONE,
            heads: no_links,
            lowest: 0,
            records: [FRESH; RECORDS],
        };
        for (record, &(start, end)) in fields.records.iter_mut().zip(ranges) {
            *record = Record { start, end, enabled: 1, ..FRESH };
        }
        let chain: Vec<usize> = (0..ranges.len()).collect();
        fields.link_chain(&chain);
        for list in 0..LISTS {
            let mut members: Vec<usize> = chain.clone();
            members.retain(|&at| list_number(fields.records[at].size()) == list);
            members.sort_by_key(|&at| fields.records[at].size());
            fields.link_list(list, &members);
        }
        fields.correct_total();
        fields.lowest = fields.total;
        fields
    }

    pub fn correct_total(&mut self) {
        let used = self.records.iter().filter(|record| record.enabled == 1);
        self.total = used.fold(0, |sum, record| sum.wrapping_add(record.size()));
    }

    pub fn unused(&self) -> Vec<usize> {
        (0..RECORDS).filter(|&at| self.records[at].enabled == 0).collect()
    }

    /// The records of the chain, by address. The links must be right.
    pub fn chain(&self) -> Vec<usize> {
        follow(self.first, |at| self.records[at].next)
    }

    /// The records of a list. The links must be right.
    pub fn list(&self, list: usize) -> Vec<usize> {
        follow(self.heads[list], |at| self.records[at].list_next)
    }

    pub fn link_chain(&mut self, order: &[usize]) {
        self.first = link(order.first());
        for (at, &record) in order.iter().enumerate() {
            self.records[record].previous = link(at.checked_sub(1).map(|before| &order[before]));
            self.records[record].next = link(order.get(at + 1));
        }
    }

    pub fn link_list(&mut self, list: usize, order: &[usize]) {
        self.heads[list] = link(order.first());
        for (at, &record) in order.iter().enumerate() {
            self.records[record].list_prev = link(at.checked_sub(1).map(|before| &order[before]));
            self.records[record].list_next = link(order.get(at + 1));
        }
    }
}

fn follow(first: u16, next: impl Fn(usize) -> u16) -> Vec<usize> {
    let mut met = Vec::new();
    let mut at = first as usize;
    while at < RECORDS && met.len() < RECORDS {
        met.push(at);
        at = next(at) as usize;
    }
    met
}

fn link(record: Option<&usize>) -> u16 {
    record.map_or(NONE, |&at| at as u16)
}

fn link_at(bytes: &[u8], at: usize) -> u16 {
    u16::from_be_bytes([bytes[at], bytes[at + 1]])
}

fn put_links(bytes: &mut [u8], links: &[u16]) {
    for (place, link) in bytes.chunks_mut(LINK_BYTES).zip(links) {
        place.copy_from_slice(&link.to_be_bytes());
    }
}

fn number(bytes: &[u8]) -> u64 {
    u64::from_be_bytes(bytes[..8].try_into().unwrap())
}
