//! The byte image, version 3, read into a shape and written from one. The module has no lowest figure: what is written has the total for it.

use crate::shape::{Record, Shape, FRESH, LISTS, NONE, RECORDS};

pub const IMAGE: usize = RECORDS_AT + RECORDS * RECORD;

const VERSION: u8 = 3;
const REST_AT: usize = 1;
const TOTAL_AT: usize = 5;
const FIRST_AT: usize = 13;
const LINK: usize = 2;
const HEADS_AT: usize = FIRST_AT + LINK;
const LOWEST_AT: usize = HEADS_AT + LINK * LISTS;
const RECORDS_AT: usize = LOWEST_AT + 8;
const LINKS_AT: usize = 17;
const RECORD: usize = LINKS_AT + 4 * LINK;
const LINK_NONE: u16 = 65535;

pub type Image = [u8; IMAGE];

/// The shape an image holds, or what is wrong with its bytes. Soundness of the links is not looked at.
pub fn read(image: &Image) -> Result<Shape, String> {
    let rest = u32::from_be_bytes(image[REST_AT..TOTAL_AT].try_into().unwrap());
    if image[0] != VERSION || rest as usize != IMAGE - TOTAL_AT {
        return Err(format!("the image begins with version {} and length {rest}", image[0]));
    }
    let mut shape = Shape {
        total: number(image, TOTAL_AT),
        first: link(image, FIRST_AT),
        heads: [NONE; LISTS],
        records: [FRESH; RECORDS],
    };
    for (list, head) in shape.heads.iter_mut().enumerate() {
        *head = link(image, HEADS_AT + LINK * list);
    }
    for (at, record) in shape.records.iter_mut().enumerate() {
        *record = read_record(&image[RECORDS_AT + at * RECORD..][..RECORD])
            .map_err(|what| format!("record {at} of the image: {what}"))?;
    }
    Ok(shape)
}

pub fn write(shape: &Shape) -> Image {
    let mut image = [0; IMAGE];
    image[0] = VERSION;
    image[REST_AT..TOTAL_AT].copy_from_slice(&((IMAGE - TOTAL_AT) as u32).to_be_bytes());
    image[TOTAL_AT..FIRST_AT].copy_from_slice(&shape.total.to_be_bytes());
    put_link(&mut image, FIRST_AT, shape.first);
    for (list, &head) in shape.heads.iter().enumerate() {
        put_link(&mut image, HEADS_AT + LINK * list, head);
    }
    image = with_lowest(image, shape.total);
    for (at, record) in shape.records.iter().enumerate() {
        let bytes = &mut image[RECORDS_AT + at * RECORD..][..RECORD];
        bytes[0..8].copy_from_slice(&record.start.to_be_bytes());
        bytes[8..16].copy_from_slice(&record.end.to_be_bytes());
        bytes[16] = record.enabled as u8;
        let links = [record.previous, record.next, record.list_prev, record.list_next];
        for (place, link) in links.into_iter().enumerate() {
            put_link(bytes, LINKS_AT + LINK * place, link);
        }
    }
    image
}

/// The same image with this lowest figure.
pub fn with_lowest(mut image: Image, lowest: u64) -> Image {
    image[LOWEST_AT..RECORDS_AT].copy_from_slice(&lowest.to_be_bytes());
    image
}

fn read_record(bytes: &[u8]) -> Result<Record, String> {
    let record = Record {
        enabled: bytes[16] == 1,
        start: number(bytes, 0),
        end: number(bytes, 8),
        previous: link(bytes, LINKS_AT),
        next: link(bytes, LINKS_AT + LINK),
        list_prev: link(bytes, LINKS_AT + 2 * LINK),
        list_next: link(bytes, LINKS_AT + 3 * LINK),
    };
    match bytes[16] {
        0 if record != FRESH => Err(format!("unused but not fresh, {record:?}")),
        0 => Ok(record),
        1 if record.start > record.end => Err(format!("reversed range, {record:?}")),
        1 => Ok(record),
        other => Err(format!("enabled byte {other}")),
    }
}

fn number(bytes: &[u8], at: usize) -> u64 {
    u64::from_be_bytes(bytes[at..at + 8].try_into().unwrap())
}

fn link(bytes: &[u8], at: usize) -> u16 {
    match u16::from_be_bytes([bytes[at], bytes[at + 1]]) {
        LINK_NONE => NONE,
        link => link,
    }
}

fn put_link(bytes: &mut [u8], at: usize, link: u16) {
    let number = if link == NONE { LINK_NONE } else { link };
    bytes[at..at + LINK].copy_from_slice(&number.to_be_bytes());
}
