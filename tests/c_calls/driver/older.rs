//! Images of version 1, as document 01 has them: 64 records, a byte for a link, 255 for none; and of version 2, which lacks the lowest figure alone. An upgrade
//! gives the current image of the same ranges, in the same records and orders, with the total as the lowest figure; every one-byte change of version 1, and of
//! the head of version 2, is refused or is sound by the judge.

use crate::fields::{Fields, Record, FRESH, LISTS, NEVER, NONE, RECORDS, RECORDS_AT, REST, VERSION};
use crate::judge;
use crate::lent::IMAGE_BYTES;
use crate::report::Report;
use crate::rich;
use declared::by_path as cinghjalofa;

const OLD_BYTES: usize = 1370;
const OLD_REST: u32 = 1365;
const OLD_RECORDS: usize = 64;
const OLD_RECORDS_AT: usize = 26;
const OLD_RECORD_BYTES: usize = 21;
const OLD_NONE: u8 = 255;

const SECOND_BYTES: usize = 6439;
const SECOND_REST: u32 = 6434;
const SECOND_RECORDS_AT: usize = 39;

type Old = [u8; OLD_BYTES];
type Second = [u8; SECOND_BYTES];

pub fn run(report: &mut Report) -> Result<(), String> {
    let rich = Fields::read(&rich::build(report)?);
    let kinds = [
        ("the empty image", Fields::of_ranges(&[])),
        ("an image that was never offered anything", Fields { lowest: NEVER, ..Fields::of_ranges(&[]) }),
        ("one range", Fields::of_ranges(&[(65536, 131071)])),
        ("all bytes", Fields::of_ranges(&[(0, rich::TOP - 1)])),
        ("the rich image", rich),
        ("all 64 records used", Fields::of_ranges(&rich::full_pool()[..OLD_RECORDS])),
    ];
    for (name, fields) in &kinds {
        let old = narrowed(fields).ok_or_else(|| format!("{name} uses a record that version 1 has not"))?;
        let told = Fields { lowest: fields.total, ..fields.clone() };
        expect(report, &old, Some(&told), name);
        expect(report, &without_figure(fields), Some(&told), &format!("{name}, of version 2"));
        expect(report, &fields.write(), Some(fields), &format!("{name}, of the current version"));
    }
    lengths(report, &kinds[4].1);
    goes_on(report, &kinds[5].1);
    for (name, fields) in &kinds[4..] {
        sweep(report, name, fields);
        sweep_head(report, name, fields);
    }
    Ok(())
}

/// One more range than version 1 had room for, in record 64.
fn goes_on(report: &mut Report, full: &Fields) {
    let mut image = [0; IMAGE_BYTES];
    let old = narrowed(full).expect("64 records are those of version 1");
    let answers = [cinghjalofa::upgrade(&old, &mut image), cinghjalofa::free(&mut image, 532480, 4096)];
    let added = Fields::read(&image).records[OLD_RECORDS];
    if answers != [0, 0] || !judge::is_sound(&image) || (added.start, added.end, added.enabled) != (532480, 536575, 1) {
        report.fail(&format!("an upgraded image with 64 ranges did not take one more in record 64: {answers:?}"));
    }
}

/// An image of one version under the length or the number of the other, and slices of other lengths.
fn lengths(report: &mut Report, fields: &Fields) {
    let old = narrowed(fields).expect("the rich image fits version 1");
    let mut long = [0; IMAGE_BYTES];
    long[..OLD_BYTES].copy_from_slice(&old);
    expect(report, &long, None, "version 1 in the length of now");
    let mut renamed = old;
    renamed[0] = VERSION;
    expect(report, &renamed, None, "version 1 that says 3");
    for number in [0, 2, 4, 255] {
        renamed[0] = number;
        expect(report, &renamed, None, "another version");
    }
    let mut second = without_figure(fields);
    for number in [0, 1, VERSION, 255] {
        second[0] = number;
        expect(report, &second, None, "version 2 that says another");
    }
    let mut now = fields.write();
    now[0] = 2;
    expect(report, &now, None, "the current version that says 2");
    for end in [0, 1, 5, OLD_BYTES - 1] {
        expect(report, &old[..end], None, "a part of an image");
    }
    for room in [0, OLD_BYTES, IMAGE_BYTES - 1, IMAGE_BYTES + 1] {
        let mut image = vec![0xa5; room];
        if cinghjalofa::upgrade(&old, &mut image) != -2 || image.iter().any(|&byte| byte != 0xa5) {
            report.fail(&format!("an upgrade into {room} bytes was not refused with no byte changed"));
        }
    }
}

fn sweep(report: &mut Report, name: &str, fields: &Fields) {
    let old = narrowed(fields).expect("it fits version 1");
    let (mut tried, mut sound) = (0, 0);
    for at in 0..OLD_BYTES {
        for value in (0..=255).filter(|&value| value != old[at]) {
            if report.is_enough() {
                return;
            }
            let mut changed = old;
            changed[at] = value;
            let wide = widened(&changed).filter(|wide| judge::is_sound(&wide.write()));
            tried += 1;
            sound += wide.is_some() as u32;
            expect(report, &changed, wide.as_ref(), &format!("version 1, {name} with byte {at} = {value}"));
        }
    }
    println!("version 1, {name}, one byte changed: {tried} images, {sound} sound, the others refused");
}

/// The head of version 2 with each of its bytes changed.
fn sweep_head(report: &mut Report, name: &str, fields: &Fields) {
    let old = without_figure(fields);
    for at in 0..SECOND_RECORDS_AT {
        for value in (0..=255).filter(|&value| value != old[at]) {
            if report.is_enough() {
                return;
            }
            let mut changed = old;
            changed[at] = value;
            let wide = with_total(&changed).filter(|wide| judge::is_sound(&wide.write()));
            expect(report, &changed, wide.as_ref(), &format!("version 2, {name} with byte {at} = {value}"));
        }
    }
}

/// The bytes of version 2.
fn without_figure(fields: &Fields) -> Second {
    let mut old = [0; SECOND_BYTES];
    let image = fields.write();
    old[..SECOND_RECORDS_AT].copy_from_slice(&image[..SECOND_RECORDS_AT]);
    old[SECOND_RECORDS_AT..].copy_from_slice(&image[RECORDS_AT..]);
    old[0] = 2;
    old[1..5].copy_from_slice(&SECOND_REST.to_be_bytes());
    old
}

/// The fields of bytes of version 2, right or wrong; nothing where version or length is another.
fn with_total(old: &Second) -> Option<Fields> {
    if old[0] != 2 || old[1..5] != SECOND_REST.to_be_bytes() {
        return None;
    }
    let mut image = [0; IMAGE_BYTES];
    image[..SECOND_RECORDS_AT].copy_from_slice(&old[..SECOND_RECORDS_AT]);
    image[RECORDS_AT..].copy_from_slice(&old[SECOND_RECORDS_AT..]);
    let fields = Fields { version: VERSION, rest: REST, ..Fields::read(&image) };
    Some(Fields { lowest: fields.total, ..fields })
}

/// An upgrade gives these fields, or is refused and changes no byte.
fn expect(report: &mut Report, old: &[u8], wanted: Option<&Fields>, name: &str) {
    let mut image = [0xa5; IMAGE_BYTES];
    let answer = cinghjalofa::upgrade(old, &mut image);
    let due = wanted.map_or([0xa5; IMAGE_BYTES], Fields::write);
    if answer != wanted.map_or(-2, |_| 0) || image != due {
        report.fail(&format!("{name}: the upgrade answered {answer}, or left other bytes than it must"));
    }
}

/// The bytes of version 1, where it has the records.
fn narrowed(fields: &Fields) -> Option<Old> {
    if fields.records[OLD_RECORDS..] != [FRESH; RECORDS - OLD_RECORDS] {
        return None;
    }
    let link = |link: u16| if link == NONE { OLD_NONE } else { link as u8 };
    let mut old = [0; OLD_BYTES];
    old[0] = 1;
    old[1..5].copy_from_slice(&OLD_REST.to_be_bytes());
    old[5..13].copy_from_slice(&fields.total.to_be_bytes());
    old[13] = link(fields.first);
    for (byte, &head) in old[14..OLD_RECORDS_AT].iter_mut().zip(&fields.heads) {
        *byte = link(head);
    }
    for (record, bytes) in fields.records.iter().zip(old[OLD_RECORDS_AT..].chunks_mut(OLD_RECORD_BYTES)) {
        bytes[..8].copy_from_slice(&record.start.to_be_bytes());
        bytes[8..16].copy_from_slice(&record.end.to_be_bytes());
        bytes[16] = record.enabled;
        let links = [record.previous, record.next, record.list_prev, record.list_next];
        bytes[17..].copy_from_slice(&links.map(link));
    }
    Some(old)
}

/// The fields of bytes of version 1, right or wrong, with the records of now; nothing where version or length is another.
fn widened(old: &Old) -> Option<Fields> {
    if old[0] != 1 || old[1..5] != OLD_REST.to_be_bytes() {
        return None;
    }
    let link = |byte: u8| if byte == OLD_NONE { NONE } else { byte as u16 };
    let number = |bytes: &[u8]| u64::from_be_bytes(bytes[..8].try_into().unwrap());
    let mut fields = Fields {
        version: VERSION,
        rest: REST,
        total: number(&old[5..]),
        first: link(old[13]),
        heads: [NONE; LISTS],
        lowest: number(&old[5..]),
        records: [FRESH; RECORDS],
    };
    for (head, &byte) in fields.heads.iter_mut().zip(&old[14..OLD_RECORDS_AT]) {
        *head = link(byte);
    }
    for (record, bytes) in fields.records.iter_mut().zip(old[OLD_RECORDS_AT..].chunks(OLD_RECORD_BYTES)) {
        *record = Record {
            start: number(bytes),
            end: number(&bytes[8..]),
            enabled: bytes[16],
            previous: link(bytes[17]),
            next: link(bytes[18]),
            list_prev: link(bytes[19]),
            list_next: link(bytes[20]),
        };
    }
    Some(fields)
}
