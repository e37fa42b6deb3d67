//! What holds of every function for every slice: lengths, places, damaged images, and which refusal comes first.

use crate::fields::{Fields, NEVER};
use crate::lent::{Call, Lent, IMAGE_BYTES, MOST_PAGES};
use crate::report::Report;

/// Among them the length of version 1.
const WRONG_LENGTHS: [usize; 6] = [0, 1, 1370, IMAGE_BYTES - 1, IMAGE_BYTES + 1, 8192];
const LONGEST: usize = 8192;

/// The ranges of the sample image.
const SAMPLE: [(u64, u64); 2] = [(65536, 81919), (131072, 196607)];

/// Accepted by the sample image, with the answers.
const GOOD: [(Call, i64); 6] = [
    (Call::New, 0),
    (Call::Allocate { size: 4096, order: 12 }, 65536),
    (Call::Reserve { start: 70000, size: 100, order: 12 }, 0),
    (Call::Free { start: 4096, size: 4096 }, 0),
    (Call::AllocatePages { count: 1, order: 0 }, 65536),
    (Call::FreePages { address: 4096, count: 1 }, 0),
];

/// Refused by the sample image with -4.
const BAD: [Call; 14] = [
    Call::Allocate { size: 0, order: 0 },
    Call::Allocate { size: 1, order: 64 },
    Call::Reserve { start: 70000, size: 0, order: 0 },
    Call::Reserve { start: 70000, size: 1, order: 64 },
    Call::Reserve { start: u64::MAX, size: 1, order: 0 },
    Call::Free { start: 4096, size: 0 },
    Call::Free { start: u64::MAX, size: u64::MAX },
    Call::Free { start: 65536, size: 1 },
    Call::AllocatePages { count: 0, order: 0 },
    Call::AllocatePages { count: MOST_PAGES + 1, order: 0 },
    Call::AllocatePages { count: 1, order: 64 },
    Call::FreePages { address: 4096, count: 0 },
    Call::FreePages { address: 6144, count: 1 },
    Call::FreePages { address: 65536, count: 1 },
];

pub fn run(report: &mut Report) -> Result<(), String> {
    let sample = Fields::of_ranges(&SAMPLE).write();
    for shift in [0, 1, 2, 3, 4, 5, 6, 7, 8, 13, 63] {
        let mut lent = Lent::new(LONGEST, shift);
        refuse_lengths(&mut lent, &sample, report);
        write_new(&mut lent, report);
        answer_requests(&mut lent, &sample, report);
        refuse_damaged(&mut lent, &sample, report);
    }
    Ok(())
}

/// The slices begin as a sound image does, as far as they reach.
fn refuse_lengths(lent: &mut Lent, sample: &[u8; IMAGE_BYTES], report: &mut Report) {
    let mut longest = [0xa5; LONGEST];
    longest[..IMAGE_BYTES].copy_from_slice(sample);
    for len in WRONG_LENGTHS {
        for call in GOOD.map(|(call, _)| call).into_iter().chain(BAD) {
            lent.expect(&longest[..len], call, -2, "another length is refused before all else", report);
        }
    }
}

fn write_new(lent: &mut Lent, report: &mut Report) {
    for old in [0, 1, 0xa5, 255] {
        lent.expect(&[old; IMAGE_BYTES], Call::New, 0, "new overwrites whatever is there", report);
        if *lent.slice() != (Fields { lowest: NEVER, ..Fields::of_ranges(&[]) }).write() {
            report.fail("new did not write the image of the empty allocator");
        }
    }
}

fn answer_requests(lent: &mut Lent, sample: &[u8; IMAGE_BYTES], report: &mut Report) {
    for (call, answer) in GOOD {
        lent.expect(sample, call, answer, "a good request over a sound image", report);
    }
    for call in BAD {
        lent.expect(sample, call, -4, "a bad request over a sound image", report);
    }
}

fn refuse_damaged(lent: &mut Lent, sample: &[u8; IMAGE_BYTES], report: &mut Report) {
    for field in
        [0, 1, 4, 5, 12, 13, 14, 15, 38, 39, 44, 47, 62, 63, 64, 65, 66, 68, 70, 71, 97, 113, 114, 6422, 6438, 6446]
    {
        let mut damaged = *sample;
        damaged[field] ^= 2;
        for (call, _) in &GOOD[1..] {
            lent.expect(&damaged, *call, -2, "a damaged image", report);
        }
        for call in BAD {
            lent.expect(&damaged, call, -2, "a damaged image comes before a bad request", report);
        }
        lent.expect(&damaged, Call::New, 0, "new overwrites whatever is there", report);
    }
}
