//! Every small change of an image: every value of the head's bytes and of those of records that are used, and of every tenth unused record;
//! of the others' each bit. The judge says whether the changed image is still sound; then no call may answer -2,
//! and otherwise every call must, and change no byte.

use crate::fields::{Fields, FIRST_AT, LINKS_AT, LINK_BYTES, LOWEST_AT, NEVER, RECORDS_AT, RECORD_BYTES};
use crate::judge;
use crate::lent::{Call, Lent, IMAGE_BYTES};
use crate::report::Report;
use crate::rich::{self, ACCEPTED, BAD_REQUESTS};

type Image = [u8; IMAGE_BYTES];

pub fn run(report: &mut Report) -> Result<(), String> {
    let rich = rich::build(report)?;
    let empty = Fields { lowest: NEVER, ..Fields::of_ranges(&[]) }.write();
    let full = Fields::of_ranges(&rich::full_pool()).write();
    let mut sweep = Sweep { lent: Lent::new(IMAGE_BYTES, 7), report, images: 0, sound: 0, refused: 0 };
    sweep.one_byte("the rich image", &rich, &every_call());
    sweep.one_byte("the empty image", &empty, &one_call_in_turn());
    sweep.one_byte("the image with all records used", &full, &one_call_in_turn());
    sweep.one_byte_of_a_range(&rich);
    sweep.two_links(&rich);
    Ok(())
}

/// The three good requests at every change, and with them one of the bad ones in turn.
fn every_call() -> Vec<Vec<Call>> {
    BAD_REQUESTS.iter().map(|&bad| ACCEPTED.into_iter().chain([bad]).collect()).collect()
}

/// At every change one of the good and bad requests.
fn one_call_in_turn() -> Vec<Vec<Call>> {
    ACCEPTED.into_iter().chain(BAD_REQUESTS).map(|call| vec![call]).collect()
}

/// The other values that a byte is given. An unused record is compared with the fresh one, byte by byte, whatever its number is.
fn values(image: &Image, at: usize) -> Vec<u8> {
    let record = at.checked_sub(RECORDS_AT).map(|from| from / RECORD_BYTES);
    let is_passed = |record: usize| Fields::read(image).records[record].enabled == 0 && record % 10 != 0;
    match record {
        Some(record) if is_passed(record) => (0..8).map(|bit| image[at] ^ 1 << bit).collect(),
        _ => (0..=255).filter(|&value| value != image[at]).collect(),
    }
}

struct Sweep<'a> {
    lent: Lent,
    report: &'a mut Report,
    images: u64,
    /// by the judge
    sound: u64,
    /// by every call that was made
    refused: u64,
}

impl Sweep<'_> {
    fn one_byte(&mut self, name: &str, image: &Image, turns: &[Vec<Call>]) {
        let mut turn = 0;
        for at in 0..IMAGE_BYTES {
            for value in values(image, at) {
                let mut changed = *image;
                changed[at] = value;
                self.try_image(&changed, &turns[turn % turns.len()], || format!("{name} with byte {at} = {value}"));
                turn += 1;
            }
        }
        self.count(&format!("{name}, one byte changed"));
    }

    /// Start or end of each range with one byte changed, and the total made right: many of these are sound.
    fn one_byte_of_a_range(&mut self, image: &Image) {
        for record in Fields::read(image).chain() {
            let from = RECORDS_AT + RECORD_BYTES * record;
            for at in from..from + 16 {
                for value in (0..=255).filter(|&value| value != image[at]) {
                    let mut changed = *image;
                    changed[at] = value;
                    let mut fields = Fields::read(&changed);
                    fields.correct_total();
                    self.try_image(&fields.write(), &ACCEPTED, || format!("byte {at} = {value} and the total right"));
                }
            }
        }
        if self.sound == 0 || self.refused == 0 {
            self.report.fail("of the ranges changed with the total made right, some must be sound and some not");
        }
        self.count("the rich image, one byte of a range changed and the total made right");
    }

    /// Every two links that differ, of the head, of the used records and of one that is not, exchanged.
    fn two_links(&mut self, image: &Image) {
        let used = Fields::read(image).chain();
        let first_unused = Fields::read(image).unused()[0];
        let of_record = |record| {
            (LINKS_AT..RECORD_BYTES).step_by(LINK_BYTES).map(move |at| RECORDS_AT + RECORD_BYTES * record + at)
        };
        let records = used.into_iter().chain([first_unused]);
        let links: Vec<usize> = (FIRST_AT..LOWEST_AT).step_by(LINK_BYTES).chain(records.flat_map(of_record)).collect();
        for (place, &one) in links.iter().enumerate() {
            for &other in &links[place + 1..] {
                let mut changed = *image;
                changed.swap(one, other);
                changed.swap(one + 1, other + 1);
                if changed != *image {
                    self.try_image(&changed, &ACCEPTED, || format!("links at {one} and {other} exchanged"));
                }
            }
        }
        self.count("the rich image, two links exchanged");
    }

    fn try_image(&mut self, changed: &Image, calls: &[Call], describe: impl Fn() -> String) {
        if self.report.is_enough() {
            return;
        }
        let broken = judge::broken_clause(changed);
        let failures = self.report.failures;
        let mut refusals = 0;
        for &call in calls {
            let answer = self.lent.call(changed, call, self.report);
            refusals += (answer == -2) as usize;
            if (answer == -2) != broken.is_some() {
                self.report.fail(&format!("{call} answered {answer}, though the image {}", verdict(broken)));
            }
        }
        if self.report.failures > failures {
            println!("        over {}", describe());
        }
        self.images += 1;
        self.sound += broken.is_none() as u64;
        self.refused += (refusals == calls.len()) as u64;
    }

    fn count(&mut self, family: &str) {
        let (images, sound, refused) = (self.images, self.sound, self.refused);
        println!("{family}: {images} images, {sound} sound, {refused} refused by every call");
        (self.images, self.sound, self.refused) = (0, 0, 0);
    }
}

fn verdict(broken: Option<judge::Clause>) -> String {
    broken.map_or("is sound".to_string(), |clause| format!("breaks {clause:?}"))
}
