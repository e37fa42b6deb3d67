//! Plays the table of cases: each call's answer, a sound image after each, the free ranges that it holds, and their records.

use crate::cases::{self, Case, Line};
use crate::fields::{Fields, LISTS, RECORDS};
use crate::judge;
use crate::lent::{Call, Lent, IMAGE_BYTES};
use crate::report::Report;

struct Player<'a> {
    lent: Lent,
    image: [u8; IMAGE_BYTES],
    name: &'a str,
    report: &'a mut Report,
}

pub fn run(path: &str, report: &mut Report) -> Result<(), String> {
    let table = cases::read(path)?;
    if table.records != RECORDS as u64 {
        return Err(format!("{path} is of {} records, an image has {RECORDS}", table.records));
    }
    let mut played = 0;
    for case in table.playable() {
        let lent = Lent::new(IMAGE_BYTES, 5);
        Player { lent, image: [0; IMAGE_BYTES], name: &case.name, report }.play_case(case)?;
        played += 1;
    }
    println!("{played} cases, {} of other numbers of records left out", table.cases.len() - played);
    Ok(())
}

impl Player<'_> {
    fn play_case(&mut self, case: &Case) -> Result<(), String> {
        self.play(Call::New, 0);
        for line in &case.lines {
            match line {
                Line::Call(call) => self.play(call_of(call)?, call.answer),
                Line::List { total, ranges } => self.check_list(*total, ranges),
                Line::Book { chain, shelf } => self.check_book(chain, shelf),
            }
        }
        Ok(())
    }

    fn play(&mut self, call: Call, wanted: i64) {
        self.lent.expect(&self.image, call, wanted, self.name, self.report);
        self.image.copy_from_slice(self.lent.slice());
        if let Some(clause) = judge::broken_clause(&self.image) {
            self.report.fail(&format!("{call} left an image that breaks {clause:?} ({})", self.name));
        }
    }

    fn check_list(&mut self, total: u64, ranges: &[(u64, u64)]) {
        let fields = Fields::read(&self.image);
        let ends = |&at: &usize| (fields.records[at].start, fields.records[at].end);
        let held: Vec<(u64, u64)> = fields.chain().iter().map(ends).collect();
        if fields.total != total || held != ranges {
            self.report.fail(&format!("{}: the image holds {held:?}, total {}", self.name, fields.total));
        }
    }

    /// The shelf is the lists one after the other.
    fn check_book(&mut self, chain: &[u64], shelf: &[u64]) {
        let fields = Fields::read(&self.image);
        let by_size: Vec<usize> = (0..LISTS).flat_map(|list| fields.list(list)).collect();
        for (what, held, wanted) in [("chain", fields.chain(), chain), ("shelf", by_size, shelf)] {
            if !held.iter().map(|&at| at as u64).eq(wanted.iter().copied()) {
                self.report.fail(&format!("{}: the {what} has the records {held:?}, not {wanted:?}", self.name));
            }
        }
    }
}

fn call_of(call: &cases::Call) -> Result<Call, String> {
    match (call.word.as_str(), &call.numbers[..]) {
        ("f", &[start, size]) => Ok(Call::Free { start, size }),
        ("a", &[size, order]) => Ok(Call::Allocate { size, order }),
        ("r", &[start, size, order]) => Ok(Call::Reserve { start, size, order }),
        ("p", &[count, order]) => Ok(Call::AllocatePages { count, order }),
        ("q", &[address, count]) => Ok(Call::FreePages { address, count }),
        (word, numbers) => Err(format!("a call that cannot be read: {word} {numbers:?}")),
    }
}
