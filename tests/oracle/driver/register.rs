//! The calls of an allocator with holders, held to the same judges (request T-07, demand 2): what the register lets through is the module's
//! call, with its answer and the book that it leaves. What the register refuses by itself, with 5, with 6, or with 4 for a number that is no
//! holder's, is no call of the module, and changes no byte.

use crate::bench::{Bench, NoRuling, Ruling};
use crate::broken::Breakage;
use crate::call::{Answer, Call};
use crate::domain::Outside;
use crate::generate::Generator;
use crate::image::{self, Image, IMAGE};
use crate::port::{answer_of, Port};
use crate::profile::PROFILES;
use crate::rng::Rng;
use crate::shape::Shape;
use crate::tally::Tally;

const ENTRIES_AT: usize = 5;
const ENTRY: usize = 17;
const MEMORY_AT: usize = ENTRIES_AT + 64 * ENTRY;
const BYTES: usize = MEMORY_AT + IMAGE;
const MOST_CALLS_IN_A_HISTORY: u64 = 400;
/// Proposals that nothing is played of, in a row, after which a history ends.
const PATIENCE: usize = 50;

extern "C" {
    fn cinghjalofa_holders_new(image: *mut u8, len: usize) -> i64;
    fn cinghjalofa_holders_offer(image: *mut u8, len: usize, start: u64, size: u64) -> i64;
    fn cinghjalofa_holders_allocate(image: *mut u8, len: usize, holder: u64, size: u64, order: u64) -> i64;
    fn cinghjalofa_holders_reserve_memory(
        image: *mut u8,
        len: usize,
        holder: u64,
        start: u64,
        size: u64,
        order: u64,
    ) -> i64;
    fn cinghjalofa_holders_free(image: *mut u8, len: usize, holder: u64, start: u64, size: u64) -> i64;
}

/// A call of the allocator, by the one who makes it: a holder, or for a free the board too.
#[derive(Clone, Copy)]
enum By {
    Board,
    Holder(u64),
}

#[derive(Clone)]
struct Register {
    bytes: [u8; BYTES],
}

impl Register {
    fn new() -> Register {
        let mut register = Register { bytes: [0xa5; BYTES] };
        let answer = unsafe { cinghjalofa_holders_new(register.bytes.as_mut_ptr(), BYTES) };
        assert_eq!(answer, 0, "cinghjalofa_holders_new refused a slice of {BYTES} bytes");
        register
    }

    fn play(&mut self, call: Call, by: By) -> Answer {
        let image = self.bytes.as_mut_ptr();
        answer_of(unsafe {
            match (call, by) {
                (Call::Free { start, size }, By::Board) => cinghjalofa_holders_offer(image, BYTES, start, size),
                (Call::Free { start, size }, By::Holder(holder)) => {
                    cinghjalofa_holders_free(image, BYTES, holder, start, size)
                }
                (Call::Allocate { size, order }, By::Holder(holder)) => {
                    cinghjalofa_holders_allocate(image, BYTES, holder, size, order)
                }
                (Call::Reserve { start, size, order }, By::Holder(holder)) => {
                    cinghjalofa_holders_reserve_memory(image, BYTES, holder, start, size, order)
                }
                (_, By::Board) => unreachable!("the board takes nothing"),
            }
        })
    }

    /// Who was handed exactly these bytes.
    fn holder_of(&self, start: u64, size: u64) -> Option<u64> {
        let ends = [start.to_be_bytes(), (start + size - 1).to_be_bytes()].concat();
        let mut entries = self.bytes[ENTRIES_AT..MEMORY_AT].chunks(ENTRY);
        entries.find(|entry| entry[0] > 0 && entry[1..] == ends[..]).map(|entry| entry[0].into())
    }

    fn memory(&self) -> Image {
        self.bytes[MEMORY_AT..].try_into().unwrap()
    }

    fn shape(&self) -> Result<Shape, String> {
        image::read(&self.memory())
    }
}

pub struct Registers {
    pub seed: u64,
    /// The run ends with the history in which this many are compared.
    pub calls: u64,
    pub breakage: Option<Breakage>,
}

/// What a run has come to, beside the calls that were compared.
#[derive(Default)]
pub struct Kept {
    no_holders: u64,
    fives: u64,
    sixes: u64,
}

impl Kept {
    pub fn print(&self) {
        println!("{:>10}  by a number that is no holder's, refused with 4", self.no_holders);
        println!("{:>10}  of what is not yours, or held, refused with 5", self.fives);
        println!("{:>10}  with all entries used, refused with 6", self.sixes);
    }

    pub fn unreached(&self) -> Vec<String> {
        let all = [(self.no_holders, "4 for a holder"), (self.fives, "5"), (self.sixes, "6")];
        all.into_iter().filter(|(count, _)| *count == 0).map(|(_, what)| format!("the refusal {what}")).collect()
    }
}

impl Registers {
    pub fn run(&self, tally: &mut Tally, kept: &mut Kept) -> Result<(), String> {
        for history in 0.. {
            let mut made = Vec::new();
            self.play_history(history, tally, kept, &mut made)
                .map_err(|what| format!("history {history} of seed {}: {what}\n{}", self.seed, made.join("\n")))?;
            if tally.calls >= self.calls {
                return Ok(());
            }
        }
        unreachable!("there are more histories than calls")
    }

    fn play_history(
        &self,
        number: u64,
        tally: &mut Tally,
        kept: &mut Kept,
        made: &mut Vec<String>,
    ) -> Result<(), String> {
        let profile = &PROFILES[(number % PROFILES.len() as u64) as usize];
        let mut generator = Generator::new(profile, Rng::for_history(self.seed, number));
        let mut rng = Rng::for_history(!self.seed, number);
        let (mut bench, mut register) = (Bench::new(), Register::new());
        let length = generator.history_length(MOST_CALLS_IN_A_HISTORY);
        let (mut played, mut unplayed) = (0, 0);
        while played < length && unplayed < PATIENCE {
            let call = generator.propose(&bench.model);
            let by = draw(&register, call, &mut rng);
            let before = register.clone();
            let answer = register.play(call, by);
            made.push(shown(call, by, answer));
            unplayed += 1;
            if kept.keeps(by, answer)? {
                same_bytes(&before, &register)?;
            } else if let Some(ruling) = self.judge(&mut bench, call, answer, &before, &mut register)? {
                generator.accepted(call, answer);
                tally.count(call, ruling.kind, ruling.with_untouched);
                (played, unplayed) = (played + 1, 0);
            } else {
                made.pop();
                register = before; // it leaves the domain: the history goes on without it
            }
        }
        Ok(())
    }

    /// The ruling that the call was held to; none outside the domain, where a take of the last bytes is looked at all the same.
    fn judge(
        &self,
        bench: &mut Bench,
        call: Call,
        answer: Answer,
        before: &Register,
        register: &mut Register,
    ) -> Result<Option<Ruling>, String> {
        let ruling = bench.play(call);
        self.spoil(before, call, answer, register);
        match ruling {
            Ok(ruling) => {
                follows(before, register, answer, &ruling)?;
                Ok(Some(ruling))
            }
            Err(NoRuling::Outside(Outside::TakesTheLastBytes { .. })) => empties(register, answer).map(|()| None),
            Err(NoRuling::Outside(_)) => Ok(None),
            Err(NoRuling::Quarrel(text)) => Err(format!("the judges differ at {text}")),
        }
    }

    fn spoil(&self, before: &Register, call: Call, answer: Answer, register: &mut Register) {
        if let (Some(breakage), true) = (self.breakage, answer.is_accepted()) {
            let mut port = Port { image: register.memory() };
            breakage.spoil(&Port { image: before.memory() }, call, &mut port);
            register.bytes[MEMORY_AT..].copy_from_slice(&port.image);
        }
    }
}

impl Kept {
    /// Whether the register refused by itself.
    fn keeps(&mut self, by: By, answer: Answer) -> Result<bool, String> {
        match (by, answer) {
            (By::Holder(1..=16) | By::Board, Answer::Refused(5)) => self.fives += 1,
            (By::Holder(1..=16), Answer::Refused(6)) => self.sixes += 1,
            (By::Holder(1..=16) | By::Board, _) => return Ok(false),
            (_, Answer::Refused(4)) => self.no_holders += 1,
            (By::Holder(holder), _) => {
                return Err(format!("{holder} is no holder, and its call was answered otherwise than 4"))
            }
        }
        Ok(true)
    }
}

/// A free is mostly by whom the bytes were handed to, and the board's where they are nobody's.
fn draw(register: &Register, call: Call, rng: &mut Rng) -> By {
    let anybody = if rng.chance(2) { 17 * rng.below(2) } else { rng.between(1, 16) };
    match call {
        Call::Free { start, size } => match register.holder_of(start, size) {
            Some(_) if rng.chance(5) => By::Holder(anybody),
            Some(holder) => By::Holder(holder),
            None if rng.chance(5) => By::Holder(anybody),
            None => By::Board,
        },
        _ => By::Holder(anybody),
    }
}

fn shown(call: Call, by: By, answer: Answer) -> String {
    let who = match by {
        By::Board => "the board".to_string(),
        By::Holder(holder) => format!("holder {holder}"),
    };
    format!("  {call}, by {who}: {}", answer.printed_for(&call))
}

fn same_bytes(before: &Register, register: &Register) -> Result<(), String> {
    if before.bytes != register.bytes {
        return Err("the register refused and yet changed bytes of the image".to_string());
    }
    Ok(())
}

/// The last bytes go out, which the Rust keeps: document 02's T-03.
fn empties(register: &Register, answer: Answer) -> Result<(), String> {
    let shape = register.shape()?;
    if !answer.is_accepted() || shape.total != 0 || !shape.listing().is_empty() {
        return Err(format!("the last bytes: answered {answer:?}, and {} are left free", shape.total));
    }
    Ok(())
}

fn follows(before: &Register, register: &Register, answer: Answer, ruling: &Ruling) -> Result<(), String> {
    if answer != ruling.answer {
        return Err(format!("answered {answer:?}, the Rust {:?}", ruling.answer));
    }
    if !answer.is_accepted() {
        same_bytes(before, register)?;
    }
    let shape = register.shape()?;
    if !shape.same_links(&ruling.shape) {
        return Err(shape.describe_difference("the port", &ruling.shape, "the Rust"));
    }
    if shape.total != ruling.shape.total {
        return Err(format!("total: the port {}, the counting copy {}", shape.total, ruling.shape.total));
    }
    Ok(())
}
