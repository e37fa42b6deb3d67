//! The judges on one bench: both oracles play a history, held to each other and to the model that guards the domain.

use crate::call::{Answer, Call};
use crate::domain::{Model, Outside, Step};
use crate::judges::{Counting, Untouched};
use crate::kind::Kind;
use crate::shape::Shape;

const COUNTING: &str = "the counting copy";
const UNTOUCHED: &str = "the untouched Rust";
const MODEL: &str = "the driver's own model";

pub struct Bench {
    pub model: Model,
    counting: Counting,
    untouched: Untouched,
    /// What `free_size` of the untouched Rust would be without a limit of 2^64.
    drifted_total: u128,
}

/// What the port must answer and hold.
pub struct Ruling {
    pub kind: Kind,
    pub answer: Answer,
    pub shape: Shape,
    /// Whether the untouched Rust still stands behind it: its `free_size` has never wrapped.
    pub with_untouched: bool,
}

pub enum NoRuling {
    /// The call was not played.
    Outside(Outside),
    /// The judges differ inside the domain: the generator or the model is wrong.
    Quarrel(String),
}

impl Bench {
    pub fn new() -> Bench {
        Bench { model: Model::new(), counting: Counting::new(), untouched: Untouched::new(), drifted_total: 0 }
    }

    pub fn copy(&self) -> Bench {
        Bench {
            model: self.model.clone(),
            counting: self.counting.copy(),
            untouched: self.untouched.copy(),
            drifted_total: self.drifted_total,
        }
    }

    pub fn play(&mut self, call: Call) -> Result<Ruling, NoRuling> {
        let step = self.model.step(call).map_err(NoRuling::Outside)?;
        self.rule(call, &step).map_err(|text| NoRuling::Quarrel(format!("`{call}`: {text}")))
    }

    /// Whether both oracles refuse a call that document 02 lets through, as the Rust's habit is. Copies are asked: nothing changes.
    pub fn refuses_by_habit(&self, call: Call, habit: u8) -> Result<(), String> {
        let answer = self.counting.copy().play(call);
        if answer != Answer::Refused(habit) {
            return Err(format!("{COUNTING} says `{}`, its habit is `no {habit}`", answer.printed_for(&call)));
        }
        if self.has_wrapped() {
            return Ok(());
        }
        match self.untouched.copy().play(call) {
            Answer::Refused(_) => Ok(()),
            answer => Err(format!("{UNTOUCHED} says `{}`, its habit is to refuse", answer.printed_for(&call))),
        }
    }

    /// What the counting copy would hold after a call that it accepts. A copy is asked: nothing changes.
    pub fn shape_after(&self, call: Call) -> Result<Shape, String> {
        let mut counting = self.counting.copy();
        match counting.play(call) {
            Answer::Accepted(_) => Ok(counting.shape()),
            answer => Err(format!("{COUNTING} says `{}` to `{call}`", answer.printed_for(&call))),
        }
    }

    /// Everything that decides how later calls are answered.
    pub fn fingerprint(&self) -> Vec<u8> {
        let mut bytes = self.drifted_total.to_be_bytes().to_vec();
        let records = self.counting.shape().records;
        for (at, record) in records.iter().enumerate().filter(|(_, record)| record.enabled) {
            bytes.push(at as u8);
            bytes.extend(record.start.to_be_bytes());
            bytes.extend(record.end.to_be_bytes());
            bytes.extend(record.list_next.to_be_bytes());
        }
        bytes
    }

    fn rule(&mut self, call: Call, step: &Step) -> Result<Ruling, String> {
        self.follow_drift(call, step);
        self.model.apply(call, step);
        let answer = self.counting.play(call);
        if answer != step.answer() {
            return Err(differ(call, MODEL, step.answer(), COUNTING, answer));
        }
        let shape = self.counting.shape();
        self.model_holds(&shape)?;
        let with_untouched = !self.has_wrapped();
        if with_untouched {
            self.untouched_agrees(call, answer, &shape)?;
        }
        Ok(Ruling { kind: step.kind, answer, shape, with_untouched })
    }

    fn has_wrapped(&self) -> bool {
        self.drifted_total >= 1 << 64
    }

    /// A free adds its size twice, except the first into an empty allocator.
    fn follow_drift(&mut self, call: Call, step: &Step) {
        let moved = step.moved as u128;
        if self.has_wrapped() {
            return;
        }
        match call {
            Call::Free { .. } if self.model.total == 0 => self.drifted_total += moved,
            Call::Free { .. } => self.drifted_total += 2 * moved,
            _ => self.drifted_total -= moved,
        }
    }

    fn model_holds(&self, shape: &Shape) -> Result<(), String> {
        let model = self.model.ranges.iter().map(|range| (range.start, range.end));
        let listing = shape.listing();
        if shape.total == self.model.total && model.clone().eq(listing.iter().copied()) {
            return Ok(());
        }
        let model: Vec<_> = model.collect();
        let (counted, total) = (self.model.total, shape.total);
        Err(format!("{MODEL} lists {model:?} with total {counted}, {COUNTING} {listing:?} with total {total}"))
    }

    /// Acceptance, address and links; the refusal numbers of the untouched Rust follow its drifted total.
    fn untouched_agrees(&mut self, call: Call, counted: Answer, counting: &Shape) -> Result<(), String> {
        let answer = self.untouched.play(call);
        let both_refuse = matches!((answer, counted), (Answer::Refused(_), Answer::Refused(_)));
        if !both_refuse && answer != counted {
            return Err(differ(call, UNTOUCHED, answer, COUNTING, counted));
        }
        let shape = self.untouched.shape();
        if shape.total as u128 != self.drifted_total {
            return Err(format!("free_size of {UNTOUCHED} is {}, foreseen was {}", shape.total, self.drifted_total));
        }
        if !shape.same_links(counting) {
            return Err(shape.describe_difference(UNTOUCHED, counting, COUNTING));
        }
        Ok(())
    }
}

fn differ(call: Call, one: &str, answer: Answer, other: &str, judged: Answer) -> String {
    format!("{one} says `{}`, {other} says `{}`", answer.printed_for(&call), judged.printed_for(&call))
}
