//! One history played on the port and on the judges side by side, everything compared after every call.

use crate::bench::{Bench, NoRuling, Ruling};
use crate::broken::Breakage;
use crate::call::{Answer, Call};
use crate::domain::Outside;
use crate::image;
use crate::kind::Kind;
use crate::port::Port;

pub struct Players {
    pub bench: Bench,
    port: Port,
    breakage: Option<Breakage>,
}

pub enum Played {
    Agreed {
        kind: Kind,
        answer: Answer,
        with_untouched: bool,
    },
    /// Not played, or by copies alone: nothing has changed.
    Outside(Outside),
    Mismatch(String),
}

impl Players {
    /// `breakage`: spoils the port on purpose, to see the comparison notice.
    pub fn new(breakage: Option<Breakage>) -> Players {
        Players { bench: Bench::new(), port: Port::new(), breakage }
    }

    pub fn copy(&self) -> Players {
        Players { bench: self.bench.copy(), port: self.port.clone(), breakage: self.breakage }
    }

    pub fn play(&mut self, call: Call) -> Played {
        let ruling = match self.bench.play(call) {
            Ok(ruling) => ruling,
            Err(NoRuling::Outside(why)) => {
                return match self.parts(call, why) {
                    Ok(()) => Played::Outside(why),
                    Err(text) => Played::Mismatch(format!("at `{call}` (outside the domain): {text}")),
                };
            }
            Err(NoRuling::Quarrel(text)) => return Played::Mismatch(format!("the judges differ at {text}")),
        };
        match self.port_follows(call, &ruling) {
            Ok(()) => {
                Played::Agreed { kind: ruling.kind, answer: ruling.answer, with_untouched: ruling.with_untouched }
            }
            Err(text) => Played::Mismatch(format!("at `{call}` ({}): {text}", ruling.kind.text())),
        }
    }

    /// Where a history leaves the domain by a request of document 02 it is known what each side does. Copies are asked.
    fn parts(&self, call: Call, why: Outside) -> Result<(), String> {
        match (why, call) {
            (Outside::TakesTheLastBytes { address, .. }, Call::Allocate { .. }) => self.empties(call, 3, address),
            (Outside::TakesTheLastBytes { address, .. }, _) => self.empties(call, 1, address),
            (Outside::LooksOn { address, .. }, Call::Allocate { size, .. }) => self.looks_on(call, address, size),
            _ => Ok(()),
        }
    }

    /// The Rust refuses to give its last bytes; the port gives them, and its image is that of the empty allocator, byte for byte, but for the lowest
    /// figure, which is 0 then.
    fn empties(&self, call: Call, habit: u8, address: u64) -> Result<(), String> {
        self.bench.refuses_by_habit(call, habit)?;
        if self.accepting(call, address)?.image != image::with_lowest(Port::new().image, 0) {
            return Err("the last bytes are out, and the image of the port is not that of a new one".to_string());
        }
        Ok(())
    }

    /// The Rust refuses for want of a record; the port takes the bytes at `address`, and holds what the Rust would hold had they been
    /// reserved.
    fn looks_on(&self, call: Call, address: u64, size: u64) -> Result<(), String> {
        self.bench.refuses_by_habit(call, 1)?;
        let shape = self.accepting(call, address)?.shape()?;
        let due = self.bench.shape_after(Call::Reserve { start: address, size, order: 0 })?;
        if !shape.same_links(&due) {
            return Err(shape.describe_difference("the port", &due, "the counting copy after a reserve"));
        }
        if shape.total != due.total {
            return Err(format!("total: the port {}, the counting copy after a reserve {}", shape.total, due.total));
        }
        Ok(())
    }

    /// A copy of the port, after a call that it must accept with this address.
    fn accepting(&self, call: Call, address: u64) -> Result<Port, String> {
        let mut port = self.port.clone();
        let answer = port.play(call);
        if let (Some(breakage), true) = (self.breakage, answer.is_accepted()) {
            breakage.spoil(&self.port, call, &mut port);
        }
        if answer != Answer::Accepted(address) {
            let (answer, due) = (answer.printed_for(&call), Answer::Accepted(address).printed_for(&call));
            return Err(format!("answer: the port `{answer}`, due is `{due}`"));
        }
        Ok(port)
    }

    fn port_follows(&mut self, call: Call, ruling: &Ruling) -> Result<(), String> {
        let before = self.port.clone();
        let answer = self.port.play(call);
        if let (Some(breakage), true) = (self.breakage, answer.is_accepted()) {
            breakage.spoil(&before, call, &mut self.port);
        }
        let rust = if ruling.with_untouched { "the Rust" } else { "the counting copy" };
        if answer != ruling.answer {
            let (answer, ruled) = (answer.printed_for(&call), ruling.answer.printed_for(&call));
            return Err(format!("answer: the port `{answer}`, {rust} `{ruled}`"));
        }
        if !answer.is_accepted() && before.image != self.port.image {
            return Err("the port refused and yet changed bytes of the image".to_string());
        }
        let shape = self.port.shape()?;
        if !shape.same_links(&ruling.shape) {
            return Err(shape.describe_difference("the port", &ruling.shape, rust));
        }
        if shape.total != ruling.shape.total {
            return Err(format!("total: the port {}, the counting copy {}", shape.total, ruling.shape.total));
        }
        Ok(())
    }
}
