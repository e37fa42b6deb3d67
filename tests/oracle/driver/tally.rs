//! What a run has reached: counted per call and kind of answer, and per order.

use crate::call::Call;
use crate::domain::{Outside, MAX_ORDER};
use crate::kind::Kind;

const ORDERS: usize = MAX_ORDER as usize + 1;

pub struct Tally {
    pub calls: u64,
    with_untouched: u64,
    per_kind: Vec<u64>,
    allocations_per_order: [u64; ORDERS],
    reserves_per_order: [u64; ORDERS],
}

impl Tally {
    pub fn new() -> Tally {
        Tally {
            calls: 0,
            with_untouched: 0,
            per_kind: vec![0; Kind::ALL.len()],
            allocations_per_order: [0; ORDERS],
            reserves_per_order: [0; ORDERS],
        }
    }

    pub fn count(&mut self, call: Call, kind: Kind, with_untouched: bool) {
        self.calls += 1;
        self.with_untouched += with_untouched as u64;
        self.per_kind[kind as usize] += 1;
        match call {
            Call::Allocate { order, .. } => self.allocations_per_order[order as usize] += 1,
            Call::Reserve { order, .. } => self.reserves_per_order[order as usize] += 1,
            Call::Free { .. } => {}
        }
    }

    /// Of the calls that leave the domain those that document 02 lets through are compared too: there it is known what each side does.
    pub fn count_outside(&mut self, call: Call, why: Outside) {
        if let Outside::TakesTheLastBytes { kind, .. } | Outside::LooksOn { kind, .. } = why {
            self.count(call, kind, false);
        }
    }

    pub fn print(&self) {
        println!("{} calls compared, {} of them with the untouched module as well", self.calls, self.with_untouched);
        for &kind in Kind::ALL {
            let count = self.per_kind[kind as usize];
            println!("{:>10}  {:<8} {}  {}", count, kind.call(), kind.number(), kind.text());
        }
    }

    /// The kinds of answer that were never given, in words.
    pub fn unreached_kinds(&self) -> Vec<String> {
        let unreached = Kind::ALL.iter().filter(|&&kind| self.per_kind[kind as usize] == 0);
        unreached.map(|kind| format!("{} answered {}: {}", kind.call(), kind.number(), kind.text())).collect()
    }

    /// The orders from 0 to 63 that were never asked for.
    pub fn unreached_orders(&self) -> Vec<String> {
        let both = [("allocate", &self.allocations_per_order), ("reserve", &self.reserves_per_order)];
        let unasked = both.iter().flat_map(|(call, counts)| {
            let orders = (0..ORDERS).filter(|&order| counts[order] == 0);
            orders.map(move |order| format!("{call} with order {order}"))
        });
        unasked.collect()
    }
}
