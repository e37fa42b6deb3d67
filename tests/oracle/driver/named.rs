//! Histories that are stored by name: the cases of the table, each as far as the Rust can judge it.

use crate::call::{Answer, Call};
use crate::cases::{Case, Line, Table};
use crate::domain::Model;

pub struct Named<'a> {
    pub name: &'a str,
    /// Each with the table's answer.
    pub calls: Vec<(Call, Answer)>,
}

/// One for each case with calls inside the domain, but none that another begins with.
pub fn histories(table: &Table) -> Result<Vec<Named<'_>>, String> {
    let all: Result<Vec<Named>, String> = table.playable().map(judged_part).collect();
    let all = all?;
    let is_kept = |at: usize| {
        let calls = &all[at].calls;
        let begins = |other: usize| all[other].calls.starts_with(calls);
        !(0..all.len()).any(|other| begins(other) && (all[other].calls.len() > calls.len() || other < at))
    };
    let kept: Vec<bool> = (0..all.len()).map(is_kept).collect();
    Ok(all.into_iter().zip(kept).filter(|(_, is_kept)| *is_kept).map(|(history, _)| history).collect())
}

/// The calls before the first one that is outside the domain, or that the Rust does not have.
fn judged_part(case: &Case) -> Result<Named<'_>, String> {
    let mut model = Model::new();
    let mut calls = Vec::new();
    for line in &case.lines {
        let call = match line {
            Line::Call(call) => call,
            _ => continue,
        };
        if matches!(call.word.as_str(), "p" | "q") {
            break;
        }
        let numbers: Vec<String> = call.numbers.iter().map(u64::to_string).collect();
        let asked: Call = format!("{} {}", call.word, numbers.join(" ")).parse()?;
        match model.step(asked) {
            Ok(step) => model.apply(asked, &step),
            Err(_) => break,
        }
        calls.push((asked, answer_of(call.answer)));
    }
    Ok(Named { name: &case.name, calls })
}

fn answer_of(number: i64) -> Answer {
    u64::try_from(number).map_or_else(|_| Answer::Refused(number.unsigned_abs() as u8), Answer::Accepted)
}
