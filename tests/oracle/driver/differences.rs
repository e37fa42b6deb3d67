//! Plays the table of differences on the untouched Rust and on the port, and holds each to what the table says of it.

use crate::call::{Answer, Call};
use crate::domain::Model;
use crate::judges::Untouched;
use crate::port::Port;
use crate::shape::Shape;
use crate::table::{Deeds, Difference};

/// Prints each case that is not as the table says; the number of those.
pub fn check(table: &[Difference]) -> usize {
    let mut wrong = 0;
    for difference in table {
        for what in [check_domain(difference), check_rust(difference), check_port(difference)].into_iter().flatten() {
            println!("DIFFERENCE {} is not as the table says: {what}", difference.name);
            wrong += 1;
        }
    }
    wrong
}

fn check_domain(difference: &Difference) -> Option<String> {
    let mut model = Model::new();
    let mut left = None;
    for &call in opening(difference) {
        match model.step(call) {
            Ok(step) => model.apply(call, &step),
            Err(why) => return Some(format!("the opening leaves the domain at `{call}`: {why:?}")),
        }
    }
    for (at, &call) in difference.calls.iter().enumerate() {
        match model.step(call) {
            Ok(step) => model.apply(call, &step),
            Err(_) => {
                left = Some(at + 1);
                break;
            }
        }
    }
    let told = difference.leaves_domain_at;
    (left != told).then(|| format!("the history leaves the domain at call {left:?}, the table says {told:?}"))
}

fn check_rust(difference: &Difference) -> Option<String> {
    let mut rust = Untouched::new();
    match answers(difference, |call| rust.play(call)) {
        Ok(answers) => compare("the untouched Rust", &difference.calls, answers, &rust.shape(), &difference.rust),
        Err(what) => Some(format!("the untouched Rust: {what}")),
    }
}

fn check_port(difference: &Difference) -> Option<String> {
    let mut port = Port::new();
    let played = answers(difference, |call| port.play(call)).and_then(|answers| Ok((answers, port.shape()?)));
    match played {
        Ok((answers, shape)) => compare("the port", &difference.calls, answers, &shape, &difference.port),
        Err(what) => Some(format!("the port: {what}")),
    }
}

fn opening(difference: &Difference) -> &[Call] {
    difference.opening.as_ref().map_or(&[], |opening| &opening.calls[..])
}

/// The answers to the calls, once all of the opening has been accepted.
fn answers(difference: &Difference, mut play: impl FnMut(Call) -> Answer) -> Result<Vec<Answer>, String> {
    for &call in opening(difference) {
        let answer = play(call);
        if answer != Answer::Accepted(0) {
            return Err(format!("`{call}` of the opening is answered `{}`", answer.printed_for(&call)));
        }
    }
    Ok(difference.calls.iter().map(|&call| play(call)).collect())
}

fn compare(side: &str, calls: &[Call], answers: Vec<Answer>, shape: &Shape, told: &Deeds) -> Option<String> {
    if answers != told.answers {
        let (given, told) = (print_answers(calls, &answers), print_answers(calls, &told.answers));
        return Some(format!("{side} answers {given}; the table says {told}"));
    }
    if let Some(list) = told.list.as_ref().filter(|list| **list != shape.listing()) {
        return Some(format!("{side} lists {:?}; the table says {list:?}", shape.listing()));
    }
    let total = told.total.filter(|&total| total != shape.total)?;
    Some(format!("{side} has total {}; the table says {total}", shape.total))
}

/// The table as Markdown, for docs/DIFFERENCES.md.
pub fn print_markdown(table: &[Difference]) {
    println!("| difference | calls, from empty | untouched Rust | port | why |");
    println!("|---|---|---|---|---|");
    for difference in table {
        let calls: Vec<String> = difference.calls.iter().map(|call| format!("`{call}`")).collect();
        let opening = difference.opening.as_ref().map_or(String::new(), |opening| format!("{}; then ", opening.text));
        let rust = print_deeds(&difference.calls, &difference.rust);
        let port = print_deeds(&difference.calls, &difference.port);
        println!("| {} | {opening}{} | {rust} | {port} | {} |", difference.topic, calls.join(", "), difference.why);
    }
}

fn print_deeds(calls: &[Call], deeds: &Deeds) -> String {
    let mut text = print_answers(calls, &deeds.answers);
    if let Some(list) = &deeds.list {
        let ranges: Vec<String> = list.iter().map(|(start, end)| format!("{start}-{end}")).collect();
        text += &format!("; lists {}", if ranges.is_empty() { "nothing".to_string() } else { ranges.join(" ") });
    }
    if let Some(total) = deeds.total {
        text += &format!("; total {total}");
    }
    text
}

fn print_answers(calls: &[Call], answers: &[Answer]) -> String {
    let printed: Vec<String> =
        calls.iter().zip(answers).map(|(call, answer)| format!("`{}`", answer.printed_for(call))).collect();
    printed.join(", ")
}
