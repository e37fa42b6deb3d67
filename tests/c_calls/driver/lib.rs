//! The C calls from Rust: `driver contract CASES`, `driver damages`, `driver sweep`, `driver older` or `driver holders`.
//! Exit status 0: all as it must be; 1: something was not; 2: it could not be tried.

#[path = "../../cases.rs"]
mod cases;
mod contract;
mod damages;
mod fields;
#[path = "../../holder_image.rs"]
mod holder_image;
#[path = "../../holder_model.rs"]
mod holder_model;
#[path = "../../holder_random.rs"]
mod holder_random;
mod holders;
mod judge;
mod lent;
mod older;
mod play;
mod report;
mod rich;
mod sweep;

use report::Report;
use std::process::ExitCode;

/// The whole of the program.
pub fn run() -> ExitCode {
    let words: Vec<String> = std::env::args().skip(1).collect();
    let words: Vec<&str> = words.iter().map(String::as_str).collect();
    let mut report = Report::new();
    let ran = match words[..] {
        ["contract", path] => contract::run(&mut report).and_then(|()| play::run(path, &mut report)),
        ["damages"] => damages::run(&mut report),
        ["sweep"] => sweep::run(&mut report),
        ["older"] => older::run(&mut report),
        ["holders"] => holders::run(&mut report),
        _ => Err("usage: driver contract CASES | driver damages|sweep|older|holders".to_string()),
    };
    report.finish(ran)
}
