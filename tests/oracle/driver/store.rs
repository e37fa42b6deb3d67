//! Writes the stored histories. It asks the judges alone; no port is linked here.

#![allow(dead_code)] // the programs share files, and each uses a part of them

mod bench;
mod call;
#[path = "../../cases.rs"]
mod cases;
mod domain;
mod generate;
mod judges;
mod kind;
mod named;
mod profile;
mod rng;
mod shape;
mod stored;

use std::path::Path;
use std::process::ExitCode;

use bench::{Bench, NoRuling};
use generate::Generator;
use named::Named;
use profile::{Profile, PROFILES};
use rng::Rng;
use stored::{StoredHistory, HEADER};

const SEED: u64 = 1;
const HISTORIES_PER_PROFILE: u64 = 20;
const MOST_CALLS_IN_A_HISTORY: u64 = 22;
const PATIENCE: usize = 50;

fn main() -> ExitCode {
    judges::silence_assertions();
    let words: Vec<String> = std::env::args().skip(1).collect();
    let (folder, table) = match &words[..] {
        [folder, table] => (folder, table),
        _ => {
            eprintln!("store: name the folder to write to, and the table of cases");
            return ExitCode::from(2);
        }
    };
    match store_all(Path::new(folder), table) {
        Ok(()) => ExitCode::SUCCESS,
        Err(what) => {
            eprintln!("store: {what}");
            ExitCode::FAILURE
        }
    }
}

fn store_all(folder: &Path, table: &str) -> Result<(), String> {
    let table = cases::read(table)?;
    let named: Result<Vec<_>, String> = named::histories(&table)?.iter().map(judge).collect();
    write_file(folder, "cases", &named?)?;
    for (number, profile) in PROFILES.iter().enumerate() {
        let histories = (0..HISTORIES_PER_PROFILE).map(|at| at * PROFILES.len() as u64 + number as u64);
        let judged: Result<Vec<_>, String> = histories.map(|history| judge_random(profile, history)).collect();
        write_file(folder, profile.name, &judged?)?;
    }
    Ok(())
}

fn write_file(folder: &Path, name: &str, histories: &[StoredHistory]) -> Result<(), String> {
    let text: String = histories.iter().map(StoredHistory::to_text).collect();
    let path = folder.join(format!("{name}.txt"));
    let calls: usize = histories.iter().map(|history| history.calls.len()).sum();
    println!("{name}: {} histories, {calls} calls", histories.len());
    std::fs::write(&path, format!("{HEADER}{text}")).map_err(|e| format!("{}: {e}", path.display()))
}

/// What the Rust answers to a case must be what the table says.
fn judge(history: &Named) -> Result<StoredHistory, String> {
    let mut bench = Bench::new();
    let name = history.name;
    let mut stored = StoredHistory::new(name.to_string());
    for &(call, told) in &history.calls {
        match bench.play(call) {
            Ok(ruling) if ruling.answer != told => {
                let (answer, told) = (ruling.answer.printed_for(&call), told.printed_for(&call));
                return Err(format!("{name}: `{call}`: the Rust says `{answer}`, the table `{told}`"));
            }
            Ok(ruling) => stored.add(call, ruling.answer, &ruling.shape),
            Err(NoRuling::Outside(why)) => return Err(format!("{name}: `{call}` leaves the domain: {why:?}")),
            Err(NoRuling::Quarrel(text)) => return Err(format!("{name}: the judges differ at {text}")),
        }
    }
    Ok(stored)
}

fn judge_random(profile: &'static Profile, number: u64) -> Result<StoredHistory, String> {
    let mut generator = Generator::new(profile, Rng::for_history(SEED, number));
    let mut bench = Bench::new();
    let mut stored = StoredHistory::new(format!("{}-{number}", profile.name));
    let mut refused_proposals = 0;
    let length = generator.history_length(MOST_CALLS_IN_A_HISTORY) as usize;
    while stored.calls.len() < length && refused_proposals < PATIENCE {
        let call = generator.propose(&bench.model);
        match bench.play(call) {
            Ok(ruling) => {
                refused_proposals = 0;
                generator.accepted(call, ruling.answer);
                stored.add(call, ruling.answer, &ruling.shape);
            }
            Err(NoRuling::Outside(_)) => refused_proposals += 1,
            Err(NoRuling::Quarrel(text)) => return Err(format!("{}: the judges differ at {text}", stored.name)),
        }
    }
    Ok(stored)
}
