//! The live comparison: the port against the original Rust, both in this process.

#![allow(dead_code)] // the programs share files, and each uses a part of them

mod bench;
mod broken;
mod call;
mod compare;
mod differences;
mod domain;
mod exhaustive;
mod generate;
mod image;
mod judges;
mod kind;
mod options;
mod port;
mod profile;
mod random;
mod register;
mod rng;
mod shape;
mod shrink;
mod table;
mod tally;

use std::io::Read;
use std::process::ExitCode;

use broken::Breakage;
use exhaustive::Exhaustive;
use options::Options;
use random::Random;
use register::{Kept, Registers};
use shrink::Mismatch;
use tally::Tally;

const USAGE: &str =
    "live: exhaustive [--addresses N] [--depth N] [--unit-order N] | random [--calls N] [--seed N] [--history N] \
                     | holders [--calls N] [--seed N] | play < CALLS | differences --table FILE [--markdown yes] | broken";

fn main() -> ExitCode {
    judges::silence_assertions();
    let mut words = std::env::args().skip(1);
    let mode = words.next().unwrap_or_default();
    let outcome = Options::parse(words).and_then(|options| run(&mode, &options));
    match outcome {
        Ok(true) => ExitCode::SUCCESS,
        Ok(false) => ExitCode::FAILURE,
        Err(what) => {
            eprintln!("live {mode}: {what}");
            ExitCode::from(2)
        }
    }
}

/// Whether all is as it should be.
fn run(mode: &str, options: &Options) -> Result<bool, String> {
    let known: &[&str] = match mode {
        "exhaustive" => &["addresses", "depth", "unit-order"],
        "random" => &["calls", "seed", "history"],
        "holders" => &["calls", "seed"],
        "differences" => &["table", "markdown"],
        _ => &[],
    };
    options.only(known)?;
    match mode {
        "exhaustive" => run_exhaustive(options),
        "random" => run_random(options),
        "holders" => run_holders(options),
        "play" => play(),
        "differences" => check_differences(options),
        "broken" => Ok(catch_broken_ports()),
        _ => Err(format!("no such mode. {USAGE}")),
    }
}

fn run_exhaustive(options: &Options) -> Result<bool, String> {
    let (addresses, depth) = (options.number("addresses", 8)?, options.number("depth", 4)? as usize);
    let unit_order = options.number("unit-order", 0)?;
    if !(1..=64).contains(&addresses) || depth < 2 || unit_order > 40 {
        return Err("--addresses goes from 1 to 64, --depth from 2, --unit-order to 40".to_string());
    }
    let mut tally = Tally::new();
    let outcome = Exhaustive { unit_order, addresses, depth, breakage: None }.run(&mut tally);
    Ok(conclude(outcome, &tally, tally.unreached_kinds()))
}

fn run_random(options: &Options) -> Result<bool, String> {
    let (calls, history) = (options.number("calls", 200_000)?, options.number("history", 0)?);
    let seed = options.number("seed", 1)?;
    let mut tally = Tally::new();
    let outcome = Random { seed, calls, history, breakage: None }.run(&mut tally);
    let enough_for_all = calls >= 100_000;
    let unreached =
        if enough_for_all { [tally.unreached_kinds(), tally.unreached_orders()].concat() } else { Vec::new() };
    Ok(conclude(outcome, &tally, unreached))
}

fn run_holders(options: &Options) -> Result<bool, String> {
    let (calls, seed) = (options.number("calls", 50_000)?, options.number("seed", 1)?);
    let (mut tally, mut kept) = (Tally::new(), Kept::default());
    let outcome = Registers { seed, calls, breakage: None }.run(&mut tally, &mut kept);
    tally.print();
    kept.print();
    if let Err(what) = outcome {
        println!("MISMATCH: {what}");
        return Ok(false);
    }
    let unreached = if calls >= 50_000 { kept.unreached() } else { Vec::new() };
    unreached.iter().for_each(|what| println!("NEVER REACHED: {what}. The run says nothing about it"));
    Ok(unreached.is_empty())
}

/// The calls on standard input, for a history that a mismatch has printed.
fn play() -> Result<bool, String> {
    let mut text = String::new();
    std::io::stdin().read_to_string(&mut text).map_err(|e| e.to_string())?;
    let history: Result<Vec<call::Call>, String> = text.lines().map(str::parse).collect();
    let history = history?;
    match shrink::find_mismatch(&history, None) {
        Ok(()) => println!("{} calls, the port agrees with the Rust on all", history.len()),
        Err(shrink::Unplayed::Mismatch(mismatch)) => return Ok(print_mismatch(&mismatch)),
        Err(shrink::Unplayed::Outside(call, why)) => return Err(format!("`{call}` leaves the domain: {why:?}")),
    }
    Ok(true)
}

fn conclude(outcome: Result<(), Mismatch>, tally: &Tally, unreached: Vec<String>) -> bool {
    tally.print();
    if let Err(mismatch) = outcome {
        return print_mismatch(&mismatch);
    }
    unreached.iter().for_each(|what| println!("NEVER REACHED: {what}. The run says nothing about it"));
    unreached.is_empty()
}

fn print_mismatch(mismatch: &Mismatch) -> bool {
    mismatch.print();
    println!("Give these calls to `run.py play` to see it again.");
    false
}

fn check_differences(options: &Options) -> Result<bool, String> {
    let path = options.text("table").ok_or("name the table with --table FILE")?;
    let text = std::fs::read_to_string(path).map_err(|e| format!("{path}: {e}"))?;
    let table = table::parse(&text).map_err(|what| format!("{path}: {what}"))?;
    if options.text("markdown").is_some() {
        differences::print_markdown(&table);
    }
    let wrong = differences::check(&table);
    eprintln!("differences: {} cases, {wrong} not as the table says", table.len());
    Ok(wrong == 0 && !table.is_empty())
}

/// Each port that is broken on purpose must be noticed, by the short histories, by the random ones, and below a register.
fn catch_broken_ports() -> bool {
    let mut all_caught = true;
    for (breakage, mistake) in Breakage::ALL {
        let breakage = Some(breakage);
        let short = Exhaustive { unit_order: 0, addresses: 8, depth: 3, breakage }.run(&mut Tally::new());
        let random = Random { seed: 1, calls: 200_000, history: 0, breakage }.run(&mut Tally::new());
        let below = Registers { seed: 1, calls: 50_000, breakage }.run(&mut Tally::new(), &mut Kept::default());
        let print = |mismatch: Mismatch| mismatch.print();
        for (search, is_caught) in [
            ("exhaustive", short.map_err(print).is_err()),
            ("random", random.map_err(print).is_err()),
            ("holders", below.map_err(|what| println!("{}", what.lines().next().unwrap_or_default())).is_err()),
        ] {
            let said = if is_caught { "caught" } else { "NOT CAUGHT, the comparison is blind to it," };
            println!("{said} by {search}: {mistake}");
            all_caught &= is_caught;
        }
    }
    all_caught
}
