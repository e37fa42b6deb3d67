//! usage: bench [--smoke]
//! Plays the same calls by every contender and compares every answer. Prints lines of fields split by tabs:
//! `processor`, its name; `effort`, rounds, calls, calls timed together and how far the number of ranges wanders; then for each
//! number of ranges and each contender `ratio`, its time as a multiple of the Rust's on mixed calls, and `pair`, on pages that are
//! allocated and freed at once; for each contender `growth`, its time for mixed calls around the most ranges as a multiple of that
//! around the fewest; `length`, for lists of so many calls; and `long`, for one list of so many calls, with its free ranges and
//! the rounds.
//! With --smoke one short round, and for each number of ranges and each contender `equal`, how many answers were compared.
//! Under emulation nothing is measured.

mod contenders;
mod machine;
mod measure;
mod plain;
mod workload;

// The calls, and the model that keeps them inside the domain where the Rust is the judge, are the oracle's.
#[path = "../../tests/oracle/driver/call.rs"]
#[allow(dead_code)]
mod call;
#[path = "../../tests/oracle/driver/domain.rs"]
#[allow(dead_code)]
mod domain;
#[path = "../../tests/oracle/driver/kind.rs"]
#[allow(dead_code)]
mod kind;
#[path = "../../tests/oracle/driver/rng.rs"]
#[allow(dead_code)]
mod rng;
#[path = "../../tests/oracle/driver/shape.rs"]
#[allow(dead_code)]
mod shape;

use std::process::ExitCode;

// The C calls, as any Rust program has them.
#[path = "../../include/cinghjalofa.rs"]
#[allow(dead_code)]
mod library;

use contenders::Contender;
use measure::Effort;
use workload::Workload;

const FREE_RANGES: [usize; 3] = [5, 50, 250];
const SMOKE: Effort = Effort { calls: 2_000, stretch: 200, rounds: 1 };
const FULL: Effort = Effort { calls: 20_000, stretch: 200, rounds: 100 };

/// Lists of several lengths, and a long one, around this many free ranges.
const RANGES_OF_LISTS: usize = 50;
const LENGTHS: [usize; 4] = [1, 10, 100, 10_000];
const LENGTHS_SMOKE: Effort = Effort { calls: 2_000, stretch: 2_000, rounds: 1 };
const LENGTHS_FULL: Effort = Effort { calls: 20_000, stretch: 10_000, rounds: 60 };
const LONG_SMOKE: Effort = Effort { calls: 20_000, stretch: 20_000, rounds: 1 };
const LONG_FULL: Effort = Effort { calls: 1_000_000, stretch: 1_000_000, rounds: 20 };

fn main() -> ExitCode {
    let words: Vec<String> = std::env::args().skip(1).collect();
    let outcome = match words.iter().map(String::as_str).collect::<Vec<_>>()[..] {
        [] => measure_all(),
        ["--smoke"] => compare_all(),
        _ => Err(format!("no such words: {words:?}; there is --smoke")),
    };
    match outcome {
        Ok(()) => ExitCode::SUCCESS,
        Err(what) => {
            eprintln!("bench: {what}");
            ExitCode::FAILURE
        }
    }
}

fn compare_all() -> Result<(), String> {
    for ranges in FREE_RANGES {
        for workload in [Workload::around(ranges, SMOKE.calls), Workload::pairs(ranges, SMOKE.calls)] {
            let mut contenders = contenders::all();
            measure::least_times(&workload, &mut contenders, &SMOKE)?;
            print_equal(ranges, &contenders, &SMOKE);
        }
    }
    for (lengths, effort) in [(&LENGTHS[..], &LENGTHS_SMOKE), (&[LONG_SMOKE.calls], &LONG_SMOKE)] {
        let mut contenders = contenders::with_lists(lengths);
        let workload = Workload::around(RANGES_OF_LISTS, effort.calls);
        measure::least_times(&workload, &mut contenders, effort)?;
        print_equal(RANGES_OF_LISTS, &contenders, effort);
    }
    Ok(())
}

fn print_equal(ranges: usize, contenders: &[Box<dyn Contender>], effort: &Effort) {
    for contender in contenders {
        println!("equal\t{ranges}\t{}\t{}", contender.name(), effort.calls);
    }
}

fn measure_all() -> Result<(), String> {
    if let Some(sign) = machine::sign_of_emulation() {
        return Err(format!("{sign}: this is an emulator, where a time says nothing; --smoke compares the answers"));
    }
    println!("processor\t{}", machine::processor());
    println!("effort\t{}\t{}\t{}\t{}", FULL.rounds, FULL.calls, FULL.stretch, workload::SLACK);
    let mut of_fewest = Vec::new();
    let mut of_most = Vec::new();
    for ranges in FREE_RANGES {
        of_most = times(&Workload::around(ranges, FULL.calls), &mut contenders::all(), &FULL)?;
        print_ratios("ratio", ranges, &of_most);
        if of_fewest.is_empty() {
            of_fewest.clone_from(&of_most);
        }
    }
    for ranges in FREE_RANGES {
        print_ratios("pair", ranges, &times(&Workload::pairs(ranges, FULL.calls), &mut contenders::all(), &FULL)?);
    }
    for ((contender, fewest), most) in contenders::all().iter().zip(of_fewest).zip(of_most) {
        println!("growth\t{}\t{:.2}", contender.name(), most / fewest);
    }
    measure_lists(&LENGTHS, &LENGTHS_FULL, |length, name, ratio| println!("length\t{length}\t{name}\t{ratio:.2}"))?;
    measure_lists(&[LONG_FULL.calls], &LONG_FULL, |length, name, ratio| {
        println!("long\t{length}\t{RANGES_OF_LISTS}\t{}\t{name}\t{ratio:.2}", LONG_FULL.rounds);
    })
}

fn print_ratios(kind: &str, ranges: usize, times: &[f64]) {
    for (contender, time) in contenders::all().iter().zip(times) {
        println!("{kind}\t{ranges}\t{}\t{:.2}", contender.name(), time / times[0]);
    }
}

fn measure_lists(lengths: &[usize], effort: &Effort, print: impl Fn(usize, &str, f64)) -> Result<(), String> {
    let mut contenders = contenders::with_lists(lengths);
    let times = times(&Workload::around(RANGES_OF_LISTS, effort.calls), &mut contenders, effort)?;
    for ((contender, time), length) in contenders.iter().zip(&times).skip(1).zip(lengths.iter().cycle()) {
        print(*length, contender.name(), time / times[0]);
    }
    Ok(())
}

/// The time of each contender, in seconds.
fn times(workload: &Workload, contenders: &mut [Box<dyn Contender>], effort: &Effort) -> Result<Vec<f64>, String> {
    let times = measure::least_times(workload, contenders, effort)?;
    Ok(times.iter().map(std::time::Duration::as_secs_f64).collect())
}
