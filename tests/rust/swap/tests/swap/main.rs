//! The crate in the place of the module: calling_code.rs over the module and over the crate's two allocators, the one that
//! checks its state at each call and the one that does not, on the same random histories inside document 01's domain.
//! Acceptances and addresses must be equal, but for a take of the last bytes and one that looks on where all records are
//! used, which the module refuses and the crate accepts: there a history leaves the domain and ends. Refusal numbers follow the Rust's drifted `free_size` and are
//! compared in tests/oracle, by a copy that counts rightly; here the crate's are held to the oracle's model.

#![allow(dead_code)] // of the oracle's files a part is used
#![allow(clippy::duplicate_mod)] // calling_code.rs is compiled three times on purpose

#[path = "../../../../oracle/driver/call.rs"]
mod call;
#[path = "../../../../oracle/driver/domain.rs"]
mod domain;
#[path = "../../../../oracle/driver/generate.rs"]
mod generate;
#[path = "../../../../oracle/driver/kind.rs"]
mod kind;
#[path = "../../../../oracle/driver/profile.rs"]
mod profile;
#[path = "../../../../oracle/driver/rng.rs"]
mod rng;
#[path = "../../../../oracle/driver/shape.rs"]
mod shape;

#[path = "."]
mod with_the_module {
    use original::memory_allocator as allocator;
    #[path = "calling_code.rs"]
    pub mod calling_code;
}

#[path = "."]
mod with_the_crate {
    use cinghjalofa as allocator;
    #[path = "calling_code.rs"]
    pub mod calling_code;
}

#[path = "."]
mod with_the_unchecked_one {
    mod allocator {
        pub use cinghjalofa::{MemoryError, UncheckedAllocator as MemoryAllocator};
    }
    #[path = "calling_code.rs"]
    pub mod calling_code;
}

use call::{Answer, Call};
use domain::{Model, Outside};
use generate::Generator;
use kind::Kind;
use profile::PROFILES;
use rng::Rng;
use with_the_crate::calling_code as the_crate;
use with_the_module::calling_code as the_module;
use with_the_unchecked_one::calling_code as the_unchecked_one;

const HISTORIES: u64 = 900;
const MOST_CALLS_IN_A_HISTORY: u64 = 240;
/// Proposals outside the domain, in a row, after which a history ends.
const PATIENCE: usize = 50;

#[test]
fn the_same_calling_code_sees_the_same_answers() {
    let mut seen = Vec::new();
    for number in 0..HISTORIES {
        play_history(number, &mut seen);
    }
    let unseen: Vec<_> = Kind::ALL.iter().filter(|kind| !seen.contains(kind)).collect();
    assert!(unseen.is_empty(), "the histories never reached {unseen:?} and say nothing about it");
}

fn play_history(number: u64, seen: &mut Vec<Kind>) {
    let profile = &PROFILES[number as usize % PROFILES.len()];
    let mut generator = Generator::new(profile, Rng::for_history(2, number));
    let (mut model, mut most_the_module_counts) = (Model::new(), 0);
    let (mut history, mut outside) = (Vec::new(), 0);
    the_module::reset();
    the_crate::reset();
    the_unchecked_one::reset();
    let length = generator.history_length(MOST_CALLS_IN_A_HISTORY) as usize;
    while history.len() < length && outside < PATIENCE {
        let call = generator.propose(&model);
        let step = match model.step(call) {
            Ok(step) => step,
            Err(Outside::TakesTheLastBytes { kind, address } | Outside::LooksOn { kind, address }) => {
                history.push(call);
                part(&history, call, Answer::Accepted(address));
                note(kind, seen);
                return;
            }
            Err(_) => {
                outside += 1;
                continue;
            }
        };
        most_the_module_counts += counted_by_the_module(call);
        if most_the_module_counts >= 1 << 64 {
            return;
        }
        outside = 0;
        history.push(call);
        compare(&history, call, step.answer());
        model.apply(call, &step);
        generator.accepted(call, step.answer());
        note(step.kind, seen);
    }
}

fn note(kind: Kind, seen: &mut Vec<Kind>) {
    if !seen.contains(&kind) {
        seen.push(kind);
    }
}

/// A free adds its size twice there; once 2^64 is reached the module is no judge.
fn counted_by_the_module(call: Call) -> u128 {
    match call {
        Call::Free { size, .. } => 2 * size as u128,
        _ => 0,
    }
}

fn compare(history: &[Call], call: Call, foreseen: Answer) {
    let (module, ours) = (the_module::play(call), the_crate::play(call));
    let both_refuse = matches!((module, ours), (Answer::Refused(_), Answer::Refused(_)));
    assert!(
        module == ours || both_refuse,
        "the module answers {module:?}, the crate {ours:?}, to the last of\n{}",
        lines(history)
    );
    assert_eq!(ours, foreseen, "the crate's answer, and the model's, to the last of\n{}", lines(history));
    let unchecked = the_unchecked_one::play(call);
    assert_eq!(unchecked, foreseen, "the unchecked answer, and the model's, to the last of\n{}", lines(history));
}

fn part(history: &[Call], call: Call, foreseen: Answer) {
    let (module, ours) = (the_module::play(call), the_crate::play(call));
    let module_refuses = matches!(module, Answer::Refused(_));
    assert!(module_refuses, "the module answers {module:?} to the last of\n{}", lines(history));
    assert_eq!(ours, foreseen, "the crate's answer, and the model's, to the last of\n{}", lines(history));
    let unchecked = the_unchecked_one::play(call);
    assert_eq!(unchecked, foreseen, "the unchecked answer, and the model's, to the last of\n{}", lines(history));
}

fn lines(history: &[Call]) -> String {
    history.iter().map(|call| format!("{call}\n")).collect()
}
