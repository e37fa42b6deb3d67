//! The least time of many rounds. In each round every contender plays once, so that all see the same weather; and the
//! least is taken of each short stretch of calls, so that a slow contender finds as many quiet moments as a quick one.

use std::time::{Duration, Instant};

use crate::contenders::Contender;
use crate::workload::Workload;

pub struct Effort {
    pub calls: usize,
    /// The calls that are timed together.
    pub stretch: usize,
    pub rounds: usize,
}

/// The least time of each contender, in their order; an error where an answer is not the one that is due.
pub fn least_times(
    workload: &Workload,
    contenders: &mut [Box<dyn Contender>],
    effort: &Effort,
) -> Result<Vec<Duration>, String> {
    let stretches = workload.history.stretches(effort.stretch).count();
    let mut least = vec![vec![Duration::MAX; stretches]; contenders.len()];
    let mut answers = vec![0; workload.answers.len()];
    for _ in 0..effort.rounds {
        for (contender, least) in contenders.iter_mut().zip(&mut least) {
            play_round(contender.as_mut(), workload, effort.stretch, &mut answers, least);
            check(contender.as_ref(), workload, &answers)?;
        }
    }
    Ok(least.iter().map(|stretches| stretches.iter().sum()).collect())
}

fn play_round(
    contender: &mut dyn Contender,
    workload: &Workload,
    stretch: usize,
    answers: &mut [i64],
    least: &mut [Duration],
) {
    contender.reset();
    contender.play(workload.opening.whole(), answers);
    answers.fill(i64::MIN);
    let stretches = workload.history.stretches(stretch).zip(answers.chunks_mut(stretch));
    for ((stretch, answers), least) in stretches.zip(least) {
        let began = Instant::now();
        contender.play(stretch, answers);
        *least = began.elapsed().min(*least);
    }
}

fn check(contender: &dyn Contender, workload: &Workload, answers: &[i64]) -> Result<(), String> {
    let due = workload.answers.iter().zip(answers).zip(&workload.history.calls);
    for (at, ((&due, &given), call)) in due.enumerate() {
        let another_refusal = contender.numbers_drift() && due < 0 && (-4..0).contains(&given);
        if given != due && !another_refusal {
            let name = contender.name();
            return Err(format!("{name} answers {given} to call {at}, `{call}`, where {due} is due"));
        }
    }
    Ok(())
}
