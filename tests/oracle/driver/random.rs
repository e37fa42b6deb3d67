//! Random histories, one after another through all profiles, until enough calls have been compared.

use std::time::{Duration, Instant};

use crate::broken::Breakage;
use crate::call::Call;
use crate::compare::{Played, Players};
use crate::generate::Generator;
use crate::profile::PROFILES;
use crate::rng::Rng;
use crate::shrink::{shrink, Mismatch};
use crate::tally::Tally;

const MOST_CALLS_IN_A_HISTORY: u64 = 240;
/// Proposals outside the domain in a row after which a history ends.
const PATIENCE: usize = 50;
const BETWEEN_REPORTS: Duration = Duration::from_secs(5);

pub struct Random {
    pub seed: u64,
    /// The run ends with the history in which this many are reached.
    pub calls: u64,
    /// The number of the history to begin with.
    pub history: u64,
    pub breakage: Option<Breakage>,
}

impl Random {
    pub fn run(&self, tally: &mut Tally) -> Result<(), Mismatch> {
        let began = Instant::now();
        let mut reported = began;
        for history in self.history.. {
            if let Err(mismatch) = self.play_history(history, tally) {
                eprintln!(
                    "random: mismatch in history {history}; repeat it: random --seed {} --history {history} --calls 1",
                    self.seed
                );
                return Err(shrink(mismatch, self.breakage));
            }
            if tally.calls >= self.calls {
                eprintln!(
                    "random: {} calls in {:.1} s, seed {}",
                    tally.calls,
                    began.elapsed().as_secs_f64(),
                    self.seed
                );
                return Ok(());
            }
            if reported.elapsed() >= BETWEEN_REPORTS {
                reported = Instant::now();
                let speed = tally.calls as f64 / began.elapsed().as_secs_f64();
                eprintln!(
                    "random: {} of {} calls, {speed:.0} a second, seed {}, history {history}",
                    tally.calls, self.calls, self.seed
                );
            }
        }
        unreachable!("there are more histories than calls")
    }

    fn play_history(&self, number: u64, tally: &mut Tally) -> Result<(), Mismatch> {
        let profile = &PROFILES[(number % PROFILES.len() as u64) as usize];
        let mut generator = Generator::new(profile, Rng::for_history(self.seed, number));
        let mut players = Players::new(self.breakage);
        let mut history: Vec<Call> = Vec::new();
        let mut refused_proposals = 0;
        let length = generator.history_length(MOST_CALLS_IN_A_HISTORY) as usize;
        while history.len() < length && refused_proposals < PATIENCE {
            let call = generator.propose(&players.bench.model);
            match players.play(call) {
                Played::Outside(why) => {
                    refused_proposals += 1;
                    tally.count_outside(call, why);
                }
                Played::Mismatch(difference) => {
                    history.push(call);
                    return Err(Mismatch { history, difference });
                }
                Played::Agreed { kind, answer, with_untouched } => {
                    refused_proposals = 0;
                    history.push(call);
                    generator.accepted(call, answer);
                    tally.count(call, kind, with_untouched);
                }
            }
        }
        Ok(())
    }
}
