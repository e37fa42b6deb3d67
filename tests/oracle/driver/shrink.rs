//! From a history with a mismatch to a short one: calls are dropped as long as a mismatch stays and no call leaves the
//! domain.

use crate::broken::Breakage;
use crate::call::Call;
use crate::compare::{Played, Players};
use crate::domain::Outside;

pub struct Mismatch {
    /// Ends with the call at which the mismatch shows.
    pub history: Vec<Call>,
    pub difference: String,
}

pub enum Unplayed {
    Mismatch(Mismatch),
    Outside(Call, Outside),
}

/// Plays a history from the empty allocator until something is amiss.
pub fn find_mismatch(history: &[Call], breakage: Option<Breakage>) -> Result<(), Unplayed> {
    let mut players = Players::new(breakage);
    for (at, &call) in history.iter().enumerate() {
        match players.play(call) {
            Played::Agreed { .. } => {}
            Played::Outside(why) => return Err(Unplayed::Outside(call, why)),
            Played::Mismatch(difference) => {
                return Err(Unplayed::Mismatch(Mismatch { history: history[..=at].to_vec(), difference }));
            }
        }
    }
    Ok(())
}

pub fn shrink(found: Mismatch, breakage: Option<Breakage>) -> Mismatch {
    let mut shortest = found;
    let mut chunk = shortest.history.len() / 2;
    while chunk > 0 {
        match drop_chunk(&shortest.history, chunk, breakage) {
            Some(mismatch) => shortest = mismatch,
            None => chunk /= 2,
        }
        chunk = chunk.min(shortest.history.len());
    }
    shortest
}

/// The first shorter history with a mismatch that comes from dropping `chunk` calls in a row.
fn drop_chunk(history: &[Call], chunk: usize, breakage: Option<Breakage>) -> Option<Mismatch> {
    (0..=history.len() - chunk).find_map(|from| {
        let mut candidate = history.to_vec();
        candidate.drain(from..from + chunk);
        match find_mismatch(&candidate, breakage) {
            Err(Unplayed::Mismatch(mismatch)) => Some(mismatch),
            _ => None,
        }
    })
}

impl Mismatch {
    pub fn print(&self) {
        println!("MISMATCH. The shortest history found that shows it, {} calls:", self.history.len());
        self.history.iter().for_each(|call| println!("{call}"));
        println!("{}", self.difference);
    }
}
