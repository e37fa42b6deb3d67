//! The file format of stored histories: the calls with the Rust's answers, written once, replayed always.

use crate::call::{Answer, Call};
use crate::shape::Shape;

pub const HEADER: &str = "\
# Answers of the original Rust, written by `run.py make-stored` and replayed on the port by `run.py replay`.
# A history begins from the empty allocator with the line `history NAME`. Then one call a line:
#   CALL = ANSWER ; CHECKSUM
# CALL and ANSWER as the script program has them; CHECKSUM stands for the whole state after the call (shape.rs: total,
# first record, heads, and number, range and links of every enabled record). It ends with the free ranges by address:
# `list COUNT TOTAL`, then a line each with first and last byte.
";

pub struct StoredCall {
    pub call: Call,
    pub answer: Answer,
    pub checksum: u64,
}

pub struct StoredHistory {
    pub name: String,
    pub calls: Vec<StoredCall>,
    pub total: u64,
    pub ranges: Vec<(u64, u64)>,
}

impl StoredHistory {
    pub fn new(name: String) -> StoredHistory {
        StoredHistory { name, calls: Vec::new(), total: 0, ranges: Vec::new() }
    }

    /// One more call with its answer and the state that it leaves.
    pub fn add(&mut self, call: Call, answer: Answer, shape: &Shape) {
        self.calls.push(StoredCall { call, answer, checksum: shape.checksum() });
        self.total = shape.total;
        self.ranges = shape.listing();
    }

    pub fn to_text(&self) -> String {
        let mut text = format!("\nhistory {}\n", self.name);
        for stored in &self.calls {
            let answer = stored.answer.printed_for(&stored.call);
            text += &format!("{} = {answer} ; {:016x}\n", stored.call, stored.checksum);
        }
        text += &format!("list {} {}\n", self.ranges.len(), self.total);
        self.ranges.iter().for_each(|(start, end)| text += &format!("{start} {end}\n"));
        text
    }
}

/// The histories of one file, or the line that is not of the format.
pub fn parse(text: &str) -> Result<Vec<StoredHistory>, String> {
    let mut histories: Vec<StoredHistory> = Vec::new();
    let lines = text.lines().enumerate().filter(|(_, line)| !line.is_empty() && !line.starts_with('#'));
    for (at, line) in lines {
        let read = match (line.strip_prefix("history "), histories.last_mut()) {
            (Some(name), _) => {
                histories.push(StoredHistory::new(name.to_string()));
                Ok(())
            }
            (None, Some(history)) => parse_line(line, history),
            (None, None) => Err("a line before the first history".to_string()),
        };
        read.map_err(|what| format!("line {}: {what}", at + 1))?;
    }
    Ok(histories)
}

fn parse_line(line: &str, history: &mut StoredHistory) -> Result<(), String> {
    if let Some((call, rest)) = line.split_once(" = ") {
        let (answer, checksum) = rest.split_once(" ; ").ok_or("no checksum")?;
        let checksum = u64::from_str_radix(checksum, 16).map_err(|e| e.to_string())?;
        history.calls.push(StoredCall { call: call.parse()?, answer: Answer::parse(answer)?, checksum });
        return Ok(());
    }
    let number = |text: &str| text.parse::<u64>().map_err(|e| format!("{text}: {e}"));
    let fields: Vec<&str> = line.split(' ').collect();
    match fields[..] {
        ["list", _, total] => history.total = number(total)?,
        [start, end] => history.ranges.push((number(start)?, number(end)?)),
        _ => return Err(format!("`{line}` is neither a call nor a part of a listing")),
    }
    Ok(())
}
