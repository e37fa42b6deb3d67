//! The cases of the register of holders, holders.txt beside this file, whose head says what its lines are. Each program that plays them
//! includes this file.

#![allow(dead_code)] // each uses a part

pub struct Case {
    pub name: String,
    /// Where the case says how many.
    pub records: Option<usize>,
    pub entries: Option<usize>,
    pub lines: Vec<Line>,
    /// Holder, first and last byte of the entries, by number; those past the last are unused.
    pub left: Vec<(u64, u64, u64)>,
}

pub enum Line {
    /// A letter, its numbers, and the answer: an address or 0, or minus the refusal.
    Call(char, Vec<u64>, i64),
    /// What a holder holds, as first and last byte, by address.
    Held(u64, Vec<(u64, u64)>),
    /// The free ranges, by address.
    Free(Vec<(u64, u64)>),
}

/// What a case has where it does not say.
pub const RECORDS: usize = 8;
pub const ENTRIES: usize = 4;

impl Case {
    /// Whether it is the same of any allocator that has more records and entries.
    pub fn is_of_any_size(&self) -> bool {
        self.records.is_none() && self.entries.is_none()
    }
}

pub fn read(path: &str) -> Result<Vec<Case>, String> {
    let text = std::fs::read_to_string(path).map_err(|problem| format!("{path}: {problem}"))?;
    let mut cases = Vec::new();
    for line in text.lines().filter(|line| !line.is_empty() && !line.starts_with('#')) {
        add(&mut cases, line).ok_or_else(|| format!("{path}: a line that cannot be read: {line}"))?;
    }
    Ok(cases)
}

fn add(cases: &mut Vec<Case>, line: &str) -> Option<()> {
    let (word, rest) = line.split_once(' ')?;
    if word == "case" {
        let name = rest.to_string();
        cases.push(Case { name, records: None, entries: None, lines: Vec::new(), left: Vec::new() });
        return Some(());
    }
    let case = cases.last_mut()?;
    match word {
        "records" => case.records = Some(rest.parse().ok()?),
        "entries" => case.entries = Some(rest.parse().ok()?),
        "left" => case.left = numbers(rest)?.chunks(3).map(|of| (of[0], of[1], of[2])).collect(),
        _ => case.lines.push(read_line(word, rest)?),
    }
    Some(())
}

fn read_line(word: &str, rest: &str) -> Option<Line> {
    let (asked, answer) = rest.split_once('=')?;
    let (asked, ranges) = (numbers(asked)?, numbers(answer));
    let pairs = |numbers: Vec<u64>| numbers.chunks(2).map(|of| (of[0], of[1])).collect();
    match (word, &asked[..]) {
        ("o", [_, _]) | ("a" | "f", [_, _, _]) | ("r", [_, _, _, _]) => {
            Some(Line::Call(word.chars().next()?, asked, answer.trim().parse().ok()?))
        }
        ("h", &[holder]) => Some(Line::Held(holder, pairs(ranges?))),
        ("l", []) => Some(Line::Free(pairs(ranges?))),
        _ => None,
    }
}

fn numbers(text: &str) -> Option<Vec<u64>> {
    text.split(' ').filter(|word| !word.is_empty() && *word != "|").map(|word| word.parse().ok()).collect()
}
