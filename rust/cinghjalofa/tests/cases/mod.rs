//! The table of cases, cases.txt beside this file, whose head says what its lines are. Each program that plays it includes this file.

#![allow(dead_code)] // each uses a part

pub struct Table {
    /// Those of the program.
    pub records: u64,
    pub cases: Vec<Case>,
}

pub struct Case {
    pub name: String,
    /// Where they are not the program's.
    pub records: Option<u64>,
    pub lines: Vec<Line>,
}

pub enum Line {
    Call(Call),
    /// The free ranges by address, as first and last byte.
    List {
        total: u64,
        ranges: Vec<(u64, u64)>,
    },
    /// The records by address and by size.
    Book {
        chain: Vec<u64>,
        shelf: Vec<u64>,
    },
}

pub struct Call {
    pub word: String,
    pub numbers: Vec<u64>,
    /// An address or 0; minus the refusal.
    pub answer: i64,
}

pub fn read(path: &str) -> Result<Table, String> {
    let text = std::fs::read_to_string(path).map_err(|problem| format!("{path}: {problem}"))?;
    let mut table = Table { records: 0, cases: Vec::new() };
    for line in text.lines().filter(|line| !line.is_empty() && !line.starts_with('#')) {
        table.add(line, 0).ok_or_else(|| format!("{path}: a line that cannot be read: {line}"))?;
    }
    Ok(table)
}

impl Table {
    /// The cases of an allocator with the program's records.
    pub fn playable(&self) -> impl Iterator<Item = &Case> {
        self.cases.iter().filter(|case| case.records.is_none())
    }

    fn add(&mut self, line: &str, k: u64) -> Option<()> {
        let (word, rest) = line.split_once(' ').unwrap_or((line, ""));
        match word {
            "section" => Some(()),
            "case" => {
                self.cases.push(Case { name: rest.to_string(), records: None, lines: Vec::new() });
                Some(())
            }
            "each" => self.add_each(rest),
            "f" | "a" | "r" | "p" | "q" => {
                let (numbers, answer) = rest.split_once(" = ")?;
                let answer = i64::try_from(self.number(answer, k)?).ok()?;
                self.push(Line::Call(Call { word: word.to_string(), numbers: self.numbers(numbers, k)?, answer }))
            }
            _ => self.state(word, &self.numbers(rest, k)?),
        }
    }

    fn add_each(&mut self, rest: &str) -> Option<()> {
        let (first, rest) = rest.split_once(' ')?;
        let (last, line) = rest.split_once(' ')?;
        let ends = self.numbers(&format!("{first} {last}"), 0)?;
        (ends[0]..=ends[1]).try_for_each(|k| self.add(line, k))
    }

    /// A line that is no call.
    fn state(&mut self, word: &str, numbers: &[u64]) -> Option<()> {
        match (word, numbers) {
            ("pool", &[records]) => self.records = records,
            ("records", &[records]) => self.cases.last_mut()?.records = Some(records),
            ("list", [count, total, ends @ ..]) if ends.len() as u64 == 2 * count => {
                let ranges = ends.chunks(2).map(|range| (range[0], range[1])).collect();
                self.push(Line::List { total: *total, ranges })?;
            }
            ("chain", entries) if entries.len() % 3 == 0 => {
                let ranges: Vec<(u64, u64)> = entries.chunks(3).map(|entry| (entry[1], entry[2])).collect();
                let total = ranges.iter().map(|(first, last)| last - first + 1).sum();
                self.push(Line::List { total, ranges })?;
                let chain = entries.chunks(3).map(|entry| entry[0]).collect();
                self.push(Line::Book { chain, shelf: Vec::new() })?;
            }
            ("shelf", numbers) => match self.cases.last_mut()?.lines.last_mut()? {
                Line::Book { shelf, .. } => *shelf = numbers.to_vec(),
                _ => return None,
            },
            _ => return None,
        }
        Some(())
    }

    fn push(&mut self, line: Line) -> Option<()> {
        self.cases.last_mut()?.lines.push(line);
        Some(())
    }

    fn numbers(&self, text: &str, k: u64) -> Option<Vec<u64>> {
        let fields = text.split(' ').filter(|field| !field.is_empty() && *field != "|");
        fields.map(|field| u64::try_from(self.number(field, k)?).ok()).collect()
    }

    /// Numbers, RECORDS and K with `*`, `+` and `-` between them, from left to right.
    fn number(&self, text: &str, k: u64) -> Option<i128> {
        let (mut sign, mut rest) = text.strip_prefix('-').map_or(('+', text), |rest| ('-', rest));
        let mut value = 0;
        loop {
            let end = rest.find(|letter| "+-*".contains(letter)).unwrap_or(rest.len());
            let operand: i128 = match &rest[..end] {
                "RECORDS" => self.records.into(),
                "K" => k.into(),
                digits => digits.parse().ok()?,
            };
            value = match sign {
                '*' => value * operand,
                '-' => value - operand,
                _ => value + operand,
            };
            if end == rest.len() {
                return Some(value);
            }
            sign = rest[end..].chars().next()?;
            rest = &rest[end + 1..];
        }
    }
}
