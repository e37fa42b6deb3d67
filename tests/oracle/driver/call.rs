//! The calls and their answers, in the line syntax of the script program.

use std::fmt;
use std::str::FromStr;

#[derive(Clone, Copy, PartialEq, Eq, Debug)]
pub enum Call {
    Free { start: u64, size: u64 },
    Allocate { size: u64, order: u64 },
    Reserve { start: u64, size: u64, order: u64 },
}

#[derive(Clone, Copy, PartialEq, Eq, Debug)]
pub enum Answer {
    /// The address; 0 for a free and for a reserve.
    Accepted(u64),
    /// The refusal number of document 01.
    Refused(u8),
    /// An assertion of the Rust stopped the call. No port answers so.
    Assertion,
}

impl fmt::Display for Call {
    fn fmt(&self, out: &mut fmt::Formatter) -> fmt::Result {
        match self {
            Call::Free { start, size } => write!(out, "f {start} {size}"),
            Call::Allocate { size, order } => write!(out, "a {size} {order}"),
            Call::Reserve { start, size, order } => write!(out, "r {start} {size} {order}"),
        }
    }
}

impl FromStr for Call {
    type Err = String;

    fn from_str(line: &str) -> Result<Call, String> {
        let fields: Vec<&str> = line.split(' ').collect();
        let number = |text: &str| text.parse::<u64>().map_err(|e| format!("`{line}`: {text}: {e}"));
        match fields[..] {
            ["f", start, size] => Ok(Call::Free { start: number(start)?, size: number(size)? }),
            ["a", size, order] => Ok(Call::Allocate { size: number(size)?, order: number(order)? }),
            ["r", start, size, order] => {
                Ok(Call::Reserve { start: number(start)?, size: number(size)?, order: number(order)? })
            }
            _ => Err(format!("`{line}` is not `f start size`, `a size order` or `r start size order`")),
        }
    }
}

impl Answer {
    /// What the script program prints for this answer to `call`.
    pub fn printed_for(&self, call: &Call) -> String {
        match (self, call) {
            (Answer::Accepted(address), Call::Allocate { .. }) => format!("ok {address}"),
            (Answer::Accepted(0), _) => "ok".to_string(),
            (Answer::Accepted(address), _) => format!("ok, with the address {address} where 0 is due"),
            (Answer::Refused(number), _) => format!("no {number}"),
            (Answer::Assertion, _) => "assertion".to_string(),
        }
    }

    pub fn parse(text: &str) -> Result<Answer, String> {
        let fields: Vec<&str> = text.split(' ').collect();
        match fields[..] {
            ["ok"] => Ok(Answer::Accepted(0)),
            ["ok", address] => address.parse().map(Answer::Accepted).map_err(|e| format!("`{text}`: {e}")),
            ["no", number] => number.parse().map(Answer::Refused).map_err(|e| format!("`{text}`: {e}")),
            ["assertion"] => Ok(Answer::Assertion),
            _ => Err(format!("`{text}` is not `ok`, `ok address`, `no number` or `assertion`")),
        }
    }

    pub fn is_accepted(&self) -> bool {
        matches!(self, Answer::Accepted(_))
    }
}

/// Calls separated by `|`, as the tables of cases write a history on one line.
pub fn parse_history(text: &str) -> Result<Vec<Call>, String> {
    text.split('|').map(|call| call.trim().parse()).collect()
}
