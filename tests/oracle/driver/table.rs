//! The table of differences as a file: blocks of `key: value` lines, one block a case (differences.txt describes them).

use crate::call::{parse_history, Answer, Call};

/// What one side does with a history: its answers and, where the table gives them, its listing and total at the end.
pub struct Deeds {
    pub answers: Vec<Answer>,
    pub list: Option<Vec<(u64, u64)>>,
    pub total: Option<u64>,
}

/// Frees that come before the calls, and that both sides accept.
pub struct Opening {
    pub text: String,
    pub calls: Vec<Call>,
}

pub struct Difference {
    pub name: String,
    pub topic: String,
    pub opening: Option<Opening>,
    pub calls: Vec<Call>,
    /// The number of the call, from 1, at which the history leaves the domain.
    pub leaves_domain_at: Option<usize>,
    pub rust: Deeds,
    pub port: Deeds,
    pub why: String,
}

pub fn parse(text: &str) -> Result<Vec<Difference>, String> {
    let lines: Vec<&str> = text.lines().filter(|line| !line.starts_with('#')).collect();
    let blocks = lines.split(|line| line.is_empty()).filter(|block| !block.is_empty());
    blocks.map(|block| parse_block(block).map_err(|what| format!("`{}`: {what}", block[0]))).collect()
}

fn parse_block(block: &[&str]) -> Result<Difference, String> {
    let field = |key: &str| {
        let mut lines = block.iter().filter_map(|line| line.split_once(": "));
        lines.find(|(found, _)| *found == key).map(|(_, value)| value.to_string())
    };
    let needed = |key: &str| field(key).ok_or(format!("the line `{key}: ...` is missing"));
    let deeds =
        |side: &str| parse_deeds(&needed(side)?, field(&format!("{side}-list")), field(&format!("{side}-total")));
    Ok(Difference {
        name: needed("case")?,
        topic: needed("topic")?,
        opening: field("opening").map(parse_opening).transpose()?,
        calls: parse_history(&needed("calls")?)?,
        leaves_domain_at: match needed("domain")?.as_str() {
            "inside" => None,
            leaves => Some(number(leaves.strip_prefix("left at call ").unwrap_or(leaves))? as usize),
        },
        rust: deeds("rust")?,
        port: deeds("port")?,
        why: needed("why")?,
    })
}

/// `COUNT times f START SIZE, each STEP further`
fn parse_opening(text: String) -> Result<Opening, String> {
    let words: Vec<&str> = text.split(&[' ', ','][..]).filter(|word| !word.is_empty()).collect();
    let calls = match words[..] {
        [count, "times", "f", start, size, "each", step, "further"] => {
            let (start, size, step) = (number(start)?, number(size)?, number(step)?);
            (0..number(count)?).map(|k| Call::Free { start: start + step * k, size }).collect()
        }
        _ => return Err(format!("`{text}` is not `COUNT times f START SIZE, each STEP further`")),
    };
    Ok(Opening { text, calls })
}

fn parse_deeds(answers: &str, list: Option<String>, total: Option<String>) -> Result<Deeds, String> {
    let answers: Result<Vec<Answer>, String> = answers.split('|').map(|answer| Answer::parse(answer.trim())).collect();
    let list = list.map(|text| parse_list(&text)).transpose()?;
    let total = total.map(|text| number(&text)).transpose()?;
    Ok(Deeds { answers: answers?, list, total })
}

/// `none`, or ranges as `first-last` with a space between.
fn parse_list(text: &str) -> Result<Vec<(u64, u64)>, String> {
    if text == "none" {
        return Ok(Vec::new());
    }
    let range = |range: &str| {
        let (start, end) = range.split_once('-').ok_or(format!("`{range}` is not first-last"))?;
        Ok((number(start)?, number(end)?))
    };
    text.split(' ').map(range).collect()
}

fn number(text: &str) -> Result<u64, String> {
    text.parse().map_err(|e| format!("{text}: {e}"))
}
