//! `--name value` pairs of a command line.

pub struct Options(Vec<(String, String)>);

impl Options {
    pub fn parse(mut words: impl Iterator<Item = String>) -> Result<Options, String> {
        let mut pairs = Vec::new();
        while let Some(word) = words.next() {
            let name = word.strip_prefix("--").ok_or(format!("`{word}` is not an option"))?;
            let value = words.next().ok_or(format!("`{word}` lacks its value"))?;
            pairs.push((name.to_string(), value));
        }
        Ok(Options(pairs))
    }

    /// An option that the mode does not know is a mistake of the caller's.
    pub fn only(&self, known: &[&str]) -> Result<(), String> {
        match self.0.iter().find(|(name, _)| !known.contains(&name.as_str())) {
            Some((name, _)) => Err(format!("there is no option --{name}; there are: {}", known.join(", "))),
            None => Ok(()),
        }
    }

    pub fn text(&self, name: &str) -> Option<&str> {
        self.0.iter().find(|(found, _)| found == name).map(|(_, value)| value.as_str())
    }

    pub fn number(&self, name: &str, usual: u64) -> Result<u64, String> {
        self.text(name).map_or(Ok(usual), |value| value.parse().map_err(|e| format!("--{name} {value}: {e}")))
    }
}
