//! The words of a command, and how long it goes on.

use std::time::{Duration, Instant};

pub struct Options {
    named: Vec<(String, String)>,
    pub rest: Vec<String>,
}

const NAMES: [&str; 6] = ["frames", "states", "lines", "seconds", "seed", "keep"];

impl Options {
    /// Pairs `--name value`, and the other words; none where a value is missing or a name unknown.
    pub fn read(mut words: impl Iterator<Item = String>) -> Option<Self> {
        let (mut named, mut rest) = (Vec::new(), Vec::new());
        while let Some(word) = words.next() {
            match word.strip_prefix("--") {
                Some(name) if NAMES.contains(&name) => named.push((name.to_string(), words.next()?)),
                Some(_) => return None,
                None => rest.push(word),
            }
        }
        Some(Self { named, rest })
    }

    pub fn text(&self, name: &str) -> Option<&str> {
        self.named.iter().find(|(n, _)| n == name).map(|(_, value)| value.as_str())
    }

    /// A number, or nothing where there is no such option.
    pub fn number(&self, name: &str) -> std::result::Result<Option<u64>, String> {
        let Some(text) = self.text(name) else {
            return Ok(None);
        };
        text.parse().map(Some).map_err(|_| format!("--{name} {text}: not a number"))
    }

    /// The moment at which `--seconds` are over.
    pub fn end(&self) -> std::result::Result<Option<Instant>, String> {
        let seconds = self.number("seconds")?;
        Ok(seconds.map(|s| Instant::now() + Duration::from_secs(s)))
    }

    pub fn seed(&self) -> std::result::Result<u64, String> {
        Ok(self.number("seed")?.unwrap_or(7231))
    }
}
