//! How often each kind of call and of answer occurred.

use std::collections::BTreeMap;
use std::fmt;

#[derive(Default)]
pub struct Census {
    answers: BTreeMap<String, u64>,
    lengths: [u64; 4],
}

/// The ends of the classes of lengths that are counted, in bytes.
const LENGTHS: [(usize, &str); 4] =
    [(1_000, "below 1,000"), (20_000, "below 20,000"), (65_537, "to 65,536"), (usize::MAX, "above")];

impl Census {
    pub fn add(&mut self, script: &[u8], account: &[u8]) {
        let class = LENGTHS.iter().position(|&(end, _)| script.len() < end).unwrap_or(3);
        self.lengths[class] += 1;
        for line in String::from_utf8_lossy(account).lines() {
            *self.answers.entry(name(line)).or_default() += 1;
        }
    }

    pub fn answers(&self) -> u64 {
        self.answers.values().sum()
    }
}

/// The kind of an answer: its text without addresses, values and flags.
fn name(line: &str) -> String {
    let words: Vec<&str> = line.trim_matches(['(', ')']).split(' ').collect();
    match words[..] {
        ["grant", _, size, ..] => format!("grant of {size}"),
        ["no", number, layer, level, _] => format!("no {number:>2} {layer} {level}"),
        _ => words[0].to_string(),
    }
}

impl fmt::Display for Census {
    fn fmt(&self, f: &mut fmt::Formatter<'_>) -> fmt::Result {
        for (count, (_, name)) in self.lengths.iter().zip(LENGTHS) {
            writeln!(f, "{count:>10} scripts of bytes {name}")?;
        }
        for (name, count) in &self.answers {
            writeln!(f, "{count:>10} {name}")?;
        }
        Ok(())
    }
}
