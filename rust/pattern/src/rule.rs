//! The rules that refuse a call.

use std::fmt;

/// The rules in words, a line `RULE(number, "text")` for each: the C library includes the same list.
const RULES: &str = include_str!("rules.h");

/// The number and the text of a line of the list.
fn entry(line: &'static str) -> Option<(u8, &'static str)> {
    let (number, text) = line.strip_prefix("RULE(")?.strip_suffix("\")")?.split_once(", \"")?;
    Some((number.parse().ok()?, text))
}

/// The number of the rule that refuses a call.
#[derive(Clone, Copy, PartialEq, Eq, Debug)]
pub struct Rule(pub u8);

impl Rule {
    /// What the rule says.
    pub fn reason(self) -> &'static str {
        let mut entries = RULES.lines().filter_map(entry);
        entries.find(|(number, _)| *number == self.0).map_or("no rule of this library", |(_, text)| text)
    }
}

impl fmt::Display for Rule {
    fn fmt(&self, f: &mut fmt::Formatter) -> fmt::Result {
        write!(f, "refused by rule {}: {}", self.0, self.reason())
    }
}

impl std::error::Error for Rule {}

#[cfg(test)]
mod tests {
    use super::{entry, Rule, RULES};

    /// Each rule has one line and its text; what has no line is no rule.
    #[test]
    fn every_rule_has_its_text() {
        let lines = RULES.lines().skip(1);
        let entries: Vec<_> = lines.map(|line| entry(line).unwrap_or_else(|| panic!("no rule: {line}"))).collect();
        let numbers: Vec<u8> = entries.iter().map(|(number, _)| *number).collect();
        assert_eq!(numbers, (1..=27).filter(|number| *number != 14).collect::<Vec<_>>());
        for number in 0..=u8::MAX {
            let listed = entries.iter().find(|(listed, _)| *listed == number);
            assert_eq!(Rule(number).reason(), listed.map_or("no rule of this library", |(_, text)| text));
        }
        assert_eq!(Rule(9).to_string(), "refused by rule 9: the size is outside its range");
    }
}
