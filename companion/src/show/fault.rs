//! A word at which a list of words is no show: which word it is, what it belongs to, and the rule that it breaks.
use bulanevior::{kind, payload};
use std::fmt;

/// What a word belongs to.
#[derive(Clone, Copy, Debug, PartialEq, Eq)]
pub enum Place {
    Variable(usize),
    StartRows,
    StartRow(usize),
    Predicates,
    Predicate(usize),
    Action(usize),
    Guard { action: usize, row: usize },
    Assignment { action: usize, number: usize },
    Combination(usize),
    Logic,
    Lemma(usize),
    NegatedGoal { lemma: usize },
    Premise { lemma: usize, predicate: usize },
    SourceRow { lemma: usize, row: usize },
}

impl fmt::Display for Place {
    fn fmt(&self, f: &mut fmt::Formatter) -> fmt::Result {
        match *self {
            Place::Variable(k) => write!(f, "variable {k}"),
            Place::StartRows => write!(f, "the start rows"),
            Place::StartRow(k) => write!(f, "start row {k}"),
            Place::Predicates => write!(f, "the predicates"),
            Place::Predicate(k) => write!(f, "predicate {k}"),
            Place::Action(k) => write!(f, "action {k}"),
            Place::Guard { action, row } => write!(f, "guard row {row} of action {action}"),
            Place::Assignment { action, number } => {
                write!(f, "assignment {number} of action {action}")
            }
            Place::Combination(k) => write!(f, "forbidden combination {k}"),
            Place::Logic => write!(f, "the logic"),
            Place::Lemma(k) => write!(f, "lemma {k}"),
            Place::NegatedGoal { lemma } => write!(f, "the negated goal of lemma {lemma}"),
            Place::Premise { lemma, predicate } => {
                write!(f, "the premise on predicate {predicate} of lemma {lemma}")
            }
            Place::SourceRow { lemma, row } => {
                write!(f, "row {row} of the source of lemma {lemma}")
            }
        }
    }
}

/// Which list of words a fault is in.
#[derive(Clone, Copy, Debug, PartialEq, Eq)]
pub enum List {
    Logic,
    Lemmas,
}

#[derive(Clone, Debug, PartialEq, Eq)]
pub struct Fault {
    /// The refusal that is due.
    pub number: u32,
    pub list: List,
    /// The word's index in its list, and in the file.
    pub at: usize,
    pub file_at: usize,
    /// None where the list ends before it.
    pub word: Option<u32>,
    pub rule: Rule,
}

/// The rule that a word breaks.
#[derive(Clone, Debug, PartialEq, Eq)]
pub enum Rule {
    /// Another word is due here.
    Due(String),
    /// It belongs to this, and that is wrong with it.
    Wrong(Place, String),
}

/// The name of a word's kind.
pub fn kind_name(word: u32) -> &'static str {
    const NAMES: [&str; 16] = [
        "DISTANCE", "VAR", "ROW", "TERM", "INIT", "PRED", "ACTION", "SET", "SETS", "LEMMA", "MULT",
        "ORIGIN", "EDGE", "STEP", "FINDING", "END",
    ];
    NAMES[kind(word) as usize]
}

/// "word 14, byte 56: TERM of guard row 0 of action 1: coefficient 1,001, allowed are -1,000 to 1,000"
impl fmt::Display for Fault {
    fn fmt(&self, f: &mut fmt::Formatter) -> fmt::Result {
        let list = match self.list {
            List::Logic => "",
            List::Lemmas => " of the lemmas",
        };
        write!(f, "word {}{list}, byte {}: ", self.at, 4 * self.file_at)?;
        match (self.word, &self.rule) {
            (None, Rule::Due(due)) => write!(f, "the list ends, where {due} is due"),
            (None, Rule::Wrong(place, why)) => write!(f, "the list ends in {place}: {why}"),
            (Some(word), Rule::Due(due)) => {
                write!(f, "{} ({word:08X}), where {due} is due", kind_name(word))
            }
            (Some(word), Rule::Wrong(place, why)) => {
                write!(f, "{} of {place}: {why}", kind_name(word))
            }
        }
    }
}

/// A number with a comma between thousands.
pub fn thousands(number: i64) -> String {
    let digits = number.unsigned_abs().to_string();
    let mut text = String::from(if number < 0 { "-" } else { "" });
    for (k, digit) in digits.chars().enumerate() {
        if k > 0 && (digits.len() - k) % 3 == 0 {
            text.push(',');
        }
        text.push(digit);
    }
    text
}

/// The unnamed bits of a word that are set, if any: "bits 23 and 17 are set, which no field names".
pub fn stray(word: u32, unnamed: u32) -> Option<String> {
    let set: Vec<String> = (0..28)
        .rev()
        .filter(|bit| payload(word) & unnamed & 1 << bit != 0)
        .map(|bit| bit.to_string())
        .collect();
    match set.as_slice() {
        [] => None,
        [one] => Some(format!("bit {one} is set, which no field names")),
        all => Some(format!(
            "bits {} are set, which no field names",
            all.join(", ")
        )),
    }
}

#[cfg(test)]
mod tests {
    use super::*;

    #[test]
    fn numbers_are_read_across() {
        let said = [0, 7, -7, 999, 1_000, -1_001, 65_535, 1_000_000, -1_234_567].map(thousands);
        let expected = [
            "0",
            "7",
            "-7",
            "999",
            "1,000",
            "-1,001",
            "65,535",
            "1,000,000",
            "-1,234,567",
        ];
        assert_eq!(said, expected);
    }

    #[test]
    fn bits_that_no_field_names() {
        assert_eq!(stray(0x3F00_FFFF, 0x00FF_0000), None);
        let one = "bit 16 is set, which no field names".to_string();
        assert_eq!(stray(0x3001_0001, 0x00FF_0000), Some(one));
        let two = "bits 23, 17 are set, which no field names".to_string();
        assert_eq!(stray(0x3082_0001, 0x00FF_0000), Some(two));
    }
}
