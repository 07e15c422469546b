//! A place at which a text is no show, and what was expected there.
use std::fmt;

#[derive(Clone, Debug, PartialEq, Eq)]
pub struct Fault {
    /// Both count from 1; columns count characters.
    pub line: usize,
    pub column: usize,
    pub message: String,
}

impl Fault {
    /// A fault just behind a text, whose byte order mark does not count.
    pub fn behind(text: &str, message: &str) -> Fault {
        let text = text.strip_prefix('\u{FEFF}').unwrap_or(text);
        let last = text.rsplit('\n').next().unwrap_or("");
        Fault {
            line: text.matches('\n').count() + 1,
            column: last.chars().count() + 1,
            message: message.to_string(),
        }
    }
}

impl fmt::Display for Fault {
    fn fmt(&self, f: &mut fmt::Formatter) -> fmt::Result {
        let Fault {
            line,
            column,
            message,
        } = self;
        write!(f, "line {line}, column {column}: {message}")
    }
}

/// The most characters of a text that a message quotes.
const QUOTED: usize = 40;

/// A part of the text, as a message quotes it.
pub fn quoted(text: &str) -> String {
    let mut shown = String::new();
    for c in text.chars().take(QUOTED) {
        match c {
            '\'' | '"' => shown.push(c),
            _ => shown.extend(c.escape_debug()),
        }
    }
    if text.chars().nth(QUOTED).is_some() {
        shown.push_str("...");
    }
    format!("`{shown}`")
}

/// "a, b or c".
pub fn alternatives(all: &[String]) -> String {
    match all {
        [] => String::new(),
        [one] => one.clone(),
        [before @ .., last] => format!("{} or {last}", before.join(", ")),
    }
}
