//! Texts with one character changed.
use super::texts;
use crate::text::{read, write};

/// A text is read, or its fault lies in it or just behind it. True where it is read.
fn sound(text: &str) -> bool {
    let Err(fault) = read(text) else {
        return true;
    };
    let line = text.split('\n').nth(fault.line - 1);
    let length = line.map(|line| line.chars().count());
    assert!(
        fault.column >= 1 && length.is_some_and(|length| fault.column <= length + 1),
        "{fault}\n{text}"
    );
    false
}

/// Stored texts, without their comments, with one character left out or another in its place, and cut: every one of the shorter
/// texts, and some of the longer ones.
#[test]
fn texts_with_a_character_changed() {
    let (mut changed, mut good) = (0, 0);
    for (name, text) in texts() {
        let (show, names) = read(&text).unwrap();
        let text = write(&show, &names);
        let step = match text.len() {
            0..=2_000 => 1,
            long => long * long / 1_000_000,
        };
        for (place, found) in text.char_indices().step_by(step) {
            let (before, behind) = (&text[..place], &text[place + found.len_utf8()..]);
            let others = ["", "9", "-", "x", "\n", "ü"];
            let mut all: Vec<String> = others
                .iter()
                .map(|other| format!("{before}{other}{behind}"))
                .collect();
            all.push(before.to_string());
            good += all.iter().filter(|text| sound(text)).count();
            changed += all.len();
        }
        assert!(sound(&text), "{name}");
    }
    // Some are other shows, and most are none.
    assert!(
        good > changed / 50 && good < changed / 2,
        "{good} of {changed}"
    );
}
