//! A show as a command gets it: its words, whether they came as words or as text.
use crate::show::names::Names;
use crate::text::{self, Fault};
use bulanevior::SHOW_BYTES;

/// The most bytes that are read: one more than a text may have.
pub const BYTES: usize = text::BYTES + 1;

pub struct Input {
    /// The words of the show, as a file has them.
    pub bytes: Vec<u8>,
    /// The names of its text, where it came as one.
    pub names: Option<Names>,
}

/// Is a file a text? Words that are a show are none: the fourth byte of a VAR word is 16 to 31. What begins as a text, or with its byte order
/// mark, and is no UTF-8 further on is one too, so that its fault can be named.
fn is_text(bytes: &[u8]) -> bool {
    let control = |byte: &u8| *byte < b' ' && !b"\t\n\r".contains(byte);
    let marked = bytes.starts_with("\u{FEFF}".as_bytes());
    let begins = marked || bytes.first().is_some_and(u8::is_ascii);
    let whole = !bytes.is_empty() && std::str::from_utf8(bytes).is_ok();
    (begins || whole) && !bytes.iter().any(control)
}

/// What is in a file, or the first place at which its text is at fault.
pub fn of(mut bytes: Vec<u8>) -> Result<Input, Fault> {
    if !is_text(&bytes) {
        bytes.truncate(SHOW_BYTES + 1);
        return Ok(Input { bytes, names: None });
    }
    if bytes.len() > text::BYTES {
        let most = crate::show::fault::thousands(text::BYTES as i64);
        let read = String::from_utf8_lossy(&bytes[..text::BYTES]);
        return Err(Fault::behind(
            &read,
            &format!("the text goes on behind {most} bytes, which are allowed"),
        ));
    }
    match std::str::from_utf8(&bytes) {
        Ok(text) => {
            let (show, names) = text::read(text)?;
            Ok(Input {
                bytes: show.bytes(),
                names: Some(names),
            })
        }
        Err(e) => {
            let read = String::from_utf8_lossy(&bytes[..e.valid_up_to()]);
            Err(Fault::behind(&read, "a byte that is no UTF-8"))
        }
    }
}

#[cfg(test)]
mod tests {
    use super::*;

    fn refused(bytes: &[u8]) -> String {
        match of(bytes.to_vec()) {
            Ok(_) => panic!("no fault"),
            Err(fault) => fault.to_string(),
        }
    }

    #[test]
    fn texts_and_words_are_told_apart() {
        let named = |bytes: &[u8]| of(bytes.to_vec()).unwrap().names.is_some();
        for text in ["variable x 0 to 1", "\u{FEFF}variable x 0 to 1\r\n\t#ü\n"] {
            assert!(named(text.as_bytes()));
        }
        let fade = include_bytes!("../../shows/fade.words");
        for words in [&fade[..], &fade[..1], &fade[..5], &[], &[0], &[b'#', 0x1F]] {
            assert!(!named(words));
            assert_eq!(of(words.to_vec()).unwrap().bytes, words);
        }
        assert_eq!(of(vec![0; BYTES]).unwrap().bytes.len(), SHOW_BYTES + 1);
    }

    #[test]
    fn what_is_no_text() {
        let none = "the text ends; expected a variable";
        assert_eq!(refused(b"\n"), format!("line 2, column 1: {none}"));
        assert!(refused("ü".as_bytes()).starts_with("line 1, column 1: `ü` has no meaning here"));
        let latin = b"variable x 0 to 1\n# B\xFChne\n";
        assert_eq!(refused(latin), "line 2, column 4: a byte that is no UTF-8");
        let marked = b"\xEF\xBB\xBF# B\xFChne\n";
        assert_eq!(refused(marked), "line 1, column 4: a byte that is no UTF-8");
        let long = [b"variable x 0 to 1\n#", vec![b'x'; BYTES].as_slice()].concat();
        assert!(of(long[..text::BYTES].to_vec()).is_ok());
        // The second line begins behind 18 bytes.
        let column = text::BYTES - 18 + 1;
        let why = "the text goes on behind 1,048,576 bytes, which are allowed";
        assert_eq!(
            refused(&long[..BYTES]),
            format!("line 2, column {column}: {why}")
        );
    }
}
