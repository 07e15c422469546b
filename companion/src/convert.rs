//! The commands `text` and `words`: a show as text, with names, and as words. Neither says anything of its safety.
use crate::input::Input;
use crate::output::{Said, Status};
use crate::show::model::{Logic, Show};
use crate::show::names::Names;
use crate::show::reading;
use crate::text;
use crate::verdict::{self, mismatch, Answer};
use bulanevior::Refusal;

/// The show that the bytes of a file are, or in a sentence why they are none; or the trouble. Whether they are one the proved calls
/// say.
fn plain(bytes: &[u8]) -> Result<Result<Show, String>, String> {
    let (logic, lemmas) = match verdict::judge(bytes)? {
        Answer::Judged(show) => (show.logic, show.lemmas),
        Answer::Refused(why) => match why.refusal {
            // A graph that is too large, or a sum, is no fault of a word.
            Some((Refusal::Nodes | Refusal::Sum(_), logic, lemmas)) => (logic, lemmas),
            _ => return Ok(Err(why.sentence)),
        },
    };
    reading::show(&logic, &lemmas).map(Ok).map_err(mismatch)
}

/// The show that a command got. No text is one that the proved calls refuse.
pub fn shown(input: &Input) -> Result<Result<Show, String>, String> {
    match plain(&input.bytes)? {
        Err(why) if input.names.is_some() => Err(mismatch(why)),
        Ok(show) if show.bytes() != input.bytes => Err(mismatch("the show has other words")),
        answer => Ok(answer),
    }
}

/// The text of a show, with the names of its own text or with numbered ones.
pub fn text(input: &Input) -> Result<Said, String> {
    let show = match shown(input)? {
        Ok(show) => show,
        Err(why) => return Ok(Said::aside(why, Status::Refused)),
    };
    let text = written(&show, &named(input, &show.logic))?;
    Ok(Said::bytes(text, Status::Good))
}

/// The names of a show's own text, or numbered ones.
pub fn named(input: &Input, logic: &Logic) -> Names {
    let names = input.names.clone();
    names.unwrap_or_else(|| Names::numbered(logic))
}

/// The text of a show, which reads back as the same; or the trouble.
pub fn written(show: &Show, names: &Names) -> Result<Vec<u8>, String> {
    let text = text::write(show, names);
    match text::read(&text) {
        Ok((again, same)) if again == *show && same == *names => Ok(text.into_bytes()),
        _ => Err("the text does not read back as the show".to_string()),
    }
}

/// The words of a show, little-endian.
pub fn words(input: &Input) -> Result<Said, String> {
    Ok(match shown(input)? {
        Ok(show) => Said::bytes(show.bytes(), Status::Good),
        Err(why) => Said::aside(why, Status::Refused),
    })
}

#[cfg(test)]
mod tests {
    use super::*;
    use crate::input;

    fn of(bytes: &[u8]) -> Input {
        input::of(bytes.to_vec()).unwrap()
    }

    #[test]
    fn there_and_back() {
        let fade = include_bytes!("../../shows/fade.words");
        let written = text(&of(fade)).unwrap();
        assert_eq!(written.status, Status::Good);
        assert!(written
            .bytes
            .starts_with(b"variable v0 0 to 1000\n\naction a0\n"));
        let back = words(&of(&written.bytes)).unwrap();
        assert_eq!(
            (back.bytes.as_slice(), back.status),
            (&fade[..], Status::Good)
        );
        assert_eq!(words(&of(fade)).unwrap().bytes, fade);
        // A text keeps its names.
        let named = text(&of(include_bytes!("../../shows/fade.text"))).unwrap();
        assert!(named
            .bytes
            .starts_with(b"variable level 0 to 1000\n\naction down\n"));
    }

    #[test]
    fn what_is_no_show() {
        let fade = include_bytes!("../../shows/fade.words");
        let word = "refused: word 15 is missing, of the wrong kind, after the end, or has a stray bit (2 AT 15)";
        for (bytes, why) in [
            (&fade[..63], "odd bytes: the file was cut"),
            (&fade[..60], word),
        ] {
            for command in [text, words] {
                let said = command(&of(bytes)).unwrap();
                assert!(said.aside && said.bytes.is_empty() && said.status == Status::Refused);
                assert!(said.lines.eq([why.to_string()]));
            }
        }
    }

    /// 513 nodes are too many to judge, and no fault of a word.
    #[test]
    fn a_graph_that_is_too_large() {
        let rig8 = include_bytes!("../../shows/rig8_kept.words");
        let cut = &rig8[..4 * 693];
        assert!(matches!(
            crate::verdict::judge(cut),
            Ok(crate::verdict::Answer::Refused(_))
        ));
        assert_eq!(words(&of(cut)).unwrap().bytes, cut);
        assert_eq!(text(&of(cut)).unwrap().status, Status::Good);
    }

    /// Words that the proved calls refuse do not come from a text.
    #[test]
    fn a_text_that_is_refused_is_trouble() {
        let fade = include_bytes!("../../shows/fade.words");
        let mut input = of(include_bytes!("../../shows/fade.text"));
        input.bytes = fade[..60].to_vec();
        let begins = "the library and the wrapper do not match: refused: word 15 ";
        for command in [text, words] {
            let trouble = command(&input).err().unwrap();
            assert!(trouble.starts_with(begins), "{trouble}");
        }
    }
}
