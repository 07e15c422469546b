//! What is written reads back as the same show: the stored ones, and shows at random.
use super::generated::{longest, Random};
use super::{stored, texts};
use crate::show::model::{lemma_words, Show};
use crate::show::names::Names;
use crate::show::reading;
use crate::text::{read, write, BYTES};
use bulanevior::*;

/// From words to text and back, with the names.
fn trip(show: &Show, names: &Names) {
    let text = write(show, names);
    match read(&text) {
        Ok((found, found_names)) => {
            assert_eq!(&found, show, "{text}");
            assert_eq!(&found_names, names, "{text}");
            assert_eq!(found.bytes(), show.bytes());
        }
        Err(fault) => panic!("{fault}\n{text}"),
    }
}

/// The show that a stored file is; None where it is damaged.
fn accepted(bytes: &[u8]) -> Option<Show> {
    let words: Vec<u32> = bytes
        .chunks(4)
        .map(|four| four.try_into().map(u32::from_le_bytes))
        .collect::<Result<_, _>>()
        .ok()?;
    let end = words.iter().position(|&word| kind(word) == raw::BNV_END)?;
    let (logic, lemmas) = words.split_at(end + 1);
    reading::show(logic, lemmas).ok()
}

#[test]
fn stored_words() {
    let mut count = 0;
    for (name, bytes) in stored("words") {
        if let Some(show) = accepted(&bytes) {
            assert_eq!(show.bytes(), bytes, "{name}");
            trip(&show, &Names::numbered(&show.logic));
            count += 1;
        }
    }
    assert_eq!(count, 18);
}

#[test]
fn stored_texts() {
    let words = stored("words");
    let all = texts();
    assert_eq!(all.len(), 15);
    for (name, text) in all {
        let (show, names) = read(&text).unwrap();
        let (_, bytes) = words.iter().find(|(found, _)| found == &name).unwrap();
        assert_eq!(&show.bytes(), bytes, "{name}");
        trip(&show, &names);
    }
}

/// The proved readers count in the words of a show what the show has.
fn counted(show: &Show) {
    let (logic, lemmas) = (&show.logic, lemma_words(&show.lemmas));
    let counts = Counts {
        variables: logic.ranges.len(),
        start_rows: logic.start.len(),
        predicates: logic.predicates.len(),
        actions: logic.actions.len(),
        forbidden: logic.forbidden.len(),
    };
    let words = logic.words();
    assert_eq!(check(&words), Ok(counts));
    let count = show.lemmas.len();
    assert_eq!(ask(&words, &lemmas, count), Err(Refusal::Absent(count)));
    assert_eq!(reading::show(&words, &lemmas).as_ref(), Ok(show));
}

#[test]
fn shows_at_random() {
    let mut random = Random(7);
    for _ in 0..4_000 {
        let show = random.show();
        counted(&show);
        let names = random.names(&show.logic);
        trip(&show, &names);
    }
}

#[test]
fn the_longest_text_can_be_read() {
    let (show, names) = longest();
    counted(&show);
    trip(&show, &names);
    let length = write(&show, &names).len();
    assert!(length <= BYTES, "{length}");
}
