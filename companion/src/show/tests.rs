//! The companion's reader beside the proved one: the same words are a show, and the same word is at fault with the same number.
use super::fault::List;
use super::model::lemma_words;
use super::reading;
use bulanevior::{ask, kind, raw, Refusal};
use std::path::PathBuf;

/// The stored shows: names and words, logic and lemmas apart.
fn stored() -> Vec<(String, Vec<u32>, Vec<u32>)> {
    let folder = PathBuf::from(env!("CARGO_MANIFEST_DIR")).join("../shows");
    let files = std::fs::read_dir(folder)
        .unwrap()
        .map(|entry| entry.unwrap().path());
    let shows = files.filter(|file| file.extension().is_some_and(|end| end == "words"));
    let mut all: Vec<_> = shows
        .map(|file| {
            let bytes = std::fs::read(&file).unwrap();
            let (logic, lemmas) = split(&words(&bytes));
            (file.display().to_string(), logic, lemmas)
        })
        .collect();
    all.sort();
    assert!(all.len() > 20);
    all
}

fn words(bytes: &[u8]) -> Vec<u32> {
    let whole = bytes.chunks_exact(4);
    whole
        .map(|b| u32::from_le_bytes(b.try_into().unwrap()))
        .collect()
}

fn split(words: &[u32]) -> (Vec<u32>, Vec<u32>) {
    let end = words.iter().position(|&w| kind(w) == raw::BNV_END);
    let (logic, lemmas) = words.split_at(end.map_or(words.len(), |end| end + 1));
    (logic.to_vec(), lemmas.to_vec())
}

/// The refusal of the proved reader, if any: Ask reads everything before it looks for a lemma that no list has.
fn refusal(logic: &[u32], lemmas: &[u32]) -> Option<(u32, usize)> {
    match ask(logic, lemmas, usize::MAX) {
        Err(Refusal::Absent(usize::MAX)) => None,
        Err(why) => Some((why.number(), why.value())),
        Ok(_) => panic!("a lemma that no list has"),
    }
}

/// Both readers say the same of these lists; says whether they are a show.
fn same(name: &str, logic: &[u32], lemmas: &[u32]) -> bool {
    let expected = refusal(logic, lemmas);
    match reading::show(logic, lemmas) {
        Ok(show) => {
            assert_eq!(expected, None, "{name}");
            assert_eq!(show.logic.words(), logic, "{name}");
            assert_eq!(lemma_words(&show.lemmas), lemmas, "{name}");
        }
        Err(fault) => {
            assert_eq!(Some((fault.number, fault.at)), expected, "{name}: {fault}");
            let list = if fault.list == List::Logic {
                logic
            } else {
                lemmas
            };
            assert_eq!(fault.word, list.get(fault.at).copied(), "{name}");
        }
    }
    expected.is_none()
}

#[test]
fn of_stored_shows() {
    let good = stored()
        .iter()
        .filter(|(name, logic, lemmas)| same(name, logic, lemmas))
        .count();
    assert!(good > 15, "{good}");
}

#[test]
fn of_cut_lists() {
    for (name, logic, lemmas) in stored() {
        for end in 0..logic.len() {
            same(&format!("{name}, logic to {end}"), &logic[..end], &[]);
        }
        for end in (0..lemmas.len()).step_by(1 + lemmas.len() / 200) {
            same(&format!("{name}, lemmas to {end}"), &logic, &lemmas[..end]);
        }
    }
}

/// Words that a list may have anywhere: each kind with payloads at limits of fields.
fn others(word: u32) -> Vec<u32> {
    let payloads = [
        0,
        1,
        2,
        8,
        9,
        14,
        15,
        16,
        255,
        256,
        0x3E8,
        0x3E9,
        0xFFFF,
        0x1_0000,
        0x0F00_0000,
        0x0FFF_FFFF,
        1_000_000,
        1_000_001,
        0x0FF0_BDC0,
        0x0FF0_BDBF,
        0x0800_0000,
        0x0000_4001,
        0x0FF3_0000,
    ];
    let kinds = (0..16).flat_map(|kind| payloads.map(|payload| kind << 28 | payload));
    let flips = (0..32).map(|bit| word ^ 1 << bit);
    kinds.chain(flips).collect()
}

/// Each word of the smaller shows exchanged for others, left out, and said twice.
#[test]
fn of_changed_words() {
    let mut tried = 0;
    for (name, logic, lemmas) in stored() {
        let size = logic.len() + lemmas.len();
        if size > 200 {
            continue;
        }
        let whole: Vec<u32> = logic.iter().chain(&lemmas).copied().collect();
        for at in 0..whole.len() {
            let (before, rest) = whole.split_at(at);
            let with = |middle: &[u32], behind: usize| {
                let changed = [before, middle, &rest[behind..]].concat();
                // The lists as they are told apart here, and as a file would be split.
                let cut = (logic.len() + middle.len()).saturating_sub(behind);
                same(&format!("{name}, {at}"), &changed[..cut], &changed[cut..]);
                let (logic, lemmas) = split(&changed);
                same(&format!("{name}, {at}"), &logic, &lemmas);
            };
            let some = |k: &usize| size < 60 || k % 8 == at % 8;
            let others = others(rest[0]).into_iter().enumerate();
            others
                .filter(|(k, _)| some(k))
                .for_each(|(_, other)| with(&[other], 1));
            with(&[], 1);
            with(&[rest[0], rest[0]], 1);
            tried += 1;
        }
    }
    assert!(tried > 500, "{tried}");
}

/// Lists of 511 to 514 lemmas, and what may stand behind 512.
#[test]
fn of_many_lemmas() {
    let logic = [
        0x1000_0001,
        0x4000_0000,
        0x5000_0000,
        0x6000_0000,
        0xF000_0000,
    ];
    for count in [511, 512, 513, 514] {
        let lemmas = [0x9000_0000, 0x8000_0000].repeat(count);
        assert_eq!(same("many", &logic, &lemmas), count <= 512);
    }
    for behind in [0x9FFF_FFFF, 0x9000_0000, 0xA000_0000, 0x8000_0000, 0] {
        let mut lemmas = [0x9000_0000, 0x8000_0000].repeat(512);
        lemmas.push(behind);
        same("behind", &logic, &lemmas);
    }
}

/// What is said of a word at fault: a logic, the index of one of its words and another word in its place, and the sentence.
#[test]
fn sentences() {
    // Two variables, a start row, two predicates, an action with two guard rows and an assignment, a combination, END.
    const LOGIC: [u32; 19] = [
        0x1000_03E8,
        0x1000_0001,
        0x4000_0001,
        0x2000_0000,
        0x3000_FFFF,
        0x5000_0002,
        0x2FFF_FFFF,
        0x3000_0001,
        0x2FFF_FFFF,
        0x3100_0001,
        0x6000_0021,
        0x2000_0000,
        0x3000_0001,
        0x2000_0000,
        0x3100_0001,
        0x7000_0001,
        0x2000_0001,
        0x8000_0003,
        0xF000_0000,
    ];
    let said = |at: usize, word: u32| {
        let mut logic = LOGIC;
        logic[at] = word;
        reading::logic(&logic).unwrap_err().to_string()
    };
    for (at, word, sentence) in [
        (14, 0x3100_03E9, "word 14, byte 56: TERM of guard row 1 of action 0: coefficient 1,001, allowed are -1,000 to 1,000"),
        (14, 0x3100_0000, "word 14, byte 56: TERM of guard row 1 of action 0: coefficient 0: a variable that does not count has no TERM"),
        (14, 0x3200_0001, "word 14, byte 56: TERM of guard row 1 of action 0: variable 2, and the logic has 2, counted from 0"),
        (14, 0x3101_0001, "word 14, byte 56: TERM of guard row 1 of action 0: bit 16 is set, which no field names"),
        (0, 0x1000_2000, "word 0, byte 0: VAR of variable 0: the low end 0 is above the high end -8,192"),
        (0, 0x4000_0000, "word 0, byte 0: INIT (40000000), where the VAR of variable 0 is due"),
        (2, 0x4000_0009, "word 2, byte 8: INIT of the start rows: it counts 9, allowed are 0 to 8"),
        (5, 0x5000_000F, "word 5, byte 20: PRED of the predicates: it counts 15, allowed are 0 to 14"),
        (3, 0x200F_4241, "word 3, byte 12: ROW of start row 0: constant 1,000,001, allowed are -1,000,000 to 1,000,000"),
        (5, 0xC000_0000, "word 5, byte 20: EDGE (C0000000), where a TERM of start row 0 or PRED is due"),
        (10, 0x6000_0091, "word 10, byte 40: ACTION of action 0: it counts 9 guard rows, allowed are 0 to 8"),
        (10, 0x6000_1021, "word 10, byte 40: ACTION of action 0: bit 12 is set, which no field names"),
        (15, 0x7000_0002, "word 15, byte 60: SET of assignment 0 of action 0: variable 2, and the logic has 2, counted from 0"),
        (17, 0x8000_0004, "word 17, byte 68: SETS of forbidden combination 0: predicate 2, and the logic has 2, counted from 0"),
        (17, 0x8000_4001, "word 17, byte 68: SETS of forbidden combination 0: predicate 0 is on both sides: it cannot hold and fail"),
        (17, 0xD000_0000, "word 17, byte 68: STEP (D0000000), where a TERM of assignment 0 of action 0 or ACTION, SETS or END is due"),
        (18, 0xF000_0001, "word 18, byte 72: END of the logic: bit 0 is set, which no field names"),
        (18, 0x6000_0000, "word 18, byte 72: ACTION (60000000), where SETS or END is due"),
    ] {
        assert_eq!(said(at, word), sentence);
    }
    let cut = reading::logic(&LOGIC[..15]).unwrap_err().to_string();
    assert_eq!(cut, "word 15, byte 60: the list ends, where a TERM of guard row 1 of action 0 or the SET of assignment 0 of action 0 is due");
    let more = [&LOGIC[..], &[0]].concat();
    let behind = reading::logic(&more).unwrap_err().to_string();
    assert_eq!(
        behind,
        "word 19, byte 76: DISTANCE (00000000), where nothing, behind END, is due"
    );
    let lemma = |words: &[u32]| reading::show(&LOGIC, words).unwrap_err().to_string();
    for (words, sentence) in [
        (&[0x9011_0000][..], "word 0 of the lemmas, byte 76: LEMMA of lemma 0: source 1 is neither 255 nor an action, of which the logic has 1, counted from 0"),
        (&[0x9005_0000], "word 0 of the lemmas, byte 76: LEMMA of lemma 0: goal 5, allowed are 0 to 4"),
        (&[0x9000_0001], "word 0 of the lemmas, byte 76: LEMMA of lemma 0: goal 0 with index 1, which has to be 0"),
        (&[0x9001_0002], "word 0 of the lemmas, byte 76: LEMMA of lemma 0: predicate 2, and the logic has 2, counted from 0"),
        (&[0x9003_0000], "word 0 of the lemmas, byte 76: LEMMA of lemma 0: its source does not set variable 0"),
        (&[0x9FF3_0000], "word 0 of the lemmas, byte 76: LEMMA of lemma 0: goals 3 and 4 speak of an action, and the source is the start"),
        (&[0x9FF0_0000, 0x8000_0001], "word 1 of the lemmas, byte 80: SETS of lemma 0: a lemma of the start has no premises"),
        (&[0x9000_0000, 0x8000_0001, 0xA001_0000], "word 2 of the lemmas, byte 84: MULT of the premise on predicate 0 of lemma 0: multiplier 65,536, allowed are 0 to 65,535"),
        (&[0x9000_0000, 0x8000_0001, 0xA000_0001], "word 3 of the lemmas, byte 88: the list ends, where the MULT of row 0 of the source of lemma 0 is due"),
        (&[0xA000_0001], "word 0 of the lemmas, byte 76: MULT (A0000001), where the LEMMA of lemma 0 or the end is due"),
    ] {
        assert_eq!(lemma(words), sentence);
    }
}
