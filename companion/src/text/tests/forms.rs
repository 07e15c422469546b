//! Texts with every form that there is, and their words, by hand.
use crate::show::model::lemma_words;
use crate::text::read;

fn words(text: &str) -> (Vec<u32>, Vec<u32>) {
    match read(text) {
        Ok((show, _)) => (show.logic.words(), lemma_words(&show.lemmas)),
        Err(fault) => panic!("{fault}"),
    }
}

/// Fade's words as the scope document prints them.
#[test]
fn fade() {
    let text = "
variable level 0 to 1000
action down
    when level >= 5
    level := level - 5
action up
    when level <= 995
    level := level + 5
lemma down keeps level low by goal, row 0
lemma down keeps level high by goal
lemma up keeps level low by goal
lemma up keeps level high by goal, row 0
";
    let logic = [
        0x100003E8, 0x40000000, 0x50000000, 0x60000011, 0x2FFFFFFB, 0x30000001, 0x70000000,
        0x2FFFFFFB, 0x30000001, 0x60000011, 0x200003E3, 0x3000FFFF, 0x70000000, 0x20000005,
        0x30000001, 0xF0000000,
    ];
    let lemmas = [
        0x90030000, 0x80000000, 0xA0000001, 0xA0000001, 0x90040000, 0x80000000, 0xA0000001,
        0xA0000000, 0x90130000, 0x80000000, 0xA0000001, 0xA0000000, 0x90140000, 0x80000000,
        0xA0000001, 0xA0000001,
    ];
    assert_eq!(words(text), (logic.to_vec(), lemmas.to_vec()));
}

const EVERY_FORM: &str = "\u{FEFF}# A comment, ünd ; what \"it\" likes.
variable level 0 to 01000# up to the comment
\tvariable\thouse -1 to +1

start level=5 and 2 house>-3
predicate up: 2 * level - level + 3 >= house + 1
start 7 >= 0
predicate down : level < 1\r
predicate dim: level <= 10 - house
action go
    when level > 0

# Between the lines of an action there may be comments.
    when level+level <= +10 + house
    house := -1
    level := 3 + house
predicate bright: -level > -house
    action rest
forbid up and not down
forbid always
forbid bright
lemma start makes not up by goal, 2 row 3
lemma start never by nothing
lemma go never given up and not dim by 3 not dim, up, 0 row 1
lemma go makes down by goal
lemma go keeps level low by 65535 goal, row 0
lemma go keeps house high by row 1
lemma rest never by nothing
lemma rest makes bright given bright by goal, bright";

#[test]
fn every_form() {
    let logic = [
        0x100003E8, 0x1FFFC001, // level 0 to 1000, house -1 to 1
        0x40000004, // four start rows
        0x2FFFFFFB, 0x30000001, // level - 5
        0x20000005, 0x3000FFFF, // 5 - level
        0x20000002, 0x31000002, // 2 house + 3 - 1
        0x20000007, // 7
        0x50000004, // four predicates
        0x20000002, 0x30000001, 0x3100FFFF, // level - house + 2
        0x20000000, 0x3000FFFF, // 1 - level - 1
        0x2000000A, 0x3000FFFF, 0x3100FFFF, // 10 - house - level
        0x2FFFFFFF, 0x3000FFFF, 0x31000001, // house - level - 1
        0x60000022, // go: two guard rows, two assignments
        0x2FFFFFFF, 0x30000001, // level - 1
        0x2000000A, 0x3000FFFE, 0x31000001, // 10 + house - 2 level
        0x70000000, 0x20000003, 0x31000001, // level: 3 + house
        0x70000001, 0x2FFFFFFF, // house: -1
        0x60000000, // rest: nothing
        0x80008001, 0x80000000, 0x80000008, 0xF0000000,
    ];
    let lemmas = [
        0x9FF20000, 0x80000000, 0xA0000001, 0xA0000000, 0xA0000000, 0xA0000000, 0xA0000002,
        0x9FF00000, 0x80000000, 0xA0000000, 0xA0000000, 0xA0000000, 0xA0000000, 0x90000000,
        0x80010001, 0xA0000001, 0xA0000003, 0xA0000000, 0xA0000000, 0x90010001, 0x80000000,
        0xA0000001, 0xA0000000, 0xA0000000, 0x90030000, 0x80000000, 0xA000FFFF, 0xA0000001,
        0xA0000000, 0x90040001, 0x80000000, 0xA0000000, 0xA0000000, 0xA0000001, 0x90100000,
        0x80000000, 0x90110003, 0x80000008, 0xA0000001, 0xA0000001,
    ];
    assert_eq!(words(EVERY_FORM), (logic.to_vec(), lemmas.to_vec()));
}

/// A start row may stand behind a lemma of the start, which does not name it.
#[test]
fn start_rows_behind_a_lemma() {
    let text = "variable x 0 to 1\nstart x <= 0\nlemma start never by row 0\nstart x >= 0";
    let lemma = [0x9FF00000, 0x80000000, 0xA0000001, 0xA0000000];
    assert_eq!(words(text).1, lemma);
}

/// One variable and nothing else.
#[test]
fn the_shortest() {
    let logic = [0x1800_1FFF, 0x40000000, 0x50000000, 0xF0000000];
    assert_eq!(words("variable x -8192 to 8191"), (logic.to_vec(), vec![]));
}
