//! Faulty lemmas, each with the place and the message, one for each rule.
use super::faults::{all, fault};

#[test]
fn lemmas() {
    all(&[
        ("lemma", "6: the line ends; expected `start` or on"),
        (
            "lemma up never by nothing",
            "7: `up` is no action; expected `start` or on",
        ),
        (
            "lemma on",
            "9: the line ends; expected `never`, `makes` or `keeps`",
        ),
        (
            "lemma on makes level by goal",
            "16: `level` is no predicate; expected one of up, lit",
        ),
        (
            "lemma on keeps up low by goal",
            "16: `up` is no variable; expected one of level, house",
        ),
        (
            "lemma on keeps house by goal",
            "22: found the keyword `by`; expected `low` or `high`",
        ),
        (
            "lemma on keeps level low by goal",
            "10: `on` does not set `level`; it sets house",
        ),
        (
            "lemma start keeps level low by goal",
            "13: the start sets no variable; `keeps` speaks of an action",
        ),
        (
            "lemma start never given up by up",
            "19: a lemma of the start has no premises",
        ),
        (
            "lemma on never given up and not up by up",
            "29: `up` cannot hold and fail",
        ),
        (
            "lemma on never",
            "15: the line ends; expected `given` or `by`",
        ),
        (
            "lemma on never given up, lit by up",
            "24: found `,`; expected `and` or `by`",
        ),
        ("lemma start never up", "19: found `up`; expected `by`"),
    ]);
    let text = "variable x 0 to 1\naction a\nlemma a never by goal";
    let none = "`nothing`, for this lemma has no rows";
    let expected = format!("line 3, column 18: found the keyword `goal`; expected {none}");
    assert_eq!(fault(text), expected);
    let text = "variable x 0 to 1\naction a\nlemma a keeps x high by goal";
    assert_eq!(
        fault(text),
        "line 3, column 9: `a` does not set `x`; it sets no variable"
    );
}

#[test]
fn multipliers() {
    all(&[
        (
            "lemma on never by",
            "18: the line ends; expected `nothing`, a multiplier or `row 0`",
        ),
        (
            "lemma on never by goal",
            "19: found the keyword `goal`; expected `nothing`, a multiplier or `row 0`",
        ),
        (
            "lemma on makes up given lit and not up by goal,",
            "48: the line ends; expected a multiplier, `goal`, `not up`, `lit` or `row 0`",
        ),
        (
            "lemma on makes up by 2 3 goal",
            "24: found `3`; expected `goal` or `row 0`",
        ),
        (
            "lemma on makes up given lit by goal, up",
            "38: `up` is not given; expected `goal`, `lit` or `row 0`",
        ),
        (
            "lemma on makes up given lit by not lit",
            "32: `not lit` is not given; expected `goal`, `lit` or `row 0`",
        ),
        (
            "lemma on makes up by goal, level",
            "28: `level` is not given; expected `goal` or `row 0`",
        ),
        (
            "lemma on makes up by goal row 0",
            "27: found the keyword `row`; expected `,` or the end of the line",
        ),
        (
            "lemma on makes up by nothing, goal",
            "29: found `,`; expected the end of the line",
        ),
        (
            "lemma on makes up by row",
            "25: the line ends; expected the number of a row",
        ),
        (
            "lemma on makes up by row 1",
            "26: row 1, and `on` has 1 row, counted from 0",
        ),
        (
            "lemma start makes up by row 1000",
            "29: row 1,000, and the start has no rows",
        ),
        (
            "lemma on makes up by 65536 goal",
            "22: multiplier 65,536, allowed are 0 to 65,535",
        ),
        (
            "lemma on makes up by -1 goal",
            "22: found `-`; expected `nothing`, a multiplier, `goal` or `row 0`",
        ),
        (
            "lemma on makes up by 1,000 goal",
            "23: found `,`; expected `goal` or `row 0`",
        ),
        (
            "lemma on makes up by goal, row 0, 2 goal",
            "37: this row is named twice",
        ),
        (
            "lemma on makes up by row 0, row 0",
            "29: this row is named twice",
        ),
        (
            "lemma on makes up given up by up, 0 up",
            "37: this row is named twice",
        ),
    ]);
}
