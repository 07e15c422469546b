//! Faulty texts, each with the place and the message, one for each rule but those of lemmas.
use crate::text::read;

/// Seven lines; what is at fault stands on the eighth.
const BEFORE: &str = "variable level 0 to 1000
variable house 0 to 1
predicate up: level >= 1
predicate lit: house >= 1
action on
    when level <= 0
    house := 1
";

pub fn fault(text: &str) -> String {
    match read(text) {
        Ok(_) => panic!("no fault in {text}"),
        Err(fault) => fault.to_string(),
    }
}

/// The fault of one line behind the seven.
fn of(line: &str) -> String {
    let said = fault(&format!("{BEFORE}{line}\n"));
    match said.strip_prefix("line 8, column ") {
        Some(rest) => rest.to_string(),
        None => panic!("{line}: {said}"),
    }
}

/// Lines behind the seven, each with its column and message.
pub fn all(faults: &[(&str, &str)]) {
    for (line, expected) in faults {
        assert_eq!(of(line), *expected, "{line}");
    }
}

#[test]
fn lines_and_names() {
    let lines =
        "`variable`, `start`, `predicate`, `action`, `when`, an assignment, `forbid` or `lemma`";
    for (line, found) in [
        ("varable x 0 to 1", "varable"),
        ("goal", "goal"),
        ("5", "5"),
        ("  >= 5", ">="),
    ] {
        let column = 1 + line.len() - line.trim_start().len();
        let expected = format!("{column}: `{found}` begins no line; expected {lines}");
        assert_eq!(of(line), expected);
    }
    all(&[
        ("action ünter", "8: `ü` has no meaning here; names are of the letters a to z and A to Z, digits and _"),
        ("action a\r b", "9: `\\r` has no meaning here; names are of the letters a to z and A to Z, digits and _"),
        ("action don't", "11: `'` has no meaning here; names are of the letters a to z and A to Z, digits and _"),
        ("start level >= 5;", "17: `;` has no meaning here; names are of the letters a to z and A to Z, digits and _"),
        ("action 2nd", "8: `2nd` is no name; a name begins with a letter"),
        ("action _x", "8: `_x` is no name; a name begins with a letter"),
        ("action abcdefghijklmnopqrstuvwxyzabcdefg", "8: a name of 33 characters, allowed are 32"),
        ("start level >= 0001234567890", "16: `0001234567890` has more than 9 digits"),
        ("action", "7: the line ends; expected a name"),
        ("action goal", "8: found the keyword `goal`; expected a name"),
        ("action level", "8: `level` is the name of a variable already"),
        ("variable up 0 to 1", "10: `up` is the name of a predicate already"),
        ("predicate on: level >= 5", "11: `on` is the name of an action already"),
        ("action go now", "11: found `now`; expected the end of the line"),
    ]);
}

#[test]
fn variables() {
    all(&[
        (
            "variable x",
            "11: the line ends; expected a number, the low end",
        ),
        ("variable x 5 1", "14: found `1`; expected `to`"),
        (
            "variable x 5 to y",
            "17: found `y`; expected a number, the high end",
        ),
        (
            "variable x -8193 to 1",
            "12: low end -8,193, allowed are -8,192 to 8,191",
        ),
        (
            "variable x 0 to 8192",
            "17: high end 8,192, allowed are -8,192 to 8,191",
        ),
        (
            "variable x 1 to 0",
            "12: the low end 1 is above the high end 0",
        ),
        (
            "variable x 0 to 1,000",
            "18: found `,`; expected the end of the line",
        ),
    ]);
    assert_eq!(
        fault(""),
        "line 1, column 1: the text ends; expected a variable"
    );
    assert_eq!(
        fault("# nothing\n  "),
        "line 2, column 3: the text ends; expected a variable"
    );
    assert_eq!(
        fault("start x >= 1"),
        "line 1, column 7: `x` is no variable; expected a variable, and none is declared above"
    );
}

#[test]
fn rows() {
    let comparison = "`+`, `-`, `>=`, `<=`, `>`, `<` or `=`";
    assert_eq!(
        of("start level"),
        format!("12: the line ends; expected {comparison}")
    );
    assert_eq!(
        of("start level 5"),
        format!("13: found `5`; expected {comparison}")
    );
    assert_eq!(
        of("start level := 5"),
        format!("13: found `:=`; expected {comparison}")
    );
    all(&[
        (
            "start",
            "6: the line ends; expected a number, level or house",
        ),
        (
            "start level >=",
            "15: the line ends; expected a number, level or house",
        ),
        (
            "start level >= 5 and",
            "21: the line ends; expected a number, level or house",
        ),
        (
            "start level >= * 5",
            "16: found `*`; expected a number, level or house",
        ),
        (
            "start level >= - -5",
            "18: found `-`; expected a number, level or house",
        ),
        (
            "start level >= foo",
            "16: `foo` is no variable; expected one of level, house",
        ),
        (
            "start level >= 2 up",
            "18: `up` is no variable; expected one of level, house",
        ),
        (
            "start level >= 2 * 3",
            "20: found `3`; expected one of level, house",
        ),
        (
            "start level >= 5, house >= 1",
            "17: found `,`; expected `+`, `-`, `and` or the end of the line",
        ),
        (
            "start 0 <= level <= 5",
            "18: found `<=`; expected `+`, `-`, `and` or the end of the line",
        ),
        (
            "start 1001 level <= 5",
            "7: coefficient -1,001 in the row, allowed are -1,000 to 1,000",
        ),
        (
            "start 1001 level >= 5",
            "7: coefficient 1,001 in the row, allowed are -1,000 to 1,000",
        ),
        (
            "start 600 level >= 5 - 401 * level",
            "24: coefficient 1,001 in the row, allowed are -1,000 to 1,000",
        ),
        (
            "start level - 1000001 >= house",
            "15: constant -1,000,001 in the row, allowed are -1,000,000 to 1,000,000",
        ),
        (
            "start level <= 1000001",
            "16: constant 1,000,001 in the row, allowed are -1,000,000 to 1,000,000",
        ),
        (
            "start level > 1000000",
            "15: constant -1,000,001 in the row, allowed are -1,000,000 to 1,000,000",
        ),
        (
            "start 0 > level + 1000000",
            "19: constant -1,000,001 in the row, allowed are -1,000,000 to 1,000,000",
        ),
        ("predicate p level >= 5", "13: found `level`; expected `:`"),
        (
            "predicate p: level = 5",
            "20: `=` is two rows, and a predicate is one; expected `>=`, `<=`, `>` or `<`",
        ),
        (
            "predicate p: level",
            "19: the line ends; expected `+`, `-`, `>=`, `<=`, `>` or `<`",
        ),
        (
            "predicate p: level >= 5 and house >= 1",
            "25: found the keyword `and`; expected `+`, `-` or the end of the line",
        ),
    ]);
}

#[test]
fn actions() {
    all(&[
        ("house := 0", "1: this action assigns `house` already"),
        (
            "hose := 0",
            "1: `hose` is no variable; expected one of level, house",
        ),
        ("level = 0", "7: found `=`; expected `:=`"),
        (
            "level := 5 level level",
            "18: found `level`; expected `+`, `-` or the end of the line",
        ),
        (
            "level := 1001 house",
            "10: coefficient 1,001 in the row, allowed are -1,000 to 1,000",
        ),
        (
            "when level",
            "11: the line ends; expected `+`, `-`, `>=`, `<=`, `>`, `<` or `=`",
        ),
    ]);
    for (line, what) in [
        ("when level >= 0", "`when`"),
        ("level := 0", "an assignment"),
    ] {
        let expected = format!(
            "line 9, column 1: {what} belongs to the action right above it, and there is none"
        );
        assert_eq!(fault(&format!("{BEFORE}forbid up\n{line}")), expected);
        let expected = format!(
            "line 2, column 2: {what} belongs to the action right above it, and there is none"
        );
        assert_eq!(fault(&format!("variable level 0 to 1\n {line}")), expected);
    }
}

#[test]
fn combinations() {
    all(&[
        ("forbid", "7: the line ends; expected one of up, lit"),
        (
            "forbid level",
            "8: `level` is no predicate; expected one of up, lit",
        ),
        (
            "forbid not always",
            "12: found the keyword `always`; expected one of up, lit",
        ),
        (
            "forbid always and up",
            "15: found the keyword `and`; expected the end of the line",
        ),
        (
            "forbid up lit",
            "11: found `lit`; expected `and` or the end of the line",
        ),
        ("forbid up and not lit and up", "27: `up` is named twice"),
        ("forbid up and not up", "15: `up` cannot hold and fail"),
    ]);
    assert_eq!(
        fault("variable x 0 to 1\nforbid p"),
        "line 2, column 8: `p` is no predicate; expected a predicate, and none is declared above"
    );
}

/// So many lines, and the fault behind them.
fn too_many(before: &str, line: impl Fn(usize) -> String, most: usize) -> String {
    let lines = |count: usize| (0..count).map(|k| line(k) + "\n").collect::<String>();
    assert!(read(&format!("{before}{}", lines(most))).is_ok());
    fault(&format!("{before}{}", lines(most + 1)))
}

#[test]
fn limits() {
    let one = "variable x 0 to 1\n";
    let all = [
        too_many("", |k| format!("variable x{k} 0 to 1"), 8),
        too_many(one, |_| "start x >= 0".into(), 8),
        too_many(one, |_| "start x = 0 and x >= 0 and x = 0".into(), 1),
        too_many(one, |k| format!("predicate p{k}: x >= 0"), 14),
        too_many(one, |k| format!("action a{k}"), 16),
        too_many(&format!("{one}action a\n"), |_| "when x >= 0".into(), 8),
        too_many(
            &format!("{one}action a\n"),
            |_| " when x = 0 and x = 0".into(),
            2,
        ),
        too_many(one, |_| "forbid always".into(), 8),
        too_many(one, |_| "lemma start never by nothing".into(), 512),
    ];
    let expected = [
        "line 9, column 1: one variable too many, allowed are 8",
        "line 10, column 7: one start row too many, allowed are 8",
        "line 3, column 28: one start row too many, allowed are 8",
        "line 16, column 1: one predicate too many, allowed are 14",
        "line 18, column 1: one action too many, allowed are 16",
        "line 11, column 6: one guard row too many, allowed are 8",
        "line 5, column 7: one guard row too many, allowed are 8",
        "line 10, column 1: one forbidden combination too many, allowed are 8",
        "line 514, column 1: one lemma too many, allowed are 512",
    ];
    assert_eq!(all, expected);
}
