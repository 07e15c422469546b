//! Each field of each record arrives in its own place: the records have another number in every field.
use super::*;
use raw::*;
use std::{string::ToString, vec::Vec};

/// The refusal of the records below, by number and value.
const REFUSED: (u32, usize) = (BNV_REFUSED_ABSENT, 23);
const ABSENT: Refusal = Refusal::Absent(REFUSED.1);

#[test]
fn of_check() {
    let record = |answer| BnvCheck {
        answer,
        refusal: REFUSED.0,
        value: REFUSED.1,
        variables: 31,
        start_rows: 32,
        predicates: 33,
        actions: 34,
        forbidden: 35,
    };
    let counts = Counts {
        variables: 31,
        start_rows: 32,
        predicates: 33,
        actions: 34,
        forbidden: 35,
    };
    assert_eq!(checked(record(BNV_GOOD)), Ok(counts));
    assert_eq!(checked(record(BNV_CHECK_REFUSED)), Err(ABSENT));
}

#[test]
fn of_step() {
    let record = |answer| BnvStep {
        answer,
        row: 32,
        variable: 31,
        refusal: REFUSED.0,
        row_value: -33,
        value: REFUSED.1,
    };
    let near = Failing {
        row: 32,
        value: -33,
    };
    assert_eq!(stepped(record(BNV_NOT_ENABLED)), Ok(Step::NotEnabled(near)));
    assert_eq!(racked(record(BNV_NOT_ENABLED)), Ok(Rack::NotEnabled(near)));
    assert_eq!(near.to_string(), "guard row 32 lacks 33");
    assert_eq!(stepped(record(BNV_RUNS_OFF)), Ok(Step::RunsOff(31)));
    assert_eq!(stepped(record(BNV_STEP_REFUSED)), Err(ABSENT));
    assert_eq!(racked(record(BNV_STEP_REFUSED)), Err(ABSENT));
    assert_eq!(stepped(record(BNV_MOVED)), Ok(Step::Moved));
    assert_eq!(racked(record(BNV_MOVED)), Ok(Rack::Moved));
}

/// A guard row that is worth 0 or more does not fail: such a record is of another version.
#[test]
fn of_a_row_that_does_not_fail() {
    for row_value in [0, 1, i32::MAX] {
        let record = BnvStep {
            answer: BNV_NOT_ENABLED,
            row: 0,
            variable: 0,
            refusal: 0,
            row_value,
            value: 0,
        };
        let none = Refusal::Mismatch(BNV_NOT_ENABLED);
        assert_eq!(stepped(record), Err(none));
        assert_eq!(racked(record), Err(none));
    }
}

#[test]
fn of_ask() {
    let record = |answer| BnvAsk {
        answer,
        refusal: REFUSED.0,
        value: REFUSED.1,
    };
    assert_eq!(asked(record(BNV_NOT_ACCEPTED)), Ok(Ask::NotAccepted));
    assert_eq!(asked(record(BNV_ASK_REFUSED)), Err(ABSENT));
    assert_eq!(asked(record(BNV_ACCEPTED)), Ok(Ask::Accepted));
}

fn judge_record(verdict: u32, high: u32) -> BnvJudge {
    BnvJudge {
        verdict,
        node: 31,
        place: 32,
        variable: 33,
        high,
        nodes: 34,
        edges: 35,
        refusal: REFUSED.0,
        value: REFUSED.1,
    }
}

/// What the wrapper is to make of `judge_record`.
fn judgement(verdict: Verdict) -> Result<Judgement, Refusal> {
    Ok(Judgement {
        verdict,
        nodes: 34,
        edges: 35,
    })
}

#[test]
fn of_judge() {
    let forbid = Verdict::MayForbid {
        node: 31,
        combination: 32,
    };
    let run_off = |end| Verdict::MayRunOff {
        node: 31,
        action: 32,
        variable: 33,
        end,
    };
    for (number, high, verdict) in [
        (BNV_MAY_FORBID, 0, forbid),
        (BNV_MAY_FORBID, 1, forbid),
        (BNV_MAY_RUN_OFF, 0, run_off(End::Low)),
        (BNV_MAY_RUN_OFF, 1, run_off(End::High)),
        (BNV_SAFE, 0, Verdict::Safe),
        (BNV_SAFE, 1, Verdict::Safe),
    ] {
        assert_eq!(judged(judge_record(number, high)), judgement(verdict));
    }
    assert_eq!(judged(judge_record(BNV_JUDGE_REFUSED, 1)), Err(ABSENT));
}

#[test]
fn of_show() {
    let words = [41, 42, 43, 44, 45, 46];
    let made = |verdict| {
        let record = BnvShow {
            answer: BNV_JUDGED,
            logic: 2,
            lemmas: 3,
            judged: judge_record(verdict, 0),
        };
        shown(record, &words).unwrap()
    };
    let expected = |answer| Show {
        logic: &words[..2],
        lemmas: &words[2..5],
        answer,
    };
    assert_eq!(made(BNV_SAFE), expected(judgement(Verdict::Safe)));
    assert_eq!(made(BNV_JUDGE_REFUSED), expected(Err(ABSENT)));
}

#[test]
fn of_findings() {
    let record = |answer| BnvFindings {
        answer,
        refusal: REFUSED.0,
        value: REFUSED.1,
        count: 31,
    };
    assert_eq!(found(record(BNV_FINDINGS_REFUSED)), Err(ABSENT));
    assert_eq!(found(record(BNV_LISTED)), Ok(31));
}

/// Words that tell the fields of a finding apart, and words that are none.
#[test]
fn of_finding_words() {
    let forbid = |node, combination| Some(Finding::MayForbid { node, combination });
    let run_off = |node, action, variable, end| {
        Some(Finding::MayRunOff {
            node,
            action,
            variable,
            end,
        })
    };
    for (word, finding) in [
        (0xE000_0000, forbid(0, 0)),
        (0xE008_0800, forbid(1, 1)),
        (0xEFF8_3800, forbid(511, 7)),
        (0xE004_0000, run_off(0, 0, 0, End::Low)),
        (0xE004_0001, run_off(0, 0, 0, End::High)),
        (0xE014_9001, run_off(2, 2, 2, End::High)),
        (0xEFFF_F801, run_off(511, 15, 7, End::High)),
        (0xEFFF_F800, run_off(511, 15, 7, End::Low)),
        (0xE000_0001, None),
        (0xE000_4000, None),
        (0xD000_0000, None),
        (0xF000_0000, None),
        (0, None),
    ] {
        assert_eq!(Finding::of(word), finding, "{word:08X}");
        if let Some(finding) = finding {
            assert_eq!(finding.node(), (word >> 19 & 511) as usize);
        }
    }
    for bit in 1..11 {
        assert_eq!(Finding::of(0xE004_0000 | 1 << bit), None);
    }
    let list = [0xE000_0000, 0xE004_0001, 0, 0xE000_0000];
    assert_eq!(listed(&list).count(), 2);
}

/// Two nodes with three actions, and zeros: the second was found from the first by action 2.
#[test]
fn of_records() {
    let mut graph = [0; 18];
    graph[..6].copy_from_slice(&[
        0x8000_0001,
        0xB000_1FFF,
        0,
        0xC000_0001,
        0xC000_0000,
        0xCFFF_FFFF,
    ]);
    graph[6..12].copy_from_slice(&[
        0x8000_4000,
        0xB000_0002,
        1,
        0xC000_0000,
        0xC000_0001,
        0xCFFF_FFFF,
    ]);
    let read = |graph: &[u32], actions, node| {
        (origin(graph, actions, node), distance(graph, actions, node))
    };
    assert_eq!(header(&graph, 3, 1), Some([0x8000_4000, 0xB000_0002, 1]));
    assert_eq!(
        (
            known(&graph, 3, 0),
            known(&graph, 3, 1),
            known(&graph, 3, 2)
        ),
        (Some((1, 0)), Some((0, 1)), None)
    );
    assert_eq!(read(&graph, 3, 0), (None, Some(0)));
    assert_eq!(read(&graph, 3, 1), (Some((0, 2)), Some(1)));
    assert_eq!(read(&graph[..9], 3, 1), (Some((0, 2)), Some(1)));
    // Behind the last node, cut within a record, another count of actions, and where no number is large enough.
    for (length, actions, node) in [
        (18, 3, 2),
        (18, 3, 3),
        (8, 3, 1),
        (18, 2, 1),
        (18, usize::MAX, 2),
        (18, 3, usize::MAX),
    ] {
        assert_eq!(
            read(&graph[..length], actions, node),
            (None, None),
            "{length} {actions} {node}"
        );
    }
    (graph[6], graph[7], graph[8]) = (0x8800_6005, 0xB000_1FFE, 511);
    assert_eq!(read(&graph, 3, 1), (Some((511, 14)), Some(511)));
    assert_eq!(known(&graph, 3, 1), Some((0x2005, 0x2001)));
    // A record without its DISTANCE word, as libraries before 0.7.0 have it.
    graph[8] = 0xC000_0000;
    assert_eq!(read(&graph, 3, 1), (None, None));
}

#[test]
fn of_verdicts() {
    let (node, combination) = (31, 32);
    let forbid = Verdict::MayForbid { node, combination };
    assert_eq!(
        forbid.finding(),
        Some(Finding::MayForbid { node, combination })
    );
    let (action, variable, end) = (33, 34, End::High);
    let run_off = Verdict::MayRunOff {
        node,
        action,
        variable,
        end,
    };
    let expected = Finding::MayRunOff {
        node,
        action,
        variable,
        end,
    };
    assert_eq!(run_off.finding(), Some(expected));
    assert_eq!(Verdict::Safe.finding(), None);
}

#[test]
fn of_successor() {
    let record = |answer| BnvSuccessor {
        answer,
        node: 31,
        refusal: REFUSED.0,
        value: REFUSED.1,
    };
    assert_eq!(succeeded(record(BNV_NO_NODE)), Ok(None));
    assert_eq!(succeeded(record(BNV_SUCCESSOR_REFUSED)), Err(ABSENT));
    assert_eq!(succeeded(record(BNV_NODE)), Ok(Some(31)));
}

/// Two nodes with three actions, in a list that is long enough for three nodes with two; every word is an EDGE to another
/// node, its own place.
#[test]
fn of_a_view() {
    let graph: Vec<u32> = (0..12).map(|place| BNV_EDGE << 28 | place).collect();
    for node in 0..4 {
        for action in 0..4 {
            let expected = match (node < 2, action < 3) {
                (false, _) => Err(Refusal::Absent(node)),
                (true, false) => Err(Refusal::Absent(action)),
                (true, true) => Ok(Some(node * (3 + 3) + 3 + action)),
            };
            assert_eq!(View::new(&graph, 2, 3).successor(node, action), expected);
        }
    }
}

/// Every refusal with its number, and its value but for `Nodes`, whose value is always the same.
#[test]
fn of_refusals() {
    let all = [
        Refusal::Short(9),
        Refusal::Word(9),
        Refusal::Limit(9),
        Refusal::Value(9),
        Refusal::Lemma(9),
        Refusal::Lemmas(9),
        Refusal::Nodes,
        Refusal::Absent(9),
        Refusal::Length(9),
        Refusal::State(9),
        Refusal::Sum(9),
        Refusal::Findings(9),
    ];
    for (number, refusal) in (1..).zip(all) {
        let value = if number == 7 { 512 } else { 9 };
        assert_eq!(Refusal::of(number, 9), refusal);
        assert_eq!((refusal.number(), refusal.value()), (number, value));
    }
}

/// Words that tell every bit apart, with kind and payload.
#[test]
fn of_words() {
    for (word, word_kind, word_payload) in [
        (0, 0, 0),
        (0xFFFF_FFFF, 15, 0x0FFF_FFFF),
        (0xF000_0000, 15, 0),
        (0x0FFF_FFFF, 0, 0x0FFF_FFFF),
        (0xA5A5_A5A5, 10, 0x05A5_A5A5),
        (0x5A5A_5A5A, 5, 0x0A5A_5A5A),
    ] {
        assert_eq!((kind(word), payload(word)), (word_kind, word_payload));
    }
    for bit in 0..28 {
        assert_eq!((kind(1 << bit), payload(1 << bit)), (0, 1 << bit));
    }
    for bit in 28..32 {
        assert_eq!((kind(1 << bit), payload(1 << bit)), (1 << (bit - 28), 0));
    }
}
