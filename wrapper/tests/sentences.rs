//! What answers say is what include/bulanevior_text.h says in C: tests/sentences.txt has the sentences of both.
use bulanevior::*;
use std::error::Error;
use std::fmt::Display;

/// Every refusal, with this value.
fn refusals(n: usize) -> [Refusal; 12] {
    [
        Refusal::Short(n),
        Refusal::Word(n),
        Refusal::Limit(n),
        Refusal::Value(n),
        Refusal::Lemma(n),
        Refusal::Lemmas(n),
        Refusal::Nodes,
        Refusal::Absent(n),
        Refusal::Length(n),
        Refusal::State(n),
        Refusal::Sum(n),
        Refusal::Findings(n),
    ]
}

/// The sentence of a call's answer.
fn said<T: Display>(answer: Result<T, Refusal>) -> String {
    match answer {
        Ok(answer) => answer.to_string(),
        Err(why) => format!("refused: {why}"),
    }
}

fn small_calls() -> Vec<String> {
    let counts = Counts {
        variables: 31,
        start_rows: 32,
        predicates: 33,
        actions: 34,
        forbidden: 35,
    };
    let near = |row, value| Step::NotEnabled(Failing { row, value });
    let node = |node: Option<usize>| node.map_or("no node".to_string(), |n| format!("node {n}"));
    vec![
        said(Ok(counts)),
        said::<Counts>(Err(Refusal::Value(23))),
        said(Ok(Step::Moved)),
        said(Ok(near(32, -33))),
        said(Ok(near(0, i32::MIN))),
        said(Ok(Step::RunsOff(31))),
        said::<Step>(Err(Refusal::Absent(23))),
        said(Ok(Ask::Accepted)),
        said(Ok(Ask::NotAccepted)),
        said::<Ask>(Err(Refusal::Sum(23))),
        said(Ok(format!("findings {}", 31))),
        said::<usize>(Err(Refusal::Findings(23))),
        said(Ok(node(Some(31)))),
        said(Ok(node(None))),
        said::<usize>(Err(Refusal::Limit(0))),
    ]
}

fn verdicts() -> Vec<String> {
    let judged = |verdict| Judgement {
        verdict,
        nodes: 34,
        edges: 35,
    };
    let run_off = |end| Verdict::MayRunOff {
        node: 31,
        action: 32,
        variable: 33,
        end,
    };
    let forbid = Verdict::MayForbid {
        node: 31,
        combination: 32,
    };
    let shown = |answer| Show {
        logic: &[],
        lemmas: &[],
        answer,
    };
    vec![
        judged(Verdict::Safe).to_string(),
        judged(forbid).to_string(),
        judged(run_off(End::Low)).to_string(),
        run_off(End::High).to_string(),
        shown(Err(Refusal::Word(23))).to_string(),
        NoShow::TooLong.to_string(),
        NoShow::OddBytes.to_string(),
        NoShow::WordsShort.to_string(),
        shown(Ok(judged(Verdict::Safe))).to_string(),
        Finding::of(0xEFF8_3800).unwrap().to_string(),
        Finding::of(0xE014_9000).unwrap().to_string(),
        Finding::of(0xEFFF_F801).unwrap().to_string(),
    ]
}

#[test]
fn sentences_are_those_of_c() {
    let mut lines: Vec<String> = refusals(512).map(|why| why.text().to_string()).into();
    lines.extend(refusals(512).map(|why| said::<Ask>(Err(why))));
    lines.extend(small_calls());
    lines.extend(verdicts());
    let path = [0xD000_0000, 0xD000_000F, 0xD000_0002, 0, 0xD000_0001];
    lines.push(Presses(&path).to_string());
    lines.push(Presses(&path[3..]).to_string());
    lines.push(Refusal::Mismatch(0).to_string());
    let shared = include_str!("../../tests/sentences.txt");
    assert!(lines.iter().map(String::as_str).eq(shared.lines()));
}

/// What has no line there: a rack's step, safe without counts, and numbers that are no answer.
#[test]
fn further_sentences() {
    let near = Failing { row: 1, value: -5 };
    assert_eq!(
        Rack::NotEnabled(near).to_string(),
        Step::NotEnabled(near).to_string()
    );
    assert_eq!(Rack::Moved.to_string(), "moves");
    assert_eq!(Verdict::Safe.to_string(), "safe");
    let other = "the library is of another version: 7 is no answer of this one";
    assert_eq!(NoShow::Mismatch(7).to_string(), other);
    let answer = Err(Refusal::Mismatch(7));
    let (logic, lemmas) = (&[][..], &[][..]);
    let shown = Show {
        logic,
        lemmas,
        answer,
    };
    assert_eq!(shown.to_string(), other);
}

/// Both may be handed on by `?`.
#[test]
fn refusals_are_errors() {
    fn checked() -> Result<Counts, Box<dyn Error>> {
        Ok(check(&[])?)
    }
    fn shown() -> Result<(), Box<dyn Error>> {
        show(&[0], &mut [], &mut [], &mut [])?;
        Ok(())
    }
    assert!(checked().unwrap_err().to_string().ends_with("(2 AT 0)"));
    let short = "the lent words list is too short";
    assert_eq!(shown().unwrap_err().to_string(), short);
}
