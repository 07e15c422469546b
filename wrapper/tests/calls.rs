//! Each call of the wrapper, on Fade.
use bulanevior::*;

/// The words of its logic; the others are lemmas.
const LOGIC: usize = 16;
const FADE: [u32; 32] = [
    0x100003E8, 0x40000000, 0x50000000, 0x60000011, 0x2FFFFFFB, 0x30000001, 0x70000000, 0x2FFFFFFB,
    0x30000001, 0x60000011, 0x200003E3, 0x3000FFFF, 0x70000000, 0x20000005, 0x30000001, 0xF0000000,
    0x90030000, 0x80000000, 0xA0000001, 0xA0000001, 0x90040000, 0x80000000, 0xA0000001, 0xA0000000,
    0x90130000, 0x80000000, 0xA0000001, 0xA0000000, 0x90140000, 0x80000000, 0xA0000001, 0xA0000001,
];

#[test]
fn checks() {
    let logic = &FADE[..LOGIC];
    let counts = Counts {
        variables: 1,
        start_rows: 0,
        predicates: 0,
        actions: 2,
        forbidden: 0,
    };
    assert_eq!(check(logic), Ok(counts));
    assert_eq!(check(&logic[..15]), Err(Refusal::Word(15)));
    assert_eq!(check(&[]), Err(Refusal::Word(0)));
}

#[test]
fn hands_back_parts() {
    let logic = &FADE[..LOGIC];
    assert_eq!(action_part(logic, 1), &logic[9..15]);
    assert_eq!(action_part(logic, 2), &[] as &[u32]);
    assert_eq!(action_part(&[], 0), &[] as &[u32]);
}

#[test]
fn steps() {
    let logic = &FADE[..LOGIC];
    let mut state = [400];
    assert_eq!(step(logic, 1, &mut state), Ok(Step::Moved));
    assert_eq!(state, [405]);
    state = [1000];
    let lacks_5 = Failing { row: 0, value: -5 };
    assert_eq!(step(logic, 1, &mut state), Ok(Step::NotEnabled(lacks_5)));
    // Adds 5 without a guard.
    let free = [
        0x100003E8, 0x40000000, 0x50000000, 0x60000001, 0x70000000, 0x20000005, 0x30000001,
        0xF0000000,
    ];
    assert_eq!(step(&free, 0, &mut state), Ok(Step::RunsOff(0)));
    assert_eq!(step(logic, 2, &mut state), Err(Refusal::Absent(2)));
    assert_eq!(step(logic, 0, &mut []), Err(Refusal::Length(0)));
    assert_eq!(state, [1000]);
}

/// A macro that takes 10 off with no guard, and 4 and 5 times two variables.
#[test]
fn steps_as_the_rack() {
    let macro_words = [
        0x100003E8, 0x40000000, 0x50000000, 0x60000001, 0x70000000, 0x2FFFFFF6, 0x30000001,
        0xF0000000,
    ];
    let mut state = [5];
    assert_eq!(step(&macro_words, 0, &mut state), Ok(Step::RunsOff(0)));
    assert_eq!(rack_step(&macro_words, 0, &mut state), Ok(Rack::Moved));
    assert_eq!(state, [-5]);
    assert_eq!(
        rack_step(&macro_words, 0, &mut state),
        Err(Refusal::State(0))
    );
    let sum = [
        0x10001FFF, 0x10001FFF, 0x40000000, 0x50000000, 0x60000001, 0x70000000, 0x20000000,
        0x30000004, 0x31000005, 0xF0000000,
    ];
    let mut both = [8191, 8191];
    assert_eq!(rack_step(&sum, 0, &mut both), Ok(Rack::Moved));
    assert_eq!(both, [8183, 8191]);
    let logic = &FADE[..LOGIC];
    state = [4];
    let lacks_1 = Failing { row: 0, value: -1 };
    assert_eq!(
        rack_step(logic, 0, &mut state),
        Ok(Rack::NotEnabled(lacks_1))
    );
    assert_eq!(rack_step(logic, 2, &mut state), Err(Refusal::Absent(2)));
    assert_eq!(rack_step(logic, 0, &mut []), Err(Refusal::Length(0)));
    assert_eq!(rack_step(&logic[1..], 0, &mut []), Err(Refusal::Word(0)));
    assert_eq!(state, [4]);
}

/// Three guard rows at 5: x - 5 holds, x - 10 lacks 5, x - 14 lacks 9.
#[test]
fn says_how_near() {
    let rows = [
        0x100003E8, 0x40000000, 0x50000000, 0x60000030, 0x2FFFFFFB, 0x30000001, 0x2FFFFFF6,
        0x30000001, 0x2FFFFFF2, 0x30000001, 0xF0000000,
    ];
    let near = Failing { row: 1, value: -5 };
    assert_eq!(step(&rows, 0, &mut [5]), Ok(Step::NotEnabled(near)));
    assert_eq!(rack_step(&rows, 0, &mut [5]), Ok(Rack::NotEnabled(near)));
    assert_eq!(near.to_string(), "guard row 1 lacks 5");
}

#[test]
fn asks() {
    let (logic, lemmas) = FADE.split_at(LOGIC);
    assert_eq!(ask(logic, lemmas, 0), Ok(Ask::Accepted));
    assert_eq!(
        ask(logic, &[0x90030000, 0x80000000, 0xA0000000, 0xA0000000], 0),
        Ok(Ask::NotAccepted)
    );
    assert_eq!(ask(logic, lemmas, 4), Err(Refusal::Absent(4)));
    assert_eq!(ask(logic, &[], 0), Err(Refusal::Absent(0)));
}

#[test]
fn judges() {
    let (logic, lemmas) = FADE.split_at(LOGIC);
    let mut graph = [7; GRAPH_WORDS + 1];
    let mut path = [7; PATH_WORDS + 1];
    let safe = Judgement {
        verdict: Verdict::Safe,
        nodes: 1,
        edges: 2,
    };
    assert_eq!(judge(logic, lemmas, &mut graph, &mut path), Ok(safe));
    assert_eq!((graph[GRAPH_WORDS], path[PATH_WORDS]), (7, 7));
    let view = View::new(&graph, 1, 2);
    assert_eq!(view.successor(0, 1), Ok(Some(0)));
    assert_eq!(view.successor(1, 0), Err(Refusal::Absent(1)));
    assert_eq!(View::new(&[], 1, 2).successor(0, 0), Err(Refusal::Short(0)));
    let verdict = Verdict::MayRunOff {
        node: 0,
        action: 0,
        variable: 0,
        end: End::Low,
    };
    assert_eq!(
        judge(logic, &lemmas[4..], &mut graph, &mut path).map(|j| j.verdict),
        Ok(verdict)
    );
    assert_eq!(actions(&path).count(), 0);
    assert_eq!(
        judge(logic, lemmas, &mut [], &mut path),
        Err(Refusal::Short(0))
    );
    assert_eq!(
        judge(logic, lemmas, &mut graph, &mut []),
        Err(Refusal::Short(1))
    );
}

#[test]
fn finds() {
    let (logic, lemmas) = FADE.split_at(LOGIC);
    let mut graph = [7; GRAPH_WORDS];
    let mut list = [7; 6];
    assert_eq!(findings(logic, lemmas, &mut graph, &mut list), Ok(0));
    assert_eq!((list, listed(&list).count()), ([0; 6], 0));
    let run_off = |action, end| Finding::MayRunOff {
        node: 0,
        action,
        variable: 0,
        end,
    };
    assert_eq!(findings(logic, &[], &mut graph, &mut list), Ok(4));
    let ends = [(0, End::Low), (0, End::High), (1, End::Low), (1, End::High)];
    assert!(listed(&list).eq(ends.map(|(action, end)| run_off(action, end))));
    assert_eq!(list[4..], [0, 0]);
    assert_eq!(
        (origin(&graph, 2, 0), distance(&graph, 2, 0)),
        (None, Some(0))
    );
    assert_eq!(distance(&graph, 2, 1), None);
    list = [7; 6];
    let short = &mut list[..3];
    assert_eq!(
        findings(logic, &[], &mut graph, short),
        Err(Refusal::Findings(4))
    );
    assert_eq!(list, [7; 6]);
    assert_eq!(
        findings(logic, &[], &mut graph[1..], &mut list),
        Err(Refusal::Short(0))
    );
    let all = &mut vec![7; MOST_FINDINGS];
    assert_eq!(findings(logic, &[], &mut graph, all), Ok(4));
    assert!(all[4..].iter().all(|w| *w == 0));
}

/// Lent lists, longer than they need be, with words that a call has to write over or leave.
struct Lists {
    words: Vec<u32>,
    graph: Vec<u32>,
    path: Vec<u32>,
}

fn lists() -> Lists {
    let list = |length: usize, first: u32| (first..).take(length + 8).collect();
    Lists {
        words: list(SHOW_WORDS, 0xE700_0000),
        graph: list(GRAPH_WORDS, 0xA500_0000),
        path: list(PATH_WORDS, 0x5A00_0000),
    }
}

/// Are words, graph and path from these places on as `lists` made them?
fn left(l: &Lists, words: usize, graph: usize, path: usize) -> bool {
    let new = lists();
    l.words[words..] == new.words[words..]
        && l.graph[graph..] == new.graph[graph..]
        && l.path[path..] == new.path[path..]
}

fn bytes() -> Vec<u8> {
    FADE.iter().flat_map(|w| w.to_le_bytes()).collect()
}

#[test]
fn shows() {
    let judgement = Judgement {
        verdict: Verdict::Safe,
        nodes: 1,
        edges: 2,
    };
    for from in 0..4 {
        let mut l = lists();
        let mut moved = vec![0xFF; from];
        moved.extend(bytes());
        let shown = show(&moved[from..], &mut l.words, &mut l.graph, &mut l.path).unwrap();
        assert_eq!((shown.logic, shown.lemmas), FADE.split_at(LOGIC));
        assert_eq!(shown.answer, Ok(judgement));
        assert!(shown.is_safe());
        assert_eq!(ask(shown.logic, shown.lemmas, 3), Ok(Ask::Accepted));
        assert!(left(&l, FADE.len(), GRAPH_WORDS, PATH_WORDS));
        let (mut graph, mut path) = (vec![7; GRAPH_WORDS], vec![7; PATH_WORDS]);
        judge(&FADE[..LOGIC], &FADE[LOGIC..], &mut graph, &mut path).unwrap();
        assert_eq!(
            (&l.graph[..GRAPH_WORDS], &l.path[..PATH_WORDS]),
            (&graph[..], &path[..])
        );
    }
}

#[test]
fn shows_nothing_and_leaves_the_lists() {
    let mut l = lists();
    let long = vec![0; SHOW_BYTES + 1];
    let short = &mut vec![0; SHOW_WORDS - 1];
    for (bytes, why) in [
        (&long[..], NoShow::TooLong),
        (&long[..5], NoShow::OddBytes),
        (&bytes()[..127], NoShow::OddBytes),
    ] {
        let shown = show(bytes, &mut l.words, &mut l.graph, &mut l.path);
        assert_eq!(shown, Err(why));
        let shown = show(bytes, short, &mut l.graph, &mut l.path);
        assert_eq!(shown, Err(NoShow::WordsShort));
        assert!(left(&l, 0, 0, 0) && short.iter().all(|w| *w == 0));
    }
    assert_eq!(
        show(&bytes(), &mut [], &mut [], &mut []),
        Err(NoShow::WordsShort)
    );
}

#[test]
fn shows_refusals() {
    let mut l = lists();
    for (bytes, why) in [
        (&[][..], Refusal::Word(0)),
        (&bytes()[..4], Refusal::Word(1)),
        (&bytes()[..124], Refusal::Lemma(15)),
    ] {
        let shown = show(bytes, &mut l.words, &mut l.graph, &mut l.path).unwrap();
        assert_eq!(shown.answer, Err(why));
        assert!(!shown.is_safe());
        assert!(left(&l, bytes.len() / 4, 0, 0));
    }
    let answer = |l: &mut Lists, graph: usize, path: usize| {
        let (graph, path) = (&mut l.graph[..graph], &mut l.path[..path]);
        show(&bytes(), &mut l.words, graph, path).unwrap().answer
    };
    let (graph, path) = (
        answer(&mut l, GRAPH_WORDS - 1, PATH_WORDS),
        answer(&mut l, GRAPH_WORDS, PATH_WORDS - 1),
    );
    assert_eq!(
        (graph, path),
        (Err(Refusal::Short(0)), Err(Refusal::Short(1)))
    );
    assert!(left(&l, FADE.len(), 0, 0));
}
