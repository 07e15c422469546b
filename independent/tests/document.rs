//! The worked facts of document 01 with requests 1 and 6, and the answers worked out by hand for the test
//! records.

use independent::lemma::{Goal, Lemma, Source};
use independent::program::{Literals, Program, Row};
use independent::records::{answer, decode, digest, lent_graph, lent_path, JUDGE};
use independent::shows::*;
use independent::words::*;
use independent::*;

fn judged(p: &[u32], l: &[u32]) -> (Judged, Vec<u32>, Vec<u32>) {
    let mut graph = lent_graph(GRAPH_WORDS as u32);
    let mut path = lent_path(PATH_WORDS as u32);
    let verdict = judge(p, l, &mut graph, &mut path);
    (verdict, graph, path)
}

fn refusal(number: u32, value: u64) -> Refusal {
    Refusal { number, value }
}

fn zero(words: &[u32]) -> bool {
    words.iter().all(|w| *w == 0)
}

#[test]
fn a_fade_is_safe() {
    let (verdict, graph, path) = judged(&FADE, &FADE_LEMMAS);
    assert_eq!(verdict, Judged::Safe { nodes: 1, edges: 2 });
    assert_eq!(graph[..HEADER + 2], [0x80000000, 0xB0001FFF, 0x00000000, 0xC0000000, 0xC0000000]);
    assert!(zero(&graph[HEADER + 2..]) && zero(&path));
}

#[test]
fn b_fade_without_its_first_lemma() {
    let (verdict, _, path) = judged(&FADE, &FADE_LEMMAS[4..]);
    let low = Judged::MayRunOff { node: 0, action: 0, variable: 0, high: false, nodes: 1, edges: 2 };
    assert_eq!(verdict, low);
    assert!(zero(&path));
}

#[test]
fn c_all_multipliers_zero() {
    assert_eq!(ask(&FADE, &[0x90030000, 0x80000000, 0xA0000000, 0xA0000000], 0), Asked::NotAccepted);
    assert_eq!(ask(&FADE, &FADE_LEMMAS, 0), Asked::Accepted);
}

#[test]
fn house_is_the_show() {
    assert_eq!(house().words(), show("house").0);
    assert_eq!(FADE.to_vec(), show("fade").0);
    assert_eq!(FADE_LEMMAS.to_vec(), show("fade").1);
}

const NONE: u32 = 0xCFFFFFFF;

/// "With full lemmas the nodes are 8000C000, 80004002, 80008001, with 10 edges, safe." Nodes 1 and 2 are
/// found from node 0: distance 1.
const HOUSE_GRAPH: [u32; 21] = [
    0x8000C000, 0xB0001FFF, 0x00000000, 0xC0000001, 0xC0000002, 0xC0000000, 0xC0000000,
    0x80004002, 0xB0000000, 0x00000001, 0xC0000001, NONE, 0xC0000001, 0xC0000000,
    0x80008001, 0xB0000001, 0x00000001, NONE, 0xC0000002, 0xC0000000, 0xC0000002,
];

#[test]
fn house_with_full_lemmas() {
    for lemmas in [house_lemmas().concat(), show("house").1] {
        let (verdict, graph, path) = judged(&house().words(), &lemmas);
        assert_eq!(verdict, Judged::Safe { nodes: 3, edges: 10 });
        assert_eq!(graph[..3 * (HEADER + 4)], HOUSE_GRAPH);
        assert!(zero(&graph[3 * (HEADER + 4)..]) && zero(&path));
        assert_eq!(successor(&graph, 3, 4, 0, 1), Ok(2));
        assert_eq!(successor(&graph, 3, 4, 1, 1), Ok(0x0FFFFFFF));
    }
}

#[test]
fn d_house_with_no_lemmas() {
    let (verdict, graph, path) = judged(&house().words(), &[]);
    assert_eq!(verdict, Judged::MayForbid { node: 0, bad: 0, nodes: 1, edges: 4 });
    let record = [0x80000000, 0xB0001FFF, 0x00000000, 0xC0000000, 0xC0000000, 0xC0000000, 0xC0000000];
    assert_eq!(graph[..HEADER + 4], record);
    assert!(zero(&path));
}

/// "Case (e) of 01 then has the three nodes and ten edges of House with full lemmas, and is safe."
#[test]
fn e_house_without_action_0_failing_p0() {
    for list in [house_lemmas(), split_lemmas(&show("house").1)] {
        let mut list = list;
        list.remove(house_failing(&list));
        let (verdict, graph, path) = judged(&house().words(), &list.concat());
        assert_eq!(verdict, Judged::Safe { nodes: 3, edges: 10 });
        assert_eq!(graph[..3 * (HEADER + 4)], HOUSE_GRAPH);
        assert!(zero(&graph[3 * (HEADER + 4)..]) && zero(&path));
    }
}

/// Without the start's lemma on P0 as well there is nothing to keep: node 1 is 80000002, path 0. Nodes 1 to 3
/// are found from node 0, node 4 from node 1: distances 1 and 2.
#[test]
fn house_with_p0_unknown() {
    for list in [house_lemmas(), split_lemmas(&show("house").1)] {
        let (verdict, graph, path) = judged(&house().words(), &leave_out(&list, &HOUSE_P0_UNKNOWN));
        assert_eq!(verdict, Judged::MayForbid { node: 1, bad: 0, nodes: 5, edges: 17 });
        let expected = [
            0x80008000, 0xB0001FFF, 0x00000000, 0xC0000001, 0xC0000002, 0xC0000003, 0xC0000000,
            0x80000002, 0xB0000000, 0x00000001, 0xC0000001, NONE, 0xC0000004, 0xC0000000,
            0x80008001, 0xB0000001, 0x00000001, NONE, 0xC0000002, 0xC0000003, 0xC0000002,
            0x8000C000, 0xB0000002, 0x00000001, 0xC0000004, 0xC0000002, 0xC0000003, 0xC0000003,
            0x80004002, 0xB0000012, 0x00000002, 0xC0000004, NONE, 0xC0000004, 0xC0000003,
        ];
        assert_eq!(graph[..5 * (HEADER + 4)], expected);
        assert_eq!(path[0], 0xD0000000);
        assert!(zero(&graph[5 * (HEADER + 4)..]) && zero(&path[1..]));
    }
}

/// Without both lemmas of action 0 on P0 it keeps P0: node 3 is 80000003, path 1 0, distance 2.
#[test]
fn house_with_p0_kept() {
    let (verdict, graph, path) = judged(&house().words(), &leave_out(&house_lemmas(), &HOUSE_P0_KEPT));
    assert_eq!(verdict, Judged::MayForbid { node: 3, bad: 0, nodes: 4, edges: 14 });
    assert_eq!(graph[..2 * (HEADER + 4)], HOUSE_GRAPH[..2 * (HEADER + 4)]);
    let expected = [
        0x80008001, 0xB0000001, 0x00000001, 0xC0000003, 0xC0000002, 0xC0000000, 0xC0000002,
        0x80000003, 0xB0000020, 0x00000002, 0xC0000003, NONE, 0xC0000001, 0xC0000002,
    ];
    assert_eq!(graph[2 * (HEADER + 4)..4 * (HEADER + 4)], expected);
    assert_eq!(path[..3], [0xD0000001, 0xD0000000, 0]);
}

#[test]
fn f_empty_program() {
    assert_eq!(check(&[]), Err(refusal(2, 0)));
}

#[test]
fn g_and_h() {
    let mut p = FADE.to_vec();
    p[0] = var_word(7, 7);
    assert!(check(&p).is_ok());
    p[0] = var_word(8, 7);
    assert_eq!(check(&p), Err(refusal(4, 0)));
    let mut p = FADE.to_vec();
    for (coefficient, good) in [(1000, true), (1001, false), (-1000, true), (-1001, false), (0, false)] {
        p[5] = term_word(0, coefficient);
        assert_eq!(check(&p).is_ok(), good);
        if !good {
            assert_eq!(check(&p), Err(refusal(4, 5)));
        }
    }
}

#[test]
fn counts() {
    let counts = |v, s, p, a, f| Ok(Counts { variables: v, start_rows: s, predicates: p, actions: a, forbidden: f });
    assert_eq!(check(&FADE), counts(1, 0, 0, 2, 0));
    assert_eq!(check(&house().words()), counts(2, 2, 2, 4, 1));
    assert_eq!(check(&show("rig8").0), counts(8, 8, 8, 16, 3));
}

#[test]
fn shows_of_the_readme() {
    let safe = |nodes, edges| Judged::Safe { nodes, edges };
    for (name, verdict) in
        [("fade", safe(1, 2)), ("house", safe(3, 10)), ("bakery", safe(9, 14)), ("rig8", safe(500, 5600))]
    {
        let (p, l) = show(name);
        assert_eq!(judged(&p, &l).0, verdict);
    }
    // "words" and "lemmas" of the table
    let sizes = |name: &str| {
        let (p, l) = show(name);
        (p.len() + l.len(), split_lemmas(&l).len())
    };
    assert_eq!(sizes("bakery"), (744, 114));
    assert_eq!(sizes("rig8"), (2008, 346));
}

#[test]
fn action_parts() {
    assert_eq!(action_part(&FADE, 0), &FADE[3..9]);
    assert_eq!(action_part(&FADE, 1), &FADE[9..15]);
    assert!(std::ptr::eq(action_part(&FADE, 1), &FADE[9..15]));
    assert!(action_part(&FADE, 2).is_empty());
    assert!(action_part(&FADE[..15], 0).is_empty());
    let home = house().words();
    assert_eq!(action_part(&home, 3), &[0x60000001, 0x70000001, 0x20000000]);
}

#[test]
fn steps() {
    let mut state = [4];
    assert_eq!(step(&FADE, 0, &mut state), Stepped::NotEnabled { row: 0, value: -1 }); // 4 - 5
    assert_eq!(state, [4]);
    state = [5];
    assert_eq!(step(&FADE, 0, &mut state), Stepped::Moved);
    assert_eq!(state, [0]);
    state = [996];
    assert_eq!(step(&FADE, 1, &mut state), Stepped::NotEnabled { row: 0, value: -1 }); // 995 - 996
    assert_eq!(state, [996]);
    state = [1001];
    assert_eq!(step(&FADE, 1, &mut state), Stepped::Refused(refusal(10, 0)));
    assert_eq!(step(&FADE, 2, &mut state), Stepped::Refused(refusal(8, 2)));
    assert_eq!(step(&FADE, 2, &mut []), Stepped::Refused(refusal(8, 2)));
    assert_eq!(step(&FADE, 1, &mut []), Stepped::Refused(refusal(9, 0)));
    assert_eq!(step(&FADE, 1, &mut [2000, 1]), Stepped::Refused(refusal(9, 2)));
    assert_eq!(step(&FADE[..3], 1, &mut []), Stepped::Refused(refusal(2, 3)));
    // At once: demo's action 1 is x, y := y + 5, x - 5.
    let p = demo().words();
    let mut state = [9, -2];
    assert_eq!(step(&p, 1, &mut state), Stepped::Moved);
    assert_eq!(state, [3, 4]);
    // The lowest variable that runs off; nothing is written.
    let t = Text {
        vars: vec![(0, 5); 3],
        actions: vec![act(&[], &[(0, row(1, &[])), (1, row(1, &[(1, 1)])), (2, row(-1, &[]))])],
        ..Text::default()
    };
    let mut state = [0, 5, 0];
    assert_eq!(step(&t.words(), 0, &mut state), Stepped::RunsOff(1));
    assert_eq!(state, [0, 5, 0]);
    let mut state = [0, 4, 0];
    assert_eq!(step(&t.words(), 0, &mut state), Stepped::RunsOff(2));
    assert_eq!(step(&t.words(), 0, &mut [9, 9, 9]), Stepped::Refused(refusal(10, 0)));
    assert_eq!(step(&t.words(), 0, &mut [0, -1, 9]), Stepped::Refused(refusal(10, 1)));
}

#[test]
fn views() {
    let (_, graph, _) = judged(&FADE, &FADE_LEMMAS);
    assert_eq!(successor(&graph, 1, 2, 0, 1), Ok(0));
    assert_eq!(successor(&graph[..HEADER + 2], 1, 2, 0, 1), Ok(0));
    assert_eq!(successor(&graph[..HEADER + 1], 1, 2, 0, 1), Err(refusal(1, 0)));
    assert_eq!(successor(&graph, MAX_NODES + 1, 2, 0, 1), Err(refusal(3, 0)));
    assert_eq!(successor(&[], 1, 17, 0, 1), Err(refusal(3, 0)));
    assert_eq!(successor(&[], 1, 0, 0, 1), Err(refusal(1, 0)));
    assert_eq!(successor(&[], 0, 16, 5, 1), Err(refusal(8, 5)));
    assert_eq!(successor(&graph, 1, 2, 1, 2), Err(refusal(8, 1)));
    assert_eq!(successor(&graph, 1, 2, 0, 2), Err(refusal(8, 2)));
    assert_eq!(successor(&graph, 1, 3, 0, 2), Err(refusal(2, HEADER as u64 + 2)));
    assert_eq!(successor(&graph, MAX_NODES, 16, MAX_NODES - 1, 15), Err(refusal(2, GRAPH_WORDS as u64 - 1)));
}

#[test]
fn the_document_limits() {
    // 2,665 logic words and 12,800 lemma words are the most.
    let greatest = cases().into_iter().find(|c| c.name == "greatest program and lemmas").unwrap();
    assert_eq!(greatest.record.program.len(), 2665);
    assert_eq!(greatest.record.lemmas.len(), 12800);
}

/// Every answer worked out by hand; refusals other than 7 leave the lists, 7 zeroes 9,728 words.
#[test]
fn hand_answers() {
    let mut hands = 0;
    let mut wrong = Vec::new();
    for case in cases() {
        let line = answer(&case.record);
        if let Some(hand) = &case.hand {
            hands += 1;
            let head = line.split(" GRAPH").next().unwrap();
            if head != hand {
                wrong.push(format!("{}: by hand {hand}, answered {line}", case.name));
            }
        }
        if case.record.call != JUDGE {
            continue;
        }
        let graph = lent_graph(case.record.graph);
        let path = lent_path(case.record.path);
        if line.starts_with("REFUSED 7 ") {
            let mut graph = graph;
            graph[..GRAPH_WORDS].fill(0);
            let tail = format!(" GRAPH {} PATH {}", digest(&graph), digest(&path));
            assert!(line.ends_with(&tail), "{}: {line}", case.name);
        } else if line.starts_with("REFUSED ") {
            let tail = format!(" GRAPH {} PATH {}", digest(&graph), digest(&path));
            assert!(line.ends_with(&tail), "{}: {line}", case.name);
        }
    }
    println!("{hands} answers by hand");
    assert!(wrong.is_empty(), "{}", wrong.join("\n"));
}

#[test]
fn records_are_within_bounds() {
    let all = cases();
    let words: Vec<u32> = all.iter().flat_map(|c| c.record.words()).collect();
    assert!(words.len() * 4 <= 1_000_000);
    assert!(all.iter().all(|c| c.record.words().len() <= 16_000));
    let back = decode(&words).unwrap();
    assert_eq!(back, all.iter().map(|c| c.record.clone()).collect::<Vec<_>>());
}

/// The path of the 9-bit counter: 511 steps of action 0.
#[test]
fn a_long_path() {
    let (t, l) = counter(9, &[(0, 511)]);
    let (verdict, graph, path) = judged(&t.words(), &l);
    assert_eq!(verdict, Judged::MayForbid { node: 511, bad: 0, nodes: 512, edges: 512 });
    assert!(path[..511].iter().all(|w| *w == 0xD0000000) && path[511] == 0);
    let last = 511 * (HEADER + 1);
    assert_eq!(graph[last], sets_word(0, 511));
    assert_eq!(graph[last + 1], 0xB0000000 | 510 << 4);
    assert_eq!(graph[last + 2], 511);
    assert_eq!(graph[last + HEADER], 0xC0000000);
}

/// The tree: node 8 is found from 6 by action 1, 6 from 4 by 0, 4 from 1 by 1, 1 from 0 by 0.
#[test]
fn a_path_by_origins() {
    let case = cases().into_iter().find(|c| c.name == "tree, 8 forbidden").unwrap();
    let (_, _, path) = judged(&case.record.program, &case.record.lemmas);
    assert_eq!(path[..5], [0xD0000000, 0xD0000001, 0xD0000000, 0xD0000001, 0]);
}

// ---------------------------------------------------------------------------------------------
// A second, slow reading: no masks, no groups, straight from the sentences; and all states of
// small programs.

type Slow = Vec<(usize, bool)>;

fn literals_of(l: &Literals) -> Slow {
    let mut all = Vec::new();
    for i in 0..14 {
        if l.known_true >> i & 1 == 1 {
            all.push((i, true));
        }
        if l.known_false >> i & 1 == 1 {
            all.push((i, false));
        }
    }
    all
}

/// Why there is no successor.
#[derive(Clone, Copy, Debug, PartialEq, Eq, Hash)]
enum Why {
    Cannot,
    BothShown,
    KeptAgainstShown,
}

fn applies(program: &Program, l: &Lemma, source: Source, node: &Slow) -> bool {
    l.source == source
        && literals_of(&l.premises).iter().all(|x| node.contains(x))
        && lemma::weigh(program, l) == Some(true)
}

/// "a zero coefficient on every variable that an action sets"; the start keeps nothing.
fn keeps(program: &Program, source: Source, predicate: usize) -> bool {
    let Source::Action(a) = source else { return false };
    let sets = |v: usize| program.actions[a].assignments.iter().any(|assignment| assignment.variable == v);
    (0..8).filter(|v| sets(*v)).all(|v| program.predicates[predicate].coefficients[v] == 0)
}

/// A literal is in the successor if an applying lemma shows it, or if it is kept.
fn slow_next(program: &Program, lemmas: &[Lemma], source: Source, node: &Slow) -> Result<Slow, Why> {
    let shown = |goal: Goal| lemmas.iter().any(|l| l.goal == goal && applies(program, l, source, node));
    if shown(Goal::Cannot) {
        return Err(Why::Cannot);
    }
    let (mut out, mut clash) = (Vec::new(), None);
    for i in 0..program.predicates.len() {
        let (holds, fails) = (shown(Goal::Holds(i)), shown(Goal::Fails(i)));
        let kept = |yes: bool| keeps(program, source, i) && node.contains(&(i, yes));
        if holds && fails {
            return Err(Why::BothShown);
        }
        match (holds || kept(true), fails || kept(false)) {
            (true, true) => clash = Some(Why::KeptAgainstShown),
            (true, false) => out.push((i, true)),
            (false, true) => out.push((i, false)),
            (false, false) => {}
        }
    }
    clash.map_or(Ok(out), Err)
}

fn slow_judge(p: &[u32], words: &[u32]) -> Option<(Judged, Vec<u32>, Vec<u32>)> {
    let program = program::read(p).ok()?;
    let lemmas = lemma::read(&program, words).ok()?;
    let next = |source: Source, node: &Slow| slow_next(&program, &lemmas, source, node).ok();
    let mut nodes: Vec<(Slow, u32, Vec<u32>)> = Vec::new();
    let mut ways: Vec<Vec<u32>> = Vec::new();
    if let Some(first) = next(Source::Start, &vec![]) {
        nodes.push((first, 0x1FFF, vec![]));
        ways.push(vec![]);
    }
    let mut at = 0;
    while at < nodes.len() {
        for a in 0..program.actions.len() {
            let edge = match next(Source::Action(a), &nodes[at].0) {
                None => 0x0FFFFFFF,
                Some(set) => match nodes.iter().position(|n| n.0 == set) {
                    Some(n) => n as u32,
                    None => {
                        if nodes.len() == MAX_NODES {
                            return None;
                        }
                        nodes.push((set, (at as u32) * 16 + a as u32, vec![]));
                        let mut way = ways[at].clone();
                        way.push(0xD000_0000 + a as u32);
                        ways.push(way);
                        nodes.len() as u32 - 1
                    }
                },
            };
            nodes[at].2.push(edge);
        }
        at += 1;
    }
    let mut graph = Vec::new();
    let mut edges = 0;
    for ((set, origin, targets), way) in nodes.iter().zip(&ways) {
        let mut word = 0x8000_0000;
        for (i, yes) in set {
            word += if *yes { 1u32 << i } else { 1u32 << (14 + i) };
        }
        graph.push(word);
        graph.push(0xB000_0000 + origin);
        graph.push(way.len() as u32); // the distance: as many steps as the path has
        graph.extend(targets.iter().map(|t| 0xC000_0000 + t));
        edges += targets.iter().filter(|t| **t != 0x0FFFFFFF).count();
    }
    graph.resize(GRAPH_WORDS, 0);
    let count = nodes.len();
    let mut verdict = Judged::Safe { nodes: count, edges };
    let mut path = vec![];
    'all: for (n, (set, _, targets)) in nodes.iter().enumerate() {
        for (bad, combination) in program.forbidden.iter().enumerate() {
            if !literals_of(combination).iter().any(|(i, yes)| set.contains(&(*i, !*yes))) {
                verdict = Judged::MayForbid { node: n, bad, nodes: count, edges };
                path = ways[n].clone();
                break 'all;
            }
        }
        for (a, target) in targets.iter().enumerate() {
            for assignment in &program.actions[a].assignments {
                for high in [false, true] {
                    let v = assignment.variable;
                    let goal = if high { Goal::NotAbove(v) } else { Goal::NotBelow(v) };
                    let shown = lemmas.iter().any(|l| l.goal == goal && applies(&program, l, Source::Action(a), set));
                    if *target != 0x0FFFFFFF && !shown {
                        verdict = Judged::MayRunOff { node: n, action: a, variable: v, high, nodes: count, edges };
                        path = ways[n].clone();
                        break 'all;
                    }
                }
            }
        }
    }
    path.resize(PATH_WORDS, 0);
    Some((verdict, graph, path))
}

#[test]
fn slow_and_fast_agree() {
    let mut compared = 0;
    for case in cases() {
        // rig8 and the large ones are left to the others for time
        if case.record.call != JUDGE || case.record.lemmas.len() > 1500 {
            continue;
        }
        if let Some(slow) = slow_judge(&case.record.program, &case.record.lemmas) {
            if slow.1.iter().filter(|w| **w >> 28 == SETS).count() > 200 {
                continue;
            }
            assert_eq!(judged(&case.record.program, &case.record.lemmas), slow, "{}", case.name);
            compared += 1;
        }
    }
    println!("{compared} compared");
    assert!(compared > 150);
}

/// The same over programs by chance, of which many actions keep some predicates and touch others.
#[test]
fn slow_and_fast_agree_by_chance() {
    let (mut compared, mut some_kept) = (0, 0);
    let chance = (100..500).map(small).chain((100..180).map(mixed));
    for (number, (t, l)) in chance.enumerate() {
        let p = t.words();
        let Some(slow) = slow_judge(&p, &l) else { continue };
        assert_eq!(judged(&p, &l), slow, "{number}");
        compared += 1;
        let program = program::read(&p).unwrap();
        let kept = |a: usize| (0..program.predicates.len()).filter(|i| keeps(&program, Source::Action(a), *i)).count();
        some_kept += (0..program.actions.len()).filter(|a| (1..program.predicates.len()).contains(&kept(*a))).count();
    }
    println!("{compared} compared, {some_kept} actions that keep some and touch some");
    assert!(compared > 400 && some_kept > 500);
}

fn states(program: &Program) -> Vec<Vec<i32>> {
    let mut all = vec![vec![]];
    for range in &program.ranges {
        let mut longer = Vec::new();
        for state in &all {
            for value in range.low..=range.high {
                let mut state: Vec<i32> = state.clone();
                state.push(value as i32);
                longer.push(state);
            }
        }
        all = longer;
    }
    all
}

/// "yes is then a value of at least 0"
fn holds(row: &Row, state: &[i32]) -> bool {
    row.value(state) >= 0
}

fn meets(program: &Program, l: &Literals, state: &[i32]) -> bool {
    literals_of(l).iter().all(|(i, yes)| holds(&program.predicates[*i], state) == *yes)
}

/// Accepted lemmas are true in all states; safe programs neither run off nor reach a forbidden state.
#[test]
fn accepted_is_true_and_safe_is_safe() {
    let (mut accepted, mut safe, mut false_ones) = (0, 0, 0);
    for seed in 0..600 {
        let (t, words) = small(seed);
        let p = t.words();
        let program = program::read(&p).unwrap();
        let all = states(&program);
        for (k, l) in lemma::read(&program, &words).unwrap().iter().enumerate() {
            let truth = all.iter().all(|state| {
                let (before, after): (bool, Vec<i64>) = match l.source {
                    Source::Start => {
                        (program.start.iter().all(|r| holds(r, state)), state.iter().map(|v| i64::from(*v)).collect())
                    }
                    Source::Action(a) => {
                        let action = &program.actions[a];
                        let value = |v: usize| match action.assigned(v) {
                            Some(r) => r.value(state),
                            None => i64::from(state[v]),
                        };
                        (action.guards.iter().all(|r| holds(r, state)), (0..state.len()).map(value).collect())
                    }
                };
                if !before || !meets(&program, &l.premises, state) {
                    return true;
                }
                let after32: Vec<i32> = after.iter().map(|v| *v as i32).collect();
                match l.goal {
                    Goal::Cannot => false,
                    Goal::Holds(i) => holds(&program.predicates[i], &after32),
                    Goal::Fails(i) => !holds(&program.predicates[i], &after32),
                    Goal::NotBelow(v) => after[v] >= program.ranges[v].low,
                    Goal::NotAbove(v) => after[v] <= program.ranges[v].high,
                }
            });
            match ask(&p, &words, k) {
                Asked::Accepted => {
                    accepted += 1;
                    assert!(truth, "seed {seed} lemma {k}");
                }
                Asked::NotAccepted => false_ones += u32::from(!truth),
                Asked::Refused(r) => panic!("{r:?}"),
            }
        }
        if !matches!(judged(&p, &words).0, Judged::Safe { .. }) {
            continue;
        }
        safe += 1;
        let mut reached: std::collections::HashSet<Vec<i32>> = std::collections::HashSet::new();
        let mut todo: Vec<Vec<i32>> =
            all.into_iter().filter(|s| program.start.iter().all(|r| holds(r, s))).collect();
        while let Some(state) = todo.pop() {
            if !reached.insert(state.clone()) {
                continue;
            }
            assert!(!program.forbidden.iter().any(|c| meets(&program, c, &state)), "seed {seed} {state:?}");
            for a in 0..program.actions.len() {
                let mut next = state.clone();
                match step(&p, a, &mut next) {
                    Stepped::Moved => todo.push(next),
                    Stepped::NotEnabled { .. } => {}
                    other => panic!("seed {seed} {state:?} action {a}: {other:?}"),
                }
            }
        }
    }
    println!("{accepted} accepted, {false_ones} false and not accepted, {safe} safe programs");
    assert!(accepted > 1000 && safe > 30 && false_ones > 100);
}

// ---------------------------------------------------------------------------------------------
// Request 1

/// What is kept is true: where an action moves, a predicate that it doesn't touch holds afterwards
/// exactly if it held before.
#[test]
fn untouched_predicates_stay() {
    let mut moves = 0;
    for seed in 0..200 {
        let p = small(seed).0.words();
        let program = program::read(&p).unwrap();
        for (state, a) in states(&program).iter().flat_map(|s| (0..program.actions.len()).map(move |a| (s, a))) {
            let mut next = state.clone();
            if step(&p, a, &mut next) != Stepped::Moved {
                continue;
            }
            for i in (0..program.predicates.len()).filter(|i| keeps(&program, Source::Action(a), *i)) {
                let predicate = &program.predicates[i];
                assert_eq!(holds(predicate, state), holds(predicate, &next), "seed {seed}");
                moves += 1;
            }
        }
    }
    assert!(moves > 1000);
}

/// Lemmas that say what is kept anyhow change nothing.
#[test]
fn superfluous_lemmas_change_nothing() {
    let mut dropped = 0;
    let records = cases().into_iter().map(|c| c.record).filter(|r| r.call == JUDGE);
    let chance = (0..300).map(small).chain((0..60).map(mixed));
    let all = records.map(|r| (r.program, r.lemmas)).chain(chance.map(|(t, l)| (t.words(), l)));
    for (p, l) in all {
        let whole = program::read(&p).and_then(|program| lemma::read(&program, &l));
        if whole.is_err() {
            continue;
        }
        let fewer = needed(&p, &l);
        assert_eq!(judged(&p, &l), judged(&p, &fewer));
        dropped += usize::from(fewer.len() < l.len());
    }
    println!("{dropped} lists with superfluous lemmas");
    assert!(dropped > 100);
}

/// The literals of a node's SETS word.
fn node_literals(word: u32) -> Slow {
    literals_of(&Literals::of_word(word))
}

/// Request 1 leaves the graphs of house and rig8 alone: what an action keeps, an accepted lemma shows
/// from that literal alone.
#[test]
fn kept_and_shown_in_house_and_rig8() {
    for name in ["house", "rig8"] {
        let (p, l) = show(name);
        let program = program::read(&p).unwrap();
        let lemmas = lemma::read(&program, &l).unwrap();
        for source in (0..program.actions.len()).map(Source::Action) {
            for i in (0..program.predicates.len()).filter(|i| keeps(&program, source, *i)) {
                let shown = |goal: Goal, node: Slow| lemmas.iter().any(|l| l.goal == goal && applies(&program, l, source, &node));
                assert!(shown(Goal::Holds(i), vec![(i, true)]) && shown(Goal::Fails(i), vec![(i, false)]), "{name} {i}");
            }
        }
    }
}

/// And that of bakery: its 9 nodes have all literals, and states with small numbers walk its 14
/// edges, so that nothing kept meets its opposite on them.
#[test]
fn bakery_walked_by_states() {
    let (p, l) = show("bakery");
    let program = program::read(&p).unwrap();
    let (_, graph, _) = judged(&p, &l);
    let record = HEADER + program.actions.len();
    assert!((0..9).all(|n| node_literals(graph[n * record]).len() == program.predicates.len()));
    let literals = |state: &[i32]| program.predicates.iter().map(|r| holds(r, state)).collect::<Vec<_>>();
    let (mut reached, mut todo) = (std::collections::HashSet::new(), vec![vec![0; 4]]);
    let (mut nodes, mut edges) = (std::collections::HashSet::new(), std::collections::HashSet::new());
    while let Some(state) = todo.pop() {
        if state[2] > 5 || state[3] > 5 || !reached.insert(state.clone()) {
            continue;
        }
        nodes.insert(literals(&state));
        for a in 0..program.actions.len() {
            let mut next = state.clone();
            if step(&p, a, &mut next) == Stepped::Moved {
                edges.insert((literals(&state), a));
                todo.push(next);
            }
        }
    }
    assert_eq!((nodes.len(), edges.len()), (9, 14));
}

fn case(name: &str) -> shows::Case {
    cases().into_iter().find(|c| c.name == name).unwrap_or_else(|| panic!("no case {name}"))
}

/// A node by hand: known-false and known-true predicates, and the successors, -1 for none.
type ByHand<'a> = (u32, u32, &'a [i32]);

/// The records of these nodes. A node's origin is the first edge to it; its distance is "the parent's plus
/// 1".
fn graph_by_hand(nodes: &[ByHand]) -> Vec<u32> {
    let (mut words, mut distances) = (Vec::new(), Vec::new());
    for (number, (f, t, edges)) in nodes.iter().enumerate() {
        words.push(sets_word(*f, *t));
        let found = nodes.iter().enumerate().find_map(|(parent, (_, _, edges))| {
            edges.iter().position(|e| *e == number as i32).map(|action| (parent, action))
        });
        let (origin, distance) = if number == 0 {
            (0x1FFF, 0)
        } else {
            let (parent, action) = found.unwrap();
            ((parent << 4 | action) as u32, distances[parent] + 1)
        };
        words.extend([make(ORIGIN, origin), distance]);
        distances.push(distance);
        words.extend(edges.iter().map(|e| make(EDGE, *e as u32)));
    }
    words.resize(GRAPH_WORDS, 0);
    words
}

/// The records with one predicate: kept, or lost at node 1.
#[test]
fn graphs_of_one_predicate() {
    let (mut kept, mut touched) = (0, 0);
    for case in cases() {
        let program = program::read(&case.record.program);
        let Ok(program) = program.map(|p| (p.predicates.len(), p.forbidden)) else { continue };
        let (1, [bad]) = (program.0, &program.1[..]) else { continue };
        let (f, t) = (bad.known_true, bad.known_false); // the opposite of what is forbidden
        let by_hand: &[ByHand] = if case.name.starts_with("kept: ") || case.name == "touched: but shown" {
            kept += 1;
            &[(f, t, &[0])]
        } else if case.name.starts_with("touched: ") {
            touched += 1;
            &[(f, t, &[1]), (0, 0, &[1])]
        } else {
            continue;
        };
        assert_eq!(judged(&case.record.program, &case.record.lemmas).1, graph_by_hand(by_hand), "{}", case.name);
    }
    assert_eq!((kept, touched), (20, 18));
}

/// Graphs of request 1's other small records, worked out by hand.
#[test]
fn graphs_of_request_1() {
    let list: Vec<(&str, Vec<ByHand>)> = vec![
        ("kept: predicate 0 on variable 1", vec![(0, 3, &[1]), (0, 1, &[1])]),
        ("two actions: x, y, P1 forbidden", vec![(2, 1, &[1, 2]), (2, 0, &[1, 3]), (0, 1, &[3, 2]), (0, 0, &[3, 3])]),
        ("two actions: y, x, P1 forbidden", vec![(2, 1, &[1, 2]), (0, 1, &[1, 3]), (2, 0, &[3, 2]), (0, 0, &[3, 3])]),
        (
            "two actions: x, none, y, P1 forbidden",
            vec![(2, 1, &[1, 0, 2]), (2, 0, &[1, 1, 3]), (0, 1, &[3, 2, 2]), (0, 0, &[3, 3, 3])],
        ),
        ("start lemmas only", vec![(2, 1, &[0, 0])]),
        ("start lemmas only, no lemma at all", vec![(0, 0, &[0, 0])]),
        ("start lemmas only, that of P0", vec![(0, 1, &[0, 0])]),
        ("start lemmas only, that of P1", vec![(2, 0, &[0, 0])]),
        ("start lemmas only, y set", vec![(2, 1, &[1]), (0, 1, &[1])]),
        ("start without a successor, action that keeps", vec![]),
        ("opposites: kept true, shown false", vec![(0, 1, &[-1])]),
        ("opposites: kept true, shown both ways", vec![(0, 1, &[-1])]),
        ("opposites: kept true, shown true", vec![(0, 1, &[0])]),
        ("opposites: kept false, shown false", vec![(1, 0, &[0])]),
        ("opposites: not known, shown false", vec![(0, 0, &[1]), (1, 0, &[1])]),
        ("opposites: kept true, opposite not accepted", vec![(0, 1, &[0])]),
        ("opposites: kept true, opposite does not apply", vec![(0, 1, &[0])]),
        ("opposites: kept true, goal 0", vec![(0, 1, &[-1])]),
        ("opposites: kept false, shown true", vec![(1, 0, &[-1])]),
        ("opposites: clash on what is touched", vec![(0, 1, &[-1])]),
        ("opposite at node 1 only", vec![(1, 0, &[1, 0]), (0, 1, &[1, -1])]),
        ("no opposite at node 1", vec![(1, 0, &[1, 0]), (0, 1, &[1, 1])]),
        ("kept literals as premises", vec![(2, 1, &[1, 2, -1]), (0, 1, &[1, 2, -1]), (0, 3, &[1, 2, -1])]),
        (
            "cues",
            vec![
                (15, 0, &[1, -1, -1, -1]),
                (12, 3, &[-1, 2, -1, -1]),
                (8, 7, &[-1, -1, 3, -1]),
                (0, 15, &[-1, -1, -1, 4]),
                (14, 0, &[1, -1, -1, -1]),
            ],
        ),
        (
            "alternate: true 0, 1, false 2, 3, not P0 forbidden",
            vec![(0xCCC, 0x3333, &[1, 2]), (0x444, 0x1111, &[1, 3]), (0x888, 0x2222, &[3, 2]), (0, 0, &[3, 3])],
        ),
        (
            "alternate: false 0, 1, true 2, 3, P13 forbidden",
            vec![(0x3333, 0xCCC, &[1, 2]), (0x1111, 0x444, &[1, 3]), (0x2222, 0x888, &[3, 2]), (0, 0, &[3, 3])],
        ),
        (
            "kept subsets 3, 3 actions",
            vec![
                (0, 0, &[1, 2, 3]),
                (0, 1, &[1, 4, 5]),
                (0, 2, &[4, 2, 6]),
                (0, 4, &[5, 6, 3]),
                (0, 3, &[4, 4, 7]),
                (0, 5, &[5, 7, 5]),
                (0, 6, &[7, 6, 6]),
                (0, 7, &[7, 7, 7]),
            ],
        ),
        (
            "kept subsets 2 and one node",
            vec![(0, 0, &[1, 2, 3]), (0, 1, &[1, 4, 3]), (0, 2, &[4, 2, 3]), (0, 4, &[-1, -1, 3]), (0, 3, &[4, 4, 3])],
        ),
        ("alternate: nothing set", vec![(0xCCC, 0x3333, &[0])]),
        ("alternate: both set", vec![(0xCCC, 0x3333, &[1]), (0, 0, &[1])]),
        ("counter 4, nothing set", vec![(15, 0, &[-1])]),
        ("nothing is kept", vec![(1, 0, &[1]), (0, 0, &[1])]),
        ("goals 1 and 2 of two predicates", vec![(2, 1, &[1]), (2, 0, &[1])]),
    ];
    for (name, by_hand) in list {
        let record = case(name).record;
        assert_eq!(judged(&record.program, &record.lemmas).1, graph_by_hand(&by_hand), "{name}");
    }
}

/// Paths to nodes where something was kept, or lost.
#[test]
fn paths_of_request_1() {
    let list: [(&str, &[u32]); 9] = [
        ("touched: known true", &[0]),
        ("two actions: x, y, P1 forbidden", &[1]),
        ("two actions: x, none, y, P1 forbidden", &[2]),
        ("no opposite at node 1", &[0]),
        ("cues, P0 not shown", &[0, 1, 2]),
        ("eight, literals lost, P7 forbidden", &[7]),
        ("eight, literals turned", &[0, 1, 2, 3, 4, 5, 6, 7]),
        ("house without own lemma 19", &[1, 3]),
        ("rig8, P6 and P7 forbidden", &[12, 14]),
    ];
    for (name, actions) in list {
        let record = case(name).record;
        let mut steps: Vec<u32> = actions.iter().map(|a| make(STEP, *a)).collect();
        steps.resize(PATH_WORDS, 0);
        assert_eq!(judged(&record.program, &record.lemmas).2, steps, "{name}");
    }
}

/// The same graph with the lemmas that request 1 makes superfluous and without them.
#[test]
fn superfluous_lemmas_of_the_shows() {
    for name in ["house", "bakery", "rig8"] {
        let (p, l) = show(name);
        let fewer = case(&format!("show {name}, lemmas that are needed")).record.lemmas;
        assert!(fewer.len() < l.len());
        assert_eq!(judged(&p, &l), judged(&p, &fewer), "{name}");
    }
    let home = house().words();
    let full = judged(&home, &house_lemmas().concat());
    for name in ["house, own lemmas that are needed", "house, six own lemmas fewer", "house (e), own lemmas"] {
        assert_eq!(judged(&home, &case(name).record.lemmas), full, "{name}");
    }
}

/// No kind of answer is missing among the records, nor what is hard to come by: large graphs, paths,
/// each reason for which there is no successor.
#[test]
fn records_cover() {
    let mut kinds: std::collections::HashMap<String, usize> = std::collections::HashMap::new();
    let mut count = |kind: String| *kinds.entry(kind).or_default() += 1;
    for case in cases() {
        let line = answer(&case.record);
        let words: Vec<&str> = line.split(' ').collect();
        count(if words[0] == "REFUSED" { format!("REFUSED {}", words[1]) } else { words[0].to_string() });
        let (p, l) = (&case.record.program, &case.record.lemmas);
        if case.record.call != JUDGE || words[0] == "REFUSED" {
            continue;
        }
        let (_, graph, path) = judged(p, l);
        let program = program::read(p).unwrap();
        let lemmas = lemma::read(&program, l).unwrap();
        let records: Vec<&[u32]> =
            graph.chunks_exact(HEADER + program.actions.len()).take_while(|r| kind(r[0]) == SETS).collect();
        if records.len() > 400 {
            count(format!("{} of more than 400 nodes", words[0]));
        }
        if path[0] != 0 {
            count(format!("{} with a path", words[0]));
        }
        if path[1] != 0 {
            count(format!("{} with a longer path", words[0]));
        }
        if records.len() > 50 {
            continue;
        }
        for record in records {
            for a in (0..program.actions.len()).filter(|a| record[HEADER + a] == NONE) {
                let why = slow_next(&program, &lemmas, Source::Action(a), &node_literals(record[0]));
                count(format!("{:?}", why.unwrap_err()));
            }
        }
    }
    println!("{kinds:?}");
    for (kind, least) in [
        ("ACCEPTED", 80), ("NOT", 75), ("SAFE", 81), ("FORBID", 72), ("RUNOFF", 54),
        ("REFUSED 1", 31), ("REFUSED 2", 68), ("REFUSED 3", 14), ("REFUSED 4", 31), ("REFUSED 5", 109),
        ("REFUSED 6", 8), ("REFUSED 7", 12), ("REFUSED 8", 12),
        ("SAFE of more than 400 nodes", 11), ("FORBID of more than 400 nodes", 5),
        ("FORBID with a path", 29), ("RUNOFF with a path", 8),
        ("FORBID with a longer path", 18), ("RUNOFF with a longer path", 2),
        ("Cannot", 1000), ("BothShown", 50), ("KeptAgainstShown", 100),
    ] {
        assert!(kinds.get(kind).is_some_and(|n| *n >= least), "{kind}: {:?}", kinds.get(kind));
    }
}
