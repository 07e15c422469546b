//! The facts of a drawing: lines worked out by hand from the documents, and the lines beside 01's own lines,
//! beside those of the findings, and beside the graph list.

use std::io::Write;
use std::process::{Command, Stdio};

use independent::bytes::{lines, SHOW_BYTES};
use independent::drawing::drawing_lines;
use independent::records::{FINDINGS, JUDGE};
use independent::sentences::findings_lines;
use independent::shows::*;
use independent::words::*;
use independent::{check, judge, Judged};

fn bytes_of(words: &[u32]) -> Vec<u8> {
    let byte = |word: u32, place: u32| (word >> (8 * place) & 255) as u8;
    words.iter().flat_map(|word| [0, 1, 2, 3].map(|place| byte(*word, place))).collect()
}

fn file(logic: &[u32], lemmas: &[u32]) -> Vec<u8> {
    bytes_of(&[logic, lemmas].concat())
}

/// These lines, each with one newline.
fn drawn(bytes: &[u8], expected: &[&str]) {
    let text: String = expected.iter().map(|line| format!("{line}\n")).collect();
    assert_eq!(drawing_lines(bytes), text);
    beside_lines(bytes);
}

// ---------------------------------------------------------------------------------------------
// The worked shows

/// One node without literals, two loops. Without its first lemma the finding is at node 0, with an empty
/// path.
#[test]
fn fade() {
    let graph = ["node 0 ring 0", "edge 0 0 0", "edge 0 1 0"];
    drawn(&file(&FADE, &FADE_LEMMAS), &graph);
    let found = [&graph[..], &["finding 0"]].concat();
    drawn(&file(&FADE, &FADE_LEMMAS[4..]), &found);
    drawn(&bytes_of(&FADE), &found);
}

/// The nodes 8000C000, 80004002 and 80008001: at node 1 action 1 has no successor, at node 2 action 0.
const HOUSE_NODES: [&str; 3] = ["node 0 ring 0 -0 -1", "node 1 ring 1 -0 +1", "node 2 ring 1 +0 -1"];
const HOUSE_EDGES: [&str; 10] = [
    "edge 0 0 1", "edge 0 1 2", "edge 0 2 0", "edge 0 3 0",
    "edge 1 0 1", "edge 1 2 1", "edge 1 3 0",
    "edge 2 1 2", "edge 2 2 0", "edge 2 3 2",
];

#[test]
fn house_with_full_lemmas() {
    let (logic, mut list) = (house().words(), house_lemmas());
    let expected = [&HOUSE_NODES[..], &HOUSE_EDGES].concat();
    drawn(&file(&logic, &list.concat()), &expected);
    // (e) with request 1: the same graph.
    list.remove(house_failing(&list));
    drawn(&file(&logic, &list.concat()), &expected);
    // Without "house is not below its low end after action 0": at node 0, with an empty path.
    let list = leave_out(&house_lemmas(), &[0x90030001]);
    drawn(&file(&logic, &list), &[&expected[..], &["finding 0"]].concat());
}

#[test]
fn house_with_no_lemmas() {
    let expected = ["node 0 ring 0", "edge 0 0 0", "edge 0 1 0", "edge 0 2 0", "edge 0 3 0", "finding 0"];
    drawn(&bytes_of(&house().words()), &expected);
}

/// Action 0 keeps P0 at node 2: node 3 is {P0, P1}, forbidden, found by 1 0.
#[test]
fn house_with_p0_kept() {
    let expected = [
        "node 0 ring 0 -0 -1", "node 1 ring 1 -0 +1", "node 2 ring 1 +0 -1", "node 3 ring 2 +0 +1",
        "edge 0 0 1", "edge 0 1 2", "edge 0 2 0", "edge 0 3 0",
        "edge 1 0 1", "edge 1 2 1", "edge 1 3 0",
        "edge 2 0 3", "edge 2 1 2", "edge 2 2 0", "edge 2 3 2",
        "edge 3 0 3", "edge 3 2 1", "edge 3 3 2",
        "path 0 1 2", "path 2 0 3", "finding 3",
    ];
    drawn(&file(&house().words(), &leave_out(&house_lemmas(), &HOUSE_P0_KEPT)), &expected);
}

/// P0 is not known at nodes 0 and 1. Node 1, {P1}, is forbidden; node 4 is found from it.
#[test]
fn house_with_p0_unknown() {
    let expected = [
        "node 0 ring 0 -1", "node 1 ring 1 +1", "node 2 ring 1 +0 -1", "node 3 ring 1 -0 -1",
        "node 4 ring 2 -0 +1",
        "edge 0 0 1", "edge 0 1 2", "edge 0 2 3", "edge 0 3 0",
        "edge 1 0 1", "edge 1 2 4", "edge 1 3 0",
        "edge 2 1 2", "edge 2 2 3", "edge 2 3 2",
        "edge 3 0 4", "edge 3 1 2", "edge 3 2 3", "edge 3 3 3",
        "edge 4 0 4", "edge 4 2 4", "edge 4 3 3",
        "path 0 0 1", "finding 1",
    ];
    drawn(&file(&house().words(), &leave_out(&house_lemmas(), &HOUSE_P0_UNKNOWN)), &expected);
}

// ---------------------------------------------------------------------------------------------
// Other shows

/// Lamp 0..1, 0 at the start. P0 lamp at least 1. Action 0: lamp 1. Forbidden: P0. Node 0 {not P0} goes by 0
/// to node 1 {P0}, and that to itself. The lemmas: P0 fails at the start, 0 shows P0, its low end, its high
/// end.
#[test]
fn lamp() {
    let logic = [
        0x10000001, 0x40000001, 0x20000000, 0x3000FFFF, 0x50000001, 0x2FFFFFFF, 0x30000001, 0x60000001,
        0x70000000, 0x20000001, 0x80000001, 0xF0000000,
    ];
    let lemmas = [
        0x9FF20000, 0x80000000, 0xA0000001, 0xA0000001, 0x90010000, 0x80000000, 0xA0000001, 0x90030000,
        0x80000000, 0xA0000001, 0x90040000, 0x80000000, 0xA0000001,
    ];
    let graph = ["node 0 ring 0 -0", "node 1 ring 1 +0", "edge 0 0 1", "edge 1 0 1"];
    drawn(&file(&logic, &lemmas), &[&graph[..], &["path 0 0 1", "finding 1"]].concat());
    // The low end is not shown: the finding is at node 0.
    let no_low = [&lemmas[..7], &lemmas[10..]].concat();
    drawn(&file(&logic, &no_low), &[&graph[..], &["finding 0"]].concat());
    // Nothing is forbidden.
    let bare = [&logic[..10], &logic[11..]].concat();
    drawn(&file(&bare, &lemmas), &graph);
}

/// A shortcut: node 2 has all four predicates one step from node 0, node 4 has three of them three steps
/// away.
#[test]
fn all_four_at_once() {
    let (t, l) = all_at_once(&[]);
    let expected = [
        "node 0 ring 0", "node 1 ring 1 +0", "node 2 ring 1 +0 +1 +2 +3", "node 3 ring 2 +0 +1",
        "node 4 ring 3 +0 +1 +2",
        "edge 0 0 1", "edge 0 1 0", "edge 0 2 0", "edge 0 3 2",
        "edge 1 0 1", "edge 1 1 3", "edge 1 2 1", "edge 1 3 2",
        "edge 2 0 2", "edge 2 1 2", "edge 2 2 2", "edge 2 3 2",
        "edge 3 0 3", "edge 3 1 3", "edge 3 2 4", "edge 3 3 2",
        "edge 4 0 4", "edge 4 1 4", "edge 4 2 4", "edge 4 3 2",
    ];
    drawn(&file(&t.words(), &l), &expected);
}

/// Two ways to a node: the path takes the one by which it was first found.
#[test]
fn two_ways_to_a_node() {
    let (t, l) = two_ways();
    let expected = [
        "node 0 ring 0 -0 -1 -2", "node 1 ring 1 -1 -2", "node 2 ring 1 -2", "node 3 ring 2",
        "edge 0 0 1", "edge 0 1 0", "edge 0 2 0", "edge 0 3 2",
        "edge 1 0 1", "edge 1 1 2", "edge 1 2 1", "edge 1 3 2",
        "edge 2 0 2", "edge 2 1 2", "edge 2 2 3", "edge 2 3 2",
        "edge 3 0 3", "edge 3 1 3", "edge 3 2 3", "edge 3 3 3",
        "path 0 3 2", "path 2 2 3", "finding 3",
    ];
    drawn(&file(&t.words(), &l), &expected);
}

/// 14 predicates, by rising number and not by how they read: those that hold and those that fail, mixed.
#[test]
fn literals_rise() {
    let t = at_will(14, &[], &[]);
    let start: Vec<u32> = (0..14).flat_map(|i| t.forced(START, 1 + i % 2, i, 0, 0)).collect();
    let node = "node 0 ring 0 +0 -1 +2 -3 +4 -5 +6 -7 +8 -9 +10 -11 +12 -13";
    drawn(&file(&t.words(), &start), &[node]);
    let some: Vec<u32> =
        [(2, 13), (1, 2), (2, 10)].into_iter().flat_map(|(goal, i)| t.forced(START, goal, i, 0, 0)).collect();
    drawn(&file(&t.words(), &some), &["node 0 ring 0 +2 -10 -13"]);
}

/// 511 steps: each node in its own ring.
#[test]
fn a_long_path() {
    let (t, l) = long_chain();
    let text = drawing_lines(&file(&t.words(), &l));
    let all: Vec<&str> = text.lines().collect();
    assert_eq!(all.len(), 512 + 1023 + 511 + 1);
    assert_eq!(all[0], "node 0 ring 0 +9");
    assert_eq!(all[1], "node 1 ring 1 +0 -1 -2 -3 -4 -5 -6 -7 -8");
    assert_eq!(all[2], "node 2 ring 2 -0 +1 -2 -3 -4 -5 -6 -7 -8");
    assert_eq!(all[511], "node 511 ring 511 -0 -1 -2 -3 -4 -5 -6 -7 +8");
    assert_eq!(all[512..515], ["edge 0 0 1", "edge 1 0 1", "edge 1 15 2"]);
    assert_eq!(all[1533..1537], ["edge 511 0 1", "edge 511 15 1", "path 0 0 1", "path 1 15 2"]);
    assert_eq!(all[2045..], ["path 510 15 511", "finding 511"]);
}

/// "if it has no successor the graph is empty": nothing but one line.
#[test]
fn an_empty_graph() {
    let t = Text { vars: vec![(0, 0)], init: vec![never()], bad: vec![(0, 0)], ..Text::default() };
    drawn(&file(&t.words(), &lemma(START, 0, 0, 0, 0, &[1])), &["empty"]);
    // With no lemmas: node 0, and the empty combination forbids it.
    drawn(&bytes_of(&t.words()), &["node 0 ring 0", "finding 0"]);
    // The least program: one node and no edges.
    drawn(&bytes_of(&[0x10000000, 0x40000000, 0x50000000, 0xF0000000]), &["node 0 ring 0"]);
}

// ---------------------------------------------------------------------------------------------
// No show, or a show that is refused

#[test]
fn refused() {
    drawn(&[], &["refused 2 AT 0"]);
    drawn(&bytes_of(&FADE[..15]), &["refused 2 AT 15"]);
    let changed = |place: usize, word: u32| {
        let mut words = FADE.to_vec();
        words[place] = word;
        bytes_of(&words)
    };
    drawn(&changed(2, 0x5000000F), &["refused 3 AT 2"]);
    drawn(&changed(0, var_word(8, 7)), &["refused 4 AT 0"]);
    drawn(&file(&FADE, &FADE_LEMMAS[..3]), &["refused 5 AT 3"]);
    let most = FADE_LEMMAS.repeat(128);
    drawn(&file(&FADE, &[&most[..], &[0x9FFFFFFF]].concat()), &["refused 6 AT 2048"]);
    let (t, l) = switches(10, &vec![vec![]; 10], &[(0, 0)]);
    drawn(&file(&t.words(), &l), &["refused 7 AT 512"]);
}

/// Too long comes before odd; 65,536 bytes are not too long.
#[test]
fn no_show() {
    let mut bytes = file(&FADE, &FADE_LEMMAS);
    for length in [1, 2, 3, 127] {
        drawn(&bytes[..length], &["odd bytes: the file was cut"]);
    }
    bytes.resize(SHOW_BYTES + 5, 0);
    for more in 1..=5 {
        drawn(&bytes[..SHOW_BYTES + more], &["too long: more than 65,536 bytes"]);
    }
    drawn(&bytes[..SHOW_BYTES], &["refused 5 AT 16"]);
}

// ---------------------------------------------------------------------------------------------
// Beside the other lines, and beside the graph list

/// The numbers of a line behind its first word.
fn numbers(line: &str) -> Vec<usize> {
    line.split(' ').skip(1).map(|word| word.parse().unwrap()).collect()
}

/// 01's own lines say the same: how many nodes and edges a safe show has, a finding's node and its path. What
/// has no graph has the one line that the findings have. The first of 01's own words.
fn beside_lines(bytes: &[u8]) -> String {
    let (text, own) = (drawing_lines(bytes), lines(bytes));
    let all: Vec<&str> = text.lines().collect();
    let is = |line: &str, kind: &str| line.split(' ').next() == Some(kind);
    let of = |kind: &str| all.iter().filter(|line| is(line, kind)).collect::<Vec<_>>();
    let mut own_lines = own.lines();
    let first: Vec<&str> = own_lines.next().unwrap().split(' ').collect();
    match first[..] {
        ["SAFE", "nodes", nodes, "edges", edges] => {
            assert_eq!(of("node").len().to_string(), nodes);
            assert_eq!(of("edge").len().to_string(), edges);
            assert!(of("path").is_empty() && of("finding").is_empty());
            assert_eq!(text == "empty\n", nodes == "0");
        }
        ["FORBID", "node", node, ..] | ["RUNOFF", "node", node, ..] => {
            assert_eq!(all.last().unwrap(), &format!("finding {node}"));
            let path: String = of("path").iter().map(|line| format!(" {}", numbers(line)[1])).collect();
            assert_eq!(own_lines.next().unwrap(), format!("PATH{path}"));
        }
        _ => assert_eq!(text, findings_lines(bytes)),
    }
    first[0].to_string()
}

/// The literals of a SETS word by another way: one text for each predicate.
fn literals(word: u32) -> String {
    let literal = |i: u32| match (word >> i & 1, word >> (14 + i) & 1) {
        (1, _) => format!(" +{i}"),
        (_, 1) => format!(" -{i}"),
        _ => String::new(),
    };
    (0..14).map(literal).collect()
}

/// The lines by another way, from the words of the graph list: the path by the ORIGIN words, from its end.
fn slow_lines(logic: &[u32], lemmas: &[u32]) -> Option<String> {
    let (mut graph, mut path) = (vec![0; 9_728], vec![0; 512]);
    let finding = match judge(logic, lemmas, &mut graph, &mut path) {
        Judged::Safe { .. } => None,
        Judged::MayForbid { node, .. } | Judged::MayRunOff { node, .. } => Some(node),
        Judged::Refused(_) => return None,
    };
    let width = 3 + check(logic).unwrap().actions;
    let records: Vec<&[u32]> = graph.chunks(width).take_while(|record| record[0] >> 28 == 8).collect();
    let (mut nodes, mut edges, mut way) = (String::new(), String::new(), String::new());
    for (node, record) in records.iter().enumerate() {
        nodes += &format!("node {node} ring {}{}\n", record[2], literals(record[0]));
        for (action, edge) in record[3..].iter().enumerate().filter(|(_, edge)| **edge != 0xCFFFFFFF) {
            edges += &format!("edge {node} {action} {}\n", edge - 0xC0000000);
        }
    }
    let mut at = finding.unwrap_or(0);
    while at != 0 {
        let (parent, action) = (records[at][1] >> 4 & 511, records[at][1] & 15);
        way = format!("path {parent} {action} {at}\n{way}");
        at = parent as usize;
    }
    let last = finding.map_or(String::new(), |node| format!("finding {node}\n"));
    let text = nodes + &edges + &way + &last;
    Some(if text.is_empty() { "empty\n".to_string() } else { text })
}

/// How often 01's own lines began with each word.
type Tally = std::collections::BTreeMap<String, usize>;

fn compare(tally: &mut Tally, logic: &[u32], lemmas: &[u32]) {
    let bytes = file(logic, lemmas);
    *tally.entry(beside_lines(&bytes)).or_default() += 1;
    if let Some(text) = slow_lines(logic, lemmas) {
        assert!(drawing_lines(&bytes) == text);
    }
}

fn at_least(tally: &Tally, kinds: &[(&str, usize)]) {
    println!("{tally:?}");
    for (kind, least) in kinds {
        assert!(tally.get(*kind).is_some_and(|count| count >= least), "{kind}");
    }
}

/// Every record of Judge and of Findings, its words as one file.
#[test]
fn the_records() {
    let mut tally = Tally::new();
    for case in cases().into_iter().filter(|case| case.record.call == JUDGE || case.record.call == FINDINGS) {
        compare(&mut tally, &case.record.program, &case.record.lemmas);
    }
    at_least(&tally, &[("SAFE", 100), ("FORBID", 50), ("RUNOFF", 50), ("REFUSED", 100)]);
}

/// The same by chance.
#[test]
fn by_chance() {
    let mut tally = Tally::new();
    let chance = (0..200).map(sheet).chain((0..100).map(small)).chain((0..40).map(mixed));
    for (t, l) in chance.chain((0..100).map(ringed)).chain((0..10).map(large)) {
        compare(&mut tally, &t.words(), &l);
    }
    at_least(&tally, &[("SAFE", 50), ("FORBID", 50), ("RUNOFF", 50)]);
}

// ---------------------------------------------------------------------------------------------
// The binary

/// Standard output, with standard error empty and exit status 0.
fn printed(bytes: &[u8]) -> String {
    let mut command = Command::new(env!("CARGO_BIN_EXE_drawing"));
    command.stdin(Stdio::piped()).stdout(Stdio::piped()).stderr(Stdio::piped());
    let mut child = command.spawn().unwrap();
    child.stdin.take().unwrap().write_all(bytes).unwrap();
    let output = child.wait_with_output().unwrap();
    assert!(output.status.success() && output.stderr.is_empty());
    String::from_utf8(output.stdout).unwrap()
}

#[test]
fn the_binary() {
    let fade = file(&FADE, &FADE_LEMMAS);
    assert_eq!(printed(&fade), "node 0 ring 0\nedge 0 0 0\nedge 0 1 0\n");
    assert_eq!(printed(&fade[..64]), "node 0 ring 0\nedge 0 0 0\nedge 0 1 0\nfinding 0\n");
    let home = file(&house().words(), &house_lemmas().concat());
    let expected: String = HOUSE_NODES.iter().chain(&HOUSE_EDGES).map(|line| format!("{line}\n")).collect();
    assert_eq!(printed(&home), expected);
    assert_eq!(printed(&fade[..127]), "odd bytes: the file was cut\n");
    assert_eq!(printed(&[]), "refused 2 AT 0\n");
    assert_eq!(printed(&[0; SHOW_BYTES + 1]), "too long: more than 65,536 bytes\n");
}
