//! All findings of a show file in words: lines worked out by hand from the documents, and the lines beside
//! 01's own lines and beside the findings list.

use std::io::Write;
use std::process::{Command, Stdio};

use independent::bytes::{lines, SHOW_BYTES, SHOW_WORDS};
use independent::records::{FINDINGS, JUDGE};
use independent::sentences::{findings_lines, MOST_FINDINGS};
use independent::shows::*;
use independent::words::*;
use independent::{check, findings, Listed};

// ---------------------------------------------------------------------------------------------
// Show files, and what is expected of them

fn bytes_of(words: &[u32]) -> Vec<u8> {
    let byte = |word: u32, place: u32| (word >> (8 * place) & 255) as u8;
    words.iter().flat_map(|word| [0, 1, 2, 3].map(|place| byte(*word, place))).collect()
}

fn file(logic: &[u32], lemmas: &[u32]) -> Vec<u8> {
    bytes_of(&[logic, lemmas].concat())
}

/// These lines, each with one newline.
fn said(bytes: &[u8], expected: &[&str]) {
    let text: String = expected.iter().map(|line| format!("{line}\n")).collect();
    assert_eq!(findings_lines(bytes), text);
    beside_lines(bytes);
}

/// 01's own lines of this show, in the words of this program: its first line.
fn first_line(own: &str) -> String {
    let own: Vec<&str> = own.lines().collect();
    let actions = || match own[1] {
        "PATH" => " none",
        path => path.strip_prefix("PATH").unwrap(),
    };
    match own[0].split(' ').collect::<Vec<_>>()[..] {
        ["TOO", "LONG"] => "too long: more than 65,536 bytes".to_string(),
        ["ODD", "BYTES"] => "odd bytes: the file was cut".to_string(),
        ["REFUSED", number, "AT", value] => format!("refused {number} AT {value}"),
        ["SAFE", "nodes", nodes, "edges", edges] => format!("safe: nodes {nodes}, edges {edges}"),
        ["FORBID", "node", node, "bad", bad] => {
            format!("may meet forbidden combination {bad} at node {node}; actions:{}", actions())
        }
        ["RUNOFF", "node", node, "action", action, "variable", variable, end] => {
            let end = match end {
                "low" => "below its low end",
                "high" => "above its high end",
                _ => panic!("{own:?}"),
            };
            format!("action {action} may take variable {variable} {end} at node {node}; actions:{}", actions())
        }
        _ => panic!("{own:?}"),
    }
}

/// "The first finding is the verdict": the first line says what 01's own lines say. Only a show with
/// findings has more lines. How many there are, and the first of 01's own words.
fn beside_lines(bytes: &[u8]) -> (usize, String) {
    let (text, own) = (findings_lines(bytes), lines(bytes));
    assert!(text.ends_with('\n') && !text.ends_with("\n\n"));
    let count = text.lines().count();
    assert_eq!(text.lines().next().unwrap(), first_line(&own));
    let kind = own.split_whitespace().next().unwrap().to_string();
    assert!(count == 1 || kind == "FORBID" || kind == "RUNOFF");
    (count, kind)
}

// ---------------------------------------------------------------------------------------------
// The worked shows

/// "On Fade with its lemmas it prints exactly `SAFE nodes 1 edges 2`."
#[test]
fn fade() {
    said(&file(&FADE, &FADE_LEMMAS), &["safe: nodes 1, edges 2"]);
    let (logic, lemmas) = show("fade");
    said(&file(&logic, &lemmas), &["safe: nodes 1, edges 2"]);
}

const FADE_ENDS: [&str; 4] = [
    "action 0 may take variable 0 below its low end at node 0; actions: none",
    "action 0 may take variable 0 above its high end at node 0; actions: none",
    "action 1 may take variable 0 below its low end at node 0; actions: none",
    "action 1 may take variable 0 above its high end at node 0; actions: none",
];

/// One node without literals; each of Fade's lemmas shows one end.
#[test]
fn fade_without_lemmas() {
    said(&bytes_of(&FADE), &FADE_ENDS);
    for left_out in 0..4 {
        let mut lemmas = FADE_LEMMAS.to_vec();
        lemmas.drain(4 * left_out..4 * left_out + 4);
        said(&file(&FADE, &lemmas), &FADE_ENDS[left_out..left_out + 1]);
        let alone = &FADE_LEMMAS[4 * left_out..4 * left_out + 4];
        let others = [&FADE_ENDS[..left_out], &FADE_ENDS[left_out + 1..]].concat();
        said(&file(&FADE, alone), &others);
    }
}

/// (c): "a lemma with all multipliers 0 is not accepted", here the second and the third.
#[test]
fn fade_with_lemmas_not_accepted() {
    let mut lemmas = FADE_LEMMAS;
    lemmas[6..8].fill(0xA0000000);
    lemmas[10..12].fill(0xA0000000);
    said(&file(&FADE, &lemmas), &FADE_ENDS[1..3]);
}

/// (d): "House with no lemmas, forbids at node 0, empty path". The node has no literals, so nothing
/// contradicts 80000003, nothing is kept, and all four actions lead back. Actions 0 and 3 set house, which is
/// variable 1, actions 1 and 2 set level, and no end is shown.
#[test]
fn house_with_no_lemmas() {
    let expected = [
        "may meet forbidden combination 0 at node 0; actions: none",
        "action 0 may take variable 1 below its low end at node 0; actions: none",
        "action 0 may take variable 1 above its high end at node 0; actions: none",
        "action 1 may take variable 0 below its low end at node 0; actions: none",
        "action 1 may take variable 0 above its high end at node 0; actions: none",
        "action 2 may take variable 0 below its low end at node 0; actions: none",
        "action 2 may take variable 0 above its high end at node 0; actions: none",
        "action 3 may take variable 1 below its low end at node 0; actions: none",
        "action 3 may take variable 1 above its high end at node 0; actions: none",
    ];
    said(&bytes_of(&house().words()), &expected);
    said(&bytes_of(&show("house").0), &expected);
}

/// "With full lemmas the nodes are 8000C000, 80004002, 80008001, with 10 edges, safe." And request 1: "Case
/// (e) of 01 then has the three nodes and ten edges of House with full lemmas, and is safe."
#[test]
fn house_with_full_lemmas() {
    let (logic, mut list) = (house().words(), house_lemmas());
    said(&file(&logic, &list.concat()), &["safe: nodes 3, edges 10"]);
    list.remove(house_failing(&list));
    said(&file(&logic, &list.concat()), &["safe: nodes 3, edges 10"]);
}

/// The graph of the full lemmas, no ends shown. Node 0 {not P0, not P1} goes by 0 to node 1 {not P0, P1} and
/// by 1 to node 2 {P0, not P1}. At node 1 action 1 has no successor, at node 2 action 0.
#[test]
fn house_with_no_ends_shown() {
    let ends = [0x90030001, 0x90040001, 0x90130000, 0x90140000, 0x90230000, 0x90240000, 0x90330001, 0x90340001];
    let lemmas = leave_out(&house_lemmas(), &ends);
    said(
        &file(&house().words(), &lemmas),
        &[
            "action 0 may take variable 1 below its low end at node 0; actions: none",
            "action 0 may take variable 1 above its high end at node 0; actions: none",
            "action 1 may take variable 0 below its low end at node 0; actions: none",
            "action 1 may take variable 0 above its high end at node 0; actions: none",
            "action 2 may take variable 0 below its low end at node 0; actions: none",
            "action 2 may take variable 0 above its high end at node 0; actions: none",
            "action 3 may take variable 1 below its low end at node 0; actions: none",
            "action 3 may take variable 1 above its high end at node 0; actions: none",
            "action 0 may take variable 1 below its low end at node 1; actions: 0",
            "action 0 may take variable 1 above its high end at node 1; actions: 0",
            "action 2 may take variable 0 below its low end at node 1; actions: 0",
            "action 2 may take variable 0 above its high end at node 1; actions: 0",
            "action 3 may take variable 1 below its low end at node 1; actions: 0",
            "action 3 may take variable 1 above its high end at node 1; actions: 0",
            "action 1 may take variable 0 below its low end at node 2; actions: 1",
            "action 1 may take variable 0 above its high end at node 2; actions: 1",
            "action 2 may take variable 0 below its low end at node 2; actions: 1",
            "action 2 may take variable 0 above its high end at node 2; actions: 1",
            "action 3 may take variable 1 below its low end at node 2; actions: 1",
            "action 3 may take variable 1 above its high end at node 2; actions: 1",
        ],
    );
}

/// Without both lemmas of action 0 on P0 it keeps P0 at node 2 and shows P1: node 3 is {P0, P1}. Action 3 has
/// a successor at all four nodes: without the lemma on its low end that is said of each.
#[test]
fn house_with_p0_kept() {
    let logic = house().words();
    let list = leave_out(&house_lemmas(), &HOUSE_P0_KEPT);
    said(&file(&logic, &list), &["may meet forbidden combination 0 at node 3; actions: 1 0"]);
    let list = leave_out(&split_lemmas(&list), &[0x90330001]);
    said(
        &file(&logic, &list),
        &[
            "action 3 may take variable 1 below its low end at node 0; actions: none",
            "action 3 may take variable 1 below its low end at node 1; actions: 0",
            "action 3 may take variable 1 below its low end at node 2; actions: 1",
            "may meet forbidden combination 0 at node 3; actions: 1 0",
            "action 3 may take variable 1 below its low end at node 3; actions: 1 0",
        ],
    );
}

// ---------------------------------------------------------------------------------------------
// Shows typed word by word

/// Lamp 0..1, 0 at the start. P0 lamp at least 1. Action 0: lamp 1. Forbidden: P0.
const LAMP: [u32; 12] = [
    0x10000001, 0x40000001, 0x20000000, 0x3000FFFF, 0x50000001, 0x2FFFFFFF, 0x30000001,
    0x60000001, 0x70000000, 0x20000001, 0x80000001, 0xF0000000,
];

/// The start fails P0: lamp - 1 and -lamp, together -1. Action 0 shows P0: -(1 - 1) - 1 = -1.
const LAMP_GRAPH: [u32; 7] =
    [0x9FF20000, 0x80000000, 0xA0000001, 0xA0000001, 0x90010000, 0x80000000, 0xA0000001];

/// The ends of action 0: -(1 - 0) - 1 = -2 and -(1 - 1) - 1 = -1.
const LAMP_LOW: [u32; 3] = [0x90030000, 0x80000000, 0xA0000001];
const LAMP_HIGH: [u32; 3] = [0x90040000, 0x80000000, 0xA0000001];

/// Node 0 {not P0} goes by 0 to node 1 {P0}, and that to itself.
#[test]
fn two_nodes_by_hand() {
    let show = |ends: &[u32]| file(&LAMP, &[&LAMP_GRAPH[..], ends].concat());
    let forbids = "may meet forbidden combination 0 at node 1; actions: 0";
    said(&show(&[LAMP_LOW, LAMP_HIGH].concat()), &[forbids]);
    said(
        &show(&LAMP_LOW),
        &[
            "action 0 may take variable 0 above its high end at node 0; actions: none",
            forbids,
            "action 0 may take variable 0 above its high end at node 1; actions: 0",
        ],
    );
    said(
        &show(&LAMP_HIGH),
        &[
            "action 0 may take variable 0 below its low end at node 0; actions: none",
            forbids,
            "action 0 may take variable 0 below its low end at node 1; actions: 0",
        ],
    );
    said(
        &show(&[]),
        &[
            "action 0 may take variable 0 below its low end at node 0; actions: none",
            "action 0 may take variable 0 above its high end at node 0; actions: none",
            forbids,
            "action 0 may take variable 0 below its low end at node 1; actions: 0",
            "action 0 may take variable 0 above its high end at node 1; actions: 0",
        ],
    );
    // Without the forbidden combination nothing is found: two nodes, each with its edge.
    let bare = [&LAMP[..10], &LAMP[11..]].concat();
    said(&file(&bare, &[&LAMP_GRAPH[..], &LAMP_LOW, &LAMP_HIGH].concat()), &["safe: nodes 2, edges 2"]);
}

/// Step 0..2, 0 at the start. P0 step at least 1, P1 step at least 2. Action 0: if step is at least 1, one
/// more; action 1: step 1. Forbidden: P1.
const STAIR: [u32; 20] = [
    0x10000002, 0x40000001, 0x20000000, 0x3000FFFF, 0x50000002, 0x2FFFFFFF, 0x30000001, 0x2FFFFFFE, 0x30000001,
    0x60000011, 0x2FFFFFFF, 0x30000001, 0x70000000, 0x20000001, 0x30000001, 0x60000001, 0x70000000, 0x20000001,
    0x80000002, 0xF0000000,
];

fn stair_lemmas() -> Vec<Vec<u32>> {
    vec![
        vec![0x9FF20000, 0x80000000, 0xA0000001, 0xA0000001], // P0 fails at the start: x-1 + -x = -1
        vec![0x9FF20001, 0x80000000, 0xA0000001, 0xA0000001], // P1 fails at the start: x-2 + -x = -2
        vec![0x90000000, 0x80004000, 0xA0000001, 0xA0000001], // 0 cannot happen if not P0: -x + x-1 = -1
        vec![0x90010000, 0x80000000, 0xA0000001, 0xA0000000], // 0 shows P0: -(x+1-1)-1 = -x-1
        vec![0x90010001, 0x80000000, 0xA0000001, 0xA0000001], // 0 shows P1: -(x+1-2)-1 + x-1 = -1
        vec![0x90030000, 0x80000000, 0xA0000001, 0xA0000000], // low of 0: -(x+1)-1 = -x-2
        // high of 0 if not P1: -(2-x-1)-1 + -(x-2)-1 = x-2 + 1-x = -1
        vec![0x90040000, 0x80008000, 0xA0000001, 0xA0000001, 0xA0000000],
        vec![0x90110000, 0x80000000, 0xA0000001], // 1 shows P0: -(1-1)-1 = -1
        vec![0x90120001, 0x80000000, 0xA0000001], // P1 fails after 1: 1-2 = -1
        vec![0x90130000, 0x80000000, 0xA0000001], // low of 1: -1-1 = -2
        vec![0x90140000, 0x80000000, 0xA0000001], // high of 1: -(2-1)-1 = -2
    ]
}

/// Node 0 {not P0, not P1} goes by 1 to node 1 {P0, not P1}, that by 0 to node 2 {P0, P1}, that by 0 to
/// itself; action 1 leads from all to node 1. At node 0 action 0 has no successor.
#[test]
fn three_nodes_by_hand() {
    let lemmas = stair_lemmas();
    let without = |words: &[u32]| file(&STAIR, &leave_out(&lemmas, words));
    let forbids = "may meet forbidden combination 0 at node 2; actions: 1 0";
    let high = "action 0 may take variable 0 above its high end at node 2; actions: 1 0";
    said(&without(&[]), &[forbids, high]);
    assert_eq!(lines(&without(&[])), "FORBID node 2 bad 0\nPATH 1 0\n");
    said(
        &without(&[0x90130000]),
        &[
            "action 1 may take variable 0 below its low end at node 0; actions: none",
            "action 1 may take variable 0 below its low end at node 1; actions: 1",
            forbids,
            high,
            "action 1 may take variable 0 below its low end at node 2; actions: 1 0",
        ],
    );
    said(
        &without(&[0x90030000, 0x90040000, 0x90140000]),
        &[
            "action 1 may take variable 0 above its high end at node 0; actions: none",
            "action 0 may take variable 0 below its low end at node 1; actions: 1",
            "action 0 may take variable 0 above its high end at node 1; actions: 1",
            "action 1 may take variable 0 above its high end at node 1; actions: 1",
            forbids,
            "action 0 may take variable 0 below its low end at node 2; actions: 1 0",
            high,
            "action 1 may take variable 0 above its high end at node 2; actions: 1 0",
        ],
    );
    // Without the forbidden combination the run-off is the first.
    let bare = [&STAIR[..18], &STAIR[19..]].concat();
    said(&file(&bare, &lemmas.concat()), &[high]);
    assert_eq!(lines(&file(&bare, &lemmas.concat())), "RUNOFF node 2 action 0 variable 0 high\nPATH 1 0\n");
    // With a second guard, step at most 1, action 0 cannot happen where P1 holds: node 2 has one edge, and no
    // end of action 0 is asked there.
    let mut mended = bare.clone();
    mended.splice(9..12, [0x60000021, 0x2FFFFFFF, 0x30000001, 0x20000001, 0x3000FFFF]);
    let mut more = lemmas.clone();
    more.iter_mut().filter(|l| l[0] >> 20 == 0x900).for_each(|l| l.push(0xA0000000));
    more.push(vec![0x90000000, 0x80000002, 0xA0000001, 0xA0000000, 0xA0000001]); // x-2 + 1-x = -1
    said(&file(&mended, &more.concat()), &["safe: nodes 3, edges 4"]);
}

// ---------------------------------------------------------------------------------------------
// Greater numbers

/// 0 {not P0, not P1} goes by 12 to 1 {P0, not P1}, which goes by 3 to 2 {P0, P1}, which goes by 3 to
/// itself. All else cannot happen. The actions touch both predicates.
#[test]
fn an_action_of_two_digits() {
    let t = Text {
        vars: vec![(0, 0)],
        init: vec![never()],
        pred: vec![row(0, &[(0, 1)]), row(1, &[(0, 1)])],
        actions: vec![act(&[never()], &[(0, row(0, &[]))]); 16],
        bad: vec![(0, 3)],
    };
    let mut l = [t.forced(START, 2, 0, 0, 0), t.forced(START, 2, 1, 0, 0)].concat();
    for action in (0..16).filter(|a| *a != 12 && *a != 3) {
        l.extend(t.forced(action, 0, 0, 0, 0));
    }
    l.extend([t.forced(12, 0, 0, 0, 1), t.forced(12, 1, 0, 1, 0), t.forced(12, 2, 1, 1, 0)].concat());
    l.extend([t.forced(3, 0, 0, 1, 0), t.forced(3, 1, 0, 0, 1), t.forced(3, 1, 1, 0, 1)].concat());
    let logic = t.words();
    said(
        &file(&logic, &l),
        &[
            "action 12 may take variable 0 below its low end at node 0; actions: none",
            "action 12 may take variable 0 above its high end at node 0; actions: none",
            "action 3 may take variable 0 below its low end at node 1; actions: 12",
            "action 3 may take variable 0 above its high end at node 1; actions: 12",
            "may meet forbidden combination 0 at node 2; actions: 12 3",
            "action 3 may take variable 0 below its low end at node 2; actions: 12 3",
            "action 3 may take variable 0 above its high end at node 2; actions: 12 3",
        ],
    );
    l.extend(t.all_ends());
    said(&file(&logic, &l), &["may meet forbidden combination 0 at node 2; actions: 12 3"]);
}

/// Node 511 of `last_node`, where the nine literals are gone: the first node of each size has the lowest
/// ones gone, so the path takes them by rising action.
#[test]
fn the_last_node() {
    let (t, l) = last_node(&[(0, 0x1FF); 8]);
    let mut expected: Vec<String> = (0..8)
        .map(|bad| format!("may meet forbidden combination {bad} at node 511; actions: 0 1 2 3 4 5 6 7 8"))
        .collect();
    let high = "action 15 may take variable 7 above its high end at node 511; actions: 0 1 2 3 4 5 6 7 8";
    expected.push(high.to_string());
    let expected: Vec<&str> = expected.iter().map(String::as_str).collect();
    said(&file(&t.words(), &l), &expected);
}

/// The longest path: 511 times action 0.
#[test]
fn the_longest_path() {
    let (t, l) = counter(9, &[(0, 511)]);
    let line = format!("may meet forbidden combination 0 at node 511; actions:{}", " 0".repeat(511));
    said(&file(&t.words(), &l), &[&line]);
}

/// 512 nodes with 8 combinations and both ends of 8 variables for 16 actions: the findings list is long
/// enough.
#[test]
fn the_most_findings() {
    assert_eq!(MOST_FINDINGS, 135_168);
    let (t, l) = switches(9, &vec![(0..8).collect(); 16], &[(0, 0); 8]);
    let text = findings_lines(&file(&t.words(), &l));
    let all: Vec<&str> = text.lines().collect();
    assert_eq!(all.len(), 135_168);
    assert_eq!(all[0], "may meet forbidden combination 0 at node 0; actions: none");
    assert_eq!(all[7], "may meet forbidden combination 7 at node 0; actions: none");
    assert_eq!(all[8], "action 0 may take variable 0 below its low end at node 0; actions: none");
    assert_eq!(all[263], "action 15 may take variable 7 above its high end at node 0; actions: none");
    assert_eq!(all[264], "may meet forbidden combination 0 at node 1; actions: 0");
    // Nodes 1 to 9 are {P0} to {P8}, node 10 is {P0, P1}, node 18 is {P1, P2}.
    assert_eq!(all[264 * 9], "may meet forbidden combination 0 at node 9; actions: 8");
    assert_eq!(all[264 * 10 + 1], "may meet forbidden combination 1 at node 10; actions: 0 1");
    let line = "action 10 may take variable 4 above its high end at node 18; actions: 1 2";
    assert_eq!(all[264 * 18 + 8 + 16 * 10 + 9], line);
    let last = "action 15 may take variable 7 above its high end at node 511; actions: 0 1 2 3 4 5 6 7 8";
    assert_eq!(all[135_167], last);
}

/// "if it has no successor the graph is empty": safe.
#[test]
fn an_empty_graph() {
    let t = Text { vars: vec![(0, 0)], init: vec![never()], bad: vec![(0, 0)], ..Text::default() };
    let cannot = lemma(START, 0, 0, 0, 0, &[1]);
    said(&file(&t.words(), &cannot), &["safe: nodes 0, edges 0"]);
    // With no lemmas: node 0, and the empty combination forbids it.
    said(&bytes_of(&t.words()), &["may meet forbidden combination 0 at node 0; actions: none"]);
    // The least program: one node and no edges.
    said(&bytes_of(&[0x10000000, 0x40000000, 0x50000000, 0xF0000000]), &["safe: nodes 1, edges 0"]);
}

/// An action without a successor is no edge, and its ends are not said.
#[test]
fn no_edges() {
    let never_acts =
        [0x10000000, 0x40000000, 0x50000000, 0x60000011, 0x2FFFFFFF, 0x70000000, 0x20000000, 0xF0000000];
    let cannot = [0x90000000, 0x80000000, 0xA0000001]; // the guard: -1
    said(&file(&never_acts, &cannot), &["safe: nodes 1, edges 0"]);
    said(&bytes_of(&never_acts), &FADE_ENDS[..2]);
}

// ---------------------------------------------------------------------------------------------
// Refusals and lengths

fn changed(place: usize, word: u32) -> Vec<u32> {
    let mut words = FADE.to_vec();
    words[place] = word;
    words
}

/// "program word missing, of the wrong kind, after END, or an unnamed bit set"
#[test]
fn refused_2() {
    said(&[], &["refused 2 AT 0"]);
    said(&bytes_of(&FADE[..1]), &["refused 2 AT 1"]);
    said(&bytes_of(&FADE[..10]), &["refused 2 AT 10"]);
    said(&bytes_of(&FADE[..15]), &["refused 2 AT 15"]);
    // Without END all words are logic: a LEMMA word where END is due.
    said(&file(&FADE[..15], &FADE_LEMMAS), &["refused 2 AT 15"]);
    said(&bytes_of(&FADE_LEMMAS), &["refused 2 AT 0"]);
    // The first word of kind 15 ends the logic, with a payload and out of place too.
    said(&file(&changed(15, 0xF0000001), &FADE_LEMMAS), &["refused 2 AT 15"]);
    said(&file(&FADE[..4], &[0xF0000000]), &["refused 2 AT 4"]);
    said(&bytes_of(&changed(5, 0x30010001)), &["refused 2 AT 5"]);
}

/// "ninth VAR or forbidden combination, 17th ACTION, or a count field too high"
#[test]
fn refused_3() {
    said(&bytes_of(&changed(2, 0x5000000F)), &["refused 3 AT 2"]);
    said(&bytes_of(&changed(3, 0x60000091)), &["refused 3 AT 3"]);
    said(&file(&[FADE[0]; 8], &FADE), &["refused 3 AT 8"]);
    let nine = [&FADE[..15], &[0x80000000; 9], &FADE[15..]].concat();
    said(&file(&nine, &FADE_LEMMAS), &["refused 3 AT 23"]);
    let actions = [&FADE[..3], &[0x60000000; 17], &FADE[15..]].concat();
    said(&bytes_of(&actions), &["refused 3 AT 19"]);
}

/// (g) "low end equal to high is allowed, one above refused 4", (h) "coefficient 1,000 allowed, 1,001 refused"
#[test]
fn refused_4() {
    said(&bytes_of(&changed(0, var_word(7, 7))), &FADE_ENDS);
    said(&bytes_of(&changed(0, var_word(8, 7))), &["refused 4 AT 0"]);
    said(&bytes_of(&changed(5, term_word(0, 1000))), &FADE_ENDS);
    said(&bytes_of(&changed(5, term_word(0, 1001))), &["refused 4 AT 5"]);
    // 2 to 4 come before 5.
    said(&file(&changed(6, 0x70000001), &[0]), &["refused 4 AT 6"]);
}

/// "a lemma word missing or against the above": "lemma word index (list length if missing)"
#[test]
fn refused_5() {
    said(&file(&FADE, &FADE_LEMMAS[..3]), &["refused 5 AT 3"]);
    said(&file(&FADE, &FADE_LEMMAS[..15]), &["refused 5 AT 15"]);
    said(&file(&FADE, &FADE_LEMMAS[1..]), &["refused 5 AT 0"]);
    said(&file(&FADE, &FADE), &["refused 5 AT 0"]);
    said(&file(&FADE, &[&FADE_LEMMAS[..], &[0xF0000000]].concat()), &["refused 5 AT 16"]);
    // No action 2.
    said(&file(&FADE, &[0x90230000, 0x80000000, 0xA0000001]), &["refused 5 AT 0"]);
}

/// "a 513th LEMMA word where a lemma may begin, any payload": Fade's four lemmas 128 times are 512.
#[test]
fn refused_6() {
    let most = FADE_LEMMAS.repeat(128);
    assert_eq!(most.len(), 2048);
    said(&file(&FADE, &most), &["safe: nodes 1, edges 2"]);
    said(&file(&FADE, &[&most[..], &[0x9FFFFFFF]].concat()), &["refused 6 AT 2048"]);
    said(&file(&FADE, &[&most[..], &[0xA0000001]].concat()), &["refused 5 AT 2048"]);
}

/// "a 513th node is needed", returned with 512; "refusal 7 comes before any finding". With nine predicates
/// there are 512.
#[test]
fn refused_7() {
    let idle = vec![vec![]; 10];
    let (t, l) = switches(10, &idle, &[(0, 0)]);
    said(&file(&t.words(), &l), &["refused 7 AT 512"]);
    let (t, l) = switches(9, &idle, &[]);
    said(&file(&t.words(), &l), &["safe: nodes 512, edges 5120"]);
}

#[test]
fn odd_bytes() {
    let fade = file(&FADE, &FADE_LEMMAS);
    let full = vec![0xF0; SHOW_BYTES];
    for bytes in [&fade[..1], &fade[..2], &fade[..3], &fade[..127], &full[..129], &full[1..], &full[3..]] {
        said(bytes, &["odd bytes: the file was cut"]);
    }
}

/// Past 65,536 bytes, a multiple of 4 or not: too long comes before odd. 65,536 bytes are not too long.
#[test]
fn too_long() {
    let mut bytes = file(&FADE, &FADE_LEMMAS);
    bytes.resize(SHOW_BYTES + 5, 0);
    for more in 1..=5 {
        said(&bytes[..SHOW_BYTES + more], &["too long: more than 65,536 bytes"]);
    }
    said(&bytes[..SHOW_BYTES], &["refused 5 AT 16"]);
    said(&[0; SHOW_BYTES], &["refused 2 AT 0"]);
    let mut words = vec![FADE_LEMMAS[0]; SHOW_WORDS];
    words[..16].copy_from_slice(&FADE);
    said(&bytes_of(&words), &["refused 5 AT 1"]);
}

// ---------------------------------------------------------------------------------------------
// Beside 01's own lines, and beside the findings list

/// For each node the actions that lead there, by the EDGE words and not by the ORIGIN words: "Nodes are taken
/// in number order, actions in number order", and the first edge to a node is where it was first found.
fn paths(graph: &[u32], actions: usize) -> Vec<String> {
    let mut paths = vec![String::new()];
    for (node, record) in graph.chunks(3 + actions).take_while(|record| record[0] >> 28 == 8).enumerate() {
        for (action, edge) in record[3..].iter().enumerate() {
            if *edge == 0xC000_0000 + paths.len() as u32 {
                paths.push(format!("{} {action}", paths[node]));
            }
        }
    }
    paths[0] = " none".to_string();
    paths
}

/// The lines by another way, if the show is not refused and has findings.
fn slow_lines(logic: &[u32], lemmas: &[u32]) -> Option<String> {
    let (mut graph, mut list) = (vec![0; 9_728], vec![0; 135_168]);
    let Listed::Listed(count) = findings(logic, lemmas, &mut graph, &mut list) else { return None };
    let paths = paths(&graph, check(logic).unwrap().actions);
    let mut text = String::new();
    for word in &list[..count] {
        let (node, action, index) = (word >> 19 & 511, word >> 14 & 15, word >> 11 & 7);
        text += &match (word >> 18 & 1, word & 1) {
            (0, _) => format!("may meet forbidden combination {index}"),
            (_, 0) => format!("action {action} may take variable {index} below its low end"),
            (_, _) => format!("action {action} may take variable {index} above its high end"),
        };
        text += &format!(" at node {node}; actions:{}\n", paths[node as usize]);
    }
    Some(text).filter(|text| !text.is_empty())
}

/// How often 01's own lines began with each word; how many findings there were, and the most of one show.
#[derive(Default)]
struct Tally {
    kinds: std::collections::BTreeMap<String, usize>,
    findings: usize,
    most: usize,
}

impl Tally {
    /// A show as one file. A logic that is not refused has END as its last word and no other of kind 15, so
    /// the file splits where the lists do.
    fn show(&mut self, logic: &[u32], lemmas: &[u32]) {
        let bytes = file(logic, lemmas);
        self.bytes(&bytes);
        if let Some(text) = slow_lines(logic, lemmas) {
            assert!(findings_lines(&bytes) == text);
        }
    }

    fn bytes(&mut self, bytes: &[u8]) {
        let (count, kind) = beside_lines(bytes);
        if kind == "FORBID" || kind == "RUNOFF" {
            self.findings += count;
            self.most = self.most.max(count);
        }
        *self.kinds.entry(kind).or_default() += 1;
    }

    fn at_least(&self, kinds: &[(&str, usize)], findings: usize) {
        println!("{:?}, {} findings, at most {}", self.kinds, self.findings, self.most);
        for (kind, least) in kinds {
            assert!(self.kinds.get(*kind).is_some_and(|count| count >= least), "{kind}");
        }
        assert!(self.findings >= findings);
    }
}

/// The show files themselves.
#[test]
fn the_show_files() {
    let mut tally = Tally::default();
    for entry in std::fs::read_dir("../shows").unwrap() {
        let path = entry.unwrap().path();
        if path.extension().is_some_and(|extension| extension == "words") {
            tally.bytes(&std::fs::read(path).unwrap());
        }
    }
    tally.at_least(&[("SAFE", 4)], 0);
    for name in ["fade", "house", "bakery", "rig8"] {
        let (logic, lemmas) = show(name);
        tally.show(&logic, &lemmas);
        tally.show(&logic, &[]);
        let list = split_lemmas(&lemmas);
        for dropped in (0..list.len()).step_by(1 + list.len() / 40) {
            let others = [&list[..dropped], &list[dropped + 1..]].concat().concat();
            tally.show(&logic, &others);
        }
    }
    tally.at_least(&[("SAFE", 20), ("FORBID", 5), ("RUNOFF", 10)], 100);
}

/// Every record of Judge and of Findings, its words as one file.
#[test]
fn the_records() {
    let mut tally = Tally::default();
    for case in cases().into_iter().filter(|case| case.record.call == JUDGE || case.record.call == FINDINGS) {
        tally.show(&case.record.program, &case.record.lemmas);
    }
    tally.at_least(&[("SAFE", 100), ("FORBID", 50), ("RUNOFF", 50), ("REFUSED", 100)], 10_000);
}

/// The same by chance.
#[test]
fn by_chance() {
    let mut tally = Tally::default();
    let chance = (0..400).map(sheet).chain((0..200).map(small)).chain((0..60).map(mixed));
    for (t, l) in chance.chain((0..20).map(large)) {
        tally.show(&t.words(), &l);
    }
    tally.at_least(&[("SAFE", 20), ("FORBID", 100), ("RUNOFF", 100)], 2_000);
}

/// Fade with any one of its 32 words of another kind, left out, or doubled.
#[test]
fn one_word_changed() {
    let good = [FADE, FADE_LEMMAS].concat();
    let mut tally = Tally::default();
    for place in 0..good.len() {
        for kind in 0..16 {
            let mut words = good.clone();
            words[place] = make(kind, payload(words[place]));
            tally.bytes(&bytes_of(&words));
        }
        let mut words = good.clone();
        words.remove(place);
        tally.bytes(&bytes_of(&words));
        words.insert(place, good[place]);
        words.insert(place, good[place]);
        tally.bytes(&bytes_of(&words));
    }
    tally.at_least(&[("SAFE", 32), ("RUNOFF", 1), ("REFUSED", 400)], 1);
}

// ---------------------------------------------------------------------------------------------
// The binary

/// Standard output, with standard error empty and exit status 0.
fn printed(bytes: &[u8]) -> String {
    let mut command = Command::new(env!("CARGO_BIN_EXE_findings"));
    command.stdin(Stdio::piped()).stdout(Stdio::piped()).stderr(Stdio::piped());
    let mut child = command.spawn().unwrap();
    child.stdin.take().unwrap().write_all(bytes).unwrap();
    let output = child.wait_with_output().unwrap();
    assert!(output.status.success() && output.stderr.is_empty());
    String::from_utf8(output.stdout).unwrap()
}

#[test]
fn the_binary() {
    let fade = file(&FADE, &FADE_LEMMAS);
    assert_eq!(printed(&fade), "safe: nodes 1, edges 2\n");
    assert_eq!(printed(&fade[..64]), FADE_ENDS.map(|line| format!("{line}\n")).concat());
    let stair = file(&STAIR, &stair_lemmas().concat());
    let expected = "may meet forbidden combination 0 at node 2; actions: 1 0\n\
                    action 0 may take variable 0 above its high end at node 2; actions: 1 0\n";
    assert_eq!(printed(&stair), expected);
    assert_eq!(printed(&fade[..127]), "odd bytes: the file was cut\n");
    assert_eq!(printed(&[]), "refused 2 AT 0\n");
    assert_eq!(printed(&[0; SHOW_BYTES]), "refused 2 AT 0\n");
    assert_eq!(printed(&[0; SHOW_BYTES + 1]), "too long: more than 65,536 bytes\n");
}
