//! Request 2, "Every finding on the sheet": whole lists worked out by hand, both lists at every refusal,
//! and the list beside Judge's verdict.

use independent::records::{answer, decode, digest, lent_graph, lent_path, Record, FINDINGS, JUDGE};
use independent::shows::*;
use independent::words::*;
use independent::*;

/// The most findings: 512 nodes with 8 combinations and both ends of 8 variables for 16 actions.
const MOST: usize = 512 * (8 + 16 * 8 * 2);

/// No successor.
const NONE: u32 = 0xCFFFFFFF;

/// The answer, and the graph list and the findings list afterwards. Both are lent with their marks.
fn listed(p: &[u32], l: &[u32], graph: usize, list: usize) -> (Listed, Vec<u32>, Vec<u32>) {
    let mut graph = lent_graph(graph as u32);
    let mut list = lent_path(list as u32);
    let answer = findings(p, l, &mut graph, &mut list);
    (answer, graph, list)
}

/// The same for a record.
fn of_record(record: &Record) -> (Listed, Vec<u32>, Vec<u32>) {
    listed(&record.program, &record.lemmas, record.graph as usize, record.path as usize)
}

/// Judge with a path list that is long enough: its verdict and the graph list.
fn judged(p: &[u32], l: &[u32], graph: usize) -> (Judged, Vec<u32>) {
    let mut graph = lent_graph(graph as u32);
    let mut path = lent_path(PATH_WORDS as u32);
    let verdict = judge(p, l, &mut graph, &mut path);
    (verdict, graph)
}

fn refused(number: u32, value: u64) -> Listed {
    Listed::Refused(Refusal { number, value })
}

/// A list that begins with these words; its rest is zero.
fn zeroed(front: &[u32], length: usize) -> Vec<u32> {
    let mut list = front.to_vec();
    assert!(list.len() <= length);
    list.resize(length, 0);
    list
}

/// A graph list that begins with these records: the rest of the first 9,728 words is zero, words behind
/// them are as they were.
fn filled(front: &[u32], length: usize) -> Vec<u32> {
    let mut graph = zeroed(front, GRAPH_WORDS);
    graph.extend(&lent_graph(length as u32)[GRAPH_WORDS..]);
    graph
}

/// The records of this call, without the beginning of their names.
fn records() -> Vec<(String, Case)> {
    let all = cases().into_iter().filter(|case| case.record.call == FINDINGS);
    all.map(|case| (case.name.strip_prefix("findings: ").unwrap().to_string(), case)).collect()
}

// ---------------------------------------------------------------------------------------------
// Lists by hand

/// Fade: the low and the high end for action 0, the low and the high end for action 1.
const FADE_ENDS: [u32; 4] = [0xE0040000, 0xE0040001, 0xE0044000, 0xE0044001];

/// House without literals: the combination; house by 0, level by 1, level by 2, house by 3.
const HOUSE_OPEN: [u32; 9] = [
    0xE0000000, 0xE0040800, 0xE0040801, 0xE0044000, 0xE0044001, 0xE0048000, 0xE0048001, 0xE004C800, 0xE004C801,
];

/// House with the three nodes of its full lemmas: at node 1 action 1 has no successor, at node 2 action 0.
const HOUSE_ENDS: [u32; 20] = [
    0xE0040800, 0xE0040801, 0xE0044000, 0xE0044001, 0xE0048000, 0xE0048001, 0xE004C800, 0xE004C801,
    0xE00C0800, 0xE00C0801, 0xE00C8000, 0xE00C8001, 0xE00CC800, 0xE00CC801,
    0xE0144000, 0xE0144001, 0xE0148000, 0xE0148001, 0xE014C800, 0xE014C801,
];

/// Action a sets variable a, or a - 8.
const SIXTEEN_ACTIONS: [u32; 32] = [
    0xE0040000, 0xE0040001, 0xE0044800, 0xE0044801, 0xE0049000, 0xE0049001, 0xE004D800, 0xE004D801,
    0xE0052000, 0xE0052001, 0xE0056800, 0xE0056801, 0xE005B000, 0xE005B001, 0xE005F800, 0xE005F801,
    0xE0060000, 0xE0060001, 0xE0064800, 0xE0064801, 0xE0069000, 0xE0069001, 0xE006D800, 0xE006D801,
    0xE0072000, 0xE0072001, 0xE0076800, 0xE0076801, 0xE007B000, 0xE007B001, 0xE007F800, 0xE007F801,
];

const EIGHT_VARIABLES: [u32; 16] = [
    0xE0040000, 0xE0040001, 0xE0040800, 0xE0040801, 0xE0041000, 0xE0041001, 0xE0041800, 0xE0041801,
    0xE0042000, 0xE0042001, 0xE0042800, 0xE0042801, 0xE0043000, 0xE0043001, 0xE0043800, 0xE0043801,
];

const EIGHT_COMBINATIONS: [u32; 8] =
    [0xE0000000, 0xE0000800, 0xE0001000, 0xE0001800, 0xE0002000, 0xE0002800, 0xE0003000, 0xE0003800];

const EIGHT_NODES: [u32; 8] =
    [0xE0000000, 0xE0080000, 0xE0100000, 0xE0180000, 0xE0200000, 0xE0280000, 0xE0300000, 0xE0380000];

const LAST_NODE: [u32; 9] = [
    0xEFF80000, 0xEFF80800, 0xEFF81000, 0xEFF81800, 0xEFF82000, 0xEFF82800, 0xEFF83000, 0xEFF83800, 0xEFFFF801,
];

/// Both nodes: both ends of variable 0 by action 0, of variable 1 by action 1.
const TWO_NODES: [u32; 8] =
    [0xE0040000, 0xE0040001, 0xE0044800, 0xE0044801, 0xE00C0000, 0xE00C0001, 0xE00C4800, 0xE00C4801];

fn fade_by_hand() -> Vec<(&'static str, &'static [u32])> {
    vec![
        ("fade, list of 0", &[]),
        ("fade, list of 1", &[]),
        ("fade, list of 600", &[]),
        ("fade without lemmas [0]", &[0xE0040000]),
        ("fade without lemmas [1]", &[0xE0040001]),
        ("fade without lemmas [0, 1]", &[0xE0040000, 0xE0040001]),
        ("fade without lemmas [2]", &[0xE0044000]),
        ("fade without lemmas [0, 2]", &[0xE0040000, 0xE0044000]),
        ("fade without lemmas [1, 2]", &[0xE0040001, 0xE0044000]),
        ("fade without lemmas [0, 1, 2]", &[0xE0040000, 0xE0040001, 0xE0044000]),
        ("fade without lemmas [3]", &[0xE0044001]),
        ("fade without lemmas [0, 3]", &[0xE0040000, 0xE0044001]),
        ("fade without lemmas [1, 3]", &[0xE0040001, 0xE0044001]),
        ("fade without lemmas [0, 1, 3]", &[0xE0040000, 0xE0040001, 0xE0044001]),
        ("fade without lemmas [2, 3]", &[0xE0044000, 0xE0044001]),
        ("fade without lemmas [0, 2, 3]", &[0xE0040000, 0xE0044000, 0xE0044001]),
        ("fade without lemmas [1, 2, 3]", &[0xE0040001, 0xE0044000, 0xE0044001]),
        ("fade without lemmas [0, 1, 2, 3]", &FADE_ENDS),
        ("fade, lemmas 3 and 0 in this order", &[0xE0040001, 0xE0044000]),
        ("fade, lemma 2 all 0", &[0xE0044000]),
        ("fade, no lemmas, 9728/600", &FADE_ENDS),
        ("fade, no lemmas, 9728/16384", &FADE_ENDS),
        ("fade, no lemmas, 9729/4", &FADE_ENDS),
        ("fade, no lemmas, 16384/4", &FADE_ENDS),
        ("fade without its last lemma, list of 1", &[0xE0044001]),
        ("fade, longer graph list, list of 0", &[]),
        ("refused, none, list of 3", &[]),
        ("room 9728/4, fade", &FADE_ENDS),
    ]
}

fn house_by_hand() -> Vec<(&'static str, &'static [u32])> {
    vec![
        ("house, no lemmas", &HOUSE_OPEN),
        ("house, no lemmas, list of 10", &HOUSE_OPEN),
        ("house, full lemmas", &[]),
        ("house, no ends shown", &HOUSE_ENDS),
        ("house, house low by action 0 not shown", &[0xE0040800, 0xE00C0800]),
        ("house, level high by action 2 not shown", &[0xE0048001, 0xE00C8001, 0xE0148001]),
        ("house, P0 kept", &[0xE0180000]),
        (
            "house, five combinations",
            &[0xE0000800, 0xE0002000, 0xE0081000, 0xE0082000, 0xE0101800, 0xE0102000],
        ),
    ]
}

fn combinations_by_hand() -> Vec<(&'static str, &'static [u32])> {
    vec![
        ("empty graph by goal 0", &[]),
        ("empty graph by goal 0, longer", &[]),
        ("empty graph by contradiction", &[]),
        ("goal 0 of the start not accepted", &[0xE0000000, 0xE0000800, 0xE0040000, 0xE0040001]),
        ("no actions, no combinations", &[]),
        ("16 actions that set nothing", &[]),
        ("combinations, contradicted by one of two", &[]),
        ("combinations, the node itself", &[0xE0000000]),
        ("combinations, other predicates", &[0xE0000000]),
        ("combinations, the empty one", &[0xE0000000]),
        ("combinations, third and fourth of four", &[0xE0001000, 0xE0001800]),
        ("combinations, equal ones", &[0xE0000800, 0xE0001000]),
        ("combinations, last of eight", &[0xE0003800]),
        ("combinations, all eight contradicted", &[]),
        ("combinations, every second of eight", &[0xE0000000, 0xE0001000, 0xE0002000, 0xE0003000]),
        ("combinations, eight empty ones", &EIGHT_COMBINATIONS),
        (
            "combinations at four nodes",
            &[0xE0000000, 0xE0000800, 0xE0080800, 0xE0100000, 0xE0100800, 0xE0180800],
        ),
        ("the empty combination at eight nodes", &EIGHT_NODES),
        ("512 nodes, a combination at node 0 only", &[0xE0000000]),
    ]
}

fn ends_by_hand() -> Vec<(&'static str, &'static [u32])> {
    vec![
        ("ends, both missing", &[0xE0040000, 0xE0040001]),
        ("ends, high missing", &[0xE0040001]),
        ("ends, low missing", &[0xE0040000]),
        ("ends, none missing", &[]),
        ("ends, variable 7", &[0xE0043800, 0xE0043801]),
        ("ends, eight variables", &EIGHT_VARIABLES),
        ("ends, eight variables, high of 7 missing", &[0xE0043801]),
        ("ends, action 15", &[0xE007F800, 0xE007F801]),
        ("ends, 16 actions", &SIXTEEN_ACTIONS),
        ("ends, action 1 of three sets", &[0xE0044000, 0xE0044001]),
        ("ends, lemmas of the other action", &[0xE0044000, 0xE0044001]),
        ("ends, some of eight", &[0xE0040800, 0xE0040801, 0xE0044000, 0xE0044001, 0xE0044801]),
        ("ends, low by a lemma that is not accepted", &[0xE0040000]),
        ("no action gone", &[0xE0000000, 0xE0040000, 0xE0040001, 0xE0044800, 0xE0044801]),
        ("action 0 gone by goal 0", &[0xE0000000, 0xE0044800, 0xE0044801]),
        ("action 1 gone by goal 0", &[0xE0000000, 0xE0040000, 0xE0040001]),
        ("both gone", &[0xE0000000]),
        ("action 0 gone by a clash", &[0xE0000000, 0xE0044800, 0xE0044801]),
        ("action 0 gone by what it keeps", &[0xE0000000, 0xE0044800, 0xE0044801]),
        ("goal 0 not accepted", &[0xE0000000, 0xE0040000, 0xE0040001, 0xE0044800, 0xE0044801]),
        (
            "action 1 gone at node 1 only",
            &[0xE0040000, 0xE0040001, 0xE0044800, 0xE0044801, 0xE00C0000, 0xE00C0001],
        ),
    ]
}

fn nodes_by_hand() -> Vec<(&'static str, &'static [u32])> {
    vec![
        ("two nodes, no ends shown", &TWO_NODES),
        ("two nodes, high shown at none", &[0xE0044801, 0xE00C4801]),
        ("two nodes, high shown at 0", &[0xE00C4801]),
        ("two nodes, high shown at 1", &[0xE0044801]),
        ("two nodes, high shown at each by its own lemma", &[]),
        ("two nodes, high shown by a lemma that is not accepted", &[0xE0044801, 0xE00C4801]),
        ("two nodes, combinations and low ends", &[0xE0000800, 0xE0044800, 0xE0080000, 0xE00C4800]),
        ("P0 kept, its failing forbidden", &[]),
        ("P0 kept, no ends shown", &[0xE0040800, 0xE0040801]),
        ("P0 kept, low end shown", &[0xE0040801]),
        ("P0 touched, its failing forbidden", &[0xE0080000]),
        ("x set, y set, P1 and not P0 forbidden", &[0xE0080800, 0xE0100000, 0xE0180000, 0xE0180800]),
        ("node 511, eight combinations and a high end", &LAST_NODE),
        ("rings, the empty combination at five nodes", &EIGHT_NODES[..5]),
    ]
}

/// The records of request 7: {P0, P1}, {P0}, {}, or the last two of these.
fn walks_by_hand() -> Vec<(&'static str, &'static [u32])> {
    vec![
        ("walks: lower combination farther", &[0xE0080800, 0xE0100000, 0xE0100800]),
        ("walks: run-off before a combination", &[0xE00C0001, 0xE0100000, 0xE0140001]),
        ("walks: combination before a run-off", &[0xE0080000, 0xE0100000, 0xE0140001]),
        ("walks: ends at node 0", &[0xE0040000, 0xE0040001, 0xE0080000, 0xE00C0000, 0xE00C0001]),
        ("walks: combination at node 0", &[0xE0000800, 0xE0080000, 0xE0080800]),
        ("walks: at once", &[0xE0100000]),
    ]
}

/// The lists of all records with few findings, the rest zero to the end of the lent list.
#[test]
fn lists_of_the_records() {
    let mut all = [fade_by_hand(), house_by_hand(), combinations_by_hand()].concat();
    all.extend([ends_by_hand(), nodes_by_hand(), walks_by_hand()].concat());
    for (name, case) in records() {
        let Some(count) = case.hand.as_ref().and_then(|hand| hand.strip_prefix("FINDINGS ")) else { continue };
        if count.len() > 2 {
            continue; // 1,024 and 16,384: below
        }
        let at = all.iter().position(|(known, _)| *known == name);
        let (_, words) = all.remove(at.unwrap_or_else(|| panic!("no list for {name}")));
        let (answer, _, list) = of_record(&case.record);
        assert_eq!(answer, Listed::Listed(words.len()), "{name}");
        assert_eq!(list, zeroed(words, case.record.path as usize), "{name}");
    }
    assert!(all.is_empty(), "{all:?}");
}

/// Two empty combinations at each of 512 nodes.
#[test]
fn a_list_of_1024() {
    let words: Vec<u32> =
        (0..512).flat_map(|node| [0xE0000000, 0xE0000800].map(|word| word + node * 0x80000)).collect();
    assert_eq!(words[1022..], [0xEFF80000, 0xEFF80800]);
    let names = ["1,024 findings", "1,024 findings, longer lists"];
    for (name, case) in records().into_iter().filter(|(name, _)| names.contains(&name.as_str())) {
        let (answer, _, list) = of_record(&case.record);
        assert_eq!(answer, Listed::Listed(1024), "{name}");
        assert!(list == zeroed(&words, case.record.path as usize), "{name}");
    }
}

/// 512 nodes, 16 actions with a successor everywhere that set one variable each, both ends.
#[test]
fn a_list_of_16384() {
    let words: Vec<u32> =
        (0..512u32).flat_map(|node| SIXTEEN_ACTIONS.map(|word| word + node * 0x80000)).collect();
    assert_eq!(words[16_380..], [0xEFFFB000, 0xEFFFB001, 0xEFFFF800, 0xEFFFF801]);
    let (_, case) = records().into_iter().find(|(name, _)| name == "16,384 findings").unwrap();
    assert_eq!(case.record.path, 16_384);
    let (answer, _, list) = of_record(&case.record);
    assert_eq!(answer, Listed::Listed(16_384));
    assert!(list == words);
    // One combination more, at node 0 only: it is the first.
    let (mut t, l) = switches(9, &(0..16).map(|action| vec![action % 8]).collect::<Vec<_>>(), &[]);
    assert_eq!((&t.words(), &l), (&case.record.program, &case.record.lemmas));
    t.bad = vec![(0x1FF, 0)];
    assert_eq!(listed(&t.words(), &l, GRAPH_WORDS, 16_384).0, refused(12, 16_385));
    let (answer, _, list) = listed(&t.words(), &l, GRAPH_WORDS, 16_385);
    assert_eq!(answer, Listed::Listed(16_385));
    assert!(list[0] == 0xE0000000 && list[1..] == words);
}

/// The most findings there can be, in a list just long enough, a longer one and a shorter one.
#[test]
fn the_most_findings() {
    assert_eq!(MOST, 135_168);
    let (t, l) = switches(9, &vec![(0..8).collect(); 16], &[(0, 0); 8]);
    let p = t.words();
    let mut words = Vec::new();
    for node in 0..512u32 {
        words.extend(EIGHT_COMBINATIONS.map(|word| word + node * 0x80000));
        for action in 0..16 {
            words.extend(EIGHT_VARIABLES.map(|word| word + node * 0x80000 + action * 0x4000));
        }
    }
    assert_eq!(words.len(), MOST);
    // Node 256, action 8, variable 4, low; and the last.
    assert_eq!(words[256 * 264 + 8 + 8 * 16 + 8], 0xE8062000);
    assert_eq!(words[MOST - 1], 0xEFFFF801);
    for length in [MOST, MOST + 1, MOST + 1000] {
        let (answer, _, list) = listed(&p, &l, GRAPH_WORDS, length);
        assert_eq!(answer, Listed::Listed(MOST));
        assert!(list == zeroed(&words, length));
    }
    let (answer, graph, list) = listed(&p, &l, GRAPH_WORDS, MOST - 1);
    assert_eq!(answer, refused(12, 135_168));
    assert!(list == lent_path(MOST as u32 - 1));
    // 512 records of 19 words: all words of the graph list are in use. Node 0's distance alone is zero.
    assert_eq!(graph, judged(&p, &l, GRAPH_WORDS).1);
    assert!(graph.iter().enumerate().all(|(place, word)| (*word == 0) == (place == 2)));
}

// ---------------------------------------------------------------------------------------------
// Graph lists by hand: "fills the graph list as judge does"

#[test]
fn graph_lists() {
    let fade = [0x80000000, 0xB0001FFF, 0x00000000, 0xC0000000, 0xC0000000];
    let house = [
        0x8000C000, 0xB0001FFF, 0x00000000, 0xC0000001, 0xC0000002, 0xC0000000, 0xC0000000,
        0x80004002, 0xB0000000, 0x00000001, 0xC0000001, NONE, 0xC0000001, 0xC0000000,
        0x80008001, 0xB0000001, 0x00000001, NONE, 0xC0000002, 0xC0000000, 0xC0000002,
    ];
    let two_nodes = [
        0x80004000, 0xB0001FFF, 0x00000000, 0xC0000001, 0xC0000000,
        0x80000001, 0xB0000000, 0x00000001, 0xC0000001, 0xC0000001,
    ];
    // {}, {P0}, all four, {P0, P1}, {P0, P1, P2}.
    let five_nodes = [
        0x80000000, 0xB0001FFF, 0x00000000, 0xC0000001, 0xC0000000, 0xC0000000, 0xC0000002,
        0x80000001, 0xB0000000, 0x00000001, 0xC0000001, 0xC0000003, 0xC0000001, 0xC0000002,
        0x8000000F, 0xB0000003, 0x00000001, 0xC0000002, 0xC0000002, 0xC0000002, 0xC0000002,
        0x80000003, 0xB0000011, 0x00000002, 0xC0000003, 0xC0000003, 0xC0000004, 0xC0000002,
        0x80000007, 0xB0000032, 0x00000003, 0xC0000004, 0xC0000004, 0xC0000004, 0xC0000002,
    ];
    let list: [(&str, &[u32]); 14] = [
        ("fade, list of 0", &fade),
        ("fade, no lemmas, 16384/4", &fade),
        ("fade, no lemmas, 16384/3", &fade),
        ("fade, no lemmas, 9728/0", &fade),
        ("room 9728/4, fade", &fade),
        ("refused, 12, list of 3", &fade),
        ("house, full lemmas", &house),
        ("house, no ends shown", &house),
        ("house, five combinations", &house),
        ("empty graph by goal 0, longer", &[]),
        ("action 0 gone by what it keeps", &[0x80000001, 0xB0001FFF, 0x00000000, NONE, 0xC0000000]),
        ("two nodes, no ends shown", &two_nodes),
        ("two nodes, combinations and low ends", &two_nodes),
        ("rings, the empty combination at five nodes", &five_nodes),
    ];
    for (name, front) in list {
        let (_, case) = records().into_iter().find(|(known, _)| *known == name).unwrap();
        assert_eq!(of_record(&case.record).1, filled(front, case.record.graph as usize), "{name}");
    }
}

/// Node 511 of the record whose findings are all there: no literal is left, one lost with each of nine steps.
#[test]
fn the_last_node() {
    let (t, l) = last_node(&[(0, 0x1FF); 8]);
    let (_, graph, _) = listed(&t.words(), &l, GRAPH_WORDS, 9);
    let (first, last) = (&graph[..19], &graph[511 * 19..]);
    assert_eq!(first[..4], [0x80000000 | 0x1FF << 14, 0xB0001FFF, 0x00000000, 0xC0000001]);
    assert_eq!((last[0], last[2]), (0x80000000, 9));
    assert!(last[3..].iter().all(|edge| *edge == 0xC00001FF));
}

// ---------------------------------------------------------------------------------------------
// Refusals: both lists at exit

/// Programs and lemmas that are refused, in the order of refusals (12 with a list of 3), and one that
/// isn't. All but the first and the last would have four findings or more.
fn faults() -> Vec<(Vec<u32>, Vec<u32>, Listed)> {
    let changed = |at: usize, word: u32| {
        let mut p = FADE.to_vec();
        p[at] = word;
        p
    };
    let (mut t, tens) = switches(10, &vec![vec![]; 10], &[(0, 0)]);
    t.init.clear();
    let six = [tens.clone(), lemma(START, 0, 0, 0, 0, &[]).repeat(502), vec![make(LEMMA, 0)]].concat();
    vec![
        (vec![], vec![], refused(2, 0)),
        (FADE[..15].to_vec(), FADE_LEMMAS.to_vec(), refused(2, 15)),
        (changed(6, make(FINDING, 0)), vec![], refused(2, 6)),
        (changed(2, make(PRED, 15)), vec![], refused(3, 2)),
        (changed(0, var_word(1, 0)), vec![0], refused(4, 0)),
        (FADE.to_vec(), vec![make(FINDING, 0)], refused(5, 0)),
        (FADE.to_vec(), FADE_LEMMAS[..7].to_vec(), refused(5, 7)),
        (t.words(), [&tens[..], &[0]].concat(), refused(5, 40)),
        (t.words(), six.clone(), refused(6, 1044)),
        (t.words(), six[..1044].to_vec(), refused(7, 512)),
        (t.words(), tens, refused(7, 512)),
        (FADE.to_vec(), vec![], refused(12, 4)),
        (FADE.to_vec(), FADE_LEMMAS.to_vec(), Listed::Listed(0)),
    ]
}

/// "graph list under [9,728] words": 1 with 0, before everything else; both lists are left.
#[test]
fn refusal_1() {
    for (p, l, _) in faults() {
        for graph in [0, 1, 9_215, 9_216, 9_217, GRAPH_WORDS - 1] {
            for list in [0, 3, 600] {
                let left = (refused(1, 0), lent_graph(graph as u32), lent_path(list as u32));
                assert_eq!(listed(&p, &l, graph, list), left);
            }
        }
    }
}

/// 2 to 6 leave both lists, 7 zeroes the first 9,728 words of the graph list and leaves the findings list;
/// all of them whether or not the findings list is long enough.
#[test]
fn refusals_2_to_7() {
    let mut seen = Vec::new();
    for (p, l, answer) in faults() {
        let Listed::Refused(Refusal { number: number @ 2..=7, .. }) = answer else { continue };
        seen.push(number);
        for graph in [GRAPH_WORDS, GRAPH_WORDS + 1, GRAPH_WORDS + 500] {
            let left = if number == 7 { filled(&[], graph) } else { lent_graph(graph as u32) };
            for list in [0, 1, 3, 600] {
                assert_eq!(listed(&p, &l, graph, list), (answer, left.clone(), lent_path(list as u32)));
            }
        }
    }
    seen.dedup();
    assert_eq!(seen, [2, 3, 4, 5, 6, 7]);
}

fn listed_lengths(p: &[u32], l: &[u32], words: &[u32], graph: &[u32]) {
    for length in 0..words.len() + 4 {
        for graph_length in [GRAPH_WORDS, GRAPH_WORDS + 7] {
            let expected = if length < words.len() {
                (refused(12, words.len() as u64), filled(graph, graph_length), lent_path(length as u32))
            } else {
                (Listed::Listed(words.len()), filled(graph, graph_length), zeroed(words, length))
            };
            assert_eq!(listed(p, l, graph_length, length), expected);
        }
    }
}

/// "12, returned with the number of words needed, if the lent list is too short; it comes after 7, leaves
/// that list alone and keeps the graph." All lengths up to the one needed, and more.
#[test]
fn refusal_12() {
    let fade = [0x80000000, 0xB0001FFF, 0x00000000, 0xC0000000, 0xC0000000];
    listed_lengths(&FADE, &[], &FADE_ENDS, &fade);
    listed_lengths(&FADE, &FADE_LEMMAS[8..], &FADE_ENDS[..2], &fade);
    listed_lengths(&FADE, &FADE_LEMMAS, &[], &fade);
    let house_graph = [0x80000000, 0xB0001FFF, 0x00000000, 0xC0000000, 0xC0000000, 0xC0000000, 0xC0000000];
    listed_lengths(&house().words(), &[], &HOUSE_OPEN, &house_graph);
    // The empty graph: nothing is needed.
    let t = at_will(1, &[vec![0]], &[(0, 0)]);
    listed_lengths(&t.words(), &t.forced(START, 0, 0, 0, 0), &[], &[]);
}

/// Every stored record: what the lists are at exit, and the line.
#[test]
fn lists_at_exit() {
    for (name, case) in records() {
        let record = case.record;
        let (outcome, graph, list) = of_record(&record);
        let (lent, lent_list) = (lent_graph(record.graph), lent_path(record.path));
        let head = match outcome {
            Listed::Listed(count) => {
                assert!(list[..count].iter().all(|word| kind(*word) == FINDING), "{name}");
                assert!(list[count..].iter().all(|word| *word == 0), "{name}");
                format!("FINDINGS {count}")
            }
            Listed::Refused(Refusal { number, value }) => {
                assert_eq!(list, lent_list, "{name}");
                format!("REFUSED {number} AT {value}")
            }
        };
        match outcome {
            Listed::Refused(Refusal { number: 1..=6, .. }) => assert_eq!(graph, lent, "{name}"),
            Listed::Refused(Refusal { number: 7, .. }) => assert_eq!(graph, filled(&[], graph.len()), "{name}"),
            _ => assert_eq!(graph, judged(&record.program, &record.lemmas, graph.len()).1, "{name}"),
        }
        let line = format!("{head} GRAPH {} LIST {}", digest(&graph), digest(&list));
        assert_eq!(answer(&record), line, "{name}");
    }
}

// ---------------------------------------------------------------------------------------------
// Beside Judge

/// The word of Judge's finding; None for safe.
fn first_word(verdict: Judged) -> Option<u32> {
    match verdict {
        Judged::Safe { .. } => None,
        Judged::MayForbid { node, bad, .. } => Some(0xE0000000 + node as u32 * 0x80000 + bad as u32 * 0x800),
        Judged::MayRunOff { node, action, variable, high, .. } => {
            let place = node as u32 * 0x80000 + action as u32 * 0x4000 + variable as u32 * 0x800;
            Some(0xE0040000 + place + u32::from(high))
        }
        Judged::Refused(_) => panic!("refused"),
    }
}

/// "Bits named by no field are zero": bits 10 to 1, and action and end of a forbidden combination.
fn bits_are_named(word: u32) -> bool {
    let forbid = word & 0x40000 == 0;
    kind(word) == FINDING && word & 0x7FE == 0 && (!forbid || word & 0x3C001 == 0)
}

/// "The list is empty exactly when judge says safe", judge's finding is the first, the graph lists are
/// equal, and so are the refusals. In judging order the words rise, so that each comes once.
fn beside_judge(p: &[u32], l: &[u32], graph: usize) -> Option<Vec<u32>> {
    let (verdict, judges_graph) = judged(p, l, graph);
    let (answer, graph, list) = listed(p, l, graph, MOST + 1);
    assert_eq!(graph, judges_graph);
    if let Judged::Refused(refusal) = verdict {
        assert_eq!(answer, Listed::Refused(refusal));
        assert!(list == lent_path(MOST as u32 + 1));
        return None;
    }
    let Listed::Listed(count) = answer else { panic!("{answer:?}") };
    let words = &list[..count];
    assert_eq!(words.first().copied(), first_word(verdict));
    assert!(words.iter().all(|word| bits_are_named(*word)) && words.windows(2).all(|two| two[0] < two[1]));
    assert!(list[count..].iter().all(|word| *word == 0));
    Some(words.to_vec())
}

/// A slow reading of the sentence, over the words: "each node with each combination it doesn't contradict,
/// and each node, action that has a successor there, variable it sets and end without an applying lemma".
fn slow_list(p: &[u32], l: &[u32], graph: &[u32]) -> Vec<u32> {
    let lemmas = split_lemmas(l);
    let accepted: Vec<&Vec<u32>> =
        (0..lemmas.len()).filter(|k| ask(p, l, *k) == Asked::Accepted).map(|k| &lemmas[k]).collect();
    let combinations: Vec<u32> = p.iter().copied().filter(|word| kind(*word) == SETS).collect();
    let actions = p.iter().filter(|word| kind(**word) == ACTION).count() as u32;
    let mut words = Vec::new();
    let nodes = graph[..GRAPH_WORDS].chunks(HEADER + actions as usize);
    for (node, record) in nodes.take_while(|record| kind(record[0]) == SETS).enumerate() {
        let node = node as u32;
        for (bad, combination) in combinations.iter().enumerate() {
            let opposites = combination >> 14 & record[0] | combination & record[0] >> 14;
            if opposites & 0x3FFF == 0 {
                words.push(14 << 28 | node << 19 | (bad as u32) << 11);
            }
        }
        for action in (0..actions).filter(|action| record[HEADER + *action as usize] != NONE) {
            let sets = action_part(p, action as usize).iter().filter(|word| kind(**word) == SET);
            for variable in sets.map(|word| payload(*word)) {
                for (end, goal) in [(0, 3), (1, 4)] {
                    let wanted = lemma_word(action, goal, variable);
                    let applies = |l: &&Vec<u32>| l[0] == wanted && l[1] & record[0] == l[1];
                    if !accepted.iter().any(applies) {
                        words.push(14 << 28 | node << 19 | 1 << 18 | action << 14 | variable << 11 | end);
                    }
                }
            }
        }
    }
    words
}

/// Over all stored records, of Judge and of this call.
#[test]
fn beside_judge_over_the_records() {
    let (mut empty, mut others, mut refusals, mut findings) = (0, 0, 0, 0);
    for case in cases().into_iter().filter(|case| case.record.call == JUDGE || case.record.call == FINDINGS) {
        let (p, l) = (&case.record.program, &case.record.lemmas);
        let Some(words) = beside_judge(p, l, case.record.graph as usize) else {
            refusals += 1;
            continue;
        };
        assert!(words == slow_list(p, l, &judged(p, l, GRAPH_WORDS).1), "{}", case.name);
        if words.is_empty() {
            empty += 1;
        } else {
            others += 1;
        }
        findings += words.len();
    }
    println!("{empty} empty lists, {others} others, {refusals} refused, {findings} findings");
    assert!(empty > 120 && others > 200 && refusals > 150);
}

/// The same by chance.
#[test]
fn beside_judge_by_chance() {
    let (mut empty, mut others, mut longest) = (0, 0, 0);
    let chance = (0..400).map(sheet).chain((0..200).map(small)).chain((0..60).map(mixed));
    for (number, (t, l)) in chance.chain((0..20).map(large)).enumerate() {
        let p = t.words();
        let Some(words) = beside_judge(&p, &l, GRAPH_WORDS + number % 3) else { continue };
        assert!(words == slow_list(&p, &l, &judged(&p, &l, GRAPH_WORDS).1), "{number}");
        if words.is_empty() {
            empty += 1;
        } else {
            others += 1;
        }
        longest = longest.max(words.len());
    }
    println!("{empty} empty lists, {others} others, the longest of {longest}");
    assert!(empty > 50 && others > 400 && longest > 500);
}

// ---------------------------------------------------------------------------------------------
// Records

/// A record of this call is read back, one of a call that there isn't is not.
#[test]
fn calls() {
    let program = FADE.to_vec();
    let mut record = Record { call: FINDINGS, program, graph: 9728, path: 4, ..Record::default() };
    assert_eq!(record.words()[..7], [22, 5, 0, 16, 0, 9728, 4]);
    assert_eq!(decode(&record.words()), Ok(vec![record.clone()]));
    for call in [0, 1, 2, 6] {
        record.call = call;
        assert_eq!(decode(&record.words()), Err(format!("record 0: call {call}")));
    }
}

/// They stand behind the others, and no kind of answer is missing among them. Request 7's records, of both
/// calls, stand behind all and are not counted here.
#[test]
fn records_cover_findings() {
    let all: Vec<Case> = cases().into_iter().take_while(|case| !case.name.starts_with("walks: ")).collect();
    let before = all.iter().take_while(|case| case.record.call != FINDINGS).count();
    assert!(all[before..].iter().all(|case| case.record.call == FINDINGS));
    assert!(all[..before].iter().all(|case| !case.name.starts_with("findings: ")));
    let by_hand = all[before..].iter().filter(|case| case.hand.is_some()).count();
    println!("{} records, {by_hand} by hand", all.len() - before);
    assert!(all.len() - before >= 120 && by_hand >= 120);
    let lists = all[before..].iter().map(|case| (case.record.graph, case.record.path));
    assert!(lists.clone().all(|(graph, list)| graph <= 16_384 && list <= 16_384));
    assert_eq!(lists.map(|(_, list)| list).max(), Some(16_384));
    let count = |head: &str| all[before..].iter().filter(|case| answer(&case.record).starts_with(head)).count();
    for (head, least) in [
        ("FINDINGS 0 ", 15), ("FINDINGS ", 80), ("REFUSED 1 ", 15), ("REFUSED 2 ", 2), ("REFUSED 3 ", 1),
        ("REFUSED 4 ", 2), ("REFUSED 5 ", 2), ("REFUSED 6 ", 1), ("REFUSED 7 ", 2), ("REFUSED 12 ", 9),
    ] {
        assert!(count(head) >= least, "{head}: {}", count(head));
    }
}
