//! Request 6, "Distance in the node record": distances worked out by hand, what holds of every distance, the
//! new room of the graph list, and the view over the new record.

use independent::records::{answer, digest, lent_graph, lent_path, FINDINGS, JUDGE};
use independent::shows::*;
use independent::words::*;
use independent::*;

/// "The graph list must now have 9,728 words, which replaces 9,216 throughout 01."
const ROOM: usize = 9_728;
const OLD_ROOM: usize = 9_216;

/// No successor.
const NONE: u32 = 0xCFFFFFFF;

// ---------------------------------------------------------------------------------------------
// Graphs, node by node

/// A show that is not refused.
struct Shown {
    verdict: Judged,
    /// The words of each node.
    records: Vec<Vec<u32>>,
    /// The actions of the verdict's path.
    steps: Vec<u32>,
}

/// The counts of nodes, and the node of a finding.
fn nodes_and_finding(verdict: Judged) -> Option<(usize, Option<usize>)> {
    match verdict {
        Judged::Safe { nodes, .. } => Some((nodes, None)),
        Judged::MayForbid { node, nodes, .. } => Some((nodes, Some(node))),
        Judged::MayRunOff { node, nodes, .. } => Some((nodes, Some(node))),
        Judged::Refused(_) => None,
    }
}

/// Judges with lists that are longer than they need be. Behind the records the room is zero; behind the room
/// nothing changes.
fn shown(p: &[u32], l: &[u32]) -> Option<Shown> {
    let (mut graph, mut path) = (lent_graph(ROOM as u32 + 3), lent_path(PATH_WORDS as u32));
    let verdict = judge(p, l, &mut graph, &mut path);
    let (nodes, _) = nodes_and_finding(verdict)?;
    let width = 3 + check(p).unwrap().actions;
    assert!(graph[nodes * width..ROOM].iter().all(|word| *word == 0));
    assert_eq!(graph[ROOM..], lent_graph(ROOM as u32 + 3)[ROOM..]);
    let records = (0..nodes).map(|node| graph[node * width..(node + 1) * width].to_vec()).collect();
    let steps = path.iter().take_while(|word| **word >> 28 == 13).map(|word| word & 15).collect();
    Some(Shown { verdict, records, steps })
}

impl Shown {
    fn distances(&self) -> Vec<u32> {
        self.records.iter().map(|record| record[2]).collect()
    }

    /// How many nodes each ring has.
    fn rings(&self) -> Vec<usize> {
        let distances = self.distances();
        let last = distances.iter().max().map_or(0, |distance| distance + 1);
        (0..last).map(|ring| distances.iter().filter(|distance| **distance == ring).count()).collect()
    }

    /// The nodes on the way from node 0, by the ORIGIN words: each but the first with the action that found
    /// it.
    fn way(&self, node: usize) -> Vec<(usize, usize)> {
        let mut way = Vec::new();
        let mut at = node;
        while at != 0 {
            let origin = self.records[at][1];
            way.push((at, (origin & 15) as usize));
            at = (origin >> 4 & 511) as usize;
        }
        way.reverse();
        way
    }
}

fn case(name: &str) -> Case {
    cases().into_iter().find(|case| case.name == name).unwrap_or_else(|| panic!("no case {name}"))
}

fn of_case(name: &str) -> Shown {
    let record = case(name).record;
    shown(&record.program, &record.lemmas).unwrap_or_else(|| panic!("{name} is refused"))
}

// ---------------------------------------------------------------------------------------------
// Distances by hand

/// From the graphs that stand as remarks beside the cases: "0 for node 0, and the parent's plus 1 for
/// others".
#[test]
fn distances_by_hand() {
    let star = [vec![0], vec![1; 16]].concat();
    let lost_at_last = [vec![0], vec![1; 14], vec![2]].concat();
    let list: Vec<(&str, &[u32])> = vec![
        ("fade (a)", &[0]),
        ("house, own full lemmas", &[0, 1, 1]),
        ("house (d), no lemmas", &[0]),
        ("house (e), own lemmas", &[0, 1, 1]),
        ("house (e), P0 unknown at the start, own lemmas", &[0, 1, 1, 1, 2]),
        ("house without action 0's lemmas on P0", &[0, 1, 1, 2]),
        ("house without own lemma 1", &[0, 1, 1, 1]),
        ("house without own lemma 4", &[0, 1, 1]),
        ("house without own lemma 19", &[0, 1, 1, 1, 2]),
        ("greatest program, not all kept", &lost_at_last),
        ("empty graph by goal 0", &[]),
        ("one node, no actions", &[0]),
        ("16 loops", &[0]),
        ("contradiction at node 1", &[0, 1, 1, 1]),
        ("nothing is kept", &[0, 1]),
        ("14 predicates, 16 actions", &star),
        ("tree", &[0, 1, 1, 2, 2, 2, 3, 3, 4]),
        ("two actions: x, y, P1 forbidden", &[0, 1, 1, 2]),
        ("kept literals as premises", &[0, 1, 1]),
        ("cues", &[0, 1, 2, 3, 4]),
        ("alternate: true 0, 1, false 2, 3, not P0 forbidden", &[0, 1, 1, 2]),
        ("kept subsets 3, 3 actions", &[0, 1, 1, 1, 2, 2, 2, 3]),
        ("kept subsets 2 and one node", &[0, 1, 1, 1, 2]),
        ("rings, all at once", &[0, 1, 1, 2, 3]),
        ("rings, two ways", &[0, 1, 1, 2]),
        ("rings, by two", &[0, 1, 1, 2, 2, 3, 3]),
        ("findings: two nodes, no ends shown", &[0, 1]),
        ("findings: combinations at four nodes", &[0, 1, 1, 2]),
        ("findings: rings, the empty combination at five nodes", &[0, 1, 1, 2, 3]),
    ];
    for (name, distances) in list {
        assert_eq!(of_case(name).distances(), distances, "{name}");
    }
}

/// Whole records of the cases of request 6, typed: SETS, ORIGIN, distance, EDGE words.
#[test]
fn records_by_hand() {
    let all_at_once = [
        [0x80000000, 0xB0001FFF, 0x00000000, 0xC0000001, 0xC0000000, 0xC0000000, 0xC0000002],
        [0x80000001, 0xB0000000, 0x00000001, 0xC0000001, 0xC0000003, 0xC0000001, 0xC0000002],
        [0x8000000F, 0xB0000003, 0x00000001, 0xC0000002, 0xC0000002, 0xC0000002, 0xC0000002],
        [0x80000003, 0xB0000011, 0x00000002, 0xC0000003, 0xC0000003, 0xC0000004, 0xC0000002],
        [0x80000007, 0xB0000032, 0x00000003, 0xC0000004, 0xC0000004, 0xC0000004, 0xC0000002],
    ];
    assert_eq!(of_case("rings, all at once").records, all_at_once);
    let two_ways = [
        [0x8001C000, 0xB0001FFF, 0x00000000, 0xC0000001, 0xC0000000, 0xC0000000, 0xC0000002],
        [0x80018000, 0xB0000000, 0x00000001, 0xC0000001, 0xC0000002, 0xC0000001, 0xC0000002],
        [0x80010000, 0xB0000003, 0x00000001, 0xC0000002, 0xC0000002, 0xC0000003, 0xC0000002],
        [0x80000000, 0xB0000022, 0x00000002, 0xC0000003, 0xC0000003, 0xC0000003, 0xC0000003],
    ];
    let shown = of_case("rings, two ways");
    assert_eq!(shown.records, two_ways);
    assert_eq!(shown.steps, [3, 2]);
    let cues = [
        [0x8003C000, 0xB0001FFF, 0x00000000, 0xC0000001, NONE, NONE, NONE],
        [0x80030003, 0xB0000000, 0x00000001, NONE, 0xC0000002, NONE, NONE],
        [0x80020007, 0xB0000011, 0x00000002, NONE, NONE, 0xC0000003, NONE],
        [0x8000000F, 0xB0000022, 0x00000003, NONE, NONE, NONE, 0xC0000004],
        [0x80038000, 0xB0000033, 0x00000004, 0xC0000001, NONE, NONE, NONE],
    ];
    assert_eq!(of_case("cues").records, cues);
    assert_eq!(of_case("house, own full lemmas").records.concat(), HOUSE_RECORDS);
}

/// The line that answers a record speaks of the whole graph list, the distances included.
#[test]
fn lines_by_hand() {
    let mut graph = HOUSE_RECORDS.to_vec();
    graph.resize(ROOM, 0);
    let line = format!("SAFE nodes 3 edges 10 GRAPH {} PATH {}", digest(&graph), digest(&[0; 512]));
    assert_eq!(answer(&case("house, own full lemmas").record), line);
    graph[9] = 2; // node 1's distance
    assert!(!line.contains(&digest(&graph).to_string()));
    // The words of Fade, and two of the lent ones behind the room.
    let mut graph = vec![0x80000000, 0xB0001FFF, 0x00000000, 0xC0000000, 0xC0000000];
    graph.resize(ROOM, 0);
    graph.push(0xA5002600);
    let line = format!("SAFE nodes 1 edges 2 GRAPH {} PATH {}", digest(&graph), digest(&[0; 512]));
    assert_eq!(answer(&case("room 9729/512, fade").record), line);
}

/// With each step one predicate more is known to hold (or one literal is lost): the distance is their number.
#[test]
fn rings_of_subsets() {
    let nine = vec![1, 9, 36, 84, 126, 126, 84, 36, 9, 1];
    let eight = vec![1, 8, 28, 56, 70, 56, 28, 8, 1];
    let grid = vec![1, 2, 3, 4, 5, 6, 7, 8, 7, 6, 5, 4, 3, 2, 1];
    for (name, rings) in [
        ("512 nodes", &nine),
        ("512 nodes of 19 words", &nine),
        ("kept subsets 9, 16 actions", &nine),
        ("256 nodes", &eight),
        ("rings, grid", &grid),
        ("findings: 1,024 findings", &nine),
    ] {
        let shown = of_case(name);
        assert_eq!(&shown.rings(), rings, "{name}");
        assert!(shown.records.iter().all(|record| record[2] == (record[0] & 0x3FFF).count_ones()), "{name}");
    }
    for (name, literals, rings) in [
        ("eight, literals lost", 8, &eight),
        ("findings: node 511, eight combinations and a high end", 9, &nine),
    ] {
        let shown = of_case(name);
        assert_eq!(&shown.rings(), rings, "{name}");
        let left = |record: &[u32]| (record[0] >> 14 & 0x3FFF).count_ones();
        assert!(shown.records.iter().all(|record| record[2] == literals - left(record)), "{name}");
    }
}

/// Each node one step farther than the last: up to 511.
#[test]
fn distances_of_chains() {
    for (name, nodes) in [
        ("counter 1", 2),
        ("counter 4", 16),
        ("counter 9", 512),
        ("counter 9, last forbidden", 512),
        ("chain of 511 steps, 16 actions", 512),
    ] {
        assert_eq!(of_case(name).distances(), (0..nodes).collect::<Vec<u32>>(), "{name}");
    }
    let steps = [vec![0], vec![15; 510]].concat();
    assert_eq!(of_case("chain of 511 steps, 16 actions").steps, steps);
    // Node 1 beside the chain: the others have the number that is one less.
    let beside = of_case("chain beside a node, 16 actions");
    assert_eq!(beside.distances(), [vec![0], (1..2).collect(), (1..511).collect::<Vec<u32>>()].concat());
    assert_eq!(beside.steps, [15; 510]);
}

/// Nodes 2n - 1 and 2n are n steps away.
#[test]
fn distances_by_two() {
    let (t, l) = by_two(14);
    let distances = [0, 1, 1, 2, 2, 3, 3, 4, 4, 5, 5, 6, 6, 7, 7];
    assert_eq!(shown(&t.words(), &l).unwrap().distances(), distances);
}

// ---------------------------------------------------------------------------------------------
// What holds of every distance

/// How many shows there were, the most rings of one, and how many have a distance that isn't the node's
/// number.
#[derive(Debug, Default)]
struct Tally {
    shows: usize,
    refused: usize,
    nodes: usize,
    most_rings: usize,
    not_numbers: usize,
    findings_behind: usize,
}

impl Tally {
    fn show(&mut self, p: &[u32], l: &[u32], name: &str) {
        let Some(shown) = shown(p, l) else {
            self.refused += 1;
            return;
        };
        kinds(&shown, name);
        parents(&shown, name);
        paths(&shown, name);
        orders(&shown, name);
        self.shows += 1;
        self.nodes += shown.records.len();
        self.most_rings = self.most_rings.max(shown.rings().len());
        self.not_numbers += usize::from(shown.distances().iter().enumerate().any(|(n, d)| *d as usize != n));
        self.findings_behind += usize::from(!shown.steps.is_empty());
    }
}

/// "a third word after ORIGIN, of kind 0": SETS, ORIGIN, the distance, then EDGE words only. The distance is
/// below 512, so that the bits above it are zero.
fn kinds(shown: &Shown, name: &str) {
    for record in &shown.records {
        assert_eq!((record[0] >> 28, record[1] >> 28, record[2] >> 28), (8, 11, 0), "{name}");
        assert!(record[2] < 512, "{name}");
        assert!(record[3..].iter().all(|word| word >> 28 == 12), "{name}");
    }
}

/// "0 for node 0, and the parent's plus 1 for others"
fn parents(shown: &Shown, name: &str) {
    for (node, record) in shown.records.iter().enumerate() {
        if node == 0 {
            assert_eq!(record[1..3], [0xB0001FFF, 0x00000000], "{name}");
        } else {
            let parent = (record[1] >> 4 & 511) as usize;
            assert!(parent < node && record[2] == shown.records[parent][2] + 1, "{name}: node {node}");
        }
    }
}

/// The distance is the number of actions in the path to the node, which goes along the EDGE words; that of
/// the verdict's node is the number of STEP words.
fn paths(shown: &Shown, name: &str) {
    for node in 0..shown.records.len() {
        let way = shown.way(node);
        assert_eq!(way.len(), shown.records[node][2] as usize, "{name}: node {node}");
        let mut at = 0;
        for (next, action) in way {
            assert_eq!(shown.records[at][3 + action], 0xC0000000 + next as u32, "{name}: node {node}");
            at = next;
        }
        assert_eq!(at, node, "{name}");
    }
    let (_, finding) = nodes_and_finding(shown.verdict).unwrap();
    let length = finding.map_or(0, |node| shown.records[node][2] as usize);
    assert_eq!(shown.steps.len(), length, "{name}");
}

/// Distances never fall with the node number, nor do they leave a ring out; and every edge raises the
/// distance by at most 1.
fn orders(shown: &Shown, name: &str) {
    let distances = shown.distances();
    assert!(distances.windows(2).all(|two| two[0] <= two[1] && two[1] <= two[0] + 1), "{name}");
    for record in &shown.records {
        for edge in record[3..].iter().filter(|edge| **edge != NONE) {
            assert!(distances[(edge & 0x0FFFFFFF) as usize] <= record[2] + 1, "{name}");
        }
    }
}

/// Every node of every stored case of Judge and of Findings.
#[test]
fn every_stored_case() {
    let mut tally = Tally::default();
    for case in cases().into_iter().filter(|case| case.record.call == JUDGE || case.record.call == FINDINGS) {
        tally.show(&case.record.program, &case.record.lemmas, &case.name);
    }
    println!("{tally:?}");
    assert!(tally.shows > 400 && tally.refused > 100 && tally.nodes > 10_000);
    assert!(tally.most_rings == 512 && tally.not_numbers > 80 && tally.findings_behind > 50);
}

/// The same over generated shows.
#[test]
fn every_generated_show() {
    let mut tally = Tally::default();
    let chance = (0..300).map(small).chain((0..300).map(sheet)).chain((0..300).map(ringed));
    let large = (0..60).map(mixed).chain((0..20).map(large));
    let last_forbidden = (1..=9).map(|bits| counter(bits, &[(0, (1 << bits) - 1)]));
    let made = (1..=7).map(grid).chain((1..=14).map(by_two)).chain(last_forbidden);
    for (number, (t, l)) in chance.chain(large).chain(made).enumerate() {
        tally.show(&t.words(), &l, &number.to_string());
    }
    println!("{tally:?}");
    assert!(tally.shows > 900 && tally.nodes > 8_000);
    assert!(tally.most_rings == 512 && tally.not_numbers > 300 && tally.findings_behind > 25);
}

/// Shows by chance have graphs of several rings: the stored ones are among them.
#[test]
fn rings_by_chance() {
    let rings: Vec<Vec<usize>> = (0..40)
        .map(|seed| {
            let (t, l) = ringed(seed);
            shown(&t.words(), &l).unwrap().rings()
        })
        .collect();
    println!("{:?}", &rings[..4]);
    assert!(rings.iter().filter(|rings| rings.len() > 3).count() > 20);
    assert!(rings[..4].iter().filter(|rings| rings.len() > 3).count() >= 3);
}

// ---------------------------------------------------------------------------------------------
// The room

/// Judge with both lists marked: the answer and what is left of the graph list; the path list where it is
/// left.
fn judged(p: &[u32], l: &[u32], graph: usize) -> (Judged, Vec<u32>, bool) {
    let (mut graph, mut path) = (lent_graph(graph as u32), lent_path(PATH_WORDS as u32));
    let verdict = judge(p, l, &mut graph, &mut path);
    (verdict, graph, path == lent_path(PATH_WORDS as u32))
}

/// "graph list under [9,728] words": 1 with 0, and all lists are left. The old room is too short.
#[test]
fn refusal_1() {
    let shows = [
        (FADE.to_vec(), FADE_LEMMAS.to_vec()),
        (house().words(), house_lemmas().concat()),
        (vec![], vec![]),
        (FADE.to_vec(), vec![0]),
    ];
    for (p, l) in shows {
        for length in [0, 1, OLD_ROOM - 1, OLD_ROOM, OLD_ROOM + 1, ROOM - 1] {
            let refusal = Refusal { number: 1, value: 0 };
            let left = lent_graph(length as u32);
            assert_eq!(judged(&p, &l, length), (Judged::Refused(refusal), left.clone(), true));
            let (mut graph, mut list) = (left.clone(), lent_path(9));
            assert_eq!(findings(&p, &l, &mut graph, &mut list), Listed::Refused(refusal));
            assert_eq!((graph, list), (left, lent_path(9)));
        }
    }
    for length in [ROOM, ROOM + 1, 16_384] {
        assert_eq!(judged(&FADE, &FADE_LEMMAS, length).0, Judged::Safe { nodes: 1, edges: 2 });
        let mut graph = lent_graph(length as u32);
        assert_eq!(findings(&FADE, &FADE_LEMMAS, &mut graph, &mut []), Listed::Listed(0));
    }
}

/// 512 nodes. With 16 actions the records end at the room's last word; with 15 they are as long as the old
/// room, and 512 zeros follow.
#[test]
fn the_room_in_use() {
    let (t, l) = kept_subsets(9, 16);
    let (verdict, graph, _) = judged(&t.words(), &l, ROOM + 2);
    assert_eq!(verdict, Judged::Safe { nodes: 512, edges: 8192 });
    assert!(graph.iter().enumerate().all(|(place, word)| (*word == 0) == (place == 2)));
    // 1 + 9 + 36 + 84 + 126 + 126 + 84 + 36 = 502 is {P0 to P7}, which makes all nine by action 8.
    assert_eq!(graph[9_709..9_712], [0x800001FF, 0xB0000000 | 502 << 4 | 8, 9]);
    assert!(graph[9_712..9_728].iter().all(|word| *word == 0xC00001FF));
    assert_eq!(graph[9_728..], [0xA5002600, 0xA5002601]);
    let (t, l) = kept_subsets(9, 15);
    let (verdict, graph, _) = judged(&t.words(), &l, ROOM + 2);
    assert_eq!(verdict, Judged::Safe { nodes: 512, edges: 7680 });
    assert_eq!(graph[9_215], 0xC00001FF);
    assert!(graph[9_216..9_728].iter().all(|word| *word == 0));
    assert_eq!(graph[9_728..], [0xA5002600, 0xA5002601]);
}

/// Refusal 7: "path list [left]; first [9,728] graph words become zero", and no other.
#[test]
fn refusal_7() {
    let refusal = Refusal { number: 7, value: 512 };
    let idle = vec![vec![]; 10];
    let (t, l) = switches(10, &idle, &[]);
    let p = t.words();
    for length in ROOM..ROOM + 4 {
        let mut left = lent_graph(length as u32);
        left[..ROOM].fill(0);
        assert_eq!(judged(&p, &l, length), (Judged::Refused(refusal), left.clone(), true));
        let (mut graph, mut list) = (lent_graph(length as u32), lent_path(9));
        assert_eq!(findings(&p, &l, &mut graph, &mut list), Listed::Refused(refusal));
        assert_eq!((graph, list), (left, lent_path(9)));
    }
    // Ones at the words 9,215 to 9,729 of a list of zeros.
    let mut graph = vec![0; ROOM + 2];
    graph[9_215..=9_729].fill(0xFFFFFFFF);
    assert_eq!(judge(&p, &l, &mut graph, &mut lent_path(512)), Judged::Refused(refusal));
    assert!(graph[..9_728].iter().all(|word| *word == 0));
    assert_eq!(graph[9_728..], [0xFFFFFFFF, 0xFFFFFFFF]);
}

/// The stored cases at the rooms' lengths, with their answers.
#[test]
fn stored_rooms() {
    let rooms: Vec<(String, String)> = cases()
        .into_iter()
        .filter(|case| case.name.contains("room "))
        .map(|case| (case.name.replace("findings: ", ""), case.hand.unwrap()))
        .collect();
    let count = |name: &str, hand: &str| rooms.iter().filter(|(n, h)| n.contains(name) && h == hand).count();
    assert_eq!((count("room 9215/", "REFUSED 1 AT 0"), count("room 9216/", "REFUSED 1 AT 0")), (2, 10));
    assert_eq!((count("room 9217/", "REFUSED 1 AT 0"), count("room 9727/", "REFUSED 1 AT 0")), (1, 1));
    assert_eq!((count("room 9728/", "REFUSED 7 AT 512"), count("room 9728/", "FINDINGS 4")), (1, 1));
    assert_eq!((count("room 9729/", "REFUSED 7 AT 512"), count("room 9730/", "REFUSED 7 AT 512")), (2, 2));
    assert_eq!(count("room 9729/", "SAFE nodes 1 edges 2"), 1);
    assert_eq!(rooms.len(), 21);
}

// ---------------------------------------------------------------------------------------------
// The view

/// The questions that stand with the shows.
#[test]
fn views_by_hand() {
    let all = views();
    for View { name, graph, counts, asked, hand } in &all {
        let answer = successor(graph, counts.0, counts.1, asked.0, asked.1);
        assert_eq!(answer, *hand, "{name}, {counts:?}, {asked:?}, {} words", graph.len());
    }
    println!("{} questions", all.len());
    assert!(all.len() > 90);
}

/// Every EDGE word of every stored case: "the payload of that EDGE word". Exactly the records are enough, one
/// word fewer is not.
#[test]
fn views_of_the_stored_cases() {
    let mut edges = 0;
    for case in cases().into_iter().filter(|case| case.record.call == JUDGE) {
        let Some(shown) = shown(&case.record.program, &case.record.lemmas) else { continue };
        let Some(first) = shown.records.first() else { continue };
        let (nodes, actions) = (shown.records.len(), first.len() - 3);
        let words = shown.records.concat();
        for (node, record) in shown.records.iter().enumerate() {
            for (action, edge) in record[3..].iter().enumerate() {
                assert_eq!(successor(&words, nodes, actions, node, action), Ok(edge & 0x0FFFFFFF));
                edges += 1;
            }
        }
        let short = successor(&words[..words.len() - 1], nodes, actions, 0, 0);
        assert_eq!(short, Err(Refusal { number: 1, value: 0 }), "{}", case.name);
    }
    assert!(edges > 50_000);
}

// ---------------------------------------------------------------------------------------------
// The word

/// "of kind 0" is a kind of the graph list only: in a program it is 2, in a lemma list 5, wherever it stands.
#[test]
fn kind_0() {
    assert_eq!((DISTANCE, make(DISTANCE, 511), HEADER, GRAPH_WORDS), (0, 0x000001FF, 3, ROOM));
    assert_eq!(GRAPH_WORDS, MAX_NODES * (3 + MAX_ACTIONS));
    for at in 0..16 {
        let mut p = FADE.to_vec();
        p[at] = make(DISTANCE, p[at]);
        assert_eq!(check(&p), Err(Refusal { number: 2, value: at as u64 }));
        let mut l = FADE_LEMMAS.to_vec();
        l[at] = make(DISTANCE, l[at]);
        assert_eq!(ask(&FADE, &l, 0), Asked::Refused(Refusal { number: 5, value: at as u64 }));
    }
}
