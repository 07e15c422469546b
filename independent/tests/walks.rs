//! Request 7, "The shortest press list": the walks of small graphs by hand, the claim over every show there is,
//! and what the checks say where the claim is false.

use independent::records::{answer, lent_graph, lent_path, FINDINGS, JUDGE};
use independent::sentences::MOST_FINDINGS;
use independent::shows::*;
use independent::walks::*;
use independent::*;

/// No successor.
const NONE: u32 = 0xCFFFFFFF;

/// Words that stand where SETS, ORIGIN and the distance belong, in the graphs that are typed here: they are
/// not looked at, nor would they be right.
const ODD: [u32; 3] = [0xC0000000, 0xB0000001, 0xC0000001];

/// A graph list with these EDGE words by node.
fn typed<const N: usize>(edges: &[[u32; N]]) -> Vec<u32> {
    edges.iter().flat_map(|record| [&ODD[..], &record[..]].concat()).collect()
}

fn edge(node: u32) -> u32 {
    0xC0000000 | node
}

/// STEP words, and zero behind them.
fn path_of(walk: &[usize]) -> Vec<u32> {
    let mut path: Vec<u32> = walk.iter().map(|action| 0xD0000000 | *action as u32).collect();
    path.resize(512.max(walk.len() + 1), 0);
    path
}

/// 0 goes to 4 and 1, 1 to 2, 2 to 3 and 0, 3 to 5, 4 to itself, 5 to 4 and 3; 6 goes to 0, nothing goes to 6.
/// Numbered so that the nodes at 1, 1, 2, 3, 4 steps are 4, 1, 2, 3, 5.
fn seven() -> Vec<u32> {
    typed(&[
        [edge(4), edge(1)],
        [NONE, edge(2)],
        [edge(3), edge(0)],
        [edge(5), NONE],
        [edge(4), NONE],
        [edge(4), edge(3)],
        [edge(0), edge(0)],
    ])
}

// ---------------------------------------------------------------------------------------------
// The functions by hand

#[test]
fn fewest_by_hand() {
    let steps = [Some(0), Some(1), Some(2), Some(3), Some(1), Some(4), None];
    assert_eq!(fewest(&seven(), 7, 2), steps);
    assert_eq!(fewest(&HOUSE_RECORDS, 3, 4), [Some(0), Some(1), Some(1)]);
    assert_eq!(fewest(&typed(&[[edge(0)]]), 1, 1), [Some(0)]);
    assert_eq!(fewest(&typed(&[[NONE], [edge(0)]]), 2, 1), [Some(0), None]);
    // The nearer ones have the higher numbers: 0, 4, 3, 2, 1 in a row.
    let back = typed(&[[edge(4)], [edge(0)], [edge(1)], [edge(2)], [edge(3)]]);
    assert_eq!(fewest(&back, 5, 1), [Some(0), Some(4), Some(3), Some(2), Some(1)]);
}

#[test]
fn walks_by_hand() {
    let graph = seven();
    let walks: [(usize, Option<&[usize]>); 9] = [
        (0, Some(&[])),
        (1, Some(&[1])),
        (2, Some(&[1, 1])),
        (3, Some(&[1, 1, 0])),
        (4, Some(&[0])),
        (5, Some(&[1, 1, 0, 0])),
        (6, None),
        (7, None),
        (usize::MAX, None),
    ];
    for (node, walk) in walks {
        assert_eq!(walk_to(&graph, 7, 2, node).as_deref(), walk, "{node}");
    }
    assert_eq!(walk_to(&HOUSE_RECORDS, 3, 4, 2), Some(vec![1]));
    // Both actions lead there: either will do.
    let both = walk_to(&typed(&[[edge(1), edge(1)], [NONE, NONE]]), 2, 2, 1).unwrap();
    assert!(both == [0] || both == [1]);
}

#[test]
fn ends_by_hand() {
    let ends: [(&[usize], Option<usize>); 12] = [
        (&[], Some(0)),
        (&[0], Some(1)),
        (&[1], Some(2)),
        (&[2], Some(0)),
        (&[0, 3, 1], Some(2)),
        (&[0, 0, 0, 2], Some(1)),
        (&[1, 3, 2, 0], Some(1)),
        (&[0, 1], None), // at node 1 action 1 has no successor
        (&[1, 0], None),
        (&[0, 1, 3], None),
        (&[4], None), // there are four actions
        (&[0, usize::MAX], None),
    ];
    for (walk, end) in ends {
        assert_eq!(end_of(&HOUSE_RECORDS, 3, 4, walk), end, "{walk:?}");
    }
    assert_eq!(end_of(&[], 0, 4, &[]), None);
    assert_eq!(end_of(&ODD, 1, 0, &[]), Some(0));
    assert_eq!(end_of(&ODD, 1, 0, &[0]), None);
}

#[test]
fn finding_nodes_by_hand() {
    // Node 0 low by action 0; node 2 combinations 0 and 1; node 511 high by 15; then zeros.
    let list = [0xE0040000, 0xE0100000, 0xE0100800, 0xEFFFF801, 0, 0];
    assert_eq!(finding_nodes(&list, 4), [0, 2, 511]);
    assert_eq!(finding_nodes(&list, 2), [0, 2]);
    assert_eq!(finding_nodes(&list, 0), [0; 0]);
    assert_eq!(finding_nodes(&list, 99), [0, 2, 511]);
    assert_eq!(finding_nodes(&[0xE0180000, 0xE0080000, 0xE0180800], 3), [1, 3]);
    assert_eq!(finding_nodes(&[0, 0x00080000, 0xD0080000], 3), [0; 0]);
    assert_eq!(finding_nodes(&[], 0), [0; 0]);
}

#[test]
fn path_actions_by_hand() {
    assert_eq!(path_actions(&[0xD0000000, 0xD000000F, 0xD0000003, 0, 0xD0000001]), [0, 15, 3]);
    assert_eq!(path_actions(&[0, 0xD0000001]), [0; 0]);
    assert_eq!(path_actions(&[]), [0; 0]);
    assert_eq!(path_actions(&[0xD0000002; 3]), [2; 3]);
}

#[test]
fn least_by_hand() {
    let graph = seven();
    let list: [(&[usize], Option<usize>); 8] = [
        (&[], None),
        (&[6], None),
        (&[7, 600], None),
        (&[0, 5], Some(0)),
        (&[5], Some(4)),
        (&[2, 3], Some(2)),
        (&[3, 2], Some(2)),
        (&[3, 4, 6, 7], Some(1)),
    ];
    for (nodes, steps) in list {
        assert_eq!(least(&graph, 7, 2, nodes), steps, "{nodes:?}");
    }
}

/// Nodes with findings, the path's actions, and what beats it.
type Beaten<'a> = (&'a [usize], &'a [usize], Option<&'a [usize]>);

#[test]
fn beaten_by_hand() {
    let graph = seven();
    let list: [Beaten; 9] = [
        (&[3], &[1, 1, 0], None),
        (&[3], &[1, 1, 1, 1, 1, 0], Some(&[1, 1, 0])), // once round by 0, 1, 2
        (&[3], &[1, 1, 0, 0, 1], Some(&[1, 1, 0])),    // by 5 and back
        (&[3, 5], &[1, 1, 0, 0], Some(&[1, 1, 0])),    // to the farther one
        (&[4, 5], &[0], None),
        (&[0, 4], &[0], Some(&[])),
        (&[0, 4], &[], None),
        (&[6], &[1, 1, 1], None),
        (&[], &[1, 1, 1], None),
    ];
    for (nodes, path, walk) in list {
        assert_eq!(beaten(&graph, 7, 2, nodes, &path_of(path)).as_deref(), walk, "{nodes:?}, {path:?}");
        assert_eq!(any_shorter(&graph, 7, 2, nodes, path.len()).as_deref(), walk, "{nodes:?}, {path:?}");
    }
}

/// "every list of actions that is shorter", in order: of two that are as short the one with the lower action.
#[test]
fn any_shorter_by_hand() {
    let graph = seven();
    assert_eq!(any_shorter(&graph, 7, 2, &[0], 0), None);
    assert_eq!(any_shorter(&graph, 7, 2, &[0], 1), Some(vec![]));
    assert_eq!(any_shorter(&graph, 7, 2, &[1, 4], 2), Some(vec![0]));
    assert_eq!(any_shorter(&graph, 7, 2, &[5], 4), None);
    assert_eq!(any_shorter(&graph, 7, 2, &[5], 5), Some(vec![1, 1, 0, 0]));
    assert_eq!(any_shorter(&graph, 7, 2, &[6], 12), None);
    assert_eq!(any_shorter(&[], 0, 2, &[0], 12), None);
    let both = typed(&[[edge(1), edge(1)], [NONE, NONE]]);
    assert_eq!(any_shorter(&both, 2, 2, &[1], 2), Some(vec![0]));
}

// ---------------------------------------------------------------------------------------------
// Any list of words

/// An EDGE word to a node that is not there, and words of other kinds where an EDGE belongs, name no
/// successor.
#[test]
fn edges_that_are_none() {
    for word in [edge(2), edge(3), edge(0x0FFFFFFE), NONE, 1, 0, 0xB0000001, 0xD0000001, 0xF0000001] {
        let graph = typed(&[[word], [edge(0)]]);
        assert_eq!(fewest(&graph, 2, 1), [Some(0), None], "{word:X}");
        assert_eq!((walk_to(&graph, 2, 1, 1), end_of(&graph, 2, 1, &[0])), (None, None), "{word:X}");
        assert_eq!(any_shorter(&graph, 2, 1, &[1], 9), None, "{word:X}");
    }
}

#[test]
fn empty_and_short_lists() {
    assert_eq!(fewest(&[], 0, 16), []);
    assert_eq!((walk_to(&[], 0, 16, 0), least(&[], 0, 16, &[0])), (None, None));
    assert_eq!(fewest(&typed(&[[0; 0]; 3]), 3, 0), [Some(0), None, None]);
    // Words that are not there.
    assert_eq!(fewest(&HOUSE_RECORDS[..4], 3, 4), [Some(0), Some(1), None]);
    assert_eq!(fewest(&[], 2, 3), [Some(0), None]);
    // More nodes and actions than Judge has.
    let mut row = [[NONE; 20]; 600];
    row.iter_mut().zip(1..).for_each(|(record, next)| record[19] = edge(next));
    assert_eq!(fewest(&typed(&row), 600, 20)[599], Some(599));
    assert_eq!(walk_to(&typed(&row), 600, 20, 599), Some(vec![19; 599]));
}

/// What is not an EDGE word changes nothing.
#[test]
fn other_words_are_not_read() {
    let (t, l) = shortcut(4, 3, 14);
    let (mut graph, mut path) = (lent_graph(ROOM), lent_path(512));
    judge(&t.words(), &l, &mut graph, &mut path);
    let before = (fewest(&graph, 16, 2), walk_to(&graph, 16, 2, 7));
    assert_eq!(before.1, Some(vec![0, 0, 0, 1, 0]));
    for record in graph.chunks_exact_mut(5).take(16) {
        record[..3].copy_from_slice(&ODD);
    }
    assert_eq!((fewest(&graph, 16, 2), walk_to(&graph, 16, 2, 7)), before);
}

/// A graph list by chance, whose nodes are in no order.
fn by_chance(dice: &mut Dice) -> (Vec<u32>, usize, usize) {
    let (nodes, actions) = (dice.below(9) as usize, dice.below(3) as usize);
    let mut word = |_| match dice.below(12) {
        0 => NONE,
        1 => dice.next() as u32,
        _ => edge(dice.below(nodes as u32 + 1)),
    };
    ((0..nodes * (3 + actions)).map(&mut word).collect(), nodes, actions)
}

/// The two ways beside each other, at every node: by all lists of fewer actions than there are nodes.
#[test]
fn both_ways_agree() {
    let (mut dice, mut far, mut none) = (Dice::new(70), 0, 0);
    for _ in 0..3000 {
        let (graph, nodes, actions) = by_chance(&mut dice);
        let steps = fewest(&graph, nodes, actions);
        for (node, steps) in steps.iter().enumerate() {
            let first = any_shorter(&graph, nodes, actions, &[node], nodes);
            assert_eq!(first.as_ref().map(Vec::len), *steps);
            let walk = walk_to(&graph, nodes, actions, node);
            assert_eq!(walk.as_ref().map(Vec::len), *steps);
            assert!(walk.map_or(true, |walk| end_of(&graph, nodes, actions, &walk) == Some(node)));
            far += usize::from(steps.is_some_and(|steps| steps > 2));
            none += usize::from(steps.is_none());
        }
    }
    println!("{far} far, {none} not reached");
    assert!(far > 200 && none > 500);
}

// ---------------------------------------------------------------------------------------------
// The claim

const ROOM: u32 = 9_728;

/// A show that is not refused: the verdict's node, the graph list, the path list, the nodes with findings.
struct Shown {
    finding: Option<usize>,
    graph: Vec<u32>,
    nodes: usize,
    actions: usize,
    path: Vec<u32>,
    findings: Vec<usize>,
}

fn shown(p: &[u32], l: &[u32]) -> Option<Shown> {
    let (mut graph, mut path) = (lent_graph(ROOM), lent_path(513));
    let (nodes, finding) = match judge(p, l, &mut graph, &mut path) {
        Judged::Safe { nodes, .. } => (nodes, None),
        Judged::MayForbid { node, nodes, .. } => (nodes, Some(node)),
        Judged::MayRunOff { node, nodes, .. } => (nodes, Some(node)),
        Judged::Refused(_) => return None,
    };
    let (mut beside, mut list) = (lent_graph(ROOM), vec![0; MOST_FINDINGS]);
    let Listed::Listed(count) = findings(p, l, &mut beside, &mut list) else { panic!("judged and not listed") };
    assert_eq!(graph, beside);
    let actions = check(p).unwrap().actions;
    Some(Shown { finding, graph, nodes, actions, path, findings: finding_nodes(&list, count) })
}

/// The same functions for a show.
impl Shown {
    fn fewest(&self) -> Vec<Option<usize>> {
        fewest(&self.graph, self.nodes, self.actions)
    }

    fn end_of(&self, walk: &[usize]) -> Option<usize> {
        end_of(&self.graph, self.nodes, self.actions, walk)
    }

    fn least(&self) -> Option<usize> {
        least(&self.graph, self.nodes, self.actions, &self.findings)
    }

    fn beaten(&self, path: &[u32]) -> Option<Walk> {
        beaten(&self.graph, self.nodes, self.actions, &self.findings, path)
    }

    fn any_shorter(&self, length: usize) -> Option<Walk> {
        any_shorter(&self.graph, self.nodes, self.actions, &self.findings, length)
    }

    fn steps(&self) -> usize {
        path_actions(&self.path).len()
    }

    /// The distances at which there are findings.
    fn rings(&self) -> Vec<usize> {
        let steps = self.fewest();
        let mut rings: Vec<usize> = self.findings.iter().map(|node| steps[*node].unwrap()).collect();
        rings.sort_unstable();
        rings.dedup();
        rings
    }

    /// Whether all lists of up to so many actions can be tried.
    fn is_small(&self) -> bool {
        let lists = (self.actions as u64).checked_pow(self.steps() as u32);
        lists.is_some_and(|lists| lists <= 20_000) && self.steps() < 200
    }
}

/// What the shows were like.
#[derive(Debug, Default)]
struct Tally {
    safe: usize,
    unsafe_: usize,
    with_path: usize,
    tried: usize,
    several_rings: usize,
    longest: usize,
}

impl Tally {
    fn show(&mut self, p: &[u32], l: &[u32], name: &str) {
        let Some(shown) = shown(p, l) else { return };
        distances(&shown, name);
        if shown.finding.is_none() {
            assert!(shown.findings.is_empty() && shown.steps() == 0, "{name}");
            self.safe += 1;
            return;
        }
        not_beaten(&shown, name);
        self.tried += usize::from(tried(&shown, name));
        self.unsafe_ += 1;
        self.with_path += usize::from(shown.steps() > 0);
        self.several_rings += usize::from(shown.rings().len() > 1);
        self.longest = self.longest.max(shown.steps());
    }
}

/// Every node can be walked to, and the payload of its third word is the least number of steps.
fn distances(shown: &Shown, name: &str) {
    let width = 3 + shown.actions;
    let words: Vec<_> = (0..shown.nodes).map(|node| Some(shown.graph[node * width + 2] as usize)).collect();
    assert_eq!(shown.fewest(), words, "{name}");
}

/// "no walk in the graph from node 0 to any node with a finding has fewer steps than the path in the verdict";
/// and the path is a walk, to the verdict's node, which is the first of them.
fn not_beaten(shown: &Shown, name: &str) {
    assert_eq!(shown.end_of(&path_actions(&shown.path)), shown.finding, "{name}");
    assert_eq!(shown.findings.first().copied(), shown.finding, "{name}");
    assert_eq!(shown.beaten(&shown.path), None, "{name}");
    assert_eq!(shown.least(), Some(shown.steps()), "{name}");
}

/// The same by all lists of actions, where they are few.
fn tried(shown: &Shown, name: &str) -> bool {
    if !shown.is_small() {
        return false;
    }
    assert_eq!(shown.any_shorter(shown.steps()), None, "{name}");
    let walk = shown.any_shorter(shown.steps() + 1).unwrap();
    assert_eq!(walk.len(), shown.steps(), "{name}");
    assert!(shown.findings.contains(&shown.end_of(&walk).unwrap()), "{name}");
    true
}

/// Every record of Judge and of Findings.
#[test]
fn every_stored_case() {
    let mut tally = Tally::default();
    for case in cases().into_iter().filter(|case| case.record.call == JUDGE || case.record.call == FINDINGS) {
        tally.show(&case.record.program, &case.record.lemmas, &case.name);
    }
    println!("{tally:?}");
    assert!(tally.safe > 150 && tally.unsafe_ > 250 && tally.with_path > 60);
    assert!(tally.tried > 240 && tally.several_rings > 70 && tally.longest == 511);
}

/// The same over generated shows.
#[test]
fn every_generated_show() {
    let mut tally = Tally::default();
    let chance = (0..300).map(small).chain((0..300).map(sheet)).chain((0..100).map(ringed));
    let large = (0..60).map(mixed).chain((0..20).map(large));
    for (number, (t, l)) in chance.chain(large).enumerate() {
        tally.show(&t.words(), &l, &number.to_string());
    }
    println!("{tally:?}");
    assert!(tally.safe > 100 && tally.unsafe_ > 400 && tally.with_path > 15 && tally.several_rings > 300);
}

/// Drawings by chance, with all lemmas and with some of them: findings at several distances, most of them
/// behind node 0.
#[test]
fn every_drawing_by_chance() {
    let (mut whole, mut part) = (Tally::default(), Tally::default());
    for seed in 0..600 {
        let ((t, l), (u, m)) = (spread(seed), partial(seed));
        whole.show(&t.words(), &l, &format!("spread {seed}"));
        part.show(&u.words(), &m, &format!("partial {seed}"));
    }
    println!("{whole:?}\n{part:?}");
    assert!(whole.with_path > 300 && whole.several_rings > 200 && whole.tried > 300 && whole.longest > 3);
    assert!(part.with_path > 200 && part.several_rings > 300 && part.tried > 300 && part.longest > 2);
}

// ---------------------------------------------------------------------------------------------
// The shows of this request

/// Judge's answer, the path, the count of findings and their distances, all by hand.
#[test]
fn shows_by_hand() {
    for show in walk_shows() {
        let (p, l, name) = (show.text.words(), &show.lemmas, &show.name);
        let mut list = vec![0; MOST_FINDINGS];
        assert_eq!(findings(&p, l, &mut lent_graph(ROOM), &mut list), Listed::Listed(show.count), "{name}");
        let judged = shown(&p, l).unwrap();
        assert_eq!(path_actions(&judged.path), show.path, "{name}");
        assert_eq!(judged.rings(), show.rings, "{name}");
        assert_eq!(show.rings[0], show.path.len(), "{name}");
        Tally::default().show(&p, l, name);
    }
}

/// All records of these shows, those that are not among `cases` too.
#[test]
fn records_by_hand() {
    let (all, shows) = (walk_cases(), walk_shows());
    for case in &all {
        let line = answer(&case.record);
        if let Some(hand) = &case.hand {
            assert_eq!(line.split(" GRAPH").next(), Some(&hand[..]), "{}", case.name);
        }
        assert!(!line.starts_with("REFUSED") && !line.starts_with("SAFE"), "{}: {line}", case.name);
    }
    let by_hand = all.iter().filter(|case| case.hand.is_some()).count();
    println!("{} shows, {} records, {by_hand} by hand", shows.len(), all.len());
    assert!(by_hand == 2 * shows.len() && shows.len() >= 40);
}

/// The last of the stored records are this request's: those before them are the 941 that there were.
#[test]
fn the_stored_records() {
    let (all, mine) = (cases(), walk_cases());
    let first = all.iter().position(|case| case.name.starts_with("walks: ")).unwrap();
    assert_eq!((first, all.len()), (941, 956));
    let calls: Vec<u32> = all[first..].iter().map(|case| case.record.call).collect();
    assert_eq!(calls, [[JUDGE; 9].as_slice(), &[FINDINGS; 6]].concat());
    for case in &all[first..] {
        let same = mine.iter().find(|other| other.name == case.name).unwrap();
        assert_eq!((&same.record, &same.hand), (&case.record, &case.hand));
    }
}

/// What the cases are to be about is there.
#[test]
fn the_shows_cover() {
    let shows = walk_shows();
    let count = |is: &dyn Fn(&Walked) -> bool| shows.iter().filter(|show| is(show)).count();
    assert!(count(&|show| show.rings.len() > 1) >= 20 && count(&|show| show.rings.len() > 2) >= 6);
    assert!(count(&|show| show.path.is_empty() && show.rings.len() > 1) >= 6);
    assert!(count(&|show| show.path.len() > 1) >= 15 && count(&|show| show.path.len() > 100) >= 3);
    assert!(count(&|show| show.hand.starts_with("RUNOFF")) >= 8);
}

/// Findings at each pair of distances up to 18, and near the longest.
#[test]
fn two_findings_at_all_distances() {
    let near = (0..18).flat_map(|far| (0..=far).map(move |near| (near, far)));
    for (near, far) in near.chain([(0, 511), (1, 511), (255, 256), (510, 511), (511, 511)]) {
        let (t, l) = two_findings(near, far);
        let judged = shown(&t.words(), &l).unwrap();
        assert_eq!((judged.finding, judged.steps()), (Some(near as usize), near as usize), "{near}, {far}");
        assert_eq!(judged.least(), Some(near as usize), "{near}, {far}");
        let rings = if near == far { vec![near as usize] } else { vec![near as usize, far as usize] };
        assert_eq!(judged.rings(), rings, "{near}, {far}");
        assert_eq!(judged.any_shorter(near as usize), None, "{near}, {far}");
    }
}

#[test]
fn arms_of_all_lengths() {
    for (near, far) in (1..13).flat_map(|far| (1..=far.min(13 - far)).map(move |near| (near, far))) {
        let (t, l) = arms(near, far);
        let judged = shown(&t.words(), &l).unwrap();
        let (first, node) = if near < far { (1, 2 * near) } else { (0, 2 * near - 1) };
        let path = [vec![first], vec![0; near as usize - 1]].concat();
        assert_eq!((judged.finding, path_actions(&judged.path)), (Some(node as usize), path), "{near}, {far}");
        assert_eq!(judged.nodes, (1 + near + far) as usize);
        not_beaten(&judged, "arms");
        assert!(tried(&judged, "arms"));
    }
}

/// Every shortcut of a counter of 16: it is taken where it is one.
#[test]
fn shortcuts_of_all_lengths() {
    for (from, to) in (0..16usize).flat_map(|from| (0..16usize).map(move |to| (from, to))) {
        let (t, l) = shortcut(4, from as u32, to as u32);
        let judged = shown(&t.words(), &l).unwrap();
        let leap = [vec![0; from], vec![1], vec![0; 15 - to]].concat();
        let path = if to > from + 1 { leap } else { vec![0; 15] };
        assert_eq!(path_actions(&judged.path), path, "{from}, {to}");
        assert_eq!(judged.nodes, 16);
        not_beaten(&judged, "shortcut");
        assert!(tried(&judged, "shortcut") || path.len() > 14);
    }
}

// ---------------------------------------------------------------------------------------------
// Where the claim is false, the checks say so

/// The shows with a walk of which more can be said: all by hand, and drawings by chance, that are not safe.
fn unsafe_shows() -> Vec<Shown> {
    let by_hand = walk_shows().into_iter().map(|show| (show.text, show.lemmas));
    let all = by_hand.chain((0..400).map(spread)).chain((0..400).map(partial));
    let judged = all.map(|(t, l)| shown(&t.words(), &l).unwrap());
    judged.filter(|shown| shown.finding.is_some()).collect()
}

/// A walk to the same node with one action more somewhere, or with two.
fn detour(shown: &Shown) -> Option<Walk> {
    let (walk, actions) = (path_actions(&shown.path), 0..shown.actions);
    let two = actions.clone().flat_map(|a| actions.clone().map(move |b| vec![a, b]));
    let extra: Vec<Walk> = actions.clone().map(|a| vec![a]).chain(two).collect();
    let places = (0..=walk.len()).flat_map(|at| extra.iter().map(move |more| (at, more)));
    let mut longer = places.map(|(at, more)| [&walk[..at], more, &walk[at..]].concat());
    longer.find(|longer| shown.end_of(longer) == shown.finding)
}

/// A longer path to the same node is beaten, by a walk as long as the verdict's path.
#[test]
fn detours_are_beaten() {
    let mut seen = 0;
    for shown in unsafe_shows().iter().filter(|shown| shown.is_small()) {
        let Some(longer) = detour(shown) else { continue };
        assert!(longer.len() > shown.steps());
        let walk = shown.beaten(&path_of(&longer)).unwrap();
        assert_eq!(walk.len(), shown.steps());
        assert!(shown.findings.contains(&shown.end_of(&walk).unwrap()));
        assert_eq!(shown.any_shorter(longer.len()).map(|walk| walk.len()), Some(shown.steps()));
        seen += 1;
    }
    println!("{seen} detours");
    assert!(seen > 200);
}

/// So is a shortest walk to a finding that is farther away.
#[test]
fn farther_findings_are_beaten() {
    let mut seen = 0;
    for shown in unsafe_shows() {
        for node in &shown.findings {
            let walk = walk_to(&shown.graph, shown.nodes, shown.actions, *node).unwrap();
            let shorter = shown.beaten(&path_of(&walk));
            assert_eq!(shorter.is_some(), walk.len() > shown.steps());
            assert!(shorter.as_ref().map_or(true, |shorter| shorter.len() == shown.steps()));
            seen += usize::from(shorter.is_some());
        }
    }
    println!("{seen} farther findings");
    assert!(seen > 500);
}

/// Nodes in the order of a search in depth, by actions in order: the old numbers, and the walk that found each.
fn in_depth(shown: &Shown) -> Vec<(usize, Walk)> {
    let mut found: Vec<(usize, Walk)> = Vec::new();
    let mut waiting: Vec<Walk> = vec![vec![]];
    while let Some(walk) = waiting.pop() {
        let Some(node) = shown.end_of(&walk) else { continue };
        if found.iter().all(|(known, _)| *known != node) {
            waiting.extend((0..shown.actions).rev().map(|action| [&walk[..], &[action]].concat()));
            found.push((node, walk));
        }
    }
    found
}

/// The show with its nodes renumbered in that order, and the path by which its first finding was found: what
/// Judge would say if it took the nodes in another order than 01's.
fn renumbered(shown: &Shown) -> Shown {
    let found = in_depth(shown);
    let number = |old: usize| found.iter().position(|(node, _)| *node == old).unwrap();
    let renamed = |word: u32| if word == NONE { NONE } else { edge(number((word - edge(0)) as usize) as u32) };
    let width = 3 + shown.actions;
    let edges = |node: usize| shown.graph[node * width + 3..(node + 1) * width].iter();
    let new = |(node, _): &(usize, Walk)| ODD.into_iter().chain(edges(*node).map(|word| renamed(*word)));
    let mut findings: Vec<usize> = shown.findings.iter().map(|node| number(*node)).collect();
    findings.sort_unstable();
    let graph = found.iter().flat_map(|old| new(old).collect::<Vec<_>>()).collect();
    let (finding, path) = (Some(findings[0]), path_of(&found[findings[0]].1));
    Shown { finding, graph, nodes: shown.nodes, actions: shown.actions, path, findings }
}

/// "Nodes are taken in number order" is what the claim rests on: numbered in depth, the path to the first
/// finding is a walk to it all the same, but many are beaten, to the same node or to another.
#[test]
fn numbered_in_depth() {
    let (mut beaten, mut same_node, mut others) = (0, 0, 0);
    for before in unsafe_shows() {
        let after = renumbered(&before);
        assert_eq!(after.end_of(&path_actions(&after.path)), after.finding);
        assert_eq!(after.least(), before.least());
        let Some(walk) = after.beaten(&after.path) else {
            assert_eq!(after.steps(), before.steps());
            others += 1;
            continue;
        };
        assert_eq!(walk.len(), before.steps());
        assert!(walk.len() < after.steps() && after.findings.contains(&after.end_of(&walk).unwrap()));
        beaten += 1;
        same_node += usize::from(after.end_of(&walk) == after.finding);
    }
    println!("{beaten} beaten, {same_node} of them by a walk to the same node, {others} others");
    assert!(beaten > 80 && same_node > 30 && others > 80);
}

/// Two by hand. Arms of 2 and 5: in depth the first arm is nodes 1 to 5, its end the first finding. At once:
/// {P0} is node 1, {} is node 2, found by 0 0.
#[test]
fn numbered_in_depth_by_hand() {
    let (t, l) = arms(2, 5);
    let after = renumbered(&shown(&t.words(), &l).unwrap());
    assert_eq!((after.finding, path_actions(&after.path)), (Some(5), vec![0; 5]));
    assert_eq!(after.fewest(), [0, 1, 2, 3, 4, 5, 1, 2].map(Some));
    assert_eq!(after.beaten(&after.path), Some(vec![1, 0]));
    assert_eq!(after.end_of(&[1, 0]), Some(7));
    let at_once = walk_shows().into_iter().find(|show| show.name == "at once").unwrap();
    let after = renumbered(&shown(&at_once.text.words(), &at_once.lemmas).unwrap());
    assert_eq!((after.finding, path_actions(&after.path)), (Some(2), vec![0, 0]));
    assert_eq!(after.beaten(&after.path), Some(vec![1]));
}

/// A damaged graph list: without the edge that the path ends with, the path is no walk any more, and the node
/// is farther away or not reached.
#[test]
fn a_path_that_is_no_walk() {
    let mut seen = 0;
    for mut shown in unsafe_shows().into_iter().filter(|shown| shown.steps() > 0) {
        let (finding, walk) = (shown.finding.unwrap(), path_actions(&shown.path));
        let (last, before) = walk.split_last().unwrap();
        let from = shown.end_of(before).unwrap();
        let place = from * (3 + shown.actions) + 3 + last;
        assert_eq!(shown.graph[place], edge(finding as u32));
        shown.graph[place] = NONE;
        assert_eq!((shown.end_of(before), shown.end_of(&walk)), (Some(from), None));
        assert!(shown.fewest()[finding].map_or(true, |steps| steps >= walk.len()));
        seen += 1;
    }
    assert!(seen > 200);
}
