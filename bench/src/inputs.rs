//! The words that are timed.

use independent::shows::*;
use independent::words::*;

#[derive(Clone)]
pub struct Show {
    pub name: String,
    pub program: Vec<u32>,
    pub lemmas: Vec<u32>,
    /// How many lemmas there are.
    pub count: usize,
    pub nodes: usize,
    /// A logic of the same size and a state at which its last action moves.
    pub stepped: Vec<u32>,
    pub state: Vec<i32>,
}

impl Show {
    /// The bytes of its file.
    pub fn bytes(&self) -> Vec<u8> {
        self.program.iter().chain(&self.lemmas).flat_map(|w| w.to_le_bytes()).collect()
    }
}

/// Eight terms.
fn wide(constant: i32, turn: u32) -> RowText {
    (constant, (0..8).map(|v| (v, if (v + turn) % 2 == 0 { 1 } else { -1 })).collect())
}

/// The largest logic: every count at its limit, every row with eight terms. Where `closed`, the last start row and the
/// last guard row of each action never hold, so that any lemma with enough of that row is accepted.
fn logic(closed: bool) -> Text {
    let rows = |count: u32| -> Vec<RowText> {
        (0..count).map(|i| wide(if closed && i == count - 1 { -1_000_000 } else { 0 }, i)).collect()
    };
    Text {
        vars: vec![(-8192, 8191); 8],
        init: rows(8),
        pred: (0..14).map(|i| wide(i, i as u32)).collect(),
        actions: (0..16).map(|_| act(&rows(8), &(0..8).map(|v| (v, wide(0, v))).collect::<Vec<_>>())).collect(),
        // Predicate 13 holds at every node, and each combination wants it to fail.
        bad: (0..8).map(|i| (1 << 13, 1 << i)).collect(),
    }
}

/// The same with actions that set nothing: every literal is kept, and no end has to be shown.
fn idle() -> Text {
    let mut t = logic(true);
    t.actions.iter_mut().for_each(|action| action.sets.clear());
    t
}

/// A lemma with no multiplier 0.
fn full(t: &Text, source: u32, goal: u32, index: u32, f: u32, tr: u32) -> Vec<u32> {
    let mut multipliers = vec![1; t.due(source, goal, f, tr)];
    *multipliers.last_mut().unwrap() = 65_535;
    lemma(source, goal, index, f, tr, &multipliers)
}

/// Up to so many lemmas, filled up with ones of 14 premises that no node has.
fn fill(t: &Text, lemmas: &mut Vec<Vec<u32>>, count: usize) {
    assert!(lemmas.len() <= count, "{} lemmas", lemmas.len());
    while lemmas.len() < count {
        let i = lemmas.len() as u32;
        lemmas.push(full(t, i % 16, 1 + i / 16 % 2, i / 32 % 13, 1 << 13, 0x1FFF));
    }
}

/// Predicates 14 - `steady` and up hold at the start and after each action; every end is shown.
fn frame(t: &Text, steady: u32) -> Vec<Vec<u32>> {
    let held = held(steady);
    let mut lemmas = Vec::new();
    for p in 14 - steady..14 {
        lemmas.push(full(t, START, 1, p, 0, 0));
        lemmas.extend((0..16).map(|a| full(t, a, 1, p, 0, held)));
    }
    for a in 0..16 {
        for v in 0..8 {
            lemmas.extend([3, 4].map(|goal| full(t, a, goal, v, 0, held)));
        }
    }
    lemmas
}

fn held(steady: u32) -> u32 {
    0x3FFF & !((1 << (14 - steady)) - 1)
}

/// Nine predicates that tell the nodes apart.
type Nine = [u32; 9];
const FIRST: Nine = [0, 1, 2, 3, 4, 5, 6, 7, 8];
/// Those of the 715 choices below predicate 13 with which the most nodes share a hint of the lookup with another node: 92
/// of the 512 subsets, 80 of the 512 numbers.
const SHARED_SUBSETS: Nine = [0, 1, 3, 4, 8, 9, 10, 11, 12];
const SHARED_NUMBERS: Nine = [0, 1, 2, 3, 5, 7, 8, 9, 11];

/// Action i makes the i-th of the predicates hold, the others of them stay if they hold; further actions change nothing.
fn subsets(t: &Text, steady: u32, at: &[u32]) -> Vec<Vec<u32>> {
    let mut lemmas = frame(t, steady);
    for a in 0..16 {
        for (i, p) in at.iter().enumerate() {
            let premise = if a as usize == i { 0 } else { 1 << p };
            lemmas.push(full(t, a, 1, *p, 0, premise | held(steady)));
        }
    }
    lemmas
}

/// Predicates below `bits` as a number, which action 0 counts up, from the last to 0 again; the other actions lead to 0. So
/// each node but the first is found from the one before it, when no other waits to be explored.
fn counts(t: &Text, bits: u32) -> Vec<Vec<u32>> {
    let steady = held(1);
    let mut lemmas = frame(t, 1);
    for p in 0..bits {
        let (bit, below) = (1 << p, (1 << p) - 1);
        lemmas.push(full(t, START, 2, p, 0, 0));
        lemmas.extend((1..16).map(|a| full(t, a, 2, p, 0, steady)));
        lemmas.push(full(t, 0, 1, p, bit, below | steady));
        lemmas.push(full(t, 0, 2, p, 0, bit | below | steady));
        for low in 0..p {
            lemmas.push(full(t, 0, 1, p, 1 << low, bit | steady));
            lemmas.push(full(t, 0, 2, p, 1 << low | bit, steady));
        }
    }
    lemmas
}

/// Nine predicates as a number: action a leads from n to (16 n + a) mod 512.
fn shifts(t: &Text, steady: u32, at: Nine) -> Vec<Vec<u32>> {
    let mut lemmas = frame(t, steady);
    lemmas.extend(at.map(|p| full(t, START, 2, p, 0, 0)));
    for a in 0..16 {
        lemmas.extend((0..4).map(|i| full(t, a, if a >> i & 1 == 1 { 1 } else { 2 }, at[i], 0, held(steady))));
        for i in 4..9 {
            lemmas.push(full(t, a, 1, at[i], 0, 1 << at[i - 4] | held(steady)));
            lemmas.push(full(t, a, 2, at[i], 1 << at[i - 4], held(steady)));
        }
    }
    lemmas
}

fn show(name: String, t: &Text, lemmas: &[Vec<u32>], nodes: usize) -> Show {
    Show {
        name,
        program: t.words(),
        lemmas: lemmas.concat(),
        count: lemmas.len(),
        nodes,
        stepped: logic(false).words(),
        state: vec![0; 8],
    }
}

/// The largest logic and 512 lemmas with a graph of so many nodes, a power of 2.
pub fn largest(nodes: usize) -> Show {
    let t = logic(true);
    let mut lemmas = subsets(&t, 1, &FIRST[..nodes.trailing_zeros() as usize]);
    fill(&t, &mut lemmas, 512);
    show(format!("largest, 512 lemmas, nodes: {nodes}"), &t, &lemmas, nodes)
}

/// The same with nodes that are found one by one.
pub fn chain(nodes: usize) -> Show {
    let t = logic(true);
    let mut lemmas = counts(&t, nodes.trailing_zeros());
    fill(&t, &mut lemmas, 512);
    show(format!("chain, 512 lemmas, nodes: {nodes}"), &t, &lemmas, nodes)
}

/// 512 nodes by so many lemmas, 10 or more: action i makes predicate i hold, up to the ninth, and all others are kept.
fn kept(count: usize) -> Show {
    let t = idle();
    let mut lemmas = vec![full(&t, START, 1, 13, 0, 0)];
    lemmas.extend((0..9).map(|i| full(&t, i, 1, i, 0, 0)));
    fill(&t, &mut lemmas, count);
    show(format!("kept, 512 nodes, lemmas: {count}"), &t, &lemmas, 512)
}

/// 512 nodes with every finding that there can be: predicate 13 is not known, and no end is shown.
pub fn crowded() -> Show {
    let t = logic(true);
    let mut lemmas = subsets(&t, 0, &FIRST);
    lemmas.retain(|l| field(l[0], 19, 16) < 3);
    fill(&t, &mut lemmas, 512);
    show("every finding".to_string(), &t, &lemmas, 512)
}

/// Refused: it has 1,024 nodes.
pub fn refused() -> Show {
    let t = logic(true);
    let mut lemmas = subsets(&t, 1, &[0, 1, 2, 3, 4, 5, 6, 7, 8, 9]);
    fill(&t, &mut lemmas, 512);
    show("refused".to_string(), &t, &lemmas, 0)
}

/// What grows in the table by size: its name, its least size, and the show of a size.
type Group = (&'static str, usize, fn(usize) -> Show);
pub const GROUPS: [Group; 3] = [("nodes", 1, largest), ("lemmas", 32, kept), ("chain", 64, chain)];

/// The sizes of a group.
pub fn sizes(least: usize) -> impl Iterator<Item = usize> {
    std::iter::successors(Some(least), |size| Some(2 * size)).take_while(|size| *size <= 512)
}

/// rig8, or a show by group and size, as `chain:64`.
pub fn named(row: &str) -> Option<Show> {
    if row == "rig8" {
        return Some(rig8());
    }
    let (group, size) = row.split_once(':')?;
    let size: usize = size.parse().ok()?;
    let (_, least, made) = GROUPS.into_iter().find(|(name, ..)| *name == group)?;
    sizes(least).find(|n| *n == size).map(made)
}

pub fn rig8() -> Show {
    let (program, lemmas) = independent::shows::show("rig8");
    let count = lemmas.iter().filter(|w| kind(**w) == LEMMA).count();
    Show { name: "rig8".to_string(), stepped: program.clone(), program, lemmas, count, nodes: 500, state: vec![500; 8] }
}

/// 512 nodes, 16 actions, 512 accepted lemmas without a multiplier 0, in several arrangements.
pub fn arrangements() -> Vec<Show> {
    let t = logic(true);
    let mut all = Vec::new();
    for (shape, mut lemmas) in [
        ("subsets", subsets(&t, 1, &FIRST)),
        ("subsets, 5 steady", subsets(&t, 5, &FIRST)),
        ("shifts", shifts(&t, 1, FIRST)),
        ("subsets, hints shared", subsets(&t, 1, &SHARED_SUBSETS)),
        ("shifts, hints shared", shifts(&t, 1, SHARED_NUMBERS)),
    ] {
        fill(&t, &mut lemmas, 512);
        let mut put = |order: &str, lemmas: &[Vec<u32>]| {
            all.push(show(format!("{shape}, {order}"), &t, lemmas, 512));
        };
        put("as made", &lemmas);
        lemmas.reverse();
        put("reversed", &lemmas);
        lemmas.sort_by_key(|l| l[0]);
        put("by source", &lemmas);
        let mut z = 1u64;
        for i in (1..lemmas.len()).rev() {
            z = z.wrapping_mul(6_364_136_223_846_793_005).wrapping_add(1_442_695_040_888_963_407);
            lemmas.swap(i, (z >> 33) as usize % (i + 1));
        }
        put("mixed", &lemmas);
    }
    all
}
