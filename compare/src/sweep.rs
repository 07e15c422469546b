//! Full sweeps over a full-sized program and a full-sized lemma list: every cut, every kind in every place,
//! every single unnamed bit, every field at its ends and one past them; lengths of all lent lists. And request 1's clause:
//! small logics, and every set of variables against every other. Request 2's are in sheets.rs, request 4's in racks.rs, request 6's in
//! rings.rs, request 7's in walks.rs, those of blocks of nodes in blocks.rs.

use crate::calls::{falsehood, Compare, Difference};
use crate::counts::DUE;
use crate::generate::Input;
use crate::keeping::NAMES;
use crate::rings::{OLD_ROOM, NAMES as RINGS};
use crate::touch::Graph;
use crate::walks::NAMES as WALKS;
use bulanevior::raw::BnvJudge;
use independent::program::Literals;
use independent::shows::*;
use independent::words::*;

/// All counts at their limits, and eight terms in each row.
pub fn full() -> Text {
    let of = |i: i32, low: bool| {
        let all: Vec<(u32, i32)> = (0..8).map(|v| (v, (v as i32 + i) % 7 - 3)).map(|(v, c)| (v, if c == 0 { 5 } else { c })).collect();
        row(if low { -500_000 } else { i }, &all)
    };
    Text {
        vars: (0..8).map(|v| (-v - 1, 100 * v + 3)).collect(),
        init: (0..8).map(|i| of(i, i == 7)).collect(),
        pred: (0..14).map(|i| of(i, false)).collect(),
        actions: (0..16)
            .map(|a| {
                // The last guard row never holds.
                let guards: Vec<RowText> = (0..8).map(|i| of(a + i, i == 7)).collect();
                let sets: Vec<(u32, RowText)> = (0..8).map(|v| (v, of(a + v as i32, false))).collect();
                act(&guards, &sets)
            })
            .collect(),
        bad: (0..8).map(|i| (1 << i, 0x2A00 & !(1 << i))).collect(),
    }
}

/// 512 lemmas of 25 words, but for those of goal 0 and of the start.
pub fn full_lemmas(t: &Text) -> Vec<u32> {
    let mut words = Vec::new();
    for i in 0..512u32 {
        let source = if i % 37 == 5 { START } else { i % 16 };
        let goal = if source == START { 1 + i % 2 } else if i % 41 == 7 { 0 } else { 1 + i / 16 % 4 };
        let index = match goal {
            0 => 0,
            1 | 2 => i / 7 % 14,
            _ => i / 64 % 8,
        };
        let (f, tr) = if source == START { (0, 0) } else { (i * 29 & 0x3FFF, !(i * 29) & 0x3FFF) };
        let mut multipliers = vec![1; t.due(source, goal, f, tr)];
        *multipliers.last_mut().unwrap() = if i % 3 == 0 { 0 } else { 65_535 };
        words.extend(lemma(source, goal, index, f, tr, &multipliers));
    }
    words
}

/// A word with bits high..=low replaced.
fn with(word: u32, high: u32, low: u32, value: u32) -> u32 {
    let mask = (((1u64 << (high - low + 1)) - 1) as u32) << low;
    word & !mask | value << low & mask
}

/// The word with its fields at their ends and one past them.
fn fields(word: u32) -> Vec<u32> {
    let mut words = Vec::new();
    let mut put = |high, low, values: &[i32]| words.extend(values.iter().map(|v| with(word, high, low, *v as u32)));
    let whole = [-0x800_0000, 0x7FF_FFFF, -1, 0, 1];
    match kind(word) {
        VAR => {
            let (low, high) = (signed(word, 27, 14) as i32, signed(word, 13, 0) as i32);
            put(27, 14, &[-8192, 8191, high, high + 1, high - 1, -1, 0]);
            put(13, 0, &[-8192, 8191, low, low + 1, low - 1, -1, 0]);
        }
        ROW => {
            put(27, 0, &[1_000_000, 1_000_001, -1_000_000, -1_000_001]);
            put(27, 0, &whole);
        }
        TERM => {
            put(27, 24, &(0..16).collect::<Vec<_>>());
            put(15, 0, &[1000, 1001, -1000, -1001, 0, 1, -1, 32_767, -32_768]);
        }
        INIT => put(27, 0, &[0, 7, 8, 9, 0x800_0000, 0xFFF_FFFF]),
        PRED => put(27, 0, &[0, 13, 14, 15, 0x800_0000, 0xFFF_FFFF]),
        ACTION => {
            put(7, 4, &[0, 7, 8, 9, 15]);
            put(3, 0, &[0, 7, 8, 9, 15]);
        }
        SET => {
            put(27, 0, &(0..17).collect::<Vec<_>>());
            put(27, 0, &whole);
        }
        SETS => {
            words.extend((0..28).map(|b| word ^ 1 << b));
            words.extend([SETS << 28, word | PAYLOAD]);
        }
        LEMMA => {
            put(27, 20, &[0, 1, 14, 15, 16, 17, 254, 255]);
            put(19, 16, &[0, 1, 2, 3, 4, 5, 15]);
            put(7, 0, &[0, 1, 7, 8, 13, 14, 255]);
        }
        MULT => put(27, 0, &[0, 65_535, 65_536, 0x800_0000, 0xFFF_FFFF]),
        _ => {}
    }
    words
}

fn unnamed(word: u32) -> std::ops::Range<u32> {
    match kind(word) {
        TERM => 16..24,
        ACTION => 8..28,
        LEMMA => 8..16,
        END => 0..28,
        _ => 0..0,
    }
}

/// Everything that replaces the word in its place.
fn replacements(word: u32) -> Vec<u32> {
    let mut words: Vec<u32> = (0..16).map(|k| make(k, word)).collect();
    words.extend(unnamed(word).map(|b| word ^ 1 << b));
    words.extend(fields(word));
    words
}

pub struct Sweep<'a> {
    pub compare: &'a mut Compare,
    pub inputs: u64,
}

impl Sweep<'_> {
    fn program(&mut self, input: &Input, at: usize) -> Result<(), Difference> {
        self.inputs += 1;
        self.compare.check(input)?;
        self.compare.action_part(input, at % 17)?;
        let state = [0, 1, 2, 3, 4, 5, 6, 7];
        self.compare.step(input, at % 16, &state)?;
        self.compare.ask(input, 0)?;
        let judged = self.compare.judge(input, GRAPH_WORDS + 3, PATH_WORDS + 3, 0)?;
        self.found(input, &judged, 3)
    }

    fn lemmas(&mut self, input: &Input, at: usize) -> Result<(), Difference> {
        self.inputs += 1;
        self.compare.ask(input, at / 25)?;
        let judged = self.compare.judge(input, GRAPH_WORDS, PATH_WORDS, 0)?;
        self.found(input, &judged, 11)
    }

    /// After Judge: the findings too, of one in `every` inputs. They are read as by Judge.
    fn found(&mut self, input: &Input, judged: &BnvJudge, every: u64) -> Result<(), Difference> {
        if self.inputs % every == 0 {
            let before = self.compare.before(judged, 0);
            self.compare.sheet(input, &before, self.inputs as usize % 5)?;
        }
        Ok(())
    }
}

/// Sweeps over words: damages, lengths, views, states, and request 1's clause; hands back how many inputs they had.
pub fn sweep(compare: &mut Compare) -> Result<u64, Difference> {
    let mut sweep = Sweep { compare, inputs: 0 };
    let text = full();
    let all = full_lemmas(&text);
    // Of full size, and smaller ones in which every count is below its limit.
    for (program, lemmas) in [(text.words(), all[..25 * 2].to_vec()), (demo().words(), demo_lemmas())] {
        sweep.programs(Input { program, lemmas })?;
    }
    for (program, lemmas) in [(text.words(), all.clone()), (demo().words(), demo_lemmas())] {
        sweep.lists(Input { program, lemmas })?;
    }
    for name in ["fade", "house", "bakery", "rig8"] {
        let (program, lemmas) = show(name);
        sweep.show(&Input { program, lemmas })?;
    }
    sweep.show(&Input { program: text.words(), lemmas: all })?;
    sweep.kept_by_one()?;
    sweep.kept_by_two()?;
    sweep.kept_by_variables()?;
    let more = DUE.iter().copied().filter(|name| name.starts_with("rack "));
    sweep.had(NAMES.into_iter().chain(more))
}

/// Sweeps over graphs: findings, distances, paths.
pub fn graphs(compare: &mut Compare) -> Result<u64, Difference> {
    let mut sweep = Sweep { compare, inputs: 0 };
    sweep.sheets()?;
    sweep.rings()?;
    sweep.walks()?;
    let more = DUE.iter().copied().filter(|name| name.starts_with("findings"));
    sweep.had(RINGS.into_iter().chain(WALKS).chain(more))
}

impl Sweep<'_> {
    /// How many inputs there were, if each of these occurred.
    fn had(&self, mut names: impl Iterator<Item = &'static str>) -> Result<u64, Difference> {
        match names.find(|name| self.compare.counts.of(name) == 0) {
            Some(name) => Err(format!("the sweeps never had: {name}")),
            None => Ok(self.inputs),
        }
    }

    /// Every damage to the program.
    fn programs(&mut self, mut input: Input) -> Result<(), Difference> {
        let program = input.program.clone();
        for at in 0..program.len() {
            input.program.truncate(at);
            self.program(&input, at)?;
            input.program = program.clone();
            for word in replacements(program[at]) {
                input.program[at] = word;
                self.program(&input, at)?;
            }
            input.program[at] = program[at];
        }
        for kind in 0..16 {
            input.program.push(make(kind, 0));
            self.program(&input, 0)?;
            input.program.pop();
        }
        Ok(())
    }

    /// Every damage to the lemma list.
    fn lists(&mut self, mut input: Input) -> Result<(), Difference> {
        let lemmas = input.lemmas.clone();
        for at in 0..lemmas.len() {
            input.lemmas.truncate(at);
            self.lemmas(&input, at)?;
            input.lemmas.extend_from_slice(&lemmas[at..]);
            for word in replacements(lemmas[at]) {
                input.lemmas[at] = word;
                self.lemmas(&input, at)?;
            }
            input.lemmas[at] = lemmas[at];
        }
        for kind in 0..16 {
            input.lemmas.push(make(kind, 0xFFF_FFFF));
            self.lemmas(&input, 0)?;
            input.lemmas.pop();
        }
        Ok(())
    }

    /// A show: list lengths, every lemma, every action, every successor, every state list around the ranges.
    fn show(&mut self, input: &Input) -> Result<(), Difference> {
        for graph in [0, 1, OLD_ROOM - 1, OLD_ROOM, GRAPH_WORDS - 1, GRAPH_WORDS, GRAPH_WORDS + 1, 12_000] {
            for path in [0, 1, PATH_WORDS - 1, PATH_WORDS, PATH_WORDS + 1, 1_000] {
                self.compare.judge(input, graph, path, graph % 7)?;
                self.inputs += 1;
            }
            self.lengths(input, graph, &[0, 1, 2, 5_000])?;
        }
        let counts = self.compare.check(input)?;
        let lemmas = input.lemmas.iter().filter(|w| kind(**w) == LEMMA).count();
        for k in (0..lemmas + 2).chain([usize::MAX]) {
            self.compare.ask(input, k)?;
            self.inputs += 1;
        }
        for k in (0..counts.actions + 2).chain([16, 255, usize::MAX]) {
            self.compare.action_part(input, k)?;
            self.inputs += 1;
        }
        let judged = self.compare.judge(input, GRAPH_WORDS, PATH_WORDS, 0)?;
        let graph = self.compare.graph().to_vec();
        self.views(&graph, judged.nodes, counts.actions)?;
        self.words_of_views(&graph, judged.nodes, counts.actions)?;
        self.states(input, counts.variables, counts.actions)
    }

    fn successor(&mut self, graph: &[u32], counts: (usize, usize), node: usize, action: usize) -> Result<(), Difference> {
        self.inputs += 1;
        self.compare.successor(graph, counts.0, counts.1, node, action)
    }

    /// Every node and action, every length of the list, counts at their ends and one past them.
    fn views(&mut self, graph: &[u32], nodes: usize, actions: usize) -> Result<(), Difference> {
        for node in (0..nodes + 2).chain([MAX_NODES - 1, MAX_NODES, MAX_NODES + 1, usize::MAX]) {
            for action in (0..actions + 2).chain([15, 16, 17, usize::MAX]) {
                self.successor(graph, (nodes, actions), node, action)?;
            }
        }
        for length in 0..=nodes * (HEADER + actions) {
            self.successor(&graph[..length], (nodes, actions), 0, 0)?;
        }
        for nodes in [0, 1, MAX_NODES - 1, MAX_NODES, MAX_NODES + 1, usize::MAX] {
            for actions in [0, 1, 15, 16, 17, usize::MAX] {
                self.successor(graph, (nodes, actions), 0, 0)?;
            }
        }
        Ok(())
    }

    /// Every kind and every bit in every place of the first two records.
    fn words_of_views(&mut self, graph: &[u32], nodes: usize, actions: usize) -> Result<(), Difference> {
        let mut list = graph.to_vec();
        for at in 0..(HEADER + actions) * nodes.min(2) {
            for word in (0..16).map(|k| make(k, graph[at])).chain((0..32).map(|b| graph[at] ^ 1 << b)) {
                list[at] = word;
                let (node, place) = (at / (HEADER + actions), at % (HEADER + actions));
                self.successor(&list, (nodes, actions), node, place.saturating_sub(HEADER))?;
            }
            list[at] = graph[at];
        }
        Ok(())
    }

    /// From the low ends, the high ends and the middle: every length of the state list, every variable at and past its ends.
    fn states(&mut self, input: &Input, variables: usize, actions: usize) -> Result<(), Difference> {
        let ends: Vec<(i32, i32)> =
            input.program[..variables].iter().map(|w| (signed(*w, 27, 14) as i32, signed(*w, 13, 0) as i32)).collect();
        for from in [0, 1, 2] {
            let state: Vec<i32> = ends.iter().map(|(l, h)| [*l, *h, (l + h) / 2][from]).collect();
            let mut lists: Vec<Vec<i32>> = (0..12).map(|n| state.iter().copied().chain([0; 12]).take(n).collect()).collect();
            for (v, (low, high)) in ends.iter().enumerate() {
                for value in [low - 1, *low, low + 1, high - 1, *high, high + 1, i32::MIN, i32::MAX] {
                    lists.push(state.clone());
                    lists.last_mut().unwrap()[v] = value;
                }
            }
            for k in 0..actions + 1 {
                for list in &lists {
                    self.compare.step(input, k, list)?;
                    self.inputs += 1;
                }
            }
        }
        Ok(())
    }
}

/// Goal, index, and the premises as known-false and known-true predicates.
type Says = (u32, u32, u32, u32);

/// x and y, one action whose guards speak of both, and lemmas that are all accepted. `start` has 1 for each predicate that
/// holds at node 0, 2 for each that fails; the opposites are forbidden.
fn small(pred: &[RowText], sets: &[(u32, RowText)], start: &[u32], lemmas: &[Says]) -> Input {
    let mut t = Text {
        vars: vec![(0, 1); 2],
        init: vec![never()],
        pred: pred.to_vec(),
        actions: vec![act(&[row(0, &[(0, 1), (1, 1)]), never()], sets)],
        bad: vec![],
    };
    let mut words = Vec::new();
    for (p, goal) in (0..).zip(start).filter(|(_, goal)| **goal != 0) {
        words.extend(t.forced(START, *goal, p, 0, 0));
        t.bad.push(if *goal == 1 { (1 << p, 0) } else { (0, 1 << p) });
    }
    words.extend(lemmas.iter().flat_map(|(goal, index, f, tr)| t.forced(0, *goal, *index, *f, *tr)));
    Input { program: t.words(), lemmas: words }
}

/// Coefficients -1, 0 and 1 on x and y.
fn small_rows() -> Vec<RowText> {
    let terms = |c: i32| [(0, c / 3 - 1), (1, c % 3 - 1)].into_iter().filter(|(_, c)| *c != 0).collect();
    (0..9).map(|c| (0, terms(c))).collect()
}

/// Nothing, x, y, or both set, each to 0, to itself and to the other one.
fn small_sets() -> Vec<Vec<(u32, RowText)>> {
    let [x, y] = [0, 1].map(|v| [(v, row(0, &[])), itself(v), (v, row(0, &[(1 - v, 1)]))].to_vec());
    let both = pairs(&x, &y).into_iter().map(|(a, b)| vec![a, b]);
    [vec![]].into_iter().chain(x.iter().chain(&y).map(|a| vec![a.clone()])).chain(both).collect()
}

pub fn pairs<A: Clone, B: Clone>(a: &[A], b: &[B]) -> Vec<(A, B)> {
    a.iter().flat_map(|a| b.iter().map(|b| (a.clone(), b.clone()))).collect()
}

/// Predicates on these sets of variables, and a last one on all; actions that set these sets. At node 0 the last predicate
/// holds, and every second of the others, the rest fail. An action that sets something makes the last one fail, and where
/// that fails nothing can happen.
fn over(terms: &[u32], sets: &[u32], holding: usize) -> Input {
    let term = |v: u32| (v, [1, -1, 2, 256, -256, 512, 1000, -1000][v as usize]);
    let row_on = |mask: u32| row(0, &bits(mask).map(term).collect::<Vec<_>>());
    let set = |v: u32| if v % 3 == 0 { itself(v) } else { (v, row(0, &[])) };
    let t = Text {
        vars: vec![(0, 1); MAX_VARIABLES],
        init: vec![never()],
        pred: terms.iter().chain([&0xFF]).map(|mask| row_on(*mask)).collect(),
        actions: sets.iter().map(|mask| act(&[row_on(0xFF), never()], &bits(*mask).map(set).collect::<Vec<_>>())).collect(),
        bad: vec![],
    };
    let last = terms.len() as u32;
    let mut lemmas = t.forced(START, 1, last, 0, 0);
    lemmas.extend((0..terms.len()).flat_map(|p| t.forced(START, if p % 2 == holding { 1 } else { 2 }, p as u32, 0, 0)));
    for (a, mask) in (0..).zip(sets) {
        lemmas.extend(t.forced(a, 0, 0, 1 << last, 0));
        if *mask != 0 {
            lemmas.extend(t.forced(a, 2, last, 0, 0));
        }
    }
    Input { program: t.words(), lemmas }
}

/// Where the action that sets these variables leads from node 0 there.
fn stays(terms: &[u32], set: u32, holding: usize) -> Literals {
    let last = 1 << terms.len();
    let (mut known_false, mut known_true) = if set == 0 { (0, last) } else { (last, 0) };
    for p in (0..terms.len()).filter(|p| terms[*p] & set == 0) {
        if p % 2 == holding { known_true |= 1 << p } else { known_false |= 1 << p }
    }
    Literals { known_false, known_true }
}

/// The variables of a set, rising.
pub fn bits(mask: u32) -> impl Iterator<Item = u32> {
    (0..8).filter(move |v| mask >> v & 1 == 1)
}

impl Sweep<'_> {
    /// A small logic, also with nothing untouched.
    fn small(&mut self, input: &Input) -> Result<(), Difference> {
        self.inputs += 1;
        let judged = self.compare.judge(input, GRAPH_WORDS, PATH_WORDS, 0)?;
        let looked = self.compare.look(input, &judged)?;
        let before = self.compare.before(&judged, 0);
        self.compare.sheets(input, &before, self.inputs as usize % 7, |due, _| due)?;
        if let Some(looked) = looked {
            self.compare.touch_all(input, &judged, &looked)?;
        }
        Ok(())
    }

    /// One predicate, unknown, true or false at node 0, and every set of lemmas for and against it: without a premise, from
    /// it and from its opposite. No end is shown, so it is safe only where the action sets nothing or has no successor.
    fn kept_by_one(&mut self) -> Result<(), Difference> {
        let says: Vec<Says> = [1, 2].into_iter().flat_map(|goal| [(goal, 0, 0, 0), (goal, 0, 0, 1), (goal, 0, 1, 0)]).collect();
        let some: Vec<Vec<Says>> = (0..64).map(|set: u32| bits(set).map(|i| says[i as usize]).collect()).collect();
        for (pred, sets) in pairs(&small_rows(), &small_sets()) {
            for (start, lemmas) in pairs(&[0, 1, 2], &some) {
                self.small(&small(&[pred.clone()], &sets, &[start], &lemmas))?;
            }
        }
        Ok(())
    }

    /// Two predicates, each unknown, true or false at node 0; a lemma or none for or against the first, and a lemma or none
    /// for or against the second, which may have a literal of the first as premise. Every end is shown.
    fn kept_by_two(&mut self) -> Result<(), Difference> {
        let (rows, ways) = (small_rows(), small_sets());
        let sets = [0, 1, 2, 4, 5, 15].map(|way| ways[way].clone());
        let first: [&[Says]; 3] = [&[], &[(1, 0, 0, 0)], &[(2, 0, 0, 0)]];
        let second: [&[Says]; 5] = [&[], &[(1, 1, 0, 0)], &[(2, 1, 0, 0)], &[(1, 1, 0, 1)], &[(2, 1, 1, 0)]];
        let starts = pairs(&[0, 1, 2], &[0, 1, 2]);
        for ((a, b), sets) in pairs(&pairs(&rows, &rows), &sets) {
            let ends: Vec<Says> = sets.iter().flat_map(|(v, _)| [(3, *v, 0, 0), (4, *v, 0, 0)]).collect();
            for (start, (one, two)) in pairs(&starts, &pairs(&first, &second)) {
                self.small(&small(&[a.clone(), b.clone()], &sets, &[start.0, start.1], &[one, two, &ends].concat()))?;
            }
        }
        Ok(())
    }

    /// Every set of variables in a predicate and every set of variables of an action: a literal is at the successor exactly
    /// where they have none in common.
    fn kept_by_variables(&mut self) -> Result<(), Difference> {
        let all: Vec<u32> = (0..256).collect();
        let groups = pairs(&all.chunks(13).collect::<Vec<_>>(), &all.chunks(MAX_ACTIONS).collect::<Vec<_>>());
        for ((terms, sets), holding) in pairs(&groups, &[0, 1]) {
            let input = over(terms, sets, holding);
            let judged = self.compare.judge(&input, GRAPH_WORDS, PATH_WORDS, 0)?;
            self.compare.look(&input, &judged)?;
            self.inputs += 1;
            let graph = Graph { words: self.compare.graph(), nodes: judged.nodes, actions: sets.len() };
            for (action, set) in sets.iter().enumerate() {
                let expected = stays(terms, *set, holding);
                let next = graph.successor(0, action).map(|node| graph.literals(node));
                if next != Some(expected) {
                    let fault = format!("action {action} leads to {next:?} and not to {expected:?}");
                    return Err(falsehood(&input, &judged, &fault));
                }
            }
        }
        Ok(())
    }
}
