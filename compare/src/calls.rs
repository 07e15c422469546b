//! One input through all calls of both sides; every answer and every lent word is compared.

use crate::counts::*;
use crate::dice::Dice;
use crate::findings;
use crate::generate::Input;
use crate::other;
use crate::rack::{Call, Tried, STEP};
use bulanevior::raw::{self as library, BnvFindings, BnvJudge, BNV_JUDGED, BNV_JUDGE_REFUSED, BNV_NODE, BNV_NO_NODE, BNV_SAFE};
use independent::words::{EDGE, END, GRAPH_WORDS, HEADER, MAX_NODES, PATH_WORDS};

/// Words before and behind each lent list that no call may touch.
pub const MARGIN: usize = 32;
const LONGEST: usize = 12_000;
/// Of a show: the most bytes, and the least words of the list that they are read into.
const SHOW_BYTES: usize = 65_536;
const SHOW_WORDS: usize = 16_384;

pub struct Compare {
    pub counts: Counts,
    /// Calls of the library.
    pub calls: u64,
    /// The last input of `all` is safe by what is kept.
    pub safe_by_kept: bool,
    /// The findings last listed; none if the last input of `all` was refused.
    pub sheet: Vec<u32>,
    /// The steps of the path that came with them.
    pub steps: usize,
    pattern: Vec<u32>,
    /// Lent lists with their margins: library, independent.
    graphs: [Vec<u32>; 2],
    paths: [Vec<u32>; 2],
    shows: [Vec<u32>; 2],
    sheets: [Vec<u32>; 2],
    states: [Vec<i32>; 2],
}

/// A difference, ready to print.
pub type Difference = String;

pub fn hexadecimal(name: &str, words: &[u32]) -> String {
    let mut text = format!("{name} ({} words):", words.len());
    for (i, w) in words.iter().enumerate() {
        text.push_str(if i % 12 == 0 { "\n  " } else { " " });
        text.push_str(&format!("{w:08X}"));
    }
    text.push('\n');
    text
}

pub fn differ(input: &Input, call: &str, library: &dyn std::fmt::Debug, other: &dyn std::fmt::Debug) -> Difference {
    format!(
        "DIFFERENCE in {call}\n  library     {library:?}\n  independent {other:?}\n{}{}",
        hexadecimal("program", &input.program),
        hexadecimal("lemmas", &input.lemmas)
    )
}

/// Something that a call returned and that cannot be.
pub fn falsehood(input: &Input, judged: &BnvJudge, fault: &str) -> Difference {
    format!(
        "FALSE: {fault}\n  {judged:?}\n{}{}",
        hexadecimal("program", &input.program),
        hexadecimal("lemmas", &input.lemmas)
    )
}

/// The first place where two lists differ.
fn first<T: PartialEq + Copy>(a: &[T], b: &[T]) -> Option<usize> {
    if a == b { None } else { a.iter().zip(b).position(|(x, y)| x != y).or(Some(a.len().min(b.len()))) }
}

impl Compare {
    pub fn new(seed: u64) -> Compare {
        let dice = Dice::new(seed, u64::MAX);
        Compare {
            counts: Counts::default(),
            calls: 0,
            safe_by_kept: false,
            sheet: Vec::new(),
            steps: 0,
            pattern: (0..findings::LONGEST + 2 * MARGIN + 1024).map(|_| dice.next() as u32).collect(),
            graphs: Default::default(),
            paths: Default::default(),
            shows: Default::default(),
            sheets: Default::default(),
            states: Default::default(),
        }
    }

    pub fn check(&mut self, input: &Input) -> Result<library::BnvCheck, Difference> {
        let ours = library::check(&input.program);
        let theirs = other::check(&input.program);
        self.calls += 1;
        self.counts.note(check_name(theirs.refusal));
        if ours == theirs { Ok(theirs) } else { Err(differ(input, "check", &ours, &theirs)) }
    }

    pub fn action_part(&mut self, input: &Input, k: usize) -> Result<(), Difference> {
        let ours = library::action_part(&input.program, k);
        let theirs = other::action_part(&input.program, k);
        self.calls += 1;
        self.counts.note(if theirs.length == 0 { "part empty" } else { "part not empty" });
        // Where an empty part begins is free.
        let same = if theirs.length == 0 { ours.length == 0 && ours.start <= input.program.len() } else { ours == theirs };
        if same { Ok(()) } else { Err(differ(input, &format!("action part {k}"), &ours, &theirs)) }
    }

    /// Step, and from the same state the rack's step.
    pub fn step(&mut self, input: &Input, k: usize, state: &[i32]) -> Result<(), Difference> {
        let exact = self.tried(input, &STEP, k, state)?;
        self.counts.note(step_name(exact.answer.answer, exact.answer.refusal));
        self.rack(input, k, state, &exact)
    }

    /// One of the two steps, uncounted.
    pub fn tried(&mut self, input: &Input, call: &Call, k: usize, state: &[i32]) -> Result<Tried, Difference> {
        for list in &mut self.states {
            list.clear();
            list.extend([0x5A5A_5A5A; 4]);
            list.extend(state);
            list.extend([0x5A5A_5A5A; 4]);
        }
        let lent = 4..4 + state.len();
        let ours = (call.library)(&input.program, k, &mut self.states[0][lent.clone()]);
        let theirs = (call.other)(&input.program, k, &mut self.states[1][lent.clone()]);
        self.calls += 1;
        if ours != theirs || self.states[0] != self.states[1] {
            let name = format!("{} {k} from {state:?}", call.name);
            return Err(differ(input, &name, &(ours, &self.states[0]), &(theirs, &self.states[1])));
        }
        Ok(Tried { answer: ours, left: self.states[0][lent].to_vec() })
    }

    /// The answer's number.
    pub fn ask(&mut self, input: &Input, k: usize) -> Result<u32, Difference> {
        let ours = library::ask(&input.program, &input.lemmas, k);
        let theirs = other::ask(&input.program, &input.lemmas, k);
        self.calls += 1;
        self.counts.note(ask_name(theirs.answer, theirs.refusal));
        if ours == theirs { Ok(theirs.answer) } else { Err(differ(input, &format!("ask {k}"), &ours, &theirs)) }
    }

    /// `graph` and `path` are the lengths lent, `offset` the place in the pattern that fills them.
    pub fn judge(&mut self, input: &Input, graph: usize, path: usize, offset: usize) -> Result<BnvJudge, Difference> {
        let judged = self.judge_uncounted(input, graph, path, offset)?;
        self.note_judge(&judged, path);
        self.rings(input, &judged, graph)?;
        Ok(judged)
    }

    pub fn judge_uncounted(&mut self, input: &Input, graph: usize, path: usize, offset: usize) -> Result<BnvJudge, Difference> {
        self.lend(offset, [graph, path, 0, 0]);
        let (g, p) = (MARGIN..MARGIN + graph, MARGIN..MARGIN + path);
        let ours = library::judge(
            &input.program,
            &input.lemmas,
            &mut self.graphs[0][g.clone()],
            &mut self.paths[0][p.clone()],
        );
        let theirs = other::judge(&input.program, &input.lemmas, &mut self.graphs[1][g], &mut self.paths[1][p]);
        self.calls += 1;
        let name = || format!("judge with lists of {graph} and {path} words");
        if ours != theirs {
            return Err(differ(input, &name(), &ours, &theirs));
        }
        self.lent_alike(input, &name, &ours)?;
        Ok(theirs)
    }

    /// Fills the lists of both sides, with their margins, from a place of the pattern.
    fn lend(&mut self, offset: usize, lengths: [usize; 4]) {
        let all = [&mut self.graphs, &mut self.paths, &mut self.shows, &mut self.sheets];
        for (lists, length) in all.into_iter().zip(lengths) {
            for list in lists {
                list.clear();
                list.extend_from_slice(&self.pattern[offset..offset + length + 2 * MARGIN]);
            }
        }
    }

    /// Every lent word is the same on both sides.
    fn lent_alike(&self, input: &Input, name: &dyn Fn() -> String, answer: &dyn std::fmt::Debug) -> Result<(), Difference> {
        let names = ["graph", "path", "words", "findings"];
        for (list, lists) in names.into_iter().zip([&self.graphs, &self.paths, &self.shows, &self.sheets]) {
            if let Some(at) = first(&lists[0], &lists[1]) {
                let place = format!("{}: {list} word {}", name(), at as i64 - MARGIN as i64);
                let word = |side: usize| format!("{:08X} after {answer:?}", lists[side][at]);
                return Err(differ(input, &place, &word(0), &word(1)));
            }
        }
        Ok(())
    }

    /// `graph` and `list` are the lengths lent.
    pub fn findings(&mut self, input: &Input, graph: usize, list: usize, offset: usize) -> Result<BnvFindings, Difference> {
        self.lend(offset, [graph, 0, 0, list]);
        let (g, l) = (MARGIN..MARGIN + graph, MARGIN..MARGIN + list);
        let [ours, theirs] = [0, 1].map(|side| {
            let call = if side == 0 { library::findings } else { other::findings };
            let (graph, list) = (&mut self.graphs[side][g.clone()], &mut self.sheets[side][l.clone()]);
            call(&input.program, &input.lemmas, graph, list)
        });
        self.calls += 1;
        let name = || format!("findings with lists of {graph} and {list} words");
        if ours != theirs {
            return Err(differ(input, &name(), &ours, &theirs));
        }
        self.lent_alike(input, &name, &ours)?;
        Ok(ours)
    }

    /// The bytes of an input, whole or damaged, through the call from bytes.
    pub fn show(&mut self, input: &Input, dice: &Dice) -> Result<(), Difference> {
        let mut words = [&input.program[..], &input.lemmas[..]].concat();
        if dice.percent(15) {
            words.insert(dice.below(words.len() + 1), END << 28 | if dice.percent(50) { 0 } else { dice.next() as u32 >> 4 });
        }
        // From any alignment.
        let mut bytes = vec![0; dice.below(4)];
        let from = bytes.len();
        bytes.extend(words.iter().flat_map(|w| w.to_le_bytes()));
        let size = bytes.len() - from;
        let cut = match dice.below(20) {
            0..=11 => size,
            12 | 13 => dice.below(size + 1),
            14 => dice.below(size / 4 + 1) * 4,
            15 | 16 => size + 1 + dice.below(3),
            _ => SHOW_BYTES + dice.pick(&[0, 0, 0, 1, 2, 3, 4, 400]),
        };
        bytes.resize(from + cut, dice.pick(&[0, 0xFF, 0x90]));
        let (graph, path) = (length(dice, GRAPH_WORDS, LONGEST), length(dice, PATH_WORDS, 2000));
        let room = length(dice, SHOW_WORDS, SHOW_WORDS + 64);
        self.lend(dice.below(1024), [graph, path, room, 0]);
        let (g, p, w) = (MARGIN..MARGIN + graph, MARGIN..MARGIN + path, MARGIN..MARGIN + room);
        let bytes = &bytes[from..];
        let [ours, theirs] = [0, 1].map(|side| {
            let lists = (&mut self.shows[side][w.clone()], &mut self.graphs[side][g.clone()], &mut self.paths[side][p.clone()]);
            let call = if side == 0 { library::show } else { other::show };
            call(bytes, lists.0, lists.1, lists.2)
        });
        self.calls += 1;
        let name = || format!("show of {cut} bytes with lists of {room}, {graph} and {path} words");
        if ours != theirs {
            return Err(differ(input, &name(), &ours, &theirs));
        }
        self.lent_alike(input, &name, &ours)?;
        self.counts.note(show_name(theirs.answer));
        if theirs.answer == BNV_JUDGED {
            self.counts.note(shown_name(theirs.judged.verdict));
            let ends = self.shows[1][MARGIN..MARGIN + cut / 4].iter().filter(|w| **w >> 28 == END).count();
            for (holds, name) in [
                (ends == 0, "show without END"),
                (ends > 1, "show of END and more END"),
                (bytes.as_ptr() as usize % 4 != 0, "show off a word's alignment"),
                (cut == SHOW_BYTES, "show of 65,536 bytes"),
            ] {
                if holds {
                    self.counts.note(name);
                }
            }
        }
        Ok(())
    }

    fn note_judge(&mut self, j: &BnvJudge, path: usize) {
        let counts = &mut self.counts;
        counts.note(judge_name(j.verdict, j.high, j.refusal, j.value));
        if j.verdict == BNV_JUDGE_REFUSED {
            return;
        }
        counts.note(nodes_name(j.nodes));
        if j.verdict == BNV_SAFE && j.nodes >= 64 {
            counts.note("safe, 64 nodes or more");
        }
        if j.node > 0 {
            counts.note("finding past node 0");
        }
        if j.node > 63 {
            counts.note("finding past node 63");
        }
        if path >= PATH_WORDS && self.paths[1][MARGIN + 63] != 0 {
            counts.note("path of 64 steps or more");
        }
    }

    /// The independent graph list of the last judge.
    pub fn graph(&self) -> &[u32] {
        &self.graphs[1][MARGIN..self.graphs[1].len() - MARGIN]
    }

    /// The library's graph list of the last judge.
    pub fn library_graph(&self) -> &[u32] {
        &self.graphs[0][MARGIN..self.graphs[0].len() - MARGIN]
    }

    /// The library's path list of the last judge.
    pub fn library_path(&self) -> &[u32] {
        &self.paths[0][MARGIN..self.paths[0].len() - MARGIN]
    }

    /// The library's graph list of the last call, with its margins, which the next call lends anew.
    pub fn take_graph(&mut self) -> Vec<u32> {
        std::mem::take(&mut self.graphs[0])
    }

    /// Whether the library's graph list of the last call, with its margins, is this one.
    pub fn graph_is(&self, list: &[u32]) -> bool {
        self.graphs[0] == list
    }

    /// The library's findings list of the last call.
    pub fn findings_list(&self) -> &[u32] {
        &self.sheets[0][MARGIN..self.sheets[0].len() - MARGIN]
    }

    /// Whether it is as it was lent.
    pub fn findings_list_left(&self, offset: usize) -> bool {
        self.sheets[0] == self.pattern[offset..offset + self.sheets[0].len()]
    }

    pub fn successor(&mut self, graph: &[u32], nodes: usize, actions: usize, node: usize, action: usize) -> Result<(), Difference> {
        let ours = library::successor(graph, nodes, actions, node, action);
        let theirs = other::successor(graph, nodes, actions, node, action);
        self.calls += 1;
        self.counts.note(match (theirs.answer, theirs.refusal) {
            (BNV_NODE, _) => "view node",
            (BNV_NO_NODE, _) => "view none",
            (_, 1) => "view refusal 1",
            (_, 2) => "view refusal 2",
            (_, 3) => "view refusal 3",
            _ if node >= nodes => "view refusal 8 node",
            _ => "view refusal 8 action",
        });
        if ours == theirs {
            return Ok(());
        }
        Err(format!(
            "DIFFERENCE in successor of node {node} of {nodes}, action {action} of {actions}\n  library     {ours:?}\n  independent {theirs:?}\n{}",
            hexadecimal("graph", graph)
        ))
    }

    /// Check, and a few questions of parts, steps and lemmas.
    fn questions(&mut self, input: &Input, dice: &Dice) -> Result<library::BnvCheck, Difference> {
        let check = self.check(input)?;
        let odd = [16, 17, 255, 1 << 32, usize::MAX, usize::MAX - 1];
        let k = dice.below(check.actions + 1);
        self.action_part(input, k)?;
        self.action_part(input, if dice.percent(10) { dice.pick(&odd) } else { dice.below(check.actions) })?;
        for _ in 0..3 {
            let k = if dice.percent(3) { dice.pick(&odd) } else { dice.below(check.actions + usize::from(dice.percent(5))) };
            let state = state(dice, &input.program, check.variables);
            self.step(input, k, &state)?;
        }
        let lemmas = input.lemmas.iter().filter(|w| **w >> 28 == 9).count();
        for _ in 0..2 {
            let k = if dice.percent(2) { dice.pick(&odd) } else { dice.below(lemmas + usize::from(dice.percent(5))) };
            self.ask(input, k)?;
        }
        Ok(check)
    }

    /// All calls on one input. Hands back what judge answered on lists of full length.
    pub fn all(&mut self, input: &Input, dice: &Dice) -> Result<Option<BnvJudge>, Difference> {
        let mine = input.clone();
        let check = self.questions(input, dice)?;
        let (graph, path) = (length(dice, GRAPH_WORDS, LONGEST), length(dice, PATH_WORDS, 2000));
        let offset = dice.below(1024);
        let judged = self.judge(input, graph, path, offset)?;
        let looked = self.look(input, &judged)?;
        if judged.verdict == BNV_SAFE && input.program.len() > 1 && input.program[input.program.len() - 2] >> 28 == 8 {
            self.counts.note("safe, combinations named");
        }
        if judged.verdict != BNV_JUDGE_REFUSED {
            self.views(judged.nodes, check.actions, dice)?;
        } else if dice.percent(3) {
            self.views(dice.below(20), check.actions, dice)?;
        }
        self.find(input, &judged, (graph, offset), dice)?;
        if dice.percent(30) {
            self.show(input, dice)?;
        }
        self.safe_by_kept = looked.map_or(Ok(false), |looked| self.touch_all(input, &judged, &looked))?;
        // The words lent for reading are as they were.
        if mine.program != input.program || mine.lemmas != input.lemmas {
            return Err(differ(&mine, "a list lent for reading", &input.program, &input.lemmas));
        }
        Ok(if judged.verdict == BNV_JUDGE_REFUSED && judged.refusal == 1 { None } else { Some(judged) })
    }

    /// Questions to the reading view over the graph list of the last judge.
    fn views(&mut self, nodes: usize, actions: usize, dice: &Dice) -> Result<(), Difference> {
        let mut list = std::mem::take(&mut self.graphs[1]);
        let graph = &mut list[MARGIN..];
        let length = graph.len() - MARGIN;
        let records = (nodes * (HEADER + actions)).min(length);
        let mut ask = |graph: &[u32], nodes: usize, actions: usize, dice: &Dice| {
            let node = if dice.percent(2) { usize::MAX } else { dice.below(nodes.min(600) + usize::from(dice.percent(10))) };
            let action = if dice.percent(2) { usize::MAX } else { dice.below(actions.min(20) + usize::from(dice.percent(10))) };
            self.successor(graph, nodes, actions, node, action)
        };
        let mut done = Ok(());
        for _ in 0..2 {
            done = done.and_then(|()| ask(&graph[..length], nodes, actions, dice));
        }
        done = done.and_then(|()| ask(&graph[..records], nodes, actions, dice));
        done = done.and_then(|()| match dice.below(6) {
            0 => ask(&graph[..records.saturating_sub(1 + dice.below(3))], nodes, actions, dice),
            1 => ask(&graph[..length], dice.pick(&[0, MAX_NODES, MAX_NODES + 1, usize::MAX]), actions, dice),
            2 => ask(&graph[..length], nodes, dice.pick(&[0, 16, 17, usize::MAX]), dice),
            3 => ask(&graph[..length], nodes + dice.below(3), actions + dice.below(2), dice),
            4 => ask(&[], dice.below(2), dice.below(3), dice),
            _ => {
                for _ in 0..1 + records / 4 {
                    let at = dice.below(records.max(1));
                    graph[at] = if dice.percent(50) { dice.next() as u32 } else { EDGE << 28 | graph[at] >> 4 };
                }
                ask(&graph[..length], nodes, actions, dice)
            }
        });
        self.graphs[1] = list;
        done
    }
}

/// Mostly the least length; now and then longer or too short.
fn length(dice: &Dice, least: usize, most: usize) -> usize {
    match dice.below(100) {
        0..=74 => least,
        75..=93 => least + 1 + dice.below(64),
        94 => most,
        95 => least - 1,
        96 => least - 1 - dice.below(512),
        97 => 0,
        98 => dice.below(least),
        _ => least + dice.below(most - least),
    }
}

/// A state list for a program: mostly in its ranges, often at their ends.
fn state(dice: &Dice, program: &[u32], variables: usize) -> Vec<i32> {
    let count = if dice.percent(96) { variables } else { dice.below(variables + 3) };
    let off = dice.percent(5);
    (0..count)
        .map(|v| {
            let w = program.get(v).copied().unwrap_or(0);
            let (low, high) = ((w << 4) as i32 >> 18, (w << 18) as i32 >> 18);
            if off && dice.percent(30) {
                return dice.pick(&[low - 1, high + 1, i32::MIN, i32::MAX, dice.next() as i32]);
            }
            match dice.below(6) {
                0 => low,
                1 => high,
                2 => (low + 1).min(high),
                3 => (high - 1).max(low),
                _ => dice.between(low, high),
            }
        })
        .collect()
}
