//! Sweeps of request 2: the stored shows with every beginning of their lemmas and without each single one; every length of
//! the findings list; every value of each field, alone and in sets, with findings worked out here; the most findings; every
//! refusal beside every other.

use crate::calls::{falsehood, Difference};
use crate::findings::{number, word, LONGEST};
use crate::generate::Input;
use crate::rings::OLD_ROOM;
use crate::sweep::{pairs, Sweep};
use bulanevior::{End, Finding, MOST_FINDINGS};
use independent::shows::{at_will, counter, switches, var_word, Text};
use independent::words::*;

macro_rules! stored {
    ($($name:literal),*) => {
        &[$(($name, include_bytes!(concat!("../../shows/", $name, ".words")))),*]
    };
}

/// All shows of shows/.
const SHOWS: &[(&str, &[u8])] = stored![
    "bakery", "bakery_kept", "blackout", "blackout_unshown", "bump", "chase", "chase_unshown", "counter", "cut_byte",
    "cut_lemma", "cut_logic", "difference", "empty", "fade", "house", "house_kept", "incident", "incident_mended", "master",
    "rig8", "rig8_kept", "shortcut"
];

/// The whole words of a file: logic, and lemmas behind the first END.
fn input(bytes: &[u8]) -> Input {
    let mut program: Vec<u32> = bytes.chunks_exact(4).map(|b| u32::from_le_bytes([b[0], b[1], b[2], b[3]])).collect();
    let end = program.iter().position(|w| kind(*w) == END).map_or(program.len(), |end| end + 1);
    let lemmas = program.split_off(end);
    Input { program, lemmas }
}

/// With every beginning of the lemma list that ends where a lemma does, and without each single lemma.
fn fewer(input: &Input) -> Vec<Input> {
    let words = &input.lemmas;
    let mut bounds: Vec<usize> = (0..words.len()).filter(|at| kind(words[*at]) == LEMMA).collect();
    bounds.push(words.len());
    let beginnings = bounds.iter().map(|end| words[..*end].to_vec());
    let but_one = bounds.windows(2).map(|b| [&words[..b[0]], &words[b[1]..]].concat());
    beginnings.chain(but_one).map(|lemmas| Input { program: input.program.clone(), lemmas }).collect()
}

pub fn forbid(node: usize, combination: usize) -> u32 {
    word(Finding::MayForbid { node, combination })
}

/// Both ends.
pub fn run_off(node: usize, action: usize, variable: usize) -> [u32; 2] {
    [End::Low, End::High].map(|end| word(Finding::MayRunOff { node, action, variable, end }))
}

/// A good list of words, and one for each of these refusals, which it gets by `fault`.
fn faulty<const N: usize>(good: &[u32], refusals: [u32; N], fault: impl Fn(u32, &mut Vec<u32>)) -> Vec<(u32, Vec<u32>)> {
    let bad = |refusal| {
        let mut words = good.to_vec();
        fault(refusal, &mut words);
        (refusal, words)
    };
    [(0, good.to_vec())].into_iter().chain(refusals.map(bad)).collect()
}

/// A logic at will, with lemmas for these goals: action, goal, index.
fn with(t: &Text, lemmas: &[(usize, u32, usize)]) -> Input {
    let forced = lemmas.iter().flat_map(|(action, goal, index)| t.forced(*action as u32, *goal, *index as u32, 0, 0));
    Input { program: t.words(), lemmas: forced.collect() }
}

/// Lemmas for the ends of these of variables 0 to 7: bit 2v for the low end of v, the next for its high end.
fn ends(action: usize, set: u32) -> impl Iterator<Item = (usize, u32, usize)> {
    (0..16).filter(move |end| set >> end & 1 == 1).map(move |end| (action, 3 + end % 2, end as usize / 2))
}

impl Sweep<'_> {
    pub fn sheets(&mut self) -> Result<(), Difference> {
        self.stored()?;
        self.each_node()?;
        self.each_end()?;
        self.sets_of_ends()?;
        self.sets_of_combinations()?;
        self.sets_of_actions()?;
        self.the_most()?;
        self.refusals()
    }

    /// The findings with a graph list of this length, and with findings lists of these lengths, just enough, one too short
    /// and longer.
    pub fn lengths(&mut self, input: &Input, graph: usize, lengths: &[usize]) -> Result<(), Difference> {
        let judged = self.compare.judge_uncounted(input, graph, PATH_WORDS, graph % 7)?;
        let before = self.compare.before(&judged, graph % 7);
        let mut due = None;
        for length in lengths {
            due = number(&self.compare.sheet(input, &before, *length)?);
            self.inputs += 1;
        }
        let Some(due) = due else { return Ok(()) };
        self.compare.sheets(input, &before, due.saturating_sub(1), |due, _| due)?;
        self.compare.sheet(input, &before, due + 3)?;
        self.inputs += 3;
        Ok(())
    }

    /// The findings are these.
    fn expect(&mut self, input: &Input, words: &[u32]) -> Result<(), Difference> {
        self.lengths(input, GRAPH_WORDS, &[words.len() / 2])?;
        let sheet = &self.compare.sheet;
        if sheet == words { Ok(()) } else { Err(format!("FALSE: {sheet:08X?} and not {words:08X?} of {input:08X?}")) }
    }

    /// For Fade and House every length of the list, up to a few more than needed.
    fn stored(&mut self) -> Result<(), Difference> {
        for (name, bytes) in SHOWS {
            for input in fewer(&input(bytes)) {
                let at = |fault: Difference| format!("show {name}\n{fault}");
                self.lengths(&input, GRAPH_WORDS, &[0]).map_err(at)?;
                if ["fade", "house"].contains(name) {
                    let all: Vec<usize> = (0..self.compare.sheet.len() + 4).collect();
                    self.lengths(&input, GRAPH_WORDS, &all).map_err(at)?;
                }
            }
        }
        Ok(())
    }

    /// 512 nodes in a line, and every combination at every node: combination c is what node n + c is.
    fn each_node(&mut self) -> Result<(), Difference> {
        for n in 0..MAX_NODES {
            let node = |c: usize| (n + c) % MAX_NODES;
            let bad: Vec<(u32, u32)> = (0..MAX_FORBIDDEN).map(|c| (!node(c) as u32 & 0x1FF, node(c) as u32)).collect();
            let (t, lemmas) = counter(9, &bad);
            let mut words: Vec<u32> = (0..MAX_FORBIDDEN).map(|c| forbid(node(c), c)).collect();
            words.sort_unstable();
            self.expect(&Input { program: t.words(), lemmas }, &words)?;
        }
        Ok(())
    }

    /// 16 actions that set 8 variables, and each single end that is not shown.
    fn each_end(&mut self) -> Result<(), Difference> {
        let t = at_will(0, &vec![(0..8).collect(); MAX_ACTIONS], &[]);
        for open in 0..256 {
            let shown = |action: usize| if action == open / 16 { !(1 << (open % 16)) } else { !0 };
            let lemmas: Vec<_> = (0..MAX_ACTIONS).flat_map(|action| ends(action, shown(action))).collect();
            self.expect(&with(&t, &lemmas), &[run_off(0, open / 16, open % 16 / 2)[open % 2]])?;
        }
        Ok(())
    }

    /// Every set of ends of four variables of one action, the first four and the last.
    fn sets_of_ends(&mut self) -> Result<(), Difference> {
        for (action, first) in [(0, 0), (0, 4), (7, 4), (15, 0), (15, 4)] {
            let mut sets = vec![vec![]; MAX_ACTIONS];
            sets[action] = (first..first + 4).collect();
            let t = at_will(0, &sets, &[]);
            for set in 0..256u32 {
                let lemmas: Vec<_> = ends(action, set << (2 * first)).collect();
                let all: Vec<u32> = (first as usize..).take(4).flat_map(|v| run_off(0, action, v)).collect();
                let words: Vec<u32> = (0..8).filter(|end| set >> end & 1 == 0).map(|end| all[end]).collect();
                self.expect(&with(&t, &lemmas), &words)?;
            }
        }
        Ok(())
    }

    /// One node where P0 holds and P1 fails, and every set of open ones among eight combinations.
    fn sets_of_combinations(&mut self) -> Result<(), Difference> {
        let start = START as usize;
        for set in 0..256 {
            let open = |c: &usize| set >> c & 1 == 1;
            let bad = |c| if open(&c) { [(0, 0), (2, 1), (0, 1), (2, 0)][c % 4] } else { [(1, 0), (0, 2), (3, 0)][c % 3] };
            let t = at_will(2, &[], &(0..MAX_FORBIDDEN).map(bad).collect::<Vec<_>>());
            let words: Vec<u32> = (0..MAX_FORBIDDEN).filter(open).map(|c| forbid(0, c)).collect();
            self.expect(&with(&t, &[(start, 1, 0), (start, 2, 1)]), &words)?;
        }
        Ok(())
    }

    /// Every set of actions that have no successor, of the first eight and of the last; no end is shown.
    fn sets_of_actions(&mut self) -> Result<(), Difference> {
        let t = at_will(0, &(0..16).map(|action| vec![action % 8]).collect::<Vec<_>>(), &[(0, 0)]);
        for set in (0..256).chain((0..256).map(|set| set << 8)) {
            let gone = |action: &usize| set >> action & 1 == 1;
            let lemmas: Vec<_> = (0..MAX_ACTIONS).filter(gone).map(|action| (action, 0, 0)).collect();
            let left = (0..MAX_ACTIONS).filter(|action| !gone(action)).flat_map(|action| run_off(0, action, action % 8));
            self.expect(&with(&t, &lemmas), &[forbid(0, 0)].into_iter().chain(left).collect::<Vec<_>>())?;
        }
        Ok(())
    }

    /// 512 nodes, 16 actions that set 8 variables, 8 combinations: nothing is shown.
    fn the_most(&mut self) -> Result<(), Difference> {
        let (t, lemmas) = switches(9, &vec![(0..8).collect(); MAX_ACTIONS], &[(0, 0); MAX_FORBIDDEN]);
        let input = Input { program: t.words(), lemmas };
        let mut words = Vec::new();
        for node in 0..MAX_NODES {
            words.extend((0..MAX_FORBIDDEN).map(|c| forbid(node, c)));
            words.extend((0..MAX_ACTIONS).flat_map(|a| (0..MAX_VARIABLES).flat_map(move |v| run_off(node, a, v))));
        }
        assert_eq!(words.len(), MOST_FINDINGS);
        self.lengths(&input, GRAPH_WORDS, &[0, 1, 16_384, MOST_FINDINGS / 2, MOST_FINDINGS + 1, LONGEST])?;
        self.expect(&input, &words)
    }
    /// 2 nodes or 1,024, with one open combination, and all faults together.
    fn refusals(&mut self) -> Result<(), Difference> {
        for bits in [1, 10] {
            let (t, lemmas) = switches(bits, &vec![vec![]; bits as usize], &[(0, 0)]);
            let programs = faulty(&t.words(), [2, 3, 4], |refusal, words| match refusal {
                2 => words.truncate(words.len() - 1),
                3 => words.iter_mut().filter(|w| kind(**w) == PRED).for_each(|w| *w = make(PRED, 15)),
                _ => words[0] = var_word(1, 0),
            });
            let lists = faulty(&lemmas, [5, 6], |refusal, words| match refusal {
                5 => words.push(0),
                _ => *words = [words[..4].repeat(MAX_LEMMAS), vec![make(LEMMA, PAYLOAD)]].concat(),
            });
            let inputs = pairs(&programs, &lists);
            for ((program, lemmas), lent) in pairs(&inputs, &pairs(&[0, OLD_ROOM, GRAPH_WORDS - 1, GRAPH_WORDS], &[0, 1, 2])) {
                let short = [u32::from(lent.0 < GRAPH_WORDS), if lent.1 < 2 { 12 } else { 0 }];
                let faults = [short[0], program.0, lemmas.0, if bits > 9 { 7 } else { 0 }, short[1]];
                self.refused(&Input { program: program.1, lemmas: lemmas.1 }, lent, &faults)?;
            }
        }
        Ok(())
    }

    /// The first that is a fault decides.
    pub fn refused(&mut self, input: &Input, (graph, list): (usize, usize), faults: &[u32]) -> Result<(), Difference> {
        self.inputs += 1;
        let judged = self.compare.judge_uncounted(input, graph, PATH_WORDS, 0)?;
        let before = self.compare.before(&judged, 0);
        let found = self.compare.sheet(input, &before, list)?;
        let due = faults.iter().copied().find(|fault| *fault > 0).unwrap_or(0);
        if found.refusal == due { Ok(()) } else { Err(falsehood(input, &judged, &format!("{found:?} and not refusal {due}"))) }
    }
}
