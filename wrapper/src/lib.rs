//! A safe wrapper over Bulanevior's static library, a proved checker for the logic of a touring lighting desk: slices in, enums
//! out, nothing allocated, no `std`.
//!
//! A slice keeps what include/bulanevior.h asks of a list, so every function here is safe to call with anything.
//! 64 KiB of stack beside the lent lists are enough.
//!
//! `Ok` comes from a number that is named in `raw`, and from no other. Any other number, 0 too, means that the library is
//! of another version than this crate, or that its record was not filled: that is `Refusal::Mismatch`. Nothing panics.
//!
//! Every answer prints itself as a sentence for the operator, the one that include/bulanevior_text.h has in C.
//!
//! ```
//! use bulanevior::*;
//! // A level of 0 to 1,000, an action that takes 5 off where it is at least 5, and two lemmas: it stays on its range.
//! let words = [
//!     0x100003E8, 0x40000000, 0x50000000, 0x60000011, 0x2FFFFFFB, 0x30000001, 0x70000000, 0x2FFFFFFB, 0x30000001, 0xF0000000,
//!     0x90030000, 0x80000000, 0xA0000001, 0xA0000001, 0x90040000, 0x80000000, 0xA0000001, 0xA0000000u32,
//! ];
//! let file: Vec<u8> = words.iter().flat_map(|word| word.to_le_bytes()).collect();
//!
//! let (mut words, mut graph, mut path) = (vec![0; SHOW_WORDS], vec![0; GRAPH_WORDS], vec![0; PATH_WORDS]);
//! let shown = show(&file, &mut words, &mut graph, &mut path)?;
//! assert!(shown.is_safe());
//! assert_eq!(shown.to_string(), "safe: nodes 1, edges 1");
//! # Ok::<(), NoShow>(())
//! ```
#![no_std]
#![deny(missing_docs)]

#[cfg(test)]
extern crate std;

#[cfg(not(target_pointer_width = "64"))]
compile_error!("64-bit numbers only");

mod answers;
pub mod raw;
mod text;
pub mod word;

pub use answers::*;
pub use text::Presses;
pub use word::{kind, payload};

/// The version of this crate.
pub const VERSION: &str = env!("CARGO_PKG_VERSION");
/// The same as a number: major times 1,000,000, minor times 1,000, and patch.
pub const VERSION_NUMBER: u32 = raw::BNV_VERSION_NUMBER;

/// The number of the library's version. It belongs to this crate where it is `VERSION_NUMBER`.
///
/// ```
/// assert_eq!(bulanevior::version(), bulanevior::VERSION_NUMBER);
/// ```
pub fn version() -> u32 {
    raw::version()
}

/// Do this crate and the library that it is linked with belong together?
///
/// ```
/// assert!(bulanevior::versions_match());
/// ```
pub fn versions_match() -> bool {
    version() == VERSION_NUMBER
}

/// The most variables of a logic.
pub const MOST_VARIABLES: usize = raw::BNV_MOST_VARIABLES as usize;
/// The most start rows of a logic.
pub const MOST_START_ROWS: usize = raw::BNV_MOST_START_ROWS as usize;
/// The most predicates of a logic.
pub const MOST_PREDICATES: usize = raw::BNV_MOST_PREDICATES as usize;
/// The most guard rows of an action.
pub const MOST_GUARD_ROWS: usize = raw::BNV_MOST_GUARD_ROWS as usize;
/// The most assignments of an action.
pub const MOST_ASSIGNMENTS: usize = raw::BNV_MOST_ASSIGNMENTS as usize;
/// The most forbidden combinations of a logic.
pub const MOST_FORBIDDEN: usize = raw::BNV_MOST_FORBIDDEN as usize;
/// The most lemmas of a list.
pub const MOST_LEMMAS: usize = raw::BNV_MOST_LEMMAS as usize;

/// The most nodes of a graph.
pub const MOST_NODES: usize = raw::BNV_MOST_NODES as usize;
/// The most actions of a program.
pub const MOST_ACTIONS: usize = raw::BNV_MOST_ACTIONS as usize;
/// The words of a node's record before its EDGE words: SETS, ORIGIN and DISTANCE.
pub const HEADER_WORDS: usize = raw::BNV_HEADER_WORDS as usize;

/// The words that `judge` needs in a graph list, and the only ones that it ever writes there.
pub const GRAPH_WORDS: usize = raw::BNV_GRAPH_WORDS as usize;
/// The words that `judge` needs in a path list, and the only ones that it ever writes there.
pub const PATH_WORDS: usize = raw::BNV_PATH_WORDS as usize;

/// The most bytes of a show. To know that there are more, `show` has to see one more.
pub const SHOW_BYTES: usize = raw::BNV_SHOW_BYTES as usize;
/// The words that `show` needs in a words list, and the only ones that it ever writes there.
pub const SHOW_WORDS: usize = raw::BNV_SHOW_WORDS as usize;

/// The most findings of a graph: a list of as many words is never too short for `findings`.
pub const MOST_FINDINGS: usize = raw::BNV_MOST_FINDINGS as usize;

/// Is the list a program, and what are its counts?
///
/// ```
/// # use bulanevior::*;
/// # let logic = [0x100003E8, 0x40000000, 0x50000000, 0x60000011, 0x2FFFFFFB, 0x30000001, 0x70000000, 0x2FFFFFFB, 0x30000001, 0xF0000000];
/// assert_eq!(check(&logic).map(|counts| counts.actions), Ok(1));
/// assert_eq!(check(&logic[..9]), Err(Refusal::Word(9)));
/// ```
pub fn check(words: &[u32]) -> Result<Counts, Refusal> {
    checked(raw::check(words))
}

fn checked(c: raw::BnvCheck) -> Result<Counts, Refusal> {
    match c.answer {
        raw::BNV_GOOD => Ok(Counts {
            variables: c.variables,
            start_rows: c.start_rows,
            predicates: c.predicates,
            actions: c.actions,
            forbidden: c.forbidden,
        }),
        raw::BNV_CHECK_REFUSED => Err(Refusal::of(c.refusal, c.value)),
        other => Err(Refusal::Mismatch(other)),
    }
}

/// The words of action k, as a part of the list; empty where the list is no program or has no such action.
///
/// ```
/// # use bulanevior::*;
/// # let logic = [0x100003E8, 0x40000000, 0x50000000, 0x60000011, 0x2FFFFFFB, 0x30000001, 0x70000000, 0x2FFFFFFB, 0x30000001, 0xF0000000];
/// assert_eq!(action_part(&logic, 0), &logic[3..9]);
/// assert!(action_part(&logic, 1).is_empty());
/// ```
pub fn action_part(words: &[u32], k: usize) -> &[u32] {
    let p = raw::action_part(words, k);
    words
        .get(p.start..)
        .and_then(|rest| rest.get(..p.length))
        .unwrap_or(&[])
}

/// Action k, tried on a state. Only `Moved` writes.
///
/// ```
/// # use bulanevior::*;
/// # let logic = [0x100003E8, 0x40000000, 0x50000000, 0x60000011, 0x2FFFFFFB, 0x30000001, 0x70000000, 0x2FFFFFFB, 0x30000001, 0xF0000000];
/// let mut state = [8];
/// assert_eq!(step(&logic, 0, &mut state), Ok(Step::Moved));
/// assert_eq!(state, [3]);
/// let near = Failing { row: 0, value: -2 };
/// assert_eq!(step(&logic, 0, &mut state), Ok(Step::NotEnabled(near)));
/// assert_eq!(near.to_string(), "guard row 0 lacks 2");
/// ```
pub fn step(words: &[u32], k: usize, state: &mut [i32]) -> Result<Step, Refusal> {
    stepped(raw::step(words, k, state))
}

/// The guard row that a record names. One that is not below 0 comes from a library of another version.
fn failing(s: raw::BnvStep) -> Result<Failing, Refusal> {
    if s.row_value >= 0 {
        return Err(Refusal::Mismatch(s.answer));
    }
    Ok(Failing {
        row: s.row as usize,
        value: s.row_value,
    })
}

fn stepped(s: raw::BnvStep) -> Result<Step, Refusal> {
    match s.answer {
        raw::BNV_NOT_ENABLED => failing(s).map(Step::NotEnabled),
        raw::BNV_RUNS_OFF => Ok(Step::RunsOff(s.variable)),
        raw::BNV_STEP_REFUSED => Err(Refusal::of(s.refusal, s.value)),
        raw::BNV_MOVED => Ok(Step::Moved),
        other => Err(Refusal::Mismatch(other)),
    }
}

/// The rack's step: action k, tried on a state. Guards are worked out exactly; sums and products wrap in sixteen bits.
///
/// Where `step` does not answer `RunsOff`, it answers and writes the same; so after the verdict safe the rack's values are the
/// exact ones, from every start state and along every list of actions.
///
/// ```
/// # use bulanevior::*;
/// // Takes 10 off, with no guard.
/// let logic = [0x100003E8, 0x40000000, 0x50000000, 0x60000001, 0x70000000, 0x2FFFFFF6, 0x30000001, 0xF0000000];
/// let mut state = [5];
/// assert_eq!(step(&logic, 0, &mut state), Ok(Step::RunsOff(0)));
/// assert_eq!(rack_step(&logic, 0, &mut state), Ok(Rack::Moved));
/// assert_eq!(state, [-5]);
/// ```
pub fn rack_step(words: &[u32], k: usize, state: &mut [i32]) -> Result<Rack, Refusal> {
    racked(raw::rack_step(words, k, state))
}

fn racked(s: raw::BnvStep) -> Result<Rack, Refusal> {
    match s.answer {
        raw::BNV_NOT_ENABLED => failing(s).map(Rack::NotEnabled),
        raw::BNV_STEP_REFUSED => Err(Refusal::of(s.refusal, s.value)),
        raw::BNV_MOVED => Ok(Rack::Moved),
        other => Err(Refusal::Mismatch(other)),
    }
}

/// Is lemma k of the list accepted?
///
/// ```
/// # use bulanevior::*;
/// # let logic = [0x100003E8, 0x40000000, 0x50000000, 0x60000011, 0x2FFFFFFB, 0x30000001, 0x70000000, 0x2FFFFFFB, 0x30000001, 0xF0000000];
/// # let lemmas = [0x90030000, 0x80000000, 0xA0000001, 0xA0000001, 0x90040000, 0x80000000, 0xA0000001, 0xA0000000];
/// assert_eq!(ask(&logic, &lemmas, 0), Ok(Ask::Accepted));
/// assert_eq!(ask(&logic, &lemmas, 2), Err(Refusal::Absent(2)));
/// ```
pub fn ask(words: &[u32], lemmas: &[u32], k: usize) -> Result<Ask, Refusal> {
    asked(raw::ask(words, lemmas, k))
}

fn asked(a: raw::BnvAsk) -> Result<Ask, Refusal> {
    match a.answer {
        raw::BNV_NOT_ACCEPTED => Ok(Ask::NotAccepted),
        raw::BNV_ASK_REFUSED => Err(Refusal::of(a.refusal, a.value)),
        raw::BNV_ACCEPTED => Ok(Ask::Accepted),
        other => Err(Refusal::Mismatch(other)),
    }
}

/// The graph into the first `GRAPH_WORDS` words of one list, the verdict, and the path to its node into the first `PATH_WORDS`
/// words of the other. The lists need that many words; further ones are left. A predicate whose row has no coefficient on any
/// variable that an action sets keeps its literal across that action without a lemma.
///
/// The path of a finding can't be beaten: no walk in the graph, from node 0 to any node with a finding, has fewer steps; and from any
/// start state nothing really goes wrong before as many actions have moved the show as the path has.
///
/// ```
/// # use bulanevior::*;
/// # let logic = [0x100003E8, 0x40000000, 0x50000000, 0x60000011, 0x2FFFFFFB, 0x30000001, 0x70000000, 0x2FFFFFFB, 0x30000001, 0xF0000000];
/// # let lemmas = [0x90030000, 0x80000000, 0xA0000001, 0xA0000001, 0x90040000, 0x80000000, 0xA0000001, 0xA0000000];
/// let (mut graph, mut path) = ([0; GRAPH_WORDS], [0; PATH_WORDS]);
/// let judged = judge(&logic, &lemmas, &mut graph, &mut path)?;
/// assert_eq!(judged.verdict, Verdict::Safe);
/// let judged = judge(&logic, &[], &mut graph, &mut path)?;
/// assert_eq!(judged.to_string(), "action 0 may take variable 0 below its low end at node 0");
/// assert_eq!(Presses(&path).to_string(), "actions: none");
/// # Ok::<(), Refusal>(())
/// ```
pub fn judge(
    words: &[u32],
    lemmas: &[u32],
    graph: &mut [u32],
    path: &mut [u32],
) -> Result<Judgement, Refusal> {
    judged(raw::judge(words, lemmas, graph, path))
}

fn judged(j: raw::BnvJudge) -> Result<Judgement, Refusal> {
    let verdict = match j.verdict {
        raw::BNV_MAY_FORBID => Verdict::MayForbid {
            node: j.node,
            combination: j.place,
        },
        raw::BNV_MAY_RUN_OFF => Verdict::MayRunOff {
            node: j.node,
            action: j.place,
            variable: j.variable,
            end: if j.high == 1 { End::High } else { End::Low },
        },
        raw::BNV_JUDGE_REFUSED => return Err(Refusal::of(j.refusal, j.value)),
        raw::BNV_SAFE => Verdict::Safe,
        other => return Err(Refusal::Mismatch(other)),
    };
    Ok(Judgement {
        verdict,
        nodes: j.nodes,
        edges: j.edges,
    })
}

/// The actions of a path list that `judge` has filled.
///
/// ```
/// use bulanevior::*;
/// assert!(actions(&[0xD0000002, 0xD0000000, 0, 0]).eq([2, 0]));
/// ```
pub fn actions(path: &[u32]) -> impl Iterator<Item = usize> + '_ {
    path.iter()
        .take_while(|&&w| kind(w) == raw::BNV_STEP)
        .map(|&w| payload(w) as usize)
}

/// All findings of one check, each once, in the order in which Judge looks for them, and their number. They go to the front of
/// the findings list, which `listed` reads; the words behind them become zero, to its end. The graph list is filled as by
/// `judge`. There are none exactly where Judge says safe, and so 0 promises what `Verdict::Safe` does; else the first is
/// Judge's own. With `MOST_FINDINGS` words the findings list is long enough; where it is too short it is left alone, and
/// `Refusal::Findings` says how many words it needs.
///
/// ```
/// use bulanevior::*;
/// // A level of 0 to 1,000, and an action that takes 10 off, with no guard and no lemma.
/// let logic = [0x100003E8, 0x40000000, 0x50000000, 0x60000001, 0x70000000, 0x2FFFFFF6, 0x30000001, 0xF0000000];
/// let (mut graph, mut list) = ([0; GRAPH_WORDS], [0; 8]);
/// assert_eq!(findings(&logic, &[], &mut graph, &mut list), Ok(2));
/// let run_off = |end| Finding::MayRunOff { node: 0, action: 0, variable: 0, end };
/// assert!(listed(&list).eq([run_off(End::Low), run_off(End::High)]));
/// assert_eq!(findings(&logic, &[], &mut graph, &mut list[..1]), Err(Refusal::Findings(2)));
/// ```
pub fn findings(
    words: &[u32],
    lemmas: &[u32],
    graph: &mut [u32],
    list: &mut [u32],
) -> Result<usize, Refusal> {
    found(raw::findings(words, lemmas, graph, list))
}

fn found(f: raw::BnvFindings) -> Result<usize, Refusal> {
    match f.answer {
        raw::BNV_FINDINGS_REFUSED => Err(Refusal::of(f.refusal, f.value)),
        raw::BNV_LISTED => Ok(f.count),
        other => Err(Refusal::Mismatch(other)),
    }
}

/// The findings of a list that `findings` has filled.
///
/// ```
/// # use bulanevior::*;
/// let list = [0xE0080800, 0, 0];
/// assert!(listed(&list).eq([Finding::MayForbid { node: 1, combination: 1 }]));
/// ```
pub fn listed(list: &[u32]) -> impl Iterator<Item = Finding> + '_ {
    list.iter().map_while(|&w| Finding::of(w))
}

/// The first words of a node's record in a graph list that `judge`, `show` or `findings` has filled: SETS, ORIGIN and DISTANCE.
/// None where the list has no such record, as behind the last node: the words there are zero.
///
/// ```
/// # use bulanevior::*;
/// // Two nodes of a logic with one action.
/// let graph = [0x80000001, 0xB0001FFF, 0, 0xC0000001, 0x80004000, 0xB0000000, 1, 0xCFFFFFFF];
/// assert_eq!(header(&graph, 1, 0), Some([0x80000001, 0xB0001FFF, 0]));
/// assert_eq!(known(&graph, 1, 1), Some((0, 1)));
/// assert_eq!(origin(&graph, 1, 1), Some((0, 0)));
/// assert_eq!(distance(&graph, 1, 1), Some(1));
/// assert_eq!(header(&graph, 1, 2), None);
/// ```
pub fn header(graph: &[u32], actions: usize, node: usize) -> Option<[u32; HEADER_WORDS]> {
    let place = node.checked_mul(HEADER_WORDS.checked_add(actions)?)?;
    let words = *graph.get(place..)?.first_chunk()?;
    let there = words.map(kind) == [raw::BNV_SETS, raw::BNV_ORIGIN, raw::BNV_DISTANCE];
    there.then_some(words)
}

/// What is known at a node, by its SETS word in such a list: the predicates that hold and those that fail, predicate p in bit p.
/// None where the list has no such record.
pub fn known(graph: &[u32], actions: usize, node: usize) -> Option<(u32, u32)> {
    let word = header(graph, actions, node)?[0];
    Some((word::sets_hold(word), word::sets_fail(word)))
}

/// Where a node was first found, by its ORIGIN word in such a list: its parent and the action. None for node 0, and where the
/// list has no such record.
pub fn origin(graph: &[u32], actions: usize, node: usize) -> Option<(usize, usize)> {
    word::origin(header(graph, actions, node)?[1])
}

/// How far a node is from node 0, by its DISTANCE word in such a list: the fewest actions that lead to it. None where the list has no
/// such record.
pub fn distance(graph: &[u32], actions: usize, node: usize) -> Option<usize> {
    Some(payload(header(graph, actions, node)?[2]) as usize)
}

/// Judges the bytes of a show file, little-endian words. Its words go to the front of the words list; further ones are left. The
/// other two lists are as those of `judge`.
///
/// ```
/// use bulanevior::*;
/// let (mut words, mut graph, mut path) = (vec![0; SHOW_WORDS], vec![0; GRAPH_WORDS], vec![0; PATH_WORDS]);
/// let cut = show(&[0xE8, 0x03, 0x00], &mut words, &mut graph, &mut path);
/// assert_eq!(cut, Err(NoShow::OddBytes));
/// ```
pub fn show<'a>(
    bytes: &[u8],
    words: &'a mut [u32],
    graph: &mut [u32],
    path: &mut [u32],
) -> Result<Show<'a>, NoShow> {
    let s = raw::show(bytes, words, graph, path);
    shown(s, words)
}

fn shown(s: raw::BnvShow, words: &[u32]) -> Result<Show<'_>, NoShow> {
    match s.answer {
        raw::BNV_TOO_LONG => Err(NoShow::TooLong),
        raw::BNV_ODD_BYTES => Err(NoShow::OddBytes),
        raw::BNV_WORDS_SHORT => Err(NoShow::WordsShort),
        raw::BNV_JUDGED => {
            let logic = words.get(..s.logic);
            let lemmas = words.get(s.logic..).and_then(|w| w.get(..s.lemmas));
            let (Some(logic), Some(lemmas)) = (logic, lemmas) else {
                return Err(NoShow::Mismatch(s.answer));
            };
            Ok(Show {
                logic,
                lemmas,
                answer: judged(s.judged),
            })
        }
        other => Err(NoShow::Mismatch(other)),
    }
}

/// A reading view over a graph list.
#[derive(Clone, Copy, Debug)]
pub struct View<'a> {
    graph: &'a [u32],
    nodes: usize,
    actions: usize,
}

impl<'a> View<'a> {
    /// The view of any list, with the verdict's count of nodes and the program's of actions.
    pub fn new(graph: &'a [u32], nodes: usize, actions: usize) -> View<'a> {
        View {
            graph,
            nodes,
            actions,
        }
    }

    /// The successor for a node and an action, if it has one.
    ///
    /// ```
    /// use bulanevior::*;
    /// let graph = [0x80000001, 0xB0001FFF, 0, 0xC0000001, 0x80004000, 0xB0000000, 1, 0xCFFFFFFF];
    /// let view = View::new(&graph, 2, 1);
    /// assert_eq!(view.successor(0, 0), Ok(Some(1)));
    /// assert_eq!(view.successor(1, 0), Ok(None));
    /// ```
    pub fn successor(&self, node: usize, action: usize) -> Result<Option<usize>, Refusal> {
        succeeded(raw::successor(
            self.graph,
            self.nodes,
            self.actions,
            node,
            action,
        ))
    }
}

fn succeeded(s: raw::BnvSuccessor) -> Result<Option<usize>, Refusal> {
    match s.answer {
        raw::BNV_NO_NODE => Ok(None),
        raw::BNV_SUCCESSOR_REFUSED => Err(Refusal::of(s.refusal, s.value)),
        raw::BNV_NODE => Ok(Some(s.node)),
        other => Err(Refusal::Mismatch(other)),
    }
}

#[cfg(test)]
mod fields;

#[cfg(test)]
mod tests;
