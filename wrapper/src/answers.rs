//! What the calls answer, and why they refuse.
use crate::{raw, word, MOST_NODES};

/// Why a call refuses, with the value that is returned with the refusal. A refusal leaves every lent list, but for `Nodes`,
/// which zeroes the first `GRAPH_WORDS` words of the graph list, for `Findings`, which comes with the graph in it, and for the
/// words list of `show`, which has the show's words.
#[derive(Clone, Copy, Debug, PartialEq, Eq)]
pub enum Refusal {
    /// A lent list is too short: 0 the graph list or a view's, 1 the path list.
    Short(usize),
    /// A program word missing, of the wrong kind, after END, or with an unnamed bit; a view meets no EDGE. The word's index.
    Word(usize),
    /// One too many, or a count too high: the word's index. A view of over `MOST_NODES` nodes or `MOST_ACTIONS` actions: 0.
    Limit(usize),
    /// A program word with a value that is not allowed: its index.
    Value(usize),
    /// A lemma word missing or against the rules: its index.
    Lemma(usize),
    /// A 513th lemma: its index.
    Lemmas(usize),
    /// A 513th node is needed.
    Nodes,
    /// No such action, lemma or node: its number.
    Absent(usize),
    /// The state's length is not the number of variables: that length.
    Length(usize),
    /// A state value off its range: the lowest such variable.
    State(usize),
    /// A lemma's sum leaves signed 64 bits: the lowest such lemma.
    Sum(usize),
    /// The findings list is too short: how many words it needs.
    Findings(usize),
    /// No refusal of the library: its answer, or its refusal, has a number that is none, or it answers not enabled and names
    /// no guard row that fails. The number is given here. The library is of another version than this crate. There is no
    /// verdict; say it loudly.
    Mismatch(u32),
}

impl Refusal {
    pub(crate) fn of(number: u32, value: usize) -> Refusal {
        match number {
            raw::BNV_REFUSED_SHORT => Refusal::Short(value),
            raw::BNV_REFUSED_WORD => Refusal::Word(value),
            raw::BNV_REFUSED_LIMIT => Refusal::Limit(value),
            raw::BNV_REFUSED_VALUE => Refusal::Value(value),
            raw::BNV_REFUSED_LEMMA => Refusal::Lemma(value),
            raw::BNV_REFUSED_LEMMAS => Refusal::Lemmas(value),
            raw::BNV_REFUSED_NODES => Refusal::Nodes,
            raw::BNV_REFUSED_ABSENT => Refusal::Absent(value),
            raw::BNV_REFUSED_LENGTH => Refusal::Length(value),
            raw::BNV_REFUSED_STATE => Refusal::State(value),
            raw::BNV_REFUSED_SUM => Refusal::Sum(value),
            raw::BNV_REFUSED_FINDINGS => Refusal::Findings(value),
            other => Refusal::Mismatch(other),
        }
    }

    /// The number in the table of refusals; of `Mismatch`, which is in no table, `u32::MAX`. Never 0.
    pub fn number(self) -> u32 {
        match self {
            Refusal::Short(_) => raw::BNV_REFUSED_SHORT,
            Refusal::Word(_) => raw::BNV_REFUSED_WORD,
            Refusal::Limit(_) => raw::BNV_REFUSED_LIMIT,
            Refusal::Value(_) => raw::BNV_REFUSED_VALUE,
            Refusal::Lemma(_) => raw::BNV_REFUSED_LEMMA,
            Refusal::Lemmas(_) => raw::BNV_REFUSED_LEMMAS,
            Refusal::Nodes => raw::BNV_REFUSED_NODES,
            Refusal::Absent(_) => raw::BNV_REFUSED_ABSENT,
            Refusal::Length(_) => raw::BNV_REFUSED_LENGTH,
            Refusal::State(_) => raw::BNV_REFUSED_STATE,
            Refusal::Sum(_) => raw::BNV_REFUSED_SUM,
            Refusal::Findings(_) => raw::BNV_REFUSED_FINDINGS,
            Refusal::Mismatch(_) => u32::MAX,
        }
    }

    /// What it is about, without a number.
    pub fn text(self) -> &'static str {
        match self {
            Refusal::Short(_) => "a lent list is too short",
            Refusal::Word(_) => "a word of the logic is missing, of the wrong kind, after the end, or has a stray bit",
            Refusal::Limit(_) => "a word of the logic is one too many of its kind, or counts too many",
            Refusal::Value(_) => "a word of the logic has a number that is not allowed",
            Refusal::Lemma(_) => "a word of the lemmas is missing or against the rules",
            Refusal::Lemmas(_) => "there are more than 512 lemmas",
            Refusal::Nodes => "the picture of this show needs more than 512 nodes",
            Refusal::Absent(_) => "there is no such action, lemma or node",
            Refusal::Length(_) => "the state does not have one value for each variable",
            Refusal::State(_) => "a value of the state is off its range",
            Refusal::Sum(_) => "the sum of a lemma does not fit 64 bits",
            Refusal::Findings(_) => "the findings list is too short",
            Refusal::Mismatch(_) => "the library is of another version",
        }
    }

    /// The value that is returned with it; of `Mismatch` the number that it gives.
    pub fn value(self) -> usize {
        match self {
            Refusal::Nodes => MOST_NODES,
            Refusal::Mismatch(n) => n as usize,
            Refusal::Short(n)
            | Refusal::Word(n)
            | Refusal::Limit(n)
            | Refusal::Value(n)
            | Refusal::Lemma(n)
            | Refusal::Lemmas(n)
            | Refusal::Absent(n)
            | Refusal::Length(n)
            | Refusal::State(n)
            | Refusal::Sum(n)
            | Refusal::Findings(n) => n,
        }
    }
}

/// Why there is nothing to judge. Every lent list is as it was.
#[derive(Clone, Copy, Debug, PartialEq, Eq)]
pub enum NoShow {
    /// More than `SHOW_BYTES` bytes.
    TooLong,
    /// A number of bytes that is no multiple of 4: the file was cut.
    OddBytes,
    /// The words list has fewer than `SHOW_WORDS` words.
    WordsShort,
    /// A number that is no answer, as `Refusal::Mismatch`.
    Mismatch(u32),
}

/// The five counts of a program.
#[derive(Clone, Copy, Debug, PartialEq, Eq)]
pub struct Counts {
    /// How many variables it has.
    pub variables: usize,
    /// How many start rows.
    pub start_rows: usize,
    /// How many predicates.
    pub predicates: usize,
    /// How many actions.
    pub actions: usize,
    /// How many forbidden combinations.
    pub forbidden: usize,
}

/// How near an action was that is not enabled: the first of its guard rows that fails, counted from 0, and the row's value at
/// the state, which is below 0.
#[derive(Clone, Copy, Debug, PartialEq, Eq)]
pub struct Failing {
    /// The guard row, counted from 0.
    pub row: usize,
    /// What it is worth, below 0.
    pub value: i32,
}

/// What an action does to a state.
#[derive(Clone, Copy, Debug, PartialEq, Eq)]
pub enum Step {
    /// The new values have been written.
    Moved,
    /// How near it was.
    NotEnabled(Failing),
    /// The lowest variable whose new value is off its range.
    RunsOff(usize),
}

/// What a rack, which holds each variable in sixteen bits, does with an action.
#[derive(Clone, Copy, Debug, PartialEq, Eq)]
pub enum Rack {
    /// What the rack stores has been written: the new values modulo 65,536, in two's complement. They may be off their ranges.
    Moved,
    /// How near it was.
    NotEnabled(Failing),
}

/// Whether a lemma is accepted.
#[derive(Clone, Copy, Debug, PartialEq, Eq)]
pub enum Ask {
    /// The lemma is true of all whole numbers in the ranges.
    Accepted,
    /// Its numbers do not show it.
    NotAccepted,
}

/// An end of a range.
#[derive(Clone, Copy, Debug, PartialEq, Eq)]
pub enum End {
    /// The low end.
    Low,
    /// The high end.
    High,
}

/// What Judge says of a logic with its lemmas.
#[derive(Clone, Copy, Debug, PartialEq, Eq)]
pub enum Verdict {
    /// No list of actions, however long, tried from any start state, meets a forbidden state or runs a variable off its range.
    Safe,
    /// A forbidden combination may be met.
    MayForbid {
        /// The node of the graph.
        node: usize,
        /// The combination that no literal of the node contradicts.
        combination: usize,
    },
    /// A variable may run off its range.
    MayRunOff {
        /// The node of the graph.
        node: usize,
        /// The action that may do it there.
        action: usize,
        /// The variable.
        variable: usize,
        /// The end of its range.
        end: End,
    },
}

impl Verdict {
    /// The finding that it is, if it is one.
    pub fn finding(self) -> Option<Finding> {
        match self {
            Verdict::Safe => None,
            Verdict::MayForbid { node, combination } => {
                Some(Finding::MayForbid { node, combination })
            }
            Verdict::MayRunOff {
                node,
                action,
                variable,
                end,
            } => Some(Finding::MayRunOff {
                node,
                action,
                variable,
                end,
            }),
        }
    }
}

/// A verdict, and the counts of the graph's nodes and edges.
#[derive(Clone, Copy, Debug, PartialEq, Eq)]
pub struct Judgement {
    /// The verdict.
    pub verdict: Verdict,
    /// How many nodes the graph has.
    pub nodes: usize,
    /// How many EDGE words name a successor.
    pub edges: usize,
}

/// A node with a forbidden combination that it may meet, or with an action that may run a variable off an end of its range.
#[derive(Clone, Copy, Debug, PartialEq, Eq)]
pub enum Finding {
    /// A forbidden combination may be met.
    MayForbid {
        /// The node of the graph.
        node: usize,
        /// The combination that no literal of the node contradicts.
        combination: usize,
    },
    /// A variable may run off its range.
    MayRunOff {
        /// The node of the graph.
        node: usize,
        /// The action that may do it there.
        action: usize,
        /// The variable.
        variable: usize,
        /// The end of its range.
        end: End,
    },
}

impl Finding {
    /// The finding that a word is.
    ///
    /// ```
    /// use bulanevior::Finding;
    /// assert_eq!(Finding::of(0xE008_0800), Some(Finding::MayForbid { node: 1, combination: 1 }));
    /// assert_eq!(Finding::of(0xE008_0801), None);
    /// ```
    ///
    /// Node in bits 27 to 19, bit 18 set for a run-off, action in 17 to 14, combination or variable
    /// in 13 to 11, bit 0 set for the high end. None if the word is of another kind or has another bit.
    pub fn of(word: u32) -> Option<Finding> {
        let bits = |high: u32, low: u32| (word >> low & ((2 << (high - low)) - 1)) as usize;
        if word::kind(word) != raw::BNV_FINDING || bits(10, 1) != 0 {
            return None;
        }
        let (node, action, place) = (bits(27, 19), bits(17, 14), bits(13, 11));
        if bits(18, 18) == 1 {
            return Some(Finding::MayRunOff {
                node,
                action,
                variable: place,
                end: if bits(0, 0) == 1 { End::High } else { End::Low },
            });
        }
        let none = action == 0 && bits(0, 0) == 0;
        none.then_some(Finding::MayForbid {
            node,
            combination: place,
        })
    }

    /// Its node.
    pub fn node(self) -> usize {
        match self {
            Finding::MayForbid { node, .. } | Finding::MayRunOff { node, .. } => node,
        }
    }
}

/// A show, as its bytes were read: the lists for `check`, `action_part`, `step`, `rack_step` and `ask`, and Judge's answer.
#[derive(Clone, Copy, Debug, PartialEq, Eq)]
pub struct Show<'a> {
    /// The words up to the first of kind 15 and with it; without one, all words.
    pub logic: &'a [u32],
    /// The words behind it.
    pub lemmas: &'a [u32],
    /// Judge's answer.
    pub answer: Result<Judgement, Refusal>,
}

impl Show<'_> {
    /// May the show be loaded?
    pub fn is_safe(&self) -> bool {
        self.answer.is_ok_and(|j| j.verdict == Verdict::Safe)
    }
}
