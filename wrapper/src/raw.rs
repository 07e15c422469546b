//! The functions of include/bulanevior.h over slices, with the same names, numbers and layouts of their answers. Fields
//! that an answer does not use are 0. No answer is 0, and a number that is not named here permits nothing. There is no
//! `Default`: a record comes from a call.

/// The version, as a number: major times 1,000,000, minor times 1,000, and patch.
pub const BNV_VERSION_NUMBER: u32 = 8001;

/// A node's distance from node 0; zeroed words have this kind too.
pub const BNV_DISTANCE: u32 = 0;
/// A variable's range.
pub const BNV_VAR: u32 = 1;
/// A row's constant.
pub const BNV_ROW: u32 = 2;
/// A variable's coefficient in a row.
pub const BNV_TERM: u32 = 3;
/// How many start rows follow.
pub const BNV_INIT: u32 = 4;
/// How many predicates follow.
pub const BNV_PRED: u32 = 5;
/// Guard rows and assignments of an action.
pub const BNV_ACTION: u32 = 6;
/// An assignment's variable.
pub const BNV_SET: u32 = 7;
/// Known-false and known-true predicates.
pub const BNV_SETS: u32 = 8;
/// A lemma's source, goal and index.
pub const BNV_LEMMA: u32 = 9;
/// A lemma's multiplier.
pub const BNV_MULT: u32 = 10;
/// Where a node was first found.
pub const BNV_ORIGIN: u32 = 11;
/// A node's successor.
pub const BNV_EDGE: u32 = 12;
/// An action of a path.
pub const BNV_STEP: u32 = 13;
/// A finding.
pub const BNV_FINDING: u32 = 14;
/// The end of the logic.
pub const BNV_END: u32 = 15;

/// The most variables of a logic.
pub const BNV_MOST_VARIABLES: u32 = 8;
/// The most start rows.
pub const BNV_MOST_START_ROWS: u32 = 8;
/// The most predicates.
pub const BNV_MOST_PREDICATES: u32 = 14;
/// The most guard rows of an action.
pub const BNV_MOST_GUARD_ROWS: u32 = 8;
/// The most assignments of an action.
pub const BNV_MOST_ASSIGNMENTS: u32 = 8;
/// The most forbidden combinations.
pub const BNV_MOST_FORBIDDEN: u32 = 8;
/// The most lemmas of a list.
pub const BNV_MOST_LEMMAS: u32 = 512;
/// The largest multiplier of a lemma.
pub const BNV_MOST_MULTIPLIER: u32 = 65535;
/// The lowest end of a range.
pub const BNV_LOWEST: i32 = -8192;
/// The highest end of a range.
pub const BNV_HIGHEST: i32 = 8191;
/// The least constant of a row.
pub const BNV_LEAST_CONSTANT: i32 = -1000000;
/// The largest constant of a row.
pub const BNV_MOST_CONSTANT: i32 = 1000000;
/// The least coefficient; none is 0.
pub const BNV_LEAST_COEFFICIENT: i32 = -1000;
/// The largest coefficient.
pub const BNV_MOST_COEFFICIENT: i32 = 1000;

/// The source of a lemma that is the start and no action.
pub const BNV_START: u32 = 255;
/// Goal: the source cannot happen.
pub const BNV_GOAL_NEVER: u32 = 0;
/// Goal: the predicate holds afterwards.
pub const BNV_GOAL_HOLDS: u32 = 1;
/// Goal: the predicate fails afterwards.
pub const BNV_GOAL_FAILS: u32 = 2;
/// Goal: the variable is not below its low end afterwards.
pub const BNV_GOAL_LOW: u32 = 3;
/// Goal: the variable is not above its high end afterwards.
pub const BNV_GOAL_HIGH: u32 = 4;

/// The most nodes of a graph.
pub const BNV_MOST_NODES: u32 = 512;
/// The most actions of a logic.
pub const BNV_MOST_ACTIONS: u32 = 16;
/// The words of a node's record before its EDGE words.
pub const BNV_HEADER_WORDS: u32 = 3;

/// The words that a graph list needs.
pub const BNV_GRAPH_WORDS: u32 = BNV_MOST_NODES * (BNV_HEADER_WORDS + BNV_MOST_ACTIONS);
/// The words that a path list needs.
pub const BNV_PATH_WORDS: u32 = 512;

/// A lent list is too short: 0 the graph list or a view's, 1 the path list.
pub const BNV_REFUSED_SHORT: u32 = 1;
/// A program word missing, of the wrong kind, after END, or with an unnamed bit: its index.
pub const BNV_REFUSED_WORD: u32 = 2;
/// One too many, or a count too high: the word's index.
pub const BNV_REFUSED_LIMIT: u32 = 3;
/// A program word with a value that is not allowed: its index.
pub const BNV_REFUSED_VALUE: u32 = 4;
/// A lemma word missing or against the rules: its index.
pub const BNV_REFUSED_LEMMA: u32 = 5;
/// A 513th lemma: its index.
pub const BNV_REFUSED_LEMMAS: u32 = 6;
/// A 513th node is needed: 512.
pub const BNV_REFUSED_NODES: u32 = 7;
/// No such action, lemma or node: its number.
pub const BNV_REFUSED_ABSENT: u32 = 8;
/// The state list's length is not the number of variables: that length.
pub const BNV_REFUSED_LENGTH: u32 = 9;
/// A state value off its range: the lowest such variable.
pub const BNV_REFUSED_STATE: u32 = 10;
/// A lemma's sum leaves signed 64 bits: the lowest such lemma.
pub const BNV_REFUSED_SUM: u32 = 11;
/// The findings list is too short: how many words it needs.
pub const BNV_REFUSED_FINDINGS: u32 = 12;

/// Check: a logic, with its counts.
pub const BNV_GOOD: u32 = 1;
/// Check: no logic.
pub const BNV_CHECK_REFUSED: u32 = 2;

/// What `check` answers.
#[repr(C)]
#[derive(Clone, Copy, Debug, PartialEq, Eq)]
pub struct BnvCheck {
    /// `BNV_GOOD` or `BNV_CHECK_REFUSED`.
    pub answer: u32,
    /// 0 if none.
    pub refusal: u32,
    /// The refusal's value.
    pub value: usize,
    /// How many variables.
    pub variables: usize,
    /// How many start rows.
    pub start_rows: usize,
    /// How many predicates.
    pub predicates: usize,
    /// How many actions.
    pub actions: usize,
    /// How many forbidden combinations.
    pub forbidden: usize,
}

/// What `action_part` answers: where the action's words begin in the list, and how many there are.
#[repr(C)]
#[derive(Clone, Copy, Debug, PartialEq, Eq)]
pub struct BnvPart {
    /// The index of the first word.
    pub start: usize,
    /// How many words; 0 for no part.
    pub length: usize,
}

/// Step: a guard row fails.
pub const BNV_NOT_ENABLED: u32 = 1;
/// Step: a variable would run off its range.
pub const BNV_RUNS_OFF: u32 = 2;
/// Step: refused.
pub const BNV_STEP_REFUSED: u32 = 3;
/// Step: the new values have been written.
pub const BNV_MOVED: u32 = 4;

/// What `step` and `rack_step` answer.
#[repr(C)]
#[derive(Clone, Copy, Debug, PartialEq, Eq)]
pub struct BnvStep {
    /// `BNV_NOT_ENABLED`, `BNV_RUNS_OFF`, `BNV_STEP_REFUSED` or `BNV_MOVED`.
    pub answer: u32,
    /// Not enabled: the first guard row that fails.
    pub row: u32,
    /// Runs off: the lowest variable whose new value is off its range.
    pub variable: usize,
    /// The refusal's number; 0 if none.
    pub refusal: u32,
    /// Not enabled: that row's value, below 0.
    pub row_value: i32,
    /// The refusal's value.
    pub value: usize,
}

/// Ask: the lemma is not accepted.
pub const BNV_NOT_ACCEPTED: u32 = 1;
/// Ask: refused.
pub const BNV_ASK_REFUSED: u32 = 2;
/// Ask: the lemma is accepted.
pub const BNV_ACCEPTED: u32 = 3;

/// What `ask` answers.
#[repr(C)]
#[derive(Clone, Copy, Debug, PartialEq, Eq)]
pub struct BnvAsk {
    /// `BNV_NOT_ACCEPTED`, `BNV_ASK_REFUSED` or `BNV_ACCEPTED`.
    pub answer: u32,
    /// The refusal's number; 0 if none.
    pub refusal: u32,
    /// The refusal's value.
    pub value: usize,
}

/// Judge: a forbidden combination may be met.
pub const BNV_MAY_FORBID: u32 = 1;
/// Judge: a variable may run off its range.
pub const BNV_MAY_RUN_OFF: u32 = 2;
/// Judge: refused.
pub const BNV_JUDGE_REFUSED: u32 = 3;
/// Judge: safe.
pub const BNV_SAFE: u32 = 4;

/// What `judge` answers.
#[repr(C)]
#[derive(Clone, Copy, Debug, PartialEq, Eq)]
pub struct BnvJudge {
    /// `BNV_MAY_FORBID`, `BNV_MAY_RUN_OFF`, `BNV_JUDGE_REFUSED` or `BNV_SAFE`.
    pub verdict: u32,
    /// A finding's node.
    pub node: usize,
    /// The combination, or the action.
    pub place: usize,
    /// A run-off's variable.
    pub variable: usize,
    /// 1 for the high end.
    pub high: u32,
    /// How many nodes the graph has.
    pub nodes: usize,
    /// How many EDGE words name a successor.
    pub edges: usize,
    /// The refusal's number; 0 if none.
    pub refusal: u32,
    /// The refusal's value.
    pub value: usize,
}

/// The most bytes of a show.
pub const BNV_SHOW_BYTES: u32 = 65536;
/// The words that `show` needs in its words list.
pub const BNV_SHOW_WORDS: u32 = 16384;

/// Show: more than `BNV_SHOW_BYTES` bytes.
pub const BNV_TOO_LONG: u32 = 1;
/// Show: a number of bytes that is no multiple of 4.
pub const BNV_ODD_BYTES: u32 = 2;
/// Show: the words list is too short.
pub const BNV_WORDS_SHORT: u32 = 3;
/// Show: Judge's answer is there.
pub const BNV_JUDGED: u32 = 4;

/// What `show` answers.
#[repr(C)]
#[derive(Clone, Copy, Debug, PartialEq, Eq)]
pub struct BnvShow {
    /// `BNV_TOO_LONG`, `BNV_ODD_BYTES`, `BNV_WORDS_SHORT` or `BNV_JUDGED`.
    pub answer: u32,
    /// Words of the logic, at the front of the words list.
    pub logic: usize,
    /// Words of the lemmas, behind the logic.
    pub lemmas: usize,
    /// Judge's answer; all 0 where it was not asked.
    pub judged: BnvJudge,
}

/// The most findings of a graph.
pub const BNV_MOST_FINDINGS: u32 = BNV_MOST_NODES * (8 + BNV_MOST_ACTIONS * 16);

/// Findings: refused.
pub const BNV_FINDINGS_REFUSED: u32 = 1;
/// Findings: all are in the list.
pub const BNV_LISTED: u32 = 2;

/// What `findings` answers.
#[repr(C)]
#[derive(Clone, Copy, Debug, PartialEq, Eq)]
pub struct BnvFindings {
    /// `BNV_FINDINGS_REFUSED` or `BNV_LISTED`.
    pub answer: u32,
    /// The refusal's number; 0 if none.
    pub refusal: u32,
    /// The refusal's value.
    pub value: usize,
    /// How many findings there are.
    pub count: usize,
}

/// Successor: there is none.
pub const BNV_NO_NODE: u32 = 1;
/// Successor: refused.
pub const BNV_SUCCESSOR_REFUSED: u32 = 2;
/// Successor: a node.
pub const BNV_NODE: u32 = 3;

/// What `successor` answers.
#[repr(C)]
#[derive(Clone, Copy, Debug, PartialEq, Eq)]
pub struct BnvSuccessor {
    /// `BNV_NO_NODE`, `BNV_SUCCESSOR_REFUSED` or `BNV_NODE`.
    pub answer: u32,
    /// The successor's number.
    pub node: usize,
    /// The refusal's number; 0 if none.
    pub refusal: u32,
    /// The refusal's value.
    pub value: usize,
}

// A slice crosses as two arguments, pointer and length. Declared as `&[u32]` it would cross as one value of two words,
// which lies elsewhere once the registers are used up, as they are in bnv_judge.
extern "C" {
    fn bnv_version() -> u32;

    fn bnv_check(words: *const u32, words_length: usize) -> BnvCheck;

    fn bnv_action_part(words: *const u32, words_length: usize, k: usize) -> BnvPart;

    fn bnv_step(
        words: *const u32,
        words_length: usize,
        k: usize,
        state: *mut i32,
        state_length: usize,
    ) -> BnvStep;

    fn bnv_rack_step(
        words: *const u32,
        words_length: usize,
        k: usize,
        state: *mut i32,
        state_length: usize,
    ) -> BnvStep;

    fn bnv_ask(
        words: *const u32,
        words_length: usize,
        lemmas: *const u32,
        lemmas_length: usize,
        k: usize,
    ) -> BnvAsk;

    fn bnv_judge(
        words: *const u32,
        words_length: usize,
        lemmas: *const u32,
        lemmas_length: usize,
        graph: *mut u32,
        graph_length: usize,
        path: *mut u32,
        path_length: usize,
    ) -> BnvJudge;

    fn bnv_show(
        bytes: *const u8,
        bytes_length: usize,
        words: *mut u32,
        words_length: usize,
        graph: *mut u32,
        graph_length: usize,
        path: *mut u32,
        path_length: usize,
    ) -> BnvShow;

    fn bnv_findings(
        words: *const u32,
        words_length: usize,
        lemmas: *const u32,
        lemmas_length: usize,
        graph: *mut u32,
        graph_length: usize,
        findings: *mut u32,
        findings_length: usize,
    ) -> BnvFindings;

    fn bnv_successor(
        graph: *const u32,
        graph_length: usize,
        nodes: usize,
        actions: usize,
        node: usize,
        action: usize,
    ) -> BnvSuccessor;
}

// Each call asks nothing of its lists and numbers but what a slice keeps, and keeps nothing itself: so each is safe.

/// The library's version, as a number.
pub fn version() -> u32 {
    unsafe { bnv_version() }
}

/// Is the list a program, and what are its counts?
pub fn check(words: &[u32]) -> BnvCheck {
    unsafe { bnv_check(words.as_ptr(), words.len()) }
}

/// Where the words of action k stand in the list.
pub fn action_part(words: &[u32], k: usize) -> BnvPart {
    unsafe { bnv_action_part(words.as_ptr(), words.len(), k) }
}

/// Action k, tried on a state.
pub fn step(words: &[u32], k: usize, state: &mut [i32]) -> BnvStep {
    let (s, n) = (state.as_mut_ptr(), state.len());
    unsafe { bnv_step(words.as_ptr(), words.len(), k, s, n) }
}

/// What a rack of sixteen bits does with action k.
pub fn rack_step(words: &[u32], k: usize, state: &mut [i32]) -> BnvStep {
    let (s, n) = (state.as_mut_ptr(), state.len());
    unsafe { bnv_rack_step(words.as_ptr(), words.len(), k, s, n) }
}

/// Is lemma k accepted?
pub fn ask(words: &[u32], lemmas: &[u32], k: usize) -> BnvAsk {
    let (l, n) = (lemmas.as_ptr(), lemmas.len());
    unsafe { bnv_ask(words.as_ptr(), words.len(), l, n, k) }
}

/// The graph, the path and the verdict.
pub fn judge(words: &[u32], lemmas: &[u32], graph: &mut [u32], path: &mut [u32]) -> BnvJudge {
    let (w, l) = (words.as_ptr(), lemmas.as_ptr());
    let (g, gn) = (graph.as_mut_ptr(), graph.len());
    let (p, pn) = (path.as_mut_ptr(), path.len());
    unsafe { bnv_judge(w, words.len(), l, lemmas.len(), g, gn, p, pn) }
}

/// The bytes of a show file, judged.
pub fn show(bytes: &[u8], words: &mut [u32], graph: &mut [u32], path: &mut [u32]) -> BnvShow {
    let (w, wn) = (words.as_mut_ptr(), words.len());
    let (g, gn) = (graph.as_mut_ptr(), graph.len());
    let (p, pn) = (path.as_mut_ptr(), path.len());
    unsafe { bnv_show(bytes.as_ptr(), bytes.len(), w, wn, g, gn, p, pn) }
}

/// All findings of one check.
pub fn findings(
    words: &[u32],
    lemmas: &[u32],
    graph: &mut [u32],
    findings: &mut [u32],
) -> BnvFindings {
    let (w, l) = (words.as_ptr(), lemmas.as_ptr());
    let (g, gn) = (graph.as_mut_ptr(), graph.len());
    let (f, n) = (findings.as_mut_ptr(), findings.len());
    unsafe { bnv_findings(w, words.len(), l, lemmas.len(), g, gn, f, n) }
}

/// What a graph list says of a node and an action.
pub fn successor(
    graph: &[u32],
    nodes: usize,
    actions: usize,
    node: usize,
    action: usize,
) -> BnvSuccessor {
    unsafe { bnv_successor(graph.as_ptr(), graph.len(), nodes, actions, node, action) }
}
