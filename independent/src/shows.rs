//! Makes the test records. Where an answer can be worked out by hand from the document, the case
//! carries it (`hand`), and a unit test compares.

use crate::program::{Literals, Program};
use crate::records::{Record, ASK, FINDINGS, JUDGE};
use crate::words::*;
use crate::Refusal;

#[derive(Clone, Debug)]
pub struct Case {
    pub name: String,
    pub record: Record,
    /// The answer worked out by hand: the line up to ` GRAPH`.
    pub hand: Option<String>,
}

// ---------------------------------------------------------------------------------------------
// Writing programs and lemmas

/// Constant and terms (variable, coefficient).
pub type RowText = (i32, Vec<(u32, i32)>);

#[derive(Clone, Debug, Default)]
pub struct ActionText {
    pub guards: Vec<RowText>,
    pub sets: Vec<(u32, RowText)>,
}

#[derive(Clone, Debug, Default)]
pub struct Text {
    pub vars: Vec<(i32, i32)>,
    pub init: Vec<RowText>,
    pub pred: Vec<RowText>,
    pub actions: Vec<ActionText>,
    /// (known-false mask, known-true mask)
    pub bad: Vec<(u32, u32)>,
}

pub fn row(constant: i32, terms: &[(u32, i32)]) -> RowText {
    (constant, terms.to_vec())
}

/// A row that never holds: with it among a source's rows any lemma of that source is accepted.
pub fn never() -> RowText {
    (-1, vec![])
}

pub fn act(guards: &[RowText], sets: &[(u32, RowText)]) -> ActionText {
    ActionText { guards: guards.to_vec(), sets: sets.to_vec() }
}

/// The assignment of a variable to itself: what speaks of the variable is touched all the same.
pub fn itself(variable: u32) -> (u32, RowText) {
    (variable, row(0, &[(variable, 1)]))
}

pub fn var_word(low: i32, high: i32) -> u32 {
    make(VAR, ((low as u32 & 0x3FFF) << 14) | (high as u32 & 0x3FFF))
}

pub fn row_word(constant: i32) -> u32 {
    make(ROW, constant as u32)
}

pub fn term_word(variable: u32, coefficient: i32) -> u32 {
    make(TERM, (variable << 24) | (coefficient as u32 & 0xFFFF))
}

pub fn sets_word(f: u32, t: u32) -> u32 {
    make(SETS, (f << 14) | t)
}

pub fn lemma_word(source: u32, goal: u32, index: u32) -> u32 {
    make(LEMMA, (source << 20) | (goal << 16) | index)
}

fn put_row(words: &mut Vec<u32>, row: &RowText) {
    words.push(row_word(row.0));
    words.extend(row.1.iter().map(|(v, c)| term_word(*v, *c)));
}

impl Text {
    pub fn words(&self) -> Vec<u32> {
        let mut words: Vec<u32> = self.vars.iter().map(|(l, h)| var_word(*l, *h)).collect();
        words.push(make(INIT, self.init.len() as u32));
        self.init.iter().for_each(|r| put_row(&mut words, r));
        words.push(make(PRED, self.pred.len() as u32));
        self.pred.iter().for_each(|r| put_row(&mut words, r));
        for action in &self.actions {
            words.push(make(ACTION, ((action.guards.len() as u32) << 4) | action.sets.len() as u32));
            action.guards.iter().for_each(|r| put_row(&mut words, r));
            for (variable, r) in &action.sets {
                words.push(make(SET, *variable));
                put_row(&mut words, r);
            }
        }
        words.extend(self.bad.iter().map(|(f, t)| sets_word(*f, *t)));
        words.push(make(END, 0));
        words
    }

    fn source_rows(&self, source: u32) -> usize {
        if source == START {
            self.init.len()
        } else {
            self.actions[source as usize].guards.len()
        }
    }

    /// How many MULT words a lemma needs.
    pub fn due(&self, source: u32, goal: u32, f: u32, t: u32) -> usize {
        usize::from(goal != 0) + (f | t).count_ones() as usize + self.source_rows(source)
    }

    /// A lemma with all multipliers 0 but the last, which is 1: accepted if the source's last row
    /// is `never`.
    pub fn forced(&self, source: u32, goal: u32, index: u32, f: u32, t: u32) -> Vec<u32> {
        let mut multipliers = vec![0; self.due(source, goal, f, t)];
        *multipliers.last_mut().unwrap() = 1;
        lemma(source, goal, index, f, t, &multipliers)
    }

    /// Lemmas for both ends of each variable that an action sets, by the negated goal alone:
    /// accepted if the assigned row stays on the range by itself.
    pub fn ends(&self, action: u32) -> Vec<u32> {
        let one = |goal: u32, variable: u32| {
            let mut multipliers = vec![0; self.due(action, goal, 0, 0)];
            multipliers[0] = 1;
            lemma(action, goal, variable, 0, 0, &multipliers)
        };
        let sets = &self.actions[action as usize].sets;
        sets.iter().flat_map(|(v, _)| [one(3, *v), one(4, *v)].concat()).collect()
    }

    /// The same for all actions.
    pub fn all_ends(&self) -> Vec<u32> {
        (0..self.actions.len() as u32).flat_map(|action| self.ends(action)).collect()
    }
}

pub fn lemma(source: u32, goal: u32, index: u32, f: u32, t: u32, multipliers: &[u32]) -> Vec<u32> {
    let mut words = vec![lemma_word(source, goal, index), sets_word(f, t)];
    words.extend(multipliers.iter().map(|m| make(MULT, *m)));
    words
}

/// Splits a lemma list into lemmas, for lists whose lemmas each begin with the only kind 9 words.
pub fn split_lemmas(words: &[u32]) -> Vec<Vec<u32>> {
    let mut all: Vec<Vec<u32>> = Vec::new();
    for word in words {
        if kind(*word) == LEMMA {
            all.push(Vec::new());
        }
        all.last_mut().expect("a lemma list begins with LEMMA").push(*word);
    }
    all
}

fn without(lemmas: &[Vec<u32>], dropped: usize) -> Vec<u32> {
    let kept = lemmas.iter().enumerate().filter(|(i, _)| *i != dropped);
    kept.flat_map(|(_, l)| l.iter().copied()).collect()
}

/// All lemmas but those that begin with one of these LEMMA words.
pub fn leave_out(lemmas: &[Vec<u32>], words: &[u32]) -> Vec<u32> {
    lemmas.iter().filter(|l| !words.contains(&l[0])).flatten().copied().collect()
}

fn of_bytes(bytes: &[u8]) -> (Vec<u32>, Vec<u32>) {
    let words: Vec<u32> =
        bytes.chunks_exact(4).map(|b| u32::from_le_bytes([b[0], b[1], b[2], b[3]])).collect();
    let end = words.iter().position(|w| kind(*w) == END).map_or(words.len(), |p| p + 1);
    (words[..end].to_vec(), words[end..].to_vec())
}

/// The shows in shows/: "the first word of kind 15 ends the logic".
pub fn show(name: &str) -> (Vec<u32>, Vec<u32>) {
    of_bytes(match name {
        "fade" => include_bytes!("../../shows/fade.words"),
        "house" => include_bytes!("../../shows/house.words"),
        "bakery" => include_bytes!("../../shows/bakery.words"),
        "rig8" => include_bytes!("../../shows/rig8.words"),
        _ => panic!("no such show"),
    })
}

// ---------------------------------------------------------------------------------------------
// The worked shows, typed from the document

pub const FADE: [u32; 16] = [
    0x100003E8, 0x40000000, 0x50000000, 0x60000011, 0x2FFFFFFB, 0x30000001, 0x70000000, 0x2FFFFFFB,
    0x30000001, 0x60000011, 0x200003E3, 0x3000FFFF, 0x70000000, 0x20000005, 0x30000001, 0xF0000000,
];

pub const FADE_LEMMAS: [u32; 16] = [
    0x90030000, 0x80000000, 0xA0000001, 0xA0000001, 0x90040000, 0x80000000, 0xA0000001, 0xA0000000,
    0x90130000, 0x80000000, 0xA0000001, 0xA0000000, 0x90140000, 0x80000000, 0xA0000001, 0xA0000001,
];

/// "**House**: level 0..1000, house 0..1, both 0 at the start. P0 level at least 1, P1 house at
/// least 1. Actions: 0 if level is 0, house 1; 1 if house is 0, level 500; 2 level 0; 3 house 0.
/// Forbidden 80000003."
pub fn house() -> Text {
    Text {
        vars: vec![(0, 1000), (0, 1)],
        init: vec![row(0, &[(0, -1)]), row(0, &[(1, -1)])],
        pred: vec![row(-1, &[(0, 1)]), row(-1, &[(1, 1)])],
        actions: vec![
            act(&[row(0, &[(0, -1)])], &[(1, row(1, &[]))]),
            act(&[row(0, &[(1, -1)])], &[(0, row(500, &[]))]),
            act(&[], &[(0, row(0, &[]))]),
            act(&[], &[(1, row(0, &[]))]),
        ],
        bad: vec![(0, 3)],
    }
}

/// Lemmas for House, worked out by hand; each has its largest value as a remark.
pub fn house_lemmas() -> Vec<Vec<u32>> {
    vec![
        lemma(START, 2, 0, 0, 0, &[1, 1, 0]), // x-1 + -x = -1
        lemma(START, 2, 1, 0, 0, &[1, 0, 1]), // h-1 + -h = -1
        lemma(0, 0, 0, 0, 1, &[1, 1]),        // x-1 + -x = -1
        lemma(0, 2, 0, 0, 0, &[1, 1]),        // x-1 + -x = -1
        lemma(0, 1, 1, 0, 0, &[1, 0]),        // -(1-1)-1 = -1
        lemma(0, 3, 1, 0, 0, &[1, 0]),        // 0-1-1 = -2
        lemma(0, 4, 1, 0, 0, &[1, 0]),        // 1-1-1 = -1
        lemma(1, 0, 0, 0, 2, &[1, 1]),        // h-1 + -h = -1
        lemma(1, 1, 0, 0, 0, &[1, 0]),        // -(500-1)-1 = -500
        lemma(1, 2, 1, 0, 0, &[1, 1]),        // h-1 + -h = -1
        lemma(1, 3, 0, 0, 0, &[1, 0]),        // 0-500-1 = -501
        lemma(1, 4, 0, 0, 0, &[1, 0]),        // 500-1000-1 = -501
        lemma(2, 2, 0, 0, 0, &[1]),           // 0-1 = -1
        lemma(2, 1, 1, 0, 2, &[1, 1]),        // -h + h-1 = -1
        lemma(2, 2, 1, 2, 0, &[1, 1]),        // h-1 + -h = -1
        lemma(2, 3, 0, 0, 0, &[1]),           // 0-0-1 = -1
        lemma(2, 4, 0, 0, 0, &[1]),           // 0-1000-1 = -1001
        lemma(3, 1, 0, 0, 1, &[1, 1]),        // -x + x-1 = -1
        lemma(3, 2, 0, 1, 0, &[1, 1]),        // x-1 + -x = -1
        lemma(3, 2, 1, 0, 0, &[1]),           // 0-1 = -1
        lemma(3, 3, 1, 0, 0, &[1]),           // 0-0-1 = -1
        lemma(3, 4, 1, 0, 0, &[1]),           // 0-1-1 = -2
    ]
}

/// The place of "action 0 failing P0" in a list of House lemmas.
pub fn house_failing(lemmas: &[Vec<u32>]) -> usize {
    lemmas.iter().position(|l| l[0] == lemma_word(0, 2, 0)).unwrap()
}

/// What (e) leaves out, and the start's lemma that P0 fails: then there is no literal to keep.
pub const HOUSE_P0_UNKNOWN: [u32; 2] = [0x9FF20000, 0x90020000];

/// Both lemmas of action 0 on P0: that it cannot happen where P0 holds, and that P0 fails afterwards.
pub const HOUSE_P0_KEPT: [u32; 2] = [0x90000000, 0x90020000];

/// A small program with every part, for faults.
pub fn demo() -> Text {
    Text {
        vars: vec![(0, 10), (-5, 5)],
        init: vec![row(0, &[(0, -1)])],
        pred: vec![row(-1, &[(0, 1)]), row(-1, &[(0, 1), (1, 1)])],
        actions: vec![
            act(&[row(5, &[(0, -1)]), row(0, &[(1, 1)])], &[(0, row(5, &[(0, 1)]))]),
            act(&[], &[(0, row(5, &[(1, 1)])), (1, row(-5, &[(0, 1)]))]),
            act(&[never()], &[]),
        ],
        bad: vec![(0, 3), (1, 2)],
    }
}

/// Two lemmas for demo: 7 words and 3 words.
pub fn demo_lemmas() -> Vec<u32> {
    let mut words = lemma(0, 1, 0, 2, 1, &[1, 0, 0, 0, 0]); // -(x+5-1)-1 = -x-5, at most -5
    words.extend(lemma(1, 3, 1, 0, 0, &[1])); // -5-(x-5)-1 = -x-1, at most -1
    words
}

// ---------------------------------------------------------------------------------------------
// The book of cases

/// The least lengths of the lent lists.
const GRAPH: u32 = GRAPH_WORDS as u32;
const PATH: u32 = PATH_WORDS as u32;

#[derive(Default)]
struct Book {
    cases: Vec<Case>,
}

impl Book {
    fn judge_with(&mut self, name: &str, p: &[u32], l: &[u32], graph: u32, path: u32, hand: &str) {
        let record = Record { call: JUDGE, k: 0, program: p.to_vec(), lemmas: l.to_vec(), graph, path };
        self.put(name, record, hand);
    }

    fn judge(&mut self, name: &str, p: &[u32], l: &[u32], hand: &str) {
        self.judge_with(name, p, l, GRAPH, PATH, hand);
    }

    fn ask(&mut self, name: &str, p: &[u32], l: &[u32], k: u32, hand: &str) {
        let record =
            Record { call: ASK, k, program: p.to_vec(), lemmas: l.to_vec(), graph: 0, path: 0 };
        self.put(name, record, hand);
    }

    /// The findings list is of this length.
    fn findings_with(&mut self, name: &str, p: &[u32], l: &[u32], graph: u32, list: u32, hand: &str) {
        let (program, lemmas) = (p.to_vec(), l.to_vec());
        let record = Record { call: FINDINGS, k: 0, program, lemmas, graph, path: list };
        self.put(&format!("findings: {name}"), record, hand);
    }

    fn findings(&mut self, name: &str, p: &[u32], l: &[u32], list: u32, hand: &str) {
        self.findings_with(name, p, l, GRAPH, list, hand);
    }

    /// A fault through Judge or through Ask 0, in turn.
    fn fault(&mut self, name: &str, p: &[u32], l: &[u32], hand: &str) {
        if self.cases.len() % 2 == 0 {
            self.judge(&format!("{name}, judge"), p, l, hand);
        } else {
            self.ask(&format!("{name}, ask"), p, l, 0, hand);
        }
    }

    /// The same fault through Judge and through Ask 0.
    fn both(&mut self, name: &str, p: &[u32], l: &[u32], hand: &str) {
        self.judge(&format!("{name}, judge"), p, l, hand);
        self.ask(&format!("{name}, ask"), p, l, 0, hand);
    }

    fn put(&mut self, name: &str, record: Record, hand: &str) {
        let hand = if hand.is_empty() { None } else { Some(hand.to_string()) };
        self.cases.push(Case { name: name.to_string(), record, hand });
    }
}

fn refused(number: u32, value: usize) -> String {
    format!("REFUSED {number} AT {value}")
}

pub fn cases() -> Vec<Case> {
    let mut book = Book::default();
    worked(&mut book);
    show_files(&mut book);
    short_lists(&mut book);
    program_faults(&mut book);
    lemma_faults(&mut book);
    orders(&mut book);
    many_lemmas(&mut book);
    asks(&mut book);
    limits(&mut book);
    graphs(&mut book);
    verdicts(&mut book);
    request_1(&mut book);
    random(&mut book);
    request_6(&mut book);
    request_2(&mut book);
    request_6_findings(&mut book);
    request_7(&mut book);
    book.cases
}

/// The worked table (a) to (h), Fade and House.
fn worked(book: &mut Book) {
    let fade = FADE.to_vec();
    let list = split_lemmas(&FADE_LEMMAS);
    book.judge("fade (a)", &fade, &FADE_LEMMAS, "SAFE nodes 1 edges 2");
    book.judge_with("fade (a), longer lists", &fade, &FADE_LEMMAS, GRAPH + 84, PATH + 88, "SAFE nodes 1 edges 2");
    let finding = |a: u32, end: &str| format!("RUNOFF node 0 action {a} variable 0 {end} nodes 1 edges 2");
    book.judge("fade (b), without lemma 0", &fade, &without(&list, 0), &finding(0, "low"));
    book.judge("fade without lemma 1", &fade, &without(&list, 1), &finding(0, "high"));
    book.judge("fade without lemma 2", &fade, &without(&list, 2), &finding(1, "low"));
    book.judge("fade without lemma 3", &fade, &without(&list, 3), &finding(1, "high"));
    book.judge("fade with no lemmas", &fade, &[], &finding(0, "low"));
    for k in 0..4 {
        if k % 3 == 0 {
            book.ask(&format!("fade, ask {k}"), &fade, &FADE_LEMMAS, k, "ACCEPTED");
        }
        let mut zero = FADE_LEMMAS.to_vec();
        zero[4 * k as usize + 2] = make(MULT, 0);
        zero[4 * k as usize + 3] = make(MULT, 0);
        book.ask(&format!("fade (c), lemma {k} all 0"), &fade, &zero, k, "NOT ACCEPTED");
        let end = if k % 2 == 0 { "low" } else { "high" };
        book.judge(&format!("fade (c), lemma {k} all 0, judge"), &fade, &zero, &finding(k / 2, end));
    }
    book.ask("fade, ask one past the last", &fade, &FADE_LEMMAS, 4, "REFUSED 8 AT 4");
    book.ask("fade, ask far past", &fade, &FADE_LEMMAS, u32::MAX, "REFUSED 8 AT 4294967295");
    book.ask("fade, ask of no lemmas", &fade, &[], 0, "REFUSED 8 AT 0");
    // The lemmas in another order, and each twice: the same graph and verdict.
    let reversed: Vec<u32> = list.iter().rev().flatten().copied().collect();
    book.judge("fade, lemmas reversed", &fade, &reversed, "SAFE nodes 1 edges 2");
    let twice = [FADE_LEMMAS, FADE_LEMMAS].concat();
    book.judge("fade, lemmas twice", &fade, &twice, "SAFE nodes 1 edges 2");

    let home = house().words();
    let list = house_lemmas();
    let full: Vec<u32> = list.concat();
    book.judge("house, own full lemmas", &home, &full, "SAFE nodes 3 edges 10");
    book.judge_with("house, own full lemmas, longer", &home, &full, 10000, PATH + 1, "SAFE nodes 3 edges 10");
    book.judge("house (d), no lemmas", &home, &[], "FORBID node 0 bad 0 nodes 1 edges 4");
    // (e) with request 1: "the three nodes and ten edges of House with full lemmas, and is safe".
    // Action 0 sets house alone, so node 0's literal not P0 is kept.
    let e_line = "SAFE nodes 3 edges 10";
    let e = without(&list, house_failing(&list));
    book.judge("house (e), own lemmas", &home, &e, e_line);
    let (file_home, file_lemmas) = show("house");
    let file_list = split_lemmas(&file_lemmas);
    let e = without(&file_list, house_failing(&file_list));
    book.judge("house (e), the show's lemmas", &file_home, &e, e_line);
    house_paths(book);
    for (dropped, hand) in house_dropped() {
        book.judge(&format!("house without own lemma {dropped}"), &home, &without(&list, dropped), hand);
    }
    for k in 0..list.len() as u32 {
        if k % 7 == 0 {
            book.ask(&format!("house, ask {k}"), &home, &full, k, "ACCEPTED");
        }
    }
    book.ask("house, ask one past the last", &home, &full, 22, "REFUSED 8 AT 22");

    book.both("(f) empty program", &[], &[], "REFUSED 2 AT 0");
    let mut p = FADE.to_vec();
    p[0] = var_word(1000, 1000);
    book.judge("(g) low equal to high", &p, &[], &finding(0, "low"));
    p[0] = var_word(1001, 1000);
    book.fault("(g) low one above high", &p, &[], "REFUSED 4 AT 0");
    let mut p = FADE.to_vec();
    p[5] = term_word(0, 1000);
    book.judge("(h) coefficient 1000", &p, &[], &finding(0, "low"));
    p[5] = term_word(0, 1001);
    book.fault("(h) coefficient 1001", &p, &[], "REFUSED 4 AT 5");
    p[5] = term_word(0, -1000);
    book.judge("(h) coefficient -1000", &p, &[], &finding(0, "low"));
    p[5] = term_word(0, -1001);
    book.judge("(h) coefficient -1001", &p, &[], "REFUSED 4 AT 5");
}

/// House with a finding behind node 0. It takes the place of what (e) was before request 1.
fn house_paths(book: &mut Book) {
    let home = house().words();
    // Node 0 {not P1} goes by 0 to 1 {P1}, by 1 to 2 {P0, not P1}, by 2 to 3 {not P0, not P1} (not P1
    // is kept), by 3 to 0; 1 to 1, none, 4 {not P0, P1}, 0; 2 to none, 2, 3, 2; 3 to 4, 2, 3, 3; 4 to
    // 4, none, 4, 3. Node 1 does not contradict 80000003. Path 0.
    let line = "FORBID node 1 bad 0 nodes 5 edges 17";
    let l = leave_out(&house_lemmas(), &HOUSE_P0_UNKNOWN);
    book.judge("house (e), P0 unknown at the start, own lemmas", &home, &l, line);
    book.judge_with("house (e), P0 unknown at the start, longer", &home, &l, GRAPH + 9, PATH + 2, line);
    let l = leave_out(&split_lemmas(&show("house").1), &HOUSE_P0_UNKNOWN);
    book.judge("house (e), P0 unknown at the start, the show's lemmas", &home, &l, line);
    // Nodes 0 to 2 are those of the full lemmas; 2 {P0, not P1} goes by 0 to 3 {P0, P1}, P0 being
    // kept. 0 to 1, 2, 0, 0; 1 to 1, none, 1, 0; 2 to 3, 2, 0, 2; 3 to 3, none, 1, 2. Path 1 0.
    let line = "FORBID node 3 bad 0 nodes 4 edges 14";
    let l = leave_out(&house_lemmas(), &HOUSE_P0_KEPT);
    book.judge("house without action 0's lemmas on P0", &home, &l, line);
}

/// House without one of its own lemmas. The graph of the full lemmas (3 nodes, 10 edges) stays
/// without a lemma of a range end, and without one for a literal that is kept. Without lemma 2 or 7
/// the literal kept (P0 at node 2, P1 at node 1) meets the opposite, shown by lemma 3 or 9: no
/// successor, as with goal 0.
fn house_dropped() -> Vec<(usize, &'static str)> {
    let full = "SAFE nodes 3 edges 10";
    vec![
        // 0 {not P0} to 1 {not P0, P1}, 2 {P0, not P1}, 0, 3 {not P0, not P1}; 1 to 1, none, 1, 3; 2
        // to none, 2, 3, 2; 3 to 1, 2, 3, 3.
        (1, "SAFE nodes 4 edges 14"),
        (2, full),
        // 0 to 1 {not P0}, 2, 0, 0; 1 to 1, 2, 1, 0; 2 to none, 2, 0, 2.
        (4, "SAFE nodes 3 edges 11"),
        (5, "RUNOFF node 0 action 0 variable 1 low nodes 3 edges 10"),
        (7, full),
        // 0 to 1, 2 {not P1}, 0, 0; 1 to 1, none, 1, 0; 2 to 1, 2, 0, 2.
        (8, "SAFE nodes 3 edges 11"),
        (10, "RUNOFF node 0 action 1 variable 0 low nodes 3 edges 10"),
        (11, "RUNOFF node 0 action 1 variable 0 high nodes 3 edges 10"),
        (13, full),
        (14, full),
        (16, "RUNOFF node 0 action 2 variable 0 high nodes 3 edges 10"),
        (17, full),
        // 0 to 1, 2, 0, 3 {not P0}; 1 to 1, none, 1, 3; 2 to none, 2, 0, 4 {P0}; 3 to 1, 2, 3, 3; 4 to
        // none, 2, 3, 4. Path 1 3.
        (19, "FORBID node 4 bad 0 nodes 5 edges 17"),
        (20, "RUNOFF node 0 action 3 variable 1 low nodes 3 edges 10"),
    ]
}

/// The shows of shows/ that came with the document. Request 1 leaves their graphs as they were: in
/// house and rig8 each literal kept is also shown by a lemma; in bakery all nodes have all literals,
/// and each edge is walked by a state, so that nothing kept meets its opposite (tests look at both).
fn show_files(book: &mut Book) {
    for (name, line) in [
        ("fade", "SAFE nodes 1 edges 2"),
        ("house", "SAFE nodes 3 edges 10"),
        ("bakery", "SAFE nodes 9 edges 14"),
        ("rig8", "SAFE nodes 500 edges 5600"),
    ] {
        let (p, l) = show(name);
        for (graph, path) in [(GRAPH, PATH), (GRAPH + 1, PATH + 1), (12000, 1000)] {
            if graph == GRAPH + 1 && name != "rig8" {
                continue;
            }
            book.judge_with(&format!("show {name} {graph}/{path}"), &p, &l, graph, path, line);
        }
        book.judge_with(&format!("show {name} {}/{PATH}", GRAPH - 1), &p, &l, GRAPH - 1, PATH, "REFUSED 1 AT 0");
        if name != "rig8" {
            book.judge(&format!("show {name}, no lemmas"), &p, &[], "");
            book.judge_with(&format!("show {name} {GRAPH}/{}", PATH - 1), &p, &l, GRAPH, PATH - 1, "REFUSED 1 AT 1");
            book.judge_with(&format!("show {name} 0/0"), &p, &l, 0, 0, "REFUSED 1 AT 0");
        }
        let list = split_lemmas(&l);
        let last = list.len() as u32 - 1;
        book.ask(&format!("show {name}, ask first"), &p, &l, 0, "ACCEPTED");
        book.ask(&format!("show {name}, ask last"), &p, &l, last, "");
        book.ask(&format!("show {name}, ask past"), &p, &l, last + 1, &refused(8, list.len()));
    }
    let (p, l) = show("bakery");
    let list = split_lemmas(&l);
    for dropped in [0, 9, 17, 34, 47, 58, 69, 99, 103, 113] {
        book.judge(&format!("bakery without lemma {dropped}"), &p, &without(&list, dropped), "");
    }
    let (p, l) = show("rig8");
    let list = split_lemmas(&l);
    // 14 and 270 say that actions 0 and 11 keep not P2 and not P4, which they don't touch.
    for (dropped, hand) in [(0, ""), (11, ""), (14, "SAFE nodes 500 edges 5600"), (270, "SAFE nodes 500 edges 5600"), (277, "")] {
        book.judge(&format!("rig8 without lemma {dropped}"), &p, &without(&list, dropped), hand);
    }
    // The logic with the lemmas of another show.
    book.both("rig8 logic, bakery lemmas", &p, &show("bakery").1, "");
    book.fault("house logic, fade lemmas", &house().words(), &FADE_LEMMAS, "REFUSED 5 AT 0");
}

/// "1 graph, 1 path" before everything else.
fn short_lists(book: &mut Book) {
    let fade = FADE.to_vec();
    let bad_lemma = vec![make(MULT, 0)];
    let many = fade_many(513);
    let (wide, wide_lemmas) = subsets(10, 10);
    let faults: [(&str, &[u32], &[u32]); 5] = [
        ("good", &fade, &FADE_LEMMAS),
        ("empty program", &[], &FADE_LEMMAS),
        ("bad lemma", &fade, &bad_lemma),
        ("513 lemmas", &fade, &many),
        ("513 nodes", &wide, &wide_lemmas),
    ];
    for (number, (name, p, l)) in faults.into_iter().enumerate() {
        for (graph, path, line) in [
            (GRAPH - 1, PATH, "REFUSED 1 AT 0"),
            (GRAPH, PATH - 1, "REFUSED 1 AT 1"),
            (GRAPH - 1, PATH - 1, "REFUSED 1 AT 0"),
            (0, 0, "REFUSED 1 AT 0"),
            (0, PATH, "REFUSED 1 AT 0"),
            (GRAPH, 0, "REFUSED 1 AT 1"),
            (1, 1, "REFUSED 1 AT 0"),
            (GRAPH + 84, PATH - 1, "REFUSED 1 AT 1"),
            (GRAPH - 1, PATH + 88, "REFUSED 1 AT 0"),
        ] {
            // All lengths with the good show, most with the bad lemma, two with each other fault.
            if number == 0 || number == 2 && path > 1 || (graph, path) == (GRAPH - 1, PATH) || (graph, path) == (GRAPH, PATH - 1) {
                book.judge_with(&format!("short {graph}/{path}, {name}"), p, l, graph, path, line);
            }
        }
    }
}

/// Refusals 2, 3 and 4.
fn program_faults(book: &mut Book) {
    let good = demo().words();
    book.judge("demo, no lemmas", &good, &[], "FORBID node 0 bad 0 nodes 1 edges 3");
    book.judge("demo, two lemmas", &good, &demo_lemmas(), "");
    for cut in (0..good.len()).filter(|c| c % 2 == 0) {
        let hand = refused(2, cut);
        if cut % 3 > 0 {
            book.judge(&format!("demo cut to {cut}"), &good[..cut], &[], &hand);
        } else {
            book.ask(&format!("demo cut to {cut}"), &good[..cut], &[], 0, &hand);
        }
    }
    // Words replaced by one of a kind that is wrong everywhere.
    for at in (1..good.len()).step_by(4) {
        let mut p = good.clone();
        p[at] = make([0, 9, 10, 11, 12, 13, 14][at % 7], p[at]);
        book.judge(&format!("demo, word {at} of wrong kind"), &p, &[], &refused(2, at));
    }
    // Positions in demo: 0,1 VAR; 2 INIT 3 ROW 4 TERM; 5 PRED 6 ROW 7 TERM 8 ROW 9 TERM 10 TERM;
    // 11 ACTION 12 ROW 13 TERM 14 ROW 15 TERM 16 SET 17 ROW 18 TERM; 19 ACTION 20 SET 21 ROW
    // 22 TERM 23 SET 24 ROW 25 TERM; 26 ACTION 27 ROW; 28 SETS 29 SETS; 30 END.
    for (name, at, word, number) in [
        ("INIT for VAR", 0, make(INIT, 0), 2),
        ("END first", 0, make(END, 0), 2),
        ("low above high", 1, var_word(6, 5), 4),
        ("PRED for INIT", 2, make(PRED, 1), 2),
        ("INIT 9", 2, make(INIT, 9), 3),
        ("INIT with the highest bit", 2, make(INIT, 0x800_0000), 3),
        ("INIT one too many", 2, make(INIT, 2), 0),
        ("INIT one too few", 2, make(INIT, 0), 0),
        ("constant 1,000,001", 3, row_word(1_000_001), 4),
        ("constant -1,000,001", 3, row_word(-1_000_001), 4),
        ("constant lowest of 28 bits", 3, make(ROW, 0x800_0000), 4),
        ("TERM bit 16", 4, term_word(0, -1) | 1 << 16, 2),
        ("TERM bit 23", 4, term_word(0, -1) | 1 << 23, 2),
        ("coefficient 0", 4, term_word(0, 0), 4),
        ("coefficient -32768", 4, term_word(0, -32768), 4),
        ("variable 2 of 2", 4, term_word(2, 1), 4),
        ("variable 15", 4, term_word(15, 1), 4),
        ("PRED 15", 5, make(PRED, 15), 3),
        ("INIT for PRED", 5, make(INIT, 2), 2),
        ("VAR after INIT", 5, var_word(0, 1), 2),
        ("TERM for ROW", 6, term_word(0, 1), 2),
        ("equal variables", 10, term_word(0, 1), 4),
        ("falling variables", 9, term_word(1, 1), 0),
        ("ACTION bit 8", 11, make(ACTION, 0x121), 2),
        ("ACTION bit 8 and 9 guards", 11, make(ACTION, 0x191), 2),
        ("ACTION 9 guards", 11, make(ACTION, 0x91), 3),
        ("ACTION 9 assignments", 11, make(ACTION, 0x29), 3),
        ("ACTION 15, 15", 11, make(ACTION, 0xFF), 3),
        ("ACTION 8 guards, rows missing", 11, make(ACTION, 0x81), 0),
        ("ACTION 3 assignments, SET due", 11, make(ACTION, 0x23), 0),
        ("SETS where an action may begin", 11, sets_word(0, 3), 0),
        ("SET for a guard ROW", 14, make(SET, 0), 2),
        ("SET variable 2 of 2", 16, make(SET, 2), 4),
        ("SET variable 16", 16, make(SET, 16), 4),
        ("SET not rising", 23, make(SET, 0), 4),
        ("ROW for SET", 16, row_word(0), 2),
        ("ROW too many", 19, row_word(0), 2),
        ("SETS unknown true predicate", 28, sets_word(0, 4), 4),
        ("SETS unknown false predicate", 28, sets_word(4, 0), 4),
        ("SETS highest bits", 29, sets_word(0x2000, 0x2000), 4),
        ("SETS in both", 29, sets_word(1, 1), 4),
        ("ACTION after SETS", 29, make(ACTION, 0), 2),
        ("SET after SETS", 29, make(SET, 0), 2),
        ("END with payload 1", 30, make(END, 1), 2),
        ("END early", 19, make(END, 0), 0),
    ] {
        let mut p = good.clone();
        p[at] = word;
        let hand = if number == 0 { String::new() } else { refused(number, at) };
        if number == 0 || at % 2 == 1 {
            book.judge(&format!("demo, {name}"), &p, &[], &hand);
        } else {
            book.ask(&format!("demo, {name}"), &p, &demo_lemmas(), 0, &hand);
        }
    }
    for extra in [make(END, 0), make(LEMMA, 0), make(SETS, 0), 0] {
        let mut p = good.clone();
        p.push(extra);
        book.judge(&format!("demo, {extra:08X} after END"), &p, &[], "REFUSED 2 AT 31");
    }
    let mut p = good.clone();
    p[30] = make(END, 5);
    p.push(0);
    book.judge("demo, END with payload and a word after it", &p, &[], "REFUSED 2 AT 30");

    // One too many.
    let plain = |vars: usize| Text { vars: vec![(0, 1); vars], ..Text::default() };
    book.judge("8 VAR", &plain(8).words(), &[], "SAFE nodes 1 edges 0");
    book.judge("9 VAR", &plain(9).words(), &[], "REFUSED 3 AT 8");
    let mut p = plain(9).words();
    p[8] = var_word(1, 0);
    book.judge("ninth VAR with low above high", &p, &[], "REFUSED 3 AT 8");
    p[3] = var_word(1, 0);
    book.judge("9 VAR, the fourth low above high", &p, &[], "REFUSED 4 AT 3");
    let mut t = plain(1);
    t.actions = vec![ActionText::default(); 16];
    book.judge("16 ACTION", &t.words(), &[], "SAFE nodes 1 edges 16");
    t.actions.push(ActionText::default());
    book.judge("17 ACTION", &t.words(), &[], "REFUSED 3 AT 19");
    let mut p = t.words();
    p[19] = make(ACTION, 0x100);
    book.judge("17th ACTION with an unnamed bit", &p, &[], "REFUSED 2 AT 19");
    p[19] = make(ACTION, 0x99);
    book.judge("17th ACTION with counts too high", &p, &[], "REFUSED 3 AT 19");
    let mut t = plain(1);
    t.actions = vec![ActionText::default(); 16];
    t.bad = vec![(0, 0)];
    let mut p = t.words();
    p.insert(20, make(ACTION, 0));
    book.judge("ACTION after SETS as the 17th", &p, &[], "REFUSED 2 AT 20");
    let mut t = plain(1);
    t.pred = vec![row(0, &[])];
    t.bad = vec![(0, 1); 8];
    book.judge("8 SETS", &t.words(), &[], "FORBID node 0 bad 0 nodes 1 edges 0");
    t.bad.push((0, 1));
    book.judge("9 SETS", &t.words(), &[], "REFUSED 3 AT 12");
    t.bad[8] = (2, 2);
    book.judge("ninth SETS with unknown predicate in both", &t.words(), &[], "REFUSED 3 AT 12");
    t.bad[7] = (2, 2);
    book.judge("eighth SETS with unknown predicate", &t.words(), &[], "REFUSED 4 AT 11");
    let mut t = plain(8);
    t.init = vec![row(0, &(0..8).map(|v| (v, 1)).collect::<Vec<_>>())];
    let mut p = t.words();
    book.judge("8 TERM", &p, &[], "SAFE nodes 1 edges 0");
    p.insert(18, term_word(7, 1));
    book.judge("ninth TERM", &p, &[], "REFUSED 4 AT 18");
    let mut t = plain(1);
    t.init = vec![row(1_000_000, &[]), row(-1_000_000, &[])];
    book.judge("constants at their limits", &t.words(), &[], "SAFE nodes 1 edges 0");
    t.vars = vec![(-8192, 8191), (-8192, -8192), (8191, 8191)];
    book.judge("ends at their limits", &t.words(), &[], "SAFE nodes 1 edges 0");
    let mut t = plain(1);
    t.pred = vec![row(0, &[]); 14];
    t.bad = vec![(0x1555, 0x2AAA)];
    book.judge("14 predicates", &t.words(), &[], "FORBID node 0 bad 0 nodes 1 edges 0");
    t.pred.push(row(0, &[]));
    book.judge("15 predicates", &t.words(), &[], "REFUSED 3 AT 2");
    let mut t = plain(1);
    t.pred = vec![];
    t.bad = vec![(0, 1)];
    book.judge("SETS with no predicates at all", &t.words(), &[], "REFUSED 4 AT 3");
    t.bad = vec![(0, 0)];
    book.judge("empty combination, no predicates", &t.words(), &[], "FORBID node 0 bad 0 nodes 1 edges 0");
    // Two assignments claimed in a program of one variable.
    let mut t = plain(1);
    t.actions = vec![act(&[], &[(0, row(0, &[])), (1, row(0, &[]))])];
    book.judge("second SET of one variable", &t.words(), &[], "REFUSED 4 AT 6");
}

/// Refusal 5 at every word of a list of two lemmas.
fn lemma_faults(book: &mut Book) {
    let p = demo().words();
    let good = demo_lemmas();
    book.ask("demo lemmas, ask 0", &p, &good, 0, "ACCEPTED");
    book.ask("demo lemmas, ask 1", &p, &good, 1, "ACCEPTED");
    book.ask("demo lemmas, ask 2", &p, &good, 2, "REFUSED 8 AT 2");
    for cut in 0..good.len() {
        let whole = cut == 0 || cut == 7;
        let judged = if whole { String::new() } else { refused(5, cut) };
        if whole || cut % 2 == 0 {
            book.judge(&format!("demo lemmas cut to {cut}"), &p, &good[..cut], &judged);
        }
        if !whole && cut % 2 == 0 {
            continue;
        }
        let asked = match cut {
            0 => refused(8, 0),
            7 => "ACCEPTED".to_string(),
            _ => refused(5, cut),
        };
        book.ask(&format!("demo lemmas cut to {cut}, ask"), &p, &good[..cut], 0, &asked);
    }
    // Another kind at each word.
    for at in 0..good.len() {
        for other in [0, 8, 9, 10, 15] {
            if other == kind(good[at]) || (at + other as usize) % 3 > 0 && other != 9 {
                continue;
            }
            let mut l = good.clone();
            l[at] = make(other, good[at]);
            if other % 2 == 0 {
                book.judge(&format!("demo lemmas, word {at} kind {other}"), &p, &l, &refused(5, at));
            } else {
                book.ask(&format!("demo lemmas, word {at} kind {other}"), &p, &l, 0, &refused(5, at));
            }
        }
    }
    // What a LEMMA word may not say; at the first lemma and at the second.
    let words: Vec<(&str, u32)> = vec![
        ("source 3 of 3", lemma_word(3, 0, 0)),
        ("source 16", lemma_word(16, 0, 0)),
        ("source 254", lemma_word(254, 0, 0)),
        ("source 254 goal 1", lemma_word(254, 1, 0)),
        ("goal 5", lemma_word(0, 5, 0)),
        ("goal 15", lemma_word(0, 15, 0)),
        ("goal 0 index 1", lemma_word(0, 0, 1)),
        ("goal 0 index 255", lemma_word(START, 0, 255)),
        ("goal 1 predicate 2 of 2", lemma_word(0, 1, 2)),
        ("goal 2 predicate 2 of 2", lemma_word(0, 2, 2)),
        ("goal 1 predicate 255", lemma_word(0, 1, 255)),
        ("goal 3 of the start", lemma_word(START, 3, 0)),
        ("goal 4 of the start", lemma_word(START, 4, 1)),
        ("goal 3 of a variable not set", lemma_word(0, 3, 1)),
        ("goal 4 of a variable not set", lemma_word(0, 4, 1)),
        ("goal 3 of an action that sets none", lemma_word(2, 3, 0)),
        ("goal 3 of an unknown variable", lemma_word(1, 3, 2)),
        ("goal 4 of variable 255", lemma_word(1, 4, 255)),
        ("bit 8", lemma_word(0, 1, 0x100)),
        ("bit 15", lemma_word(0, 1, 0x8000)),
    ];
    for (number, (name, word)) in words.iter().enumerate() {
        for at in [0, 7] {
            // In turn at the first lemma and at the second.
            if (number + at) % 2 == 0 {
                continue;
            }
            let mut l = good.clone();
            l[at] = *word;
            if number % 4 < 2 {
                book.judge(&format!("lemma word {at}, {name}"), &p, &l, &refused(5, at));
            } else {
                book.ask(&format!("lemma word {at}, {name}"), &p, &l, 0, &refused(5, at));
            }
        }
    }
    // A bad LEMMA word that is the whole list: the word is seen before the missing one.
    book.fault("bad LEMMA word alone", &p, &[lemma_word(254, 0, 0)], "REFUSED 5 AT 0");
    book.fault("good LEMMA word alone", &p, &[lemma_word(0, 0, 0)], "REFUSED 5 AT 1");
    // SETS.
    for (name, at, word) in [
        ("unknown true premise", 1, sets_word(0, 4)),
        ("unknown false premise", 1, sets_word(4, 0)),
        ("premise 13", 1, sets_word(0, 0x2000)),
        ("premise in both", 1, sets_word(1, 1)),
        ("premise in both, second lemma", 8, sets_word(2, 2)),
        ("unknown premise, second lemma", 8, sets_word(0x2000, 0)),
    ] {
        let mut l = good.clone();
        l[at] = word;
        book.fault(&format!("lemma SETS, {name}"), &p, &l, &refused(5, at));
    }
    // MULT.
    for at in [2, 3, 4, 5, 6, 9] {
        for (name, value) in [("65,536", 65_536), ("bit 27", 0x800_0000)] {
            if at % 2 == 0 && value != 65_536 {
                continue;
            }
            let mut l = good.clone();
            l[at] = make(MULT, value);
            if at % 2 == 0 {
                book.judge(&format!("MULT {at} {name}"), &p, &l, &refused(5, at));
            } else {
                book.ask(&format!("MULT {at} {name}"), &p, &l, 1, &refused(5, at));
            }
        }
        let mut l = good.clone();
        l[at] = make(MULT, 65_535);
        if at % 4 > 0 {
            book.ask(&format!("MULT {at} 65,535"), &p, &l, u32::from(at == 9), "");
        }
        let mut l = good.clone();
        l.remove(at);
        let hand = if at == 9 { refused(5, 9) } else { refused(5, 6) };
        book.judge(&format!("MULT {at} missing"), &p, &l, &hand);
    }
    let mut l = good.clone();
    l.insert(7, make(MULT, 0));
    book.fault("MULT too many after the first lemma", &p, &l, "REFUSED 5 AT 7");
    let mut l = good.clone();
    l.push(make(MULT, 1));
    book.both("MULT too many at the end", &p, &l, "REFUSED 5 AT 10");
    let mut l = good.clone();
    l.push(make(END, 0));
    book.fault("END after the lemmas", &p, &l, "REFUSED 5 AT 10");
    let l = lemma(0, 0, 0, 0, 0, &[1, 1, 1]);
    book.fault("goal 0 with a MULT for a goal", &p, &l, "REFUSED 5 AT 4");
    let l = lemma(1, 1, 0, 0, 0, &[]);
    book.fault("goal 1 with no MULT for the goal", &p, &l, "REFUSED 5 AT 2");
    let l = lemma(START, 0, 0, 0, 1, &[1, 1]);
    book.both("start with a true premise", &p, &l, "REFUSED 5 AT 1");
    let l = lemma(START, 1, 0, 2, 0, &[1, 1, 1]);
    book.fault("start with a false premise", &p, &l, "REFUSED 5 AT 1");
    // "A lemma may have no MULT at all": well formed, not accepted.
    let l = lemma(1, 0, 0, 0, 0, &[]);
    book.ask("no MULT at all", &p, &l, 0, "NOT ACCEPTED");
    book.ask("no MULT at all, twice", &p, &[l.clone(), l].concat(), 1, "NOT ACCEPTED");
    let t = Text { vars: vec![(0, 0)], actions: vec![ActionText::default()], ..Text::default() };
    let l = lemma(START, 0, 0, 0, 0, &[]);
    book.judge("no MULT at all, start", &t.words(), &l, "SAFE nodes 1 edges 1");
    book.fault("goal 1 with no predicates", &t.words(), &lemma(0, 1, 0, 0, 0, &[0]), "REFUSED 5 AT 0");
    book.fault("premise with no predicates", &t.words(), &lemma(0, 0, 0, 0, 1, &[0]), "REFUSED 5 AT 1");
    let t = Text { vars: vec![(0, 0)], ..Text::default() };
    book.fault("source 0 with no actions", &t.words(), &lemma(0, 0, 0, 0, 0, &[]), "REFUSED 5 AT 0");
    // 16 actions: 15 is the last source, 16 and 253 are none.
    let t = Text { vars: vec![(0, 0)], actions: vec![act(&[never()], &[]); 16], ..Text::default() };
    book.ask("source 15 of 16", &t.words(), &t.forced(15, 0, 0, 0, 0), 0, "ACCEPTED");
    let l = lemma(16, 0, 0, 0, 0, &[1]);
    book.ask("source 16 of 16", &t.words(), &l, 0, "REFUSED 5 AT 0");
    let l = lemma(253, 0, 0, 0, 0, &[1]);
    book.ask("source 253 of 16", &t.words(), &l, 0, "REFUSED 5 AT 0");
}

/// A Fade lemma list of this many lemmas (4 words each), the four in turn.
fn fade_many(count: usize) -> Vec<u32> {
    FADE_LEMMAS.iter().copied().cycle().take(4 * count).collect()
}

/// Faults in the order of the calls.
fn orders(book: &mut Book) {
    let good = demo().words();
    let lemmas = demo_lemmas();
    let mut bad_lemmas = lemmas.clone();
    bad_lemmas[4] = make(MULT, 65_536);
    let mut bad_program = good.clone();
    bad_program[10] = term_word(0, 1);
    book.both("program 4 and lemma 5", &bad_program, &bad_lemmas, "REFUSED 4 AT 10");
    bad_program[20] = make(SET, 99);
    bad_program[30] = make(END, 1);
    book.fault("program 4, 4 and 2", &bad_program, &lemmas, "REFUSED 4 AT 10");
    bad_program[2] = make(INIT, 12);
    book.fault("program 3, then others", &bad_program, &bad_lemmas, "REFUSED 3 AT 2");
    bad_program[1] = 0;
    book.fault("program 2, then others", &bad_program, &bad_lemmas, "REFUSED 2 AT 1");
    // At one word: 2 before 3 before 4.
    let mut p = good.clone();
    p[11] = make(ACTION, 0x1FF);
    book.judge("2 before 3 at one word", &p, &[], "REFUSED 2 AT 11");
    let mut p = good.clone();
    p[9] = term_word(0, 0) | 1 << 17;
    book.judge("2 before 4 at one word", &p, &[], "REFUSED 2 AT 9");
    // Lemmas before the number asked for; the whole list before k.
    book.ask("lemma 5 before 8", &good, &bad_lemmas, 99, "REFUSED 5 AT 4");
    book.ask("lemma 5 behind a good lemma 0", &good, &[lemmas.clone(), vec![0]].concat(), 0, "REFUSED 5 AT 10");
    book.ask("program before 8", &good[..7], &lemmas, 99, "REFUSED 2 AT 7");
    book.ask("program before lemmas before 8", &good[..7], &bad_lemmas, 99, "REFUSED 2 AT 7");
    // 5 and 6 by the first bad word.
    let fade = FADE.to_vec();
    let mut many = fade_many(513);
    many[2047] = make(MULT, 65_536);
    book.ask("5 in the 512th lemma before 6", &fade, &many, 0, "REFUSED 5 AT 2047");
    let mut many = fade_many(514);
    many[2055] = 0;
    book.ask("6 before a later 5", &fade, &many, 0, "REFUSED 6 AT 2048");
    book.ask("6 before 8", &fade, &fade_many(513), 600, "REFUSED 6 AT 2048");
    // 5 and 6 before 7.
    let (p, mut l) = subsets(10, 10);
    let words = l.len();
    book.judge("7 with good lemmas", &p, &l, "REFUSED 7 AT 512");
    l.push(0);
    book.judge("5 before 7", &p, &l, &refused(5, words));
    l.pop();
    let count = split_lemmas(&l).len();
    for _ in count..513 {
        l.extend(lemma(0, 0, 0, 0, 0, &[0]));
    }
    let at = l.len() - 3;
    book.judge("6 before 7", &p, &l, &refused(6, at));
    l.truncate(at);
    book.judge("7 with 512 lemmas", &p, &l, "REFUSED 7 AT 512");
    // 7 before a finding at node 0: an empty combination.
    let (mut t, l) = subsets_text(10, 10);
    t.bad = vec![(0, 0)];
    book.judge("7 before a finding", &t.words(), &l, "REFUSED 7 AT 512");
}

/// 512 lemmas and more.
fn many_lemmas(book: &mut Book) {
    let fade = FADE.to_vec();
    let most = fade_many(512);
    book.judge("512 lemmas", &fade, &most, "SAFE nodes 1 edges 2");
    book.ask("512 lemmas, ask 511", &fade, &most, 511, "ACCEPTED");
    book.ask("512 lemmas, ask 512", &fade, &most, 512, "REFUSED 8 AT 512");
    book.judge("513 lemmas", &fade, &fade_many(513), "REFUSED 6 AT 2048");
    // The smallest lemmas: 2 words, 512 of them.
    let t = Text { vars: vec![(0, 0)], actions: vec![ActionText::default()], ..Text::default() };
    let small: Vec<u32> = lemma(0, 0, 0, 0, 0, &[]).repeat(512);
    book.judge("512 lemmas of two words", &t.words(), &small, "SAFE nodes 1 edges 1");
    book.ask("512 lemmas of two words, ask 511", &t.words(), &small, 511, "NOT ACCEPTED");
    for (name, word, number) in [
        ("good", lemma_word(0, 0, 0), 6),
        ("payload 0", make(LEMMA, 0), 6),
        ("all ones", make(LEMMA, PAYLOAD), 6),
        ("source 254", lemma_word(254, 9, 9), 6),
        ("MULT", make(MULT, 0), 5),
        ("SETS", make(SETS, 0), 5),
        ("END", make(END, 0), 5),
        ("0", 0, 5),
    ] {
        let mut l = small.clone();
        l.push(word);
        book.judge(&format!("after 512 lemmas, {name}"), &t.words(), &l, &refused(number, 1024));
    }
    let mut l = small.clone();
    l[1022] = make(LEMMA, PAYLOAD);
    book.ask("512th lemma bad", &t.words(), &l, 0, "REFUSED 5 AT 1022");
    l.truncate(1023);
    l[1022] = lemma_word(0, 0, 0);
    book.ask("512th lemma cut", &t.words(), &l, 0, "REFUSED 5 AT 1023");
}

/// Each goal true and false, start and action sources; the traps.
fn asks(book: &mut Book) {
    let t = Text {
        vars: vec![(0, 10), (-5, 5)],
        init: vec![row(-3, &[(0, 1)]), row(7, &[(0, -1)])], // 3 <= x <= 7
        pred: vec![
            row(-3, &[(0, 1)]),          // P0 x >= 3
            row(-8, &[(0, 1)]),          // P1 x >= 8
            row(0, &[(1, 1)]),           // P2 y >= 0
            row(0, &[(0, 1), (1, -1)]),  // P3 x >= y
            row(-5, &[(0, -1), (1, 1)]), // P4 y >= x + 5
            row(-5, &[(0, 1)]),          // P5 x >= 5
            row(5, &[(0, -1)]),          // P6 x <= 5
        ],
        actions: vec![
            // 0: x -= 5 if x >= 5
            act(&[row(-5, &[(0, 1)])], &[(0, row(-5, &[(0, 1)]))]),
            // 1: x += 5 if x <= 5
            act(&[row(5, &[(0, -1)])], &[(0, row(5, &[(0, 1)]))]),
            // 2: x, y := y + 5, x - 5 at once
            act(&[], &[(0, row(5, &[(1, 1)])), (1, row(-5, &[(0, 1)]))]),
            // 3: x := 2x - 3
            act(&[], &[(0, row(-3, &[(0, 2)]))]),
            // 4: if x >= 6 and x <= 5, nothing
            act(&[row(-6, &[(0, 1)]), row(5, &[(0, -1)])], &[]),
            // 5: y := -y
            act(&[], &[(1, row(0, &[(1, -1)]))]),
        ],
        bad: vec![],
    };
    let p = t.words();
    let yes = "ACCEPTED";
    let no = "NOT ACCEPTED";
    let list: Vec<(&str, Vec<u32>, &str)> = vec![
        // goal 0
        ("action 4 cannot happen", lemma(4, 0, 0, 0, 0, &[1, 1]), yes),
        ("action 4, one row only", lemma(4, 0, 0, 0, 0, &[1, 0]), no),
        ("action 4, other row only", lemma(4, 0, 0, 0, 0, &[0, 1]), no),
        ("action 4, 2 and 3", lemma(4, 0, 0, 0, 0, &[2, 3]), no), // 2x-12 + 15-3x = 3-x, low end: 3
        ("action 0 can happen", lemma(0, 0, 0, 0, 0, &[1]), no),
        ("action 0 not where P5 fails", lemma(0, 0, 0, 1 << 5, 0, &[1, 1]), yes), // 4-x + x-5 = -1
        ("action 0 where P6 holds: x = 5 is left", lemma(0, 0, 0, 0, 1 << 6, &[1, 1]), no), // 5-x + x-5 = 0
        ("P5 and P6 are not opposed", lemma(2, 0, 0, 0, 0x60, &[1, 1]), no), // 0
        ("P5 fails and P6 fails are opposed", lemma(2, 0, 0, 0x60, 0, &[1, 1]), yes), // 4-x + x-6 = -2
        ("start can happen", lemma(START, 0, 0, 0, 0, &[1, 1]), no), // 4
        // goals 1 and 2 of the start
        ("start P0", lemma(START, 1, 0, 0, 0, &[1, 1, 0]), yes), // 2-x + x-3 = -1
        ("start P0, wrong row", lemma(START, 1, 0, 0, 0, &[1, 0, 1]), no),
        ("start not P1", lemma(START, 2, 1, 0, 0, &[1, 0, 1]), yes), // x-8 + 7-x = -1
        ("start not P0", lemma(START, 2, 0, 0, 0, &[1, 0, 1]), no),  // x-3 + 7-x = 4
        ("start P2", lemma(START, 1, 2, 0, 0, &[1, 0, 0]), no),      // -y-1, at most 4
        ("start not P4: y >= x + 5 and x >= 3", lemma(START, 2, 4, 0, 0, &[1, 1, 0]), yes), // y-8 at most -3
        // goals 1 and 2 of actions
        ("action 1 gives P0", lemma(1, 1, 0, 0, 0, &[1, 0]), yes), // -(x+2)-1, at most -3
        ("action 0 gives P0", lemma(0, 1, 0, 0, 0, &[1, 1]), no),  // 7-x + x-5 = 2
        ("action 0 gives P0 from P1", lemma(0, 1, 0, 0, 2, &[1, 1, 0]), yes), // 7-x + x-8 = -1
        ("action 0 gives not P1", lemma(0, 2, 1, 0, 0, &[1, 0]), yes), // x-13 at most -3
        ("action 1 gives not P1", lemma(1, 2, 1, 0, 0, &[1, 1]), no),  // x-3 + 5-x = 2
        ("action 1 gives not P1 where P0 fails", lemma(1, 2, 1, 1, 0, &[1, 1, 0]), yes), // x-3 + 2-x = -1
        ("action 1 gives P0, multipliers 0", lemma(1, 1, 0, 0, 0, &[0, 0]), no),
        // goals 3 and 4
        ("action 0 not below", lemma(0, 3, 0, 0, 0, &[1, 1]), yes), // 4-x + x-5 = -1
        ("action 0 not below without the guard", lemma(0, 3, 0, 0, 0, &[1, 0]), no), // 4-x, low end: 4
        ("action 0 not above", lemma(0, 4, 0, 0, 0, &[1, 0]), yes), // x-16, at most -6
        ("action 1 not above", lemma(1, 4, 0, 0, 0, &[1, 1]), yes), // x-6 + 5-x = -1
        ("action 1 not above without the guard", lemma(1, 4, 0, 0, 0, &[1, 0]), no), // x-6, high end: 4
        ("action 3 not below", lemma(3, 3, 0, 0, 0, &[1]), no),      // 2-2x, low end: 2
        ("action 3 not above", lemma(3, 4, 0, 0, 0, &[1]), no),      // 2x-14, high end: 6
        ("action 3 not below from P0", lemma(3, 3, 0, 0, 1, &[1, 2]), yes), // 2-2x + 2x-6 = -4
        ("action 3 not below from P0, 1 and 1", lemma(3, 3, 0, 0, 1, &[1, 1]), yes), // -x-1 at most -1
        ("action 3 not above where P5 fails", lemma(3, 4, 0, 1 << 5, 0, &[1, 2]), yes), // 2x-14 + 8-2x = -6
        ("action 3 not above where P5 fails, 1 and 1", lemma(3, 4, 0, 1 << 5, 0, &[1, 1]), no), // x-10, at most 0
        ("action 2 x not below", lemma(2, 3, 0, 0, 0, &[1]), yes), // -y-6, low end -5: -1
        ("action 2 x not above", lemma(2, 4, 0, 0, 0, &[1]), yes), // y-6, at most -1
        ("action 2 y not below", lemma(2, 3, 1, 0, 0, &[1]), yes), // -x-1
        ("action 2 y not above", lemma(2, 4, 1, 0, 0, &[1]), yes), // x-11
        ("action 5 y not below", lemma(5, 3, 1, 0, 0, &[1]), yes), // -5+y-1, at most -1
        ("action 5 y not above", lemma(5, 4, 1, 0, 0, &[1]), yes), // -y-6, at most -1
        // at once: x - y becomes (y + 5) - (x - 5) = 10 - x + y
        ("action 2 at once, P3 afterwards", lemma(2, 1, 3, 0, 0, &[1]), no), // -(10-x+y)-1 = x-y-11: 4
        ("action 2 at once, P3 where P5 fails", lemma(2, 1, 3, 1 << 5, 0, &[1, 1]), yes), // -y-7: -2
        ("action 2 at once, not P4 where P5 fails", lemma(2, 2, 4, 1 << 5, 0, &[1, 1]), yes), // y'-x'-5 = x-y-15; + 4-x = -y-11: -6
        ("action 2, P2 afterwards from P5", lemma(2, 1, 2, 0, 1 << 5, &[1, 1]), yes), // 4-x + x-5 = -1
        ("action 2, P2 afterwards from P2", lemma(2, 1, 2, 0, 1 << 2, &[1, 1]), no), // 4-x + y: 9
        ("action 5, P2 afterwards from P2", lemma(5, 1, 2, 0, 1 << 2, &[1, 1]), no), // y-1 + y: 9
        ("action 5, P2 afterwards where P2 fails", lemma(5, 1, 2, 1 << 2, 0, &[1, 1]), yes), // y-1 - y-1 = -2
        ("action 5, not P2 from P2: 0 is left", lemma(5, 2, 2, 0, 1 << 2, &[1, 1]), no), // -y + y = 0
        // premises by rising predicate, true and false mixed
        ("premises mixed, right order", lemma(2, 0, 0, 1, 2, &[1, 1]), yes), // 2-x + x-8 = -6
        ("premises mixed, first only", lemma(2, 0, 0, 1, 2, &[1, 0]), no),   // 2-x: 2
        ("premises mixed, second only", lemma(2, 0, 0, 1, 2, &[0, 1]), no),  // x-8: 2
        ("premises false, true, 2 and 1", lemma(2, 0, 0, 1, 1 << 5, &[2, 1]), yes), // 4-2x + x-5 = -x-1: -1
        ("premises false, true, 1 and 2", lemma(2, 0, 0, 1, 1 << 5, &[1, 2]), no), // 2-x + 2x-10 = x-8: 2
        ("premises true, false, 2 and 1", lemma(2, 0, 0, 1 << 5, 2, &[2, 1]), yes), // 2x-16 + 4-x = x-12: -2
        ("premises true, false, 1 and 2", lemma(2, 0, 0, 1 << 5, 2, &[1, 2]), no), // x-8 + 8-2x = -x: 0
        ("goal, premises, guard in order", lemma(0, 3, 0, 1, 1 << 1, &[1, 0, 1, 0]), yes), // 4-x + x-8 = -4
        ("goal, premises, guard, other premise", lemma(0, 3, 0, 1, 1 << 1, &[1, 1, 0, 0]), no), // 4-x + 2-x: 6
        ("premises mixed, weights 4 and 1", lemma(2, 0, 0, 1, 2, &[4, 1]), no), // 8-4x + x-8 = -3x: 0
        ("premises mixed, weights 1 and 4", lemma(2, 0, 0, 1, 2, &[1, 4]), no), // 2-x + 4x-32 = 3x-30, high end: 0
    ];
    for (name, l, hand) in &list {
        book.ask(name, &p, l, 0, hand);
    }
    // All of them in one list, asked by number; and judged.
    let all: Vec<u32> = list.iter().flat_map(|(_, l, _)| l.iter().copied()).collect();
    for k in (0..list.len()).step_by(12) {
        book.ask(&format!("all asks in one list, {k}"), &p, &all, k as u32, "");
    }
    book.ask("all asks, last", &p, &all, list.len() as u32 - 1, "NOT ACCEPTED");
    book.ask("all asks, one past", &p, &all, list.len() as u32, &refused(8, list.len()));
    book.judge("all asks judged", &p, &all, "");
    for bad in [(0, 2), (1, 0), (4, 1), (0x60, 0), (0, 0)] {
        let mut t = t.clone();
        t.bad = vec![bad];
        book.judge(&format!("all asks judged, bad {bad:?}"), &t.words(), &all, "");
    }
}

/// Lemmas at every limit.
fn limits(book: &mut Book) {
    let eight = |c: i32| (0..8).map(|v| (v, c)).collect::<Vec<_>>();
    let up = row(1_000_000, &eight(1000));
    let down = row(-1_000_000, &eight(-1000));
    let most = |low: i32, high: i32, rows: &RowText, guards: &RowText| Text {
        vars: vec![(low, high); 8],
        init: vec![guards.clone(); 8],
        pred: vec![rows.clone(); 14],
        actions: vec![act(&vec![guards.clone(); 8], &(0..8).map(|v| (v, rows.clone())).collect::<Vec<_>>()); 2],
        bad: vec![(0x2AAA, 0x1555); 2],
    };
    let full = vec![65_535; 23];
    let yes = "ACCEPTED";
    let no = "NOT ACCEPTED";
    // Premises and guards all `up`, ranges fixed at the low end: each row is
    // 1,000,000 - 8 * 8,192,000 = -64,536,000; goal 0 sums 14 premises and 8 guards.
    let t = most(-8192, -8192, &up, &up);
    let every = 0x3FFF;
    book.ask("limits, all low, goal 0", &t.words(), &lemma(1, 0, 0, 0, every, &full[..22]), 0, yes);
    book.ask("limits, all low, premises fail", &t.words(), &lemma(1, 0, 0, every, 0, &full[..22]), 0, no);
    let t = most(8191, 8191, &down, &down);
    book.ask("limits, all high, goal 0", &t.words(), &lemma(1, 0, 0, 0, every, &full[..22]), 0, yes);
    let t = most(-8192, 8191, &up, &up);
    book.ask("limits, whole ranges, goal 0", &t.words(), &lemma(0, 0, 0, 0, every, &full[..22]), 0, no);
    // Rows that cancel: guards -1000 each with -1,000,000, premises 1000 each with 1,000,000.
    for (goal, index) in [(0, 0), (1, 13), (2, 0), (3, 7), (4, 0)] {
        for (name, a, b) in [("up/down", &up, &down), ("down/up", &down, &up), ("up/up", &up, &up)] {
            if goal % 2 == 1 && name == "up/up" {
                continue;
            }
            let t = most(-8192, 8191, a, b);
            let count = if goal == 0 { 22 } else { 23 };
            let l = lemma(1, goal, index, 0x1555, 0x2AAA, &full[..count]);
            book.ask(&format!("limits {name}, goal {goal} index {index}"), &t.words(), &l, 0, "");
        }
    }
    // 7 premises hold and 7 fail: -7 together; 4 guards up and 4 down: 0 together.
    let mut t = most(-8192, 8191, &up, &up);
    let guards: Vec<RowText> = (0..8).map(|i| if i % 2 == 0 { up.clone() } else { down.clone() }).collect();
    t.actions = vec![act(&guards, &(0..8).map(|v| (v, up.clone())).collect::<Vec<_>>()); 2];
    t.bad = vec![(0x2AAA, 0x1555); 8];
    let p = t.words();
    let l = lemma(1, 0, 0, 0x1555, 0x2AAA, &full[..22]);
    book.ask("limits, 14 premises and 8 guards, sum -458,745", &p, &l, 0, yes);
    for at in [0, 13, 14, 21] {
        let mut m = full[..22].to_vec();
        m[at] -= 1;
        let l = lemma(1, 0, 0, 0x1555, 0x2AAA, &m);
        // one row short: its opposite is left, 1,000 under each variable, at most far above 0
        book.ask(&format!("limits, multiplier {at} one less"), &p, &l, 0, no);
    }
    // Afterwards `up` is 8,000 times up plus 1,000,000: 8 times its negation and 64,000 times a
    // row up leave -8,000,008; 64,001 times leave 1,000 under each variable.
    for (at, index) in [(1, 0), (14, 13), (15, 7), (21, 7)] {
        for (weight, hand) in [(64_000, yes), (64_001, no)] {
            let mut m = vec![0; 23];
            m[0] = 8;
            m[at] = weight;
            let l = lemma(1, 1, index, 0, every, &m);
            book.ask(&format!("limits, afterwards up, row {at}, {weight}"), &p, &l, 0, hand);
        }
    }
    // v := up. Not below: -8,192 - up - 1 and up leave -8,193 each; not above: up - 8,191 - 1 and
    // down (or up failing) leave -8,192 (or -8,193) each.
    for (goal, f, t_, at, hand) in [
        (3, 0, every, 1, yes),
        (3, 0, every, 15, yes),
        (3, 0, every, 16, no),
        (4, every, 0, 14, yes),
        (4, 0, every, 16, yes),
        (4, 0, every, 15, no),
    ] {
        let mut m = vec![0; 23];
        m[0] = 65_535;
        m[at] = 65_535;
        let l = lemma(1, goal, 7, f, t_, &m);
        book.ask(&format!("limits, goal {goal}, row {at}"), &p, &l, 0, hand);
    }
    // A greatest program whose lemmas are accepted: the start gives all 14 predicates, each action
    // keeps them and stays in its ranges.
    t.actions = vec![t.actions[0].clone(); 16];
    let p = t.words();
    let mut l = Vec::new();
    let mut fewer = Vec::new();
    for i in 0..14 {
        let mut m = vec![0; 9];
        m[0] = 65_535;
        m[8] = 65_535;
        l.extend(lemma(START, 1, i, 0, 0, &m));
    }
    fewer.extend(&l);
    let with = |pairs: &[(usize, u32)]| {
        let mut m = vec![0; 23];
        pairs.iter().for_each(|(at, value)| m[*at] = *value);
        m
    };
    for a in 0..16 {
        for i in 0..14 {
            let one = lemma(a, 1, i, 0, every, &with(&[(0, 8), (15 + 2 * (i as usize % 4), 64_000)]));
            l.extend(&one);
            if a != i {
                fewer.extend(&one);
            }
        }
        for v in 0..8 {
            let low = lemma(a, 3, v, 0, every, &with(&[(0, 65_535), (1 + v as usize, 65_535)]));
            let high = lemma(a, 4, v, 0, every, &with(&[(0, 65_535), (22, 65_535)]));
            l.extend([low.clone(), high.clone()].concat());
            fewer.extend([low, high].concat());
        }
    }
    book.judge("greatest program, all accepted", &p, &l, "SAFE nodes 1 edges 16");
    // Without the lemmas that action i keeps predicate i: nodes 1 to 14 lack one predicate each,
    // and there no lemma applies; all their actions lead to the empty set, node 15.
    book.judge("greatest program, not all kept", &p, &fewer, "RUNOFF node 1 action 0 variable 0 low nodes 16 edges 256");
    // Exact edges: x over the whole range, A = 1000x - 1,000,000, B = -1000x + 1,000,000, C = -1.
    let t = Text {
        vars: vec![(-8192, 8191)],
        init: vec![row(-1_000_000, &[(0, 1000)]), row(1_000_000, &[(0, -1000)]), never()],
        pred: vec![row(-1_000_000, &[(0, 1000)]), row(1_000_000, &[(0, -1000)]), never()],
        actions: vec![act(&[], &[(0, row(1_000_000, &[(0, 1000)]))])],
        bad: vec![],
    };
    let p = t.words();
    let m = 65_535;
    book.ask("edge, start 0", &p, &lemma(START, 0, 0, 0, 0, &[m, m, 0]), 0, no);
    book.ask("edge, start -1", &p, &lemma(START, 0, 0, 0, 0, &[m, m, 1]), 0, yes);
    book.ask("edge, start -65,535", &p, &lemma(START, 0, 0, 0, 0, &[m, m, m]), 0, yes);
    book.ask("edge, premises 0", &p, &lemma(0, 0, 0, 0, 7, &[m, m, 0]), 0, no);
    book.ask("edge, premises -1", &p, &lemma(0, 0, 0, 0, 7, &[m, m, 1]), 0, yes);
    // Both fail: -A-1 + -B-1 = -2 each.
    book.ask("edge, both fail", &p, &lemma(0, 0, 0, 3, 0, &[1, 1]), 0, yes);
    book.ask("edge, both fail, uneven", &p, &lemma(0, 0, 0, 3, 0, &[m, m - 1]), 0, no);
    // x := 1000x + 1,000,000 stays under A only by 1000(1000x + 1,000,000) - 1,000,000 < 0.
    book.ask("edge, afterwards A", &p, &lemma(0, 1, 0, 0, 0, &[m]), 0, no);
    book.ask("edge, afterwards A from A", &p, &lemma(0, 1, 0, 0, 1, &[1, 1000]), 0, yes);
    book.ask("edge, afterwards A from A, most", &p, &lemma(0, 1, 0, 0, 1, &[65, 65_000]), 0, yes);
    book.ask("edge, afterwards not B from A", &p, &lemma(0, 2, 1, 0, 1, &[1, 1000]), 0, yes);
    book.ask("edge, afterwards above", &p, &lemma(0, 4, 0, 0, 0, &[m]), 0, no);
    book.ask("edge, afterwards not below", &p, &lemma(0, 3, 0, 0, 0, &[m]), 0, no);
    book.ask("edge, afterwards not below from A", &p, &lemma(0, 3, 0, 0, 1, &[m, m]), 0, yes);
    // Ends: the last variable value that an end allows, by constants.
    for (value, low, high) in [(-8193, no, yes), (-8192, yes, yes), (8191, yes, yes), (8192, yes, no)] {
        let mut t = t.clone();
        t.actions = vec![act(&[], &[(0, row(value, &[]))])];
        book.ask(&format!("end, {value} low"), &t.words(), &lemma(0, 3, 0, 0, 0, &[1]), 0, low);
        book.ask(&format!("end, {value} high"), &t.words(), &lemma(0, 4, 0, 0, 0, &[m]), 0, high);
    }
    // The greatest program with 512 of the greatest lemmas: 2,665 and 12,800 words.
    let mut t = most(-8192, 8191, &up, &down);
    t.actions = vec![t.actions[0].clone(); 16];
    t.bad = vec![(0x2AAA, 0x1555); 8];
    let p = t.words();
    let mut l = Vec::new();
    for number in 0..512u32 {
        let goal = 1 + number % 4;
        let index = if goal < 3 { number % 14 } else { number % 8 };
        let f = number.wrapping_mul(40_503) & 0x3FFF;
        let mults: Vec<u32> = (0..23).map(|i| if number % 3 == 0 { 65_535 } else { number * i % 65_536 }).collect();
        l.extend(lemma(number % 16, goal, index, f, !f & 0x3FFF, &mults));
    }
    book.judge("greatest program and lemmas", &p, &l, "");
    book.judge("greatest program, no lemmas", &p, &[], "FORBID node 0 bad 0 nodes 1 edges 16");
    let mut t = most(-8192, 8191, &down, &up);
    t.actions = vec![t.actions[0].clone(); 16];
    book.ask("greatest program, ask 511", &t.words(), &l, 511, "");
}

/// `bits` predicates over one variable and `actions` actions that set it to itself, so that they
/// touch all. Action i (below `bits`) has the guard P_i and keeps the other true predicates by
/// lemmas: the nodes are the subsets.
pub fn subsets_text(bits: u32, actions: u32) -> (Text, Vec<u32>) {
    let pred: Vec<RowText> = (0..bits).map(|i| row(-(i as i32) - 1, &[(0, 1)])).collect();
    let guard = |i: u32| if i < bits { pred[i as usize].clone() } else { never() };
    let t = Text {
        vars: vec![(0, 100)],
        init: vec![],
        pred: pred.clone(),
        actions: (0..actions).map(|i| act(&[guard(i)], &[itself(0)])).collect(),
        bad: vec![],
    };
    let mut l = t.all_ends(); // -x-1 and x-101: at most -1
    for i in 0..bits.min(actions) {
        for j in 0..bits {
            if i == j {
                l.extend(lemma(i, 1, j, 0, 0, &[1, 1])); // -P-1 + P = -1
            } else {
                l.extend(lemma(i, 1, j, 0, 1 << j, &[1, 1, 0])); // -P-1 + P = -1
            }
        }
    }
    (t, l)
}

pub fn subsets(bits: u32, actions: u32) -> (Vec<u32>, Vec<u32>) {
    let (t, l) = subsets_text(bits, actions);
    (t.words(), l)
}

/// A counter of `bits` bits: the start is all false, action 0 counts up, and back to 0 at the end.
/// It sets the variable that all bits speak of, so that nothing is kept. Its ends come last.
pub fn counter(bits: u32, bad: &[(u32, u32)]) -> (Text, Vec<u32>) {
    let t = Text {
        vars: vec![(0, 0)],
        init: vec![never()],
        pred: vec![row(0, &[(0, 1)]); bits as usize],
        actions: vec![act(&[never()], &[(0, row(0, &[]))])],
        bad: bad.to_vec(),
    };
    let mut l = Vec::new();
    for j in 0..bits {
        l.extend(t.forced(START, 2, j, 0, 0));
        let below = (1 << j) - 1;
        l.extend(t.forced(0, 1, j, 1 << j, below));
        l.extend(t.forced(0, 2, j, 0, below | 1 << j));
        for i in 0..j {
            l.extend(t.forced(0, 1, j, 1 << i, 1 << j));
            l.extend(t.forced(0, 2, j, 1 << i | 1 << j, 0));
        }
    }
    l.extend(t.all_ends());
    (t, l)
}

/// Graphs: 512 and 513 nodes, empty, contradictions, loops.
fn graphs(book: &mut Book) {
    let (p, l) = subsets(9, 9);
    book.judge("512 nodes", &p, &l, "SAFE nodes 512 edges 4608");
    book.judge_with("512 nodes, longer lists", &p, &l, GRAPH + 783, PATH + 265, "SAFE nodes 512 edges 4608");
    let (p, l) = subsets(8, 8);
    book.judge("256 nodes", &p, &l, "SAFE nodes 256 edges 2048");
    let (p, l) = subsets(10, 10);
    book.judge("1024 nodes", &p, &l, "REFUSED 7 AT 512");
    book.judge_with("1024 nodes, longer lists", &p, &l, GRAPH + 84, PATH + 88, "REFUSED 7 AT 512");
    // 16 actions: the last seven lead to the empty set, which is node 0; 9,728 words in use.
    let (t, l) = subsets_text(9, 16);
    book.judge("512 nodes of 19 words", &t.words(), &l, "SAFE nodes 512 edges 8192");
    book.judge_with("512 nodes of 19 words, longer", &t.words(), &l, GRAPH + 1, PATH + 1, "SAFE nodes 512 edges 8192");
    // The same with action 15 impossible (goal 0) everywhere: one edge fewer for each node.
    let mut l0 = l.clone();
    l0.extend(t.forced(15, 0, 0, 0, 0));
    book.judge("512 nodes, action 15 impossible", &t.words(), &l0, "SAFE nodes 512 edges 7680");
    // Node 511 is the set of all nine; action 15 of node 511 needs the 513th node.
    let mut t10 = t.clone();
    t10.pred.push(row(0, &[]));
    let mut last = l.clone();
    last.extend(t10.forced(15, 1, 9, 0, 0x1FF));
    book.judge("513th node from node 511 action 15", &t10.words(), &last, "REFUSED 7 AT 512");
    // The same with the opposite too: no successor there.
    last.extend(t10.forced(15, 2, 9, 0, 0x1FF));
    book.judge("contradiction at node 511 action 15", &t10.words(), &last, "SAFE nodes 512 edges 8191");
    // A finding only at the last node: the combination of nine true, contradicted nowhere; so at 0.
    let mut t_bad = t.clone();
    t_bad.bad = vec![(0, 0x1FF)];
    book.judge("subsets contradict nothing", &t_bad.words(), &l, "FORBID node 0 bad 0 nodes 512 edges 8192");
    // Exactly 513: the tenth action gives {P9} alone, which nothing keeps.
    let (mut t, mut l) = subsets_text(9, 9);
    t.pred.push(row(-50, &[(0, 1)]));
    t.actions.push(act(&[row(-50, &[(0, 1)])], &[itself(0)]));
    l.extend(lemma(9, 1, 9, 0, 0, &[1, 1]));
    book.judge("513 nodes exactly", &t.words(), &l, "REFUSED 7 AT 512");
    let (p, mut l) = (t.words(), l);
    l.extend(lemma(9, 0, 0, 0, 0, &[0]));
    book.judge("513 nodes, goal 0 not accepted", &p, &l, "REFUSED 7 AT 512");

    // Counters: paths of many steps.
    for bits in [1, 4, 9] {
        let nodes = 1 << bits;
        let (t, l) = counter(bits, &[]);
        let hand = format!("SAFE nodes {nodes} edges {nodes}");
        book.judge(&format!("counter {bits}"), &t.words(), &l, &hand);
        let (t, l) = counter(bits, &[(0, nodes - 1)]);
        let hand = format!("FORBID node {} bad 0 nodes {nodes} edges {nodes}", nodes - 1);
        book.judge(&format!("counter {bits}, last forbidden"), &t.words(), &l, &hand);
        book.judge_with(&format!("counter {bits}, last forbidden, longer"), &t.words(), &l, GRAPH + 34, PATH + 8, &hand);
    }
    let (t, l) = counter(10, &[]);
    book.judge("counter 10", &t.words(), &l, "REFUSED 7 AT 512");
    let (t, l) = counter(9, &[(3, 0x1FC), (1, 0x1FE)]);
    book.judge("counter 9, 508 forbidden", &t.words(), &l, "FORBID node 508 bad 0 nodes 512 edges 512");
    let (t, l) = counter(14, &[(0x3FFF, 0)]);
    book.judge("counter 14", &t.words(), &l, "REFUSED 7 AT 512");

    // Empty graphs.
    let mut t = Text {
        vars: vec![(0, 5)],
        init: vec![row(-6, &[(0, 1)])], // x >= 6: no start state
        pred: vec![row(-3, &[(0, 1)])],
        actions: vec![act(&[], &[(0, row(99, &[]))])],
        bad: vec![(0, 0)],
    };
    let p = t.words();
    book.judge("empty graph by goal 0", &p, &lemma(START, 0, 0, 0, 0, &[1]), "SAFE nodes 0 edges 0");
    book.judge_with("empty graph by goal 0, longer", &p, &lemma(START, 0, 0, 0, 0, &[1]), GRAPH + 4, PATH + 3, "SAFE nodes 0 edges 0");
    let both = [lemma(START, 1, 0, 0, 0, &[0, 1]), lemma(START, 2, 0, 0, 0, &[0, 1])].concat();
    book.judge("empty graph by contradiction", &p, &both, "SAFE nodes 0 edges 0");
    let all = [both.clone(), lemma(START, 0, 0, 0, 0, &[1])].concat();
    book.judge("empty graph by all", &p, &all, "SAFE nodes 0 edges 0");
    book.judge("goal 0 not accepted", &p, &lemma(START, 0, 0, 0, 0, &[0]), "FORBID node 0 bad 0 nodes 1 edges 1");
    let half = [lemma(START, 1, 0, 0, 0, &[0, 1]), lemma(START, 2, 0, 0, 0, &[0, 0])].concat();
    book.judge("one of the two not accepted", &p, &half, "FORBID node 0 bad 0 nodes 2 edges 2");
    t.pred.push(row(0, &[]));
    // P1 has no terms and is kept: node 0 {P0, not P1} goes to 1 {not P1}, and 1 to 1.
    let apart = [lemma(START, 1, 0, 0, 0, &[0, 1]), lemma(START, 2, 1, 0, 0, &[0, 1])].concat();
    book.judge("goals 1 and 2 of two predicates", &t.words(), &apart, "FORBID node 0 bad 0 nodes 2 edges 2");
    t.bad.clear();
    t.actions.clear();
    book.judge("one node, no actions", &t.words(), &apart, "SAFE nodes 1 edges 0");
    book.judge("empty graph, no actions", &t.words(), &all, "SAFE nodes 0 edges 0");

    // Contradicting lemmas at some nodes only. All actions touch all predicates.
    let t = Text {
        vars: vec![(0, 9)],
        init: vec![never()],
        pred: vec![row(0, &[(0, 1)]); 3],
        actions: vec![act(&[never()], &[itself(0)]); 3],
        bad: vec![],
    };
    let p = t.words();
    let l = [
        t.all_ends(),
        t.forced(START, 1, 0, 0, 0),
        t.forced(0, 1, 1, 0, 1), // {P0} by 0 is {P1}
        t.forced(1, 1, 2, 0, 2), // {P1} by 1 is contradicting
        t.forced(1, 2, 2, 0, 2),
        t.forced(2, 2, 0, 0, 0), // 2 gives {not P0} everywhere
    ]
    .concat();
    // 0 {P0}: {P1} = 1, {} = 2, {not P0} = 3. 1: {} , none, 3. 2: {}, {}, 3. 3: {}, {}, 3.
    book.judge("contradiction at node 1", &p, &l, "SAFE nodes 4 edges 11");
    let l = [l, t.forced(2, 0, 0, 0, 2)].concat();
    book.judge("contradiction and goal 0 at node 1", &p, &l, "SAFE nodes 4 edges 10");
    let l = [l, t.forced(0, 0, 0, 1, 0), t.forced(1, 0, 0, 1, 0)].concat();
    book.judge("and goal 0 at node 3", &p, &l, "SAFE nodes 4 edges 8");
    // Nothing is kept of what is touched: an action with no guard that sets the predicate's variable
    // to itself leads to the empty set.
    let t = Text {
        vars: vec![(0, 9)],
        init: vec![never()],
        pred: vec![row(0, &[(0, 1)])],
        actions: vec![act(&[], &[itself(0)])],
        bad: vec![(0, 1)],
    };
    let l = [t.forced(START, 2, 0, 0, 0), t.ends(0)].concat();
    book.judge("nothing is kept", &t.words(), &l, "FORBID node 1 bad 0 nodes 2 edges 2");
    // Loops and repeated targets: 16 actions back to node 0.
    let t = Text { vars: vec![(0, 9)], actions: vec![ActionText::default(); 16], ..Text::default() };
    book.judge("16 loops", &t.words(), &[], "SAFE nodes 1 edges 16");
    // Predicate 13 alone; both sides of SETS. All actions touch all predicates: i below 14 leads to
    // {P_i, not P_(13-i)}, 14 to {P13}, 15 to the empty set, from everywhere.
    let t = Text {
        vars: vec![(0, 9)],
        init: vec![never()],
        pred: vec![row(0, &[(0, 1)]); 14],
        actions: vec![act(&[never()], &[(0, row(0, &[]))]); 16],
        bad: vec![(0x2000, 0)],
    };
    let mut l = Vec::new();
    for i in 0..14 {
        l.extend(t.forced(START, 1 + i % 2, i, 0, 0));
        l.extend(t.forced(i, 1, i, 0, 0));
        l.extend(t.forced(i, 2, 13 - i, 0, 0));
    }
    l.extend(t.forced(14, 1, 13, 0, 0));
    book.judge("14 predicates, 16 actions", &t.words(), &l, "FORBID node 0 bad 0 nodes 17 edges 272");
}

/// The order of findings.
fn verdicts(book: &mut Book) {
    // Two variables, four predicates, four actions that can never happen: lemmas at will. Each
    // predicate speaks of both variables, so that actions 0, 1 and 3 touch all; action 2 touches none.
    let t = Text {
        vars: vec![(0, 10), (-3, 3)],
        init: vec![never()],
        pred: vec![row(0, &[(0, 1), (1, 1)]); 4],
        actions: vec![
            act(&[never()], &[(0, row(50, &[])), (1, row(50, &[]))]),
            act(&[never()], &[(1, row(0, &[]))]),
            act(&[never()], &[]),
            act(&[never()], &[(0, row(0, &[]))]),
        ],
        bad: vec![],
    };
    let ends = |pairs: &[(u32, u32, u32)]| -> Vec<u32> {
        pairs.iter().flat_map(|(a, v, goal)| t.forced(*a, *goal, *v, 0, 0)).collect()
    };
    let all = [(0, 0, 3), (0, 0, 4), (0, 1, 3), (0, 1, 4), (1, 1, 3), (1, 1, 4), (3, 0, 3), (3, 0, 4)];
    let with_bad = |bad: &[(u32, u32)]| {
        let mut t = t.clone();
        t.bad = bad.to_vec();
        t.words()
    };
    let p = with_bad(&[]);
    book.judge("all ends shown", &p, &ends(&all), "SAFE nodes 1 edges 4");
    for (missing, (a, v, goal)) in all.iter().enumerate() {
        let kept: Vec<_> = all.iter().enumerate().filter(|(i, _)| *i != missing).map(|(_, e)| *e).collect();
        let end = if *goal == 3 { "low" } else { "high" };
        let hand = format!("RUNOFF node 0 action {a} variable {v} {end} nodes 1 edges 4");
        book.judge(&format!("end {missing} missing"), &p, &ends(&kept), &hand);
        let later = &all[..missing];
        if missing % 2 == 0 {
            continue;
        }
        book.judge(&format!("ends from {missing} on missing"), &p, &ends(later), &hand);
    }
    let before = ends(&[(0, 0, 3), (0, 1, 3), (0, 1, 4)]);
    book.judge("variable 0 high before action 1", &p, &before, "RUNOFF node 0 action 0 variable 0 high nodes 1 edges 4");
    book.judge("low before high", &p, &ends(&all[4..]), "RUNOFF node 0 action 0 variable 0 low nodes 1 edges 4");
    book.judge("forbid before run-off", &with_bad(&[(0, 0)]), &[], "FORBID node 0 bad 0 nodes 1 edges 4");
    book.judge("empty combination, all ends shown", &with_bad(&[(0, 0)]), &ends(&all), "FORBID node 0 bad 0 nodes 1 edges 4");
    // An action without a successor is not judged.
    let gone = t.forced(0, 0, 0, 0, 0);
    book.judge("action 0 gone by goal 0", &p, &gone, "RUNOFF node 0 action 1 variable 1 low nodes 1 edges 3");
    let clash = [t.forced(0, 1, 2, 0, 0), t.forced(0, 2, 2, 0, 0)].concat();
    book.judge("action 0 gone by a clash", &p, &clash, "RUNOFF node 0 action 1 variable 1 low nodes 1 edges 3");
    let gone3 = [gone.clone(), t.forced(1, 0, 0, 0, 0), t.forced(3, 0, 0, 0, 0)].concat();
    book.judge("all that set are gone", &p, &gone3, "SAFE nodes 1 edges 1");
    // The combinations in order.
    let start = [t.forced(START, 1, 0, 0, 0), t.forced(START, 2, 1, 0, 0)].concat(); // {P0, not P1}
    let loops = [
        t.forced(0, 0, 0, 0, 0),
        t.forced(1, 0, 0, 0, 0),
        t.forced(3, 0, 0, 0, 0),
        t.forced(2, 1, 0, 0, 1),
        t.forced(2, 2, 1, 2, 0),
    ]
    .concat(); // action 2 keeps {P0, not P1}
    let l = [start.clone(), loops.clone()].concat();
    for (name, bad, hand) in [
        ("contradicted by not P0", vec![(1, 0)], "SAFE nodes 1 edges 1"),
        ("contradicted by P1", vec![(0, 2)], "SAFE nodes 1 edges 1"),
        ("contradicted by one of two", vec![(0, 3)], "SAFE nodes 1 edges 1"),
        ("the node itself", vec![(2, 1)], "FORBID node 0 bad 0 nodes 1 edges 1"),
        ("more than the node", vec![(2, 5)], "FORBID node 0 bad 0 nodes 1 edges 1"),
        ("other predicates", vec![(8, 4)], "FORBID node 0 bad 0 nodes 1 edges 1"),
        ("third of four", vec![(1, 0), (0, 2), (8, 0), (0, 0)], "FORBID node 0 bad 2 nodes 1 edges 1"),
        ("last of eight", vec![(1, 0), (0, 2), (1, 2), (3, 0), (0, 3), (1, 4), (4, 2), (0, 8)], "FORBID node 0 bad 7 nodes 1 edges 1"),
        ("all eight contradicted", vec![(1, 0), (0, 2), (1, 2), (3, 0), (0, 3), (1, 4), (4, 2), (1, 8)], "SAFE nodes 1 edges 1"),
        ("equal combinations", vec![(1, 0), (2, 1), (2, 1)], "FORBID node 0 bad 1 nodes 1 edges 1"),
    ] {
        book.judge(&format!("combination, {name}"), &with_bad(&bad), &l, hand);
    }
    // Run-off at node 0 before a forbidden combination at node 1. Start {P0}; action 1 (sets
    // variable 1) gives {not P0}; actions 0 and 3 cannot happen; action 2 keeps.
    let walk = [
        t.forced(START, 1, 0, 0, 0),
        t.forced(0, 0, 0, 0, 0),
        t.forced(3, 0, 0, 0, 0),
        t.forced(1, 2, 0, 0, 0),
        t.forced(2, 1, 0, 0, 1),
        t.forced(2, 2, 0, 1, 0),
    ]
    .concat();
    let p1 = with_bad(&[(1, 0)]);
    book.judge("run-off at node 0 before forbid at node 1", &p1, &walk, "RUNOFF node 0 action 1 variable 1 low nodes 2 edges 4");
    let low = [walk.clone(), t.forced(1, 3, 1, 0, 0)].concat();
    book.judge("run-off high at node 0 before forbid at node 1", &p1, &low, "RUNOFF node 0 action 1 variable 1 high nodes 2 edges 4");
    let shown = [low.clone(), t.forced(1, 4, 1, 0, 0)].concat();
    book.judge("forbid at node 1", &p1, &shown, "FORBID node 1 bad 0 nodes 2 edges 4");
    let at_zero = [low.clone(), t.forced(1, 4, 1, 0, 1)].concat();
    book.judge("high shown at node 0 only, forbid first", &p1, &at_zero, "FORBID node 1 bad 0 nodes 2 edges 4");
    book.judge("high shown at node 0 only", &p, &at_zero, "RUNOFF node 1 action 1 variable 1 high nodes 2 edges 4");
    let at_one = [low.clone(), t.forced(1, 4, 1, 1, 0)].concat();
    book.judge("high shown at node 1 only", &p, &at_one, "RUNOFF node 0 action 1 variable 1 high nodes 2 edges 4");
    let each = [at_zero.clone(), t.forced(1, 4, 1, 1, 0)].concat();
    book.judge("high shown at each node by its own lemma", &p, &each, "SAFE nodes 2 edges 4");
    let not = [low.clone(), lemma(1, 4, 1, 0, 0, &[0, 0])].concat();
    book.judge("high by a lemma that is not accepted", &p, &not, "RUNOFF node 0 action 1 variable 1 high nodes 2 edges 4");
    // Node 1 loops on itself by action 1, with a missing range lemma there.
    book.judge("own node, missing range lemma", &p, &at_zero, "RUNOFF node 1 action 1 variable 1 high nodes 2 edges 4");

    // Paths: a tree with several ways to one node; the first found counts. All actions touch all
    // predicates; the ends of actions 0 and 1 are shown everywhere.
    let t = Text {
        vars: vec![(0, 10)],
        init: vec![never()],
        pred: vec![row(0, &[(0, 1)]); 4],
        actions: vec![act(&[never()], &[(0, row(0, &[]))]); 3],
        bad: vec![],
    };
    let complete = |f: u32, t_: u32| (f, t_);
    let (f0, t0) = complete(0xF, 0);
    let mut l = [t.ends(0), t.ends(1)].concat();
    // node as a number 0..15 of true predicates; transitions by full premises
    let moves: [(u32, u32, u32); 12] = [
        (0, 0, 1), (0, 1, 2), (0, 2, 0),
        (1, 0, 3), (1, 1, 4), (1, 2, 1),
        (2, 0, 4), (2, 1, 5), (2, 2, 2),
        (4, 0, 6), (4, 1, 7), (6, 1, 8),
    ];
    for i in 0..4 {
        if f0 >> i & 1 == 1 {
            l.extend(t.forced(START, 2, i, 0, 0));
        }
        if t0 >> i & 1 == 1 {
            l.extend(t.forced(START, 1, i, 0, 0));
        }
    }
    for (from, action, to) in moves {
        for i in 0..4 {
            let goal = if to >> i & 1 == 1 { 1 } else { 2 };
            l.extend(t.forced(action, goal, i, !from & 0xF, from));
        }
    }
    // Where no move is given the actions cannot happen.
    for node in 0..16u32 {
        for action in 0..3 {
            if !moves.iter().any(|(f, a, _)| *f == node && *a == action) {
                l.extend(t.forced(action, 0, 0, !node & 0xF, node));
            }
        }
    }
    let ends = [t.forced(2, 3, 0, 0, 0), t.forced(2, 4, 0, 0, 0)].concat();
    let safe = [l.clone(), ends].concat();
    // Numbers: 0:0, 1:1, 2:2, 3:3, 4:4, 5:5, 6:6, 7:7, 8:8 by the order of moves.
    book.judge("tree", &t.words(), &safe, "SAFE nodes 9 edges 12");
    for target in [1u32, 4, 5, 8] {
        let mut t = t.clone();
        t.bad = vec![(!target & 0xF, target)];
        let hand = format!("FORBID node {target} bad 0 nodes 9 edges 12");
        book.judge(&format!("tree, {target} forbidden"), &t.words(), &safe, &hand);
    }
    for target in [8u32, 5] {
        let mut t = t.clone();
        t.bad = vec![(!8 & 0xF, 8), (!target & 0xF, target)];
        let hand = if target == 8 { "FORBID node 8 bad 0 nodes 9 edges 12" } else { "FORBID node 5 bad 1 nodes 9 edges 12" };
        book.judge(&format!("tree, 8 and {target} forbidden"), &t.words(), &safe, hand);
    }
    let partly = [l.clone(), t.forced(2, 3, 0, 0, 0), t.forced(2, 4, 0, 1, 0)].concat();
    book.judge("tree, high end missing at node 1", &t.words(), &partly, "RUNOFF node 1 action 2 variable 0 high nodes 9 edges 12");
    let partly = [l.clone(), t.forced(2, 4, 0, 0, 0), t.forced(2, 3, 0, 2, 0)].concat();
    book.judge("tree, low end missing at node 2", &t.words(), &partly, "RUNOFF node 2 action 2 variable 0 low nodes 9 edges 12");
}

// ---------------------------------------------------------------------------------------------
// Request 1: untouched predicates keep their literal

fn request_1(book: &mut Book) {
    kept_literals(book);
    touched_literals(book);
    long_rows(book);
    numbers_apart(book);
    two_actions(book);
    start_lemmas_only(book);
    opposites(book);
    opposite_at_one_node(book);
    kept_premises(book);
    cues(book);
    alternate(book);
    eight_variables(book);
    kept_graphs(book);
    lone_nodes(book);
    superfluous_lemmas(book);
    rig8_unknown(book);
}

/// One predicate, known at the start (goal 1: it holds, goal 2: it fails), its opposite forbidden,
/// and one action. Safe with one node if the action keeps the literal; otherwise it leads to node 1
/// without literals, which contradicts nothing.
fn single(vars: usize, pred: RowText, goal: u32, action: ActionText) -> (Text, Vec<u32>) {
    let t = Text {
        vars: vec![(0, 9); vars],
        init: vec![never()],
        pred: vec![pred],
        actions: vec![action],
        bad: vec![if goal == 1 { (1, 0) } else { (0, 1) }],
    };
    let l = [t.forced(START, goal, 0, 0, 0), t.ends(0)].concat();
    (t, l)
}

/// The sum of these variables is at least 1.
fn on(variables: &[u32]) -> RowText {
    row(-1, &variables.iter().map(|v| (*v, 1)).collect::<Vec<_>>())
}

/// An action that sets these variables to 3.
fn setting(variables: &[u32]) -> ActionText {
    act(&[], &variables.iter().map(|v| (*v, row(3, &[]))).collect::<Vec<_>>())
}

/// "a zero coefficient on every variable that an action sets": back to its own node, with no lemma.
fn kept_literals(book: &mut Book) {
    let others = [0, 1, 2, 4, 5, 6, 7];
    let list = [
        ("known true, another variable set", 2, on(&[0]), 1, setting(&[1])),
        ("known false, another variable set", 2, on(&[0]), 2, setting(&[1])),
        ("known true, the variable before it set", 2, on(&[1]), 1, setting(&[0])),
        ("known false, two others set", 3, on(&[2]), 2, setting(&[0, 1])),
        ("known true, nothing set", 1, on(&[0]), 1, setting(&[])),
        ("known false, nothing set", 1, on(&[0]), 2, setting(&[])),
        ("no terms, known true, all set", 3, row(0, &[]), 1, setting(&[0, 1, 2])),
        ("no terms, known false, all set", 3, row(-1, &[]), 2, setting(&[0, 1, 2])),
        ("no terms, nothing set", 1, row(0, &[]), 1, setting(&[])),
        ("variables 0 and 2, 1 set", 3, on(&[0, 2]), 1, setting(&[1])),
        ("guard on its variable", 2, on(&[0]), 1, act(&[on(&[0])], &[(1, row(3, &[]))])),
        ("its variable read", 2, on(&[0]), 2, act(&[], &[(1, row(0, &[(0, 1)]))])),
        ("another set to itself", 2, on(&[0]), 1, act(&[], &[itself(1)])),
        ("8 variables, all but 3 set", 8, on(&[3]), 2, setting(&others)),
        ("8 variables, all but 3 in the row", 8, on(&others), 1, setting(&[3])),
        ("8 variables, 7 in the row, 0 to 6 set", 8, on(&[7]), 1, setting(&[0, 1, 2, 3, 4, 5, 6])),
        ("8 variables, 0 in the row, 7 set", 8, on(&[0]), 2, setting(&[7])),
    ];
    for (name, vars, pred, goal, action) in list {
        let (t, l) = single(vars, pred, goal, action);
        book.judge(&format!("kept: {name}"), &t.words(), &l, "SAFE nodes 1 edges 1");
    }
}

/// A coefficient that isn't zero on one variable that the action sets.
fn touched_literals(book: &mut Book) {
    let apart = row(0, &[(0, 1), (1, -1)]);
    let list = [
        ("known true", 2, on(&[0]), 1, setting(&[0])),
        ("known false", 2, on(&[0]), 2, setting(&[0])),
        ("set to itself", 1, on(&[0]), 1, act(&[], &[itself(0)])),
        ("set to itself, known false", 1, on(&[0]), 2, act(&[], &[itself(0)])),
        ("variables 0 and 2, 0 set", 3, on(&[0, 2]), 1, setting(&[0])),
        ("variables 0 and 2, 2 set", 3, on(&[0, 2]), 1, setting(&[2])),
        ("variables 0 and 2, 0 and 1 set", 3, on(&[0, 2]), 2, setting(&[0, 1])),
        ("variables 0 and 2, 1 and 2 set", 3, on(&[0, 2]), 2, setting(&[1, 2])),
        ("the last of three set", 3, on(&[2]), 1, setting(&[0, 1, 2])),
        ("coefficient -1", 2, row(5, &[(0, -1)]), 1, setting(&[0])),
        ("coefficient 1000", 2, row(0, &[(1, 1000)]), 1, setting(&[1])),
        ("coefficient -1000", 2, row(0, &[(1, -1000)]), 2, setting(&[1])),
        ("coefficients 1 and -1", 2, apart.clone(), 1, setting(&[0, 1])),
        ("coefficients 1 and -1, both set to themselves", 2, apart, 1, act(&[], &[itself(0), itself(1)])),
        ("8 variables, all in the row, 7 set", 8, on(&[0, 1, 2, 3, 4, 5, 6, 7]), 1, setting(&[7])),
        ("8 variables, 7 in the row, all set", 8, on(&[7]), 2, setting(&[0, 1, 2, 3, 4, 5, 6, 7])),
    ];
    for (name, vars, pred, goal, action) in list {
        let (t, l) = single(vars, pred, goal, action);
        book.judge(&format!("touched: {name}"), &t.words(), &l, "FORBID node 1 bad 0 nodes 2 edges 2");
    }
    let (t, l) = single(1, on(&[0]), 1, setting(&[0]));
    let l = [l, lemma(0, 1, 0, 0, 0, &[1])].concat(); // -(3-1)-1 = -3
    book.judge("touched: but shown", &t.words(), &l, "SAFE nodes 1 edges 1");
}

/// Guard rows and assigned rows of several terms, which speak of all variables; 0 and 3 are set. The
/// one predicate speaks of each variable in turn.
fn long_rows(book: &mut Book) {
    let guards = [on(&[0, 1, 2, 3]), on(&[1, 3]), never()];
    let sets = [(0, row(1, &[(0, 1), (1, -2), (3, 3)])), (3, row(-7, &[(1, 5), (2, 1), (3, 1)]))];
    for v in 0..4 {
        let (t, _) = single(4, on(&[v]), 1 + v % 2, act(&guards, &sets));
        let ends = [t.forced(0, 3, 0, 0, 0), t.forced(0, 4, 0, 0, 0), t.forced(0, 3, 3, 0, 0), t.forced(0, 4, 3, 0, 0)];
        let l = [t.forced(START, 1 + v % 2, 0, 0, 0), ends.concat()].concat();
        if v == 1 || v == 2 {
            book.judge(&format!("kept: long rows, predicate on {v}"), &t.words(), &l, "SAFE nodes 1 edges 1");
        } else {
            book.judge(&format!("touched: long rows, predicate on {v}"), &t.words(), &l, "FORBID node 1 bad 0 nodes 2 edges 2");
        }
    }
}

/// P0 speaks of variable 1 and P1 of variable 0: {P0, P1} goes by an action that sets variable 0 to
/// {P0}, and that to itself.
fn numbers_apart(book: &mut Book) {
    let mut t = Text {
        vars: vec![(0, 9); 2],
        init: vec![never()],
        pred: vec![on(&[1]), on(&[0])],
        actions: vec![setting(&[0])],
        bad: vec![(1, 0)],
    };
    let l = [t.forced(START, 1, 0, 0, 0), t.forced(START, 1, 1, 0, 0), t.ends(0)].concat();
    book.judge("kept: predicate 0 on variable 1", &t.words(), &l, "SAFE nodes 2 edges 2");
    t.bad = vec![(2, 0)];
    book.judge("touched: predicate 1 on variable 0", &t.words(), &l, "FORBID node 1 bad 0 nodes 2 edges 2");
}

/// x and y from 0 to 9; P0 x at least 1, P1 y at least 1. The start, x at least 5 and y 0, is
/// {P0, not P1}. The lemmas are those of the start.
fn pair(actions: &[ActionText], bad: &[(u32, u32)]) -> (Text, Vec<u32>) {
    let t = Text {
        vars: vec![(0, 9); 2],
        init: vec![row(-5, &[(0, 1)]), row(0, &[(1, -1)])],
        pred: vec![on(&[0]), on(&[1])],
        actions: actions.to_vec(),
        bad: bad.to_vec(),
    };
    let holds = lemma(START, 1, 0, 0, 0, &[1, 1, 0]); // -(x-1)-1 + x-5 = -5
    let fails = lemma(START, 2, 1, 0, 0, &[1, 0, 1]); // y-1 + -y = -1
    (t, [holds, fails].concat())
}

/// Actions with different untouched sets. {P0, not P1} goes by the one that sets x to {not P1}, by
/// the one that sets y to {P0}; each of these by its own action to itself, by the other to the
/// empty set, node 3. An action that sets nothing leads back.
fn two_actions(book: &mut Book) {
    let (x, y, none) = (setting(&[0]), setting(&[1]), setting(&[]));
    let (p1, not_p0) = ((0, 2), (1, 0));
    for (name, actions, bad, hand) in [
        ("x, y, P1 forbidden", vec![x.clone(), y.clone()], p1, "FORBID node 2 bad 0 nodes 4 edges 8"),
        ("y, x, P1 forbidden", vec![y.clone(), x.clone()], p1, "FORBID node 1 bad 0 nodes 4 edges 8"),
        ("x, y, not P0 forbidden", vec![x.clone(), y.clone()], not_p0, "FORBID node 1 bad 0 nodes 4 edges 8"),
        ("y, x, not P0 forbidden", vec![y.clone(), x.clone()], not_p0, "FORBID node 2 bad 0 nodes 4 edges 8"),
        ("x, none, y, P1 forbidden", vec![x.clone(), none.clone(), y.clone()], p1, "FORBID node 2 bad 0 nodes 4 edges 12"),
        ("y, none, x, P1 forbidden", vec![y, none, x], p1, "FORBID node 1 bad 0 nodes 4 edges 12"),
    ] {
        let (t, l) = pair(&actions, &[bad]);
        let l = [l, t.all_ends()].concat();
        book.judge(&format!("two actions: {name}"), &t.words(), &l, hand);
    }
}

/// "The start keeps nothing"; what its lemmas show is kept with no other lemma.
fn start_lemmas_only(book: &mut Book) {
    let (t, l) = pair(&[setting(&[]), setting(&[])], &[(1, 0), (0, 2)]);
    let p = t.words();
    book.judge("start lemmas only", &p, &l, "SAFE nodes 1 edges 2");
    book.judge("start lemmas only, no lemma at all", &p, &[], "FORBID node 0 bad 0 nodes 1 edges 2");
    book.judge("start lemmas only, that of P0", &p, &l[..5], "FORBID node 0 bad 1 nodes 1 edges 2");
    book.judge("start lemmas only, that of P1", &p, &l[5..], "FORBID node 0 bad 0 nodes 1 edges 2");
    // y set, no lemma for its ends: {P0, not P1} goes to {P0}, and that to itself.
    let (t, l) = pair(&[setting(&[1])], &[]);
    book.judge("start lemmas only, y set", &t.words(), &l, "RUNOFF node 0 action 0 variable 1 low nodes 2 edges 2");
    // The ends are asked for where everything is kept and the action leads back.
    let (t, l) = single(2, on(&[0]), 1, setting(&[1]));
    let list = split_lemmas(&l); // the start's, low, high
    book.judge("own node by what is kept, no ends", &t.words(), &list[0], "RUNOFF node 0 action 0 variable 1 low nodes 1 edges 1");
    book.judge("own node by what is kept, low only", &t.words(), &without(&list, 2), "RUNOFF node 0 action 0 variable 1 high nodes 1 edges 1");
    // Goals 1 and 2 of the start.
    let clash = [l, t.forced(START, 2, 0, 0, 0)].concat();
    book.judge("start without a successor, action that keeps", &t.words(), &clash, "SAFE nodes 0 edges 0");
}

/// "A lemma for the opposite literal may still apply; then there is no successor, as before." Action
/// 0 happens only where x is 0, and sets y to 99, whose high end no lemma can show: safe only
/// without a successor.
fn opposites(book: &mut Book) {
    let mut t = Text {
        vars: vec![(0, 9); 2],
        init: vec![never()],
        pred: vec![on(&[0]), on(&[1])],
        actions: vec![act(&[row(0, &[(0, -1)])], &[(1, row(99, &[]))])],
        bad: vec![],
    };
    let (holds, fails) = (t.forced(START, 1, 0, 0, 0), t.forced(START, 2, 0, 0, 0));
    let shown = lemma(0, 2, 0, 0, 0, &[1, 1]); // x-1 + -x = -1
    let same = lemma(0, 1, 0, 0, 1, &[1, 1, 0]); // -(x-1)-1 + x-1 = -1
    let cannot = |weight: u32| lemma(0, 0, 0, 0, 1, &[weight, weight]); // x-1 + -x = -1, or 0
    let unmet = lemma(0, 2, 0, 0, 2, &[1, 0, 1]); // accepted, from P1
    let (gone, own) = ("SAFE nodes 1 edges 0", "RUNOFF node 0 action 0 variable 1 low nodes 1 edges 1");
    for (name, lemmas, hand) in [
        ("kept true, shown false", vec![&holds, &shown], gone),
        ("kept true, shown false, lemmas turned round", vec![&shown, &holds], gone),
        ("kept true, shown both ways", vec![&holds, &same, &shown], gone),
        ("kept true, shown true", vec![&holds, &same], own),
        ("kept false, shown false", vec![&fails, &shown], own),
        ("not known, shown false", vec![&shown], "RUNOFF node 0 action 0 variable 1 low nodes 2 edges 2"),
        ("kept true, opposite not accepted", vec![&holds, &lemma(0, 2, 0, 0, 0, &[0, 0])], own),
        ("kept true, opposite does not apply", vec![&holds, &unmet], own),
        ("kept true, goal 0", vec![&holds, &cannot(1)], gone),
        ("kept true, shown true, goal 0 last", vec![&holds, &same, &cannot(1)], gone),
        ("kept true, goal 0 not accepted", vec![&holds, &cannot(0)], own),
        ("kept false, goal 0 does not apply", vec![&fails, &cannot(1)], own),
    ] {
        let l: Vec<u32> = lemmas.into_iter().flatten().copied().collect();
        book.judge(&format!("opposites: {name}"), &t.words(), &l, hand);
    }
    t.actions[0].guards = vec![on(&[0])];
    let l = [fails, lemma(0, 1, 0, 0, 0, &[1, 1])].concat(); // -(x-1)-1 + x-1 = -1
    book.judge("opposites: kept false, shown true", &t.words(), &l, gone);
    // P0 is kept, P1 is touched and shown both ways.
    t.actions[0].guards = vec![never()];
    let l = [holds, t.forced(0, 1, 1, 0, 0), t.forced(0, 2, 1, 0, 0)].concat();
    book.judge("opposites: clash on what is touched", &t.words(), &l, gone);
}

/// Action 0 sets x to 5; action 1 happens where x is 0, sets y to 9, and its ends are shown where P0
/// fails. 0 {not P0} goes to 1 {P0} and 0; 1 to 1 and, not P0 being shown and P0 kept, none.
fn opposite_at_one_node(book: &mut Book) {
    let t = Text {
        vars: vec![(0, 9); 2],
        init: vec![row(0, &[(0, -1)])],
        pred: vec![on(&[0])],
        actions: vec![act(&[], &[(0, row(5, &[]))]), act(&[row(0, &[(0, -1)])], &[(1, row(9, &[]))])],
        bad: vec![],
    };
    let rest = [
        lemma(START, 2, 0, 0, 0, &[1, 1]),   // x-1 + -x = -1
        lemma(0, 1, 0, 0, 0, &[1]),          // -(5-1)-1 = -5
        t.ends(0),                           // 0-5-1 = -6, 5-9-1 = -5
        lemma(1, 3, 1, 1, 0, &[1, 0, 0]),    // 0-9-1 = -10
        lemma(1, 4, 1, 1, 0, &[1, 0, 0]),    // 9-9-1 = -1
    ]
    .concat();
    let l = [rest.clone(), lemma(1, 2, 0, 0, 0, &[1, 1])].concat(); // x-1 + -x = -1
    book.judge("opposite at node 1 only", &t.words(), &l, "SAFE nodes 2 edges 3");
    // Without that lemma 1 goes by 1 to itself, where its ends are not shown. Path 0.
    book.judge("no opposite at node 1", &t.words(), &rest, "RUNOFF node 1 action 1 variable 1 low nodes 2 edges 4");
}

/// Literals that were kept as premises at the next node: P0 at each. 0 {P0, not P1} goes to 1 {P0},
/// 2 {P0, P1}, none; 1 and 2 too. What is forbidden speaks of P0 failing.
fn kept_premises(book: &mut Book) {
    let absurd = act(&[row(0, &[(0, -1)])], &[(1, row(99, &[]))]); // where x is 0
    let copy = act(&[], &[(1, row(0, &[(0, 1)]))]); // y := x
    let (t, start) = pair(&[setting(&[1]), copy, absurd], &[(1, 2), (1, 0)]);
    let l = [
        start,
        t.ends(0),
        t.ends(1),                     // -x-1 and x-10: at most -1
        lemma(1, 1, 1, 0, 1, &[1, 1]), // -(x-1)-1 + x-1 = -1
        lemma(2, 0, 0, 0, 1, &[1, 1]), // x-1 + -x = -1
    ]
    .concat();
    book.judge("kept literals as premises", &t.words(), &l, "SAFE nodes 3 edges 6");
}

/// A row of cues: x from 0 to 9 and the cue s from 0 to 3. P0 x at least 1; P1, P2, P3 s at least 1,
/// 2, 3. Cue 0 sets x to 5 and s to 1, cues 1 and 2 set s to 2 and 3, cue 3 takes 1 off x and sets s
/// to 0. P0 comes with node 1, is kept by cues 1 and 2 and shows the low end of x for cue 3.
pub fn cue_row() -> (Text, Vec<Vec<u32>>) {
    let s = |n: i32| row(-n, &[(1, 1)]); // s at least n
    let to = |n: i32| row(n, &[(1, -1)]); // s at most n
    let t = Text {
        vars: vec![(0, 9), (0, 3)],
        init: vec![row(0, &[(0, -1)]), to(0)],
        pred: vec![on(&[0]), s(1), s(2), s(3)],
        actions: vec![
            act(&[to(0)], &[(0, row(5, &[])), (1, row(1, &[]))]),
            act(&[s(1), to(1)], &[(1, row(2, &[]))]),
            act(&[s(2), to(2)], &[(1, row(3, &[]))]),
            act(&[s(3)], &[(0, row(-1, &[(0, 1)])), (1, row(0, &[]))]),
        ],
        bad: vec![],
    };
    let mut l = vec![lemma(START, 2, 0, 0, 0, &[1, 1, 0])]; // x-1 + -x = -1
    l.extend((1..4).map(|i| lemma(START, 2, i, 0, 0, &[1, 0, 1]))); // s-i + -s = -i
    // When a cue cannot happen: a literal and a guard row leave -1 each.
    l.push(lemma(0, 0, 0, 0, 2, &[1, 1]));
    l.push(lemma(1, 0, 0, 2, 0, &[1, 1, 0]));
    l.push(lemma(1, 0, 0, 0, 4, &[1, 0, 1]));
    l.push(lemma(2, 0, 0, 4, 0, &[1, 1, 0]));
    l.push(lemma(2, 0, 0, 0, 8, &[1, 0, 1]));
    l.push(lemma(3, 0, 0, 8, 0, &[1, 1]));
    l.push(lemma(0, 1, 0, 0, 0, &[1, 0])); // -(5-1)-1 = -5
    for cue in 0..4 {
        let rows = t.actions[cue as usize].guards.len();
        let m = [vec![1], vec![0; rows]].concat();
        let after = (cue + 1) % 4;
        l.extend((1..4).map(|i| lemma(cue, if after < i { 2 } else { 1 }, i, 0, 0, &m)));
    }
    l.extend((0..3).flat_map(|cue| split_lemmas(&t.ends(cue))));
    l.push(lemma(3, 3, 0, 0, 1, &[1, 1, 0])); // -(x-1)-1 + x-1 = -1
    l.push(lemma(3, 4, 0, 0, 0, &[1, 0])); // x-1-9-1, at most -2
    l.push(lemma(3, 3, 1, 0, 0, &[1, 0]));
    l.push(lemma(3, 4, 1, 0, 0, &[1, 0]));
    (t, l)
}

/// 0 (all fail) goes by 0 to 1 {P0, P1, not P2, not P3}, that by 1 to 2 {P0, P1, P2, not P3}, that by
/// 2 to 3 (all hold), that by 3 to 4 {not P1, not P2, not P3}, that by 0 to 1; there are no others.
fn cues(book: &mut Book) {
    let (t, l) = cue_row();
    let p = t.words();
    book.judge("cues", &p, &l.concat(), "SAFE nodes 5 edges 5");
    // P0 is not shown, so nothing is there to keep. Path 0 1 2.
    let l = leave_out(&l, &[lemma_word(0, 1, 0)]);
    book.judge("cues, P0 not shown", &p, &l, "RUNOFF node 3 action 3 variable 0 low nodes 5 edges 5");
}

/// 14 predicates, the even ones on variable 0 and the odd ones on variable 1. In fours, two are of
/// one kind at the start and two of the other. Action 0 keeps the even ones, which make node 1,
/// action 1 the odd ones, node 2; by the other action these lose all, node 3.
fn alternate(book: &mut Book) {
    let mut t = Text {
        vars: vec![(0, 9); 2],
        init: vec![never()],
        pred: (0..14).map(|i| on(&[i % 2])).collect(),
        actions: vec![setting(&[1]), setting(&[0])],
        bad: vec![],
    };
    let start = |goals: [u32; 4]| (0..14u32).flat_map(|i| t.forced(START, goals[i as usize % 4], i, 0, 0)).collect();
    let (up, down): (Vec<u32>, Vec<u32>) = (start([1, 1, 2, 2]), start([2, 2, 1, 1]));
    let ends = t.all_ends();
    for (name, first, bad, node) in [
        ("true 0, 1, false 2, 3, not P0 forbidden", &up, (1, 0), 2),
        ("true 0, 1, false 2, 3, not P13 forbidden", &up, (0x2000, 0), 1),
        ("true 0, 1, false 2, 3, P2 forbidden", &up, (0, 4), 2),
        ("true 0, 1, false 2, 3, P3 forbidden", &up, (0, 8), 1),
        ("false 0, 1, true 2, 3, P0 forbidden", &down, (0, 1), 2),
        ("false 0, 1, true 2, 3, P13 forbidden", &down, (0, 0x2000), 1),
        ("false 0, 1, true 2, 3, not P12 and P13 forbidden", &down, (0x1000, 0x2000), 1),
    ] {
        t.bad = vec![bad];
        let hand = format!("FORBID node {node} bad 0 nodes 4 edges 8");
        book.judge(&format!("alternate: {name}"), &t.words(), &[&first[..], &ends].concat(), &hand);
    }
    // All kept, none kept.
    t.bad = vec![(1, 0), (2, 0), (0, 4), (0, 8), (0, 0x400), (0, 0x800), (0x1000, 0), (0x2000, 0)];
    t.actions = vec![setting(&[])];
    book.judge("alternate: nothing set", &t.words(), &up, "SAFE nodes 1 edges 1");
    t.actions = vec![setting(&[0, 1])];
    book.judge("alternate: both set", &t.words(), &[up, t.ends(0)].concat(), "FORBID node 1 bad 0 nodes 2 edges 2");
}

/// Eight variables from 0 to 1, all 0 at the start, and P_v that variable v is 1; action v sets it.
pub fn eight(value: i32) -> (Text, Vec<u32>) {
    let t = Text {
        vars: vec![(0, 1); 8],
        init: (0..8).map(|v| row(0, &[(v, -1)])).collect(),
        pred: (0..8).map(|v| on(&[v])).collect(),
        actions: (0..8).map(|v| act(&[], &[(v, row(value, &[]))])).collect(),
        bad: vec![],
    };
    let mut l = t.all_ends();
    for v in 0..8 {
        let mut m = vec![0; 9];
        (m[0], m[v as usize + 1]) = (1, 1);
        l.extend(lemma(START, 2, v, 0, 0, &m)); // x-1 + -x = -1
    }
    (t, l)
}

fn eight_variables(book: &mut Book) {
    // Each action takes one literal away: the nodes are the subsets, those of seven in order.
    let (mut t, l) = eight(0);
    book.judge("eight, literals lost", &t.words(), &l, "SAFE nodes 256 edges 2048");
    t.bad = vec![(0, 0x81), (0, 0x80)];
    book.judge("eight, literals lost, P7 forbidden", &t.words(), &l, "FORBID node 8 bad 1 nodes 256 edges 2048");
    // 16 actions: 8 + v does as v.
    t.actions = [t.actions.clone(), t.actions.clone()].concat();
    t.bad = vec![(0, 0x40)];
    let l = [l, (8..16).flat_map(|action| t.ends(action)).collect()].concat();
    book.judge("eight, 16 actions, P6 forbidden", &t.words(), &l, "FORBID node 7 bad 0 nodes 256 edges 4096");
    // Each action makes its predicate hold; all others are kept. All hold at the last node, which is
    // found by the actions in order.
    let (mut t, l) = eight(1);
    let l = [l, (0..8).flat_map(|v| lemma(v, 1, v, 0, 0, &[1])).collect()].concat(); // -(1-1)-1 = -1
    t.bad = vec![(0, 0xFF)];
    book.judge("eight, literals turned", &t.words(), &l, "FORBID node 255 bad 0 nodes 256 edges 2048");
}

/// The subsets by what is kept: action i (below `bits`) has the guard P_i, shows P_i and sets
/// nothing. The actions from `bits` on have no lemma and lead back.
pub fn kept_subsets(bits: u32, actions: u32) -> (Text, Vec<u32>) {
    let (mut t, _) = subsets_text(bits, actions);
    t.actions.iter_mut().for_each(|action| action.sets.clear());
    let l = (0..bits.min(actions)).flat_map(|i| lemma(i, 1, i, 0, 0, &[1, 1])).collect(); // -P-1 + P = -1
    (t, l)
}

/// Graphs made large, or small, by what is kept.
fn kept_graphs(book: &mut Book) {
    for (bits, actions, hand) in [
        (3, 3, "SAFE nodes 8 edges 24"),
        (9, 9, "SAFE nodes 512 edges 4608"),
        (9, 16, "SAFE nodes 512 edges 8192"),
        (10, 10, "REFUSED 7 AT 512"),
        (14, 16, "REFUSED 7 AT 512"),
    ] {
        let (t, l) = kept_subsets(bits, actions);
        book.judge(&format!("kept subsets {bits}, {actions} actions"), &t.words(), &l, hand);
    }
    // Node 511 is the set of all nine, and keeps them: with P9 by action 15 it is the 513th.
    let (mut t, l) = kept_subsets(9, 16);
    t.pred.push(row(-50, &[(0, 1)]));
    let last = [l, t.forced(15, 1, 9, 0, 0x1FF)].concat();
    book.judge("kept, 513th node from node 511 action 15", &t.words(), &last, "REFUSED 7 AT 512");
    let none = [last, t.forced(15, 2, 9, 0, 0x1FF)].concat();
    book.judge("kept, none from node 511 action 15", &t.words(), &none, "SAFE nodes 512 edges 8191");
    // A counter that sets nothing: bit 0 is kept false and shown true.
    for bits in [4, 14] {
        let (mut t, l) = counter(bits, &[(0, 1)]);
        t.actions[0].sets.clear();
        let mut list = split_lemmas(&l);
        list.truncate(list.len() - 2);
        book.judge(&format!("counter {bits}, nothing set"), &t.words(), &list.concat(), "SAFE nodes 1 edges 0");
    }
}

/// The subsets by what is kept, and one node more: the last action happens where x is 0 and touches
/// all, so it leads from everywhere to the one node where its predicate is known, and there no other
/// action can happen.
fn lone_nodes(book: &mut Book) {
    for (bits, hand) in [(2, "SAFE nodes 5 edges 13"), (8, "SAFE nodes 257 edges 2305"), (9, "REFUSED 7 AT 512")] {
        let zero = row(0, &[(0, -1)]);
        let (mut t, mut l) = kept_subsets(bits, bits);
        t.pred.push(zero.clone());
        t.actions.push(act(&[zero], &[itself(0)]));
        l.extend(lemma(bits, 1, bits, 0, 0, &[1, 1])); // x-1 + -x = -1
        l.extend(t.ends(bits));
        l.extend((0..bits).flat_map(|i| lemma(i, 0, 0, 0, 1 << bits, &[1, 1]))); // -x + x-(i+1) = -(i+1)
        book.judge(&format!("kept subsets {bits} and one node"), &t.words(), &l, hand);
    }
}

/// "saying that a house-light cue doesn't change a fader predicate": the lemma's goal is a literal
/// that is among its premises, of a predicate that its action does not touch.
pub fn superfluous(program: &Program, lemma: &[u32]) -> bool {
    let (source, index) = (field(lemma[0], 27, 20) as usize, field(lemma[0], 7, 0) as usize);
    let premises = Literals::of_word(lemma[1]);
    let own = match field(lemma[0], 19, 16) {
        1 => premises.known_true >> index & 1 == 1,
        2 => premises.known_false >> index & 1 == 1,
        _ => false,
    };
    own && program.actions.get(source).is_some_and(|action| {
        (0..MAX_VARIABLES).all(|v| action.assigned(v).is_none() || program.predicates[index].coefficients[v] == 0)
    })
}

/// A lemma list without what request 1 makes superfluous.
pub fn needed(p: &[u32], l: &[u32]) -> Vec<u32> {
    let program = crate::program::read(p).expect("a good program");
    split_lemmas(l).into_iter().filter(|lemma| !superfluous(&program, lemma)).flatten().collect()
}

/// The same graphs as with all lemmas.
fn superfluous_lemmas(book: &mut Book) {
    let home = house().words();
    let list = house_lemmas();
    book.judge("house, own lemmas that are needed", &home, &needed(&home, &list.concat()), "SAFE nodes 3 edges 10");
    // Nor are those needed by which actions 0 and 1 show what they keep: P0 and P1 fail.
    let words = [lemma_word(0, 2, 0), lemma_word(1, 2, 1), lemma_word(2, 1, 1), lemma_word(2, 2, 1), lemma_word(3, 1, 0), lemma_word(3, 2, 0)];
    book.judge("house, six own lemmas fewer", &home, &leave_out(&list, &words), "SAFE nodes 3 edges 10");
    for (name, hand) in [
        ("house", "SAFE nodes 3 edges 10"),
        ("bakery", "SAFE nodes 9 edges 14"),
        ("rig8", "SAFE nodes 500 edges 5600"),
    ] {
        let (p, l) = show(name);
        book.judge(&format!("show {name}, lemmas that are needed"), &p, &needed(&p, &l), hand);
    }
}

/// rig8 with P6 and P7 forbidden as well. They are not known to fail for the first time at the node
/// that action 14 makes of node 7, which 12 makes of node 0. Nodes 1 to 8 are found from 0, 7 each from
/// 1 and 2, 5 each from 3 and 4, 3 each from 5 and 6: so it is node 39. Path 12 14.
fn rig8_unknown(book: &mut Book) {
    let (mut p, l) = show("rig8");
    p.insert(p.len() - 1, sets_word(0, 0xC0));
    book.judge("rig8, P6 and P7 forbidden", &p, &needed(&p, &l), "FORBID node 39 bad 3 nodes 500 edges 5600");
}

// ---------------------------------------------------------------------------------------------
// Chance

pub struct Dice(u64);

impl Dice {
    pub fn new(seed: u64) -> Dice {
        Dice(seed.wrapping_mul(0x9E37_79B9_7F4A_7C15) | 1)
    }

    pub fn next(&mut self) -> u64 {
        self.0 ^= self.0 << 13;
        self.0 ^= self.0 >> 7;
        self.0 ^= self.0 << 17;
        self.0.wrapping_mul(0x2545_F491_4F6C_DD1D) >> 16
    }

    pub fn below(&mut self, n: u32) -> u32 {
        (self.next() % u64::from(n)) as u32
    }

    pub fn between(&mut self, low: i32, high: i32) -> i32 {
        low + self.below((high - low + 1) as u32) as i32
    }

    /// Each number below n, or not.
    fn some(&mut self, n: u32) -> Vec<u32> {
        (0..n).filter(|_| self.below(2) == 0).collect()
    }

    fn row(&mut self, vars: usize, constant: i32) -> RowText {
        let mut terms = Vec::new();
        for v in 0..vars as u32 {
            let c = self.between(-2, 2);
            if c != 0 && self.below(3) > 0 {
                terms.push((v, c));
            }
        }
        (self.between(-constant, constant), terms)
    }
}

/// A small program by chance, and lemmas of which most are accepted.
pub fn small(seed: u64) -> (Text, Vec<u32>) {
    let mut dice = Dice::new(seed + 1000);
    let vars = 1 + dice.below(3) as usize;
    let mut t = Text::default();
    for _ in 0..vars {
        let low = dice.between(-3, 3);
        t.vars.push((low, low + dice.between(0, 6)));
    }
    for _ in 0..dice.below(3) {
        let r = dice.row(vars, 4);
        t.init.push(r);
    }
    let preds = dice.below(5);
    for _ in 0..preds {
        let r = dice.row(vars, 4);
        t.pred.push(r);
    }
    for _ in 0..dice.below(5) {
        let mut a = ActionText::default();
        for _ in 0..dice.below(3) {
            let r = dice.row(vars, 4);
            a.guards.push(r);
        }
        for v in 0..vars as u32 {
            if dice.below(3) == 0 {
                let (low, high) = t.vars[v as usize];
                let r = if dice.below(2) == 0 { (dice.between(low, high), vec![]) } else { dice.row(vars, 3) };
                a.sets.push((v, r));
            }
        }
        t.actions.push(a);
    }
    if preds > 0 {
        for _ in 0..dice.below(3) {
            let true_mask = dice.below(1 << preds);
            let false_mask = dice.below(1 << preds) & !true_mask;
            t.bad.push((false_mask, true_mask));
        }
    }
    let p = t.words();
    let mut l = Vec::new();
    let mut sources: Vec<u32> = (0..t.actions.len() as u32).collect();
    sources.push(START);
    for _ in 0..40 + dice.below(60) {
        let source = sources[dice.below(sources.len() as u32) as usize];
        let goal = dice.below(5);
        let index = match goal {
            0 => 0,
            1 | 2 if preds > 0 => dice.below(preds),
            3 | 4 if source != START && !t.actions[source as usize].sets.is_empty() => {
                let sets = &t.actions[source as usize].sets;
                sets[dice.below(sets.len() as u32) as usize].0
            }
            _ => continue,
        };
        let (mut f, mut tr) = (0, 0);
        if source != START && preds > 0 {
            for _ in 0..dice.below(3) {
                let bit = 1 << dice.below(preds);
                if (f | tr) & bit == 0 {
                    if dice.below(2) == 0 { f |= bit } else { tr |= bit }
                }
            }
        }
        let due = t.due(source, goal, f, tr);
        let mut found = None;
        for attempt in 0..60 {
            let m: Vec<u32> = (0..due).map(|_| dice.below(3)).collect();
            let one = lemma(source, goal, index, f, tr, &m);
            if crate::ask(&p, &one, 0) == crate::Asked::Accepted {
                found = Some(one);
                break;
            }
            if attempt == 59 && dice.below(12) == 0 {
                found = Some(one);
            }
        }
        l.extend(found.unwrap_or_default());
    }
    (t, l)
}

/// Lemmas at will over sources that never happen: larger graphs. Each predicate speaks of both
/// variables and each action sets one, so that literals are kept by lemmas only.
pub fn large(seed: u64) -> (Text, Vec<u32>) {
    let mut dice = Dice::new(seed + 5000);
    let preds = 3 + dice.below(12);
    let mut t = Text {
        vars: vec![(0, 3), (-1, 1)],
        init: vec![never()],
        pred: vec![row(0, &[(0, 1), (1, 1)]); preds as usize],
        actions: vec![],
        bad: vec![],
    };
    for _ in 0..1 + dice.below(16) {
        t.actions.push(act(&[never()], &[(dice.below(2), row(0, &[]))]));
    }
    let actions = t.actions.len() as u32;
    let mut l = Vec::new();
    for i in 0..preds {
        if dice.below(2) == 0 {
            l.extend(t.forced(START, 1 + dice.below(2), i, 0, 0));
        }
    }
    for a in 0..actions {
        for i in 0..preds {
            match dice.below(8) {
                0 => l.extend(t.forced(a, 1 + dice.below(2), i, 0, 0)),
                1..=4 => {
                    // keep the literal
                    l.extend(t.forced(a, 1, i, 0, 1 << i));
                    l.extend(t.forced(a, 2, i, 1 << i, 0));
                }
                5 => {
                    let other = dice.below(preds);
                    l.extend(t.forced(a, 1, i, 1 << other, 0));
                    if dice.below(2) == 0 {
                        l.extend(t.forced(a, 2, i, 0, 1 << other));
                    }
                }
                _ => {}
            }
        }
        if dice.below(3) == 0 {
            l.extend(t.forced(a, 0, 0, 1 << dice.below(preds), 0));
        }
        for (v, _) in t.actions[a as usize].sets.clone() {
            if dice.below(30) > 0 {
                l.extend(t.forced(a, 3, v, 0, 0));
            }
            if dice.below(30) > 0 {
                l.extend(t.forced(a, 4, v, 0, 0));
            }
        }
    }
    for _ in 0..dice.below(4) {
        let a = dice.below(1 << preds);
        let b = dice.below(1 << preds) & dice.below(1 << preds) & !a;
        t.bad.push((a & dice.below(1 << preds), b));
    }
    let list: Vec<Vec<u32>> = split_lemmas(&l);
    (t, list.into_iter().take(512).flatten().collect())
}

/// Lemmas at will over predicates of which each action may touch some and keep others: rows over
/// any of three variables, actions that set any of them. Most ends are shown.
pub fn mixed(seed: u64) -> (Text, Vec<u32>) {
    let mut dice = Dice::new(seed + 7000);
    let mut t = Text { vars: vec![(0, 3); 3], init: vec![never()], ..Text::default() };
    for _ in 0..2 + dice.below(13) {
        t.pred.push(on(&dice.some(3)));
    }
    for _ in 0..1 + dice.below(16) {
        let sets: Vec<_> = dice.some(3).into_iter().map(|v| (v, row(1, &[]))).collect();
        t.actions.push(act(&[never()], &sets));
    }
    let preds = t.pred.len() as u32;
    for _ in 0..dice.below(4) {
        let known = dice.below(1 << preds);
        let holds = dice.below(1 << preds) & known;
        t.bad.push((known & !holds, holds));
    }
    let mut l: Vec<u32> = split_lemmas(&t.all_ends()).into_iter().filter(|_| dice.below(60) > 0).flatten().collect();
    for i in 0..preds {
        if dice.below(5) > 0 {
            l.extend(t.forced(START, 1 + dice.below(2), i, 0, 0));
        }
    }
    for a in 0..t.actions.len() as u32 {
        for _ in 0..dice.below(preds) {
            let (goal, i, bit) = (1 + dice.below(2), dice.below(preds), 1 << dice.below(preds));
            let (f, t_) = [(0, 0), (bit, 0), (0, bit)][dice.below(3) as usize];
            l.extend(t.forced(a, goal, i, f, t_));
        }
    }
    (t, l)
}

fn random(book: &mut Book) {
    for seed in 0..24 {
        let (t, l) = small(seed);
        book.judge(&format!("small {seed}"), &t.words(), &l, "");
    }
    for seed in 0..20 {
        let (t, l) = large(seed);
        book.judge_with(&format!("large {seed}"), &t.words(), &l, GRAPH + seed as u32 % 3, PATH + seed as u32 % 2, "");
    }
    for seed in 0..20 {
        let (t, l) = mixed(seed);
        book.judge(&format!("mixed {seed}"), &t.words(), &l, "");
    }
    // Words changed, left out or put in by chance.
    for seed in 0..24u64 {
        let mut dice = Dice::new(seed + 9000);
        let (mut p, mut l) = match seed % 3 {
            0 => (demo().words(), demo_lemmas()),
            1 => (house().words(), house_lemmas().concat()),
            _ => {
                let (t, l) = small(seed);
                (t.words(), l)
            }
        };
        let target = if dice.below(2) == 0 || l.is_empty() { &mut p } else { &mut l };
        let at = dice.below(target.len() as u32) as usize;
        match dice.below(4) {
            0 | 1 => target[at] ^= 1 << dice.below(32),
            2 => {
                target.remove(at);
            }
            _ => {
                let word = target[dice.below(target.len() as u32) as usize];
                target.insert(at, word);
            }
        }
        if seed % 2 == 0 {
            book.judge(&format!("changed {seed}"), &p, &l, "");
        } else {
            let k = dice.below(8);
            book.ask(&format!("changed {seed}"), &p, &l, k, "");
        }
    }
}

// ---------------------------------------------------------------------------------------------
// Request 2: every finding on the sheet

fn request_2(book: &mut Book) {
    fade_findings(book);
    fade_lists(book);
    house_findings(book);
    empty_graph_findings(book);
    combination_findings(book);
    end_findings(book);
    findings_without_successor(book);
    findings_of_two_nodes(book);
    findings_with_what_is_kept(book);
    findings_at_the_last_node(book);
    many_findings(book);
    findings_refused(book);
    findings_by_chance(book);
}

fn found(count: usize) -> String {
    format!("FINDINGS {count}")
}

/// Lemma k of Fade shows the low end (k even) or the high end of action k / 2: without it, one finding.
fn fade_findings(book: &mut Book) {
    let list = split_lemmas(&FADE_LEMMAS);
    for length in [0, 1, 600] {
        book.findings(&format!("fade, list of {length}"), &FADE, &FADE_LEMMAS, length, &found(0));
    }
    for mask in 1..16 {
        let left_out: Vec<usize> = (0..4).filter(|k| mask >> k & 1 == 1).collect();
        let l = leave_out(&list, &left_out.iter().map(|k| list[*k][0]).collect::<Vec<_>>());
        book.findings(&format!("fade without lemmas {left_out:?}"), &FADE, &l, 4, &found(left_out.len()));
    }
    let reversed = [&list[3][..], &list[0]].concat();
    book.findings("fade, lemmas 3 and 0 in this order", &FADE, &reversed, 4, &found(2));
    let mut zero = FADE_LEMMAS.to_vec();
    zero[10] = make(MULT, 0); // lemma 2: 1 and 0
    book.findings("fade, lemma 2 all 0", &FADE, &zero, 4, &found(1));
}

/// Fade with no lemmas has four findings, without its last lemma one.
fn fade_lists(book: &mut Book) {
    for (graph, list) in [(GRAPH, 600), (GRAPH, 16_384), (GRAPH + 1, 4), (16_384, 4)] {
        book.findings_with(&format!("fade, no lemmas, {graph}/{list}"), &FADE, &[], graph, list, &found(4));
    }
    for (graph, list) in [(GRAPH, 3), (GRAPH, 0), (16_384, 3)] {
        let name = format!("fade, no lemmas, {graph}/{list}");
        book.findings_with(&name, &FADE, &[], graph, list, "REFUSED 12 AT 4");
    }
    book.findings("fade without its last lemma, list of 1", &FADE, &FADE_LEMMAS[..12], 1, &found(1));
    book.findings("fade without its last lemma, list of 0", &FADE, &FADE_LEMMAS[..12], 0, "REFUSED 12 AT 1");
    book.findings_with("fade, longer graph list, list of 0", &FADE, &FADE_LEMMAS, 16_384, 0, &found(0));
}

/// House: one combination; actions 0 and 3 set house, 1 and 2 set level.
fn house_findings(book: &mut Book) {
    let (mut t, list) = (house(), house_lemmas());
    let home = t.words();
    // One node without literals: the combination, and both ends for four actions.
    book.findings("house, no lemmas", &home, &[], 9, &found(9));
    book.findings("house, no lemmas, list of 8", &home, &[], 8, "REFUSED 12 AT 9");
    book.findings("house, no lemmas, list of 10", &home, &[], 10, &found(9));
    book.findings("house, full lemmas", &home, &list.concat(), 7, &found(0));
    // The graph of the full lemmas: four actions at node 0, three each at nodes 1 and 2.
    let no_ends: Vec<u32> = list.iter().filter(|l| field(l[0], 19, 16) < 3).flatten().copied().collect();
    book.findings("house, no ends shown", &home, &no_ends, 20, &found(20));
    let fewer = needed(&home, &list.concat());
    for (name, word, count) in [
        ("house low by action 0", lemma_word(0, 3, 1), 2),
        ("level high by action 2", lemma_word(2, 4, 0), 3),
    ] {
        let l = leave_out(&split_lemmas(&fewer), &[word]);
        book.findings(&format!("house, {name} not shown"), &home, &l, 5, &found(count));
    }
    // At node 3 alone the combination is not contradicted.
    book.findings("house, P0 kept", &home, &leave_out(&list, &HOUSE_P0_KEPT), 5, &found(1));
    // 0 {not P0, not P1}: 1 and 4; 1 {not P0, P1}: 2 and 4; 2 {P0, not P1}: 3 and 4.
    t.bad = vec![(0, 3), (3, 0), (1, 2), (2, 1), (0, 0)];
    book.findings("house, five combinations", &t.words(), &fewer, 8, &found(6));
}

/// An action that can never happen, so that lemmas are at will; it sets these variables to 0.
fn shut(variables: &[u32]) -> ActionText {
    act(&[never()], &variables.iter().map(|v| (*v, row(0, &[]))).collect::<Vec<_>>())
}

/// Predicates without terms, which all actions keep; neither start nor actions can happen, so that
/// lemmas are at will. The actions are given by the variables that they set.
pub fn at_will(predicates: usize, sets: &[Vec<u32>], bad: &[(u32, u32)]) -> Text {
    let highest = sets.iter().flatten().max().unwrap_or(&0);
    Text {
        vars: vec![(0, 1); *highest as usize + 1],
        init: vec![never()],
        pred: vec![row(0, &[]); predicates],
        actions: sets.iter().map(|variables| shut(variables)).collect(),
        bad: bad.to_vec(),
    }
}

/// The same, and action i (below `bits`) shows P_i: the nodes are the sets of predicates, by size, and
/// the one of all is the last. Each action has a successor everywhere.
pub fn switches(bits: u32, sets: &[Vec<u32>], bad: &[(u32, u32)]) -> (Text, Vec<u32>) {
    let t = at_will(bits as usize, sets, bad);
    let l = (0..bits).flat_map(|i| t.forced(i, 1, i, 0, 0)).collect();
    (t, l)
}

/// Lemmas for these ends: action, variable, goal.
fn forced_ends(t: &Text, ends: &[(u32, u32, u32)]) -> Vec<u32> {
    ends.iter().flat_map(|(action, variable, goal)| t.forced(*action, *goal, *variable, 0, 0)).collect()
}

/// "if it has no successor the graph is empty": no findings, whatever the combinations and ends.
fn empty_graph_findings(book: &mut Book) {
    let t = at_will(1, &[vec![0]], &[(0, 0), (0, 1)]);
    let p = t.words();
    let cannot = t.forced(START, 0, 0, 0, 0);
    let clash = [t.forced(START, 1, 0, 0, 0), t.forced(START, 2, 0, 0, 0)].concat();
    book.findings("empty graph by goal 0", &p, &cannot, 3, &found(0));
    book.findings_with("empty graph by goal 0, longer", &p, &cannot, GRAPH + 3, 0, &found(0));
    book.findings("empty graph by contradiction", &p, &clash, 2, &found(0));
    // Otherwise both combinations and both ends.
    let not = lemma(START, 0, 0, 0, 0, &[0]);
    book.findings("goal 0 of the start not accepted", &p, &not, 5, &found(4));
    // Nothing that could be found.
    let p = at_will(0, &[], &[]).words();
    book.findings("no actions, no combinations", &p, &[], 2, &found(0));
    let p = at_will(0, &vec![vec![]; 16], &[]).words();
    book.findings("16 actions that set nothing", &p, &[], 2, &found(0));
}

/// "each node with each combination it doesn't contradict". One node {P0, not P1}, no actions; then several
/// nodes.
fn combination_findings(book: &mut Book) {
    let t = at_will(4, &[], &[]);
    let l = [t.forced(START, 1, 0, 0, 0), t.forced(START, 2, 1, 0, 0)].concat();
    let seven = [(1, 0), (0, 2), (1, 2), (3, 0), (0, 3), (1, 4), (4, 2)];
    let with = |last: (u32, u32)| [&seven[..], &[last]].concat();
    let second = vec![(2, 1), (1, 0), (0, 1), (0, 2), (2, 0), (3, 0), (4, 8), (1, 8)];
    for (name, bad, count) in [
        ("contradicted by one of two", vec![(0, 3)], 0),
        ("the node itself", vec![(2, 1)], 1),
        ("other predicates", vec![(8, 4)], 1),
        ("the empty one", vec![(0, 0)], 1),
        ("third and fourth of four", vec![(1, 0), (0, 2), (8, 0), (0, 0)], 2),
        ("equal ones", vec![(1, 0), (2, 1), (2, 1)], 2),
        ("last of eight", with((0, 8)), 1),
        ("all eight contradicted", with((1, 8)), 0),
        ("every second of eight", second, 4),
        ("eight empty ones", vec![(0, 0); 8], 8),
    ] {
        book.findings(&format!("combinations, {name}"), &at_will(4, &[], &bad).words(), &l, 8, &found(count));
    }
    // {}, {P0}, {P1}, {P0, P1}: not P0 is contradicted at the second and the fourth.
    let (t, l) = switches(2, &[vec![], vec![]], &[(1, 0), (0, 0)]);
    book.findings("combinations at four nodes", &t.words(), &l, 6, &found(6));
    let (t, l) = switches(3, &[vec![], vec![], vec![]], &[(0, 0)]);
    book.findings("the empty combination at eight nodes", &t.words(), &l, 9, &found(8));
}

/// "each node, action that has a successor there, variable it sets and end without an applying lemma". One
/// node without literals, to which all actions lead back.
fn end_findings(book: &mut Book) {
    let all: Vec<u32> = (0..8).collect();
    let both = all.iter().flat_map(|v| [(0, *v, 3), (0, *v, 4)]);
    let but_one: Vec<_> = both.filter(|end| *end != (0, 7, 4)).collect();
    let last = [vec![vec![]; 15], vec![vec![7]]].concat();
    let each: Vec<Vec<u32>> = (0..16).map(|action| vec![action % 8]).collect();
    for (name, sets, shown, count) in [
        ("both missing", vec![vec![0]], vec![], 2),
        ("high missing", vec![vec![0]], vec![(0, 0, 3)], 1),
        ("low missing", vec![vec![0]], vec![(0, 0, 4)], 1),
        ("none missing", vec![vec![0]], vec![(0, 0, 4), (0, 0, 3)], 0),
        ("variable 7", vec![vec![7]], vec![], 2),
        ("eight variables", vec![all.clone()], vec![], 16),
        ("eight variables, high of 7 missing", vec![all], but_one, 1),
        ("action 15", last, vec![], 2),
        ("16 actions", each, vec![], 32),
        ("action 1 of three sets", vec![vec![], vec![0], vec![]], vec![], 2),
        ("lemmas of the other action", vec![vec![0], vec![0]], vec![(0, 0, 3), (0, 0, 4)], 2),
        ("some of eight", vec![vec![0, 1]; 2], vec![(0, 0, 3), (0, 0, 4), (1, 1, 3)], 5),
    ] {
        let t = at_will(0, &sets, &[]);
        book.findings(&format!("ends, {name}"), &t.words(), &forced_ends(&t, &shown), 32, &found(count));
    }
    let t = at_will(0, &[vec![0]], &[]);
    let l = [lemma(0, 3, 0, 0, 0, &[0, 0]), forced_ends(&t, &[(0, 0, 4)])].concat();
    book.findings("ends, low by a lemma that is not accepted", &t.words(), &l, 2, &found(1));
}

/// Actions 0 and 1 set variables 0 and 1, no end is shown; where an action has no successor its ends are
/// not listed.
fn findings_without_successor(book: &mut Book) {
    let t = at_will(1, &[vec![0], vec![1]], &[(0, 0)]);
    let p = t.words();
    let cannot = |action: u32| t.forced(action, 0, 0, 0, 0);
    let (holds, fails) = (t.forced(0, 1, 0, 0, 0), t.forced(0, 2, 0, 0, 0));
    for (name, l, count) in [
        ("no action gone", vec![], 5),
        ("action 0 gone by goal 0", vec![cannot(0)], 3),
        ("action 1 gone by goal 0", vec![cannot(1)], 3),
        ("both gone", vec![cannot(0), cannot(1)], 1),
        ("action 0 gone by a clash", vec![holds, fails.clone()], 3),
        ("action 0 gone by what it keeps", vec![t.forced(START, 1, 0, 0, 0), fails], 3),
        ("goal 0 not accepted", vec![lemma(0, 0, 0, 0, 0, &[0])], 5),
    ] {
        book.findings(name, &p, &l.concat(), 5, &found(count));
    }
    // Node 0 {} goes by 0 to 1 {P0}, where action 1 cannot happen.
    let (t, l) = switches(1, &[vec![0], vec![1]], &[]);
    let l = [l, t.forced(1, 0, 0, 0, 1)].concat();
    book.findings("action 1 gone at node 1 only", &t.words(), &l, 6, &found(6));
}

/// Two nodes: 0 {not P0} goes by 0 to 1 {P0}, and that to itself; action 1 leads back from each. Action 0
/// touches P0, action 1 keeps it. The lemmas are those of the graph.
pub fn two_nodes(bad: &[(u32, u32)]) -> (Text, Vec<u32>) {
    let mut t = at_will(1, &[vec![0], vec![1]], bad);
    t.pred = vec![on(&[0])];
    let l = [t.forced(START, 2, 0, 0, 0), t.forced(0, 1, 0, 0, 0)].concat();
    (t, l)
}

fn findings_of_two_nodes(book: &mut Book) {
    let (t, l) = two_nodes(&[]);
    book.findings("two nodes, no ends shown", &t.words(), &l, 8, &found(8));
    // All ends shown but the high one of action 1.
    let but_high = [l, forced_ends(&t, &[(0, 0, 3), (0, 0, 4), (1, 1, 3)])].concat();
    let (at_0, at_1) = (t.forced(1, 4, 1, 1, 0), t.forced(1, 4, 1, 0, 1));
    for (name, more, count) in [
        ("shown at none", vec![], 2),
        ("shown at 0", at_0.clone(), 1),
        ("shown at 1", at_1.clone(), 1),
        ("shown at each by its own lemma", [at_1, at_0].concat(), 0),
        ("shown by a lemma that is not accepted", lemma(1, 4, 1, 0, 0, &[0, 0]), 2),
    ] {
        let l = [&but_high[..], &more].concat();
        book.findings(&format!("two nodes, high {name}"), &t.words(), &l, 3, &found(count));
    }
    // Node 0: combination 1, low by action 1; node 1: combination 0, low by action 1.
    let (t, l) = two_nodes(&[(0, 1), (1, 0)]);
    let l = [l, forced_ends(&t, &[(0, 0, 3), (0, 0, 4), (1, 1, 4)])].concat();
    book.findings("two nodes, combinations and low ends", &t.words(), &l, 4, &found(4));
}

/// Request 1: literals that are kept contradict combinations; where an action leads back by what it keeps,
/// its ends are listed all the same.
fn findings_with_what_is_kept(book: &mut Book) {
    let (t, l) = single(2, on(&[0]), 1, setting(&[1]));
    let list = split_lemmas(&l); // the start's, low, high
    book.findings("P0 kept, its failing forbidden", &t.words(), &l, 3, &found(0));
    book.findings("P0 kept, no ends shown", &t.words(), &list[0], 3, &found(2));
    book.findings("P0 kept, low end shown", &t.words(), &without(&list, 2), 3, &found(1));
    let (t, l) = single(2, on(&[0]), 1, setting(&[0]));
    book.findings("P0 touched, its failing forbidden", &t.words(), &l, 3, &found(1));
    // 0 {P0, not P1}, 1 {not P1}, 2 {P0}, 3 {}. P1 is not contradicted at 2 and 3, not P0 at 1 and 3.
    let (t, l) = pair(&[setting(&[0]), setting(&[1])], &[(0, 2), (1, 0)]);
    let l = [l, t.all_ends()].concat();
    book.findings("x set, y set, P1 and not P0 forbidden", &t.words(), &l, 5, &found(4));
}

/// 512 nodes: nine predicates that all fail at the start, and action i below 9 takes that literal away and
/// keeps the others, by lemmas where it touches them. Node 511 has none left. P0 to P5 speak of variables
/// 0 to 5, the other three of 6; action 15 sets variable 7, the others nothing. All ends are shown but the
/// high one of action 15, and that one where some literal is left.
pub fn last_node(bad: &[(u32, u32)]) -> (Text, Vec<u32>) {
    let variable = |i: u32| i.min(6);
    let idle = vec![vec![]; 6];
    let sets = [(0..9).map(|i| vec![variable(i)]).collect(), idle, vec![vec![7]]].concat();
    let mut t = at_will(0, &sets, bad);
    t.pred = (0..9).map(|i| on(&[variable(i)])).collect();
    let mut l = [t.all_ends()[..18 * 4].to_vec(), t.forced(15, 3, 7, 0, 0)].concat();
    for i in 0..9 {
        l.extend(t.forced(START, 2, i, 0, 0));
        l.extend(t.forced(15, 4, 7, 1 << i, 0));
        let others = (0..9).filter(|j| *j != i && variable(*j) == variable(i));
        l.extend(others.flat_map(|j| t.forced(i, 2, j, 1 << j, 0)));
    }
    (t, l)
}

fn findings_at_the_last_node(book: &mut Book) {
    // All nine hold: contradicted wherever a literal is left.
    let (t, l) = last_node(&[(0, 0x1FF); 8]);
    book.findings("node 511, eight combinations and a high end", &t.words(), &l, 9, &found(9));
}

/// 512 nodes, nine predicates: the sets of `switches`.
fn many_findings(book: &mut Book) {
    let idle = vec![vec![]; 9];
    let (t, l) = switches(9, &idle, &[(0x1FF, 0)]);
    book.findings("512 nodes, a combination at node 0 only", &t.words(), &l, 2, &found(1));
    let (t, l) = switches(9, &idle, &[(0, 0); 2]);
    book.findings("1,024 findings", &t.words(), &l, 1024, &found(1024));
    book.findings("1,024 findings, list of 1,023", &t.words(), &l, 1023, "REFUSED 12 AT 1024");
    book.findings_with("1,024 findings, longer lists", &t.words(), &l, GRAPH + 2, 1030, &found(1024));
    // 16 actions, one variable each, both ends.
    let each: Vec<Vec<u32>> = (0..16).map(|action| vec![action % 8]).collect();
    let (t, l) = switches(9, &each, &[]);
    book.findings("16,384 findings", &t.words(), &l, 16_384, &found(16_384));
    book.findings("16,384 findings, list of 16,383", &t.words(), &l, 16_383, "REFUSED 12 AT 16384");
    // 512 x (8 + 16 x 8 x 2), the most.
    let (t, l) = switches(9, &vec![(0..8).collect(); 16], &[(0, 0); 8]);
    book.findings("135,168 findings, list of 16,384", &t.words(), &l, 16_384, "REFUSED 12 AT 135168");
}

/// Every refusal, where the list is too short as well; and refusal 1 before each.
fn findings_refused(book: &mut Book) {
    let changed = |at: usize, word: u32| {
        let mut p = FADE.to_vec();
        p[at] = word;
        p
    };
    // 1,024 nodes, with an empty combination; the start has no rows.
    let (mut t, tens) = switches(10, &vec![vec![]; 10], &[(0, 0)]);
    t.init.clear();
    let wide = t.words();
    let five = [&tens[..], &[0]].concat();
    let mut six = [tens.clone(), lemma(START, 0, 0, 0, 0, &[]).repeat(502)].concat();
    six.push(make(LEMMA, PAYLOAD));
    let faults: Vec<(&str, Vec<u32>, &[u32], String)> = vec![
        ("2", FADE[..15].to_vec(), &[], refused(2, 15)),
        ("3", changed(2, make(PRED, 15)), &[], refused(3, 2)),
        ("4", changed(5, term_word(0, 0)), &[], refused(4, 5)),
        ("4, lemma 5", changed(0, var_word(1, 0)), &FADE_LEMMAS[1..3], refused(4, 0)),
        ("5", FADE.to_vec(), &FADE_LEMMAS[..3], refused(5, 3)),
        ("5, 1,024 nodes", wide.clone(), &five, refused(5, 40)),
        ("6, 1,024 nodes", wide.clone(), &six, refused(6, 1044)),
        ("7", wide, &tens, refused(7, 512)),
        ("12", FADE.to_vec(), &[], refused(12, 4)),
        ("none", FADE.to_vec(), &FADE_LEMMAS, found(0)),
    ];
    for (name, p, l, hand) in &faults {
        book.findings_with(&format!("refused, {name}, list of 3"), p, l, GRAPH + 5, 3, hand);
    }
    for (name, p, l, _) in &faults {
        for (graph, list) in [(GRAPH - 1, 3), (0, 600)] {
            // One fault at a time; 6 once, for its length.
            if !name.contains(", ") || name.starts_with('6') && graph > 0 {
                let name = format!("refused, {name}, {graph}/{list}");
                book.findings_with(&name, p, l, graph, list, "REFUSED 1 AT 0");
            }
        }
    }
    for (name, p, l, hand) in faults.iter().filter(|(name, ..)| *name == "2" || *name == "7") {
        book.findings(&format!("refused, {name}, list of 600"), p, l, 600, hand);
    }
}

/// Lemmas at will by chance: three predicates on any of three variables, three actions that set any of
/// them and one that sets the last, two combinations. Some of the ends are shown.
pub fn sheet(seed: u64) -> (Text, Vec<u32>) {
    let mut dice = Dice::new(seed + 11_000);
    let sets: Vec<Vec<u32>> = (0..3).map(|_| dice.some(3)).collect();
    let mut t = at_will(0, &[sets, vec![vec![2]]].concat(), &[]);
    t.pred = (0..3).map(|_| on(&dice.some(3))).collect();
    for _ in 0..2 {
        let known = dice.below(8);
        let holds = dice.below(8) & known;
        t.bad.push((known & !holds, holds));
    }
    let ends = split_lemmas(&t.all_ends());
    let mut l: Vec<u32> = ends.into_iter().filter(|_| dice.below(3) == 0).flatten().collect();
    for i in dice.some(3) {
        l.extend(t.forced(START, 1 + dice.below(2), i, 0, 0));
    }
    for action in 0..4 {
        for _ in 0..2 {
            let bit = 1 << dice.below(3);
            let (f, holds) = [(0, 0), (bit, 0), (0, bit)][dice.below(3) as usize];
            let sets = &t.actions[action as usize].sets;
            let goal = dice.below(if sets.is_empty() { 3 } else { 5 });
            let index = match goal {
                0 => 0,
                1 | 2 => dice.below(3),
                _ => sets[dice.below(sets.len() as u32) as usize].0,
            };
            l.extend(t.forced(action, goal, index, f, holds));
        }
    }
    (t, l)
}

fn findings_by_chance(book: &mut Book) {
    for seed in 0..5 {
        let (t, l) = sheet(seed);
        book.findings(&format!("sheet {seed}"), &t.words(), &l, 40, "");
    }
}

// ---------------------------------------------------------------------------------------------
// Request 6: distance in the node record

/// The least length of the graph list before request 6: "9,728 words, which replaces 9,216 throughout 01".
pub const OLD_GRAPH: u32 = 9_216;

fn request_6(book: &mut Book) {
    rooms(book);
    rooms_before_faults(book);
    zeroed_rooms(book);
    rings(book);
    chains(book);
    rings_by_chance(book);
}

/// The records of Findings stand behind all others.
fn request_6_findings(book: &mut Book) {
    findings_rooms(book);
    zeroed_findings_rooms(book);
    let (t, l) = all_at_once(&[(0, 0)]);
    book.findings("rings, the empty combination at five nodes", &t.words(), &l, 6, &found(5));
}

/// "refusal 1 uses the new length": the old room, one word less and one more, are too short. One word short
/// of the new room and exactly that: `short_lists` and `worked`.
fn rooms(book: &mut Book) {
    let short = "REFUSED 1 AT 0";
    for (graph, path, hand) in [
        (OLD_GRAPH - 1, PATH, short),
        (OLD_GRAPH, PATH, short),
        (OLD_GRAPH + 1, PATH, short),
        (OLD_GRAPH, PATH - 1, short),
        (GRAPH + 1, PATH, "SAFE nodes 1 edges 2"),
    ] {
        book.judge_with(&format!("room {graph}/{path}, fade"), &FADE, &FADE_LEMMAS, graph, path, hand);
    }
    let name = format!("room {OLD_GRAPH}/{PATH}, house");
    book.judge_with(&name, &house().words(), &house_lemmas().concat(), OLD_GRAPH, PATH, short);
    // 512 nodes with 16 actions fill the new room to its last word (`kept_graphs`).
    let (t, l) = kept_subsets(9, 16);
    book.judge_with(&format!("room {OLD_GRAPH}/{PATH}, 512 nodes"), &t.words(), &l, OLD_GRAPH, PATH, short);
}

/// 1,024 nodes: a 513th is needed.
fn too_many() -> (Vec<u32>, Vec<u32>) {
    let (t, l) = switches(10, &vec![vec![]; 10], &[]);
    (t.words(), l)
}

/// At the old room 1 comes before 2, 5 and 7.
fn rooms_before_faults(book: &mut Book) {
    let (wide, tens) = too_many();
    let bad_lemma = [make(MULT, 0)];
    let faults: [(&str, &[u32], &[u32]); 3] =
        [("empty program", &[], &[]), ("bad lemma", &FADE, &bad_lemma), ("513 nodes", &wide, &tens)];
    for (name, p, l) in faults {
        book.judge_with(&format!("room {OLD_GRAPH}/{PATH}, {name}"), p, l, OLD_GRAPH, PATH, "REFUSED 1 AT 0");
    }
}

/// Refusal 7: "first [9,728] graph words become zero". The lists are lent with no zero, so that those before
/// the last word of the room and those behind it show.
fn zeroed_rooms(book: &mut Book) {
    let (p, l) = too_many();
    for graph in [GRAPH, GRAPH + 1, GRAPH + 2] {
        book.judge_with(&format!("room {graph}/{PATH}, 7"), &p, &l, graph, PATH, "REFUSED 7 AT 512");
    }
}

/// Four predicates that are kept. Actions 0, 1 and 2 show P0, P1 where P0 holds, P2 where P1 holds; action 3
/// shows all four. 0 {} goes to 1 {P0}, 0, 0, 2 (all); 1 to 1, 3 {P0, P1}, 1, 2; 2 to itself; 3 to 3, 3, 4
/// {P0, P1, P2}, 2; 4 to 4, 4, 4, 2. Distances 0, 1, 1, 2, 3.
pub fn all_at_once(bad: &[(u32, u32)]) -> (Text, Vec<u32>) {
    let t = at_will(4, &vec![vec![]; 4], bad);
    let steps = [t.forced(0, 1, 0, 0, 0), t.forced(1, 1, 1, 0, 1), t.forced(2, 1, 2, 0, 2)].concat();
    let all: Vec<u32> = (0..4).flat_map(|i| t.forced(3, 1, i, 0, 0)).collect();
    let l = [steps, all].concat();
    (t, l)
}

/// Three predicates that fail at the start, each on its own variable. Action 0 loses the first literal, 1 the
/// second where the first is lost, 2 the third where the second is lost; action 3 loses the first two. 0 (all
/// three) goes to 1 (the last two), 0, 0, 2 (the last); 1 to 1, 2, 1, 2; 2 to 2, 2, 3 (none), 2; 3 to itself.
/// Distances 0, 1, 1, 2. That all hold is contradicted but at node 3. Path 3 2.
pub fn two_ways() -> (Text, Vec<u32>) {
    let mut t = at_will(0, &[vec![0], vec![1], vec![2], vec![0, 1]], &[(0, 7)]);
    t.pred = (0..3).map(|v| on(&[v])).collect();
    let start: Vec<u32> = (0..3).flat_map(|i| t.forced(START, 2, i, 0, 0)).collect();
    let kept = [t.forced(1, 2, 1, 3, 0), t.forced(2, 2, 2, 6, 0)].concat();
    let l = [start, kept, t.all_ends()].concat();
    (t, l)
}

/// Two times `side` predicates that are kept. Action 0 shows the next of the first ones, action 1 the next of
/// the others: a node for each pair of numbers up to `side`. The distance is the sum of the two.
pub fn grid(side: u32) -> (Text, Vec<u32>) {
    let t = at_will(2 * side as usize, &[vec![], vec![]], &[]);
    let next = |action: u32, i: u32| {
        let index = action * side + i;
        t.forced(action, 1, index, 0, if i == 0 { 0 } else { 1 << (index - 1) })
    };
    let l = (0..2).flat_map(|action| (0..side).flat_map(move |i| next(action, i))).collect();
    (t, l)
}

/// `top` predicates that are kept. Action 0 shows the next one, action 1 the next two: node n has the first
/// n, and the distance is n / 2, rounded up.
pub fn by_two(top: u32) -> (Text, Vec<u32>) {
    let t = at_will(top as usize, &[vec![], vec![]], &[]);
    let before = |i: u32, steps: u32| if i < steps { 0 } else { 1 << (i - steps) };
    let shown = |action: u32, i: u32| t.forced(action, 1, i, 0, before(i, action + 1));
    let l = (0..2).flat_map(|action| (0..top).flat_map(move |i| shown(action, i))).collect();
    (t, l)
}

/// Graphs whose distances are not the node numbers.
fn rings(book: &mut Book) {
    let (t, l) = all_at_once(&[]);
    book.judge("rings, all at once", &t.words(), &l, "SAFE nodes 5 edges 20");
    let (t, l) = two_ways();
    book.judge("rings, two ways", &t.words(), &l, "FORBID node 3 bad 0 nodes 4 edges 16");
    let (t, l) = grid(7);
    book.judge("rings, grid", &t.words(), &l, "SAFE nodes 64 edges 128");
    let (t, l) = by_two(6);
    book.judge("rings, by two", &t.words(), &l, "SAFE nodes 7 edges 14");
}

/// 16 actions, of which action 15 shifts a register of nine bits (P0 to P8): each bit takes the value of the
/// one before it, bit 0 that of "bit 8 or bit 4, not both". From bit 0 alone it comes back after 511 steps
/// (x^9 + x^5 + 1 is primitive); the last set before is bit 8 alone, which is forbidden. One more action
/// makes one set of bits, given as a number, from everywhere; the other 14 cannot happen. The ends are shown.
fn register(predicates: usize, maker: u32, bits: u32) -> (Text, Vec<u32>) {
    let acting = |action: u32| action == maker || action == 15;
    let t = Text {
        vars: vec![(0, 0)],
        init: vec![never()],
        pred: vec![row(0, &[(0, 1)]); predicates],
        actions: (0..16).map(|action| shut(if acting(action) { &[0] } else { &[] })).collect(),
        bad: vec![(0x0FF, 0x100)],
    };
    let mut l = t.all_ends();
    l.extend((0..16).filter(|action| !acting(*action)).flat_map(|action| t.forced(action, 0, 0, 0, 0)));
    l.extend((0..9).flat_map(|i| t.forced(maker, if bits >> i & 1 == 1 { 1 } else { 2 }, i, 0, 0)));
    for i in 0..8 {
        l.extend([t.forced(15, 1, i + 1, 0, 1 << i), t.forced(15, 2, i + 1, 1 << i, 0)].concat());
    }
    for (goal, f, holds) in [(1, 0x010, 0x100), (1, 0x100, 0x010), (2, 0, 0x110), (2, 0x110, 0)] {
        l.extend(t.forced(15, goal, 0, f, holds));
    }
    (t, l)
}

/// 512 nodes of 19 words, each one step farther than the last. The start is {P9}, where 15 cannot happen; 0
/// makes bit 0 alone, which is node 1. Path 0, then 510 times 15.
pub fn long_chain() -> (Text, Vec<u32>) {
    let (mut t, mut l) = register(10, 0, 0x001);
    t.bad[0].0 |= 0x200; // P9 contradicts it at node 0
    l.extend([t.forced(START, 1, 9, 0, 0), t.forced(15, 0, 0, 0, 0x200)].concat());
    (t, l)
}

/// The start is bit 0 alone. Action 7 makes the set of no bits from everywhere, node 1, which 15 leaves as it
/// is: from node 2 on the distance is one less than the number. Path 510 times 15.
pub fn chain_beside() -> (Text, Vec<u32>) {
    let (t, mut l) = register(9, 7, 0x000);
    l.extend((0..9).flat_map(|i| t.forced(START, if i == 0 { 1 } else { 2 }, i, 0, 0)));
    (t, l)
}

/// The greatest distances. 512 nodes in a row with one action: `graphs`, "counter 9".
fn chains(book: &mut Book) {
    let (t, l) = long_chain();
    let hand = "FORBID node 511 bad 0 nodes 512 edges 1023";
    book.judge("chain of 511 steps, 16 actions", &t.words(), &l, hand);
    let (t, l) = chain_beside();
    let hand = "FORBID node 511 bad 0 nodes 512 edges 1024";
    book.judge("chain beside a node, 16 actions", &t.words(), &l, hand);
}

/// Predicates that are kept and actions that show some of them by chance, most where another is known.
pub fn ringed(seed: u64) -> (Text, Vec<u32>) {
    let mut dice = Dice::new(seed + 13_000);
    let t = at_will(7, &vec![vec![]; 3], &[]);
    let mut l = Vec::new();
    for action in 0..3 {
        for _ in 0..5 {
            let (index, bit) = (dice.below(7), 1 << dice.below(7));
            let (goal, f, holds) =
                [(1, 0, 0), (1, 0, bit), (1, 0, bit), (2, 0, bit), (1, bit, 0)][dice.below(5) as usize];
            l.extend(t.forced(action, goal, index, f, holds));
        }
    }
    (t, l)
}

fn rings_by_chance(book: &mut Book) {
    for seed in 0..4 {
        let (t, l) = ringed(seed);
        book.judge(&format!("rings by chance {seed}"), &t.words(), &l, "");
    }
}

/// Fade with no lemmas has four findings; 1 comes before 12.
fn findings_rooms(book: &mut Book) {
    for (graph, list) in [(OLD_GRAPH - 1, 4), (OLD_GRAPH, 4), (OLD_GRAPH, 3), (GRAPH - 1, 4)] {
        book.findings_with(&format!("room {graph}/{list}, fade"), &FADE, &[], graph, list, "REFUSED 1 AT 0");
    }
    book.findings_with(&format!("room {GRAPH}/4, fade"), &FADE, &[], GRAPH, 4, &found(4));
}

fn zeroed_findings_rooms(book: &mut Book) {
    let (p, l) = too_many();
    let (short, full) = ("REFUSED 1 AT 0", "REFUSED 7 AT 512");
    for (graph, hand) in [(OLD_GRAPH, short), (GRAPH + 1, full), (GRAPH + 2, full)] {
        book.findings_with(&format!("room {graph}/4, 7"), &p, &l, graph, 4, hand);
    }
}

/// A question to the reading view: list, counts of nodes and actions, node and action; and its answer by
/// hand. The records have no call for it: the tests alone ask these.
#[derive(Clone, Debug)]
pub struct View {
    pub name: String,
    pub graph: Vec<u32>,
    pub counts: (usize, usize),
    pub asked: (usize, usize),
    pub hand: Result<u32, Refusal>,
}

/// "With full lemmas the nodes are 8000C000, 80004002, 80008001, with 10 edges": with the distances 0, 1, 1.
pub const HOUSE_RECORDS: [u32; 21] = [
    0x8000C000, 0xB0001FFF, 0x00000000, 0xC0000001, 0xC0000002, 0xC0000000, 0xC0000000,
    0x80004002, 0xB0000000, 0x00000001, 0xC0000001, 0xCFFFFFFF, 0xC0000001, 0xC0000000,
    0x80008001, 0xB0000001, 0x00000001, 0xCFFFFFFF, 0xC0000002, 0xC0000000, 0xC0000002,
];

/// The same as it was before request 6, without the distances.
const HOUSE_OLD_RECORDS: [u32; 18] = [
    0x8000C000, 0xB0001FFF, 0xC0000001, 0xC0000002, 0xC0000000, 0xC0000000,
    0x80004002, 0xB0000000, 0xC0000001, 0xCFFFFFFF, 0xC0000001, 0xC0000000,
    0x80008001, 0xB0000001, 0xCFFFFFFF, 0xC0000002, 0xC0000000, 0xC0000002,
];

/// "The view and the findings list read the new record."
pub fn views() -> Vec<View> {
    [house_views(), old_record_views(), place_views(), odd_record_views()].concat()
}

/// The answer by hand, or the number and what is returned with it.
type ByHand = Result<u32, (u32, u64)>;

fn view(name: &str, graph: &[u32], counts: (usize, usize), asked: (usize, usize), hand: ByHand) -> View {
    let hand = hand.map_err(|(number, value)| Refusal { number, value });
    View { name: name.to_string(), graph: graph.to_vec(), counts, asked, hand }
}

/// A list that begins with these words and has zero behind them, as long as Judge's.
fn padded(front: &[u32]) -> Vec<u32> {
    let mut list = front.to_vec();
    list.resize(GRAPH_WORDS, 0);
    list
}

/// House: 3 nodes, 4 actions, 21 words.
fn house_views() -> Vec<View> {
    let none = PAYLOAD;
    let answers = [
        ((0, 0), Ok(1)),
        ((0, 1), Ok(2)),
        ((0, 3), Ok(0)),
        ((1, 0), Ok(1)),
        ((1, 1), Ok(none)),
        ((1, 3), Ok(0)),
        ((2, 0), Ok(none)),
        ((2, 3), Ok(2)),
        ((3, 0), Err((8, 3))),
        ((0, 4), Err((8, 4))),
        ((3, 4), Err((8, 3))),
    ];
    let mut all = Vec::new();
    for (asked, hand) in answers {
        all.push(view("house, exactly its records", &HOUSE_RECORDS, (3, 4), asked, hand));
        all.push(view("house, Judge's list", &padded(&HOUSE_RECORDS), (3, 4), asked, hand));
        // "view's list under its records" comes before 8.
        all.push(view("house, one word fewer", &HOUSE_RECORDS[..20], (3, 4), asked, Err((1, 0))));
        all.push(view("house, the old length", &HOUSE_RECORDS[..18], (3, 4), asked, Err((1, 0))));
    }
    all
}

/// Records of one width read as the other: "view meets no EDGE" is 2 with the word's index.
fn old_record_views() -> Vec<View> {
    let old = padded(&HOUSE_OLD_RECORDS);
    let mut all = vec![view("old house, its 18 words", &HOUSE_OLD_RECORDS, (3, 4), (0, 0), Err((1, 0)))];
    for (asked, hand) in [
        ((0, 0), Ok(2)),        // word 3: the EDGE of action 1
        ((0, 3), Err((2, 6))),  // SETS of node 1
        ((1, 2), Err((2, 12))), // SETS of node 2
        ((1, 3), Err((2, 13))), // ORIGIN of node 2
        ((2, 0), Ok(2)),        // word 17: the last EDGE
        ((2, 1), Err((2, 18))), // zero
    ] {
        all.push(view("old house read as new", &old, (3, 4), asked, hand));
    }
    // Records of 7 words read as those of 6, which 3 actions have now and 4 had before.
    for (asked, hand) in [
        ((0, 0), Ok(1)),
        ((0, 2), Ok(0)),
        ((1, 0), Err((2, 9))),  // the distance of node 1
        ((2, 0), Err((2, 15))), // ORIGIN of node 2
        ((2, 1), Err((2, 16))), // the distance of node 2
    ] {
        all.push(view("house read with records of 6 words", &HOUSE_RECORDS, (3, 3), asked, hand));
    }
    all
}

/// EDGE words that name their own place, so that the answer is the place.
fn place_views() -> Vec<View> {
    let places = |length: u32| (0..length).map(|place| make(EDGE, place)).collect::<Vec<u32>>();
    let most = vec![(0, 0, 3), (0, 15, 18), (1, 0, 22), (1, 15, 37), (511, 0, 9_712), (511, 15, 9_727)];
    let mut all = Vec::new();
    for (nodes, actions, length, questions) in [
        (512, 16, 9_728, most),
        (512, 1, 2_048, vec![(0, 0, 3), (1, 0, 7), (511, 0, 2_047)]),
        (1, 16, 19, vec![(0, 0, 3), (0, 15, 18)]),
        (1, 1, 4, vec![(0, 0, 3)]),
    ] {
        for (node, action, place) in questions {
            let (counts, asked) = ((nodes, actions), (node, action));
            all.push(view("places, exactly the records", &places(length), counts, asked, Ok(place)));
            all.push(view("places, one word fewer", &places(length - 1), counts, asked, Err((1, 0))));
            // As long as nodes * (2 + actions), which was enough before.
            let old = places(length - nodes as u32);
            all.push(view("places, the old length", &old, counts, asked, Err((1, 0))));
        }
    }
    // Without actions a record has three words.
    all.push(view("no actions", &places(1_536), (512, 0), (511, 0), Err((8, 0))));
    all.push(view("no actions, one word fewer", &places(1_535), (512, 0), (511, 0), Err((1, 0))));
    all.push(view("no nodes", &[], (0, 16), (0, 0), Err((8, 0))));
    all
}

/// A distance where an EDGE belongs; and what stands where the distance belongs is not looked at.
fn odd_record_views() -> Vec<View> {
    let last = [0x80000000, 0xB0001FFF, 0xC0000000, 0x00000000];
    let far = [0x80000000, 0xB0001FFF, 0xC0000000, 0x000001FF];
    let other = [0x80000000, 0xB0001FFF, 0xFFFFFFFF, 0xC0000000];
    vec![
        view("distance behind EDGE", &last, (1, 1), (0, 0), Err((2, 3))),
        view("distance 511 behind EDGE", &far, (1, 1), (0, 0), Err((2, 3))),
        view("another word for the distance", &other, (1, 1), (0, 0), Ok(0)),
    ]
}

// ---------------------------------------------------------------------------------------------
// Request 7: the shortest press list

/// A show with findings, and what is worked out by hand: "no walk in the graph from node 0 to any node with a
/// finding has fewer steps than the path in the verdict."
#[derive(Clone, Debug)]
pub struct Walked {
    pub name: String,
    pub text: Text,
    pub lemmas: Vec<u32>,
    /// Judge's answer.
    pub hand: String,
    /// The actions of its path.
    pub path: Vec<usize>,
    /// How many findings there are, and the distances at which there are some, rising.
    pub count: usize,
    pub rings: Vec<usize>,
}

/// Count and rings.
type Found<'a> = (usize, &'a [usize]);

fn walked(name: &str, show: (Text, Vec<u32>), hand: &str, path: &[usize], found: Found) -> Walked {
    let (name, hand, (text, lemmas)) = (name.to_string(), hand.to_string(), show);
    Walked { name, text, lemmas, hand, path: path.to_vec(), count: found.0, rings: found.1.to_vec() }
}

/// All shows of this request. The records have room for the small ones only (all of them together are to stay
/// within 1,000,000 bytes); the tests ask for each.
pub fn walk_shows() -> Vec<Walked> {
    [small_walks(), near_walks(), far_walks(), run_off_walks(), long_walks(), known_walks()].concat()
}

fn judge_walk(book: &mut Book, show: &Walked) {
    book.judge(&format!("walks: {}", show.name), &show.text.words(), &show.lemmas, &show.hand);
}

/// The list is one word longer than it need be.
fn findings_walk(book: &mut Book, show: &Walked) {
    let (name, list) = (format!("walks: {}", show.name), show.count as u32 + 1);
    book.findings(&name, &show.text.words(), &show.lemmas, list, &found(show.count));
}

/// Behind all others: the records of Judge, then those of Findings, for the first six.
fn request_7(book: &mut Book) {
    let shows = small_walks();
    shows.iter().for_each(|show| judge_walk(book, show));
    shows[..6].iter().for_each(|show| findings_walk(book, show));
}

/// Records of Judge and of Findings for all shows of this request, and for some by chance: those that `cases`
/// has no room for are here, too.
pub fn walk_cases() -> Vec<Case> {
    let mut book = Book::default();
    let shows = walk_shows();
    shows.iter().for_each(|show| judge_walk(&mut book, show));
    shows.iter().for_each(|show| findings_walk(&mut book, show));
    for seed in 0..6 {
        for (name, (t, l)) in [("spread", spread(seed)), ("partial", partial(seed))] {
            book.judge(&format!("walks: {name} {seed}"), &t.words(), &l, "");
            book.findings(&format!("walks: {name} {seed}"), &t.words(), &l, 300, "");
        }
    }
    book.cases
}

/// An action that sets these variables to 0.
fn zeroing(variables: &[u32]) -> ActionText {
    act(&[], &variables.iter().map(|v| (*v, row(0, &[]))).collect::<Vec<_>>())
}

/// A lemma by its negated goal alone. With variables from 0 to 0 any predicate "at least 0" is shown so.
fn by_goal(t: &Text, source: u32, goal: u32, index: u32, holds: u32) -> Vec<u32> {
    let mut multipliers = vec![0; t.due(source, goal, 0, holds)];
    multipliers[0] = 1;
    lemma(source, goal, index, 0, holds, &multipliers)
}

/// `bits` predicates of one variable that all hold at the start. Action 0 sets it, and shows each predicate
/// where the next one is known: node n has the first `bits` - n of them, and the last leads to itself. So "P_i
/// fails" is contradicted before node `bits` - i. The last six words are the lemmas of the ends.
pub fn fading(bits: u32, bad: &[(u32, u32)]) -> (Text, Vec<u32>) {
    let t = Text {
        vars: vec![(0, 0)],
        init: vec![],
        pred: vec![row(0, &[(0, 1)]); bits as usize],
        actions: vec![zeroing(&[0])],
        bad: bad.to_vec(),
    };
    let start = (0..bits).flat_map(|i| by_goal(&t, START, 1, i, 0));
    let l = start.chain((1..bits).flat_map(|i| by_goal(&t, 0, 1, i - 1, 1 << i))).chain(t.ends(0)).collect();
    (t, l)
}

/// The same with two predicates, its high end shown only where this predicate is known.
fn fading_off(bad: (u32, u32), known: u32) -> (Text, Vec<u32>) {
    let (t, mut l) = fading(2, &[bad]);
    l.truncate(l.len() - 3);
    l.extend(by_goal(&t, 0, 4, 0, 1 << known));
    (t, l)
}

/// Without its ends.
fn fading_open() -> (Text, Vec<u32>) {
    let (t, mut l) = fading(1, &[(1, 0)]);
    l.truncate(l.len() - 6);
    (t, l)
}

/// {P0, P1} goes by 0 to {P0}, and that to {}; action 1 leads to {} from everywhere.
fn fading_at_once() -> (Text, Vec<u32>) {
    let (mut t, mut l) = fading(2, &[(1, 0)]);
    t.actions.push(zeroing(&[0]));
    l.extend(t.ends(1));
    (t, l)
}

/// P0 on variable 0 and P1 on variable 1 hold at the start; action i sets variable i: it loses P_i and keeps
/// the other. 0 {P0, P1} goes to 1 {P1}, 2 {P0}; 1 to 1, 3 {}; 2 to 3, 2; 3 to itself.
pub fn two_lost(bad: &[(u32, u32)]) -> (Text, Vec<u32>) {
    let t = Text {
        vars: vec![(0, 0); 2],
        init: vec![],
        pred: vec![row(0, &[(0, 1)]), row(0, &[(1, 1)])],
        actions: vec![zeroing(&[0]), zeroing(&[1])],
        bad: bad.to_vec(),
    };
    let l = [by_goal(&t, START, 1, 0, 0), by_goal(&t, START, 1, 1, 0), t.all_ends()].concat();
    (t, l)
}

/// The same, and action 1 shows P0: 1 goes by it to 2, which is as far, and 3 to 2, which is nearer.
fn one_shown(bad: &[(u32, u32)]) -> (Text, Vec<u32>) {
    let (t, mut l) = two_lost(bad);
    l.extend(by_goal(&t, 1, 1, 0, 0));
    (t, l)
}

/// Judge's answer with a combination.
fn at(node: u32, bad: u32, nodes: u32, edges: u32) -> String {
    format!("FORBID node {node} bad {bad} nodes {nodes} edges {edges}")
}

/// The shows of the records. Where P0 and P1 hold at the start and action 0 fades them, the nodes are {P0,
/// P1}, {P0} and {}.
fn small_walks() -> Vec<Walked> {
    let off = "RUNOFF node 1 action 0 variable 0 high nodes 3 edges 3";
    let open = "RUNOFF node 0 action 0 variable 0 low nodes 2 edges 2";
    let lower_later = fading(2, &[(1, 0), (2, 0)]);
    let at_start = fading(1, &[(1, 0), (0, 1)]);
    let each = fading(3, &[(1, 0), (2, 0), (4, 0)]);
    let lost = two_lost(&[(2, 0), (1, 0)]);
    vec![
        // Not P0 at node 2, not P1 at nodes 1 and 2.
        walked("lower combination farther", lower_later, &at(1, 1, 3, 3), &[0], (3, &[1, 2])),
        // High at nodes 1 and 2, not P0 at node 2.
        walked("run-off before a combination", fading_off((1, 0), 1), off, &[0], (3, &[1, 2])),
        // Not P1 at nodes 1 and 2, high at node 2.
        walked("combination before a run-off", fading_off((2, 0), 0), &at(1, 0, 3, 3), &[0], (3, &[1, 2])),
        // Both ends at nodes 0 and 1, not P0 at node 1.
        walked("ends at node 0", fading_open(), open, &[], (5, &[0, 1])),
        // P0 at nodes 0 and 1, not P0 at node 1.
        walked("combination at node 0", at_start, &at(0, 1, 2, 2), &[], (3, &[0, 1])),
        // Not P0 at node 2, to which 0 0 leads, and 1.
        walked("at once", fading_at_once(), &at(2, 0, 3, 6), &[1], (1, &[1])),
        // Not P0 at nodes 1 and 3, not P1 at nodes 2 and 3.
        walked("two at one distance", lost, &at(1, 1, 4, 8), &[0], (4, &[1, 2])),
        // Neither at node 3.
        walked("along and inward", one_shown(&[(3, 0)]), &at(3, 0, 4, 8), &[1, 0], (1, &[2])),
        // Not P2 from node 1 on, not P1 from node 2 on, not P0 at node 3.
        walked("three distances", each, &at(1, 2, 4, 4), &[0], (6, &[1, 2, 3])),
    ]
}

/// A move: place, action, place.
pub type Move = (u32, u32, u32);

/// A graph as it is drawn: at place i P_i is known to hold, and nothing else; the start is place 0. An action
/// without a move cannot happen there. Each combination is open at the places given and contradicted at the
/// others. All actions set the one variable; their ends are shown, but the high one not at the places of
/// `off`, given with the action. There are 14 places at most.
pub fn drawn(places: u32, moves: &[Move], open: &[&[u32]], off: &[(u32, u32)]) -> (Text, Vec<u32>) {
    let actions = moves.iter().map(|(_, action, _)| action + 1).max().unwrap_or(0);
    let gone = |action: u32| -> Vec<u32> {
        (0..places).filter(|place| !moves.iter().any(|(p, a, _)| (p, a) == (place, &action))).collect()
    };
    let bits = |set: &&[u32]| set.iter().fold(0, |bits, place| bits | 1 << place);
    let guards = |action: u32| if gone(action).is_empty() { vec![] } else { vec![never()] };
    let t = Text {
        vars: vec![(0, 0)],
        init: vec![],
        pred: vec![row(0, &[(0, 1)]); places as usize],
        actions: (0..actions).map(|action| act(&guards(action), &zeroing(&[0]).sets)).collect(),
        bad: open.iter().map(|set| (((1 << places) - 1) & !bits(set), 0)).collect(),
    };
    let mut l = by_goal(&t, START, 1, 0, 0);
    l.extend(moves.iter().flat_map(|(from, action, to)| by_goal(&t, *action, 1, *to, 1 << from)));
    for action in 0..actions {
        l.extend(gone(action).into_iter().flat_map(|place| t.forced(action, 0, 0, 0, 1 << place)));
        l.extend(drawn_ends(&t, places, action, off));
    }
    (t, l)
}

/// The low end, and the high one at all places or at those that are not given.
fn drawn_ends(t: &Text, places: u32, action: u32, off: &[(u32, u32)]) -> Vec<u32> {
    let low = by_goal(t, action, 3, 0, 0);
    if off.iter().all(|(_, other)| *other != action) {
        return [low, by_goal(t, action, 4, 0, 0)].concat();
    }
    let shown = (0..places).filter(|place| !off.contains(&(*place, action)));
    low.into_iter().chain(shown.flat_map(|place| by_goal(t, action, 4, 0, 1 << place))).collect()
}

/// The places one after another by action 0.
fn in_a_row(places: u32) -> Vec<Move> {
    (1..places).map(|place| (place - 1, 0, place)).collect()
}

/// These moves as well.
fn and(mut moves: Vec<Move>, more: &[Move]) -> Vec<Move> {
    moves.extend(more);
    moves
}

/// Two arms from the start: the places 1 to `far` one after another by action 0, and `near` others by action 1
/// and then 0, each with a finding at its end, that of the first one by combination 0. At each distance the
/// first arm's node comes first. Where `near` is less than `far`, the verdict's node is 2 * `near` and its
/// path 1 and then 0; where they are equal it is the one before and the path 0 only. Nodes 1 + `near` + `far`,
/// one edge fewer; 13 at most together, and none of them 0.
pub fn arms(near: u32, far: u32) -> (Text, Vec<u32>) {
    let second: Vec<Move> = (far + 1..far + near).map(|place| (place, 0, place + 1)).collect();
    let moves = and(and(in_a_row(far + 1), &[(0, 1, far + 1)]), &second);
    drawn(1 + far + near, &moves, &[&[far], &[far + near]], &[])
}

/// Drawn by hand; where place and node differ, a remark says so.
fn near_walks() -> Vec<Walked> {
    let draw = |places: u32, moves: &[Move], open: &[&[u32]]| drawn(places, moves, open, &[]);
    let star = [(0, 0, 1), (0, 1, 2), (0, 2, 3), (1, 0, 4)];
    let first = [(0, 0, 3), (0, 1, 1), (1, 0, 2), (2, 0, 3)];
    let deep = [(0, 0, 1), (1, 0, 2), (2, 0, 3), (0, 1, 4), (4, 0, 5)];
    let mixed = and(in_a_row(2), &[(0, 1, 2), (1, 0, 2), (1, 1, 3), (2, 0, 1), (2, 1, 0), (3, 0, 0), (3, 1, 4)]);
    let mixed = and(mixed, &[(4, 0, 1), (4, 1, 3)]);
    let round: Vec<Move> = (0..6).flat_map(|p| [(p, 0, (p + 1) % 6), (p, 1, (p + 5) % 6)]).collect();
    let two_ways = and(in_a_row(4), &[(0, 1, 3)]);
    vec![
        // Place 3 is node 2, place 2 is node 3.
        walked("two walks", draw(4, &two_ways, &[&[3]]), &at(2, 0, 4, 4), &[1], (1, &[1])),
        // Place 3 is node 1, 1 is 2, 2 is 3.
        walked("two walks, lower action", draw(4, &first, &[&[3]]), &at(1, 0, 4, 4), &[0], (1, &[1])),
        walked("third at its distance", draw(5, &star, &[&[4], &[3]]), &at(3, 1, 5, 4), &[2], (2, &[1, 2])),
        walked("two of one ring", draw(3, &star[..2], &[&[1, 2]]), &at(1, 0, 3, 2), &[0], (2, &[1])),
        // Distances 0, 1, 1, 2, 3. Along: 1 to 2 and back; inward: 2 to 0, 3 to 0, 4 to 1 and 3.
        walked("three kinds of edges", draw(5, &mixed, &[&[4]]), &at(4, 0, 5, 10), &[0, 1, 1], (1, &[3])),
        // Places 1, 4, 2, 5, 3 are nodes 1 to 5: in depth the end of 0 0 0 would come before that of 1 0.
        walked("farther first in depth", draw(6, &deep, &[&[3], &[5]]), &at(4, 1, 6, 5), &[1, 0], (2, &[2, 3])),
        // Places 1, 5, 2, 4, 3 are nodes 1 to 5.
        walked("round a ring", draw(6, &round, &[&[3], &[4]]), &at(4, 1, 6, 12), &[1, 1], (2, &[2, 3])),
        walked("arms of 2 and 5", arms(2, 5), &at(4, 1, 8, 7), &[1, 0], (2, &[2, 5])),
        walked("arms of 4 and 4", arms(4, 4), &at(7, 0, 9, 8), &[0; 4], (2, &[4])),
    ]
}

/// Findings at several distances, by combinations.
fn far_walks() -> Vec<Walked> {
    let draw = |places: u32, moves: &[Move], open: &[&[u32]]| drawn(places, moves, open, &[]);
    let (three, five, seven) = (in_a_row(3), in_a_row(5), in_a_row(7));
    let mingled = [(0, 0, 3), (3, 0, 1), (1, 0, 4), (4, 0, 2)];
    let beside = and(in_a_row(3), &[(3, 0, 3)]);
    let last_first: [&[u32]; 5] = [&[6], &[5], &[4], &[3], &[2]];
    let last_three: [&[u32]; 3] = [&[2], &[4], &[1]];
    vec![
        walked("nearer of two", draw(5, &five, &[&[4], &[2]]), &at(2, 1, 5, 4), &[0, 0], (2, &[2, 4])),
        walked("node 0 and all others", draw(3, &three, &[&[1, 2], &[0]]), &at(0, 1, 3, 2), &[], (3, &[0, 1, 2])),
        // Places 3, 1, 4, 2 are nodes 1 to 4.
        walked("mingled places", draw(5, &mingled, &last_three), &at(2, 2, 5, 4), &[0, 0], (3, &[2, 3, 4])),
        walked("five distances", draw(7, &seven, &last_first), &at(2, 4, 7, 6), &[0, 0], (5, &[2, 3, 4, 5, 6])),
        // Place 3 is no node.
        walked("one that is not reached", draw(4, &beside, &[&[3], &[2]]), &at(2, 1, 3, 2), &[0, 0], (1, &[2])),
    ]
}

/// Ends that are not shown, and combinations, at several distances.
fn run_off_walks() -> Vec<Walked> {
    let (three, four) = (in_a_row(3), in_a_row(4));
    let fork = [(0, 0, 1), (0, 1, 2), (1, 0, 1)];
    let loops = [(0, 0, 1), (1, 0, 2), (1, 1, 1), (2, 0, 2)];
    let off = |node: u32, action: u32, nodes: u32, edges: u32| {
        format!("RUNOFF node {node} action {action} variable 0 high nodes {nodes} edges {edges}")
    };
    let at_0 = drawn(3, &three, &[&[1], &[2]], &[(0, 0)]);
    let (at_1, at_2) = (drawn(4, &four, &[&[3]], &[(1, 0)]), drawn(4, &four, &[&[1]], &[(2, 0)]));
    let by_two = drawn(3, &loops, &[], &[(2, 0), (1, 1)]);
    vec![
        walked("run-off at 0, combinations", at_0, &off(0, 0, 3, 2), &[], (3, &[0, 1, 2])),
        walked("run-off at 1, combination at 3", at_1, &off(1, 0, 4, 3), &[0], (2, &[1, 3])),
        walked("combination at 1, run-off at 2", at_2, &at(1, 0, 4, 3), &[0], (2, &[1, 2])),
        walked("both at one distance", drawn(3, &fork, &[&[2]], &[(1, 0)]), &off(1, 0, 3, 3), &[0], (2, &[1])),
        walked("lower action farther", by_two, &off(1, 1, 3, 4), &[0], (2, &[1, 2])),
    ]
}

/// A counter with findings at these two distances, of which the first is not above the second, which is below
/// 512. The farther one is that of combination 0. The verdict's node is the nearer number, and the path has
/// as many steps, all of action 0.
pub fn two_findings(near: u32, far: u32) -> (Text, Vec<u32>) {
    let bits = (32 - far.leading_zeros()).max(1);
    let only = |number: u32| (((1 << bits) - 1) & !number, number);
    counter(bits, &[only(far), only(near)])
}

/// A counter whose last number is forbidden; action 1 leads from the number `from` to the number `to`, and
/// cannot happen elsewhere. Where `to` is above `from` + 1, the path is `from` times 0, 1, and 0 from `to` to
/// the last; else it is 0 only.
pub fn shortcut(bits: u32, from: u32, to: u32) -> (Text, Vec<u32>) {
    let (mut t, mut l) = counter(bits, &[(0, (1 << bits) - 1)]);
    t.actions.push(t.actions[0].clone());
    l.extend(t.ends(1));
    for j in 0..bits {
        let (here, there) = (from >> j & 1, to >> j & 1);
        l.extend(t.forced(1, 2 - there, j, 0, 0));
        l.extend(t.forced(1, 0, 0, here << j, (1 - here) << j));
    }
    (t, l)
}

/// Chains, up to the longest.
fn long_walks() -> Vec<Walked> {
    let leap = |before: usize, behind: usize| [vec![0; before], vec![1], vec![0; behind]].concat();
    vec![
        // 0 to 3, 4 and 14, 5 and 15 in this order.
        walked("shortcut 3 to 14", shortcut(4, 3, 14), &at(7, 0, 16, 17), &leap(3, 1), (1, &[5])),
        walked("shortcut back", shortcut(4, 9, 2), &at(15, 0, 16, 17), &[0; 15], (1, &[15])),
        walked("shortcut of one step", shortcut(4, 6, 7), &at(15, 0, 16, 17), &[0; 15], (1, &[15])),
        // 101 numbers up to 100, then two by two: 101 and 500 are nodes 101 and 102, 112 and 511 are 123 and 124.
        walked("shortcut 100 to 500", shortcut(9, 100, 500), &at(124, 0, 512, 513), &leap(100, 11), (1, &[112])),
        walked("3 and 9 steps", two_findings(3, 9), &at(3, 1, 16, 16), &[0; 3], (2, &[3, 9])),
        walked("0 and 511 steps", two_findings(0, 511), &at(0, 1, 512, 512), &[], (2, &[0, 511])),
        walked("510 and 511 steps", two_findings(510, 511), &at(510, 1, 512, 512), &[0; 510], (2, &[510, 511])),
    ]
}

/// Shows of other requests, with findings at several distances or at the end of a long way.
fn known_walks() -> Vec<Walked> {
    let (mut lost, lost_lemmas) = eight(0);
    lost.bad = vec![(0, 0x07), (0, 0x18)];
    let lost = (lost, lost_lemmas);
    let (row, list) = cue_row();
    let fewer = leave_out(&list, &[lemma_word(1, 3, 1), lemma_word(3, 3, 0)]);
    let home = split_lemmas(&needed(&house().words(), &house_lemmas().concat()));
    let high = leave_out(&home, &[lemma_word(2, 4, 0)]);
    let cues = "RUNOFF node 1 action 1 variable 1 low nodes 5 edges 5";
    let level = "RUNOFF node 0 action 2 variable 0 high nodes 3 edges 10";
    let (all, last) = (all_at_once(&[(0, 0)]), last_node(&[(0, 0x1FF)]));
    let in_order = [0, 1, 2, 3, 4, 5, 6, 7, 8];
    vec![
        // One lost: nodes 1 to 8; two: 0 and another 9 to 15, 1 and another 16 to 21, 2 and another 22 to 26,
        // then 3 and 4. That three are lost holds in 32 sets, that two are in 64, of 2 to 8.
        walked("three lost, two lost", lost, &at(27, 1, 256, 2048), &[3, 4], (96, &[2, 3, 4, 5, 6, 7, 8])),
        // Cue 1 happens at node 1 only, cue 3 at node 3 only.
        walked("cues, two ends not shown", (row, fewer), cues, &[0], (2, &[1, 3])),
        walked("house, level high by 2 not shown", (house(), high), level, &[], (3, &[0, 1])),
        walked("rings, two ways", two_ways(), &at(3, 0, 4, 16), &[3, 2], (1, &[2])),
        walked("rings, all at once", all, &at(0, 0, 5, 20), &[], (5, &[0, 1, 2, 3])),
        walked("last node", last, &at(511, 0, 512, 8192), &in_order, (2, &[9])),
        walked("chain beside a node", chain_beside(), &at(511, 0, 512, 1024), &[15; 510], (1, &[510])),
    ]
}

/// A drawing by chance: half of the moves lead to the next place, a few are left out, and few places have a
/// finding.
pub fn spread(seed: u64) -> (Text, Vec<u32>) {
    let mut dice = Dice::new(seed + 17_000);
    let (places, actions) = (4 + dice.below(11), 1 + dice.below(4));
    let mut moves: Vec<Move> = Vec::new();
    for (place, action) in (0..places).flat_map(|place| (0..actions).map(move |action| (place, action))) {
        match dice.below(8) {
            0 => {}
            1..=4 => moves.push((place, action, (place + 1) % places)),
            _ => moves.push((place, action, dice.below(places))),
        }
    }
    let sets: Vec<Vec<u32>> = (0..3).map(|_| (1..places).filter(|_| dice.below(6) == 0).collect()).collect();
    let open: Vec<&[u32]> = sets.iter().map(|set| &set[..]).collect();
    let off: Vec<(u32, u32)> = moves.iter().filter(|_| dice.below(20) == 0).map(|m| (m.0, m.1)).collect();
    drawn(places, &moves, &open, &off)
}

/// The same with some of its lemmas left out, not the start's: a move that is not shown leads to the node
/// without literals, where all combinations are open.
pub fn partial(seed: u64) -> (Text, Vec<u32>) {
    let (t, l) = spread(seed);
    let mut dice = Dice::new(seed + 19_000);
    let list = split_lemmas(&l);
    let kept = list[1..].iter().filter(|_| dice.below(15) > 0);
    let l = list[0].iter().chain(kept.flatten()).copied().collect();
    (t, l)
}
