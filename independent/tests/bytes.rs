//! Show files by their bytes: what `show` answers and leaves in the lent lists, and the lines.

use std::io::Write;
use std::process::{Command, Stdio};

use independent::bytes::{lines, show, Shown, SHOW_BYTES, SHOW_WORDS};
use independent::records::{lent_graph, lent_path, JUDGE};
use independent::shows::{act, cases, counter, house, house_failing, house_lemmas, leave_out, lemma, never, row};
use independent::shows::{subsets, term_word, var_word, Text, FADE, FADE_LEMMAS, HOUSE_P0_KEPT, HOUSE_P0_UNKNOWN};
use independent::words::*;
use independent::{judge, Judged, Refusal};

/// No successor.
const NONE: u32 = 0xCFFFFFFF;
/// Node 0's ORIGIN.
const FIRST: u32 = 0xB0001FFF;

// ---------------------------------------------------------------------------------------------
// Lent lists, and what is expected of them

/// The three lent lists. Each word is marked with its place, so that any other word there shows.
#[derive(Clone, Debug, PartialEq, Eq)]
struct Lent {
    words: Vec<u32>,
    graph: Vec<u32>,
    path: Vec<u32>,
}

fn lend(words: usize, graph: usize, path: usize) -> Lent {
    Lent {
        words: (0..words).map(|i| 0x0C00_0000 + i as u32).collect(),
        graph: lent_graph(graph as u32),
        path: lent_path(path as u32),
    }
}

impl Lent {
    fn show(&mut self, bytes: &[u8]) -> Shown {
        show(bytes, &mut self.words, &mut self.graph, &mut self.path)
    }

    fn with_words(mut self, front: &[u32]) -> Lent {
        self.words[..front.len()].copy_from_slice(front);
        self
    }

    /// "the rest of the first [9,728] words is zero"
    fn with_graph(mut self, front: &[u32]) -> Lent {
        self.graph[..GRAPH_WORDS].fill(0);
        self.graph[..front.len()].copy_from_slice(front);
        self
    }

    /// "the rest of its first 512 words zero"
    fn with_path(mut self, front: &[u32]) -> Lent {
        self.path[..PATH_WORDS].fill(0);
        self.path[..front.len()].copy_from_slice(front);
        self
    }
}

/// Lists of the least lengths, and longer ones.
fn long_enough() -> [Lent; 2] {
    [lend(SHOW_WORDS, GRAPH_WORDS, PATH_WORDS), lend(SHOW_WORDS + 7, GRAPH_WORDS + 5, PATH_WORDS + 3)]
}

/// All lengths about the limits.
fn all_lengths() -> Vec<Lent> {
    let mut all = Vec::new();
    for words in [0, 1, SHOW_WORDS - 1, SHOW_WORDS, SHOW_WORDS + 1] {
        for graph in [0, 9_216, GRAPH_WORDS - 1, GRAPH_WORDS, GRAPH_WORDS + 1] {
            for path in [0, PATH_WORDS - 1, PATH_WORDS, PATH_WORDS + 1] {
                all.push(lend(words, graph, path));
            }
        }
    }
    all
}

fn bytes_of(words: &[u32]) -> Vec<u8> {
    let byte = |word: u32, place: u32| (word >> (8 * place) & 255) as u8;
    words.iter().flat_map(|word| [0, 1, 2, 3].map(|place| byte(*word, place))).collect()
}

fn file(logic: &[u32], lemmas: &[u32]) -> Vec<u32> {
    [logic, lemmas].concat()
}

fn refused(number: u32, value: u64) -> Judged {
    Judged::Refused(Refusal { number, value })
}

/// A verdict: the graph and path lists begin with these words.
fn verdict(words: &[u32], logic: usize, answer: Judged, graph: &[u32], path: &[u32], text: &str) {
    let bytes = bytes_of(words);
    let lemmas = words.len() - logic;
    for lent in long_enough() {
        let mut lists = lent.clone();
        assert_eq!(lists.show(&bytes), Shown::Judged { logic, lemmas, answer });
        assert!(lists == lent.with_words(words).with_graph(graph).with_path(path), "{text}");
    }
    assert_eq!(lines(&bytes), text);
}

/// A refusal of Judge that leaves the graph and path lists; the words are put all the same.
fn refusal(words: &[u32], logic: usize, number: u32, value: u64) {
    let bytes = bytes_of(words);
    let lemmas = words.len() - logic;
    let answer = refused(number, value);
    for lent in long_enough() {
        let mut lists = lent.clone();
        assert_eq!(lists.show(&bytes), Shown::Judged { logic, lemmas, answer });
        assert!(lists == lent.with_words(words), "REFUSED {number} AT {value}");
    }
    assert_eq!(lines(&bytes), format!("REFUSED {number} AT {value}\n"));
}

/// An answer that leaves all lists.
fn left(bytes: &[u8], shown: Shown, text: &str) {
    for lent in all_lengths().into_iter().filter(|lent| lent.words.len() >= SHOW_WORDS) {
        let mut lists = lent.clone();
        assert_eq!(lists.show(bytes), shown);
        assert!(lists == lent, "{} bytes", bytes.len());
    }
    assert_eq!(lines(bytes), text);
}

// ---------------------------------------------------------------------------------------------
// The worked shows and the table (a) to (h)

const FADE_GRAPH: [u32; 5] = [0x80000000, FIRST, 0x00000000, 0xC0000000, 0xC0000000];

fn fade_runs_off(words: &[u32], action: usize, high: bool) {
    let answer = Judged::MayRunOff { node: 0, action, variable: 0, high, nodes: 1, edges: 2 };
    let end = if high { "high" } else { "low" };
    let text = format!("RUNOFF node 0 action {action} variable 0 {end}\nPATH\n");
    verdict(words, 16, answer, &FADE_GRAPH, &[], &text);
}

#[test]
fn a_fade() {
    let safe = Judged::Safe { nodes: 1, edges: 2 };
    verdict(&file(&FADE, &FADE_LEMMAS), 16, safe, &FADE_GRAPH, &[], "SAFE nodes 1 edges 2\n");
}

/// Some words of Fade's file typed byte by byte: `bytes_of` is right, and so is the reading of them.
#[test]
fn little_endian() {
    let bytes = bytes_of(&file(&FADE, &FADE_LEMMAS));
    assert_eq!(bytes.len(), 128);
    assert_eq!(bytes[..4], [0xE8, 0x03, 0x00, 0x10]);
    assert_eq!(bytes[44..48], [0xFF, 0xFF, 0x00, 0x30]);
    assert_eq!(bytes[60..64], [0x00, 0x00, 0x00, 0xF0]);
    assert_eq!(bytes[64..80], [0, 0, 3, 0x90, 0, 0, 0, 0x80, 1, 0, 0, 0xA0, 1, 0, 0, 0xA0]);
    // The kind is in the last byte of the four: no word of kind 15 here.
    let mut lists = lend(SHOW_WORDS, GRAPH_WORDS, PATH_WORDS);
    let shown = lists.show(&[0xF0, 0xF1, 0xF2, 0x13, 0x01, 0x02, 0x03, 0xF4]);
    assert_eq!(shown, Shown::Judged { logic: 2, lemmas: 0, answer: refused(4, 0) });
    assert_eq!(lists.words[..3], [0x13F2F1F0, 0xF4030201, 0x0C000002]);
}

#[test]
fn b_fade_without_a_lemma() {
    for (lemma, (action, high)) in [(0, false), (0, true), (1, false), (1, true)].into_iter().enumerate() {
        let mut words = file(&FADE, &FADE_LEMMAS);
        words.drain(16 + 4 * lemma..20 + 4 * lemma);
        fade_runs_off(&words, action, high);
    }
    fade_runs_off(&FADE, 0, false);
}

#[test]
fn c_all_multipliers_zero() {
    let mut words = file(&FADE, &FADE_LEMMAS);
    words[18..20].fill(0xA0000000);
    fade_runs_off(&words, 0, false);
}

const HOUSE_GRAPH: [u32; 21] = [
    0x8000C000, FIRST, 0x00000000, 0xC0000001, 0xC0000002, 0xC0000000, 0xC0000000,
    0x80004002, 0xB0000000, 0x00000001, 0xC0000001, NONE, 0xC0000001, 0xC0000000,
    0x80008001, 0xB0000001, 0x00000001, NONE, 0xC0000002, 0xC0000000, 0xC0000002,
];

#[test]
fn house_with_full_lemmas() {
    let logic = house().words();
    let words = file(&logic, &house_lemmas().concat());
    let safe = Judged::Safe { nodes: 3, edges: 10 };
    verdict(&words, logic.len(), safe, &HOUSE_GRAPH, &[], "SAFE nodes 3 edges 10\n");
    // Without "house is not below its low end after action 0": another variable than 0.
    let mut list = house_lemmas();
    list.retain(|l| l[0] != 0x90030001);
    let words = file(&logic, &list.concat());
    let low = Judged::MayRunOff { node: 0, action: 0, variable: 1, high: false, nodes: 3, edges: 10 };
    verdict(&words, logic.len(), low, &HOUSE_GRAPH, &[], "RUNOFF node 0 action 0 variable 1 low\nPATH\n");
}

#[test]
fn d_house_with_no_lemmas() {
    let logic = house().words();
    let graph = [0x80000000, FIRST, 0x00000000, 0xC0000000, 0xC0000000, 0xC0000000, 0xC0000000];
    let forbid = Judged::MayForbid { node: 0, bad: 0, nodes: 1, edges: 4 };
    verdict(&logic, logic.len(), forbid, &graph, &[], "FORBID node 0 bad 0\nPATH\n");
}

/// Request 1: "Case (e) of 01 then has the three nodes and ten edges of House with full lemmas, and
/// is safe."
#[test]
fn e_house_without_action_0_failing_p0() {
    let logic = house().words();
    let mut list = house_lemmas();
    list.remove(house_failing(&list));
    let safe = Judged::Safe { nodes: 3, edges: 10 };
    verdict(&file(&logic, &list.concat()), logic.len(), safe, &HOUSE_GRAPH, &[], "SAFE nodes 3 edges 10\n");
}

/// Without the start's lemma on P0 as well nothing of P0 is known at node 0, nor kept. Node 1 is {P1}.
#[test]
fn house_with_p0_unknown() {
    let logic = house().words();
    let graph = [
        0x80008000, FIRST, 0x00000000, 0xC0000001, 0xC0000002, 0xC0000003, 0xC0000000,
        0x80000002, 0xB0000000, 0x00000001, 0xC0000001, NONE, 0xC0000004, 0xC0000000,
        0x80008001, 0xB0000001, 0x00000001, NONE, 0xC0000002, 0xC0000003, 0xC0000002,
        0x8000C000, 0xB0000002, 0x00000001, 0xC0000004, 0xC0000002, 0xC0000003, 0xC0000003,
        0x80004002, 0xB0000012, 0x00000002, 0xC0000004, NONE, 0xC0000004, 0xC0000003,
    ];
    let forbid = Judged::MayForbid { node: 1, bad: 0, nodes: 5, edges: 17 };
    let words = file(&logic, &leave_out(&house_lemmas(), &HOUSE_P0_UNKNOWN));
    verdict(&words, logic.len(), forbid, &graph, &[0xD0000000], "FORBID node 1 bad 0\nPATH 0\n");
}

/// Without both lemmas of action 0 on P0 it keeps P0 at node 2 and shows P1: node 3 is {P0, P1}.
#[test]
fn house_with_p0_kept() {
    let logic = house().words();
    let mut graph = HOUSE_GRAPH.to_vec();
    graph[17] = 0xC0000003; // node 2, action 0
    graph.extend([0x80000003, 0xB0000020, 0x00000002, 0xC0000003, NONE, 0xC0000001, 0xC0000002]);
    let forbid = Judged::MayForbid { node: 3, bad: 0, nodes: 4, edges: 14 };
    let words = file(&logic, &leave_out(&house_lemmas(), &HOUSE_P0_KEPT));
    verdict(&words, logic.len(), forbid, &graph, &[0xD0000001, 0xD0000000], "FORBID node 3 bad 0\nPATH 1 0\n");
}

/// No bytes at all: the empty program, and not a word is put.
#[test]
fn f_empty_program() {
    refusal(&[], 0, 2, 0);
}

#[test]
fn g_and_h() {
    let with = |place: usize, word: u32| {
        let mut words = FADE.to_vec();
        words[place] = word;
        words
    };
    fade_runs_off(&with(0, var_word(7, 7)), 0, false);
    refusal(&with(0, var_word(8, 7)), 16, 4, 0);
    fade_runs_off(&with(5, term_word(0, 1000)), 0, false);
    refusal(&with(5, term_word(0, 1001)), 16, 4, 5);
}

// ---------------------------------------------------------------------------------------------
// Lengths

#[test]
fn odd_bytes() {
    let fade = bytes_of(&file(&FADE, &FADE_LEMMAS));
    for length in [1, 2, 3, 5, 125, 126, 127] {
        left(&fade[..length], Shown::OddBytes, "ODD BYTES\n");
    }
    let full = vec![0xF0; SHOW_BYTES];
    for length in [129, SHOW_BYTES - 3, SHOW_BYTES - 2, SHOW_BYTES - 1] {
        left(&full[..length], Shown::OddBytes, "ODD BYTES\n");
    }
}

/// Past 65,536 bytes, a multiple of 4 or not: too long comes before odd.
#[test]
fn too_long() {
    let mut bytes = bytes_of(&file(&FADE, &FADE_LEMMAS));
    bytes.resize(SHOW_BYTES + 5, 0);
    for more in [1, 2, 3, 4, 5] {
        left(&bytes[..SHOW_BYTES + more], Shown::TooLong, "TOO LONG\n");
    }
}

/// 65,536 bytes are judged, and fill the least words list to its end.
#[test]
fn not_too_long() {
    let full = |mut words: Vec<u32>, with: &[u32]| {
        let mut more = with.iter().cycle();
        words.resize_with(SHOW_WORDS, || *more.next().unwrap());
        words
    };
    // Fade and its lemmas 1,023 times: the 513th LEMMA word is lemma word 2,048.
    refusal(&full(FADE.to_vec(), &FADE_LEMMAS), 16, 6, 2048);
    // Fade with its lemmas, then zeros.
    refusal(&full(file(&FADE, &FADE_LEMMAS), &[0]), 16, 5, 16);
    // No word of kind 15: 16,384 words of logic, of which the ninth VAR is refused.
    refusal(&full(vec![], &FADE[..1]), SHOW_WORDS, 3, 8);
    // The one word of kind 15 is the last of all, and the last but one.
    for logic in [SHOW_WORDS, SHOW_WORDS - 1] {
        let mut words = full(vec![], &FADE[..1]);
        words[logic - 1] = 0xF0000000;
        refusal(&words, logic, 3, 8);
    }
    // One word fewer.
    refusal(&full(FADE.to_vec(), &FADE_LEMMAS)[..SHOW_WORDS - 1], 16, 6, 2048);
}

#[test]
fn the_limits() {
    assert_eq!((SHOW_WORDS, SHOW_BYTES), (16384, 65536));
}

/// The same lists for one file after the other: words left behind a shorter file are no part of it.
#[test]
fn lists_lent_again() {
    let mut lists = lend(SHOW_WORDS, GRAPH_WORDS, PATH_WORDS);
    lists.words.fill(0xF0000000);
    let full = file(&FADE, &FADE_LEMMAS);
    let start = lists.clone();
    let refused_at = |logic: usize, at: u64| Shown::Judged { logic, lemmas: 0, answer: refused(2, at) };
    // Fade without END, with words of kind 15 behind it.
    assert_eq!(lists.show(&bytes_of(&FADE[..15])), refused_at(15, 15));
    assert!(lists == start.clone().with_words(&FADE[..15]));
    // Fade, then nothing, then Fade's first word, with Fade's other words behind it.
    let safe = Judged::Safe { nodes: 1, edges: 2 };
    assert_eq!(lists.show(&bytes_of(&full)), Shown::Judged { logic: 16, lemmas: 16, answer: safe });
    let after = start.with_words(&full).with_graph(&FADE_GRAPH).with_path(&[]);
    assert!(lists == after);
    assert_eq!(lists.show(&[]), refused_at(0, 0));
    assert_eq!(lists.show(&bytes_of(&FADE[..1])), refused_at(1, 1));
    assert!(lists == after);
}

/// A short words list comes before everything else, whatever the bytes and the other lists.
#[test]
fn words_short() {
    let fade = bytes_of(&file(&FADE, &FADE_LEMMAS));
    let long = vec![0; SHOW_BYTES + 1];
    let files = [&[], &fade[..], &fade[..127], &long[..SHOW_BYTES], &long[..]];
    for lent in all_lengths().into_iter().filter(|lent| lent.words.len() < SHOW_WORDS) {
        for bytes in files {
            let mut lists = lent.clone();
            assert_eq!(lists.show(bytes), Shown::WordsShort);
            assert!(lists == lent);
        }
    }
}

/// Short graph and path lists are Judge's to refuse: the words are put, the two lists are left.
#[test]
fn graph_and_path_short() {
    let mut unread = FADE;
    unread[0] = 0;
    for words in [file(&FADE, &FADE_LEMMAS), unread.to_vec(), file(&FADE, &[0xA0000000])] {
        let bytes = bytes_of(&words);
        for (graph, path, place) in [
            (9_215, PATH_WORDS, 0),
            (9_216, PATH_WORDS, 0),
            (9_216, PATH_WORDS - 1, 0),
            (GRAPH_WORDS - 1, PATH_WORDS, 0),
            (GRAPH_WORDS, PATH_WORDS - 1, 1),
            (GRAPH_WORDS - 1, PATH_WORDS - 1, 0),
            (0, 0, 0),
            (GRAPH_WORDS + 9, 0, 1),
        ] {
            let lent = lend(SHOW_WORDS + 2, graph, path);
            let mut lists = lent.clone();
            let answer = refused(1, place);
            assert_eq!(lists.show(&bytes), Shown::Judged { logic: 16, lemmas: words.len() - 16, answer });
            assert!(lists == lent.with_words(&words));
        }
    }
}

// ---------------------------------------------------------------------------------------------
// Words of kind 15

#[test]
fn two_words_of_kind_15() {
    // A second END right behind the first, and behind the lemmas: no LEMMA word.
    refusal(&file(&FADE, &[0xF0000000]), 16, 5, 0);
    refusal(&[&FADE[..], &[0xF0000000], &FADE_LEMMAS].concat(), 16, 5, 0);
    refusal(&[&FADE[..], &FADE_LEMMAS, &[0xF0000000]].concat(), 16, 5, 16);
    // In the middle of a lemma.
    refusal(&[&FADE[..], &FADE_LEMMAS[..6], &[0xF0000000]].concat(), 16, 5, 6);
    // Fade twice: the second one's logic stands where lemmas do.
    refusal(&file(&FADE, &FADE), 16, 5, 0);
    // The first is out of place, or has a payload: it ends the logic all the same.
    refusal(&file(&[0xF0000000], &FADE), 1, 2, 0);
    refusal(&[&FADE[..3], &[0xF0000000], &FADE[3..]].concat(), 4, 5, 0);
    refusal(&[&FADE[..4], &[0xF0000000], &FADE[4..]].concat(), 5, 2, 4);
    refusal(&[&FADE[..15], &[0xF0000001, 0xF0000000], &FADE_LEMMAS].concat(), 16, 2, 15);
    refusal(&[&FADE[..15], &[0xFFFFFFFF], &FADE_LEMMAS].concat(), 16, 2, 15);
}

#[test]
fn no_word_of_kind_15() {
    // All words are logic; END is missing at the list's length.
    refusal(&FADE[..15], 15, 2, 15);
    refusal(&FADE[..1], 1, 2, 1);
    // The first lemma word stands where END is due.
    refusal(&file(&FADE[..15], &FADE_LEMMAS), 31, 2, 15);
    // Lemmas alone.
    refusal(&FADE_LEMMAS, 16, 2, 0);
}

// ---------------------------------------------------------------------------------------------
// Verdicts beyond the document's shows

/// Three nodes: 0 {not P0, not P1} goes by 12 to 1 {P0, not P1}, which goes by 3 to 2 {P0, P1},
/// which goes by 3 to itself. All else cannot happen. The actions touch both predicates.
#[test]
fn a_path_of_two_actions() {
    let t = Text {
        vars: vec![(0, 0)],
        init: vec![never()],
        pred: vec![row(0, &[(0, 1)]), row(1, &[(0, 1)])],
        actions: vec![act(&[never()], &[(0, row(0, &[]))]); 16],
        bad: vec![(0, 3)],
    };
    let mut lemmas = [t.forced(START, 2, 0, 0, 0), t.forced(START, 2, 1, 0, 0)].concat();
    lemmas.extend(t.all_ends());
    for action in (0..16).filter(|a| *a != 12 && *a != 3) {
        lemmas.extend(t.forced(action, 0, 0, 0, 0));
    }
    lemmas.extend(t.forced(12, 0, 0, 0, 1));
    lemmas.extend(t.forced(12, 1, 0, 1, 0));
    lemmas.extend(t.forced(12, 2, 1, 1, 0));
    lemmas.extend(t.forced(3, 0, 0, 1, 0));
    lemmas.extend(t.forced(3, 1, 0, 0, 1));
    lemmas.extend(t.forced(3, 1, 1, 0, 1));
    let mut graph = [NONE; 3 * 19];
    let heads = [[0x8000C000, FIRST, 0], [0x80008001, 0xB000000C, 1], [0x80000003, 0xB0000013, 2]];
    for (node, head) in heads.iter().enumerate() {
        graph[19 * node..19 * node + 3].copy_from_slice(head);
    }
    graph[3 + 12] = 0xC0000001;
    graph[19 + 3 + 3] = 0xC0000002;
    graph[38 + 3 + 3] = 0xC0000002;
    let forbid = Judged::MayForbid { node: 2, bad: 0, nodes: 3, edges: 3 };
    let logic = t.words();
    let words = file(&logic, &lemmas);
    verdict(&words, logic.len(), forbid, &graph, &[0xD000000C, 0xD0000003], "FORBID node 2 bad 0\nPATH 12 3\n");
}

/// The longest path: 511 steps of action 0. Each node is one step farther than the last.
#[test]
fn the_longest_path() {
    let (t, lemmas) = counter(9, &[(0, 511)]);
    let logic = t.words();
    let mut graph = Vec::new();
    for node in 0..512u32 {
        let origin = if node == 0 { FIRST } else { 0xB0000000 | (node - 1) << 4 };
        graph.extend([0x80000000 | (511 - node) << 14 | node, origin, node, 0xC0000000 | (node + 1) % 512]);
    }
    let forbid = Judged::MayForbid { node: 511, bad: 0, nodes: 512, edges: 512 };
    let text = format!("FORBID node 511 bad 0\nPATH{}\n", " 0".repeat(511));
    verdict(&file(&logic, &lemmas), logic.len(), forbid, &graph, &[0xD0000000; 511], &text);
}

/// "if it has no successor the graph is empty": safe, and all zero.
#[test]
fn an_empty_graph() {
    let t = Text { vars: vec![(0, 0)], init: vec![never()], bad: vec![(0, 0)], ..Text::default() };
    let logic = t.words();
    let words = file(&logic, &lemma(START, 0, 0, 0, 0, &[1]));
    verdict(&words, logic.len(), Judged::Safe { nodes: 0, edges: 0 }, &[], &[], "SAFE nodes 0 edges 0\n");
}

/// Refusal 7: "path list [left]; first [9,728] graph words become zero".
#[test]
fn a_513th_node() {
    let (logic, lemmas) = subsets(10, 10);
    let words = file(&logic, &lemmas);
    let bytes = bytes_of(&words);
    for lent in long_enough() {
        let mut lists = lent.clone();
        let answer = refused(7, 512);
        assert_eq!(lists.show(&bytes), Shown::Judged { logic: logic.len(), lemmas: lemmas.len(), answer });
        assert!(lists == lent.with_words(&words).with_graph(&[]));
    }
    assert_eq!(lines(&bytes), "REFUSED 7 AT 512\n");
}

// ---------------------------------------------------------------------------------------------
// Against Judge, asked with the lists

/// What is expected of these words by a slow reading: one word after the other goes to the logic
/// until one of kind 15 has gone there.
fn expected(words: &[u32], mut lent: Lent) -> (Shown, Lent) {
    let (mut logic, mut lemmas, mut ended) = (Vec::new(), Vec::new(), false);
    for word in words {
        if ended {
            lemmas.push(*word);
        } else {
            logic.push(*word);
        }
        ended |= *word >= 0xF000_0000;
    }
    let answer = judge(&logic, &lemmas, &mut lent.graph, &mut lent.path);
    (Shown::Judged { logic: logic.len(), lemmas: lemmas.len(), answer }, lent.with_words(words))
}

/// The lines by another way: the parent nodes of the graph's ORIGIN words give the path.
fn expected_lines(answer: Judged, actions: usize, graph: &[u32]) -> String {
    let path = |mut node: usize| {
        let mut line = String::new();
        while node != 0 {
            let origin = graph[node * (HEADER + actions) + 1];
            line = format!(" {}{line}", origin & 15);
            node = (origin >> 4 & 511) as usize;
        }
        format!("PATH{line}")
    };
    match answer {
        Judged::Safe { nodes, edges } => format!("SAFE nodes {nodes} edges {edges}\n"),
        Judged::MayForbid { node, bad, .. } => format!("FORBID node {node} bad {bad}\n{}\n", path(node)),
        Judged::MayRunOff { node, action, variable, high: false, .. } => {
            format!("RUNOFF node {node} action {action} variable {variable} low\n{}\n", path(node))
        }
        Judged::MayRunOff { node, action, variable, high: true, .. } => {
            format!("RUNOFF node {node} action {action} variable {variable} high\n{}\n", path(node))
        }
        Judged::Refused(Refusal { number, value }) => format!("REFUSED {number} AT {value}\n"),
    }
}

fn compare(words: &[u32], lent: Lent) -> Judged {
    let bytes = bytes_of(words);
    let (shown, left) = expected(words, lent.clone());
    let mut lists = lent;
    assert_eq!(lists.show(&bytes), shown);
    assert!(lists == left);
    // The lines are those of lists that are long enough.
    let (shown, left) = expected(words, lend(SHOW_WORDS, GRAPH_WORDS, PATH_WORDS));
    let Shown::Judged { logic, answer, .. } = shown else { unreachable!() };
    let actions = independent::check(&words[..logic]).map_or(0, |counts| counts.actions);
    assert_eq!(lines(&bytes), expected_lines(answer, actions, &left.graph));
    answer
}

/// Every record that asks Judge, its words as one file.
#[test]
fn every_record() {
    let (mut safe, mut findings, mut refusals) = (0, 0, 0);
    for case in cases().into_iter().filter(|case| case.record.call == JUDGE) {
        let record = case.record;
        let lent = lend(SHOW_WORDS + 1, record.graph as usize, record.path as usize);
        match compare(&file(&record.program, &record.lemmas), lent) {
            Judged::Safe { .. } => safe += 1,
            Judged::Refused(_) => refusals += 1,
            _ => findings += 1,
        }
    }
    println!("{safe} safe, {findings} findings, {refusals} refusals");
    assert!(safe > 20 && findings > 50 && refusals > 100);
}

/// Fade with any one of its 32 words of another kind, left out, or doubled.
#[test]
fn one_word_changed() {
    let good = file(&FADE, &FADE_LEMMAS);
    for place in 0..good.len() {
        for kind in 0..16 {
            let mut words = good.clone();
            words[place] = make(kind, payload(words[place]));
            compare(&words, lend(SHOW_WORDS, GRAPH_WORDS + 1, PATH_WORDS + 1));
        }
        let mut words = good.clone();
        words.remove(place);
        compare(&words, lend(SHOW_WORDS, GRAPH_WORDS, PATH_WORDS));
        words = good.clone();
        words.insert(place, good[place]);
        compare(&words, lend(SHOW_WORDS, GRAPH_WORDS, PATH_WORDS));
    }
}

// ---------------------------------------------------------------------------------------------
// The binary

/// Standard output, with standard error empty and exit status 0.
fn printed(bytes: &[u8]) -> String {
    let mut command = Command::new(env!("CARGO_BIN_EXE_lines"));
    command.stdin(Stdio::piped()).stdout(Stdio::piped()).stderr(Stdio::piped());
    let mut child = command.spawn().unwrap();
    child.stdin.take().unwrap().write_all(bytes).unwrap();
    let output = child.wait_with_output().unwrap();
    assert!(output.status.success() && output.stderr.is_empty());
    String::from_utf8(output.stdout).unwrap()
}

#[test]
fn the_binary() {
    let fade = bytes_of(&file(&FADE, &FADE_LEMMAS));
    assert_eq!(printed(&fade), "SAFE nodes 1 edges 2\n");
    assert_eq!(printed(&fade[..64]), "RUNOFF node 0 action 0 variable 0 low\nPATH\n");
    let kept = file(&house().words(), &leave_out(&house_lemmas(), &HOUSE_P0_KEPT));
    assert_eq!(printed(&bytes_of(&kept)), "FORBID node 3 bad 0\nPATH 1 0\n");
    assert_eq!(printed(&fade[..127]), "ODD BYTES\n");
    assert_eq!(printed(&[]), "REFUSED 2 AT 0\n");
    assert_eq!(printed(&[0; SHOW_BYTES]), "REFUSED 2 AT 0\n");
    assert_eq!(printed(&[0; SHOW_BYTES + 1]), "TOO LONG\n");
}
