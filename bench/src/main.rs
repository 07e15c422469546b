//! Time per call of the proved library against the independent code, both built for release, on the same words in the same
//! run, and the stack of one call. `bench [MILLISECONDS]`: how long each side of each cell is called, 200 by default.
//! `bench sizes [ROUNDS]`: how a check grows with its nodes and with its lemmas, by so many rounds, 40 by default.

mod inputs;
#[allow(dead_code)]
#[path = "../../compare/src/other.rs"]
mod other;
mod stack;

use bulanevior::raw as library;
use independent::words::{GRAPH_WORDS, PATH_WORDS};
use inputs::Show;
use std::hint::black_box;
use std::num::NonZeroU32;

const ROUNDS: u32 = 40;
/// Seconds of a round in the table by size.
const ROUND: f64 = 0.005;
const CALLS: [&str; 7] = ["check", "step", "rack", "ask", "judge", "findings", "show"];
/// The words of the findings list; the shows are safe and have none.
const FINDINGS: usize = 512;

/// The processor time of this thread, in seconds.
fn now() -> f64 {
    #[repr(C)]
    struct Time {
        seconds: i64,
        nanoseconds: i64,
    }
    extern "C" {
        fn clock_gettime(clock: i32, time: *mut Time) -> i32;
    }
    const THREAD: i32 = 3;
    let mut time = Time { seconds: 0, nanoseconds: 0 };
    unsafe { clock_gettime(THREAD, &mut time) };
    time.seconds as f64 + time.nanoseconds as f64 * 1e-9
}

/// How long each side of a cell is called: so many rounds, and the seconds of one.
#[derive(Clone, Copy)]
struct Pace {
    rounds: u32,
    round: f64,
}

/// Microseconds per call: the least of the averages of the rounds. The two sides take turns.
fn times(pace: Pace, mut library: impl FnMut(), mut other: impl FnMut()) -> (f64, f64) {
    let mut calls = [0u32; 2];
    let mut best = [f64::MAX; 2];
    // How many calls make a round.
    for (side, calls) in calls.iter_mut().enumerate() {
        let began = now();
        while *calls < 2 || now() - began < pace.round {
            if side == 0 { library() } else { other() }
            *calls += 1;
        }
    }
    for _ in 0..pace.rounds {
        for side in 0..2 {
            let began = now();
            for _ in 0..calls[side] {
                if side == 0 { library() } else { other() }
            }
            best[side] = best[side].min((now() - began) * 1e6 / f64::from(calls[side]));
        }
    }
    (best[0], best[1])
}

struct Lists {
    graph: Vec<u32>,
    path: Vec<u32>,
    findings: Vec<u32>,
    words: Vec<u32>,
}

impl Lists {
    fn new() -> Lists {
        Lists {
            graph: vec![0; GRAPH_WORDS],
            path: vec![0; PATH_WORDS],
            findings: vec![0; FINDINGS],
            words: vec![0; library::BNV_SHOW_WORDS as usize],
        }
    }
}

/// A step of either side.
type Stepping = fn(&[u32], usize, &mut [i32]) -> library::BnvStep;

struct Table {
    pace: Pace,
    lists: Lists,
    /// Library time of the row before, per call.
    before: [Option<f64>; CALLS.len()],
}

impl Table {
    fn new(pace: Pace) -> Table {
        Table { pace, lists: Lists::new(), before: [None; CALLS.len()] }
    }

    fn head() {
        println!(
            "{:<42} {:<8} {:>11} {:>11} {:>6} {:>7}",
            "input", "call", "library us", "other us", "ratio", "growth"
        );
    }

    fn cell(&mut self, row: &str, call: usize, (library, other): (f64, f64), growth: bool) {
        let name = CALLS[call];
        let grown = match self.before[call] {
            Some(before) if growth => format!("{:.2}", library / before),
            _ => "-".to_string(),
        };
        println!("{row:<42} {name:<8} {library:>11.2} {other:>11.2} {:>6.2} {grown:>7}", library / other);
        self.before[call] = Some(library);
    }

    fn judge(&mut self, show: &Show) -> (f64, f64) {
        // Both sides must agree on the input before they are timed.
        let Lists { graph, path, .. } = &mut self.lists;
        let ours = library::judge(&show.program, &show.lemmas, graph, path);
        let (graph_1, path_1) = (graph.clone(), path.clone());
        let theirs = other::judge(&show.program, &show.lemmas, graph, path);
        assert_eq!(ours, theirs, "{}", show.name);
        assert!(graph_1 == *graph && path_1 == *path, "{}", show.name);
        assert_eq!((ours.verdict, ours.nodes), (library::BNV_SAFE, show.nodes), "{}: {ours:?}", show.name);
        let mut more = Lists::new();
        times(
            self.pace,
            || {
                black_box(library::judge(black_box(&show.program), black_box(&show.lemmas), graph, path));
            },
            || {
                black_box(other::judge(black_box(&show.program), black_box(&show.lemmas), &mut more.graph, &mut more.path));
            },
        )
    }

    fn findings(&mut self, show: &Show) -> (f64, f64) {
        let Lists { graph, findings, .. } = &mut self.lists;
        let ours = library::findings(&show.program, &show.lemmas, graph, findings);
        assert_eq!(ours, other::findings(&show.program, &show.lemmas, graph, findings), "{}", show.name);
        assert_eq!((ours.answer, ours.count), (library::BNV_LISTED, 0), "{}: {ours:?}", show.name);
        let mut more = Lists::new();
        times(
            self.pace,
            || {
                black_box(library::findings(black_box(&show.program), black_box(&show.lemmas), graph, findings));
            },
            || {
                black_box(other::findings(black_box(&show.program), black_box(&show.lemmas), &mut more.graph, &mut more.findings));
            },
        )
    }

    fn show(&mut self, show: &Show) -> (f64, f64) {
        let bytes = show.bytes();
        let Lists { graph, path, words, .. } = &mut self.lists;
        let ours = library::show(&bytes, words, graph, path);
        assert_eq!(ours, other::show(&bytes, words, graph, path), "{}", show.name);
        assert_eq!((ours.judged.verdict, ours.judged.nodes), (library::BNV_SAFE, show.nodes), "{}: {ours:?}", show.name);
        let mut more = Lists::new();
        times(
            self.pace,
            || {
                black_box(library::show(black_box(&bytes), words, graph, path));
            },
            || {
                black_box(other::show(black_box(&bytes), &mut more.words, &mut more.graph, &mut more.path));
            },
        )
    }

    /// Step or the rack's step, the last action on the show's state.
    fn steps(&mut self, show: &Show, ours: Stepping, theirs: Stepping) -> (f64, f64) {
        let words = &show.stepped;
        let last = library::check(words).actions - 1;
        let answer = ours(words, last, &mut show.state.clone());
        assert_eq!(answer, theirs(words, last, &mut show.state.clone()), "{}", show.name);
        assert_eq!(answer.answer, library::BNV_MOVED, "{}: {answer:?}", show.name);
        let step = |call: Stepping| {
            let mut state = [0; 8];
            state.copy_from_slice(&show.state);
            black_box(call(black_box(words), last, black_box(&mut state)));
        };
        times(self.pace, || step(ours), || step(theirs))
    }

    /// All but show, on one show.
    fn row(&mut self, show: &Show, growth: bool) {
        let (program, lemmas) = (&show.program, &show.lemmas);
        let pace = self.pace;
        let checked = times(
            pace,
            || {
                black_box(library::check(black_box(program)));
            },
            || {
                black_box(other::check(black_box(program)));
            },
        );
        self.cell(&show.name, 0, checked, growth);
        let stepped = self.steps(show, library::step, other::step);
        self.cell(&show.name, 1, stepped, growth);
        let racked = self.steps(show, library::rack_step, other::rack_step);
        self.cell(&show.name, 2, racked, growth);
        let k = show.count - 1;
        assert_eq!(library::ask(program, lemmas, k), other::ask(program, lemmas, k), "{}", show.name);
        let asked = times(
            pace,
            || {
                black_box(library::ask(black_box(program), black_box(lemmas), k));
            },
            || {
                black_box(other::ask(black_box(program), black_box(lemmas), k));
            },
        );
        self.cell(&show.name, 3, asked, growth);
        let judged = self.judge(show);
        self.cell(&show.name, 4, judged, growth);
        let found = self.findings(show);
        self.cell(&show.name, 5, found, growth);
    }
}

/// Makes one call so many times and nothing else, for a tool that counts instructions.
fn once(side: &str, call: &str, row: &str, count: u32) -> Option<()> {
    let library = match side {
        "library" => true,
        "other" => false,
        _ => return None,
    };
    let show = inputs::named(row)?;
    let (program, lemmas, bytes) = (&show.program, &show.lemmas, show.bytes());
    let last = library::check(&show.stepped).actions - 1;
    let k = show.count - 1;
    let Lists { mut graph, mut path, mut findings, mut words } = Lists::new();
    for _ in 0..count {
        let mut state = show.state.clone();
        match (call, library) {
            ("check", true) => { black_box(library::check(black_box(program))); }
            ("check", false) => { black_box(other::check(black_box(program))); }
            ("step", true) => { black_box(library::step(black_box(&show.stepped), last, &mut state)); }
            ("step", false) => { black_box(other::step(black_box(&show.stepped), last, &mut state)); }
            ("rack", true) => { black_box(library::rack_step(black_box(&show.stepped), last, &mut state)); }
            ("rack", false) => { black_box(other::rack_step(black_box(&show.stepped), last, &mut state)); }
            ("ask", true) => { black_box(library::ask(black_box(program), lemmas, k)); }
            ("ask", false) => { black_box(other::ask(black_box(program), lemmas, k)); }
            ("judge", true) => { black_box(library::judge(black_box(program), lemmas, &mut graph, &mut path)); }
            ("judge", false) => { black_box(other::judge(black_box(program), lemmas, &mut graph, &mut path)); }
            ("findings", true) => { black_box(library::findings(black_box(program), lemmas, &mut graph, &mut findings)); }
            ("findings", false) => { black_box(other::findings(black_box(program), lemmas, &mut graph, &mut findings)); }
            ("show", true) => { black_box(library::show(black_box(&bytes), &mut words, &mut graph, &mut path)); }
            ("show", false) => { black_box(other::show(black_box(&bytes), &mut words, &mut graph, &mut path)); }
            _ => return None,
        }
    }
    Some(())
}

/// The calls on shows of several sizes, Judge on those that take it longest, and the stack.
fn calls(milliseconds: u32) {
    let round = f64::from(milliseconds) / 1000.0 / f64::from(ROUNDS);
    let mut table = Table::new(Pace { rounds: ROUNDS, round });
    println!("Processor time, least average of {ROUNDS} rounds; the two sides take turns. The lent lists are not cleared between calls:");
    println!("each call finds what the last one left. Growth: library time over that of the row before. Ask: the last lemma.");
    println!("Step moves. Slowest and steepest: 512 nodes, 16 actions, 512 accepted lemmas, the arrangement of 20 that takes");
    println!("the library longest, and the one with the highest ratio.");
    Table::head();
    for (place, nodes) in [1, 64, 128, 256, 512].into_iter().enumerate() {
        table.row(&inputs::largest(nodes), place > 0);
    }
    table.row(&inputs::rig8(), false);

    // Of all arrangements tried: the one that takes the library longest, and the one with the highest ratio.
    let mut worst: [Option<(f64, Show)>; 2] = [None, None];
    for show in inputs::arrangements() {
        let (library, other) = table.judge(&show);
        for (kept, measure) in worst.iter_mut().zip([library, library / other]) {
            if kept.as_ref().map_or(true, |(most, _)| measure > *most) {
                *kept = Some((measure, show.clone()));
            }
        }
    }
    for (what, kept) in ["slowest", "steepest"].into_iter().zip(worst) {
        let (_, show) = kept.unwrap();
        let judged = table.judge(&show);
        table.cell(&format!("{what}: {}", show.name), 4, judged, false);
    }

    println!();
    stack::print();
}

/// Judge and show, each group of shows from its least size to its largest.
fn sizes(rounds: u32) {
    let mut table = Table::new(Pace { rounds, round: ROUND });
    println!("A check by size. Processor time, least average of the rounds ({rounds}); the two sides take turns. The lent lists are not");
    println!("cleared between calls. The size doubles from row to row; growth: library time over that of the row before.");
    println!("Largest: nodes are found many at a time. Kept: the actions set nothing, so that 512 nodes need 10 lemmas. Chain: nodes are");
    println!("found one by one.");
    Table::head();
    for (_, least, made) in inputs::GROUPS {
        for size in inputs::sizes(least) {
            let show = made(size);
            let judged = table.judge(&show);
            table.cell(&show.name, 4, judged, size > least);
            let shown = table.show(&show);
            table.cell(&show.name, 6, shown, size > least);
        }
    }
}

/// Does what the arguments ask for, if they ask for something.
fn run(words: &[&str]) -> Option<()> {
    match words {
        ["once", side, call, row, count] => return once(side, call, row, count.parse().ok()?),
        ["sizes"] => sizes(ROUNDS),
        ["sizes", rounds] => sizes(rounds.parse::<NonZeroU32>().ok()?.get()),
        [] => calls(200),
        [milliseconds] => calls(milliseconds.parse().ok()?),
        _ => return None,
    }
    Some(())
}

fn main() {
    let words: Vec<String> = std::env::args().skip(1).collect();
    let words: Vec<&str> = words.iter().map(String::as_str).collect();
    if run(&words).is_none() {
        eprintln!("usage: bench [MILLISECONDS], bench sizes [ROUNDS], or");
        eprintln!("       bench once library|other {} ROW TIMES; rows: rig8, nodes:64, lemmas:64, chain:64 ..", CALLS.join("|"));
        std::process::exit(2);
    }
}
