//! How much stack one call uses: the stack of a thread is painted below the caller's frame, the call is made, and the
//! lowest word that lost its paint says how far it went.

use crate::inputs::{self, Show};
use crate::other;
use bulanevior::raw as library;
use independent::words::{GRAPH_WORDS, PATH_WORDS};
use std::hint::black_box;

const PAINT: u64 = 0x5AFE_57AC_C0FF_EE11;
const ROOM: usize = 4 << 20;
/// Left for the painter's own frame.
const OWN: usize = 512;

/// Paints below the frame of the caller, calls, and hands back how many bytes were written below it.
#[inline(never)]
fn measured(call: &mut dyn FnMut()) -> usize {
    let here = 0u64;
    let top = (black_box(&here) as *const u64 as usize - OWN) & !7;
    let bottom = top - ROOM;
    // The thread has ROOM and more below this frame, and nothing else uses it.
    let mut at = top;
    while at > bottom {
        at -= 8;
        unsafe { (at as *mut u64).write_volatile(PAINT) };
    }
    call();
    let mut at = bottom;
    while at < top && unsafe { (at as *const u64).read_volatile() } == PAINT {
        at += 8;
    }
    top + OWN - at
}

fn on_a_thread(mut call: impl FnMut() + Send) -> usize {
    std::thread::scope(|scope| {
        std::thread::Builder::new()
            .stack_size(ROOM + (1 << 20))
            .spawn_scoped(scope, move || measured(&mut call))
            .unwrap()
            .join()
            .unwrap()
    })
}

/// The stack of each call on one show.
fn used(show: &Show) -> Vec<(&'static str, usize)> {
    let (program, lemmas, stepped) = (&show.program[..], &show.lemmas[..], &show.stepped[..]);
    let (k, bytes) = (show.count - 1, show.bytes());
    let (mut g, mut p) = (vec![0; GRAPH_WORDS], vec![0; PATH_WORDS]);
    let mut findings = vec![0; library::BNV_MOST_FINDINGS as usize];
    let mut words = vec![0; library::BNV_SHOW_WORDS as usize];
    let (mut state, mut racked) = (show.state.clone(), show.state.clone());
    vec![
        ("nothing", on_a_thread(|| { black_box(()); })),
        ("version", on_a_thread(|| { black_box(library::version()); })),
        ("check", on_a_thread(|| { black_box(library::check(program)); })),
        ("action part", on_a_thread(|| { black_box(library::action_part(program, 0)); })),
        ("step", on_a_thread(|| { black_box(library::step(stepped, 0, &mut state)); })),
        ("rack", on_a_thread(|| { black_box(library::rack_step(stepped, 0, &mut racked)); })),
        ("ask", on_a_thread(|| { black_box(library::ask(program, lemmas, k)); })),
        ("judge", on_a_thread(|| { black_box(library::judge(program, lemmas, &mut g, &mut p)); })),
        ("show", on_a_thread(|| { black_box(library::show(&bytes, &mut words, &mut g, &mut p)); })),
        ("findings", on_a_thread(|| { black_box(library::findings(program, lemmas, &mut g, &mut findings)); })),
        ("successor", on_a_thread(|| { black_box(library::successor(&g, 512, 16, 511, 15)); })),
        ("judge, other", on_a_thread(|| { black_box(other::judge(program, lemmas, &mut g, &mut p)); })),
    ]
}

/// Is the show what it is measured for? Both sides must agree.
fn assert_judged(show: &Show, verdict: u32, findings: u32) {
    let (program, lemmas) = (&show.program, &show.lemmas);
    let (mut g, mut p) = (vec![0; GRAPH_WORDS], vec![0; PATH_WORDS]);
    let mut list = vec![0; library::BNV_MOST_FINDINGS as usize];
    let ours = library::judge(program, lemmas, &mut g, &mut p);
    assert_eq!(ours, other::judge(program, lemmas, &mut g, &mut p), "{}", show.name);
    let listed = library::findings(program, lemmas, &mut g, &mut list);
    assert_eq!(listed, other::findings(program, lemmas, &mut g, &mut list), "{}", show.name);
    assert_eq!((ours.verdict, ours.nodes, listed.count), (verdict, show.nodes, findings as usize), "{}", show.name);
}

/// A line for each call: its stack on each of the shows, and the most of them.
pub fn print() {
    println!("Stack of one call, bytes below the caller's frame; {OWN} is the least that is seen. The largest logic and 512 lemmas: safe,");
    println!("with 512 nodes that are found many at a time, and one by one (chain); with {} findings; refused at the 513th", library::BNV_MOST_FINDINGS);
    println!("node.");
    println!("  {:<14} {:>9} {:>9} {:>9} {:>9} {:>9}", "call", "safe", "chain", "findings", "refused", "most");
    let columns = [
        (inputs::largest(512), library::BNV_SAFE, 0),
        (inputs::chain(512), library::BNV_SAFE, 0),
        (inputs::crowded(), library::BNV_MAY_FORBID, library::BNV_MOST_FINDINGS),
        (inputs::refused(), library::BNV_JUDGE_REFUSED, 0),
    ]
    .map(|(show, verdict, findings)| {
        assert_judged(&show, verdict, findings);
        used(&show)
    });
    for (place, (call, _)) in columns[0].iter().enumerate() {
        let bytes = columns.each_ref().map(|column| column[place].1);
        print!("  {call:<14}");
        bytes.iter().chain(bytes.iter().max()).for_each(|n| print!(" {n:>9}"));
        println!();
    }
}
