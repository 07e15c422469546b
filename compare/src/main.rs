//! Compares the proved library with the independent code: `compare [INPUTS [SEED]]`, by default 100,000 inputs and seed 1.
//! Ends with status 1 at the first difference, or if some answer occurred too seldom.

mod blocks;
mod calls;
mod counts;
mod dice;
mod findings;
mod generate;
mod guarded;
mod keeping;
mod near;
mod nears;
mod open;
mod other;
mod prover;
mod rack;
mod racks;
mod rings;
mod runs;
mod shapes;
mod sheets;
mod states;
mod sweep;
mod touch;
mod walks;
mod wide;

use calls::{falsehood, Compare, Difference};
use counts::{BLOCKS, BLOCKS_LEAST, DUE};
use dice::Dice;
use generate::Input;
use bulanevior::raw::{BnvJudge, BNV_ACCEPTED, BNV_JUDGE_REFUSED, BNV_SAFE};
use std::process::ExitCode;
use std::time::Instant;

/// States of a logic that are walked through, for a made logic and for a damaged one.
const STATES: usize = 2_000;
const STATES_DAMAGED: usize = 300;

/// Holds the findings, and of the first `asked` lemmas the accepted ones, to all states, where they are at most `most`.
fn walk(compare: &mut Compare, input: &Input, judged: &BnvJudge, most: usize, asked: usize) -> Result<(), Difference> {
    let Ok(program) = independent::program::read(&input.program) else { return Ok(()) };
    let Some(states) = states::count(&program, most) else { return Ok(()) };
    let Ok(lemmas) = independent::lemma::read(&program, &input.lemmas) else { return Ok(()) };
    let mut accepted = Vec::new();
    for (k, lemma) in lemmas.iter().enumerate().take(asked) {
        if compare.ask(input, k)? == BNV_ACCEPTED {
            accepted.push(lemma);
        }
    }
    let walked = states::walk(&program, states, &accepted, &states::Sheet::of(&compare.sheet), compare.steps)
        .map_err(|fault| falsehood(input, judged, &fault))?;
    let counts = &mut compare.counts;
    counts.note("all states walked");
    counts.add("accepted lemma, all states", walked.lemmas as u64);
    if walked.faults > 0 {
        counts.note("all states walked, a fault on the sheet");
    }
    if compare.steps > 0 {
        counts.note("all states walked, a path with steps");
        counts.add("all states walked, a fault as near as the path", u64::from(walked.nearest == Some(compare.steps)));
    }
    if judged.verdict == BNV_SAFE {
        counts.note("all states walked, safe");
        counts.add("reachable states, safe", walked.reachable as u64);
        if judged.nodes > 1 {
            counts.note("all states walked, safe, 2 nodes or more");
        }
        if compare.safe_by_kept {
            counts.note("all states walked, safe by what is kept");
        }
    }
    Ok(())
}

/// A logic, a copy with more findings, then damaged copies, then now and then noise, until there are `inputs`.
fn run(compare: &mut Compare, inputs: u64, seed: u64) -> Result<u64, Difference> {
    let mut done = 0;
    let mut logics = 0;
    while done < inputs {
        let at = |fault: Difference| format!("seed {seed}, logic {logics}\n{fault}");
        let dice = Dice::new(seed, logics);
        let logic = generate::logic(&dice);
        for copy in 0..6 {
            let (input, most, asked) = match copy {
                0 => (logic.clone(), STATES, usize::MAX),
                // Its lemmas are the logic's.
                1 => (open::open(&dice, &logic), STATES, 0),
                _ => (generate::damaged(&dice, &logic), STATES_DAMAGED, usize::MAX),
            };
            let judged = compare.all(&input, &dice).map_err(at)?;
            compare.runs(&input, judged.as_ref(), &dice).map_err(at)?;
            if let Some(judged) = judged.filter(|j| j.verdict != BNV_JUDGE_REFUSED) {
                walk(compare, &input, &judged, most, asked).map_err(at)?;
            }
            done += 1;
        }
        if logics % 2 == 0 {
            let input = generate::noise(&dice);
            compare.all(&input, &dice).map_err(at)?;
            done += 1;
        }
        logics += 1;
    }
    Ok(done)
}

/// What a part of the run did.
struct Part {
    compare: Compare,
    inputs: u64,
    seconds: f64,
}

fn timed(seed: u64, part: impl FnOnce(&mut Compare) -> Result<u64, Difference>) -> Result<Part, Difference> {
    let began = Instant::now();
    let mut compare = Compare::new(seed);
    let inputs = part(&mut compare)?;
    Ok(Part { compare, inputs, seconds: began.elapsed().as_secs_f64() })
}

/// All parts, on two threads, with their names. The sweeps have counts of their own, which do not count towards what must occur often in the inputs.
fn parts(inputs: u64, seed: u64) -> Vec<(Result<Part, Difference>, &'static str)> {
    std::thread::scope(|scope| {
        let sweeps = scope.spawn(|| [timed(seed, sweep::sweep), timed(seed, blocks::sweep)]);
        let made = timed(seed, |compare| run(compare, inputs, seed));
        // On this thread: by default the other sweeps take longer than the inputs.
        let graphs = timed(seed, sweep::graphs);
        let racks = timed(seed, racks::sweep);
        let nears = timed(seed, nears::sweep);
        let [sweeps, blocks] = sweeps.join().expect("the sweeps panicked");
        let names = ["inputs", "sweeps", "the blocks' sweeps", "the graphs' sweeps", "the rack's sweeps", "the guards' sweeps"];
        [made, sweeps, blocks, graphs, racks, nears].into_iter().zip(names).collect()
    })
}

/// The number of inputs and the seed; none where an argument is no number.
fn numbers() -> Option<[u64; 2]> {
    let mut numbers = [100_000, 1];
    for (to, argument) in numbers.iter_mut().zip(std::env::args().skip(1)) {
        *to = argument.parse().ok()?;
    }
    Some(numbers)
}

fn main() -> ExitCode {
    let Some([inputs, seed]) = numbers() else {
        eprintln!("usage: compare [INPUTS [SEED]]");
        return ExitCode::from(2);
    };
    println!("seed {seed}");
    let mut seldom = Vec::new();
    for (part, name) in parts(inputs, seed) {
        let Part { compare, inputs: done, seconds } = match part {
            Ok(part) => part,
            Err(fault) => {
                println!("{fault}");
                return ExitCode::from(1);
            }
        };
        let (due, least) = match name {
            "inputs" => (DUE, if inputs < 100_000 { inputs / 1000 } else { 100 }),
            "the blocks' sweeps" => (BLOCKS, BLOCKS_LEAST),
            _ => (&[][..], 0),
        };
        let fewer = compare.counts.print(due, least);
        if !fewer.is_empty() {
            seldom.push(format!("fewer than {least}: {}", fewer.join(", ")));
        }
        println!("{name}: {done}, {} calls of each side, {seconds:.1} s", compare.calls);
    }
    if seldom.is_empty() {
        println!("no difference");
        ExitCode::SUCCESS
    } else {
        println!("{}", seldom.join("\n"));
        ExitCode::from(1)
    }
}
