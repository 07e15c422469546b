//! Finds the lemmas of a show that say nothing that is not kept: accepted, for a literal of a predicate that their action
//! leaves untouched, which is a literal of every node of the show's graph at which they apply. Without them the graph is
//! the same.

#[allow(dead_code)]
#[path = "../other.rs"]
mod other;
#[allow(dead_code)]
#[path = "../touch.rs"]
mod touch;

use bulanevior::raw::{self as library, BnvJudge, BNV_JUDGE_REFUSED};
use independent::lemma::{weigh, Goal, Lemma, Source};
use independent::program::{Literals, Program};
use independent::records::{lent_graph, lent_path};
use independent::words::{kind, END, GRAPH_WORDS, PATH_WORDS};
use std::path::Path;
use std::process::ExitCode;
use touch::{untouched, Graph};

const USAGE: &str = "usage: kept FILE               prints NAME lemmas L kept K by_form F; F of the K have their own literal as a premise
       kept FILE OUT           also writes the show without those K lemmas
       kept --check FILE OUT   OUT is that show, and both judges answer the same for both and leave the same lists";

/// A show's words, of which the first `logic` are its logic.
struct Show {
    name: String,
    words: Vec<u32>,
    logic: usize,
}

/// What a judge answers and leaves.
type Judgement = (BnvJudge, Vec<u32>, Vec<u32>);
type Judge = fn(&[u32], &[u32], &mut [u32], &mut [u32]) -> BnvJudge;

impl Show {
    fn new(name: String, words: Vec<u32>) -> Show {
        let logic = words.iter().position(|w| kind(*w) == END).map_or(words.len(), |end| end + 1);
        Show { name, words, logic }
    }

    fn read(file: &str) -> Result<Show, String> {
        let bytes = std::fs::read(file).map_err(|fault| format!("{file}: {fault}"))?;
        if bytes.len() % 4 != 0 {
            return Err(format!("{file}: no whole number of words"));
        }
        let words = bytes.chunks_exact(4).map(|b| u32::from_le_bytes([b[0], b[1], b[2], b[3]])).collect();
        let name = Path::new(file).file_stem().map_or(String::new(), |stem| stem.to_string_lossy().into_owned());
        Ok(Show::new(name, words))
    }

    fn bytes(&self) -> Vec<u8> {
        self.words.iter().flat_map(|w| w.to_le_bytes()).collect()
    }

    /// By one of the judges, in lists that are filled and longer than needed.
    fn judged(&self, judge: Judge) -> Judgement {
        let (mut graph, mut path) = (lent_graph(GRAPH_WORDS as u32 + 9), lent_path(PATH_WORDS as u32 + 9));
        let (logic, lemmas) = self.words.split_at(self.logic);
        (judge(logic, lemmas, &mut graph, &mut path), graph, path)
    }
}

#[derive(Clone, Copy, PartialEq)]
enum Says {
    More,
    /// Nothing that is not kept, in this graph.
    Kept,
    /// Nor in any other.
    KeptByForm,
}

/// The action, the predicate and the literal of a lemma for goal 1 or 2.
fn said(lemma: &Lemma) -> Option<(usize, usize, Literals)> {
    let Source::Action(action) = lemma.source else { return None };
    match lemma.goal {
        Goal::Holds(p) => Some((action, p, Literals { known_false: 0, known_true: 1 << p })),
        Goal::Fails(p) => Some((action, p, Literals { known_false: 1 << p, known_true: 0 })),
        _ => None,
    }
}

fn says(program: &Program, graph: &Graph, lemma: &Lemma) -> Says {
    let Some((action, predicate, literal)) = said(lemma) else { return Says::More };
    if !untouched(&program.actions[action], &program.predicates[predicate]) || weigh(program, lemma) != Some(true) {
        return Says::More;
    }
    let mut nodes = (0..graph.nodes).map(|node| graph.literals(node)).filter(|node| lemma.premises.within(node));
    if literal.within(&lemma.premises) {
        Says::KeptByForm
    } else if nodes.all(|node| literal.within(&node)) {
        Says::Kept
    } else {
        Says::More
    }
}

/// The show without the lemmas that say nothing that is not kept, and its line.
fn reduced(show: &Show) -> Result<(Show, String), String> {
    let (answer, words, _) = show.judged(other::judge);
    if answer.verdict == BNV_JUDGE_REFUSED {
        return Err(format!("{}: refused {} at {}", show.name, answer.refusal, answer.value));
    }
    let program = independent::program::read(&show.words[..show.logic]).expect("a judged program");
    let lemmas = independent::lemma::read(&program, &show.words[show.logic..]).expect("a judged lemma list");
    let graph = Graph { words: &words, nodes: answer.nodes, actions: program.actions.len() };
    let said: Vec<Says> = lemmas.iter().map(|lemma| says(&program, &graph, lemma)).collect();
    let mut left = show.words[..show.logic].to_vec();
    let mut at = show.logic;
    for (lemma, says) in lemmas.iter().zip(&said) {
        let end = at + 2 + lemma.multipliers.len();
        if *says == Says::More {
            left.extend(&show.words[at..end]);
        }
        at = end;
    }
    let kept = said.iter().filter(|says| **says != Says::More).count();
    let by_form = said.iter().filter(|says| **says == Says::KeptByForm).count();
    let line = format!("{} lemmas {} kept {kept} by_form {by_form}", show.name, lemmas.len());
    Ok((Show::new(show.name.clone(), left), line))
}

/// The stored show is the reduced one, and both judges answer the same for it as for the full one and leave the same lists.
fn check(full: &Show, reduced: &Show, stored: &Show) -> Result<(), String> {
    if reduced.words != stored.words {
        return Err(format!("{} is not {} without the lemmas that are kept", stored.name, full.name));
    }
    let (answer, graph, path) = full.judged(other::judge);
    for (judge, call) in [("the independent code", other::judge as Judge), ("the library", library::judge)] {
        for show in [full, stored] {
            let judged = show.judged(call);
            if judged.0 != answer {
                return Err(format!("{judge} answers {:?} for {}, and not {answer:?}", judged.0, show.name));
            }
            if judged.1 != graph || judged.2 != path {
                return Err(format!("{judge} leaves other lists for {}", show.name));
            }
        }
    }
    Ok(())
}

fn run(checks: bool, file: &str, out: Option<&str>) -> Result<ExitCode, String> {
    let full = Show::read(file)?;
    let (reduced, line) = reduced(&full)?;
    println!("{line}");
    if let Some(out) = out {
        if !checks {
            std::fs::write(out, reduced.bytes()).map_err(|fault| format!("{out}: {fault}"))?;
        } else if let Err(fault) = check(&full, &reduced, &Show::read(out)?) {
            println!("{fault}");
            return Ok(ExitCode::from(1));
        }
    }
    Ok(ExitCode::SUCCESS)
}

fn main() -> ExitCode {
    let arguments: Vec<String> = std::env::args().skip(1).collect();
    let arguments: Vec<&str> = arguments.iter().map(String::as_str).collect();
    let done = match arguments[..] {
        ["--check", file, out] => run(true, file, Some(out)),
        [file] if !file.starts_with('-') => run(false, file, None),
        [file, out] if !file.starts_with('-') => run(false, file, Some(out)),
        _ => Err(USAGE.to_string()),
    };
    done.unwrap_or_else(|fault| {
        eprintln!("{fault}");
        ExitCode::from(2)
    })
}
