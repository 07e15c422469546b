//! Sweeps of graphs at the borders of blocks of 64 nodes: of so many nodes that a block is just full, lacks one or has one more, with findings on both
//! sides of each border. The nodes and the findings that are due come with the shows.

use crate::calls::{falsehood, Compare, Difference};
use crate::dice::Dice;
use crate::findings::{number, Before};
use crate::generate::Input;
use crate::rings::parent;
use crate::shapes::{arms, lattice, tree, EndOf, Shape};
use crate::sweep::Sweep;
use crate::touch::{untouched, Graph};
use bulanevior::raw::BnvJudge;
use bulanevior::Finding;
use independent::program::Program;
use independent::words::*;

/// The library takes nodes in blocks of so many at most, and judges them in blocks of so many from node 0 on. Where fewer wait than a block has at least,
/// it takes one.
const BLOCK: usize = 64;
const LEAST: usize = 6;

/// The numbers of nodes. Of 75, 76 and 77 there are 63, 64 and 65 behind node 11, which in the widest tree all wait then. The last two are refused; with
/// the last, many are found behind the 513th.
const SIZES: [usize; 16] = [1, 5, 6, 63, 64, 65, 75, 76, 77, 127, 128, 129, 511, 512, 513, 528];

/// One node waits, five, six, or many. The widest tree, in which more than 64 wait even of 127 nodes, has no room for more than 133.
fn shapes(nodes: usize) -> Vec<Shape> {
    let mut shapes = vec![arms(nodes, 1), arms(nodes, 5), arms(nodes, 6), lattice(nodes), tree(nodes, 2), tree(nodes, 8)];
    if nodes <= 133 {
        shapes.push(tree(nodes, 11));
    }
    shapes
}

/// No node, the first, the last, both; of each border the node before it, the one behind it, both, and the first ones of both blocks; the first node of
/// each block, and the last of each.
fn chosen(nodes: usize) -> Vec<Vec<usize>> {
    let last = nodes - 1;
    let mut sets = vec![vec![], vec![0], vec![last], vec![0, last]];
    for border in (BLOCK..nodes).step_by(BLOCK) {
        sets.extend([vec![border - 1], vec![border], vec![border - 1, border], vec![border - BLOCK, border]]);
    }
    sets.push((0..nodes).step_by(BLOCK).collect());
    sets.push((0..nodes).step_by(BLOCK).map(|first| (first + BLOCK - 1).min(last)).collect());
    sets
}

/// How many nodes wait, each time that the library takes some.
fn waiting(graph: &Graph) -> Vec<usize> {
    let parents: Vec<usize> = (1..graph.nodes).filter_map(|node| parent(graph, node)).collect();
    let (mut taken, mut numbers) = (0, Vec::new());
    while taken < graph.nodes {
        let wait = 1 + parents.partition_point(|parent| *parent < taken) - taken;
        numbers.push(wait);
        taken += if wait < LEAST { 1 } else { wait.min(BLOCK) };
    }
    numbers
}

/// Two actions lead from one node to others, and keep different literals of it.
fn kept_apart(program: &Program, graph: &Graph) -> bool {
    let kept = |action: usize, node: usize| {
        let here = graph.literals(node);
        let keeps = |p: &usize| untouched(&program.actions[action], &program.predicates[*p]);
        (0..program.predicates.len()).filter(keeps).fold(0, |set, p| set | 1 << p) & (here.known_false | here.known_true)
    };
    (0..graph.nodes).any(|node| {
        let mut leading = (0..graph.actions).filter(|action| graph.successor(node, *action).is_some_and(|next| next != node));
        leading.next().is_some_and(|first| leading.any(|action| kept(action, node) != kept(first, node)))
    })
}

/// The names of what is seen in a graph.
fn seen(program: &Program, graph: &Graph) -> Vec<String> {
    let mut waiting = waiting(graph);
    waiting.sort_unstable();
    waiting.dedup();
    let most = match waiting.last() {
        Some(few @ 0..=6) => few.to_string(),
        Some(7..=64) => "7 to 64".into(),
        _ => "65 or more".into(),
    };
    let known = |node: usize| graph.literals(node).known_false | graph.literals(node).known_true;
    let on = |test: &dyn Fn(u32, u32) -> bool| (BLOCK..graph.nodes).any(|node| test(known(node - BLOCK), known(node)));
    let some = [
        (true, format!("blocks, nodes {}, waiting {most}", graph.nodes)),
        (kept_apart(program, graph), "blocks, two actions keep different literals".into()),
        (on(&|before, behind| before & !behind > 0), "blocks, unknown where known 64 before".into()),
        (on(&|before, behind| behind & !before > 0), "blocks, known where unknown 64 before".into()),
    ];
    let taken = waiting.iter().map(|wait| format!("blocks, some taken of {wait}"));
    some.into_iter().filter_map(|(seen, name)| seen.then_some(name)).chain(taken).collect()
}

/// The names of what is seen in the findings.
fn found(nodes: usize, findings: &[Finding]) -> Vec<String> {
    let forbids = |finding: &Finding| matches!(finding, Finding::MayForbid { .. });
    let mut at: Vec<usize> = findings.iter().map(|finding| finding.node()).collect();
    at.dedup();
    let mut blocks: Vec<usize> = at.iter().map(|node| node / BLOCK).collect();
    blocks.dedup();
    let crossed = matches!(findings, [a, b] if a.node() + BLOCK == b.node() && forbids(a) != forbids(b));
    let (last, past_one) = (nodes - 1, nodes > BLOCK);
    let mut names: Vec<String> = vec![match findings {
        [] => format!("blocks, safe, nodes {nodes}"),
        [first, ..] => format!("blocks, first a {} at {}", if forbids(first) { "combination" } else { "run-off" }, first.node()),
    }];
    if let [a, b] = at[..] {
        names.push(format!("blocks, at {a} and {b} only"));
    }
    for (seen, name) in [
        (past_one && at == [last], "blocks, at the last node only"),
        (past_one && at == [0, last], "blocks, at the first and the last node only"),
        (past_one && blocks == [nodes / BLOCK], "blocks, in a last block only, not full"),
        (blocks.len() == 8, "blocks, a finding in each of eight"),
        (crossed, "blocks, a node and 64 on, of two kinds"),
    ] {
        if seen {
            names.push(name.into());
        }
    }
    names
}

/// The sweeps; hands back how many inputs they had.
pub fn sweep(compare: &mut Compare) -> Result<u64, Difference> {
    let mut sweep = Sweep { compare, inputs: 0 };
    for nodes in SIZES {
        for shape in shapes(nodes) {
            if nodes > MAX_NODES { sweep.past(&shape)? } else { sweep.blocks(&shape)? }
        }
    }
    sweep.every_node()?;
    sweep.every_size()?;
    Ok(sweep.inputs)
}

impl Sweep<'_> {
    /// Judge, which finds the nodes of the shape.
    fn explored(&mut self, shape: &Shape, input: &Input) -> Result<(BnvJudge, Before), Difference> {
        self.inputs += 1;
        let turn = self.inputs as usize % 7;
        let judged = self.compare.judge(input, GRAPH_WORDS + turn % 2, PATH_WORDS, turn)?;
        let program = independent::program::read(&input.program).expect("a judged program");
        let graph = Graph { words: self.compare.library_graph(), nodes: judged.nodes, actions: program.actions.len() };
        shape.held(&graph).map_err(|fault| falsehood(input, &judged, &fault))?;
        let names = seen(&program, &graph);
        names.iter().for_each(|name| self.compare.counts.note_block(name));
        Ok((judged, self.compare.before(&judged, turn)))
    }

    /// With combinations and ends at these nodes: the findings are the ones due.
    fn at(&mut self, shape: &Shape, open: &[usize], off: &[(usize, EndOf)]) -> Result<(), Difference> {
        let (input, due) = (shape.made(open, off), shape.due(open, off));
        let (judged, before) = self.explored(shape, &input)?;
        let listed = self.compare.sheet(&input, &before, due.len() + self.inputs as usize % 2)?;
        if number(&listed) != Some(due.len()) || self.compare.sheet != due {
            return Err(falsehood(&input, &judged, &format!("{listed:?} with {:08X?}, and {due:08X?} are due", self.compare.sheet)));
        }
        let findings: Vec<Finding> = due.iter().filter_map(|word| Finding::of(*word)).collect();
        let names = found(judged.nodes, &findings);
        names.iter().for_each(|name| self.compare.counts.note_block(name));
        if due.len() < open.len() + off.len() {
            self.compare.counts.note_block("blocks, not shown where nothing follows");
        }
        Ok(())
    }

    /// Findings at each set of chosen nodes: combinations, of which the first is at the last node, beside ends not shown where nothing follows; ends of
    /// actions that have a successor at every node; ends of others. Then findings all over, with all questions.
    fn blocks(&mut self, shape: &Shape) -> Result<(), Difference> {
        let [mut always, mut others] = [true, false].map(|always| shape.ends_of(always));
        for set in chosen(shape.places.len()) {
            always.rotate_left(1);
            others.rotate_left(1);
            let latest_first: Vec<usize> = set.iter().rev().copied().collect();
            self.at(shape, &latest_first, &shape.ends_at(&set, others.clone(), false))?;
            self.at(shape, &[], &shape.ends_at(&set, always.clone(), true))?;
            self.at(shape, &[], &shape.ends_at(&set, others.clone(), true))?;
        }
        let input = shape.spread();
        let (judged, before) = self.explored(shape, &input)?;
        self.compare.sheets(&input, &before, judged.nodes, |due, _| due)?;
        self.compare.look(&input, &judged)?;
        self.all_successors(judged.nodes, shape.text.actions.len())?;
        self.shows(&input)
    }

    /// The view over the last graph list, asked for every node and action.
    fn all_successors(&mut self, nodes: usize, actions: usize) -> Result<(), Difference> {
        let graph = self.compare.graph().to_vec();
        (0..nodes * actions).try_for_each(|at| self.compare.successor(&graph, nodes, actions, at / actions, at % actions))
    }

    /// From bytes, whole and cut.
    fn shows(&mut self, input: &Input) -> Result<(), Difference> {
        (0..4).try_for_each(|part| self.compare.show(input, &Dice::new(self.inputs, part)))
    }

    /// A 513th node is needed: refusal 7.
    fn past(&mut self, shape: &Shape) -> Result<(), Difference> {
        let input = shape.made(&[0, MAX_NODES], &[]);
        for list in [0, 1, 2] {
            self.refused(&input, (GRAPH_WORDS + list, list), &[7])?;
            self.compare.counts.note_block("blocks, a 513th node");
        }
        self.shows(&input)
    }

    /// 512 nodes: a combination at each, an end 64 on, and the other way round.
    fn every_node(&mut self) -> Result<(), Difference> {
        let shape = tree(MAX_NODES, 8);
        let ends = shape.ends_of(true);
        for node in 0..MAX_NODES {
            let (end, far) = (ends[node % ends.len()], (node + BLOCK) % MAX_NODES);
            self.at(&shape, &[node], &[(far, end)])?;
            self.at(&shape, &[far], &[(node, end)])?;
        }
        Ok(())
    }

    /// Trees of every number of nodes, with a combination at the last.
    fn every_size(&mut self) -> Result<(), Difference> {
        for nodes in 1..=MAX_NODES {
            self.at(&tree(nodes, 2), &[nodes - 1], &[])?;
            self.at(&tree(nodes, 8), &[nodes - 1], &[])?;
        }
        Ok(())
    }
}
