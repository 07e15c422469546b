//! How often each answer occurred.

use bulanevior::raw::*;
use std::collections::BTreeMap;

#[derive(Default)]
pub struct Counts(BTreeMap<&'static str, u64>);

/// What must occur often in a run, in the order printed.
pub const DUE: &[&str] = &[
    "check good", "check refusal 2", "check refusal 3", "check refusal 4",
    "part empty", "part not empty",
    "step moved", "step not enabled", "step runs off", "step refusal 2", "step refusal 3", "step refusal 4",
    "step refusal 8", "step refusal 9", "step refusal 10",
    "rack moved", "rack not enabled", "rack refusal 2", "rack refusal 3", "rack refusal 4",
    "rack refusal 8", "rack refusal 9", "rack refusal 10",
    "rack, the same as Step", "rack moved where Step runs off", "rack, a product past sixteen bits", "rack, a sum past sixteen bits",
    "rack, a constant past sixteen bits", "rack, a value off its range stored", "rack, a value wrapped back on its range",
    "rack, a guard past sixteen bits",
    "runs, the rack as exact to the end", "runs that run off, the rack goes on elsewhere", "runs, the rack refused on its way",
    "safe, rack's runs", "safe, rack's moves", "safe, rack's moves past sixteen bits", "safe, rack's runs from all start states",
    "near, the only guard row", "near, row 0 of several", "near, row 1 of several", "near, rows 2 to 6", "near, row 7",
    "near, a later row fails too", "near, a later row lacks more", "near, a row before it worth 0",
    "near, lacks 1", "near, lacks more than sixteen bits hold",
    "near, another value after the assignments", "near, none would fail after the assignments",
    "enabled, no guard row", "enabled, a guard row worth 0", "enabled, eight guard rows", "runs, not enabled on the way",
    "ask accepted", "ask not accepted", "ask refusal 2", "ask refusal 3", "ask refusal 4", "ask refusal 5",
    "ask refusal 6", "ask refusal 8",
    "judge safe", "judge forbid", "judge run-off low", "judge run-off high",
    "judge refusal 1 graph", "judge refusal 1, the old room", "judge refusal 1 path", "judge refusal 2", "judge refusal 3", "judge refusal 4",
    "judge refusal 5", "judge refusal 6", "judge refusal 7",
    "finding past node 0", "finding past node 63", "path of 64 steps or more", "safe, combinations named", "safe, 64 nodes or more",
    "nodes 0", "nodes 1", "nodes 2 to 15", "nodes 16 to 63", "nodes 64 to 127", "nodes 128 to 255", "nodes 256 to 511", "nodes 512",
    "rings, node 0 alone or none", "rings to 1", "rings to 2 or up to 15", "rings to 16 or up to 255", "rings to 256 or up to 510", "rings to 511",
    "rings, three nodes on one", "rings, each node on its own", "rings, a distance below the number",
    "rings, an edge one inward", "rings, an edge further inward", "rings, an edge along", "rings, an edge outward, not the origin's",
    "rings, a finding at 2 or further",
    "walks, a path of no step", "walks, a path of one step", "walks, a path of 2 to 7 steps", "walks, a path of 8 or more",
    "walks, findings at one distance", "walks, findings at two distances", "walks, findings at three or more",
    "walks, another finding as near", "walks, a longer one to the same node", "walks, a lower combination further on",
    "walks, a run-off nearer than a combination", "walks, a combination nearer than a run-off", "walks, all shorter lists tried",
    "view node", "view none", "view refusal 1", "view refusal 2", "view refusal 3", "view refusal 8 node", "view refusal 8 action",
    "show judged", "show too long", "show odd bytes", "show words short", "show safe", "show may forbid", "show may run off", "show refused",
    "show without END", "show of END and more END", "show off a word's alignment", "show of 65,536 bytes",
    "all states walked", "all states walked, safe", "all states walked, safe, 2 nodes or more",
    "accepted lemma, all states", "reachable states, safe",
    "kept true, no lemma", "kept false, no lemma", "kept, predicate without terms", "kept, action sets nothing",
    "kept against shown, no successor", "lost, variable set to itself", "lost, a part of its variables set",
    "another graph by what is kept", "another verdict by what is kept", "safe by what is kept",
    "all states walked, safe by what is kept", "refusal 7 by what is kept",
    "findings none", "findings 1", "findings 2 to 15", "findings 16 to 255", "findings 256 to 1,023", "findings 1,024 or more",
    "findings forbid", "findings run-off low", "findings run-off high", "findings of both kinds at a node",
    "findings, 2 combinations at a node", "findings, both ends of a variable", "findings at 2 nodes or more",
    "findings, 512 nodes", "findings past node 255", "findings of action 15", "findings of variable 7", "findings of combination 7",
    "findings, no successor passed over",
    "findings refusal 1", "findings refusal 2", "findings refusal 3", "findings refusal 4", "findings refusal 5",
    "findings refusal 6", "findings refusal 7", "findings refusal 12",
    "findings list of length 0", "findings list exactly enough", "findings list one short",
    "findings list longer, rest zeroed", "findings list much longer",
    "all states walked, a fault on the sheet",
    "all states walked, a path with steps", "all states walked, a fault as near as the path",
];

/// What must occur in the sweeps over blocks of nodes, and how often at least.
pub const BLOCKS: &[&str] = &[
    "blocks, nodes 1, waiting 1", "blocks, nodes 5, waiting 1", "blocks, nodes 5, waiting 4", "blocks, nodes 6, waiting 1", "blocks, nodes 6, waiting 5",
    "blocks, nodes 63, waiting 1", "blocks, nodes 63, waiting 5", "blocks, nodes 63, waiting 6", "blocks, nodes 63, waiting 7 to 64",
    "blocks, nodes 64, waiting 1", "blocks, nodes 64, waiting 5", "blocks, nodes 64, waiting 6", "blocks, nodes 64, waiting 7 to 64",
    "blocks, nodes 65, waiting 1", "blocks, nodes 65, waiting 5", "blocks, nodes 65, waiting 6", "blocks, nodes 65, waiting 7 to 64",
    "blocks, nodes 127, waiting 1", "blocks, nodes 127, waiting 5", "blocks, nodes 127, waiting 6", "blocks, nodes 127, waiting 65 or more",
    "blocks, nodes 128, waiting 1", "blocks, nodes 128, waiting 5", "blocks, nodes 128, waiting 6", "blocks, nodes 128, waiting 65 or more",
    "blocks, nodes 129, waiting 1", "blocks, nodes 129, waiting 5", "blocks, nodes 129, waiting 6", "blocks, nodes 129, waiting 65 or more",
    "blocks, nodes 511, waiting 1", "blocks, nodes 511, waiting 5", "blocks, nodes 511, waiting 6", "blocks, nodes 511, waiting 65 or more",
    "blocks, nodes 512, waiting 1", "blocks, nodes 512, waiting 5", "blocks, nodes 512, waiting 6", "blocks, nodes 512, waiting 65 or more",
    "blocks, some taken of 6", "blocks, some taken of 7", "blocks, some taken of 63", "blocks, some taken of 64", "blocks, some taken of 65",
    "blocks, a 513th node",
    "blocks, safe, nodes 63", "blocks, safe, nodes 64", "blocks, safe, nodes 65", "blocks, safe, nodes 127", "blocks, safe, nodes 128",
    "blocks, safe, nodes 129", "blocks, safe, nodes 511", "blocks, safe, nodes 512",
    "blocks, first a combination at 0", "blocks, first a combination at 62", "blocks, first a combination at 63", "blocks, first a combination at 64",
    "blocks, first a combination at 127", "blocks, first a combination at 128", "blocks, first a combination at 255",
    "blocks, first a combination at 256", "blocks, first a combination at 447", "blocks, first a combination at 448", "blocks, first a combination at 510",
    "blocks, first a combination at 511",
    "blocks, first a run-off at 0", "blocks, first a run-off at 62", "blocks, first a run-off at 63", "blocks, first a run-off at 64",
    "blocks, first a run-off at 127", "blocks, first a run-off at 128", "blocks, first a run-off at 255",
    "blocks, first a run-off at 256", "blocks, first a run-off at 447", "blocks, first a run-off at 448", "blocks, first a run-off at 510",
    "blocks, first a run-off at 511",
    "blocks, at 63 and 64 only", "blocks, at 127 and 128 only", "blocks, at 191 and 192 only", "blocks, at 255 and 256 only", "blocks, at 319 and 320 only",
    "blocks, at 383 and 384 only", "blocks, at 447 and 448 only", "blocks, at the last node only", "blocks, at the first and the last node only",
    "blocks, in a last block only, not full", "blocks, a finding in each of eight", "blocks, a node and 64 on, of two kinds",
    "blocks, not shown where nothing follows", "blocks, two actions keep different literals",
    "blocks, unknown where known 64 before", "blocks, known where unknown 64 before",
];
pub const BLOCKS_LEAST: u64 = 6;

impl Counts {
    /// Notes what was seen in a sweep over blocks, if it must occur there.
    pub fn note_block(&mut self, name: &str) {
        if let Some(name) = BLOCKS.iter().find(|due| **due == name) {
            self.note(name);
        }
    }

    pub fn note(&mut self, name: &'static str) {
        self.add(name, 1);
    }

    pub fn add(&mut self, name: &'static str, n: u64) {
        debug_assert!(DUE.contains(&name) || BLOCKS.contains(&name), "{name}");
        *self.0.entry(name).or_default() += n;
    }

    /// Those of the names that occurred.
    pub fn note_seen(&mut self, names: &[&'static str], seen: &[bool]) {
        for (name, _) in names.iter().zip(seen).filter(|(_, seen)| **seen) {
            self.note(name);
        }
    }

    pub fn of(&self, name: &str) -> u64 {
        self.0.get(name).copied().unwrap_or(0)
    }

    /// Prints what is due, and hands back what occurred less often than `least`.
    pub fn print(&self, due: &[&'static str], least: u64) -> Vec<&'static str> {
        for pair in due.chunks(2) {
            for name in pair {
                print!("  {name:<46}{:>9}", self.of(name));
            }
            println!();
        }
        due.iter().copied().filter(|name| self.of(name) < least).collect()
    }
}

pub fn check_name(refusal: u32) -> &'static str {
    match refusal {
        0 => "check good",
        2 => "check refusal 2",
        3 => "check refusal 3",
        _ => "check refusal 4",
    }
}

pub fn step_name(answer: u32, refusal: u32) -> &'static str {
    match (answer, refusal) {
        (BNV_MOVED, _) => "step moved",
        (BNV_NOT_ENABLED, _) => "step not enabled",
        (BNV_RUNS_OFF, _) => "step runs off",
        (_, 2) => "step refusal 2",
        (_, 3) => "step refusal 3",
        (_, 4) => "step refusal 4",
        (_, 8) => "step refusal 8",
        (_, 9) => "step refusal 9",
        _ => "step refusal 10",
    }
}

pub fn rack_name(answer: u32, refusal: u32) -> &'static str {
    match (answer, refusal) {
        (BNV_MOVED, _) => "rack moved",
        (BNV_NOT_ENABLED, _) => "rack not enabled",
        (_, 2) => "rack refusal 2",
        (_, 3) => "rack refusal 3",
        (_, 4) => "rack refusal 4",
        (_, 8) => "rack refusal 8",
        (_, 9) => "rack refusal 9",
        _ => "rack refusal 10",
    }
}

pub fn ask_name(answer: u32, refusal: u32) -> &'static str {
    match (answer, refusal) {
        (BNV_ACCEPTED, _) => "ask accepted",
        (BNV_NOT_ACCEPTED, _) => "ask not accepted",
        (_, 2) => "ask refusal 2",
        (_, 3) => "ask refusal 3",
        (_, 4) => "ask refusal 4",
        (_, 5) => "ask refusal 5",
        (_, 6) => "ask refusal 6",
        _ => "ask refusal 8",
    }
}

pub fn judge_name(verdict: u32, high: u32, refusal: u32, value: usize) -> &'static str {
    match (verdict, high, refusal, value) {
        (BNV_SAFE, _, _, _) => "judge safe",
        (BNV_MAY_FORBID, _, _, _) => "judge forbid",
        (BNV_MAY_RUN_OFF, 0, _, _) => "judge run-off low",
        (BNV_MAY_RUN_OFF, _, _, _) => "judge run-off high",
        (_, _, 1, 0) => "judge refusal 1 graph",
        (_, _, 1, _) => "judge refusal 1 path",
        (_, _, 2, _) => "judge refusal 2",
        (_, _, 3, _) => "judge refusal 3",
        (_, _, 4, _) => "judge refusal 4",
        (_, _, 5, _) => "judge refusal 5",
        (_, _, 6, _) => "judge refusal 6",
        _ => "judge refusal 7",
    }
}

pub fn findings_name(refusal: u32) -> &'static str {
    match refusal {
        1 => "findings refusal 1",
        2 => "findings refusal 2",
        3 => "findings refusal 3",
        4 => "findings refusal 4",
        5 => "findings refusal 5",
        6 => "findings refusal 6",
        7 => "findings refusal 7",
        _ => "findings refusal 12",
    }
}

pub fn show_name(answer: u32) -> &'static str {
    match answer {
        BNV_TOO_LONG => "show too long",
        BNV_ODD_BYTES => "show odd bytes",
        BNV_WORDS_SHORT => "show words short",
        _ => "show judged",
    }
}

pub fn shown_name(verdict: u32) -> &'static str {
    match verdict {
        BNV_SAFE => "show safe",
        BNV_MAY_FORBID => "show may forbid",
        BNV_MAY_RUN_OFF => "show may run off",
        _ => "show refused",
    }
}

pub fn nodes_name(nodes: usize) -> &'static str {
    match nodes {
        0 => "nodes 0",
        1 => "nodes 1",
        2..=15 => "nodes 2 to 15",
        16..=63 => "nodes 16 to 63",
        64..=127 => "nodes 64 to 127",
        128..=255 => "nodes 128 to 255",
        256..=511 => "nodes 256 to 511",
        _ => "nodes 512",
    }
}
