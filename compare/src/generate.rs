//! Makes inputs: logics with lemmas, damaged ones, and noise.

use crate::dice::Dice;
use crate::guarded::guarded;
use crate::prover::prove;
use crate::wide::wide;
use independent::shows::*;
use independent::words::*;

#[derive(Clone, Debug, Default)]
pub struct Input {
    pub program: Vec<u32>,
    pub lemmas: Vec<u32>,
}

pub fn at_least(v: u32, c: i32) -> RowText {
    row(-c, &[(v, 1)])
}

pub fn at_most(v: u32, c: i32) -> RowText {
    row(c, &[(v, -1)])
}

fn plus(v: u32, d: i32) -> RowText {
    row(d, &[(v, 1)])
}

/// A row on one or two variables near their ranges.
fn near(dice: &Dice, vars: &[(i32, i32)]) -> RowText {
    let v = dice.below(vars.len());
    let (low, high) = vars[v];
    let c = dice.between(low, high.min(low + 2000));
    match dice.below(10) {
        0..=5 => at_least(v as u32, c),
        6 | 7 => at_most(v as u32, c),
        8 => row(-2 * c - 1, &[(v as u32, 2)]),
        _ => {
            let u = dice.below(vars.len());
            match u.cmp(&v) {
                std::cmp::Ordering::Less => row(dice.between(-3, 3), &[(u as u32, 1), (v as u32, -1)]),
                std::cmp::Ordering::Equal => at_least(v as u32, c),
                std::cmp::Ordering::Greater => row(dice.between(-3, 3), &[(v as u32, 1), (u as u32, -1)]),
            }
        }
    }
}

fn action(dice: &Dice, vars: &[(i32, i32)], pred: &[RowText]) -> ActionText {
    let v = dice.below(vars.len());
    let (low, high) = vars[v];
    let x = v as u32;
    let guarded = dice.percent(88);
    let d = dice.between(1, 3);
    let mut guards = Vec::new();
    let mut sets: Vec<(u32, RowText)> = Vec::new();
    match dice.below(13) {
        0..=2 => {
            if guarded {
                guards.push(at_most(x, high - d));
            }
            sets.push((x, plus(x, d)));
        }
        3..=5 => {
            if guarded {
                guards.push(at_least(x, low + d));
            }
            sets.push((x, plus(x, -d)));
        }
        6 | 7 => sets.push((x, row(if guarded { dice.between(low, high) } else { dice.between(low - 1, high + 1) }, &[]))),
        8 => sets.push((x, row(low + high, &[(x, -1)]))),
        9 => {
            // Two variables change places.
            let u = dice.below(vars.len()) as u32;
            if u != x {
                sets.push((x, plus(u, 0)));
                sets.push((u, plus(x, 0)));
                if guarded {
                    let (a, b) = (vars[v], vars[u as usize]);
                    guards.extend([at_least(u, a.0), at_most(u, a.1), at_least(x, b.0), at_most(x, b.1)]);
                }
            }
        }
        10 => {
            let u = dice.below(vars.len()) as u32;
            sets.push((x, plus(u, dice.between(-1, 1))));
            if guarded {
                guards.extend([at_least(u, low + 1), at_most(u, high - 1)]);
            }
        }
        11 => sets.push(itself(x)),
        _ => {}
    }
    for _ in 0..dice.pick(&[0, 0, 0, 1, 1, 2]) {
        if guards.len() < 8 {
            let from_predicate = !pred.is_empty() && dice.percent(50);
            guards.push(if from_predicate { pred[dice.below(pred.len())].clone() } else { near(dice, vars) });
        }
    }
    // A second assignment now and then.
    let u = dice.below(vars.len());
    if dice.percent(15) && !sets.iter().any(|(s, _)| *s as usize == u) && sets.len() < 8 {
        sets.push((u as u32, row(dice.between(vars[u].0, vars[u].1), &[])));
    }
    dice.shuffle(&mut guards);
    sets.sort_by_key(|(v, _)| *v);
    act(&guards, &sets)
}

/// Box-like logics. `few` keeps the number of states small.
fn boxes(dice: &Dice, few: bool) -> Text {
    let mut vars = Vec::new();
    let mut states = 1;
    for _ in 0..dice.between(1, if few { 4 } else { 8 }) {
        let (low, high) = match dice.below(8) {
            _ if few => {
                let low = dice.between(-3, 2);
                let most = (600 / states).min(12).max(1);
                (low, low + dice.between(0, most - 1))
            }
            0 | 1 => (0, 1),
            2 => (0, 8191),
            3 => (-8192, 8191),
            4 => (-5, 5),
            _ => (0, 1000),
        };
        states *= high - low + 1;
        vars.push((low, high));
    }
    let predicate = |_| if dice.percent(3) { row(dice.between(-1, 0), &[]) } else { near(dice, &vars) };
    let pred: Vec<RowText> = (0..dice.pick(&[0, 1, 2, 2, 3, 3, 4, 4, 5, 6, 7, 9, 14])).map(predicate).collect();
    let mut init = Vec::new();
    for (v, (low, high)) in vars.iter().enumerate() {
        let start = dice.pick(&[*low, *low, *high, dice.between(*low, *high)]);
        if init.len() < 7 && dice.percent(85) {
            init.push(at_most(v as u32, start));
            if start != *low && dice.percent(80) {
                init.push(at_least(v as u32, start));
            }
        }
    }
    if dice.percent(4) {
        init.pop();
        init.push(never());
    }
    let actions = (0..dice.pick(&[0, 1, 2, 2, 3, 3, 4, 5, 6, 8])).map(|_| action(dice, &vars, &pred)).collect();
    Text { vars, init, pred, actions, bad: vec![] }
}

/// Faders that step or jump, with pairs that exclude each other: many nodes.
fn rig(dice: &Dice) -> Text {
    let count = dice.between(4, 8);
    let mut t = Text::default();
    let mut nodes = 1;
    for v in 0..count as u32 {
        let jumps = dice.percent(60);
        if t.actions.len() > 14 || nodes >= 450 && dice.percent(80) {
            break;
        }
        nodes *= if jumps { 2 } else { 3 };
        t.vars.push((0, dice.pick(&[1, 10, 1000])));
        let high = t.vars[v as usize].1;
        t.init.push(at_most(v, 0));
        t.pred.push(at_least(v, 1));
        let mut up = if jumps {
            act(&[], &[(v, row(high, &[]))])
        } else {
            act(&[at_most(v, high - 1)], &[(v, plus(v, 1))])
        };
        if v % 2 == 1 && dice.percent(25) {
            // Only while the one before is down, and the other way round.
            up.guards.push(at_most(v - 1, 0));
            let before = t.actions.len() - 2;
            t.actions[before].guards.push(at_most(v, 0));
        }
        t.actions.push(up);
        t.actions.push(if jumps { act(&[], &[(v, row(0, &[]))]) } else { act(&[at_least(v, 1)], &[(v, plus(v, -1))]) });
    }
    t
}

/// Digits that count up together: a chain of as many nodes as there are states.
fn odometer(dice: &Dice) -> Text {
    let mut t = Text::default();
    let mut states = 1;
    let target = dice.pick(&[30, 100, 300, 512, 512, 512, 700]);
    while t.vars.len() < 8 {
        let top = dice.pick(&[1, 1, 2, 3, 3]);
        if states * (top + 1) > target || t.pred.len() + top as usize > 14 {
            break;
        }
        states *= top + 1;
        let v = t.vars.len() as u32;
        t.init.push(at_most(v, 0));
        t.pred.extend((1..=top).map(|c| at_least(v, c)));
        let mut up = act(&[], &[]);
        for (u, (_, top)) in t.vars.iter().enumerate() {
            up.guards.push(at_least(u as u32, *top));
            up.sets.push((u as u32, row(0, &[])));
        }
        up.guards.push(at_most(v, top - 1));
        up.sets.push((v, plus(v, 1)));
        t.actions.push(up);
        t.vars.push((0, top));
    }
    if t.vars.is_empty() {
        t.vars.push((0, 0));
    }
    if dice.percent(40) {
        t.actions.push(act(&[], &(0..t.vars.len() as u32).map(|v| (v, row(0, &[]))).collect::<Vec<_>>()));
    }
    t
}

/// Sources that cannot happen, so that every lemma is accepted: counters, subsets by lemmas and by what is kept, and graphs of any shape.
fn forced(dice: &Dice) -> (Text, Vec<Vec<u32>>) {
    let (t, lemmas) = match dice.below(10) {
        0 | 1 => counter(dice.pick(&[1, 3, 5, 6, 7, 8, 9, 9, 9, 10]), &[]),
        2 => {
            let bits = dice.pick(&[3, 5, 6, 7, 8, 9, 9, 9, 10]);
            subsets_text(bits, bits + dice.pick(&[0, 0, 1, 16 - bits]))
        }
        3 => {
            let bits = dice.pick(&[3, 6, 7, 8, 9, 9, 10, 10, 12, 14]);
            kept_subsets(bits, bits + dice.pick(&[0, 1, 16 - bits]))
        }
        _ => return forced_at_will(dice),
    };
    (t, split_lemmas(&lemmas))
}

/// Predicates, actions and lemmas at will.
fn forced_at_will(dice: &Dice) -> (Text, Vec<Vec<u32>>) {
    let vars: Vec<(i32, i32)> = (0..dice.between(1, 8)).map(|_| (0, dice.pick(&[0, 1, 7]))).collect();
    let predicates = dice.between(1, 14) as usize;
    let pred = (0..predicates).map(|_| near(dice, &vars)).collect();
    let mut t = Text { vars: vars.clone(), init: vec![], pred, actions: vec![], bad: vec![] };
    if dice.percent(80) {
        t.init.push(never());
    }
    // How much of the predicates the actions touch.
    let density = dice.pick(&[5, 15, 40, 100]);
    for _ in 0..dice.between(1, 16) {
        let mut guards: Vec<RowText> = (0..dice.pick(&[0, 0, 1, 3])).map(|_| near(dice, &vars)).collect();
        guards.push(never());
        let set = |v: u32| if dice.percent(20) { itself(v) } else { (v, row(0, &[])) };
        let sets: Vec<(u32, RowText)> = (0..vars.len() as u32).filter(|_| dice.percent(density)).map(set).collect();
        t.actions.push(act(&guards, &sets));
    }
    let lemmas = lemmas_at_will(dice, &t);
    (t, lemmas)
}

/// Most ends are shown.
fn lemmas_at_will(dice: &Dice, t: &Text) -> Vec<Vec<u32>> {
    let predicates = t.pred.len();
    let mut lemmas = Vec::new();
    if !t.init.is_empty() {
        for p in 0..predicates as u32 {
            if dice.percent(50) {
                lemmas.push(t.forced(START, dice.pick(&[1, 2]), p, 0, 0));
            }
        }
    }
    for a in 0..t.actions.len() {
        for (v, _) in &t.actions[a].sets {
            for goal in [3, 4] {
                if dice.percent(98) {
                    lemmas.push(t.forced(a as u32, goal, *v, 0, 0));
                }
            }
        }
        for _ in 0..dice.between(1, 500 / t.actions.len().max(12) as i32) {
            let (f, t_) = literals(dice, predicates, 2);
            let goal = if dice.percent(4) { 0 } else { dice.pick(&[1, 1, 1, 2]) };
            let index = if goal == 0 { 0 } else { dice.below(predicates) as u32 };
            lemmas.push(t.forced(a as u32, goal, index, f, t_));
        }
    }
    lemmas
}

/// Up to `most` literals, of different predicates.
pub fn literals(dice: &Dice, predicates: usize, most: usize) -> (u32, u32) {
    let (mut f, mut t) = (0, 0);
    for _ in 0..dice.below(most + 1) {
        let bit = 1u32 << dice.below(predicates.max(1));
        if predicates > 0 && (f | t) & bit == 0 {
            if dice.percent(50) { f |= bit } else { t |= bit }
        }
    }
    (f, t)
}

fn any_row(dice: &Dice, variables: usize) -> RowText {
    let constant = match dice.below(6) {
        0 => 0,
        1 => dice.pick(&[1_000_000, -1_000_000, 1, -1]),
        2 | 3 => dice.between(-1_000_000, 1_000_000),
        4 => dice.between(-1_000_000, 0),
        _ => dice.between(-50, 50),
    };
    let density = dice.pick(&[0, 20, 50, 100]);
    let mut terms = Vec::new();
    for v in 0..variables as u32 {
        if dice.percent(density) {
            let c = match dice.below(4) {
                0 => dice.pick(&[1000, -1000, 999, -999]),
                1 => dice.between(1, 1000) * dice.pick(&[1, -1]),
                _ => dice.pick(&[1, -1, 2, -2]),
            };
            terms.push((v, c));
        }
    }
    (constant, terms)
}

/// Anything that the fields allow, with multipliers by chance.
fn general(dice: &Dice) -> (Text, Vec<Vec<u32>>) {
    let variables = dice.between(1, 8) as usize;
    let end = |dice: &Dice| match dice.below(4) {
        0 => dice.pick(&[-8192, 8191, 0]),
        1 => dice.between(-8192, 8191),
        _ => dice.between(-9, 9),
    };
    let vars = (0..variables)
        .map(|_| {
            let (a, b) = (end(dice), end(dice));
            (a.min(b), a.max(b))
        })
        .collect();
    let init = (0..dice.below(9)).map(|_| any_row(dice, variables)).collect();
    let pred: Vec<RowText> = (0..dice.below(15)).map(|_| any_row(dice, variables)).collect();
    let actions = (0..dice.below(17))
        .map(|_| {
            let guards: Vec<RowText> = (0..dice.below(9)).map(|_| any_row(dice, variables)).collect();
            let sets: Vec<(u32, RowText)> =
                (0..variables as u32).filter(|_| dice.percent(30)).map(|v| (v, any_row(dice, variables))).collect();
            act(&guards, &sets)
        })
        .collect();
    let t = Text { vars, init, pred, actions, bad: vec![] };
    let lemmas = (0..dice.below(40)).filter_map(|_| any_lemma(dice, &t)).collect();
    (t, lemmas)
}

/// A well-formed lemma with multipliers by chance.
fn any_lemma(dice: &Dice, t: &Text) -> Option<Vec<u32>> {
    let source = if t.actions.is_empty() || dice.percent(10) { START } else { dice.below(t.actions.len()) as u32 };
    let sets: Vec<u32> =
        if source == START { vec![] } else { t.actions[source as usize].sets.iter().map(|(v, _)| *v).collect() };
    let (goal, index) = match dice.below(5) {
        1 | 2 if !t.pred.is_empty() => (dice.pick(&[1, 2]), dice.below(t.pred.len()) as u32),
        3 | 4 if !sets.is_empty() => (dice.pick(&[3, 4]), dice.pick(&sets)),
        _ => (0, 0),
    };
    let (f, tr) = if source == START { (0, 0) } else { literals(dice, t.pred.len(), dice.pick(&[0, 1, 2, 14, 40])) };
    let due = t.due(source, goal, f, tr);
    let style = dice.below(4);
    let multipliers: Vec<u32> = (0..due)
        .map(|i| match style {
            0 => dice.below(3) as u32,
            1 => u32::from(dice.below(due) == i),
            2 => dice.pick(&[0, 1, 65_535, 65_534]),
            _ => dice.below(65_536) as u32,
        })
        .collect();
    Some(lemma(source, goal, index, f, tr, &multipliers))
}

/// The sets of literals of the graph's nodes; none if there is no graph.
fn nodes_of(program: &[u32], lemmas: &[u32], actions: usize) -> Vec<u32> {
    let mut graph = vec![0; GRAPH_WORDS];
    let mut path = vec![0; PATH_WORDS];
    match independent::judge(program, lemmas, &mut graph, &mut path) {
        independent::Judged::Refused(_) => vec![],
        independent::Judged::Safe { nodes, .. }
        | independent::Judged::MayForbid { nodes, .. }
        | independent::Judged::MayRunOff { nodes, .. } => {
            (0..nodes).map(|n| payload(graph[n * (HEADER + actions)])).collect()
        }
    }
}

fn opposed(a: (u32, u32), node: u32) -> bool {
    a.0 & node != 0 || a.1 & node >> 14 != 0
}

/// Forbidden combinations, most of them contradicted at every node or at all but one.
fn forbid(dice: &Dice, t: &mut Text, lemmas: &[u32]) {
    let nodes = nodes_of(&t.words(), lemmas, t.actions.len());
    for _ in 0..dice.pick(&[0, 1, 1, 2, 3, 8]) {
        match dice.below(100) {
            0..=74 => {
                for _ in 0..12 {
                    let c = literals(dice, t.pred.len(), 4);
                    if nodes.iter().all(|n| opposed(c, *n)) {
                        t.bad.push(c);
                        break;
                    }
                }
            }
            75..=91 if !nodes.is_empty() => {
                let n = nodes[if dice.percent(50) { nodes.len() - 1 } else { dice.below(nodes.len()) }];
                t.bad.push((n >> 14, n & 0x3FFF));
            }
            _ => t.bad.push(literals(dice, t.pred.len(), 5)),
        }
    }
}

/// Whether a lemma is about a predicate that its action leaves untouched; then, whether its literal is among its premises.
fn on_untouched(t: &Text, lemma: &[u32]) -> Option<bool> {
    let (source, goal, index) = (field(lemma[0], 27, 20), field(lemma[0], 19, 16), field(lemma[0], 7, 0));
    if source == START || goal != 1 && goal != 2 {
        return None;
    }
    let set = |v: &u32| t.actions[source as usize].sets.iter().any(|(s, _)| s == v);
    let own = lemma[1] >> (index + if goal == 1 { 0 } else { 14 }) & 1 == 1;
    (!t.pred[index as usize].1.iter().any(|(v, _)| set(v))).then_some(own)
}

/// As a designer leaves them out who knows what is kept: the lemmas that a literal stays, or half or all of those about
/// predicates that are untouched.
fn spare(dice: &Dice, t: &Text, lemmas: &mut Vec<Vec<u32>>) {
    let (own, other) = dice.pick(&[(0, 0), (0, 0), (100, 0), (50, 50), (100, 100)]);
    lemmas.retain(|l| !on_untouched(t, l).is_some_and(|is_own| dice.percent(if is_own { own } else { other })));
}

/// A logic of some shape, with the lemmas that were found for it.
fn shaped(dice: &Dice) -> (Text, Vec<Vec<u32>>) {
    let proved = |t: Text| {
        let mut lemmas = prove(&t, dice);
        spare(dice, &t, &mut lemmas);
        (t, lemmas)
    };
    let boxed = |few: bool| {
        let (t, mut lemmas) = proved(boxes(dice, few));
        if dice.percent(15) {
            // No lemma that an action cannot happen: what is kept may stand against what is shown.
            lemmas.retain(|l| field(l[0], 19, 16) != 0);
        }
        (t, lemmas)
    };
    match dice.below(100) {
        0..=27 => boxed(true),
        28..=35 => proved(guarded(dice)),
        36..=43 => proved(wide(dice)),
        44..=54 => boxed(false),
        55..=65 => proved(rig(dice)),
        66..=75 => proved(odometer(dice)),
        76..=90 => forced(dice),
        _ => general(dice),
    }
}

/// A few lemmas by chance, and a few with another multiplier.
fn add(dice: &Dice, t: &Text, lemmas: &mut Vec<Vec<u32>>) {
    for _ in 0..dice.pick(&[0, 0, 1, 3, 10]) {
        if let Some(l) = any_lemma(dice, t) {
            let at = dice.below(lemmas.len() + 1);
            lemmas.insert(at, l);
        }
        if !lemmas.is_empty() {
            let mut l = lemmas[dice.below(lemmas.len())].clone();
            if l.len() > 2 {
                let i = 2 + dice.below(l.len() - 2);
                l[i] = make(MULT, dice.pick(&[0, 1, 2, 3, 65_535]));
            }
            let at = dice.below(lemmas.len() + 1);
            lemmas.insert(at, l);
        }
    }
}

/// A logic with lemmas.
pub fn logic(dice: &Dice) -> Input {
    let (mut t, mut lemmas) = shaped(dice);
    // Lemmas left out, more premises, other multipliers, other order.
    if dice.percent(35) && !lemmas.is_empty() {
        for _ in 0..dice.between(1, 3) {
            if !lemmas.is_empty() {
                let i = dice.below(lemmas.len());
                lemmas.remove(i);
            }
        }
    }
    add(dice, &t, &mut lemmas);
    if dice.percent(20) {
        dice.shuffle(&mut lemmas);
    }
    if lemmas.len() > 512 && dice.percent(95) {
        dice.shuffle(&mut lemmas);
        lemmas.truncate(512);
    }
    if dice.percent(3) && !lemmas.is_empty() {
        // As many as allowed, and a few more or less.
        let count = dice.pick(&[511, 512, 512, 513, 513, 514, 600]);
        lemmas = (0..count).map(|i| lemmas[i % lemmas.len()].clone()).collect();
    }
    let lemmas = lemmas.concat();
    forbid(dice, &mut t, &lemmas);
    Input { program: t.words(), lemmas }
}

fn damage_words(dice: &Dice, words: &mut Vec<u32>) {
    let n = words.len();
    if n == 0 {
        words.push(dice.next() as u32);
        return;
    }
    let at = dice.below(n);
    match dice.below(14) {
        0..=3 => words[at] ^= 1 << dice.below(32),
        4 => words[at] ^= 1 << dice.below(16),
        5 => words[at] = words[at] & PAYLOAD | (dice.next() as u32) << 28,
        6 => words.truncate(at),
        7 => {
            words.drain(at..(at + 1 + dice.below(4)).min(n));
        }
        8 => words.insert(at, words[at]),
        9 => {
            let part = words[at..(at + 1 + dice.below(20)).min(n)].to_vec();
            words.splice(at..at, part);
        }
        10 => words.swap(at, (at + 1) % n),
        11 => words.swap(at, dice.below(n)),
        12 => words[at] = words[dice.below(n)],
        _ => words[at] = words[at].wrapping_add(dice.pick(&[1, u32::MAX])),
    }
}

/// Fills one part of a logic up to its limit, and puts a word by chance where one more would stand.
fn overfull(dice: &Dice, input: &mut Input) {
    let program = &mut input.program;
    let count = |program: &[u32], k: u32| program.iter().filter(|w| kind(**w) == k).count();
    let (wanted, most, before, filler) = match dice.below(4) {
        0 => (VAR, MAX_VARIABLES, INIT, var_word(0, 1)),
        1 => (ACTION, MAX_ACTIONS, SETS, make(ACTION, 0)),
        2 => (SETS, MAX_FORBIDDEN, END, make(SETS, 0)),
        _ => {
            let rows = program.iter().find(|w| kind(**w) == INIT).map_or(0, |w| payload(*w) as usize);
            let filler = lemma(START, 0, 0, 0, 0, &vec![0; rows]);
            for _ in count(&input.lemmas, LEMMA)..MAX_LEMMAS {
                input.lemmas.extend(&filler);
            }
            let any = dice.next() as u32;
            input.lemmas.push(if dice.percent(50) { any } else { make(LEMMA, any) });
            return;
        }
    };
    let at = program.iter().position(|w| kind(*w) == before).unwrap_or(program.len() - 1);
    let missing = most.saturating_sub(count(program, wanted));
    let any = dice.next() as u32;
    let last = dice.pick(&[filler, make(wanted, any), make(wanted, any & 0xFF), make(wanted, any & 0x1FF), any]);
    program.splice(at..at, std::iter::repeat(filler).take(missing).chain([last]));
}

pub fn damaged(dice: &Dice, input: &Input) -> Input {
    let mut input = input.clone();
    if dice.percent(4) {
        overfull(dice, &mut input);
        return input;
    }
    for _ in 0..dice.pick(&[1, 1, 1, 2, 3]) {
        if dice.percent(50) {
            damage_words(dice, &mut input.program);
        } else {
            damage_words(dice, &mut input.lemmas);
        }
    }
    input
}

/// Words by chance, some of them with the kinds of a program in its order.
pub fn noise(dice: &Dice) -> Input {
    let style = dice.below(3);
    let list = |dice: &Dice, kinds: &[u32]| -> Vec<u32> {
        let most = dice.pick(&[0, 1, 4, 20, 200]);
        (0..dice.below(most + 1))
            .map(|i| {
                let w = dice.next() as u32;
                match style {
                    0 => w,
                    1 => make(dice.pick(kinds), w & dice.next() as u32 & dice.next() as u32 & 0xF),
                    _ => make(kinds[i % kinds.len()], dice.below(3) as u32),
                }
            })
            .collect()
    };
    let program = list(dice, &[1, 4, 5, 6, 2, 3, 7, 2, 3, 8, 15]);
    let lemmas = list(dice, &[9, 8, 10]);
    Input { program, lemmas }
}
