//! Finds lemmas: small sums of the negated goal, source rows and premises whose largest value is below 0.

use crate::dice::Dice;
use independent::shows::{lemma, RowText, Text};
use independent::words::START;

/// Eight coefficients and the constant.
type Row = [i64; 9];

fn of(text: &RowText) -> Row {
    let mut row = [0; 9];
    for (v, c) in &text.1 {
        row[*v as usize] = i64::from(*c);
    }
    row[8] = i64::from(text.0);
    row
}

fn negated(row: &Row) -> Row {
    let mut minus = row.map(|c| -c);
    minus[8] -= 1;
    minus
}

fn sum(m: i64, a: &Row, n: i64, b: &Row) -> Row {
    let mut row = [0; 9];
    for i in 0..9 {
        row[i] = m * a[i] + n * b[i];
    }
    row
}

fn below_0(text: &Text, row: &Row) -> bool {
    let mut total = row[8];
    for (v, (low, high)) in text.vars.iter().enumerate() {
        total += row[v] * i64::from(if row[v] > 0 { *high } else { *low });
    }
    total < 0
}

/// Pairs of multipliers that make a variable of the two rows cancel.
fn cancelling(a: &Row, b: &Row) -> Vec<(i64, i64)> {
    let mut pairs = Vec::new();
    for v in 0..8 {
        if a[v].signum() * b[v].signum() < 0 {
            let (mut x, mut y) = (a[v].abs(), b[v].abs());
            while y != 0 {
                (x, y) = (y, x % y);
            }
            let pair = (b[v].abs() / x, a[v].abs() / x);
            if pair.0.max(pair.1) <= 65_535 && !pairs.contains(&pair) {
                pairs.push(pair);
            }
        }
    }
    pairs
}

/// One source and one goal; `base` is the negated goal afterwards, and 0 for goal 0.
struct Aim<'a> {
    text: &'a Text,
    source: u32,
    goal: u32,
    index: u32,
    rows: &'a [Row],
    literals: &'a [(usize, bool, Row)],
}

impl Aim<'_> {
    /// The words of the lemma with these multipliers: goal, (literal, multiplier), (source row, multiplier).
    fn words(&self, m: i64, premises: &[(usize, i64)], rows: &[(usize, i64)]) -> Vec<u32> {
        let (mut f, mut t) = (0, 0);
        let mut by_predicate = Vec::new();
        for (l, n) in premises {
            let (p, holds, _) = self.literals[*l];
            if holds { t |= 1 << p } else { f |= 1 << p }
            by_predicate.push((p, *n as u32));
        }
        by_predicate.sort_unstable();
        let mut multipliers = Vec::new();
        if self.goal != 0 {
            multipliers.push(m as u32);
        }
        multipliers.extend(by_predicate.iter().map(|(_, n)| *n));
        for j in 0..self.rows.len() {
            multipliers.push(rows.iter().find(|(r, _)| *r == j).map_or(0, |(_, n)| *n as u32));
        }
        lemma(self.source, self.goal, self.index, f, t, &multipliers)
    }

    fn find(&self, base: &Row, dice: &Dice, found: &mut Vec<Vec<u32>>) {
        if below_0(self.text, base) {
            found.push(self.words(1, &[], &[]));
            return;
        }
        // One source row; for goal 0 two of them.
        let mut halves: Vec<(usize, i64, i64, Row)> = Vec::new();
        for (j, row) in self.rows.iter().enumerate() {
            let pairs = if self.goal == 0 { vec![(0, 1)] } else { cancelling(base, row) };
            for (m, n) in pairs {
                let total = sum(m, base, n, row);
                if below_0(self.text, &total) {
                    found.push(self.words(m, &[], &[(j, n)]));
                    return;
                }
                halves.push((j, m, n, total));
            }
        }
        for (i, m, n, half) in &halves {
            for (j, row) in self.rows.iter().enumerate().filter(|(j, _)| j > i) {
                for (a, b) in cancelling(half, row) {
                    if below_0(self.text, &sum(a, half, b, row)) && a * m.max(n) <= 65_535 {
                        found.push(self.words(a * m, &[], &[(*i, a * n), (j, b)]));
                        return;
                    }
                }
            }
        }
        if self.source == START {
            return;
        }
        // One premise, alone or with one source row.
        let before = found.len();
        for (l, (_, _, row)) in self.literals.iter().enumerate() {
            if self.goal == 0 && below_0(self.text, row) {
                found.push(self.words(0, &[(l, 1)], &[]));
                continue;
            }
            if let Some((m, n)) = cancelling(base, row).into_iter().find(|(m, n)| below_0(self.text, &sum(*m, base, *n, row))) {
                found.push(self.words(m, &[(l, n)], &[]));
                continue;
            }
            'halves: for (j, m, n, half) in &halves {
                for (a, b) in cancelling(half, row) {
                    if below_0(self.text, &sum(a, half, b, row)) && a * m.max(n) <= 65_535 {
                        found.push(self.words(a * m, &[(l, b)], &[(*j, a * n)]));
                        break 'halves;
                    }
                }
            }
        }
        if found.len() > before || self.goal == 0 && dice.percent(70) {
            return;
        }
        // Two premises of two predicates.
        for (l, (p, _, row)) in self.literals.iter().enumerate() {
            for (m, n) in cancelling(base, row) {
                let half = sum(m, base, n, row);
                for (k, (q, _, other)) in self.literals.iter().enumerate().skip(l + 1) {
                    if p == q {
                        continue;
                    }
                    for (a, b) in cancelling(&half, other) {
                        if below_0(self.text, &sum(a, &half, b, other)) && a * m.max(n) <= 65_535 {
                            found.push(self.words(a * m, &[(l, a * n), (k, b)], &[]));
                        }
                    }
                }
            }
            if found.len() > before + 4 {
                return;
            }
        }
    }
}

/// Lemmas for every source and goal, as far as the search finds them.
pub fn prove(text: &Text, dice: &Dice) -> Vec<Vec<u32>> {
    let mut literals = Vec::new();
    for (p, row) in text.pred.iter().enumerate() {
        let row = of(row);
        literals.push((p, true, row));
        literals.push((p, false, negated(&row)));
    }
    let mut found = Vec::new();
    let sources = std::iter::once(START).chain(0..text.actions.len() as u32);
    for source in sources {
        let action = if source == START { None } else { Some(&text.actions[source as usize]) };
        let rows: Vec<Row> = action.map_or(&text.init, |a| &a.guards).iter().map(of).collect();
        let after = |row: Row| -> Row {
            let mut new = row;
            if let Some(action) = action {
                action.sets.iter().for_each(|(v, _)| new[*v as usize] = 0);
                action.sets.iter().for_each(|(v, r)| new = sum(1, &new, row[*v as usize], &of(r)));
            }
            new
        };
        let aim = |goal: u32, index: u32| Aim { text, source, goal, index, rows: &rows, literals: &literals };
        aim(0, 0).find(&[0; 9], dice, &mut found);
        for p in 0..text.pred.len() {
            let row = literals[2 * p].2;
            aim(1, p as u32).find(&negated(&after(row)), dice, &mut found);
            aim(2, p as u32).find(&negated(&after(negated(&row))), dice, &mut found);
        }
        for (v, _) in action.map_or(&[][..], |a| &a.sets) {
            let (low, high) = text.vars[*v as usize];
            let mut row = [0; 9];
            row[*v as usize] = 1;
            row[8] = -i64::from(low);
            aim(3, *v).find(&negated(&after(row)), dice, &mut found);
            row[*v as usize] = -1;
            row[8] = i64::from(high);
            aim(4, *v).find(&negated(&after(row)), dice, &mut found);
        }
    }
    found
}
