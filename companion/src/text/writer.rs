//! A show as text, and the phrases that it is made of. What is written reads back as the same show.
use crate::show::model::*;
use crate::show::names::Names;
use crate::show::rows::Row;

/// Rows that do not fit on a line of this many characters get one each.
const LINE: usize = 100;

/// A piece of a sum behind the ones before it: "level", "-2 level", " + 5", " - house".
fn piece(first: bool, number: i64, variable: Option<&str>) -> String {
    let sign = match (first, number < 0) {
        (true, false) => "",
        (true, true) => "-",
        (false, false) => " + ",
        (false, true) => " - ",
    };
    match (number.abs(), variable) {
        (1, Some(variable)) => format!("{sign}{variable}"),
        (number, Some(variable)) => format!("{sign}{number} {variable}"),
        (number, None) => format!("{sign}{number}"),
    }
}

/// The sum that a row is: "level - 5", "1000 - level", "0".
pub fn expression(row: &Row, names: &Names) -> String {
    let terms = row
        .terms()
        .map(|(v, c)| (c, Some(names.variables[v].as_str())));
    let mut pieces: Vec<(i64, Option<&str>)> = terms.collect();
    if row.constant != 0 || pieces.is_empty() {
        pieces.push((row.constant, None));
    }
    // What is taken off does not come first, where there is something to take it off.
    if let Some(added) = pieces.iter().position(|&(number, _)| number > 0) {
        pieces[..=added].rotate_right(1);
    }
    let written = pieces.iter().enumerate();
    written
        .map(|(k, &(number, variable))| piece(k == 0, number, variable))
        .collect()
}

/// The terms of a row with a positive coefficient, those with a negative one turned around, and its constant.
fn sides(row: &Row) -> (Row, Row, i64) {
    let side = |sign: i64| Row {
        coefficients: row.coefficients.map(|c| (sign * c).max(0)),
        constant: 0,
    };
    (side(1), side(-1), row.constant)
}

/// A row as a comparison: "level >= 5", "level <= 995", "grand >= first + 10".
pub fn row(row: &Row, names: &Names) -> String {
    let (added, taken, constant) = sides(row);
    let none = Row::default();
    let (left, sign, right) = if added != none {
        (added, ">=", taken.plus(-1, &Row::constant(constant)))
    } else if taken != none {
        (taken, "<=", Row::constant(constant))
    } else {
        (Row::constant(constant), ">=", none)
    };
    let (left, right) = (expression(&left, names), expression(&right, names));
    format!("{left} {sign} {right}")
}

/// Rows as comparisons. A row with something added, and behind it the same turned around, are one: "level = 0".
fn comparisons(rows: &[Row], names: &Names) -> Vec<String> {
    let mut written = Vec::new();
    let mut rest = rows;
    while let Some((first, behind)) = rest.split_first() {
        let opposite = Row::default().plus(-1, first);
        let equal = first.terms().any(|(_, c)| c > 0) && behind.first() == Some(&opposite);
        let text = row(first, names);
        written.push(match equal {
            true => text.replacen(">=", "=", 1),
            false => text,
        });
        rest = &behind[usize::from(equal)..];
    }
    written
}

/// "lit", "not house_up".
pub fn literal(predicate: usize, holds: bool, names: &Names) -> String {
    let not = if holds { "" } else { "not " };
    format!("{not}{}", names.predicates[predicate])
}

/// "lit and not house_up"; "always" where there is none.
pub fn literals(literals: Literals, names: &Names) -> String {
    if literals.is_empty() {
        return "always".to_string();
    }
    let each = literals.each().map(|(p, holds)| literal(p, holds, names));
    each.collect::<Vec<_>>().join(" and ")
}

/// What a lemma speaks of and what it says of it: "house_on makes not level_up", "start never", "down keeps level low".
pub fn lemma_head(source: Source, goal: Goal, names: &Names) -> String {
    let source = match source {
        Source::Start => "start",
        Source::Action(k) => names.actions[k].as_str(),
    };
    match goal {
        Goal::Never => format!("{source} never"),
        Goal::Holds(p) => format!("{source} makes {}", literal(p, true, names)),
        Goal::Fails(p) => format!("{source} makes {}", literal(p, false, names)),
        Goal::Low(v) => format!("{source} keeps {} low", names.variables[v]),
        Goal::High(v) => format!("{source} keeps {} high", names.variables[v]),
    }
}

/// The rows of a lemma with their multipliers, as far as those are not 0: "goal, 2 level_up, row 1".
fn multiplied(lemma: &Lemma, names: &Names) -> String {
    let goal = (lemma.goal != Goal::Never).then(|| "goal".to_string());
    let premises = lemma.premises.each();
    let premises = premises.map(|(p, holds)| literal(p, holds, names));
    let rows = (0..).map(|k| format!("row {k}"));
    let all = goal.into_iter().chain(premises).chain(rows);
    let counted = lemma.multipliers.iter().zip(all);
    let written: Vec<String> = counted
        .filter(|(times, _)| **times != 0)
        .map(|(times, row)| match times {
            1 => row,
            _ => format!("{times} {row}"),
        })
        .collect();
    match written.is_empty() {
        true => "nothing".to_string(),
        false => written.join(", "),
    }
}

/// The line of a lemma: "lemma house_on never given level_up by level_up, row 0".
pub fn lemma(lemma: &Lemma, names: &Names) -> String {
    let head = lemma_head(lemma.source, lemma.goal, names);
    let given = match lemma.premises.is_empty() {
        true => String::new(),
        false => format!(" given {}", literals(lemma.premises, names)),
    };
    format!("lemma {head}{given} by {}", multiplied(lemma, names))
}

/// Rows behind a keyword, on one line if they fit there.
fn rows(keyword: &str, rows: &[Row], names: &Names) -> Vec<String> {
    let each = comparisons(rows, names);
    let all = format!("{keyword} {}", each.join(" and "));
    match rows {
        [] => Vec::new(),
        _ if all.len() <= LINE => vec![all],
        _ => each.iter().map(|row| format!("{keyword} {row}")).collect(),
    }
}

fn action(name: &str, action: &Action, names: &Names) -> Vec<String> {
    let mut lines = vec![format!("action {name}")];
    lines.extend(rows("    when", &action.guards, names));
    lines.extend(action.sets.iter().map(|(variable, row)| {
        let variable = &names.variables[*variable];
        format!("    {variable} := {}", expression(row, names))
    }));
    lines
}

/// The lines of a show, in paragraphs.
fn paragraphs(show: &Show, names: &Names) -> Vec<Vec<String>> {
    let logic = &show.logic;
    let variables = names.variables.iter().zip(&logic.ranges);
    let variable = |(name, range): (&String, &crate::show::rows::Range)| {
        format!("variable {name} {} to {}", range.low, range.high)
    };
    let predicates = names.predicates.iter().zip(&logic.predicates);
    let mut all: Vec<Vec<String>> = vec![
        variables.map(variable).collect(),
        rows("start", &logic.start, names),
        predicates
            .map(|(name, predicate)| format!("predicate {name}: {}", row(predicate, names)))
            .collect(),
    ];
    let actions = names.actions.iter().zip(&logic.actions);
    all.extend(actions.map(|(name, each)| action(name, each, names)));
    let forbidden = logic.forbidden.iter();
    let forbid = |each: &Literals| format!("forbid {}", literals(*each, names));
    all.push(forbidden.map(forbid).collect());
    all.push(show.lemmas.iter().map(|each| lemma(each, names)).collect());
    all
}

/// The whole text.
pub fn write(show: &Show, names: &Names) -> String {
    let filled = paragraphs(show, names).into_iter();
    let filled = filled.filter(|lines| !lines.is_empty());
    let paragraphs: Vec<String> = filled.map(|lines| lines.join("\n") + "\n").collect();
    paragraphs.join("\n")
}

#[cfg(test)]
mod tests {
    use super::*;
    use crate::show::rows::VARIABLES;

    fn names() -> Names {
        let all = |names: &[&str]| names.iter().map(|name| name.to_string()).collect();
        Names {
            variables: all(&["level", "house"]),
            predicates: all(&["level_up", "house_up"]),
            actions: all(&["house_on", "down"]),
        }
    }

    fn of(constant: i64, level: i64, house: i64) -> Row {
        let mut coefficients = [0; VARIABLES];
        coefficients[..2].copy_from_slice(&[level, house]);
        Row {
            coefficients,
            constant,
        }
    }

    #[test]
    fn sums() {
        for (row, expected) in [
            (of(0, 0, 0), "0"),
            (of(-7, 0, 0), "-7"),
            (of(0, 1, 0), "level"),
            (of(0, -1, 0), "-level"),
            (of(-5, 1, 0), "level - 5"),
            (of(5, 2, -3), "2 level - 3 house + 5"),
            (of(1000, -1, 0), "1000 - level"),
            (of(-1, -2, -1), "-2 level - house - 1"),
            (of(0, -1, 1), "house - level"),
        ] {
            assert_eq!(expression(&row, &names()), expected);
        }
    }

    #[test]
    fn rows_as_comparisons() {
        for (each, expected) in [
            (of(-5, 1, 0), "level >= 5"),
            (of(3, 2, 0), "2 level >= -3"),
            (of(995, -1, 0), "level <= 995"),
            (of(-5, -1, -2), "level + 2 house <= -5"),
            (of(-10, 1, -1), "level >= house + 10"),
            (of(10, -1, 1), "house >= level - 10"),
            (of(4, 0, 0), "4 >= 0"),
            (of(-4, 0, 0), "-4 >= 0"),
            (of(0, 0, 0), "0 >= 0"),
        ] {
            assert_eq!(row(&each, &names()), expected);
        }
        let (zero, minus) = (of(0, 1, 0), of(0, -1, 0));
        let all = |rows: &[Row]| comparisons(rows, &names()).join(" and ");
        assert_eq!(all(&[zero, minus]), "level = 0");
        assert_eq!(all(&[minus, zero]), "level <= 0 and level >= 0");
        assert_eq!(all(&[zero, minus, zero]), "level = 0 and level >= 0");
        assert_eq!(all(&[zero, zero, minus]), "level >= 0 and level = 0");
        let apart = [of(-5, 1, -1), of(5, -1, 1)];
        assert_eq!(all(&apart), "level = house + 5");
        assert_eq!(all(&[of(0, 0, 0); 2]), "0 >= 0 and 0 >= 0");
    }

    #[test]
    fn lemmas() {
        let none = Literals::default();
        let both = none.with(0, true).with(1, false);
        assert_eq!(literals(both, &names()), "level_up and not house_up");
        assert_eq!(literals(none, &names()), "always");
        let line = |source, goal, premises, multipliers: &[i64]| {
            let multipliers = multipliers.to_vec();
            let each = Lemma {
                source,
                goal,
                premises,
                multipliers,
            };
            lemma(&each, &names())
        };
        let (start, on, down) = (Source::Start, Source::Action(0), Source::Action(1));
        assert_eq!(
            line(start, Goal::Fails(0), none, &[1, 1, 0]),
            "lemma start makes not level_up by goal, row 0"
        );
        assert_eq!(
            line(on, Goal::Never, none.with(0, true), &[1, 65_535]),
            "lemma house_on never given level_up by level_up, 65535 row 0"
        );
        assert_eq!(
            line(down, Goal::Low(0), both, &[1, 2, 0, 0, 3]),
            "lemma down keeps level low given level_up and not house_up by goal, 2 level_up, 3 row 1"
        );
        assert_eq!(
            line(down, Goal::High(1), both, &[0, 0, 4]),
            "lemma down keeps house high given level_up and not house_up by 4 not house_up"
        );
        assert_eq!(
            line(start, Goal::Never, none, &[]),
            "lemma start never by nothing"
        );
    }
}
