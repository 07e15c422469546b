//! The words in a drawing: what stands in boxes, at arrows, and in tooltips.
use crate::draw::graph::{Edge, Literal, Node};

/// A node's literals in lines: `p0 ¬p1`.
pub fn literals(literals: &[Literal]) -> Vec<String> {
    let sign = |literal: &Literal| match literal.holds {
        true => format!("p{}", literal.predicate),
        false => format!("¬p{}", literal.predicate),
    };
    let across = match literals.len() {
        0..=2 | 4 => 2,
        3 | 5..=9 => 3,
        _ => 4,
    };
    let line = |some: &[Literal]| some.iter().map(sign).collect::<Vec<_>>().join(" ");
    literals.chunks(across).map(line).collect()
}

/// The tooltip of a node.
pub fn node(number: usize, node: &Node) -> String {
    let said = |literal: &Literal| {
        let how = if literal.holds { "holds" } else { "fails" };
        format!("predicate {} {how}", literal.predicate)
    };
    let known: Vec<String> = node.literals.iter().map(said).collect();
    let known = match known.is_empty() {
        true => "nothing is known".to_string(),
        false => known.join(", "),
    };
    format!("node {number}, ring {}: {known}", node.ring)
}

/// The tooltip of an arrow.
pub fn edge(edge: &Edge) -> String {
    let numbers: Vec<String> = edge.actions.iter().map(usize::to_string).collect();
    let word = match numbers.len() {
        1 => "action",
        _ => "actions",
    };
    let Edge { from, to, .. } = edge;
    format!("node {from} to node {to}: {word} {}", numbers.join(", "))
}

/// Rising numbers as a label has them, in lines: three and more that follow each other as `4-7`.
pub fn label(actions: &[usize]) -> Vec<String> {
    let mut parts = Vec::new();
    let mut rest = actions;
    while let [first, ..] = rest {
        let run = (1..rest.len())
            .find(|&k| rest[k] != first + k)
            .unwrap_or(rest.len());
        let (some, others) = rest.split_at(if run > 2 { run } else { 1 });
        parts.push(match some {
            [first, .., last] => format!("{first}-{last}"),
            _ => first.to_string(),
        });
        rest = others;
    }
    let last = parts.len().saturating_sub(1);
    let comma = |(k, part)| if k < last { format!("{part},") } else { part };
    wrapped(parts.into_iter().enumerate().map(comma), 12)
}

/// Words in lines of so many characters at the most, where no word is longer.
pub fn wrapped(words: impl Iterator<Item = String>, most: usize) -> Vec<String> {
    let mut lines: Vec<String> = Vec::new();
    for word in words {
        match lines.last_mut() {
            Some(line) if line.chars().count() + 1 + word.chars().count() <= most => {
                line.push(' ');
                line.push_str(&word);
            }
            _ => lines.push(word),
        }
    }
    lines
}

#[cfg(test)]
mod tests {
    use super::*;

    fn known(count: usize) -> Vec<Literal> {
        let literal = |predicate| Literal {
            predicate,
            holds: predicate % 2 == 0,
        };
        (0..count).map(literal).collect()
    }

    #[test]
    fn of_nodes() {
        assert!(literals(&[]).is_empty());
        assert_eq!(literals(&known(2)), ["p0 ¬p1"]);
        assert_eq!(literals(&known(5)), ["p0 ¬p1 p2", "¬p3 p4"]);
        assert_eq!(literals(&known(14)).len(), 4);
        let of = |count| Node {
            ring: 2,
            literals: known(count),
        };
        assert_eq!(node(3, &of(0)), "node 3, ring 2: nothing is known");
        assert_eq!(
            node(3, &of(2)),
            "node 3, ring 2: predicate 0 holds, predicate 1 fails"
        );
    }

    #[test]
    fn of_arrows() {
        let of = |actions: &[usize]| Edge {
            from: 0,
            to: 3,
            actions: actions.to_vec(),
        };
        assert_eq!(edge(&of(&[15])), "node 0 to node 3: action 15");
        assert_eq!(edge(&of(&[0, 2])), "node 0 to node 3: actions 0, 2");
        let cases: [(&[usize], &str); 6] = [
            (&[7], "7"),
            (&[0, 2], "0, 2"),
            (&[0, 1], "0, 1"),
            (&[0, 1, 2], "0-2"),
            (&[0, 2, 3, 4, 5, 9, 10], "0, 2-5, 9,|10"),
            (&[0, 2, 4, 6, 8, 10, 12, 14], "0, 2, 4, 6,|8, 10, 12,|14"),
        ];
        for (actions, text) in cases {
            assert_eq!(label(actions).join("|"), text);
        }
    }

    #[test]
    fn lines_are_not_longer_than_they_may_be() {
        let words = "a bc def ghij klmno".split(' ').map(String::from);
        assert_eq!(wrapped(words, 6), ["a bc", "def", "ghij", "klmno"]);
    }
}
