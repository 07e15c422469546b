//! Where everything of a drawing goes: as large as it has to be.
use crate::draw::curves::Arrow;
use crate::draw::geometry::{point, Frame, Point};
use crate::draw::graph::{Edge, Graph, Node};
use crate::draw::layout::Task;
use crate::draw::routes::{routed, Faults, Wanted};
use crate::draw::{svg, titles};
use std::collections::BTreeSet;

/// With more nodes than that the arrows have no labels.
pub const LABELLED: usize = 50;
/// Up to so many nodes larger rings are tried until each arrow leads past the nodes.
const FEW: usize = 12;
/// How often the rings are made larger at the most.
const ROUNDS: i32 = 12;

/// The sizes of letters, of a node's literals and of labels, and the heights of their lines.
pub const LITERAL: f64 = 11.0;
pub const LITERAL_LINE: f64 = 14.0;
pub const LABEL: f64 = 11.0;
pub const LABEL_LINE: f64 = 13.0;

/// Where everything of a graph goes.
#[derive(Default)]
pub struct Plan {
    pub frames: Vec<Frame>,
    pub radii: Vec<f64>,
    pub arrows: Vec<Arrow>,
}

/// Half of the box around lines of text.
fn half(lines: &[String], size: f64, line: f64) -> Point {
    let widths = lines.iter().map(|text| svg::width(text, size));
    let wide = widths.fold(0.0, f64::max);
    point(wide / 2.0, line * lines.len() as f64 / 2.0)
}

fn node_half(node: &Node) -> Point {
    let half = half(&titles::literals(&node.literals), LITERAL, LITERAL_LINE);
    point((half.x + 8.0).max(22.0), half.y + 14.0)
}

fn wanted(edge: &Edge, labels: bool) -> Wanted {
    let half = half(&titles::label(&edge.actions), LABEL, LABEL_LINE) + point(2.0, 1.0);
    Wanted {
        from: edge.from,
        to: edge.to,
        label: labels.then_some(half),
    }
}

fn task(graph: &Graph, wanted: &[Wanted]) -> Task {
    let mut rings = vec![Vec::new(); graph.rings()];
    for (number, node) in graph.nodes.iter().enumerate() {
        rings[node.ring].push(number);
    }
    let links: BTreeSet<(usize, usize)> = (graph.edges.iter())
        .filter(|edge| edge.from != edge.to)
        .map(|edge| (edge.from.min(edge.to), edge.from.max(edge.to)))
        .collect();
    let labels = wanted.iter().filter_map(|arrow| arrow.label);
    let wide = labels.map(|half| 2.0 * half.x).fold(0.0, f64::max);
    let gap = match graph.nodes.len() > LABELLED {
        true => point(22.0, 18.0),
        false => point(wide + 44.0, 56.0),
    };
    Task {
        halves: graph.nodes.iter().map(node_half).collect(),
        step: (350.0 / rings.len() as f64).clamp(1.5, 70.0),
        rings,
        links: links.into_iter().collect(),
        gap,
    }
}

/// Places the nodes and leads the arrows; with larger and larger rings, as long as faults are worth it.
pub fn plan(graph: &Graph) -> Plan {
    let many = graph.nodes.len() > LABELLED;
    let edges = graph.edges.iter();
    let wanted: Vec<Wanted> = edges.map(|edge| wanted(edge, !many)).collect();
    let task = task(graph, &wanted);
    let places = task.places(many);
    let mut best: Option<(Faults, Plan)> = None;
    let mut scale = 1.0;
    for round in 0..ROUNDS {
        let framed = |(&half, &middle): (&Point, &Point)| Frame {
            middle: middle * scale,
            half,
        };
        let frames: Vec<Frame> = task
            .halves
            .iter()
            .zip(&places.middles)
            .map(framed)
            .collect();
        let (arrows, faults) = routed(&frames, &wanted, many);
        let radii = places.radii.iter().map(|radius| radius * scale).collect();
        let worse = |(least, _): &(Faults, Plan)| *least <= faults;
        if !best.as_ref().is_some_and(worse) {
            let plan = Plan {
                frames,
                radii,
                arrows,
            };
            best = Some((faults, plan));
        }
        let left = best.as_ref().map_or(faults, |(least, _)| *least);
        if many || !worth(left, graph.nodes.len(), round) {
            break;
        }
        scale *= 1.2;
    }
    best.map(|(_, plan)| plan).unwrap_or_default()
}

/// Are faults worth another round with larger rings? Always, if a label covers something, and of few nodes if an arrow may be
/// taken for another one or runs through a node.
fn worth(faults: Faults, nodes: usize, round: i32) -> bool {
    let few = nodes <= FEW;
    faults.covered > 0
        || faults.through > 0 && (few || round < 3)
        || faults.astray > 0 && few
        || faults.crossed > 0 && few && round < 2
}

/// The corners of everything that is drawn of the graph.
pub fn extent(plan: &Plan) -> (Point, Point) {
    let (mut low, mut high) = (point(-60.0, -20.0), point(60.0, 20.0));
    let mut include = |at: Point, half: Point| {
        low = point(low.x.min(at.x - half.x), low.y.min(at.y - half.y));
        high = point(high.x.max(at.x + half.x), high.y.max(at.y + half.y));
    };
    let labels = plan.arrows.iter().filter_map(|arrow| arrow.label);
    for frame in plan.frames.iter().copied().chain(labels) {
        include(frame.middle, frame.half);
    }
    for at in plan
        .arrows
        .iter()
        .flat_map(|arrow| arrow.curve.points(10.0))
    {
        include(at, point(4.0, 4.0));
    }
    for &radius in &plan.radii {
        include(Point::default(), point(radius, radius));
    }
    (low, high)
}

#[cfg(test)]
mod tests {
    use super::*;

    #[test]
    fn faults_are_worth_larger_rings_or_not() {
        let none = Faults {
            covered: 0,
            through: 0,
            astray: 0,
            crossed: 0,
        };
        assert!(!worth(none, 3, 0));
        assert!(worth(Faults { covered: 1, ..none }, 50, 9));
        assert!(worth(Faults { through: 1, ..none }, FEW, 9));
        assert!(!worth(Faults { through: 1, ..none }, FEW + 1, 9));
        assert!(worth(Faults { astray: 1, ..none }, FEW, 9));
        assert!(!worth(Faults { crossed: 1, ..none }, FEW, 9));
    }

    /// Node 0 alone, with a loop: all of it lies in the extent.
    #[test]
    fn everything_is_in_the_extent() {
        let graph = Graph {
            nodes: vec![Node {
                ring: 0,
                literals: Vec::new(),
            }],
            edges: vec![Edge {
                from: 0,
                to: 0,
                actions: vec![0, 1, 2],
            }],
            finding: None,
            path: BTreeSet::new(),
        };
        let plan = plan(&graph);
        let (low, high) = extent(&plan);
        let label = plan.arrows[0].label.unwrap();
        for frame in [plan.frames[0], label] {
            let (least, most) = (frame.middle - frame.half, frame.middle + frame.half);
            assert!(low.x <= least.x && low.y <= least.y && high.x >= most.x && high.y >= most.y);
        }
    }
}
