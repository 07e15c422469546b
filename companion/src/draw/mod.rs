//! The command `draw`: the abstract state graph of a show as an SVG.
mod curves;
mod geometry;
mod graph;
mod grid;
mod layout;
mod plan;
mod rim;
mod routes;
mod search;
mod svg;
mod titles;

use crate::input::Input;
use crate::output::{Said, Status};
use crate::verdict::{self, path, presses, safe, sentence, Answer, Judged};
use curves::Arrow;
use geometry::{point, Frame, Point};
use graph::{Edge, Graph, Node};
use plan::{extent, plan, Plan, LABEL, LABELLED, LABEL_LINE, LITERAL, LITERAL_LINE};
use svg::number;

/// The sizes of letters: of a node's number, the caption and the legend.
const NUMBER: f64 = 13.0;
const CAPTION: f64 = 14.0;
const LEGEND: f64 = 12.0;
/// The space around everything.
const MARGIN: f64 = 20.0;

const INK: &str = "#1f2937";
const ARROW: &str = "#5b6676";
const MANY_ARROW: &str = "#8c98a8";
const PATH: &str = "#c2410c";
const FINDING: &str = "#b3261e";

/// What is drawn of a show, or the trouble. Where there is no graph, standard output stays empty.
pub fn run(input: &Input) -> Result<Said, String> {
    match verdict::judge(&input.bytes)? {
        Answer::Judged(show) => {
            let status = match show.judgement.verdict.finding() {
                None => Status::Good,
                Some(_) => Status::Findings,
            };
            let graph = Graph::read(&show)?;
            let lines = picture(&graph, &caption(&show)?);
            Ok(Said::lines(lines.into_iter(), status))
        }
        Answer::Refused(why) => Ok(Said::aside(why.sentence, Status::Refused)),
    }
}

/// The verdict in words.
fn caption(show: &Judged) -> Result<String, String> {
    match show.judgement.verdict.finding() {
        None => Ok(safe(show.judgement)),
        Some(finding) => {
            let path = path(&show.graph, show.actions, finding.node())?;
            Ok(sentence(finding, &presses(&path)))
        }
    }
}

/// The lines of the SVG.
fn picture(graph: &Graph, caption: &str) -> Vec<String> {
    let plan = plan(graph);
    let (low, high) = extent(&plan);
    let legend = legend(graph);
    let wide = legend.iter().map(|row| 30.0 + svg::width(row.0, LEGEND));
    let wide = wide.fold((high.x - low.x).max(400.0), f64::max);
    let most = (wide / svg::width("a", CAPTION)) as usize;
    let mut captions = titles::wrapped(caption.split(' ').map(String::from), most);
    if graph.nodes.is_empty() {
        captions.push("no state meets the start rows: no nodes".to_string());
    }
    let left = (low.x + high.x - wide) / 2.0 - MARGIN;
    let top = low.y - MARGIN - 20.0 * captions.len() as f64 - MARGIN;
    let size = point(
        wide + 2.0 * MARGIN,
        high.y - top + 20.0 * legend.len() as f64 + 2.0 * MARGIN,
    );
    let mut lines = vec![opening(point(left, top), size)];
    let corner = point(left + MARGIN, top + MARGIN);
    lines.extend(caption_lines(&captions, corner));
    lines.extend(ring_lines(&plan));
    lines.extend(arrow_lines(graph, &plan));
    lines.extend(node_lines(graph, &plan));
    lines.extend(label_lines(graph, &plan));
    lines.extend(legend_lines(&legend, point(corner.x, high.y + MARGIN)));
    lines.push("</svg>".to_string());
    lines
}

fn opening(corner: Point, size: Point) -> String {
    let [x, y, wide, high] = [corner.x, corner.y, size.x.ceil(), size.y.ceil()].map(number);
    format!(
        r##"<svg xmlns="http://www.w3.org/2000/svg" width="{wide}" height="{high}" viewBox="{x} {y} {wide} {high}" font-family="monospace" fill="{INK}">
<rect class="back" x="{x}" y="{y}" width="{wide}" height="{high}" fill="#ffffff"/>"##
    )
}

fn caption_lines(captions: &[String], corner: Point) -> Vec<String> {
    let line = |(k, caption): (usize, &String)| {
        let at = corner + point(0.0, 14.0 + 20.0 * k as f64);
        svg::text(at, caption, CAPTION, r#" font-weight="bold""#)
    };
    let lines = captions.iter().enumerate().map(line);
    grouped("caption", "", lines.collect())
}

/// Lines in a group of this class, with these further attributes.
fn grouped(class: &str, more: &str, lines: Vec<String>) -> Vec<String> {
    let mut all = vec![format!(r#"<g class="{class}"{more}>"#)];
    all.extend(lines);
    all.push("</g>".to_string());
    all
}

fn ring_lines(plan: &Plan) -> Vec<String> {
    let ring = |(number, radius): (usize, &f64)| {
        format!(
            r#"<circle class="ring" cx="0" cy="0" r="{}">{}</circle>"#,
            svg::number(*radius),
            svg::title(&format!("ring {number}"))
        )
    };
    let rings = plan.radii.iter().enumerate().skip(1).map(ring);
    grouped(
        "rings",
        r##" fill="none" stroke="#dde2ea""##,
        rings.collect(),
    )
}

/// The arrows, those of the path last, and so on top.
fn arrow_lines(graph: &Graph, plan: &Plan) -> Vec<String> {
    let (colour, wide, head) = match graph.nodes.len() > LABELLED {
        true => (MANY_ARROW, 0.8, 7.0),
        false => (ARROW, 1.3, 9.0),
    };
    let (path, others): (Vec<_>, Vec<_>) = (graph.edges.iter().zip(&plan.arrows))
        .partition(|(edge, _)| graph.path.contains(&(edge.from, edge.to)));
    let drawn = |some: Vec<(&Edge, &Arrow)>, colour: &str, wide: f64, head: f64| {
        let line = |(edge, arrow): (&Edge, &Arrow)| {
            let (title, arrow) = (
                svg::title(&titles::edge(edge)),
                svg::arrow(&arrow.curve, head, colour),
            );
            format!(r#"<g class="edge">{title}{arrow}</g>"#)
        };
        let more = format!(
            r#" fill="none" stroke="{colour}" stroke-width="{}""#,
            number(wide)
        );
        grouped("edges", &more, some.into_iter().map(line).collect())
    };
    let mut lines = drawn(others, colour, wide, head);
    if !path.is_empty() {
        lines.extend(drawn(path, PATH, 2.8, 13.0));
    }
    lines
}

/// The fill and the border of a node's box, and the colour of its text.
fn look(graph: &Graph, node: usize) -> (&'static str, &'static str, f64, &'static str) {
    if graph.finding == Some(node) {
        (FINDING, "#6b120d", 4.0, "#ffffff")
    } else if graph.on_path(node) {
        ("#ffedd5", PATH, 2.5, INK)
    } else {
        ("#eef3fb", "#44618c", 1.2, INK)
    }
}

fn node_lines(graph: &Graph, plan: &Plan) -> Vec<String> {
    let line = |(number, (node, frame)): (usize, (&Node, &Frame))| {
        let (fill, border, wide, ink) = look(graph, number);
        let more = format!(
            r#"{} fill="{fill}" stroke="{border}" stroke-width="{}""#,
            svg::rounded(),
            svg::number(wide)
        );
        let mut line = format!(
            r#"<g class="node" fill="{ink}">{}"#,
            svg::title(&titles::node(number, node))
        );
        line += &svg::frame(frame, &more);
        let mut at = point(frame.middle.x, frame.middle.y - frame.half.y + 18.0);
        line += &svg::text(at, &number.to_string(), NUMBER, r#" font-weight="bold""#);
        for literals in titles::literals(&node.literals) {
            at.y += LITERAL_LINE;
            line += &svg::text(at, &literals, LITERAL, "");
        }
        line + "</g>"
    };
    let nodes = graph.nodes.iter().zip(&plan.frames).enumerate().map(line);
    grouped("nodes", r#" text-anchor="middle""#, nodes.collect())
}

fn label_lines(graph: &Graph, plan: &Plan) -> Vec<String> {
    let line = |(edge, arrow): (&Edge, &Arrow)| {
        let frame = arrow.label?;
        let ink = match graph.path.contains(&(edge.from, edge.to)) {
            true => PATH,
            false => INK,
        };
        let mut line = format!(
            r#"<g class="label" fill="{ink}">{}"#,
            svg::title(&titles::edge(edge))
        );
        line += &svg::frame(&frame, r##" fill="#ffffff""##);
        let mut at = frame.middle - point(0.0, frame.half.y + 2.0);
        for text in titles::label(&edge.actions) {
            at.y += LABEL_LINE;
            line += &svg::text(at, &text, LABEL, "");
        }
        Some(line + "</g>")
    };
    let labels = graph.edges.iter().zip(&plan.arrows).filter_map(line);
    grouped("labels", r#" text-anchor="middle""#, labels.collect())
}

/// The rows of the legend, each with the colour of its mark.
fn legend(graph: &Graph) -> Vec<(&'static str, Option<&'static str>)> {
    if graph.nodes.is_empty() {
        return Vec::new();
    }
    let mut rows = vec![
        ("p0: predicate 0 holds; ¬p0: predicate 0 fails", None),
        ("ring: the number of actions on the path to a node", None),
        ("arrow: the actions that lead from node to node", None),
    ];
    if graph.nodes.len() > LABELLED {
        rows[2].0 = "arrow: actions lead from node to node; its tooltip names them";
    }
    if !graph.path.is_empty() {
        rows.push(("the path to the finding's node", Some(PATH)));
    }
    if graph.finding.is_some() {
        rows.push(("the finding's node", Some(FINDING)));
    }
    rows
}

fn legend_lines(rows: &[(&str, Option<&str>)], corner: Point) -> Vec<String> {
    let mut lines = Vec::new();
    for (k, (text, mark)) in rows.iter().enumerate() {
        let mut at = corner + point(0.0, 14.0 + 20.0 * k as f64);
        if let Some(colour) = mark {
            let high = if *colour == PATH { 1.4 } else { 6.0 };
            let frame = Frame {
                middle: at + point(10.0, -4.0),
                half: point(10.0, high),
            };
            lines.push(svg::frame(&frame, &format!(r#" fill="{colour}""#)));
            at.x += 28.0;
        }
        lines.push(svg::text(at, text, LEGEND, ""));
    }
    grouped("legend", "", lines)
}

#[cfg(test)]
mod tests {
    use super::*;

    /// The drawing of a show, with its status.
    fn drawn(bytes: &[u8]) -> (String, Status) {
        let said = run(&crate::input::of(bytes.to_vec()).unwrap()).unwrap();
        assert!(!said.aside);
        (said.lines.collect::<Vec<_>>().join("\n"), said.status)
    }

    fn count(text: &str, part: &str) -> usize {
        text.matches(part).count()
    }

    #[test]
    fn of_house() {
        let (house, status) = drawn(include_bytes!("../../../shows/house.words"));
        assert_eq!(status, Status::Good);
        assert!(house.starts_with("<svg ") && house.ends_with("</svg>"));
        assert_eq!(count(&house, r#"class="node""#), 3);
        assert_eq!(count(&house, r#"class="edge""#), 7);
        assert_eq!(count(&house, r#"class="label""#), 7);
        assert_eq!(count(&house, r#"class="ring""#), 1);
        assert_eq!(count(&house, ">safe: nodes 3, edges 10<"), 1);
        assert_eq!(count(&house, PATH) + count(&house, FINDING), 0);
        assert_eq!(house, drawn(include_bytes!("../../../shows/house.words")).0);
    }

    #[test]
    fn of_a_finding() {
        let (bump, status) = drawn(include_bytes!("../../../shows/bump.words"));
        assert_eq!(status, Status::Findings);
        assert_eq!(count(&bump, &format!(r#"stroke="{PATH}""#)), 2);
        assert_eq!(count(&bump, &format!(r#"fill="{FINDING}""#)), 2);
    }

    /// 512 nodes, one on each ring, and no labels.
    #[test]
    fn of_many_nodes() {
        let (counter, status) = drawn(include_bytes!("../../../shows/counter.words"));
        assert_eq!(status, Status::Findings);
        assert_eq!(count(&counter, r#"class="node""#), 512);
        assert_eq!(count(&counter, r#"class="ring""#), 511);
        assert_eq!(count(&counter, r#"class="label""#), 0);
    }

    /// A start row that no state meets, shown by a lemma: the graph has no nodes.
    #[test]
    fn of_nothing() {
        let words: [u32; 8] = [
            0x1000_0001,
            0x4000_0001,
            0x2FFF_FFFF,
            0x5000_0000,
            0xF000_0000,
            0x9FF0_0000,
            0x8000_0000,
            0xA000_0001,
        ];
        let bytes: Vec<u8> = words.iter().flat_map(|word| word.to_le_bytes()).collect();
        let (nothing, status) = drawn(&bytes);
        assert_eq!(status, Status::Good);
        assert_eq!(count(&nothing, ">safe: nodes 0, edges 0<"), 1);
        assert_eq!(count(&nothing, "no nodes"), 1);
        assert_eq!(count(&nothing, "class=\"node\""), 0);
    }

    #[test]
    fn what_is_no_show() {
        for bytes in [&[] as &[u8], &[0], &[0; 65_537]] {
            let said = run(&crate::input::of(bytes.to_vec()).unwrap()).unwrap();
            assert!(said.aside && said.status == Status::Refused);
            assert_eq!(said.lines.count(), 1);
        }
    }
}
