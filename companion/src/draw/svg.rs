//! Elements of an SVG.
use crate::draw::geometry::{Curve, Frame, Point, ROUND};

/// A coordinate, with one decimal at the most.
pub fn number(value: f64) -> String {
    format!("{}", (value * 10.0).round() / 10.0 + 0.0)
}

fn pair(at: Point) -> String {
    format!("{} {}", number(at.x), number(at.y))
}

/// Text with what XML reserves written out.
fn escaped(text: &str) -> String {
    text.replace('&', "&amp;")
        .replace('<', "&lt;")
        .replace('>', "&gt;")
}

pub fn title(text: &str) -> String {
    format!("<title>{}</title>", escaped(text))
}

/// How wide a text is, with all characters equally wide.
pub fn width(text: &str, size: f64) -> f64 {
    0.6 * size * text.chars().count() as f64
}

/// A line of text that begins at a point, or has its middle there; and further attributes.
pub fn text(at: Point, line: &str, size: f64, more: &str) -> String {
    format!(
        r#"<text x="{}" y="{}" font-size="{}" textLength="{}" lengthAdjust="spacingAndGlyphs"{more}>{}</text>"#,
        number(at.x),
        number(at.y),
        number(size),
        number(width(line, size)),
        escaped(line)
    )
}

/// A box, with these further attributes.
pub fn frame(frame: &Frame, more: &str) -> String {
    let corner = frame.middle - frame.half;
    format!(
        r#"<rect x="{}" y="{}" width="{}" height="{}"{more}/>"#,
        number(corner.x),
        number(corner.y),
        number(2.0 * frame.half.x),
        number(2.0 * frame.half.y)
    )
}

/// The attribute for rounded corners.
pub fn rounded() -> String {
    format!(r#" rx="{}""#, number(ROUND))
}

/// The line of an arrow up to its head, and the head, which has its tip at the curve's end.
pub fn arrow(curve: &Curve, head: f64, colour: &str) -> String {
    let tip = curve.0[3];
    let [start, first, second, end] = curve.shortened(0.8 * head).0;
    let back = (end - tip).unit() * head;
    let side = back.right() * 0.4;
    format!(
        r#"<path d="M{} C{} {} {}"/><path class="head" d="M{} L{} L{} Z" fill="{colour}" stroke="none"/>"#,
        pair(start),
        pair(first),
        pair(second),
        pair(end),
        pair(tip),
        pair(tip + back + side),
        pair(tip + back - side)
    )
}

#[cfg(test)]
mod tests {
    use super::*;
    use crate::draw::geometry::point;

    #[test]
    fn numbers_have_one_decimal() {
        for (value, text) in [
            (0.0, "0"),
            (-0.01, "0"),
            (1.25, "1.3"),
            (-3.04, "-3"),
            (1234.56, "1234.6"),
        ] {
            assert_eq!(number(value), text);
        }
    }

    #[test]
    fn texts_are_escaped_and_have_their_width() {
        let line = text(point(1.0, 2.0), "a<b>&\u{ac}", 10.0, "");
        assert!(line.ends_with(">a&lt;b&gt;&amp;\u{ac}</text>"));
        assert!(line.contains(r#"textLength="36""#));
        assert_eq!(title("<"), "<title>&lt;</title>");
    }

    #[test]
    fn heads_have_their_tips_at_the_end() {
        let curve = Curve::pulled(point(0.0, 0.0), point(50.0, 0.0), point(100.0, 0.0));
        let drawn = arrow(&curve, 10.0, "red");
        assert!(drawn.starts_with(r#"<path d="M0 0 C30.7 0 61.3 0 92 0"/>"#));
        assert!(drawn.contains(r#"d="M100 0 L90 -4 L90 4 Z""#));
    }
}
