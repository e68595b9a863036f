//! A value diagram as an SVG picture that needs nothing from elsewhere.

use super::layout::{layout, Layout, Piece};
use super::{escaped, Figure};
use reference::diagram::Row;

const MARGIN: f64 = 24.0;
const LETTER: f64 = 7.3;
const LINE: f64 = 17.0;
const TITLE_HEIGHT: f64 = 34.0;
const LEGEND_HEIGHT: f64 = 50.0;
const LEGEND_WIDTH: f64 = 660.0;
/// How far left and right of a node's middle its true and false edges begin.
const SIDE: f64 = 9.0;

const STYLE: &str = "\
.yd text{font-family:Helvetica,Arial,sans-serif;font-size:13px;fill:#1c1c1c;text-anchor:middle}\
.yd .left{text-anchor:start}.yd .title{font-size:16px;font-weight:bold}.yd .row{font-size:10px;fill:#5a6570}\
.yd .scaled{font-size:11px;fill:#3d4852}.yd rect.test{fill:#eef4fb;stroke:#3a6ea5}.yd rect.leaf{fill:#fdf3dc;stroke:#a57c24}\
.yd path{fill:none;stroke-width:1.4}.yd .yes{stroke:#1f5fa8}.yd .no{stroke:#b3541e;stroke-dasharray:6 4}.yd .faint{opacity:.3}";

/// The picture of a figure, its title above and its legend below.
pub fn svg(figure: &Figure) -> String {
    let lines: Vec<Vec<String>> = figure.diagram.rows().iter().map(|row| figure.lines(*row)).collect();
    let widths: Vec<f64> = lines.iter().map(|lines| node_width(lines)).collect();
    let tallest = lines.iter().map(Vec::len).max().unwrap_or(1);
    let layout = layout(figure.diagram, &widths, tallest as f64 * LINE + 10.0);
    let (width, height) = (layout.width.max(LEGEND_WIDTH) + 2.0 * MARGIN, layout.height() + TITLE_HEIGHT + LEGEND_HEIGHT + 2.0 * MARGIN);
    let left = MARGIN + (layout.width.max(LEGEND_WIDTH) - layout.width) / 2.0;
    let size = format!("width=\"{width:.0}\" height=\"{height:.0}\" viewBox=\"0 0 {width:.0} {height:.0}\"");
    let mut text = format!("<svg xmlns=\"http://www.w3.org/2000/svg\" class=\"yd\" role=\"img\" {size}>\n");
    let title = escaped(&figure.title());
    text += &format!("<title>{title}</title>\n<style>{STYLE}</style>\n<rect width=\"100%\" height=\"100%\" fill=\"#ffffff\"/>\n");
    text += &format!("<text class=\"title left\" x=\"{MARGIN}\" y=\"{:.0}\">{title}</text>\n", MARGIN + 14.0);
    text += &format!("<g transform=\"translate({left:.1} {:.1})\">\n", MARGIN + TITLE_HEIGHT);
    text += &edges(figure, &layout);
    text += &nodes(figure, &layout, &lines);
    text += "</g>\n";
    text += &legend(figure, MARGIN, height - MARGIN - LEGEND_HEIGHT + 26.0);
    text + "</svg>\n"
}

fn node_width(lines: &[String]) -> f64 {
    let letters = lines.iter().map(|line| line.chars().count()).max().unwrap_or(0);
    letters as f64 * LETTER + 34.0
}

/// First what is faint, then the rest above it.
fn edges(figure: &Figure, layout: &Layout) -> String {
    let (faint, strong): (Vec<Piece>, Vec<Piece>) = layout.pieces.iter().partition(|piece| figure.is_zero(piece.target));
    faint.iter().map(|piece| edge(layout, piece, " faint")).chain(strong.iter().map(|piece| edge(layout, piece, ""))).collect()
}

/// A piece of an edge: straight through the layer of a bend, and in a curve to the next layer.
fn edge(layout: &Layout, piece: &Piece, faint: &str) -> String {
    let (from, to) = (layout.vertices[piece.from], layout.vertices[piece.to]);
    let class = if piece.side { "yes" } else { "no" };
    let top = layout.top(from.layer);
    let begin = top + layout.layer_height;
    let end = layout.top(to.layer);
    let middle = (begin + end) / 2.0;
    let side = if piece.side { -SIDE } else { SIDE };
    let (x, through) = match from.row {
        Some(_) => (from.x + side, String::new()),
        None => (from.x, format!("M{:.1} {top:.1}V{begin:.1}", from.x)),
    };
    format!(
        "<path class=\"{class}{faint}\" d=\"{through}M{x:.1} {begin:.1}C{x:.1} {middle:.1} {0:.1} {middle:.1} {0:.1} {end:.1}\"/>\n",
        to.x
    )
}

fn nodes(figure: &Figure, layout: &Layout, lines: &[Vec<String>]) -> String {
    let node = |vertex: &super::layout::Vertex| {
        let row = vertex.row?;
        let faint = if figure.is_zero(row) { " class=\"faint\"" } else { "" };
        let (left, top) = (vertex.x - vertex.width / 2.0, layout.top(vertex.layer));
        let (class, round) = match figure.diagram.rows()[row] {
            Row::Leaf(_) => ("leaf", 2),
            Row::Branch { .. } => ("test", 14),
        };
        let mut text = format!(
            "<g{faint}><rect class=\"{class}\" x=\"{left:.1}\" y=\"{top:.1}\" width=\"{:.1}\" height=\"{:.1}\" rx=\"{round}\"/>",
            vertex.width, layout.layer_height
        );
        text += &format!("<text class=\"row left\" x=\"{:.1}\" y=\"{:.1}\">{row}</text>", left + 6.0, top + 12.0);
        let first = top + layout.layer_height / 2.0 + 4.5 - (lines[row].len() as f64 - 1.0) * LINE / 2.0;
        for (i, line) in lines[row].iter().enumerate() {
            let class = if i > 0 { " class=\"scaled\"" } else { "" };
            text += &format!("<text{class} x=\"{:.1}\" y=\"{:.1}\">{}</text>", vertex.x + 4.0, first + i as f64 * LINE, escaped(line));
        }
        Some(text + "</g>\n")
    };
    layout.vertices.iter().filter_map(node).collect()
}

fn legend(figure: &Figure, left: f64, y: f64) -> String {
    let line = |class: &str, x: f64| format!("<path class=\"{class}\" d=\"M{x:.0} {:.0}h34\"/>", y - 4.0);
    let word = |x: f64, text: &str| format!("<text class=\"left\" x=\"{x:.0}\" y=\"{y:.0}\">{}</text>", escaped(text));
    let second = |text: &str| format!("<text class=\"left\" x=\"{left:.0}\" y=\"{:.0}\">{}</text>", y + 20.0, escaped(text));
    [
        line("yes", left),
        word(left + 40.0, "true"),
        line("no", left + 84.0),
        word(left + 124.0, "false"),
        line("yes faint", left + 176.0),
        word(left + 216.0, "to leaf 0"),
        word(left + 290.0, "small number: the row; the root is on top"),
        second(&format!("{}; ?v0, ?v1, ..: the objects that reach most", figure.leaf_legend())),
    ]
    .join("")
        + "\n"
}
