//! A value diagram as text for Graphviz.

use super::Figure;
use reference::diagram::Row;

const FAINT: &str = "#b8b8b8";

fn quoted(text: &str) -> String {
    text.replace('\\', "\\\\").replace('"', "\\\"")
}

/// True edges are solid, false edges dashed; leaves are boxes; leaf 0 and what leads to it is faint.
pub fn dot(figure: &Figure) -> String {
    let legend = format!("{}\\n#: row; solid: true; dashed: false; {}", quoted(&figure.title()), quoted(&figure.leaf_legend()));
    let mut text =
        format!("digraph value {{\n  label=\"{legend}\";\n  labelloc=b;\n  fontname=\"Helvetica\";\n  node [fontname=\"Helvetica\"];\n");
    for (number, row) in figure.diagram.rows().iter().enumerate().rev() {
        let lines = figure.lines(*row).iter().map(|line| quoted(line)).collect::<Vec<String>>().join("\\n");
        let faint = if figure.is_zero(number) { format!(", color=\"{FAINT}\", fontcolor=\"{FAINT}\"") } else { String::new() };
        match row {
            Row::Leaf(_) => text += &format!("  r{number} [shape=box, label=\"#{number}\\n{lines}\"{faint}];\n"),
            Row::Branch { yes, no, .. } => {
                text += &format!("  r{number} [shape=ellipse, label=\"#{number}\\n{lines}\"];\n");
                text += &edge(figure, number, *yes, "solid");
                text += &edge(figure, number, *no, "dashed");
            }
        }
    }
    text + "}\n"
}

fn edge(figure: &Figure, from: usize, to: usize, style: &str) -> String {
    let faint = if figure.is_zero(to) { format!(", color=\"{FAINT}\"") } else { String::new() };
    format!("  r{from} -> r{to} [style={style}{faint}];\n")
}
