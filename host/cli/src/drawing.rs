//! Value diagrams as pictures, and growth as a plot.

pub mod dot;
pub mod layout;
pub mod plot;
pub mod svg;

use reference::diagram::{Diagram, Row};
use reference::explain::counted;
use reference::names::Names;
use yindolve::Fraction;

/// A value diagram with the names of its model.
pub struct Figure<'a> {
    pub diagram: &'a Diagram,
    pub names: Names<'a>,
    /// k, the steps looked ahead, and S^k.
    pub steps: u64,
    pub scale: u64,
}

impl Figure<'_> {
    /// What stands in the node of a row: a test, or a leaf and under it its scaled value.
    fn lines(&self, row: Row) -> Vec<String> {
        match row {
            Row::Branch { label, .. } => vec![self.names.label(label)],
            Row::Leaf(value) if self.scale == 1 => vec![value.to_string()],
            Row::Leaf(value) => vec![value.to_string(), format!("= {}", self.scaled(value))],
        }
    }

    /// A leaf in the units of the reward: exact where three places do, else rounded.
    fn scaled(&self, leaf: u64) -> String {
        let fraction = Fraction::new(leaf, self.scale);
        let decimal = fraction.decimal(3);
        match decimal.trim_end_matches('0').trim_end_matches('.') {
            "" => "0".into(),
            short => short.to_string(),
        }
    }

    fn title(&self) -> String {
        let (steps, rows) = (counted(self.steps as usize, "step"), counted(self.diagram.rows().len(), "row"));
        format!("Value diagram, {steps} ahead: {rows}")
    }

    fn leaf_legend(&self) -> String {
        match self.scale {
            1 => "leaf: the value".into(),
            scale => format!("leaf: V, and below V / S^k with S^k = {scale}"),
        }
    }

    fn is_zero(&self, row: usize) -> bool {
        self.diagram.rows()[row] == Row::Leaf(0)
    }
}

/// Text where &, < and > stand for themselves.
pub fn escaped(text: &str) -> String {
    text.replace('&', "&amp;").replace('<', "&lt;").replace('>', "&gt;").replace('"', "&quot;")
}
