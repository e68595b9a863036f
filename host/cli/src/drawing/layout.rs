//! Where the nodes of a diagram stand: in layers from the root down, leaves on the last, few crossings, edges nearly straight.

use reference::diagram::{Diagram, Row};
use std::collections::BTreeMap;

const GAP: f64 = 22.0;
const LAYER_GAP: f64 = 46.0;
const BEND_WIDTH: f64 = 6.0;
const ORDER_SWEEPS: usize = 16;
const PLACE_SWEEPS: usize = 12;

/// A node of a row, or a bend of the edges of one side that pass a layer on their way to one row.
#[derive(Clone, Copy, Debug, PartialEq)]
pub struct Vertex {
    pub row: Option<usize>,
    pub layer: usize,
    pub width: f64,
    /// The middle.
    pub x: f64,
}

/// A piece of an edge from one layer to the next.
#[derive(Clone, Copy, Debug, PartialEq, Eq, PartialOrd, Ord)]
pub struct Piece {
    pub from: usize,
    pub to: usize,
    pub side: bool,
    /// The row that the edge leads to.
    pub target: usize,
}

pub struct Layout {
    pub vertices: Vec<Vertex>,
    pub pieces: Vec<Piece>,
    pub layers: Vec<Vec<usize>>,
    pub width: f64,
    pub layer_height: f64,
}

impl Layout {
    /// The top of a layer.
    pub fn top(&self, layer: usize) -> f64 {
        layer as f64 * (self.layer_height + LAYER_GAP)
    }

    pub fn height(&self) -> f64 {
        self.top(self.layers.len() - 1) + self.layer_height
    }
}

/// Lays a diagram out whose row nodes have these widths.
pub fn layout(diagram: &Diagram, widths: &[f64], layer_height: f64) -> Layout {
    let mut graph = Graph::new(diagram, widths);
    graph.order();
    graph.place();
    let width = graph.vertices.iter().map(|vertex| vertex.x + vertex.width / 2.0).fold(0.0, f64::max);
    Layout { vertices: graph.vertices, pieces: graph.pieces, layers: graph.layers, width, layer_height }
}

/// The longest way from the root to each row; leaves stand below all.
fn depths(diagram: &Diagram) -> Vec<usize> {
    let mut depths = vec![0; diagram.rows().len()];
    for (number, row) in diagram.rows().iter().enumerate().rev() {
        if let Row::Branch { yes, no, .. } = *row {
            for child in [yes, no] {
                depths[child] = depths[child].max(depths[number] + 1);
            }
        }
    }
    let last = depths.iter().copied().max().unwrap_or(0);
    for (number, row) in diagram.rows().iter().enumerate() {
        if matches!(row, Row::Leaf(_)) {
            depths[number] = last;
        }
    }
    depths
}

struct Graph {
    vertices: Vec<Vertex>,
    pieces: Vec<Piece>,
    layers: Vec<Vec<usize>>,
    /// The neighbours of each vertex above and below it.
    above: Vec<Vec<usize>>,
    below: Vec<Vec<usize>>,
}

impl Graph {
    fn new(diagram: &Diagram, widths: &[f64]) -> Graph {
        let depths = depths(diagram);
        let vertex = |(row, layer): (usize, &usize)| Vertex { row: Some(row), layer: *layer, width: widths[row], x: 0.0 };
        let vertices: Vec<Vertex> = depths.iter().enumerate().map(vertex).collect();
        let mut graph = Graph { vertices, pieces: Vec::new(), layers: Vec::new(), above: Vec::new(), below: Vec::new() };
        graph.add_pieces(diagram, &depths);
        graph.link();
        graph.walk(diagram.root());
        graph
    }

    /// Edges of the same side to the same row share their bends.
    fn add_pieces(&mut self, diagram: &Diagram, depths: &[usize]) {
        let mut bends: BTreeMap<(usize, bool, usize), usize> = BTreeMap::new();
        for (number, row) in diagram.rows().iter().enumerate().rev() {
            let Row::Branch { yes, no, .. } = *row else { continue };
            for (side, target) in [(true, yes), (false, no)] {
                let mut from = number;
                for layer in depths[number] + 1..depths[target] {
                    let to = *bends.entry((target, side, layer)).or_insert_with(|| {
                        self.vertices.push(Vertex { row: None, layer, width: BEND_WIDTH, x: 0.0 });
                        self.vertices.len() - 1
                    });
                    self.pieces.push(Piece { from, to, side, target });
                    from = to;
                }
                self.pieces.push(Piece { from, to: target, side, target });
            }
        }
        self.pieces.sort();
        self.pieces.dedup();
    }

    fn link(&mut self) {
        self.above = vec![Vec::new(); self.vertices.len()];
        self.below = vec![Vec::new(); self.vertices.len()];
        let mut pieces = self.pieces.clone();
        pieces.sort_by_key(|piece| (piece.from, !piece.side));
        for piece in pieces {
            self.below[piece.from].push(piece.to);
            self.above[piece.to].push(piece.from);
        }
    }

    /// The first order in each layer: as a walk from the root, true side first, meets the vertices.
    fn walk(&mut self, root: usize) {
        let last = self.vertices.iter().map(|vertex| vertex.layer).max().unwrap_or(0);
        self.layers = vec![Vec::new(); last + 1];
        let mut seen = vec![false; self.vertices.len()];
        let mut open = vec![root];
        while let Some(at) = open.pop() {
            if !std::mem::replace(&mut seen[at], true) {
                self.layers[self.vertices[at].layer].push(at);
                open.extend(self.below[at].iter().rev());
            }
        }
    }

    /// Sweeps down and up, each vertex to the mean of its neighbours' places; the order with the fewest crossings stays.
    fn order(&mut self) {
        let mut best = (self.crossings(), self.layers.clone());
        for sweep in 0..ORDER_SWEEPS {
            let down = sweep % 2 == 0;
            let count = self.layers.len();
            for step in 1..count {
                let layer = if down { step } else { count - 1 - step };
                self.sort_layer(layer, down);
            }
            let crossings = self.crossings();
            if crossings < best.0 {
                best = (crossings, self.layers.clone());
            }
        }
        self.layers = best.1;
    }

    fn sort_layer(&mut self, layer: usize, by_above: bool) {
        let places = self.places();
        let mean = |vertex: usize| {
            let neighbours = if by_above { &self.above[vertex] } else { &self.below[vertex] };
            let sum: usize = neighbours.iter().map(|other| places[*other]).sum();
            if neighbours.is_empty() {
                places[vertex] as f64
            } else {
                sum as f64 / neighbours.len() as f64
            }
        };
        let mut sorted: Vec<(f64, usize)> = self.layers[layer].iter().map(|vertex| (mean(*vertex), *vertex)).collect();
        sorted.sort_by(|a, b| a.0.total_cmp(&b.0));
        self.layers[layer] = sorted.into_iter().map(|(_, vertex)| vertex).collect();
    }

    /// Each vertex's place in its layer.
    fn places(&self) -> Vec<usize> {
        let mut places = vec![0; self.vertices.len()];
        for layer in &self.layers {
            for (place, vertex) in layer.iter().enumerate() {
                places[*vertex] = place;
            }
        }
        places
    }

    fn crossings(&self) -> usize {
        let places = self.places();
        self.layers.iter().map(|layer| self.crossings_below(layer, &places)).sum()
    }

    /// Pieces sorted by their upper ends cross where their lower ends are out of order.
    fn crossings_below(&self, layer: &[usize], places: &[usize]) -> usize {
        let mut counts: Vec<usize> = Vec::new();
        let mut crossings = 0;
        for vertex in layer {
            let mut ends: Vec<usize> = self.below[*vertex].iter().map(|to| places[*to]).collect();
            ends.sort_unstable();
            for end in &ends {
                crossings += counts.iter().skip(end + 1).sum::<usize>();
            }
            for end in ends {
                if counts.len() <= end {
                    counts.resize(end + 1, 0);
                }
                counts[end] += 1;
            }
        }
        crossings
    }

    /// Sweeps that move each layer's vertices towards their neighbours and keep them apart.
    fn place(&mut self) {
        for layer in 0..self.layers.len() {
            let wanted = vec![0.0; self.layers[layer].len()];
            self.set_layer(layer, &wanted);
        }
        for sweep in 0..PLACE_SWEEPS {
            let count = self.layers.len();
            for step in 0..count {
                let layer = if sweep % 2 == 0 { step } else { count - 1 - step };
                let wanted: Vec<f64> = self.layers[layer].iter().map(|vertex| self.wanted(*vertex)).collect();
                self.set_layer(layer, &wanted);
            }
        }
        let left = self.vertices.iter().map(|vertex| vertex.x - vertex.width / 2.0).fold(f64::MAX, f64::min);
        for vertex in &mut self.vertices {
            vertex.x -= left;
        }
    }

    fn wanted(&self, vertex: usize) -> f64 {
        let neighbours = self.above[vertex].iter().chain(&self.below[vertex]);
        let (sum, count) = neighbours.fold((0.0, 0), |(sum, count), other| (sum + self.vertices[*other].x, count + 1));
        if count == 0 {
            self.vertices[vertex].x
        } else {
            sum / f64::from(count)
        }
    }

    fn set_layer(&mut self, layer: usize, wanted: &[f64]) {
        let widths: Vec<f64> = self.layers[layer].iter().map(|vertex| self.vertices[*vertex].width).collect();
        let placed = apart(wanted, &widths);
        for (vertex, x) in self.layers[layer].clone().into_iter().zip(placed) {
            self.vertices[vertex].x = x;
        }
    }
}

/// The places nearest to the wanted ones, in the same order and so far apart that the widths fit: neighbours that are too near are pooled.
fn apart(wanted: &[f64], widths: &[f64]) -> Vec<f64> {
    let mut offsets = vec![0.0];
    for pair in widths.windows(2) {
        offsets.push(offsets[offsets.len() - 1] + (pair[0] + pair[1]) / 2.0 + GAP);
    }
    let mut pools: Vec<(f64, usize)> = Vec::new();
    for (wanted, offset) in wanted.iter().zip(&offsets) {
        let mut pool = (wanted - offset, 1);
        while let Some((mean, count)) = pools.last().copied().filter(|last| last.0 > pool.0) {
            pools.pop();
            pool = ((mean * count as f64 + pool.0 * pool.1 as f64) / (count + pool.1) as f64, count + pool.1);
        }
        pools.push(pool);
    }
    let means = pools.into_iter().flat_map(|(mean, count)| std::iter::repeat_n(mean, count));
    means.zip(&offsets).map(|(mean, offset)| mean + offset).collect()
}

#[cfg(test)]
mod tests {
    use super::*;
    use reference::diagram::Space;
    use reference::terms::Label;

    #[test]
    fn vertices_stay_apart_and_in_order() {
        let placed = apart(&[0.0, 0.0, 100.0, 10.0], &[10.0, 10.0, 20.0, 10.0]);
        for (pair, distance) in placed.windows(2).zip([10.0 + GAP, 15.0 + GAP, 15.0 + GAP]) {
            assert!(pair[1] - pair[0] >= distance - 1e-9, "{placed:?}");
        }
    }

    #[test]
    fn every_row_has_its_place() {
        let mut space = Space::new();
        let zero = space.form(Row::Leaf(0)).unwrap();
        let ten = space.form(Row::Leaf(10)).unwrap();
        let lower = space.form(Row::Branch { label: Label::pack(2, &[]), yes: ten, no: zero }).unwrap();
        let root = space.form(Row::Branch { label: Label::pack(1, &[]), yes: lower, no: zero }).unwrap();
        let diagram = space.diagram(root);
        let layout = layout(&diagram, &[30.0; 4], 20.0);
        assert_eq!(layout.layers.len(), 3);
        let rows = layout.vertices.iter().filter(|vertex| vertex.row.is_some()).count();
        assert_eq!((rows, layout.vertices.len()), (4, 5));
        for layer in &layout.layers {
            for pair in layer.windows(2) {
                assert!(layout.vertices[pair[0]].x < layout.vertices[pair[1]].x);
            }
        }
    }
}
