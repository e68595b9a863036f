//! Trees of texts, written short.

use reference::diagram::Diagram;
use reference::terms::Term;
use reference::tree::Tree;

pub fn number(value: u64) -> Tree {
    Tree::Number(value)
}

pub fn when(predicate: u64, terms: &[Term], yes: Tree, no: Tree) -> Tree {
    Tree::If { predicate, terms: terms.to_vec(), yes: Box::new(yes), no: Box::new(no) }
}

pub fn read(tree: Tree) -> Diagram {
    tree.read().expect("a small diagram")
}
