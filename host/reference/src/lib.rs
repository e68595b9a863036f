//! An independent implementation of document 01, and of document 02 (L1, L2, L4 to L13), for tests: plain and slow, one module for each of its sections.

pub mod bellman;
pub mod best;
pub mod calls;
pub mod combine;
pub mod cut;
pub mod declarations;
pub mod diagram;
pub mod explain;
pub mod form;
pub mod listing;
pub mod mdp;
pub mod names;
pub mod reduce;
pub mod refusal;
pub mod regress;
pub mod replay;
pub mod session;
pub mod slips;
pub mod spread;
pub mod state;
pub mod tables;
pub mod terms;
pub mod text;
pub mod tree;
pub mod weights;
