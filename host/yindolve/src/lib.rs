//! A value engine on first-order decision diagrams in which every function is proved: this crate is the safe face of its static library.
//!
//! A [`Session`] holds a model, looks ahead by backups, cuts and reductions, values one state after another, names the move to make, replays a log, and counts states by their values; [`run`] answers a whole text, as
//! the program does. Below them stand the diagrams themselves: a [`Listing`] has rows that test atoms, such as `stock(hub)`, and leaves
//! that are numbers, and a [`Space`] adds, multiplies and maximises listings, regresses them through an action's outcome, cuts and reduces
//! away what no value needs, and values them in a [`State`].
//!
//! The library is proved to answer and to write what its definitions say, on all words; the calls' refusals, each a
//! [`Refusal`], are part of that. What is believed and not proved are this crate's few lines around each call, which lend the
//! library slices that do not overlap. The texts, their forms and each refusal's remedies are described in `docs/REFERENCE.md`.
//!
//! # A model and its values
//!
//! ```
//! use yindolve::Session;
//!
//! let model = include_str!("../../../examples/sample.txt");
//! let mut session = Session::load(model)?;
//! for _ in 0..2 {
//!     session.backup()?;
//!     session.cut_all()?;
//! }
//! let state = session.state(2).is("hub", 0)?.fact("stock", &[1])?.finish()?;
//! let value = session.value(&state)?;
//! assert_eq!(format!("{value} = {}", value.to_f64()), "195/32 = 6.09375");
//! # Ok::<(), Box<dyn std::error::Error>>(())
//! ```
//!
//! # Diagrams
//!
//! A branch is worth 10 while some part is in stock, and 5 while the van is here. What are both worth together?
//!
//! ```
//! use yindolve::{fact, Arities, Label, Listing, Refusal, Row, Space, State, Term};
//!
//! // predicate 1, stock, is about one object; predicate 2, here, about none
//! let arities = Arities::new(&[1, 0])?;
//! let stock = Label::new(1, &[Term::Variable(0)]);
//! let here = Label::new(2, &[]);
//! let if_stock = Listing::from_rows(&arities, [Row::Leaf(10), Row::Leaf(0), Row::Branch { label: stock, yes: 0, no: 1 }])?;
//! let if_here = Listing::from_rows(&arities, [Row::Leaf(5), Row::Leaf(0), Row::Branch { label: here, yes: 0, no: 1 }])?;
//!
//! let mut space = Space::new(arities);
//! let both = space.sum_apart(&if_stock, &if_here)?.listing;
//!
//! // three parts, of which the last is in stock; the van is not here
//! let mut state = State { objects: 3, facts: vec![fact(1, &[2])], ..State::default() };
//! assert_eq!(space.value(&both, &state)?, 10);
//! state.facts.push(fact(2, &[]));
//! assert_eq!(space.value(&both, &state)?, 15);
//! # Ok::<(), Refusal>(())
//! ```
//!
//! # Building
//!
//! The static library is built by `rt lib` in `crates/c_library` of the repository, which writes
//! `out/libc_library.a` there; `install.sh` installs it as `libyindolve.a`. The variable `YINDOLVE_LIBRARY` may name either
//! file, or a folder that has one. It runs on Linux on x86-64. A call uses less than a megabyte of stack and touches it page by
//! page, so that a thread with too little of it ends as by any overflow of its stack.

#![warn(missing_docs)]

pub mod calls;
mod ffi;
mod listing;
mod memory;
mod refusal;
mod saved;
mod session;
mod space;
mod state;
mod text;
mod value;
mod vocabulary;

pub use listing::{Arities, Label, Listing, Row, Term};
pub use memory::ANSWER_BYTES;
pub use refusal::Refusal;
pub use saved::Damaged;
pub use session::{AllCut, Refused, Session};
pub use space::{Combined, Cut, Space, Truths};
pub use state::{fact, State, StateBuilder};
pub use text::{run, run_into, Answer, BackupDone, Count, CutDone, Full, Log, Move, ReduceDone};
pub use value::{Fraction, Value};
pub use vocabulary::{Action, Vocabulary};
