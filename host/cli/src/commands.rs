//! One module for each command.

pub mod best;
pub mod count;
pub mod explain;
pub mod next;
pub mod picture;
pub mod plan;
pub mod replay;
pub mod report;
pub mod run;
pub mod value;
