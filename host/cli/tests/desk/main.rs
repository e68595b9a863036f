//! The front end as a person uses it: its commands are run, and what they print and how they end is looked at.

mod common;
mod documents;
mod explain;
mod next;
mod picture;
mod plan_and_value;
mod questions;
mod replay;
mod report;
mod run;
mod troubles;
