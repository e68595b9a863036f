//! What a reader has to believe: all definitions that the public contracts and the headline theorems rest on, followed name by name through the sources. A program and
//! not a shell script, since bound variables, brackets and `use` lines have to be read; cargo is needed for the other host tests anyway.

pub mod code;
pub mod follow;
pub mod names;
pub mod pages;
pub mod report;
pub mod repository;
pub mod roots;
pub mod specs;
pub mod tokens;
