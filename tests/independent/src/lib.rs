//! Sequence tables over a finite field, written a second time in plain Rust.
//!
//! The verified library is held against this one. It was written from the documents alone, and takes other ways where
//! there are some: logarithms for bytes, a walk by levels for comparing, samples at test words for reducing, and a
//! reader that is driven by a list of what is due.

pub mod compare;
pub mod field;
pub mod linear;
pub mod making;
pub mod pack;
pub mod prng;
pub mod reduce;
pub mod report;
pub mod script;
pub mod shelf;
pub mod table;
pub mod text;
pub mod vectors;
