//! Lines of sets.

mod held;
mod lines;
mod refusals;
mod slabs;
mod twin;

pub use lines::{Sets, answer};
