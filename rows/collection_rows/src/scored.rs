//! Lines of sorted sets.

mod held;
mod lines;
mod refusals;
mod slabs;
mod twin;

pub use lines::{SortedSets, answer};
