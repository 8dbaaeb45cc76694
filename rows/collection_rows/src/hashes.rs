//! Lines of hashes.

mod held;
mod lines;
mod refusals;
mod slabs;
mod twin;

pub use lines::{Hashes, answer};
