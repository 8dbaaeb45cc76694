//! Lines of the map whose nodes stand in the blocks of a store.

mod held;
mod lines;
mod runs;

pub use held::Held;
pub use lines::answer;
