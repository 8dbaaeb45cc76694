//! Lines of lists of scores.

mod held;
mod lines;
mod runs;

pub use held::Held;
pub use lines::answer;
