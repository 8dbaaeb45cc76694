//! Lines of tables of scores.

mod held;
mod lines;
mod refusals;
mod thousand;
mod twin;

pub use held::Held;
pub use lines::answer;
