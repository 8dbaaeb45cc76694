//! Lines of stream nodes: the node of the key 5-0.

mod lines;
mod reading;
mod writing;

pub use lines::answer;
