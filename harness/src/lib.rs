//! 01 twice: an ordinary Rust program, and the proved library, asked the same questions.

pub mod answers;
pub mod generate;
pub mod proved;
pub mod random;
pub mod reference;
pub mod tally;
pub mod vectors;
