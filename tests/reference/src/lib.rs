//! The independent test program.
//!
//! `model` is the customer's rule book as a plain program, and `paper` compares it with the numbers that the papers
//! print. `cases` makes lists of calls; `script` holds these calls and their notation, which tests/reference/README.md
//! describes. `replay` writes cases to a file, with the answers that the model returns. `live` runs cases on the library
//! and on the model side by side.

pub mod cases;
#[cfg(feature = "live")]
pub mod live;
pub mod model;
pub mod paper;
pub mod replay;
pub mod rng;
pub mod script;
pub mod shrink;
