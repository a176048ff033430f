//! Which tests of a Cargo workspace run: the proved program `test_select`, as calls.
//!
//! [`run`] runs the program on words and [`Files`], and answers its [`Output`]. On it stand calls with typed
//! answers, as [`Question::tests`]. Nothing is read from the disk, and nothing is kept between two calls.

mod outcome;
mod question;
mod refusal;

pub use outcome::{run, Files, Output};
pub use question::{changed, BinaryId, Explanation, Feature, Question, TestName, Verdict};
pub use refusal::Refusal;
