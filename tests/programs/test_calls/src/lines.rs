//! Help for the parts of the test program: splitting lines of input into words, reading names and
//! attributes in them, and printing answers.

pub mod names;
pub mod printing;
pub mod words;
