//! The test program: it makes calls of the libraries, and prints what they answer. `test_calls PART
//! WORD ..` does what the words ask for in the part of that name; the files of the parts say which
//! words they know. The exit status is 1 where the words ask for nothing that the part knows, or a
//! call that the others need fails. Rows with the expected output are in tests/rows/test_calls, in
//! a folder for each part.
#![tactic(auto)]

mod batch;
mod calls;
mod clean;
mod commonmark;
mod encodings;
mod lines;
mod queries;
mod times;

use crate::lines::words::arguments;
use std::process::ExitCode;

/// Does what the words ask for, of which the first names a part.
fn run(rt: &HostRuntime, words: &[String]) -> Option<()> {
    let (part, words) = words.split_first()?;
    match part.as_str() {
        "batch" => batch::run(rt, words),
        "calls" => calls::run(rt, words),
        "clean" => clean::run(rt, words),
        "commonmark" => commonmark::run(rt, words),
        "encodings" => encodings::run(rt, words),
        "queries" => queries::run(rt, words),
        "times" => times::run(rt, words),
        _ => None,
    }
}

fn main(rt: HostRuntime) -> ExitCode {
    match arguments(&rt) {
        Some(words) if run(&rt, &words).is_some() => ExitCode::from(0),
        _ => ExitCode::from(1),
    }
}
