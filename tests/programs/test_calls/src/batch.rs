//! Calls of `dom_query`, which is all that this part uses, and many inputs at once. `test_calls
//! batch LINE ..` reads markup from standard input and prints the result of the call in each line;
//! `test_calls batch noted` prints the parse errors of the page on standard input; `test_calls
//! batch bulk WORD ..` reads many inputs, or makes streams fail.

mod asking;
mod encoded;
mod inputs;
mod streams;
mod web;

/// Runs the command in the words.
pub fn run(rt: &HostRuntime, words: &[String]) -> Option<()> {
    match words {
        [word, words @ ..] if word.as_str() == "bulk" => read_many(rt, words),
        [word] if word.as_str() == "noted" => asking::note_input(rt),
        _ => asking::answer_all(rt, words),
    }
}

/// Runs the command in the words after `bulk`.
fn read_many(rt: &HostRuntime, words: &[String]) -> Option<()> {
    let (word, words) = words.split_first()?;
    match word.as_str() {
        "inputs" => inputs::answer_all(rt, only(words)?),
        "pages" => inputs::read_pages(rt, only(words)?),
        "encoded" => encoded::read_all(rt, words),
        "streams" => streams::drive_all(rt, words),
        _ => None,
    }
}

/// Returns the word if there is exactly one.
fn only(words: &[String]) -> Option<&str> {
    match words {
        [word] => Some(word.as_str()),
        _ => None,
    }
}
