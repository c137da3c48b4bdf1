//! Lines, each of which calls something that `dom_query` adds to the crates below it.

use crate::batch::inputs::input;
use crate::batch::streams::{serialize, write_failing};
use crate::batch::web::NOTING;
use dom_query::{
    Document, DocumentMd, DocumentSelect, EditFault, RunFault, SelectionMd, SelectorFault,
    parse_page,
};
use std::fmt::Display;

const RUNS: [RunFault; 6] = [
    RunFault::BadScript(12),
    RunFault::BadMarkup,
    RunFault::Edit(3, EditFault::Cycle),
    RunFault::TooManyNodes,
    RunFault::Memory,
    RunFault::Write,
];

/// Prints the value of a call, or its error.
pub fn show_read<D: Display + Drop, F: Display + Drop>(
    rt: &HostRuntime,
    what: &str,
    read: Result<D, F>,
) -> Option<()> {
    match read {
        Ok(value) => println!(rt; "{what}: {value}").ok(),
        Err(fault) => println!(rt; "{what}: {fault}").ok(),
    }
}

/// Makes the call in each line on the document that is read from standard input.
pub fn answer_all(rt: &HostRuntime, lines: &[String]) -> Option<()> {
    let markup = input(rt)?;
    let document = Document::parse(rt.alloc(), markup.as_str()).ok()?;
    for line in lines {
        let line = line.as_str();
        let (word, rest) = line.split_once(' ').unwrap_or((line, ""));
        answer(rt, &document, word, rest)?;
    }
    Some(())
}

fn answer(rt: &HostRuntime, document: &Document, word: &str, rest: &str) -> Option<()> {
    match word {
        "faults" => print_faults(rt),
        "noted" => print_noted(rt, rest),
        "state" => print_state(rt, document),
        "texts" => print_texts(rt, document),
        "texts-without" => print_without(rt, document, rest),
        "selected" => print_selected(rt, document, rest),
        "serialize" => serialize(rt, &document.tree, rest),
        "writes" => write_failing(rt, &document.tree, rest),
        _ => None,
    }
}

/// Prints the message of each error of a run.
fn print_faults(rt: &HostRuntime) -> Option<()> {
    for fault in &RUNS {
        println!(rt; "{fault}").ok()?;
    }
    Some(())
}

/// Prints the parse errors of a page: `PAGE`.
fn print_noted(rt: &HostRuntime, page: &str) -> Option<()> {
    match parse_page(rt.alloc(), page, NOTING) {
        Ok(document) => print_errors(rt, &document),
        Err(fault) => println!(rt; "{fault}").ok(),
    }
}

fn print_errors(rt: &HostRuntime, document: &Document) -> Option<()> {
    for error in document.errors.as_slice() {
        println!(rt; "{error}").ok()?;
    }
    Some(())
}

/// Prints the parse errors of the page on standard input.
pub fn note_input(rt: &HostRuntime) -> Option<()> {
    let page = input(rt)?;
    print_noted(rt, page.as_str())
}

/// Prints the whole tree of the document.
fn print_state(rt: &HostRuntime, document: &Document) -> Option<()> {
    println!(rt; "{:?}", document.tree).ok()
}

/// Prints the formatted text of the document, and its Markdown.
fn print_texts(rt: &HostRuntime, document: &Document) -> Option<()> {
    show_read(rt, "formatted_text", document.formatted_text())?;
    show_read(rt, "md", document.md(None))
}

/// Prints the Markdown of the document without the elements with some names: `NAME NAME ..`.
fn print_without(rt: &HostRuntime, document: &Document, line: &str) -> Option<()> {
    let names = line.split(' ').collect::<Vec<&str>>(rt.alloc()).ok()?;
    show_read(rt, "md", document.md(Some(&names)))
}

/// Prints the formatted text of the nodes that a selector selects: `SELECTOR`.
fn print_selected(rt: &HostRuntime, document: &Document, line: &str) -> Option<()> {
    match document.select(line) {
        Ok(all) => show_read(rt, "formatted_text", all.formatted_text()),
        Err(SelectorFault::Memory) => println!(rt; "out of memory").ok(),
        Err(_) => None,
    }
}
