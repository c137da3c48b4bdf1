//! Many inputs in one process. `test_calls batch bulk inputs KIND` reads inputs in hexadecimal from
//! standard input, one on each line, and prints one line for each. `test_calls batch bulk pages
//! WAY` does so with pages that are parsed in that way, and `test_calls batch bulk encoded SIZE
//! [LABEL]` with pages in any encoding, in pieces of that size or whole (0), which came with that
//! label or with none.

use crate::batch::web::show_bytes;
use dom_query::{Document, Matcher, parse_selector_list, run};
use std::alloc::Global;
use std::io::Read;
use std::str;

/// The markup that the scripts are run on.
const MARKUP: &str = "<p id=a>x</p>";

fn digit_of(byte: u8) -> Option<u8> {
    match byte {
        b'0'..=b'9' => Some(byte.wrapping_sub(b'0')),
        b'a'..=b'f' => Some(byte.wrapping_sub(b'a').wrapping_add(10)),
        _ => None,
    }
}

/// Returns the bytes that a line has in hexadecimal; `None` if it has another character.
pub fn bytes_of(alloc: Global, line: &str) -> Option<Vec<u8>> {
    let mut bytes = Vec::new(alloc);
    let mut is_second = false;
    let mut first: u8 = 0;
    for byte in line.as_bytes() {
        let digit = digit_of(*byte)?;
        if is_second {
            let value = first.wrapping_mul(16).wrapping_add(digit);
            bytes.push(value).ok()?;
        }
        first = digit;
        is_second = !is_second;
    }
    Some(bytes)
}

/// Prints how a run ends.
fn show_run(rt: &HostRuntime, markup: &[u8], script: &[u8]) -> Option<()> {
    let mut out: Vec<u8> = Vec::new(rt.alloc());
    match run(rt.alloc(), markup, script, &mut out) {
        Ok(()) => println!(rt; "done").ok(),
        Err(fault) => println!(rt; "{fault:?}").ok(),
    }
}

/// Prints the HTML of the document that is parsed, or why it is rejected.
fn show_document(rt: &HostRuntime, text: &str) -> Option<()> {
    match Document::parse(rt.alloc(), text) {
        Ok(document) => {
            let html = document.html().ok()?;
            println!(rt; "read {html}").ok()
        }
        Err(fault) => {
            let (kind, at) = (fault.kind, fault.at);
            println!(rt; "{kind:?} {at}").ok()
        }
    }
}

fn show_selector(rt: &HostRuntime, text: &str) -> Option<()> {
    match Matcher::new(rt.alloc(), text) {
        Ok(_) => println!(rt; "read").ok(),
        Err(fault) => println!(rt; "{fault:?}").ok(),
    }
}

/// Prints how many mini selectors are parsed, and how many bytes remain.
fn show_path(rt: &HostRuntime, text: &str) -> Option<()> {
    match parse_selector_list(rt.alloc(), text) {
        Ok((rest, list)) => {
            let (count, left) = (list.len(), rest.len());
            println!(rt; "read {count} {left}").ok()
        }
        Err(fault) => println!(rt; "{fault:?}").ok(),
    }
}

/// Prints what the bytes are parsed as. Bytes that are not UTF-8 are the markup of a run.
fn answer(rt: &HostRuntime, kind: &str, bytes: &[u8]) -> Option<()> {
    if kind == "script" {
        return show_run(rt, MARKUP.as_bytes(), bytes);
    }
    let Ok(text) = str::from_utf8(bytes) else {
        return show_run(rt, bytes, b"document");
    };
    match kind {
        "markup" => show_document(rt, text),
        "selector" => show_selector(rt, text),
        "path" => show_path(rt, text),
        _ => None,
    }
}

/// Reads standard input to its end.
pub fn input(rt: &HostRuntime) -> Option<String> {
    let mut text = String::new(rt.alloc());
    rt.stdin().read_to_string(&mut text).ok()?;
    Some(text)
}

/// Prints the result for each input.
pub fn answer_all(rt: &HostRuntime, kind: &str) -> Option<()> {
    let text = input(rt)?;
    for line in text.as_str().lines() {
        let bytes = bytes_of(rt.alloc(), line)?;
        answer(rt, kind, bytes.as_slice())?;
    }
    Some(())
}

/// Parses each input as a page, and prints it.
pub fn read_pages(rt: &HostRuntime, way: &str) -> Option<()> {
    let text = input(rt)?;
    for line in text.as_str().lines() {
        let bytes = bytes_of(rt.alloc(), line)?;
        show_bytes(rt, way, bytes.as_slice())?;
    }
    Some(())
}
