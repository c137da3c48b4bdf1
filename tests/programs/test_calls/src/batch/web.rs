//! Pages of the web, and each way of parsing them.

use dom_query::{Document, Options, PageFault, PageParser, parse_page, parse_page_bytes};
use std::alloc::Global;
use std::str;

/// Options that collect parse errors. With them, tags are read character by character, and explicit
/// markup goes through tree construction, too.
pub const NOTING: Options = Options {
    scripting: false,
    max_depth: None,
    errors: true,
};

/// Parses the bytes of a page in pieces of this size.
fn in_pieces(alloc: Global, bytes: &[u8], size: usize) -> Result<Document, PageFault> {
    let mut parser = PageParser::new(alloc, Options::default())?;
    for piece in bytes.chunks(size) {
        parser.feed_bytes(piece)?;
    }
    parser.finish()
}

/// Parses the bytes of a page, followed by the text `é`.
fn mixed(alloc: Global, bytes: &[u8]) -> Result<Document, PageFault> {
    let mut parser = PageParser::new(alloc, Options::default())?;
    feed_mixed(&mut parser, bytes)?;
    parser.finish()
}

fn feed_mixed(parser: &mut PageParser, bytes: &[u8]) -> Result<(), PageFault> {
    parser.feed_bytes(bytes)?;
    parser.feed("é")
}

/// Parses the bytes of a page in the way with that name; returns `None` if the way is unknown, or
/// if it needs UTF-8 and the bytes are not.
fn read_by(alloc: Global, way: &str, bytes: &[u8]) -> Option<Result<Document, PageFault>> {
    match way {
        "whole" => Some(parse_page_bytes(alloc, bytes, Options::default())),
        "noted" => Some(parse_page(alloc, str::from_utf8(bytes).ok()?, NOTING)),
        "mixed" => Some(mixed(alloc, bytes)),
        _ => Some(in_pieces(alloc, bytes, way.parse::<usize>().ok()?.max(1))),
    }
}

/// Parses bytes in the way with that name, and prints the page.
pub fn show_bytes(rt: &HostRuntime, way: &str, bytes: &[u8]) -> Option<()> {
    match read_by(rt.alloc(), way, bytes)? {
        Ok(page) => show_page(rt, &page),
        Err(_) => None,
    }
}

/// Prints how many nodes a page has below its root, and its HTML.
fn show_page(rt: &HostRuntime, page: &Document) -> Option<()> {
    let count = page.root().descendants_it().count();
    let html = page.html().ok()?;
    println!(rt; "read {count} {html:?}").ok()
}
