//! Pages in any encoding, whole and in pieces.

use crate::batch::inputs::{bytes_of, input};
use dom_query::{Charset, Encoding, Options, PageByteParser, PageFault, ReadPage, read_page};
use std::alloc::Global;

/// Parses the bytes of a page in pieces of this size.
fn in_pieces(
    alloc: Global,
    bytes: &[u8],
    charset: Charset,
    size: usize,
) -> Result<ReadPage, PageFault> {
    let mut parser = PageByteParser::new(alloc, charset, Options::default())?;
    for piece in bytes.chunks(size) {
        parser.feed(piece)?;
    }
    parser.finish()
}

/// Parses the bytes of a page, whole where the size is 0.
fn parsed(
    alloc: Global,
    bytes: &[u8],
    charset: Charset,
    size: usize,
) -> Result<ReadPage, PageFault> {
    if size == 0 {
        return read_page(alloc, bytes, charset, Options::default());
    }
    in_pieces(alloc, bytes, charset, size)
}

/// Prints a page: its HTML, its encoding, what says so, and how many errors were replaced.
fn show(rt: &HostRuntime, page: &ReadPage) -> Option<()> {
    let html = page.document.html().ok()?;
    let name = page.encoding.name();
    let confidence = page.confidence;
    let replaced = page.replaced;
    println!(rt; "{html:?} {name} {confidence:?} {replaced}").ok()
}

/// What is known of the pages: the label that they came with, if there is one.
fn charset_of(label: Option<&String>) -> Option<Charset> {
    match label {
        Some(label) => Some(Charset::of_transport(Encoding::for_label(label.as_bytes())?)),
        None => Some(Charset::unknown()),
    }
}

/// Parses each input as a page in pieces of this size, or whole where the size is 0, and prints it.
pub fn read_all(rt: &HostRuntime, words: &[String]) -> Option<()> {
    let size = words.first()?.as_str().parse::<usize>().ok()?;
    let charset = charset_of(words.get(1))?;
    let text = input(rt)?;
    for line in text.as_str().lines() {
        let bytes = bytes_of(rt.alloc(), line)?;
        match parsed(rt.alloc(), bytes.as_slice(), charset, size) {
            Ok(page) => show(rt, &page)?,
            Err(_) => return None,
        }
    }
    Some(())
}
