//! Calls of the cleaner. `test_calls clean RULE ..` makes a policy of the rules, and cleans
//! standard input by it as a fragment. One of these words before the rules says another way: `each`
//! does this for several fragments with byte 30 between them, and writes byte 30 after each text;
//! `page` cleans standard input as a page, and `tree` cleans the tree of that page; `written`
//! writes what is left of that tree to standard output piece by piece, and `document` prints the
//! document of what is left of it. `removed` and `removed-body` print what is taken out below the
//! root of that tree and of its body, and `counts` how often each name is taken out below the root.
//! `report` cleans standard input as a fragment, and prints how often each name was taken out and
//! then what is left; `bytes` and `page-bytes` clean standard input in any encoding, as a fragment
//! and as a page, and print the encoding and the number of errors first.

mod rules;

use dom_clean::{
    CleanedBytes, Policy, Removed, clean, clean_bytes, clean_document, clean_page,
    clean_page_bytes, clean_report, clean_tree, count_removed, removed_below, removed_from_body,
    removed_from_tree, removed_lines, write_clean_tree,
};
use dom_markup::document::Document;
use dom_markup::serializing::NodeMarkup;
use page_reading::{Charset, Options, parse_page};
use std::io::{Read, Write};

/// How standard input is cleaned.
#[derive(Clone, Copy, Drop)]
enum Way {
    Fragment,
    Each,
    Page,
    Tree,
    Written,
    Document,
    Removed,
    RemovedBody,
    Counts,
    Report,
    Bytes,
    PageBytes,
}

/// Cleans standard input in the way and by the rules that the words say.
pub fn run(rt: &HostRuntime, words: &[String]) -> Option<()> {
    let mut source = Vec::new(rt.alloc());
    rt.stdin().read_to_end(&mut source).ok()?;
    let mut way = Way::Fragment;
    let mut rules = rules::none(rt);
    for word in words {
        match way_of(word.as_str()) {
            Some(named) => way = named,
            None => rules::change(rt, &mut rules, word.as_str())?,
        }
    }
    match Policy::new(rules) {
        Ok(policy) => answer(rt, way, &source, &policy),
        Err(fault) => println!(rt; "{fault}").ok(),
    }
}

fn way_of(word: &str) -> Option<Way> {
    match word {
        "each" => Some(Way::Each),
        "page" => Some(Way::Page),
        "tree" => Some(Way::Tree),
        "written" => Some(Way::Written),
        "document" => Some(Way::Document),
        "removed" => Some(Way::Removed),
        "removed-body" => Some(Way::RemovedBody),
        "counts" => Some(Way::Counts),
        "report" => Some(Way::Report),
        "bytes" => Some(Way::Bytes),
        "page-bytes" => Some(Way::PageBytes),
        _ => None,
    }
}

fn answer(rt: &HostRuntime, way: Way, source: &[u8], policy: &Policy) -> Option<()> {
    let alloc = rt.alloc();
    let charset = Charset::unknown();
    match way {
        Way::Bytes => show_bytes(rt, clean_bytes(alloc, source, charset, policy).ok()?),
        Way::PageBytes => show_bytes(rt, clean_page_bytes(alloc, source, charset, policy).ok()?),
        _ => answer_text(rt, way, str::from_utf8(source).ok()?, policy),
    }
}

fn show_bytes(rt: &HostRuntime, cleaned: CleanedBytes) -> Option<()> {
    let CleanedBytes {
        text,
        encoding,
        replaced,
        ..
    } = cleaned;
    let encoding = encoding.name();
    print!(rt; "{encoding} {replaced}\n{text}").ok()
}

fn answer_text(rt: &HostRuntime, way: Way, source: &str, policy: &Policy) -> Option<()> {
    match way {
        Way::Each => answer_each(rt, source, policy),
        Way::Page => print!(rt; "{}", clean_page(rt.alloc(), source, policy).ok()?).ok(),
        Way::Tree => {
            let document = page_of(rt, source)?;
            print!(rt; "{}", clean_tree(&document.tree, policy).ok()?).ok()
        }
        Way::Written => {
            let document = page_of(rt, source)?;
            let mut out = rt.stdout();
            write_clean_tree(&document.tree, policy, &mut out).ok()?;
            out.flush().ok()
        }
        Way::Document => {
            let document = page_of(rt, source)?;
            let cleaned = clean_document(&document.tree, policy).ok()?;
            print!(rt; "{}", cleaned.root().inner_html().ok()?).ok()
        }
        Way::Removed => {
            let document = page_of(rt, source)?;
            show_removed(rt, removed_from_tree(&document.tree, policy).ok()?)
        }
        Way::RemovedBody => {
            let document = page_of(rt, source)?;
            show_removed(rt, removed_from_body(&document.tree, policy).ok()?)
        }
        Way::Counts => {
            let document = page_of(rt, source)?;
            let root = document.tree.root_id();
            let removed = removed_below(&document.tree, &root, policy).ok()?;
            let counts = count_removed(rt.alloc(), &removed).ok()?;
            print!(rt; "{}", removed_lines(rt.alloc(), &counts).ok()?).ok()
        }
        Way::Report => {
            let report = clean_report(rt.alloc(), source, policy).ok()?;
            let lines = removed_lines(rt.alloc(), &report.removed).ok()?;
            print!(rt; "{lines}{}", report.text).ok()
        }
        _ => print!(rt; "{}", clean(rt.alloc(), source, policy).ok()?).ok(),
    }
}

fn show_removed(rt: &HostRuntime, removed: Vec<Removed>) -> Option<()> {
    for one in &removed {
        match one {
            Removed::Element(name) => println!(rt; "element {name}").ok()?,
            Removed::Attribute(name) => println!(rt; "attribute {name}").ok()?,
            Removed::Address(name) => println!(rt; "address {name}").ok()?,
        }
    }
    Some(())
}

fn page_of(rt: &HostRuntime, source: &str) -> Option<Document> {
    parse_page(rt.alloc(), source, Options::default()).ok()
}

fn answer_each(rt: &HostRuntime, source: &str, policy: &Policy) -> Option<()> {
    for text in source.split('\u{1e}') {
        let cleaned = clean(rt.alloc(), text, policy).ok()?;
        print!(rt; "{cleaned}\u{1e}").ok()?;
    }
    Some(())
}
