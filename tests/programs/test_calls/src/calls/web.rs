//! Pages of the web: the trees that texts are parsed to, and their tokens.

use crate::lines::printing::{show, show_edit, show_read};
use dom_markup::document::Document;
use dom_trees::tree::Tree;
use page_reading::{
    Context, Options, PageFault, make_page, parse_page, parse_page_bytes, parse_page_fragment,
};
use page_tokens::token::{TagKind, Token};
use page_tokens::tokenizer::{Step, Tokenizer};

/// Options that store parse errors. They turn off two quick ways: tags are read character by
/// character, and simple pages are built by the full tree construction too.
const NOTING: Options = Options {
    scripting: false,
    max_depth: None,
    errors: true,
};

/// Prints the HTML of a page, or the fault.
fn show_page(rt: &HostRuntime, what: &str, page: Result<Document, PageFault>) {
    match page {
        Ok(page) => show_read(rt, what, page.html()),
        Err(fault) => show(rt, what, fault),
    }
}

/// Prints what a text is parsed to, by each call that parses it whole: `TEXT`.
pub fn read(rt: &HostRuntime, text: &str) {
    let (alloc, plain) = (rt.alloc(), Options::default());
    show_page(rt, "parse_page", parse_page(alloc, text, plain));
    show_page(rt, "errors noted", parse_page(alloc, text, NOTING));
    let page = parse_page_bytes(alloc, text.as_bytes(), plain);
    show_page(rt, "parse_page_bytes", page);
}

/// Prints the quirks mode of the page that a text is parsed to: `TEXT`.
pub fn show_mode(rt: &HostRuntime, text: &str) {
    match parse_page(rt.alloc(), text, Options::default()) {
        Ok(page) => {
            let mode = page.quirks_mode;
            println!(rt; "quirks_mode: {mode:?}").ok();
        }
        Err(fault) => show(rt, "quirks_mode", fault),
    }
}

/// Prints what a text is parsed to as the contents of a table row: `TEXT`.
pub fn read_row(rt: &HostRuntime, text: &str) {
    let row = parse_page_fragment(rt.alloc(), text, Context::Html("tr"), Options::default());
    show_page(rt, "parse_page_fragment", row);
}

/// Gives the tree the shape of a page.
pub fn shape(rt: &HostRuntime, tree: &mut Tree) {
    show_edit(rt, "make_page", make_page(tree));
}

/// Returns the kind of a token, and its name or text.
fn parts(token: &Token) -> (&str, &str) {
    match token {
        Token::Tag(tag) => match tag.kind {
            TagKind::Start => ("start", tag.name.as_str()),
            TagKind::End => ("end", tag.name.as_str()),
        },
        Token::Comment(text) => ("comment", text.as_str()),
        Token::Doctype(doctype) => match &doctype.name {
            Some(name) => ("doctype", name.as_str()),
            None => ("doctype", ""),
        },
    }
}

/// Prints the token that ends a piece of text.
fn show_token(rt: &HostRuntime, token: &Token) {
    let (kind, text) = parts(token);
    println!(rt; "{kind}: {text}").ok();
}

fn show_step(rt: &HostRuntime, what: &str, step: Step) {
    match step {
        Ok(Some(token)) => show_token(rt, &token),
        Ok(None) => show(rt, what, "-"),
        Err(_) => show(rt, what, "out of memory"),
    }
}

/// Prints the tokens of a text, its characters, and the token at its end: `TEXT`.
pub fn all_tokens(rt: &HostRuntime, text: &str) {
    let mut tokens = Tokenizer::new(rt.alloc());
    let mut rest = text;
    while !rest.is_empty() {
        let mut token = None;
        let Ok(left) = tokens.read_token(rest, &mut token) else {
            return show(rt, "read_token", "out of memory");
        };
        if let Some(token) = token {
            show_token(rt, &token);
        }
        rest = left;
    }
    show(rt, "text", tokens.take_text());
    show_step(rt, "end", tokens.end());
    first_token(rt, text);
}

/// Prints the first token, and what follows it.
fn first_token(rt: &HostRuntime, text: &str) {
    let mut tokens = Tokenizer::new(rt.alloc());
    let mut token = None;
    match tokens.read_token(text, &mut token) {
        Ok(rest) => show(rt, "rest", rest),
        Err(_) => show(rt, "rest", "out of memory"),
    }
    show_step(rt, "read_token", Ok(token));
}
