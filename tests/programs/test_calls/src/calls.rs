//! Calls of trees, markup, edits, texts, sanitizing and pages. `test_calls calls LINE ..` parses
//! the markup on standard input, makes the call of each line on the document, in order, and prints
//! the answers. `test_calls calls bulk raw` makes the call `raw` for each line on standard input.

mod apart;
mod arena;
mod building;
mod cleaning;
mod faults;
mod many;
mod node_calls;
mod pages;
mod parts;
mod raw;
mod reading;
mod sinks;
mod texts;
mod trees;
mod values;
mod walking;
mod web;

use crate::lines::printing::print_state;
use crate::lines::words::{cut, input};
use dom_markup::document::Document;

/// Makes a call that changes the document.
fn change(rt: &HostRuntime, document: &mut Document, group: &str, line: &str) -> Option<()> {
    match group {
        "move" => trees::move_nodes(rt, &mut document.tree, line),
        "make" => trees::make_node(rt, &mut document.tree, line),
        "change" => trees::change_node(rt, &mut document.tree, line),
        "copy" => trees::copy_nodes(rt, &mut document.tree, line),
        "node" => trees::edit_node(rt, &mut document.tree, line),
        "nodes" => many::call(rt, &mut document.tree, line),
        "snippet" => pages::put_snippet(rt, &mut document.tree, line),
        "sanitize" => cleaning::clean(rt, document, line),
        "sink-make" => sinks::make(rt, document, line),
        "sink-put" => sinks::put(rt, document, line),
        "sink-change" => sinks::change(rt, document, line),
        _ => mend(rt, document, group, line),
    }
}

/// Makes a call that changes the document and succeeds for every line.
fn mend(rt: &HostRuntime, document: &mut Document, group: &str, line: &str) -> Option<()> {
    match group {
        "sink-note" => sinks::note(rt, document, line),
        "normalize" => pages::normalize(rt, document),
        "make-page" => web::shape(rt, &mut document.tree),
        _ => return read(rt, document, group, line),
    }
    Some(())
}

/// Makes a call that reads the document.
fn read(rt: &HostRuntime, document: &Document, group: &str, line: &str) -> Option<()> {
    match group {
        "page" => pages::read(rt, document),
        "print" => pages::print_page(rt, document),
        "html" => pages::print_html(rt, document),
        "clone" => pages::print_copy(rt, document),
        "state" => print_state(rt, &document.tree, &document.errors),
        "copies" => values::print_copies(rt, &document.tree),
        _ => return read_nodes(rt, document, group, line),
    }
    Some(())
}

/// Makes a call that reads nodes of the document.
fn read_nodes(rt: &HostRuntime, document: &Document, group: &str, line: &str) -> Option<()> {
    let tree = &document.tree;
    match group {
        "to-fragment" => pages::make_fragment(rt, document, line),
        "sink-ask" => sinks::ask(rt, document, line),
        "read" => reading::read(rt, tree, line),
        "around" => reading::look_around(rt, tree, line),
        "children" => walking::list_children(rt, tree, line),
        "walk" => walking::walk(rt, tree, line),
        "count" => walking::count(rt, tree, line),
        "htmls" => pages::write_html(rt, tree, line),
        "apart" => apart::change(rt, tree, line),
        "apart-ask" => apart::ask(rt, tree, line),
        "parts" => parts::show(rt, tree, line),
        "arena" => arena::edit(rt, tree, line),
        "arena-ask" => arena::ask(rt, tree, line),
        "md" => texts::write_node(rt, tree, line),
        "without" => texts::write_without(rt, tree, line),
        "formatted" => texts::format(rt, tree, line),
        _ => write(rt, group, line),
    }
}

/// Makes a call that only takes a text.
fn write(rt: &HostRuntime, group: &str, line: &str) -> Option<()> {
    match group {
        "parse" => pages::read_document(rt, line),
        "fragment-sink" => pages::print_sink(rt),
        "fragment" => pages::read_fragment(rt, line),
        "tokens" => texts::cut_tokens(rt, line),
        "escape" => texts::escape_value(rt, line),
        "fence" => texts::measure_fence(rt, line),
        "mark" => texts::read_mark(rt, line),
        "faults" => faults::print_all(rt),
        "web" => web::read(rt, line),
        "web-row" => web::read_row(rt, line),
        "web-mode" => web::show_mode(rt, line),
        "web-tokens" => web::all_tokens(rt, line),
        "build" => building::build(rt),
        "options" => texts::print_options(rt),
        "sizes" => values::print_sizes(rt),
        _ => return make(rt, group, line),
    }
    Some(())
}

/// Makes a call that only takes a text, and fails for a text of another form.
fn make(rt: &HostRuntime, group: &str, line: &str) -> Option<()> {
    match group {
        "chunk" => texts::escape_chunk(rt, line),
        "cell" => texts::escape_cell(rt, line),
        "list" => texts::number_list(rt, line),
        "raw" => raw::check_line(rt, line),
        "qual-names" => values::compare_names(rt, line),
        "node-numbers" => values::compare_numbers(rt, line),
        "folded" => values::compare_folded(rt, line),
        "copied" => values::copy_names(rt, line),
        "position" => faults::find_position(rt, line),
        _ => None,
    }
}

/// Parses the markup on standard input, and makes the call of each line on the document.
fn call_all(rt: &HostRuntime, lines: &[String]) -> Option<()> {
    let markup = input(rt)?;
    let mut document = Document::parse(rt.alloc(), markup.as_str()).ok()?;
    for line in lines {
        let (group, rest) = cut(line.as_str());
        change(rt, &mut document, group, rest)?;
    }
    Some(())
}

/// Does what the words ask for.
pub fn run(rt: &HostRuntime, words: &[String]) -> Option<()> {
    match words {
        [bulk, word] if bulk.as_str() == "bulk" && word.as_str() == "raw" => raw::check_all(rt),
        _ => call_all(rt, words),
    }
}
