//! Selectors, mini selectors, indexes and selections. `test_calls queries LINE ..` reads markup
//! from standard input, makes the call in each line on the document, in order, and prints the
//! results.

mod asking;
mod caches;
mod css;
mod edits;
mod indexes;
mod minis;
mod selecting;
mod selections;

use crate::lines::printing::print_state;
use crate::lines::words::{cut, input};
use dom_markup::document::Document;
use dom_trees::tree::Tree;

/// Makes a call that changes the document, or passes other calls on.
fn change(rt: &HostRuntime, document: &mut Document, group: &str, line: &str) -> Option<()> {
    match group {
        "move" => edits::move_node(rt, &mut document.tree, line),
        "sink-make" => edits::make_element(rt, document, line),
        _ => read(rt, document, group, line),
    }
}

/// Makes a call that reads the document, or passes other calls on.
fn read(rt: &HostRuntime, document: &Document, group: &str, line: &str) -> Option<()> {
    match group {
        "state" => print_state(rt, &document.tree, &document.errors),
        "places" => indexes::show_places(rt, &document.tree),
        "tests" => selecting::count_tests(rt, &document.tree, line),
        "select" => selecting::select(rt, document, line),
        "selection" => selections::select(rt, document, line),
        "step" => selections::step(rt, document, line),
        "choose" => selections::choose(rt, document, line),
        "combine" => selections::combine(rt, document, line),
        "selected" => selections::read(rt, document, line),
        "path" => minis::follow(rt, document, line),
        "cached" => caches::match_cached(rt, &document.tree, line),
        "hits" => caches::count_hits(rt, &document.tree, line),
        _ => return ask(rt, &document.tree, group, line),
    }
    Some(())
}

/// Makes a call that asks about nodes, or passes other calls on.
fn ask(rt: &HostRuntime, tree: &Tree, group: &str, line: &str) -> Option<()> {
    match group {
        "select-below" => selecting::select_below_several(rt, tree, line),
        "ask" => selecting::ask(rt, tree, line),
        "kinds" => asking::show_kinds(rt, tree, line),
        "named" => asking::show_named(rt, tree, line),
        "pseudos" => asking::show_pseudos(rt, tree, line),
        "index" => indexes::ask(rt, tree, line),
        "find" => minis::find(rt, tree, line),
        "names" => minis::find_names(rt, tree, line),
        "mini-is" => minis::is_meant(rt, tree, line),
        "mini-ask" => minis::ask(rt, tree, line),
        "child" => caches::find_child(rt, tree, line),
        "matches" => caches::match_several(rt, tree, line),
        "caches" => caches::index(rt, tree, line),
        _ => write(rt, group, line),
    }
}

/// Makes a call that needs only a text; returns `None` for an unknown call.
fn write(rt: &HostRuntime, group: &str, line: &str) -> Option<()> {
    match group {
        "fault-of" => selecting::show_fault(rt, line),
        "fragment" => selecting::select_in_fragment(rt, line),
        "css" => css::write_selectors(rt, line),
        "debug" => css::print_selector(rt, line),
        "mini" => minis::read(rt, line),
        "minis" => minis::read_list(rt, line),
        "css-of" => return css::write_values(rt, line),
        "debug-of" => return css::print_values(rt, line),
        _ => return None,
    }
    Some(())
}

/// Makes the call in each line on the document that is read from standard input.
pub fn run(rt: &HostRuntime, lines: &[String]) -> Option<()> {
    let markup = input(rt)?;
    let mut document = Document::parse(rt.alloc(), markup.as_str()).ok()?;
    for line in lines {
        let (group, rest) = cut(line.as_str());
        change(rt, &mut document, group, rest)?;
    }
    Some(())
}
