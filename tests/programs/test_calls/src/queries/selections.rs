//! Calls of `Selection` and of `DocumentSelect`.

use crate::lines::printing::{
    show, show_flags, show_ids_read, show_nodes, show_read, show_some, show_some_read,
};
use crate::lines::words::cut;
use crate::queries::selecting::{matcher_of, show_each};
use dom_markup::document::Document;
use dom_nodes::fault::OutOfMemory;
use dom_select::matcher::Matcher;
use dom_selection::document_select::DocumentSelect;
use dom_selection::selection::Selection;
use dom_selectors::fault::SelectorFault;
use std::fmt::Display;

/// Prints the nodes of a selection, or the error.
fn show_found<F: Display + Drop>(rt: &HostRuntime, what: &str, found: Result<Selection<'_>, F>) {
    match found {
        Ok(found) => show_nodes(rt, what, found.nodes()),
        Err(fault) => show(rt, what, fault),
    }
}

/// Prints the nodes of a selection, `-` if there is none, or the error.
fn show_tried(rt: &HostRuntime, what: &str, found: Result<Option<Selection<'_>>, OutOfMemory>) {
    match found {
        Ok(Some(found)) => show_nodes(rt, what, found.nodes()),
        Ok(None) => show(rt, what, "-"),
        Err(fault) => show(rt, what, fault),
    }
}

/// Prints what is selected in a document by each of the calls: `SELECTOR`.
pub fn select(rt: &HostRuntime, document: &Document, line: &str) {
    show_found(rt, "select", document.select(line));
    show_found(rt, "nip", document.nip(line));
    show_found(rt, "select_single", document.select_single(line));
    show_tried(rt, "try_select", document.try_select(line));
    if let Some(matcher) = matcher_of(rt, line) {
        select_by_matcher(rt, document, &matcher);
    }
}

fn select_by_matcher(rt: &HostRuntime, document: &Document, matcher: &Matcher) {
    show_found(rt, "select_matcher", document.select_matcher(matcher));
    let one = document.select_single_matcher(matcher);
    show_found(rt, "select_single_matcher", one);
}

/// Prints where each step leads from the nodes that a selector selects: `SELECTOR`.
pub fn step(rt: &HostRuntime, document: &Document, line: &str) {
    match document.select(line) {
        Ok(all) => step_from(rt, &all),
        Err(fault) => show(rt, "select", fault),
    }
}

/// A step from nodes to other nodes.
#[derive(Clone, Copy, Drop)]
enum Way {
    Parent,
    Children,
    Ancestors,
    AncestorsTo(usize),
    Next,
    Prev,
    Clone,
}

#[rattlefmt::skip]
const WAYS: [(&str, Way); 7] = [
    ("parent", Way::Parent), ("children", Way::Children), ("ancestors", Way::Ancestors),
    ("ancestors 1", Way::AncestorsTo(1)), ("next_sibling", Way::Next),
    ("prev_sibling", Way::Prev), ("try_clone", Way::Clone),
];

fn stepped<'a>(all: &Selection<'a>, way: Way) -> Result<Selection<'a>, OutOfMemory> {
    match way {
        Way::Parent => all.parent(),
        Way::Children => all.children(),
        Way::Ancestors => all.ancestors(None),
        Way::AncestorsTo(depth) => all.ancestors(Some(depth)),
        Way::Next => all.next_sibling(),
        Way::Prev => all.prev_sibling(),
        Way::Clone => all.try_clone(),
    }
}

/// Prints where each step leads, and the nodes as a list.
fn step_from(rt: &HostRuntime, all: &Selection<'_>) {
    for (name, way) in &WAYS {
        show_found(rt, name, stepped(all, *way));
    }
    show_nodes(rt, "first", all.first().nodes());
    show_nodes(rt, "last", all.last().nodes());
    count(rt, all);
    for one in all.iter() {
        show_nodes(rt, "iter", one.nodes());
    }
}

/// Prints how many nodes there are, and their ids.
fn count(rt: &HostRuntime, all: &Selection<'_>) {
    show(rt, "length", all.length());
    show(rt, "size", all.size());
    let flags = [("exists", all.exists()), ("is_empty", all.is_empty())];
    show_flags(rt, &flags);
    show_some(rt, "get 1", all.get(1).map(|node| node.id.value()));
    show_ids_read(rt, "ids", all.ids());
}

/// Prints what the selector `CHOICE` selects from the nodes that another one selects: `CHOICE
/// SELECTOR`.
pub fn choose(rt: &HostRuntime, document: &Document, line: &str) {
    let (choice, text) = cut(line);
    match document.select(text) {
        Ok(all) => choose_from(rt, &all, choice),
        Err(fault) => show(rt, "select", fault),
    }
}

/// A call that selects from a selection by the text of a selector.
#[derive(Clone, Copy, Drop)]
enum Choice {
    Select,
    Nip,
    Single,
    Filter,
    Add,
}

#[rattlefmt::skip]
const CHOICES: [(&str, Choice); 5] = [
    ("select", Choice::Select), ("nip", Choice::Nip), ("select_single", Choice::Single),
    ("filter", Choice::Filter), ("add", Choice::Add),
];

fn chosen<'a>(
    all: &Selection<'a>,
    choice: Choice,
    text: &str,
) -> Result<Selection<'a>, SelectorFault> {
    match choice {
        Choice::Select => all.select(text),
        Choice::Nip => all.nip(text),
        Choice::Single => all.select_single(text),
        Choice::Filter => all.filter(text),
        Choice::Add => all.add(text),
    }
}

fn choose_from(rt: &HostRuntime, all: &Selection<'_>, text: &str) {
    show_read(rt, "is", all.is(text));
    for (name, choice) in &CHOICES {
        show_found(rt, name, chosen(all, *choice, text));
    }
    show_tried(rt, "try_select", all.try_select(text));
    show_tried(rt, "try_filter", all.try_filter(text));
    show_tried(rt, "try_add", all.try_add(text));
    if let Some(matcher) = matcher_of(rt, text) {
        choose_by_matcher(rt, all, &matcher);
    }
}

fn choose_by_matcher(rt: &HostRuntime, all: &Selection<'_>, matcher: &Matcher) {
    show(rt, "is_matcher", all.is_matcher(matcher));
    show_found(rt, "select_matcher", all.select_matcher(matcher));
    let one = all.select_single_matcher(matcher);
    show_found(rt, "select_single_matcher", one);
    match all.select_matcher_iter(matcher) {
        Ok(Some(matches)) => show_each(rt, "select_matcher_iter", matches),
        Ok(None) => show(rt, "select_matcher_iter", "-"),
        Err(fault) => show(rt, "select_matcher_iter", fault),
    }
    show_found(rt, "filter_matcher", all.filter_matcher(matcher));
    show_found(rt, "add_matcher", all.add_matcher(matcher));
}

/// Prints the nodes of combinations of two selections: `OTHER SELECTOR`.
pub fn combine(rt: &HostRuntime, document: &Document, line: &str) {
    let (other, text) = cut(line);
    match (document.select(text), document.select(other)) {
        (Ok(all), Ok(other)) => show_both(rt, &all, &other),
        _ => show(rt, "select", "refused"),
    }
}

fn show_both<'a>(rt: &HostRuntime, all: &Selection<'a>, other: &Selection<'a>) {
    show_found(rt, "filter_selection", all.filter_selection(other));
    show_found(rt, "add_selection", all.add_selection(other));
    show(rt, "is_selection", all.is_selection(other));
    println!(rt; "{all:?}").ok();
}

/// Prints attributes and texts of the nodes that a selector selects: `NAME SELECTOR`.
pub fn read(rt: &HostRuntime, document: &Document, line: &str) {
    let (name, text) = cut(line);
    match document.select(text) {
        Ok(all) => read_nodes(rt, &all, name),
        Err(fault) => show(rt, "select", fault),
    }
}

fn read_nodes(rt: &HostRuntime, all: &Selection<'_>, name: &str) {
    show(rt, "attrs", all.attrs().len());
    show_some(rt, "attr", all.attr(name));
    let value = all.attr_or("id", "default");
    println!(rt; "attr_or: {value}").ok();
    show_some(rt, "id", all.id());
    show_some(rt, "class", all.class());
    let flags = [
        ("has_attr", all.has_attr(name)),
        ("has_class", all.has_class(name)),
    ];
    show_flags(rt, &flags);
    read_texts(rt, all);
}

/// Prints the texts and the HTML of all of them.
fn read_texts(rt: &HostRuntime, all: &Selection<'_>) {
    show_read(rt, "text", all.text());
    show_read(rt, "immediate_text", all.immediate_text());
    show_read(rt, "html", all.html());
    show_read(rt, "inner_html", all.inner_html());
    show_some_read(rt, "try_html", all.try_html());
    show_some_read(rt, "try_inner_html", all.try_inner_html());
}
