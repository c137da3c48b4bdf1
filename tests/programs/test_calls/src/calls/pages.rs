//! Calls of `Document` and of the whole `Tree`.

use crate::lines::printing::{show, show_edit, show_node, show_read, show_some};
use crate::lines::words::{cut, node_of, nodes_of};
use dom_links::gap::Place;
use dom_markup::document::Document;
use dom_markup::document::fragments::NodeFragment;
use dom_markup::document::snippet::Snippet;
use dom_markup::serializing::NodeMarkup;
use dom_nodes::node_id::NodeId;
use dom_trees::tree::Tree;

/// Prints what a document and its tree answer as a whole.
pub fn read(rt: &HostRuntime, document: &Document) {
    show(rt, "len", document.tree.len());
    show(rt, "root", document.root().id.value());
    show_node(rt, "html_root", &document.html_root());
    show_node(rt, "head", &document.head());
    show_node(rt, "body", &document.body());
    show_some(rt, "base_uri", document.base_uri());
    read_texts(rt, document);
    read_tree(rt, &document.tree);
}

fn read_texts(rt: &HostRuntime, document: &Document) {
    show_read(rt, "text", document.text());
    show_read(rt, "html", document.html());
    show_read(rt, "inner_html", document.inner_html());
    show_some(rt, "try_html", document.try_html());
    show_some(rt, "try_inner_html", document.try_inner_html());
}

fn read_tree(rt: &HostRuntime, tree: &Tree) {
    show_node(rt, "html_root", &tree.html_root());
    show_node(rt, "head", &tree.head());
    show_node(rt, "body", &tree.body());
    show_some(rt, "base_uri", tree.base_uri());
    show(rt, "nodes", tree.nodes().len());
    show(rt, "validate", tree.validate().is_ok());
}

/// Prints the number of nodes of a document, and its HTML.
pub fn print_page(rt: &HostRuntime, document: &Document) {
    show(rt, "len", document.tree.len());
    show_read(rt, "html", document.html());
}

/// Prints the HTML of a document.
pub fn print_html(rt: &HostRuntime, document: &Document) {
    show_read(rt, "html", document.html());
}

/// Prints the number of nodes of a document, its HTML, its parse errors and its quirks mode.
fn print_whole(rt: &HostRuntime, document: &Document) {
    print_page(rt, document);
    for error in document.errors.as_slice() {
        show(rt, "error", error.as_str());
    }
    let mode = document.quirks_mode;
    println!(rt; "quirks_mode: {mode:?}").ok();
}

/// Prints a copy of a document.
pub fn print_copy(rt: &HostRuntime, document: &Document) {
    match document.try_clone() {
        Ok(copy) => print_whole(rt, &copy),
        Err(fault) => show(rt, "try_clone", fault),
    }
}

/// Joins adjacent texts of a document.
pub fn normalize(rt: &HostRuntime, document: &mut Document) {
    show_edit(rt, "Document::normalize", document.normalize());
}

/// Prints the fragment that a parser begins with.
pub fn print_sink(rt: &HostRuntime) {
    match Document::fragment_sink(rt.alloc()) {
        Ok(fragment) => print_page(rt, &fragment),
        Err(fault) => show(rt, "fragment_sink", fault),
    }
}

/// Prints the fragment that a text is parsed to, or the fault.
pub fn read_fragment(rt: &HostRuntime, markup: &str) {
    match Document::fragment(rt.alloc(), markup) {
        Ok(fragment) => print_page(rt, &fragment),
        Err(fault) => show(rt, "fragment", fault),
    }
}

/// Prints the document that a text is parsed to, or the fault.
pub fn read_document(rt: &HostRuntime, markup: &str) {
    match Document::parse(rt.alloc(), markup) {
        Ok(document) => print_page(rt, &document),
        Err(fault) => {
            let (kind, at) = (fault.kind, fault.at);
            println!(rt; "{fault}: {kind:?} at {at}").ok();
        }
    }
}

/// Prints the fragment that is made of a node: `N`.
pub fn make_fragment(rt: &HostRuntime, document: &Document, line: &str) -> Option<()> {
    match document.tree.get_unchecked(&node_of(line)?).to_fragment() {
        Ok(fragment) => print_whole(rt, &fragment),
        Err(fault) => show(rt, "to_fragment", fault),
    }
    Some(())
}

/// Parses markup once, and appends it to the children of several nodes: `N,M HTML`.
pub fn put_snippet(rt: &HostRuntime, tree: &mut Tree, line: &str) -> Option<()> {
    let (numbers, html) = cut(line);
    let ids = nodes_of(rt.alloc(), numbers)?;
    match Snippet::read(rt.alloc(), html) {
        Ok(snippet) => put_at_each(rt, tree, &snippet, &ids),
        Err(fault) => show(rt, "Snippet::read", fault),
    }
    Some(())
}

fn put_at_each(rt: &HostRuntime, tree: &mut Tree, snippet: &Snippet, ids: &[NodeId]) {
    for id in ids {
        show_edit(rt, "put_at", snippet.put_at(tree, id, Place::AtEnd));
    }
}

/// Prints the HTML of a node and of its children, by each call: `N`.
pub fn write_html(rt: &HostRuntime, tree: &Tree, line: &str) -> Option<()> {
    let node = tree.get_unchecked(&node_of(line)?);
    show_read(rt, "html", node.html());
    show_read(rt, "inner_html", node.inner_html());
    show_some(rt, "try_html", node.try_html());
    show_some(rt, "try_inner_html", node.try_inner_html());
    Some(())
}
