//! What `NodeRef` reads of a node.

use crate::lines::printing::{show, show_flags, show_node, show_read, show_some};
use crate::lines::words::{cut, node_of};
use dom_trees::node_ref::NodeRef;
use dom_trees::tree::Tree;

/// Prints what a node is and has: `N`; or what it has of an attribute, a class or a name: `N WORD`.
pub fn read(rt: &HostRuntime, tree: &Tree, line: &str) -> Option<()> {
    let (number, word) = cut(line);
    let node = tree.get_unchecked(&node_of(number)?);
    if word.is_empty() {
        read_kind(rt, &node);
        read_element(rt, &node);
    } else {
        read_named(rt, &node, word);
    }
    Some(())
}

/// Prints the kind of the node, and the answers of closures.
fn read_kind(rt: &HostRuntime, node: &NodeRef<'_>) {
    let flags = [
        ("is_document", node.is_document()),
        ("is_fragment", node.is_fragment()),
        ("is_element", node.is_element()),
        ("is_text", node.is_text()),
        ("is_comment", node.is_comment()),
        ("is_doctype", node.is_doctype()),
        ("is_root", node.is_root()),
        ("is_link", node.is_link()),
        ("may_have_children", node.may_have_children()),
        ("is_nonempty_text", node.is_nonempty_text()),
    ];
    show_flags(rt, &flags);
    show_some(rt, "query", node.query(|it| it.is_text()));
    show(rt, "query_or", node.query_or(false, |it| it.is_text()));
}

/// Prints what the node has as an element.
fn read_element(rt: &HostRuntime, node: &NodeRef<'_>) {
    show_some(rt, "node_name", node.node_name());
    match node.element_ref() {
        Some(element) => show(rt, "element_ref", element.node_name()),
        None => show(rt, "element_ref", "-"),
    }
    match node.qual_name_ref() {
        Some(name) => show(rt, "qual_name_ref", name.local().as_str()),
        None => show(rt, "qual_name_ref", "-"),
    }
    show(rt, "attrs", node.attrs().len());
    read_texts(rt, node);
}

/// Prints some attributes and the texts of the node.
fn read_texts(rt: &HostRuntime, node: &NodeRef<'_>) {
    show_some(rt, "class", node.class());
    show_some(rt, "id_attr", node.id_attr());
    show_some(rt, "base_uri", node.base_uri());
    show_read(rt, "text", node.text());
    show_read(rt, "immediate_text", node.immediate_text());
    show(rt, "normalized_char_count", node.normalized_char_count());
}

/// Prints what the node has with this name.
fn read_named(rt: &HostRuntime, node: &NodeRef<'_>, word: &str) {
    let flags = [
        ("has_name", node.has_name(word)),
        ("has_class", node.has_class(word)),
        ("has_attr", node.has_attr(word)),
    ];
    show_flags(rt, &flags);
    show_some(rt, "attr", node.attr(word));
    let value = node.attr_or("id", "default");
    println!(rt; "attr_or: {value}").ok();
}

/// Prints the nodes and the elements around a node: `N`.
pub fn look_around(rt: &HostRuntime, tree: &Tree, line: &str) -> Option<()> {
    let node = tree.get_unchecked(&node_of(line)?);
    show_around(rt, &node);
    show_elements_around(rt, &node);
    Some(())
}

fn show_around(rt: &HostRuntime, node: &NodeRef<'_>) {
    show_node(rt, "parent", &node.parent());
    show_node(rt, "first_child", &node.first_child());
    show_node(rt, "last_child", &node.last_child());
    show_node(rt, "next_sibling", &node.next_sibling());
    show_node(rt, "prev_sibling", &node.prev_sibling());
    show_node(rt, "last_sibling", &node.last_sibling());
}

fn show_elements_around(rt: &HostRuntime, node: &NodeRef<'_>) {
    show_node(rt, "parent_element", &node.parent_element());
    show_node(rt, "next_element_sibling", &node.next_element_sibling());
    show_node(rt, "next_sibling_element", &node.next_sibling_element());
    show_node(rt, "prev_element_sibling", &node.prev_element_sibling());
    show_node(rt, "prev_sibling_element", &node.prev_sibling_element());
    show_node(rt, "first_element_child", &node.first_element_child());
}
