//! Edits of the document before it is tested. They make elements that no markup can produce, and
//! nodes whose ids aren't in document order.

use crate::lines::names::{attributes, name_of};
use crate::lines::printing::{show_edit, show_read};
use crate::lines::words::{cut, node_of};
use dom_markup::document::Document;
use dom_markup::document::sink::{ElementFlags, TreeSink};
use dom_nodes::name::Namespace;
use dom_nodes::node_id::NodeId;
use dom_trees::tree::Tree;

const PLAIN: ElementFlags = ElementFlags {
    template: false,
    mathml_annotation_xml_integration_point: false,
};

/// Moves a node: `prepend_child_of N M`, or `remove_from_parent N`.
pub fn move_node(rt: &HostRuntime, tree: &mut Tree, line: &str) -> Option<()> {
    let (call, words) = cut(line);
    let (word, other) = cut(words);
    let id = node_of(word)?;
    let edit = match call {
        "prepend_child_of" => tree.prepend_child_of(&id, &node_of(other)?),
        "remove_from_parent" => tree.remove_from_parent(&id),
        _ => return None,
    };
    show_edit(rt, call, edit);
    Some(())
}

/// Creates a detached element with these attributes: `create_element NAME ATTRIBUTES`.
pub fn make_element(rt: &HostRuntime, document: &mut Document, line: &str) -> Option<()> {
    let alloc = document.tree.allocator();
    let (name, attrs) = cut(line.strip_prefix("create_element ")?);
    let attrs = attributes(alloc, attrs)?;
    let name = name_of(alloc, name, Namespace::Html)?;
    let made = document.create_element(name, attrs, PLAIN);
    show_read(rt, "create_element", made.map(NodeId::value));
    Some(())
}
