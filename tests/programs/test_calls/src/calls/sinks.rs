//! Calls of `TreeSink` on a `Document`.

use crate::lines::names::{attributes, name_of};
use crate::lines::printing::{show, show_edit, show_read, show_some};
use crate::lines::words::{cut, node_of};
use dom_markup::document::sink::{ElementFlags, NodeOrText, TreeSink};
use dom_markup::document::{Document, QuirksMode};
use dom_nodes::fault::EditFault;
use dom_nodes::name::Namespace;
use dom_nodes::node_id::NodeId;

/// Makes a node: `CALL WORDS`.
pub fn make(rt: &HostRuntime, document: &mut Document, line: &str) -> Option<()> {
    let (call, words) = cut(line);
    let (name, rest) = cut(words);
    let made = match call {
        "create_element" => element(document, name, rest)?,
        "create_comment" => document.create_comment(words),
        "create_pi" => document.create_pi(name, rest),
        _ => return None,
    };
    show_read(rt, call, made.map(NodeId::value));
    Some(())
}

/// Makes an element with these attributes. The name `template` makes a template, and the name
/// `mathml:annotation-xml` an element with the flag of an integration point.
fn element(document: &mut Document, name: &str, attrs: &str) -> Option<Result<NodeId, EditFault>> {
    let alloc = document.tree.allocator();
    let attrs = attributes(alloc, attrs)?;
    let flags = ElementFlags {
        template: name == "template",
        mathml_annotation_xml_integration_point: name == "mathml:annotation-xml",
    };
    let name = name_of(alloc, name, Namespace::Html)?;
    Some(document.create_element(name, attrs, flags))
}

/// Inserts a node or a text: `CALL N M` or `CALL N TEXT`. The call that chooses by the parent takes
/// another node after the first one.
pub fn put(rt: &HostRuntime, document: &mut Document, line: &str) -> Option<()> {
    let (call, rest) = cut(line);
    let (word, words) = cut(rest);
    let id = node_of(word)?;
    let child = child_of(words);
    let edit = match call {
        "append" => document.append(&id, child),
        "append_before_sibling" => document.append_before_sibling(&id, child),
        "append_based_on_parent_node" => {
            let (word, words) = cut(words);
            document.append_based_on_parent_node(&id, &node_of(word)?, child_of(words))
        }
        _ => return None,
    };
    show_edit(rt, call, edit);
    Some(())
}

/// Returns the node with this id, or otherwise the text.
fn child_of(words: &str) -> NodeOrText<'_> {
    match node_of(words) {
        Some(child) => NodeOrText::AppendNode(child),
        None => NodeOrText::AppendText(words),
    }
}

/// Makes another call that changes the document: `CALL N WORDS`.
pub fn change(rt: &HostRuntime, document: &mut Document, line: &str) -> Option<()> {
    let (call, rest) = cut(line);
    let (word, words) = cut(rest);
    let id = node_of(word)?;
    let edit = match call {
        "append_doctype_to_document" => document.append_doctype_to_document(words, "p", "s"),
        "add_attrs_if_missing" => {
            let attrs = attributes(document.tree.allocator(), words)?;
            document.add_attrs_if_missing(&id, attrs)
        }
        "remove_from_parent" => document.remove_from_parent(&id),
        "reparent_children" => document.reparent_children(&id, &node_of(words)?),
        _ => return None,
    };
    show_edit(rt, call, edit);
    Some(())
}

/// Stores a parse error and the quirks mode, and prints what the document has of them.
pub fn note(rt: &HostRuntime, document: &mut Document, error: &str) {
    if let Err(fault) = document.parse_error(error) {
        show(rt, "parse_error", fault);
    }
    document.set_quirks_mode(QuirksMode::LimitedQuirks);
    for error in document.errors.as_slice() {
        show(rt, "error", error.as_str());
    }
    let is_limited = document.quirks_mode == QuirksMode::LimitedQuirks;
    show(rt, "limited quirks", is_limited);
}

/// Prints what a sink answers about a node: `N`.
pub fn ask(rt: &HostRuntime, document: &Document, line: &str) -> Option<()> {
    let id = node_of(line)?;
    let root = document.get_document();
    show(rt, "same_node", document.same_node(&id, &root));
    let name = document.elem_name(&id).map(|name| name.local().as_str());
    show_some(rt, "elem_name", name);
    let contents = document.get_template_contents(&id);
    show_some(rt, "get_template_contents", contents.map(NodeId::value));
    let is_marked = document.is_mathml_annotation_xml_integration_point(&id);
    show(rt, "is_mathml_annotation_xml_integration_point", is_marked);
    Some(())
}
