//! Questions about single nodes that `NodeSelect` answers.

use crate::lines::printing::show;
use crate::lines::words::{cut, node_of};
use dom_nodes::case_sensitivity::CaseSensitivity;
use dom_nodes::name::Namespace;
use dom_select::node_select::NodeSelect;
use dom_selectors::css::CssLocalName;
use dom_selectors::pseudo_class::NonTSPseudoClass;
use dom_trees::node_ref::NodeRef;
use dom_trees::tree::Tree;

/// Prints which kinds the node is of: `N`.
pub fn show_kinds(rt: &HostRuntime, tree: &Tree, line: &str) -> Option<()> {
    let node = NodeRef::new(node_of(line)?, tree);
    show(rt, "is_root", NodeSelect::is_root(&node));
    show(rt, "has_only_text", node.has_only_text());
    show(rt, "is_empty_element", node.is_empty_element());
    show(rt, "is_link", NodeSelect::is_link(&node));
    show(rt, "has_namespace", is_html(&node));
    let is_html = node.is_html_element_in_html_document();
    show(rt, "is_html_element_in_html_document", is_html);
    Some(())
}

fn is_html(node: &NodeRef<'_>) -> bool {
    node.has_namespace(&Namespace::Html)
}

/// Prints whether the node has a name, an id and a text, and whether it has the same element type
/// as the first child of the root: `N NAME ID TEXT`.
pub fn show_named(rt: &HostRuntime, tree: &Tree, line: &str) -> Option<()> {
    let (word, words) = cut(line);
    let (name, rest) = cut(words);
    let (value, text) = cut(rest);
    let node = NodeRef::new(node_of(word)?, tree);
    let Some(first) = tree.root().first_child() else {
        return None;
    };
    show_name(rt, &node, name)?;
    show_id(rt, &node, value)?;
    show(rt, "is_same_type", node.is_same_type(&first));
    show(rt, "has_text", node.has_text(text));
    Some(())
}

fn show_name(rt: &HostRuntime, node: &NodeRef<'_>, word: &str) -> Option<()> {
    let name = CssLocalName::new(rt.alloc(), word).ok()?;
    show(rt, "has_local_name", node.has_local_name(&name));
    Some(())
}

fn show_id(rt: &HostRuntime, node: &NodeRef<'_>, word: &str) -> Option<()> {
    let id = CssLocalName::new(rt.alloc(), word).ok()?;
    let is_same = node.has_id(&id, CaseSensitivity::CaseSensitive);
    show(rt, "has_id", is_same);
    let is_alike = node.has_id(&id, CaseSensitivity::AsciiCaseInsensitive);
    show(rt, "has_id without case", is_alike);
    Some(())
}

/// Prints which of four pseudo-classes match the node: `N`.
pub fn show_pseudos(rt: &HostRuntime, tree: &Tree, line: &str) -> Option<()> {
    let node = NodeRef::new(node_of(line)?, tree);
    for (name, pseudo) in &[
        ("any-link", NonTSPseudoClass::AnyLink),
        ("link", NonTSPseudoClass::Link),
        ("only-text", NonTSPseudoClass::OnlyText),
        ("hover", NonTSPseudoClass::Hover),
    ] {
        show(rt, name, node.match_non_ts_pseudo_class(pseudo));
    }
    Some(())
}
