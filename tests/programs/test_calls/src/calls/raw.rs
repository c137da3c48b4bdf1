//! Nodes with their links, which may or may not be linked as a forest. `raw` takes those of a line,
//! and `bulk raw` those of each line on standard input.

use crate::lines::words::{cut, input, node_of};
use dom_links::validation::ValidateFault;
use dom_nodes::link::Link;
use dom_nodes::name::{LocalName, QualName};
use dom_nodes::node_data::{Attrs, Element, NodeData, TreeNode};
use dom_nodes::node_id::NodeId;
use dom_nodes::text::Text;
use dom_trees::tree::Tree;
use std::alloc::Global;

/// Returns the data of a node: `document`, `fragment`, `text`, `element`, or an id, for an element
/// with these template contents.
fn data_of(alloc: Global, word: &str) -> Option<NodeData> {
    match word {
        "document" => Some(NodeData::Document),
        "fragment" => Some(NodeData::Fragment),
        "text" => text(alloc),
        _ => element(alloc, node_of(word)),
    }
}

fn text(alloc: Global) -> Option<NodeData> {
    let contents = Text::new(alloc, "x").ok()?;
    Some(NodeData::Text { contents })
}

/// Returns the data of an element with these template contents.
fn element(alloc: Global, contents: Option<NodeId>) -> Option<NodeData> {
    let name = QualName::html(LocalName::new(alloc, "b").ok()?);
    Some(NodeData::Element(Element::new(name, Attrs::new(alloc), contents, false)))
}

/// Returns the node with this id: `KIND PARENT PREV NEXT FIRST LAST`.
fn raw_node(alloc: Global, number: usize, line: &str) -> Option<TreeNode> {
    let (kind, links) = cut(line);
    let (parent, siblings) = cut(links);
    let (prev, behind) = cut(siblings);
    let (next, children) = cut(behind);
    let (first, last) = cut(children);
    Some(TreeNode {
        id: NodeId::new(number)?,
        parent: Link::new(node_of(parent)),
        prev_sibling: Link::new(node_of(prev)),
        next_sibling: Link::new(node_of(next)),
        first_child: Link::new(node_of(first)),
        last_child: Link::new(node_of(last)),
        content: data_of(alloc, kind)?,
    })
}

fn nodes_of(alloc: Global, line: &str) -> Option<Vec<TreeNode>> {
    let mut nodes = Vec::new(alloc);
    for node in line.split(';') {
        let number = nodes.len();
        nodes.push(raw_node(alloc, number, node)?).ok()?;
    }
    Some(nodes)
}

/// Returns the nodes as `Debug` prints them.
fn printed(alloc: Global, nodes: &[TreeNode]) -> Option<String> {
    format!(in alloc; "{nodes:?}").ok()
}

/// Prints whether the nodes are linked as a forest, by `from_nodes` and `validate`, and whether a
/// failing `from_nodes` returns them unchanged.
fn check(rt: &HostRuntime, nodes: Vec<TreeNode>) -> Option<()> {
    let given = printed(rt.alloc(), &nodes)?;
    match Tree::from_nodes(nodes) {
        Ok(tree) => show_forest(rt, &tree, given.as_str()),
        Err((back, fault)) => show_refused(rt, &back, fault, given.as_str()),
    }
}

fn show_forest(rt: &HostRuntime, tree: &Tree, given: &str) -> Option<()> {
    let is_kept = printed(rt.alloc(), tree.nodes())?.as_str() == given;
    let is_valid = tree.validate().is_ok();
    println!(rt; "forest {is_kept} {is_valid}").ok()
}

fn show_refused(
    rt: &HostRuntime,
    back: &[TreeNode],
    fault: ValidateFault,
    given: &str,
) -> Option<()> {
    let is_kept = printed(rt.alloc(), back)?.as_str() == given;
    println!(rt; "{fault:?} {is_kept}").ok()
}

/// Checks the nodes of a line, which `;` separates.
pub fn check_line(rt: &HostRuntime, line: &str) -> Option<()> {
    check(rt, nodes_of(rt.alloc(), line)?)
}

/// Checks the nodes of each line on standard input.
pub fn check_all(rt: &HostRuntime) -> Option<()> {
    let text = input(rt)?;
    for line in text.as_str().lines() {
        check_line(rt, line)?;
    }
    Some(())
}
