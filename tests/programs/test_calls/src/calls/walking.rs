//! Lists of nodes, and calls of `Tree` that read nodes by their ids.

use crate::lines::printing::{show, show_ids_read, show_node, show_nodes_read, show_some};
use crate::lines::words::{node_of, nodes_of};
use dom_links::ops::TreeNodeOps;
use dom_nodes::node_id::NodeId;
use dom_trees::iters::{ancestor_nodes, child_nodes, descendant_nodes};
use dom_trees::node_ref::NodeRef;
use dom_trees::tree::Tree;

/// Prints the lists of nodes above and below a node, and the nodes beside it: `N`.
pub fn walk(rt: &HostRuntime, tree: &Tree, line: &str) -> Option<()> {
    let id = node_of(line)?;
    list(rt, &NodeRef::new(id, tree));
    list_beside(rt, tree, &id);
    count_steps(rt, tree, &id);
    begin(rt, &NodeRef::new(id, tree));
    ask(rt, tree, &id);
    Some(())
}

/// Prints the children of nodes: `N,M`.
pub fn list_children(rt: &HostRuntime, tree: &Tree, line: &str) -> Option<()> {
    for id in &nodes_of(rt.alloc(), line)? {
        show_ids_read(rt, "child_ids_of", tree.child_ids_of(id));
    }
    Some(())
}

/// Prints lists of nodes, as ids and as references.
fn list(rt: &HostRuntime, node: &NodeRef<'_>) {
    let (id, tree) = (&node.id, node.tree);
    show_ids_read(rt, "child_ids_of", tree.child_ids_of(id));
    show_ids_read(rt, "ancestor_ids_of", tree.ancestor_ids_of(id, None));
    show_ids_read(rt, "ancestor_ids_of 1", tree.ancestor_ids_of(id, Some(1)));
    show_ids_read(rt, "descendant_ids_of", tree.descendant_ids_of(id));
    show_nodes_read(rt, "children", node.children());
    show_nodes_read(rt, "element_children", node.element_children());
    show_nodes_read(rt, "ancestors", node.ancestors(None));
    show_nodes_read(rt, "ancestors 1", node.ancestors(Some(1)));
    show_nodes_read(rt, "descendants", node.descendants());
    show_nodes_read(rt, "children_of", tree.children_of(id));
    show_nodes_read(rt, "ancestors_of", tree.ancestors_of(id, None));
}

/// Prints the nodes beside a node.
fn list_beside(rt: &HostRuntime, tree: &Tree, id: &NodeId) {
    show_node(rt, "parent_of", &tree.parent_of(id));
    show_node(rt, "first_child_of", &tree.first_child_of(id));
    show_node(rt, "last_child_of", &tree.last_child_of(id));
    show_node(rt, "prev_sibling_of", &tree.prev_sibling_of(id));
    show_node(rt, "next_sibling_of", &tree.next_sibling_of(id));
    show_node(rt, "last_sibling_of", &tree.last_sibling_of(id));
}

/// Prints the first and the last child of a node, and the lengths of the walks from it: `N`.
pub fn count(rt: &HostRuntime, tree: &Tree, line: &str) -> Option<()> {
    count_steps(rt, tree, &node_of(line)?);
    Some(())
}

fn count_steps(rt: &HostRuntime, tree: &Tree, id: &NodeId) {
    let first = child_nodes(tree, id, false).next();
    show_some(rt, "child_nodes", first.map(NodeId::value));
    let last = tree.child_ids_of_it(id, true).next();
    show_some(rt, "child_ids_of_it from the end", last.map(NodeId::value));
    show(rt, "ancestor_nodes", ancestor_nodes(tree, id, None).count());
    let count = tree.ancestor_ids_of_it(id, None).count();
    show(rt, "ancestor_ids_of_it", count);
    show(rt, "descendant_nodes", descendant_nodes(tree, id).count());
    count_reads(rt, tree, id);
}

fn count_reads(rt: &HostRuntime, tree: &Tree, id: &NodeId) {
    let mut walk = tree.descendant_ids_of_it(id);
    while walk.next().is_some() {}
    show(rt, "reads", walk.reads());
}

/// Prints the first nodes of the iterators.
fn begin(rt: &HostRuntime, node: &NodeRef<'_>) {
    show_node(rt, "children_it", &node.children_it(false).next());
    let last = node.children_it(true).next();
    show_node(rt, "children_it from the end", &last);
    show_node(rt, "ancestors_it", &node.ancestors_it(None).next());
    show_node(rt, "descendants_it", &node.descendants_it().next());
}

/// Prints what the tree answers about the node.
fn ask(rt: &HostRuntime, tree: &Tree, id: &NodeId) {
    let root = tree.root_id();
    show_some(rt, "query_node", tree.query_node(id, |node| node.is_text()));
    show(
        rt,
        "query_node_or",
        tree.query_node_or(id, true, |node| node.is_text()),
    );
    let alike = tree.compare_node(id, &root, |a, b| a.is_text() == b.is_text());
    show_some(rt, "compare_node", alike);
    match tree.get_name(id) {
        Some(name) => show(rt, "get_name", name.local().as_str()),
        None => show(rt, "get_name", "-"),
    }
    show(rt, "get", tree.get(id).is_some());
    let is_valid = TreeNodeOps::is_valid_node_id(tree.nodes(), id);
    show(rt, "is_valid_node_id", is_valid);
    let is_marked = tree.is_mathml_annotation_xml_integration_point(id);
    show(rt, "is_mathml_annotation_xml_integration_point", is_marked);
}
