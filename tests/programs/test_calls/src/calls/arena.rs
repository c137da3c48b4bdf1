//! Calls of `TreeNodeOps` on nodes that are in no tree: copies of the nodes of the document.

use crate::lines::printing::{show, show_read};
use crate::lines::words::{cut, named, node_of};
use dom_links::gap::{InsertionPoint, MovedNodes};
use dom_links::iters::{AncestorNodes, ChildNodes, DescendantNodes};
use dom_links::ops::TreeNodeOps;
use dom_markup::serializing::NodeMarkup;
use dom_nodes::node_data::{NodeData, TreeNode};
use dom_nodes::node_id::NodeId;
use dom_nodes::text::Text;
use dom_trees::tree::Tree;
use std::alloc::Global;

/// A call that edits nodes.
#[derive(Clone, Copy, Drop)]
enum Call {
    MoveTo,
    AppendChildOf,
    PrependChildOf,
    InsertBeforeOf,
    InsertAfterOf,
    AppendChildrenOf,
    PrependChildrenOf,
    InsertSiblingsBefore,
    InsertSiblingsAfter,
    RemoveFromParent,
    ReparentChildrenOf,
    StripElements,
    SetText,
    AppendChildDataOf,
    CreateNode,
    Normalize,
}

#[rattlefmt::skip]
const CALLS: [(&str, Call); 16] = [
    ("move_to", Call::MoveTo), ("append_child_of", Call::AppendChildOf),
    ("prepend_child_of", Call::PrependChildOf), ("insert_before_of", Call::InsertBeforeOf),
    ("insert_after_of", Call::InsertAfterOf), ("append_children_of", Call::AppendChildrenOf),
    ("prepend_children_of", Call::PrependChildrenOf),
    ("insert_siblings_before", Call::InsertSiblingsBefore),
    ("insert_siblings_after", Call::InsertSiblingsAfter),
    ("remove_from_parent", Call::RemoveFromParent),
    ("reparent_children_of", Call::ReparentChildrenOf), ("strip_elements", Call::StripElements),
    ("set_text", Call::SetText), ("append_child_data_of", Call::AppendChildDataOf),
    ("create_node", Call::CreateNode), ("normalize", Call::Normalize),
];

/// Edits copies of the nodes, and prints the HTML of the tree that they then are: `CALL N M`. A
/// call of one node takes it twice: `CALL N N`.
pub fn edit(rt: &HostRuntime, tree: &Tree, line: &str) -> Option<()> {
    let (word, rest) = cut(line);
    let (target, moved) = cut(rest);
    let call = named(&CALLS, word)?;
    let mut nodes = copies(tree)?;
    edit_nodes(&mut nodes, call, node_of(target)?, node_of(moved)?)?;
    match Tree::from_nodes(nodes) {
        Ok(edited) => show_tree(rt, word, &edited),
        Err((_nodes, fault)) => show(rt, "from_nodes", fault),
    }
    Some(())
}

fn show_tree(rt: &HostRuntime, what: &str, tree: &Tree) {
    show_read(rt, what, tree.root().html());
    show(rt, "len", tree.len());
}

/// Returns copies of the nodes of a tree.
fn copies(tree: &Tree) -> Option<Vec<TreeNode>> {
    let mut nodes = Vec::new(tree.allocator());
    TreeNode::push_copies(&mut nodes, tree.nodes()).ok()?;
    TreeNodeOps::validate(tree.allocator(), &nodes).ok()?;
    Some(nodes)
}

/// Returns whether nodes may be moved to an insertion point.
fn may_move(
    nodes: &[TreeNode],
    gap: InsertionPoint,
    t: NodeId,
    moving: MovedNodes,
    x: NodeId,
) -> bool {
    if !TreeNodeOps::is_valid_node_id(nodes, &t) || !TreeNodeOps::is_valid_node_id(nodes, &x) {
        return false;
    }
    TreeNodeOps::may_move(nodes, t, moving)
}

/// Moves a node.
fn move_node(nodes: &mut [TreeNode], call: Call, t: NodeId, x: NodeId) {
    match call {
        Call::MoveTo if may_move(nodes, InsertionPoint::FrontOf(t), t, MovedNodes::Node(x), x) => {
            TreeNodeOps::move_to(nodes, InsertionPoint::FrontOf(t), MovedNodes::Node(x))
        }
        Call::AppendChildOf
            if may_move(nodes, InsertionPoint::EndOf(t), t, MovedNodes::Node(x), x) => {
            TreeNodeOps::append_child_of(nodes, t, x)
        }
        Call::PrependChildOf
            if may_move(nodes, InsertionPoint::FrontOf(t), t, MovedNodes::Node(x), x) => {
            TreeNodeOps::prepend_child_of(nodes, t, x)
        }
        Call::InsertBeforeOf
            if may_move(nodes, InsertionPoint::Before(t), t, MovedNodes::Node(x), x) => {
            TreeNodeOps::insert_before_of(nodes, t, x)
        }
        Call::InsertAfterOf
            if may_move(nodes, InsertionPoint::After(t), t, MovedNodes::Node(x), x) => {
            TreeNodeOps::insert_after_of(nodes, t, x)
        }
        _ => move_nodes(nodes, call, t, x),
    }
}

/// Moves a node with siblings of it.
fn move_nodes(nodes: &mut [TreeNode], call: Call, t: NodeId, x: NodeId) {
    match call {
        Call::AppendChildrenOf
            if may_move(
                nodes,
                InsertionPoint::EndOf(t),
                t,
                MovedNodes::WithLater(x),
                x,
            ) => { TreeNodeOps::append_children_of(nodes, t, x) }
        Call::PrependChildrenOf
            if may_move(
                nodes,
                InsertionPoint::FrontOf(t),
                t,
                MovedNodes::WholeList(x),
                x,
            ) => { TreeNodeOps::prepend_children_of(nodes, t, x) }
        Call::InsertSiblingsBefore
            if may_move(
                nodes,
                InsertionPoint::Before(t),
                t,
                MovedNodes::WithLater(x),
                x,
            ) => { TreeNodeOps::insert_siblings_before(nodes, t, x) }
        Call::InsertSiblingsAfter
            if may_move(
                nodes,
                InsertionPoint::After(t),
                t,
                MovedNodes::WithLater(x),
                x,
            ) => { TreeNodeOps::insert_siblings_after(nodes, t, x) }
        _ => cut_out(nodes, call, x),
    }
}

/// Detaches nodes, or replaces all elements `b` by their children.
fn cut_out(nodes: &mut [TreeNode], call: Call, x: NodeId) {
    if !TreeNodeOps::is_valid_node_id(nodes, &x) {
        return;
    }
    match call {
        Call::RemoveFromParent => TreeNodeOps::remove_from_parent(nodes, x),
        Call::ReparentChildrenOf => TreeNodeOps::reparent_children_of(nodes, x, None),
        Call::StripElements => TreeNodeOps::strip_elements(nodes, NodeId::root(), &["b"]),
        _ => {}
    }
}

fn edit_nodes(nodes: &mut Vec<TreeNode>, call: Call, t: NodeId, x: NodeId) -> Option<()> {
    let alloc = *nodes.allocator();
    match call {
        Call::SetText => return TreeNodeOps::set_text(nodes, t, "z").ok(),
        Call::Normalize => return joined(alloc, nodes, t),
        Call::CreateNode => {
            TreeNodeOps::create_node(nodes, NodeData::Fragment).ok()?;
        }
        Call::AppendChildDataOf => {
            let contents = Text::new(alloc, "c").ok()?;
            TreeNodeOps::append_child_data_of(nodes, t, NodeData::Comment { contents }).ok()?;
        }
        _ => move_node(nodes, call, t, x),
    }
    Some(())
}

/// Replaces the elements `b` by their children, and joins the texts that are adjacent after that.
fn joined(alloc: Global, nodes: &mut [TreeNode], t: NodeId) -> Option<()> {
    TreeNodeOps::strip_elements(nodes, NodeId::root(), &["b"]);
    TreeNodeOps::normalize(alloc, nodes, t).ok()
}

/// Prints what the queries answer about two nodes: `N M`.
pub fn ask(rt: &HostRuntime, tree: &Tree, line: &str) -> Option<()> {
    let (first, second) = cut(line);
    let (t, x) = (node_of(first)?, node_of(second)?);
    let nodes = tree.nodes();
    let (around, walks) = (around(nodes, t), walks(nodes, t));
    println!(rt; "around: {around:?}").ok();
    println!(rt; "walks: {walks:?}").ok();
    let allowed = allowed(nodes, t, x);
    println!(rt; "allowed: {allowed:?}").ok();
    let (alloc, nodes) = (rt.alloc(), tree.nodes());
    show_read(rt, "text_of", TreeNodeOps::text_of(alloc, nodes, &t));
    let own = TreeNodeOps::immediate_text_of(alloc, nodes, &t);
    show_read(rt, "immediate_text_of", own);
    let count = TreeNodeOps::normalized_char_count(nodes, &t);
    show(rt, "normalized_char_count", count);
    Some(())
}

/// Returns the first child element of a node, its last sibling, and the nearest elements beside it.
fn around(nodes: &[TreeNode], t: NodeId) -> [Option<NodeId>; 4] {
    [
        TreeNodeOps::first_element_child_of(nodes, &t),
        TreeNodeOps::last_sibling_of(nodes, &t),
        TreeNodeOps::next_element_sibling_of(nodes, &t),
        TreeNodeOps::prev_element_sibling_of(nodes, &t),
    ]
}

/// Returns the first results of iterators: over the ancestors of a node; over its children from
/// both ends; over its descendants, from the second one on, by the iterator and by a copy of it.
fn walks(nodes: &[TreeNode], t: NodeId) -> [Option<NodeId>; 5] {
    let mut below = DescendantNodes::new(nodes, &t);
    below.next();
    let mut again = below.again();
    [
        AncestorNodes::new(nodes, &t, None).next(),
        ChildNodes::new(nodes, &t, false).next(),
        ChildNodes::new(nodes, &t, true).next(),
        below.next(),
        again.next(),
    ]
}

/// Returns whether `t` may have children and siblings, and whether `x` alone, `x` with its later
/// siblings, and all siblings of `x` may be moved there.
fn allowed(nodes: &[TreeNode], t: NodeId, x: NodeId) -> Option<[bool; 5]> {
    if !TreeNodeOps::is_valid_node_id(nodes, &t) || !TreeNodeOps::is_valid_node_id(nodes, &x) {
        return None;
    }
    Some([
        TreeNodeOps::may_have_children(nodes, t),
        TreeNodeOps::may_have_siblings(nodes, t),
        TreeNodeOps::may_place(nodes, t, x),
        TreeNodeOps::may_place_run(nodes, t, x),
        TreeNodeOps::may_move(nodes, t, MovedNodes::WholeList(x)),
    ])
}
