//! Calls of `Tree` that edit it: moves, new nodes, texts and copies.

use crate::calls::node_calls::edited;
use crate::lines::printing::{show_edit, show_ids_read, show_read};
use crate::lines::words::{cut, node_of, nodes_of, words_of};
use dom_links::gap::Place;
use dom_nodes::fault::EditFault;
use dom_nodes::name::{LocalName, QualName};
use dom_nodes::node_data::{NodeData, NodeEdit};
use dom_nodes::node_id::NodeId;
use dom_nodes::text::Text;
use dom_trees::tree::Tree;

/// Makes a move: `CALL N M`, or `CALL N`.
pub fn move_nodes(rt: &HostRuntime, tree: &mut Tree, line: &str) -> Option<()> {
    let (call, rest) = cut(line);
    let (word, behind) = cut(rest);
    let id = node_of(word)?;
    let edit = match node_of(behind) {
        Some(other) => moved(tree, call, &id, &other)?,
        None => cut_out(tree, call, &id)?,
    };
    show_edit(rt, call, edit);
    Some(())
}

/// Makes a move of two nodes. Returns `None` if there is no such call.
fn moved(
    tree: &mut Tree,
    call: &str,
    id: &NodeId,
    other: &NodeId,
) -> Option<Result<(), EditFault>> {
    Some(match call {
        "append_child_of" => tree.append_child_of(id, other),
        "prepend_child_of" => tree.prepend_child_of(id, other),
        "insert_before_of" => tree.insert_before_of(id, other),
        "insert_after_of" => tree.insert_after_of(id, other),
        "append_children_of" => tree.append_children_of(id, other),
        "prepend_children_of" => tree.prepend_children_of(id, other),
        "insert_siblings_before" => tree.insert_siblings_before(id, other),
        "insert_siblings_after" => tree.insert_siblings_after(id, other),
        "reparent_children_of" => tree.reparent_children_of(id, Some(*other)),
        "replace_with" => tree.replace_with(id, other),
        "wrap_node" => tree.wrap_node(id, other),
        _ => return None,
    })
}

/// Makes an edit that takes one node. Returns `None` if there is no such call.
fn cut_out(tree: &mut Tree, call: &str, id: &NodeId) -> Option<Result<(), EditFault>> {
    Some(match call {
        "remove_from_parent" => tree.remove_from_parent(id),
        "remove_children_of" => tree.remove_children_of(id),
        "reparent_children_of" => tree.reparent_children_of(id, None),
        "unwrap_node" => tree.unwrap_node(id),
        "normalize_of" => tree.normalize_of(id),
        _ => return None,
    })
}

/// Makes a call at a node, by a mutable borrow: `N CALL WORDS`.
pub fn edit_node(rt: &HostRuntime, tree: &mut Tree, line: &str) -> Option<()> {
    let (_, rest) = cut(line);
    let (call, _) = cut(rest);
    show_edit(rt, call, edited(tree, line)?);
    Some(())
}

/// Makes a new node: `CALL TEXT`.
pub fn make_node(rt: &HostRuntime, tree: &mut Tree, line: &str) -> Option<()> {
    let (call, text) = cut(line);
    let made = made(tree, call, text)?;
    show_read(rt, call, made.map(NodeId::value));
    Some(())
}

/// Makes a node with this text. Returns `None` if there is no such call.
fn made(tree: &mut Tree, call: &str, text: &str) -> Option<Result<NodeId, EditFault>> {
    Some(match call {
        "new_element" => tree.new_element(text),
        "new_element_qualname" => {
            let local = LocalName::new(tree.allocator(), text).ok()?;
            tree.new_element_qualname(QualName::html(local))
        }
        "new_text" => tree.new_text(text),
        "new_comment" => tree.new_comment(text),
        "new_fragment" => tree.create_node(NodeData::Fragment),
        _ => return None,
    })
}

/// Changes a node: `CALL N TEXT`.
pub fn change_node(rt: &HostRuntime, tree: &mut Tree, line: &str) -> Option<()> {
    let (call, rest) = cut(line);
    let (word, text) = cut(rest);
    let id = node_of(word)?;
    let edit = match call {
        "set_text_of" => tree.set_text_of(&id, text),
        "update_node" => updated(tree, &id, text)?,
        "strip_elements_of" => {
            tree.strip_elements_of(&id, &words_of(tree.allocator(), text)?);
            Ok(())
        }
        _ => return None,
    };
    show_edit(rt, call, edit);
    Some(())
}

/// Replaces the contents of a node by an update.
fn updated(tree: &mut Tree, id: &NodeId, text: &str) -> Option<Result<(), EditFault>> {
    let contents = Text::new(tree.allocator(), text).ok()?;
    Some(tree.update_node(id, move |edit: &mut NodeEdit| edit.contents = contents))
}

/// Copies nodes: `CALL N,M`; or copies them and appends the copies to the children of the node K:
/// `CALL N,M K`.
pub fn copy_nodes(rt: &HostRuntime, tree: &mut Tree, line: &str) -> Option<()> {
    let (call, rest) = cut(line);
    let (words, at) = cut(rest);
    let ids = nodes_of(tree.allocator(), words)?;
    match node_of(at) {
        Some(at) => show_edit(rt, call, put(tree, call, &ids, &at)?),
        None => show_ids_read(rt, call, copied(tree, call, &ids)?),
    }
    Some(())
}

/// Appends copies of nodes to the children of another node. They are nodes of this tree, or of a
/// copy of it.
fn put(tree: &mut Tree, call: &str, ids: &[NodeId], at: &NodeId) -> Option<Result<(), EditFault>> {
    if call == "copy_at" {
        return Some(tree.copy_at(at, Place::AtEnd, ids));
    }
    let other = tree.try_clone().ok()?;
    Some(tree.merge_at(at, Place::AtEnd, &other, ids))
}

/// Copies nodes of this tree, or of a copy of it. The copies are detached.
fn copied(tree: &mut Tree, call: &str, ids: &[NodeId]) -> Option<Result<Vec<NodeId>, EditFault>> {
    if call == "copy_nodes" {
        return Some(tree.copy_nodes(ids));
    }
    let other = tree.try_clone().ok()?;
    Some(tree.merge(&other, ids))
}
