//! Calls of `TreeIndex`.

use crate::lines::printing::{begin, end, show, show_next, show_some};
use crate::lines::words::{cut, node_of};
use dom_index::index::TreeIndex;
use dom_links::indexes::IndexKind;
use dom_nodes::node_id::NodeId;
use dom_trees::tree::Tree;

/// Prints what an index answers about two nodes: `N M`.
pub fn ask(rt: &HostRuntime, tree: &Tree, line: &str) -> Option<()> {
    let (first, second) = cut(line);
    let (id, other) = (node_of(first)?, node_of(second)?);
    match TreeIndex::new(tree) {
        Ok(mut index) => ask_index(rt, &mut index, &id, &other),
        Err(fault) => show(rt, "TreeIndex::new", fault),
    }
    Some(())
}

fn ask_index(rt: &HostRuntime, index: &mut TreeIndex<'_>, id: &NodeId, other: &NodeId) {
    show_some(rt, "position", index.position(id));
    show_some(rt, "last_below", index.last_below(id));
    show(rt, "is_below", index.is_below(id, other));
    list(rt, index, id);
    count(rt, index, id);
}

/// Prints the descendants of a node.
fn list(rt: &HostRuntime, index: &TreeIndex<'_>, id: &NodeId) {
    begin(rt, "descendants");
    for below in index.descendants(id) {
        show_next(rt, below);
    }
    end(rt);
}

/// Prints the indexes of a node among its siblings.
fn count(rt: &HostRuntime, index: &mut TreeIndex<'_>, id: &NodeId) {
    for (name, kind) in &[
        ("child", IndexKind::Child),
        ("last child", IndexKind::LastChild),
        ("of type", IndexKind::OfType),
        ("last of type", IndexKind::LastOfType),
    ] {
        show_some(rt, name, index.index_at(id, *kind));
    }
}

/// Prints the position of each node in document order.
pub fn show_places(rt: &HostRuntime, tree: &Tree) {
    match TreeIndex::new(tree) {
        Ok(index) => list_places(rt, &index, tree.len()),
        Err(fault) => show(rt, "TreeIndex::new", fault),
    }
}

fn list_places(rt: &HostRuntime, index: &TreeIndex<'_>, many: usize) {
    for number in 0..many {
        if let Some(place) = place_of(index, number) {
            println!(rt; "place of {number}: {place}").ok();
        }
    }
}

fn place_of(index: &TreeIndex<'_>, number: usize) -> Option<usize> {
    index.position(&NodeId::new(number)?)
}
