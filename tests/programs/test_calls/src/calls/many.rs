//! Calls of `SelectionMut`, which edits several nodes.

use crate::lines::printing::show_edit;
use crate::lines::words::{cut, nodes_of, words_of};
use dom_edits::edit::SelectionFault;
use dom_edits::selection_mut::SelectionMut;
use dom_nodes::node_id::NodeId;
use dom_trees::tree::Tree;

/// Makes a call at nodes: `N,M CALL WORDS`. Nodes as arguments are written `N,M` too.
pub fn call(rt: &HostRuntime, tree: &mut Tree, line: &str) -> Option<()> {
    let alloc = tree.allocator();
    let (numbers, rest) = cut(line);
    let (call, words) = cut(rest);
    let mut nodes = SelectionMut::new(tree, nodes_of(alloc, numbers)?);
    let edit = if call.ends_with("_selection") {
        given(&mut nodes, call, &nodes_of(alloc, words)?)?
    } else if call.ends_with("_html") {
        put(&mut nodes, call, words)?
    } else if call.ends_with("_attrs") || call == "strip_elements" {
        lessened(&mut nodes, call, &words_of(alloc, words)?)?
    } else {
        changed(&mut nodes, call, words)?
    };
    show_edit(rt, call, edit);
    Some(())
}

fn given(
    nodes: &mut SelectionMut<'_>,
    call: &str,
    ids: &[NodeId],
) -> Option<Result<(), SelectionFault>> {
    Some(match call {
        "append_selection" => nodes.append_selection(ids),
        "prepend_selection" => nodes.prepend_selection(ids),
        "replace_with_selection" => nodes.replace_with_selection(ids),
        _ => return None,
    })
}

/// Inserts markup at each of the nodes.
fn put(nodes: &mut SelectionMut<'_>, call: &str, html: &str) -> Option<Result<(), SelectionFault>> {
    Some(match call {
        "set_html" => nodes.set_html(html),
        "append_html" => nodes.append_html(html),
        "prepend_html" => nodes.prepend_html(html),
        "before_html" => nodes.before_html(html),
        "after_html" => nodes.after_html(html),
        "replace_with_html" => nodes.replace_with_html(html),
        _ => return None,
    })
}

fn changed(
    nodes: &mut SelectionMut<'_>,
    call: &str,
    words: &str,
) -> Option<Result<(), SelectionFault>> {
    let (name, value) = cut(words);
    Some(match call {
        "remove" => nodes.remove(),
        "set_text" => nodes.set_text(words),
        "set_attr" => nodes.set_attr(name, value),
        "rename" => nodes.rename(name),
        "add_class" => nodes.add_class(words),
        "remove_class" => nodes.remove_class(words),
        "remove_attr" => nodes.remove_attr(name),
        _ => return None,
    })
}

/// Removes elements or attributes by their names.
fn lessened(
    nodes: &mut SelectionMut<'_>,
    call: &str,
    names: &[&str],
) -> Option<Result<(), SelectionFault>> {
    Some(match call {
        "strip_elements" => nodes.strip_elements(names),
        "remove_attrs" => nodes.remove_attrs(names),
        "retain_attrs" => nodes.retain_attrs(names),
        "remove_all_attrs" => nodes.remove_all_attrs(),
        _ => return None,
    })
}
