//! Calls of `NodeMut` and `NodeMutMarkup`, which edit a node by a mutable borrow of its tree.

use crate::lines::words::{cut, named, node_of, words_of};
use dom_markup::setters::NodeMutMarkup;
use dom_nodes::fault::EditFault;
use dom_nodes::node_data::NodeEdit;
use dom_nodes::node_id::NodeId;
use dom_nodes::text::Text;
use dom_trees::node_mut::NodeMut;
use dom_trees::tree::Tree;

/// Makes the call of a line `N CALL WORDS`. Returns `None` if there is no such call.
pub fn edited(tree: &mut Tree, line: &str) -> Option<Result<(), EditFault>> {
    let (word, rest) = cut(line);
    let id = node_of(word)?;
    let mut node = tree.node_mut(&NodeId::root())?;
    // For an id that the tree doesn't have, the calls fail.
    node.id = id;
    called(&mut node, rest)
}

/// Makes the call of a line `CALL WORDS`.
fn called(node: &mut NodeMut<'_>, line: &str) -> Option<Result<(), EditFault>> {
    let (call, words) = cut(line);
    match node_of(words) {
        Some(other) => Some(moved(node, named(&MOVES, call)?, &other)),
        None => put_or_changed(node, call, words),
    }
}

fn put_or_changed(
    node: &mut NodeMut<'_>,
    call: &str,
    words: &str,
) -> Option<Result<(), EditFault>> {
    match (named(&PUTS, call), named(&CHANGES, call)) {
        (Some(putting), _) => Some(put(node, putting, words)),
        (None, Some(changing)) => Some(changed(node, changing, words)),
        (None, None) => changed_always(node, named(&CUTS, call)?, words).map(Ok),
    }
}

/// A call that moves the node or another one.
#[derive(Clone, Copy, Drop)]
enum Moving {
    AppendChild,
    PrependChild,
    InsertBefore,
    InsertAfter,
    AppendChildren,
    PrependChildren,
    InsertSiblingsBefore,
    InsertSiblingsAfter,
    ReplaceWith,
    WrapNode,
}

#[rattlefmt::skip]
const MOVES: [(&str, Moving); 10] = [
    ("append_child", Moving::AppendChild), ("prepend_child", Moving::PrependChild),
    ("insert_before", Moving::InsertBefore), ("insert_after", Moving::InsertAfter),
    ("append_children", Moving::AppendChildren), ("prepend_children", Moving::PrependChildren),
    ("insert_siblings_before", Moving::InsertSiblingsBefore),
    ("insert_siblings_after", Moving::InsertSiblingsAfter), ("replace_with", Moving::ReplaceWith),
    ("wrap_node", Moving::WrapNode),
];

fn moved(node: &mut NodeMut<'_>, moving: Moving, other: &NodeId) -> Result<(), EditFault> {
    match moving {
        Moving::AppendChild => node.append_child(other),
        Moving::PrependChild => node.prepend_child(other),
        Moving::InsertBefore => node.insert_before(other),
        Moving::InsertAfter => node.insert_after(other),
        Moving::AppendChildren => node.append_children(other),
        Moving::PrependChildren => node.prepend_children(other),
        Moving::InsertSiblingsBefore => node.insert_siblings_before(other),
        Moving::InsertSiblingsAfter => node.insert_siblings_after(other),
        Moving::ReplaceWith => node.replace_with(other),
        Moving::WrapNode => node.wrap_node(other),
    }
}

/// A call that inserts markup at the node.
#[derive(Clone, Copy, Drop)]
enum Putting {
    Set,
    Append,
    Prepend,
    Before,
    After,
    ReplaceWith,
    Wrap,
}

fn put(node: &mut NodeMut<'_>, putting: Putting, html: &str) -> Result<(), EditFault> {
    match putting {
        Putting::Set => node.set_html(html),
        Putting::Append => node.append_html(html),
        Putting::Prepend => node.prepend_html(html),
        Putting::Before => node.before_html(html),
        Putting::After => node.after_html(html),
        Putting::ReplaceWith => node.replace_with_html(html),
        Putting::Wrap => node.wrap_html(html),
    }
}

#[rattlefmt::skip]
const PUTS: [(&str, Putting); 7] = [
    ("set_html", Putting::Set), ("append_html", Putting::Append),
    ("prepend_html", Putting::Prepend), ("before_html", Putting::Before),
    ("after_html", Putting::After), ("replace_with_html", Putting::ReplaceWith),
    ("wrap_html", Putting::Wrap),
];

/// A change that can fail.
#[derive(Clone, Copy, Drop)]
enum Changing {
    RemoveFromParent,
    RemoveChildren,
    UnwrapNode,
    SetText,
    Normalize,
    SetAttr,
    Rename,
    AddClass,
    RemoveClass,
}

#[rattlefmt::skip]
const CHANGES: [(&str, Changing); 9] = [
    ("remove_from_parent", Changing::RemoveFromParent),
    ("remove_children", Changing::RemoveChildren), ("unwrap_node", Changing::UnwrapNode),
    ("set_text", Changing::SetText), ("normalize", Changing::Normalize),
    ("set_attr", Changing::SetAttr), ("rename", Changing::Rename),
    ("add_class", Changing::AddClass), ("remove_class", Changing::RemoveClass),
];

fn changed(node: &mut NodeMut<'_>, changing: Changing, words: &str) -> Result<(), EditFault> {
    let (name, value) = cut(words);
    match changing {
        Changing::RemoveFromParent => node.remove_from_parent(),
        Changing::RemoveChildren => node.remove_children(),
        Changing::UnwrapNode => node.unwrap_node(),
        Changing::SetText => node.set_text(words),
        Changing::Normalize => node.normalize(),
        Changing::SetAttr => node.set_attr(name, value),
        Changing::Rename => node.rename(name),
        Changing::AddClass => node.add_class(words),
        Changing::RemoveClass => node.remove_class(words),
    }
}

/// A change that can't fail.
#[derive(Clone, Copy, Drop)]
enum Cutting {
    StripElements,
    RemoveAttr,
    RemoveAttrs,
    RetainAttrs,
    RemoveAllAttrs,
    Update,
}

#[rattlefmt::skip]
const CUTS: [(&str, Cutting); 6] = [
    ("strip_elements", Cutting::StripElements), ("remove_attr", Cutting::RemoveAttr),
    ("remove_attrs", Cutting::RemoveAttrs), ("retain_attrs", Cutting::RetainAttrs),
    ("remove_all_attrs", Cutting::RemoveAllAttrs), ("update", Cutting::Update),
];

fn changed_always(node: &mut NodeMut<'_>, cutting: Cutting, words: &str) -> Option<()> {
    let names = words_of(node.tree.allocator(), words)?;
    match cutting {
        Cutting::StripElements => node.strip_elements(&names),
        Cutting::RemoveAttr => node.remove_attr(words),
        Cutting::RemoveAttrs => node.remove_attrs(&names),
        Cutting::RetainAttrs => node.retain_attrs(&names),
        Cutting::RemoveAllAttrs => node.remove_all_attrs(),
        Cutting::Update => return update(node, words),
    }
    Some(())
}

/// Replaces the contents of a text or a comment by an update. Other nodes are unchanged.
fn update(node: &mut NodeMut<'_>, text: &str) -> Option<()> {
    let contents = Text::new(node.tree.allocator(), text).ok()?;
    node.update(move |edit: &mut NodeEdit| edit.contents = contents);
    Some(())
}
