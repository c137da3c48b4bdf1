//! Parts of a list of attributes, and changes of them.

use crate::calls::apart::show_made;
use crate::lines::words::{cut, node_of};
use dom_nodes::fault::OutOfMemory;
use dom_nodes::name::Attr;
use dom_nodes::node_data::{Attrs, Element};
use dom_nodes::text::Text;
use dom_trees::tree::Tree;
use std::alloc::Global;
use std::rc::Rc;

/// The changes of a part, and what each is called in the output.
const EDITS: [(&str, Edit); 5] = [
    ("without x", Edit::WithoutX),
    ("without y", Edit::WithoutY),
    ("only y", Edit::OnlyY),
    ("x set", Edit::SetX),
    ("made anew", Edit::MadeAnew),
];

/// Prints part of the list of a node's attributes, and copies of it after each change: `N FROM TO`.
pub fn show(rt: &HostRuntime, tree: &Tree, line: &str) -> Option<()> {
    let (number, places) = cut(line);
    let (from, to) = cut(places);
    let element = tree.nodes().get(node_of(number)?.value())?.as_element()?;
    let (from, to) = (from.parse::<usize>().ok()?, to.parse::<usize>().ok()?);
    let made = part(rt.alloc(), element, from, to);
    if let Ok(part) = &made {
        for (what, edit) in &EDITS {
            show_made(rt, what, changed(rt.alloc(), part, *edit));
        }
    }
    show_made(rt, "part", made);
    Some(())
}

/// A change of a list of attributes.
#[derive(Clone, Copy)]
enum Edit {
    WithoutX,
    WithoutY,
    OnlyY,
    SetX,
    MadeAnew,
}

/// Returns copies of the attributes.
fn copies(alloc: Global, attrs: &[Attr]) -> Result<Vec<Attr>, OutOfMemory> {
    let mut made = Vec::new(alloc);
    for attr in attrs {
        made.push(attr.try_clone()?)?;
    }
    Ok(made)
}

/// Returns a part of a list of the element's attributes.
fn part(alloc: Global, element: &Element, from: usize, to: usize) -> Result<Attrs, OutOfMemory> {
    let list = Rc::new(alloc, copies(alloc, element.attrs().as_slice())?)?;
    Attrs::part(alloc, &list, from, to)
}

/// Returns a copy of a part after a change.
fn changed(alloc: Global, part: &Attrs, edit: Edit) -> Result<Attrs, OutOfMemory> {
    let mut attrs = part.try_clone()?;
    match edit {
        Edit::WithoutX => attrs.remove("x"),
        Edit::WithoutY => attrs.remove("y"),
        Edit::OnlyY => attrs.retain_all_of(&["y"]),
        Edit::SetX => attrs.set("x", Text::new(alloc, "3")?)?,
        Edit::MadeAnew => attrs = Attrs::from_items(alloc, copies(alloc, part.as_slice())?)?,
    }
    Ok(attrs)
}
