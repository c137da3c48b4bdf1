//! A tree that is built by calls of `Tree` alone.

use crate::lines::printing::{show, show_edit, show_read};
use dom_links::gap::{InsertionPoint, MovedNodes, Place};
use dom_markup::document::sink::ElementFlags;
use dom_markup::serializing::NodeMarkup;
use dom_nodes::fault::{EditFault, OutOfMemory};
use dom_nodes::name::{Attr, LocalName, QualName};
use dom_nodes::node_data::{Attrs, Change, Element, NodeData};
use dom_nodes::node_id::NodeId;
use dom_nodes::text::Text;
use dom_trees::tree::Tree;
use std::alloc::Global;

/// Builds a tree, and prints it; then a fragment of its nodes, and the edits that fail.
pub fn build(rt: &HostRuntime) {
    match built(rt.alloc()) {
        Ok((mut tree, id)) => {
            show_tree(rt, "built", &tree);
            show_refused(rt, &mut tree, &id);
            match Tree::fragment_of(&tree, &[id]) {
                Ok(fragment) => show_tree(rt, "fragment_of", &fragment),
                Err(fault) => show(rt, "fragment_of", fault),
            }
        }
        Err(fault) => show(rt, "built", fault),
    }
}

fn show_tree(rt: &HostRuntime, what: &str, tree: &Tree) {
    println!(rt; "{tree:?} {}", tree.len()).ok();
    show_read(rt, what, tree.root().html());
}

fn named(alloc: Global, name: &str) -> Result<QualName, OutOfMemory> {
    Ok(QualName::html(LocalName::new(alloc, name)?))
}

/// Returns the attribute `id`.
fn attrs(alloc: Global) -> Result<Attrs, OutOfMemory> {
    let mut attrs = Attrs::new(alloc);
    let name = QualName::plain(LocalName::new(alloc, "id")?);
    let value = Text::new(alloc, "k")?;
    attrs.push(Attr { name, value })?;
    Ok(attrs)
}

/// Returns the tree, and the id of its paragraph.
fn built(alloc: Global) -> Result<(Tree, NodeId), EditFault> {
    let mut tree = Tree::new(alloc, NodeData::Document)?;
    let id = make_element(&mut tree)?;
    place(&mut tree, &id)?;
    fill(&mut tree, &id)?;
    let name = named(alloc, "template")?;
    tree.append_template_of(&id, name, Attrs::new(alloc))?;
    Ok((tree, id))
}

/// Makes a detached element.
fn make_element(tree: &mut Tree) -> Result<NodeId, EditFault> {
    let (alloc, flags) = (
        tree.allocator(),
        ElementFlags {
            template: false,
            mathml_annotation_xml_integration_point: false,
        },
    );
    tree.create_element(named(alloc, "p")?, Attrs::new(alloc), flags)
}

/// Puts the element below the root, between a processing instruction and a doctype.
fn place(tree: &mut Tree, id: &NodeId) -> Result<(), EditFault> {
    let root = NodeId::root();
    tree.reserve(8);
    tree.move_to(Place::AtEnd.gap(root), MovedNodes::Node(*id))?;
    tree.append_doctype_of(&root, "html", "", "")?;
    let instruction = tree.new_instruction("t", "c")?;
    tree.move_to(Place::Before.gap(*id), MovedNodes::Node(instruction))
}

/// Puts two texts into the element, one after the other, and changes its attributes.
fn fill(tree: &mut Tree, id: &NodeId) -> Result<(), EditFault> {
    tree.add_text_at(InsertionPoint::FrontOf(*id), "a")?;
    tree.add_text_at(InsertionPoint::EndOf(*id), "b")?;
    tree.add_missing_attrs_of(id, attrs(tree.allocator())?)?;
    tree.try_change_of(id, Change::AddClass("l"))
}

/// Returns the data of a `template` with this node as its contents.
fn holder(alloc: Global, contents: &NodeId) -> Result<NodeData, OutOfMemory> {
    let name = named(alloc, "template")?;
    Ok(NodeData::Element(Element::new(name, Attrs::new(alloc), Some(*contents), false)))
}

/// Prints the edits that fail: a template with a paragraph as its contents, and a template that is
/// put into its own contents.
fn show_refused(rt: &HostRuntime, tree: &mut Tree, id: &NodeId) {
    show_edit(rt, "a template of a paragraph", made(tree, id));
    show_edit(rt, "a template in itself", put_into_itself(tree));
}

fn made(tree: &mut Tree, id: &NodeId) -> Result<(), EditFault> {
    let data = holder(tree.allocator(), id)?;
    tree.create_node(data)?;
    Ok(())
}

fn put_into_itself(tree: &mut Tree) -> Result<(), EditFault> {
    let held = tree.create_node(NodeData::Fragment)?;
    let data = holder(tree.allocator(), &held)?;
    tree.append_child_data_of(&held, data)?;
    Ok(())
}
