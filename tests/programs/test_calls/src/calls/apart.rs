//! Values outside a tree: copies of a node and of what is in it, changed and queried.

use crate::lines::printing::{show, show_flags, show_some};
use crate::lines::words::node_of;
use dom_nodes::case_sensitivity::CaseSensitivity;
use dom_nodes::fault::OutOfMemory;
use dom_nodes::name::{Attr, LocalName, QualName};
use dom_nodes::node_data::{Attrs, Change, Element, NodeData, NodeEdit, TreeNode};
use dom_nodes::node_id::NodeId;
use dom_nodes::text::Text;
use dom_trees::tree::Tree;
use std::alloc::Global;
use std::fmt::Debug;

/// Prints a value that was made, or the fault.
pub fn show_made<V: Debug + Drop>(rt: &HostRuntime, what: &str, made: Result<V, OutOfMemory>) {
    match made {
        Ok(value) => println!(rt; "{what}: {value:?}").ok(),
        Err(fault) => println!(rt; "{what}: {fault}").ok(),
    };
}

/// Changes copies of a node, of its data and of its element: `N`.
pub fn change(rt: &HostRuntime, tree: &Tree, line: &str) -> Option<()> {
    let node = tree.nodes().get(node_of(line)?.value())?;
    show_made(rt, "changed node", changed_node(node));
    show_made(rt, "other attributes", with_others(rt.alloc(), node));
    show_made(rt, "changed data", changed_data(rt.alloc(), &node.content));
    show_made(
        rt,
        "changed as an element",
        cleared(rt.alloc(), &node.content),
    );
    if let Some(element) = node.as_element() {
        change_element(rt, element);
    }
    Some(())
}

fn change_element(rt: &HostRuntime, element: &Element) {
    show_made(rt, "changed element", changed_element(element));
    show_made(rt, "other parts", with_other_parts(rt.alloc(), element));
    let flag = element.mathml_annotation_xml_integration_point();
    show(rt, "flag", flag);
    let attrs = changed_attrs(rt.alloc(), element.attrs());
    show_made(rt, "changed attributes", attrs);
}

/// Returns a copy with another name, other attributes and other template contents.
fn with_other_parts(alloc: Global, element: &Element) -> Result<Element, OutOfMemory> {
    let mut other = element.try_clone()?.with_template_contents(NodeId::new(7));
    other.set_name(QualName::plain(LocalName::new(alloc, "o")?));
    other.set_attrs(given(alloc)?);
    Ok(other)
}

/// Returns the attributes `class` and `z`.
fn given(alloc: Global) -> Result<Attrs, OutOfMemory> {
    let mut attrs = Attrs::new(alloc);
    for (name, value) in &[("class", "g"), ("z", "3")] {
        let name = QualName::plain(LocalName::new(alloc, name)?);
        let value = Text::new(alloc, value)?;
        attrs.push(Attr { name, value })?;
    }
    Ok(attrs)
}

fn changed_node(node: &TreeNode) -> Result<TreeNode, OutOfMemory> {
    let mut node = node.try_clone()?;
    change_node(&mut node)?;
    Ok(node)
}

fn change_node(node: &mut TreeNode) -> Result<(), OutOfMemory> {
    node.set_attr("href", "u")?;
    node.rename("a")?;
    node.add_class("k m")?;
    node.remove_class("k")?;
    node.remove_attr("x");
    node.remove_attrs(&["y", "none"]);
    node.retain_attrs(&["href", "class"]);
    node.change(Change::AddClass("n"))
}

fn with_others(alloc: Global, node: &TreeNode) -> Result<TreeNode, OutOfMemory> {
    let mut node = node.try_clone()?;
    node.remove_all_attrs();
    node.add_attrs_if_missing(given(alloc)?)?;
    node.update(alloc, |edit: &mut NodeEdit| edit.attrs.remove("z"));
    if let Some(element) = node.as_element_mut() {
        element.remove_attr("none");
    }
    Ok(node)
}

fn changed_data(alloc: Global, data: &NodeData) -> Result<NodeData, OutOfMemory> {
    let mut data = data.try_clone()?;
    change_data(alloc, &mut data)?;
    Ok(data)
}

fn change_data(alloc: Global, data: &mut NodeData) -> Result<(), OutOfMemory> {
    data.change(Change::Rename("i"))?;
    data.update(alloc, |edit: &mut NodeEdit| edit.attrs.clear());
    data.add_attrs_if_missing(given(alloc)?)?;
    let edit = data.take_edit(alloc);
    data.put_edit(NodeEdit::new(alloc));
    data.put_edit(edit);
    Ok(())
}

fn changed_element(element: &Element) -> Result<Element, OutOfMemory> {
    let mut element = element.try_clone()?;
    edit_element(&mut element)?;
    Ok(element)
}

fn edit_element(element: &mut Element) -> Result<(), OutOfMemory> {
    element.set_attr("w", "2")?;
    element.remove_attr("x");
    element.remove_attrs(&["y"]);
    element.retain_attrs(&["w", "class"]);
    element.rename("i")?;
    element.add_class("m k")?;
    element.remove_class("k")?;
    element.change(Change::RemoveClass("l"))
}

fn cleared(alloc: Global, data: &NodeData) -> Result<NodeData, OutOfMemory> {
    let mut data = data.try_clone()?;
    if let Some(element) = data.as_element_mut() {
        element.remove_all_attrs();
        element.add_attrs_if_missing(given(alloc)?)?;
    }
    Ok(data)
}

fn changed_attrs(alloc: Global, attrs: &Attrs) -> Result<Attrs, OutOfMemory> {
    let mut attrs = attrs.try_clone()?;
    change_attrs(alloc, &mut attrs)?;
    Ok(attrs)
}

fn change_attrs(alloc: Global, attrs: &mut Attrs) -> Result<(), OutOfMemory> {
    attrs.reserve(8);
    attrs.set("x", Text::new(alloc, "3")?)?;
    attrs.remove("href");
    attrs.add_missing(given(alloc)?)?;
    attrs.remove_all_of(&["y", "none"]);
    attrs.retain_all_of(&["x", "z"]);
    attrs.shrink_to_fit();
    Ok(())
}

/// Prints the answers of a node, of its data and of its element: `N`.
pub fn ask(rt: &HostRuntime, tree: &Tree, line: &str) -> Option<()> {
    let node = tree.nodes().get(node_of(line)?.value())?;
    let (kinds, all) = (node_kinds(node), data_kinds(&node.content));
    println!(rt; "{kinds:?} {all:?}").ok()?;
    if let Some(element) = node.content.as_element() {
        ask_element(rt, element);
    }
    Some(())
}

/// Returns whether a node is a document, a doctype, a text, a comment, an element, a link, a
/// fragment, and whether it may have children.
fn node_kinds(node: &TreeNode) -> [bool; 8] {
    [
        node.is_document(),
        node.is_doctype(),
        node.is_text(),
        node.is_comment(),
        node.is_element(),
        node.is_link(),
        node.is_fragment(),
        node.may_have_children(),
    ]
}

/// Returns what `node_kinds` returns, for a node's data, and whether it is a document or a
/// fragment.
fn data_kinds(data: &NodeData) -> [bool; 9] {
    [
        data.is_document(),
        data.is_doctype(),
        data.is_text(),
        data.is_comment(),
        data.is_element(),
        data.is_link(),
        data.is_fragment(),
        data.may_have_children(),
        data.is_top(),
    ]
}

fn ask_element(rt: &HostRuntime, element: &Element) {
    let cases = CaseSensitivity::AsciiCaseInsensitive;
    let flags = [
        ("has_attr", element.has_attr("x")),
        ("has_class", element.has_class("L")),
        ("has_class_bytes", element.has_class_bytes(b"L", cases)),
        ("is_link", element.is_link()),
    ];
    show_flags(rt, &flags);
    show(rt, "node_name", element.node_name());
    show_some(rt, "attr", element.attr("x"));
    show_some(rt, "attr_ref", element.attr_ref("x"));
    show_some(rt, "id", element.id());
    show_some(rt, "class", element.class());
    let contents = element.template_contents();
    show_some(rt, "template_contents", contents.map(NodeId::value));
}
