//! What nodes are made of: names, ids, texts, and copies of them.

use crate::calls::apart::show_made;
use crate::lines::names::{local_of, namespace_of};
use crate::lines::printing::{show, show_flags, show_same, show_some};
use crate::lines::words::{cut, node_of};
use dom_nodes::case_sensitivity::CaseSensitivity;
use dom_nodes::fault::OutOfMemory;
use dom_nodes::name::{Attr, LocalName, NameParts, NameRef, Namespace, NamespaceRef, QualName};
use dom_nodes::node_data::{NodeData, TreeNode};
use dom_nodes::text::{RareText, Text, TextBlock};
use dom_trees::tree::Tree;
use std::alloc::Global;
use std::mem::size_of;

/// Prints copies of the data of each node, and which of them need no memory.
pub fn print_copies(rt: &HostRuntime, tree: &Tree) {
    for node in tree.nodes() {
        print_copy(rt, &node.content);
    }
}

fn print_copy(rt: &HostRuntime, data: &NodeData) {
    match data.try_clone() {
        Ok(copy) => println!(rt; "{copy:?}").ok(),
        Err(fault) => println!(rt; "{fault}").ok(),
    };
    let flags = [
        ("short_text", data.short_text().is_some()),
        ("bare_element", data.bare_element().is_some()),
    ];
    show_flags(rt, &flags);
}

/// Returns the prefix, or `None` in `Some` for an empty word.
fn prefix_of(alloc: Global, word: &str) -> Option<Option<RareText>> {
    if word.is_empty() {
        return Some(None);
    }
    Some(Some(RareText::new(alloc, word).ok()?))
}

/// Returns the name that is written `PREFIX,NAMESPACE:LOCAL`. The prefix may be empty. Without a
/// colon the namespace is `urn:x`.
fn name_of(alloc: Global, word: &str) -> Option<QualName> {
    let (prefix, name) = word.split_once(',')?;
    let ns = match namespace_of(name) {
        Some(ns) => ns,
        None => Namespace::Other(RareText::new(alloc, "urn:x").ok()?),
    };
    let prefix = prefix_of(alloc, prefix)?;
    let local = LocalName::new(alloc, local_of(name)).ok()?;
    QualName::new(alloc, NameParts { prefix, ns, local }).ok()
}

/// Prints a name, whether it is equal to another one, and the name with the local name of the
/// other: `NAME NAME`.
pub fn compare_names(rt: &HostRuntime, line: &str) -> Option<()> {
    let (first, second) = cut(line);
    let name = name_of(rt.alloc(), first)?;
    let other = name_of(rt.alloc(), second)?;
    show_names(rt, &name, &other);
    show_lent(rt, &name.by_ref(), &other.by_ref());
    rename(rt, name, other.local().try_clone(rt.alloc()).ok()?)
}

fn show_names(rt: &HostRuntime, name: &QualName, other: &QualName) {
    println!(rt; "{name:?}").ok();
    show_some(rt, "prefix", name.prefix());
    show(rt, "local", name.local().as_str());
    let flags = [
        ("equal", *name == *other),
        ("is_same", name.is_same(other)),
        ("in one namespace", name.ns().is_same(&other.ns())),
    ];
    show_flags(rt, &flags);
    show_same(rt, "the same as a copy", name, &name.try_clone());
}

/// Prints the same about borrowed names.
fn show_lent(rt: &HostRuntime, name: &NameRef<'_>, other: &NameRef<'_>) {
    show_some(rt, "lent prefix", name.prefix());
    show_some(rt, "lent number in HTML", name.html_number());
    let (local, also) = (name.local(), other.local());
    let flags = [
        ("lent is_same", name.is_same(other)),
        ("lent in one namespace", name.ns().is_same(&other.ns())),
        ("lent local is_same", local.is_same(&also)),
        ("lent local of one number", local.number() == also.number()),
    ];
    show_flags(rt, &flags);
    show_made(rt, "lent copy", name.try_clone());
}

fn rename(rt: &HostRuntime, mut name: QualName, local: LocalName) -> Option<()> {
    name.set_local(local);
    println!(rt; "{name:?}").ok()
}

/// Prints two node ids, and whether the first is smaller: `N M`.
pub fn compare_numbers(rt: &HostRuntime, line: &str) -> Option<()> {
    let (first, second) = cut(line);
    let (first, second) = (node_of(first), node_of(second));
    println!(rt; "{first:?} {second:?}").ok()?;
    show(rt, "below", first? < second?);
    Some(())
}

/// Prints a name in lower case, and whether it is equal to another one: `NAME NAME`.
pub fn compare_folded(rt: &HostRuntime, line: &str) -> Option<()> {
    let (word, second) = cut(line);
    let other = LocalName::new(rt.alloc(), second).ok()?;
    match LocalName::folded(rt.alloc(), word) {
        Ok(name) => show_folded(rt, &name, &other),
        Err(fault) => show(rt, "folded", fault),
    }
    let (word, second) = (word.as_bytes(), second.as_bytes());
    let is_same = CaseSensitivity::CaseSensitive.is_same(word, second);
    let is_alike = CaseSensitivity::AsciiCaseInsensitive.is_same(word, second);
    show_flags(rt, &[("the same", is_same), ("without case", is_alike)]);
    Some(())
}

fn show_folded(rt: &HostRuntime, name: &LocalName, other: &LocalName) {
    let (number, another) = (name.number(), other.number());
    show(rt, "folded", name.as_str());
    let flags = [
        ("is_same", name.is_same(other)),
        ("lent is_same", name.by_ref().is_same(&other.by_ref())),
        ("has a number", number.is_some()),
        ("the same number", number == another),
    ];
    show_flags(rt, &flags);
    show_made(rt, "copy", name.try_clone());
}

/// Prints copies of the parts of a name, of an attribute with that name, and of its value with more
/// text: `NAME VALUE`.
pub fn copy_names(rt: &HostRuntime, line: &str) -> Option<()> {
    let (word, value) = cut(line);
    let parts = parts_of(rt.alloc(), word)?;
    show_made(rt, "parts", parts.try_clone());
    show_made(rt, "namespace", parts.ns.try_clone());
    let prefix = parts.prefix.as_ref()?.try_clone().ok()?;
    show(rt, "prefix", prefix.as_str());
    show_spaces(rt, &parts.ns);
    copy_attr(rt, attr_of(rt.alloc(), word, value)?)
}

fn parts_of(alloc: Global, word: &str) -> Option<NameParts> {
    Some(NameParts {
        prefix: Some(RareText::new(alloc, "p").ok()?),
        ns: Namespace::Other(RareText::new(alloc, "urn:x").ok()?),
        local: LocalName::new(alloc, word).ok()?,
    })
}

fn show_spaces(rt: &HostRuntime, ns: &Namespace) {
    let flags = [
        (
            "is urn:x",
            ns.by_ref().is_same(&NamespaceRef::Other("urn:x")),
        ),
        ("is itself", ns.is_same(ns)),
        ("is of HTML", ns.is_same(&Namespace::Html)),
    ];
    show_flags(rt, &flags);
}

fn attr_of(alloc: Global, word: &str, value: &str) -> Option<Attr> {
    let name = QualName::plain(LocalName::new(alloc, word).ok()?);
    let value = Text::new(alloc, value).ok()?;
    Some(Attr { name, value })
}

fn copy_attr(rt: &HostRuntime, attr: Attr) -> Option<()> {
    show_made(rt, "longer", lengthened(&attr.value));
    show_made(rt, "within", within(rt.alloc(), attr.value.as_str()));
    show_made(rt, "attribute", attr.try_clone());
    println!(rt; "{:?} {}", LocalName::empty(), attr.value.as_str()).ok()
}

fn lengthened(text: &Text) -> Result<Text, OutOfMemory> {
    let mut copy = text.try_clone()?;
    copy.push_str("w")?;
    Ok(copy)
}

/// Returns a text in a block, after another text, with more text appended.
fn within(alloc: Global, text: &str) -> Result<Text, OutOfMemory> {
    let mut bytes = Vec::from_slice(alloc, b"x")?;
    bytes.extend_from_slice(text.as_bytes())?;
    let block = TextBlock::new(alloc, bytes)?;
    let part = Text::within(alloc, &block, 1, text)?;
    lengthened(&part)
}

/// Prints the sizes of a node and of an attribute in bytes. Nodes take most of the memory of a
/// large page.
pub fn print_sizes(rt: &HostRuntime) {
    show(rt, "TreeNode", size_of::<TreeNode>());
    show(rt, "Attr", size_of::<Attr>());
}
