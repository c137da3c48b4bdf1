//! Mini selectors, and paths of them.

use crate::lines::printing::{show, show_ids_read, show_nodes_read, show_read, show_some};
use crate::lines::words::{cut, node_of, words_of};
use dom_markup::document::Document;
use dom_mini::mini_selector::extension::MiniSelect;
use dom_mini::traversal::Traversal;
use dom_nodes::node_id::NodeId;
use dom_select::matcher::MatchNode;
use dom_selectors::mini_selector::fault::MiniFault;
use dom_selectors::mini_selector::parser::{parse_mini_selector, parse_selector_list};
use dom_selectors::mini_selector::selector::MiniSelector;
use dom_trees::node_ref::NodeRef;
use dom_trees::tree::Tree;

/// Follows a path, and prints the `id` attribute of each node that it finds, in order, or `-` for a
/// node without one: `PATH`.
pub fn follow(rt: &HostRuntime, document: &Document, line: &str) {
    match document.root().try_find_descendants(line) {
        Ok(found) => show_each(rt, &found),
        Err(fault) => show_fault(rt, fault),
    }
}

fn show_each(rt: &HostRuntime, found: &[NodeRef<'_>]) {
    for node in found {
        let id = node.id_attr().unwrap_or("-");
        println!(rt; "{id}").ok();
    }
}

fn show_fault(rt: &HostRuntime, fault: MiniFault) {
    println!(rt; "{fault:?}").ok();
}

/// Prints the parts of a mini selector and the remaining text: `TEXT`.
pub fn read(rt: &HostRuntime, line: &str) {
    match parse_mini_selector(rt.alloc(), line) {
        Ok((rest, mini)) => {
            show_parts(rt, &mini);
            show(rt, "rest", rest);
        }
        Err(fault) => show_fault(rt, fault),
    }
}

fn show_parts(rt: &HostRuntime, mini: &MiniSelector<'_>) {
    show_some(rt, "name", mini.name());
    show_some(rt, "id", mini.id());
    for class in mini.classes() {
        show(rt, "class", *class);
    }
    for attr in mini.attrs() {
        let value = attr.test.map(|(_, value)| value).unwrap_or("-");
        show(rt, "attr", attr.key);
        show(rt, "value", value);
    }
    let lead = mini.combinator();
    println!(rt; "combinator: {lead:?}").ok();
}

/// Prints how many steps a path has, and the remaining text: `TEXT`.
pub fn read_list(rt: &HostRuntime, line: &str) {
    match parse_selector_list(rt.alloc(), line) {
        Ok((rest, list)) => {
            show(rt, "steps", list.len());
            show(rt, "rest", rest);
        }
        Err(fault) => show_fault(rt, fault),
    }
}

/// Prints what a path finds below a node: `N PATH`.
pub fn find(rt: &HostRuntime, tree: &Tree, line: &str) -> Option<()> {
    let (word, path) = cut(line);
    let node = NodeRef::new(node_of(word)?, tree);
    show_nodes_read(rt, "find_descendants", node.find_descendants(path));
    show_nodes_read(rt, "try_find_descendants", node.try_find_descendants(path));
    Some(())
}

/// Prints what a path of names, one for each step, finds below a node: `N NAME NAME`.
pub fn find_names(rt: &HostRuntime, tree: &Tree, line: &str) -> Option<()> {
    let (word, words) = cut(line);
    let id = node_of(word)?;
    let names = words_of(rt.alloc(), words)?;
    find_steps(rt, tree, id, &names);
    Some(())
}

fn find_steps(rt: &HostRuntime, tree: &Tree, id: NodeId, names: &[&str]) {
    show_nodes_read(rt, "find", NodeRef::new(id, tree).find(names));
    let one = Traversal::find_descendant_element(tree.nodes(), id, names);
    show_some(rt, "find_descendant_element", one.map(NodeId::value));
    let all = Traversal::find_descendant_elements(rt.alloc(), tree.nodes(), id, names);
    show_ids_read(rt, "find_descendant_elements", all);
}

/// Prints whether a text is a mini selector that matches a node: `N TEXT`.
pub fn is_meant(rt: &HostRuntime, tree: &Tree, line: &str) -> Option<()> {
    let (word, text) = cut(line);
    show_read(
        rt,
        "mini_is",
        NodeRef::new(node_of(word)?, tree).mini_is(text),
    );
    Some(())
}

/// Prints whether a mini selector, which is parsed first, matches a node: `N TEXT`.
pub fn ask(rt: &HostRuntime, tree: &Tree, line: &str) -> Option<()> {
    let (word, text) = cut(line);
    let node = NodeRef::new(node_of(word)?, tree);
    match MiniSelector::new(rt.alloc(), text) {
        Ok(mini) => ask_mini(rt, &node, &mini),
        Err(fault) => show_fault(rt, fault),
    }
    Some(())
}

fn ask_mini(rt: &HostRuntime, node: &NodeRef<'_>, mini: &MiniSelector<'_>) {
    show(rt, "mini_match", node.mini_match(mini));
    show(rt, "match_node", mini.match_node(node));
}
