//! Selectors: what they select in a document, and which nodes they match.

use crate::lines::printing::{
    begin, end, show, show_ids_read, show_next, show_nodes_read, show_read,
};
use crate::lines::words::{cut, node_of, nodes_of};
use dom_index::index::TreeIndex;
use dom_index::selecting::select_nodes;
use dom_markup::document::Document;
use dom_nodes::fault::OutOfMemory;
use dom_nodes::node_id::NodeId;
use dom_select::matcher::caches::SelectorCaches;
use dom_select::matcher::descendants::{DescendantMatches, select_below};
use dom_select::matcher::matcher_iter::MatcherIter;
use dom_select::matcher::several::select_below_all;
use dom_select::matcher::{MatchNode, Matcher};
use dom_select::node_select::NodeSelect;
use dom_trees::node_ref::NodeRef;
use dom_trees::tree::Tree;

/// Returns the matcher of a selector text; if it cannot be parsed, prints why and returns `None`.
pub fn matcher_of(rt: &HostRuntime, text: &str) -> Option<Matcher> {
    match Matcher::new(rt.alloc(), text) {
        Ok(matcher) => Some(matcher),
        Err(fault) => {
            show(rt, "Matcher::new", fault);
            None
        }
    }
}

/// Prints what a selector selects below the root, by each of the calls, or why the text is not a
/// selector: `SELECTOR`.
pub fn select(rt: &HostRuntime, document: &Document, line: &str) {
    if let Some(matcher) = matcher_of(rt, line) {
        select_by_each(rt, &document.tree, &matcher);
    }
}

/// Prints what a selector selects in a fragment, which is inside an element `html`: `SELECTOR
/// MARKUP`.
pub fn select_in_fragment(rt: &HostRuntime, line: &str) {
    let (text, markup) = cut(line);
    if let Some(matcher) = matcher_of(rt, text) {
        match Document::fragment(rt.alloc(), markup) {
            Ok(fragment) => select_by_each(rt, &fragment.tree, &matcher),
            Err(fault) => show(rt, "Document::fragment", fault),
        }
    }
}

fn select_by_each(rt: &HostRuntime, tree: &Tree, matcher: &Matcher) {
    let roots = [NodeId::root()];
    let found = select_below(tree, &NodeId::root(), matcher);
    show_ids_read(rt, "select_below", found);
    list_below(rt, tree, &roots, matcher);
    walk_below_root(rt, tree, matcher);
    match MatcherIter::new(tree, &roots, matcher) {
        Ok(matches) => show_each(rt, "MatcherIter", matches),
        Err(fault) => show(rt, "MatcherIter", fault),
    }
}

/// Prints what a walk below the root selects, one node after another.
fn walk_below_root(rt: &HostRuntime, tree: &Tree, matcher: &Matcher) {
    begin(rt, "DescendantMatches");
    for node in DescendantMatches::new(tree.root(), matcher) {
        show_next(rt, node.id);
    }
    end(rt);
}

/// Prints the nodes of an iterator over matches, one after another.
pub fn show_each(rt: &HostRuntime, what: &str, matches: MatcherIter<'_, '_, '_>) {
    begin(rt, what);
    for node in matches {
        show_next(rt, node.id);
    }
    end(rt);
}

/// Prints what is selected below roots by each strategy: by testing each node, by the strategy that
/// the structure of the list suggests, and with node sets.
fn list_below(rt: &HostRuntime, tree: &Tree, roots: &[NodeId], matcher: &Matcher) {
    let found = select_below_all(tree, roots, matcher);
    show_ids_read(rt, "select_below_all", found);
    show_nodes_read(rt, "select_nodes", select_nodes(tree, roots, matcher));
    match TreeIndex::new(tree) {
        Ok(mut index) => {
            show_nodes_read(rt, "TreeIndex::select", index.select(matcher, roots));
        }
        Err(fault) => show(rt, "TreeIndex::new", fault),
    }
}

/// Prints what is selected below several roots: `N,M SELECTOR`.
pub fn select_below_several(rt: &HostRuntime, tree: &Tree, line: &str) -> Option<()> {
    let (numbers, text) = cut(line);
    let roots = nodes_of(rt.alloc(), numbers)?;
    if let Some(matcher) = matcher_of(rt, text) {
        list_below(rt, tree, &roots, &matcher);
    }
    Some(())
}

/// Prints how many nodes an index selects below the root, and how many tests that takes:
/// `SELECTOR`.
pub fn count_tests(rt: &HostRuntime, tree: &Tree, line: &str) {
    if let Some(matcher) = matcher_of(rt, line) {
        match TreeIndex::new(tree) {
            Ok(mut index) => {
                let found = index.select(&matcher, &[NodeId::root()]);
                show_tests(rt, found, index.tests());
            }
            Err(fault) => show(rt, "TreeIndex::new", fault),
        }
    }
}

fn show_tests(rt: &HostRuntime, found: Result<Vec<NodeRef<'_>>, OutOfMemory>, tests: u128) {
    show_read(rt, "found", found.map(|nodes| nodes.len()));
    show(rt, "tests", tests);
}

/// Prints why a text is not a selector, or that it is one: `SELECTOR`.
pub fn show_fault(rt: &HostRuntime, line: &str) {
    match Matcher::new(rt.alloc(), line) {
        Ok(_) => println!(rt; "read").ok(),
        Err(fault) => println!(rt; "{fault}").ok(),
    };
}

/// Prints whether a selector matches a node, by each of the calls: `N SELECTOR`.
pub fn ask(rt: &HostRuntime, tree: &Tree, line: &str) -> Option<()> {
    let (word, text) = cut(line);
    let node = NodeRef::new(node_of(word)?, tree);
    show_read(rt, "is", node.is(text));
    if let Some(matcher) = matcher_of(rt, text) {
        ask_by_matcher(rt, &node, &matcher);
    }
    Some(())
}

fn ask_by_matcher(rt: &HostRuntime, node: &NodeRef<'_>, matcher: &Matcher) {
    show(rt, "is_match", node.is_match(matcher));
    show(rt, "match_element", matcher.match_element(node));
    let mut caches = SelectorCaches::new(node.tree);
    let first = matcher.match_element_with_caches(node, &mut caches);
    show(rt, "with caches", first);
    let again = matcher.match_element_with_caches(node, &mut caches);
    show(rt, "with caches again", again);
    for selector in matcher.selectors() {
        show(rt, "match_node", selector.match_node(node));
    }
}
