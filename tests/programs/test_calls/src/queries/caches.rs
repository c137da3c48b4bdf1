//! What is found and counted on the way to a selection: children by a test, matches below several
//! nodes, and indexes in caches.

use crate::lines::printing::{begin, end, show, show_next, show_nodes, show_some};
use crate::lines::words::{cut, node_of, nodes_of};
use crate::queries::selecting::{matcher_of, show_each};
use dom_mini::traversal::Traversal;
use dom_nodes::indexes::IndexKind;
use dom_nodes::node_data::TreeNode;
use dom_nodes::node_id::NodeId;
use dom_select::matcher::Matcher;
use dom_select::matcher::caches::SelectorCaches;
use dom_select::matcher::matcher_iter::MatcherIter;
use dom_select::matcher::several::Matches;
use dom_select::node_select::NodeSelect;
use dom_selection::selection::Selection;
use dom_selectors::mini_selector::selector::MiniSelector;
use dom_trees::node_ref::NodeRef;
use dom_trees::tree::Tree;

/// Prints the node's first child that is an element without children, and its first child element
/// with a name; then whether the node is empty, and whether it is itself an element with that name:
/// `N NAME`.
pub fn find_child(rt: &HostRuntime, tree: &Tree, line: &str) -> Option<()> {
    let (word, name) = cut(line);
    let (id, nodes) = (node_of(word)?, tree.nodes());
    let is_childless = |node: &TreeNode| node.first_child.get().is_none();
    let found = Traversal::find_child_element(nodes, id, is_childless);
    show_some(rt, "find_child_element", found.map(NodeId::value));
    let found = Traversal::find_child_element_by_name(nodes, id, name);
    show_some(rt, "find_child_element_by_name", found.map(NodeId::value));
    show(
        rt,
        "is_empty",
        NodeSelect::is_empty(&NodeRef::new(id, tree)),
    );
    let node = nodes.get(id.value())?;
    let named = MiniSelector::named(rt.alloc(), name);
    show(rt, "match_data", named.match_data(&node.content));
    Some(())
}

/// Prints what a selector selects below nodes, by each of the iterators: `N,M SELECTOR`.
pub fn match_several(rt: &HostRuntime, tree: &Tree, line: &str) -> Option<()> {
    let (numbers, text) = cut(line);
    let ids = nodes_of(rt.alloc(), numbers)?;
    if let Some(matcher) = matcher_of(rt, text) {
        match_each(rt, tree, &ids, &matcher);
    }
    Some(())
}

fn match_each(rt: &HostRuntime, tree: &Tree, ids: &[NodeId], matcher: &Matcher) {
    match Matches::new(tree, ids, matcher) {
        Ok(matches) => list(rt, "Matches::new", matches),
        Err(fault) => show(rt, "Matches::new", fault),
    }
    match Selection::from_ids(tree, ids) {
        Ok(nodes) => match_below(rt, &nodes, matcher),
        Err(fault) => show(rt, "Selection::from_ids", fault),
    }
}

fn match_below(rt: &HostRuntime, all: &Selection<'_>, matcher: &Matcher) {
    show_nodes(rt, "Selection::from_ids", all.nodes());
    show(
        rt,
        "Selection::new",
        Selection::new(all.allocator()).length(),
    );
    let Some(first) = all.get(0) else {
        return;
    };
    match Matches::below_nodes(first.tree, all.nodes(), matcher) {
        Ok(matches) => list(rt, "Matches::below_nodes", matches),
        Err(fault) => show(rt, "Matches::below_nodes", fault),
    }
    match MatcherIter::below_nodes(first.tree, all.nodes(), matcher) {
        Ok(matches) => show_each(rt, "MatcherIter::below_nodes", matches),
        Err(fault) => show(rt, "MatcherIter::below_nodes", fault),
    }
}

fn list(rt: &HostRuntime, what: &str, matches: Matches<'_, '_, '_>) {
    begin(rt, what);
    for node in matches {
        show_next(rt, node.id);
    }
    end(rt);
}

/// Prints the node's indexes among its siblings as the caches return them, and how many of them
/// came from a cache: `N`.
pub fn index(rt: &HostRuntime, tree: &Tree, line: &str) -> Option<()> {
    let id = node_of(line)?;
    let mut caches = SelectorCaches::new(tree);
    for kind in &[
        IndexKind::Child,
        IndexKind::LastChild,
        IndexKind::OfType,
        IndexKind::LastOfType,
        IndexKind::Child,
    ] {
        let index = caches.index_at(&id, *kind);
        println!(rt; "{kind:?}: {index}").ok();
    }
    show(rt, "hits", caches.hits());
    show(rt, "len", caches.tree().len());
    Some(())
}

/// Prints which elements each of the selectors matches with one cache for all of them, and which it
/// matches without a cache: `SELECTOR ; SELECTOR ..`.
pub fn match_cached(rt: &HostRuntime, tree: &Tree, line: &str) {
    let mut caches = SelectorCaches::new(tree);
    for text in line.split(';') {
        if let Some(matcher) = matcher_of(rt, text) {
            show_cached(rt, &matcher, &mut caches);
            show_matched(rt, tree, &matcher);
        }
    }
}

fn show_cached(rt: &HostRuntime, matcher: &Matcher, caches: &mut SelectorCaches<'_>) {
    begin(rt, "match_element_with_caches");
    for node in caches.tree().root().descendants_it() {
        if node.is_element() && matcher.match_element_with_caches(&node, caches) {
            show_next(rt, node.id);
        }
    }
    end(rt);
}

fn show_matched(rt: &HostRuntime, tree: &Tree, matcher: &Matcher) {
    begin(rt, "match_element");
    for node in tree.root().descendants_it() {
        if node.is_element() && matcher.match_element(&node) {
            show_next(rt, node.id);
        }
    }
    end(rt);
}

/// Prints how many elements each of the selectors matches with one cache for all of them, and how
/// many indexes were found in the cache so far: `SELECTOR ; SELECTOR ..`.
pub fn count_hits(rt: &HostRuntime, tree: &Tree, line: &str) {
    let mut caches = SelectorCaches::new(tree);
    for text in line.split(';') {
        if let Some(matcher) = matcher_of(rt, text) {
            show(rt, "matched", count_matched(&matcher, &mut caches));
            show(rt, "hits", caches.hits());
        }
    }
}

fn count_matched(matcher: &Matcher, caches: &mut SelectorCaches<'_>) -> usize {
    let mut matched: usize = 0;
    for node in caches.tree().root().descendants_it() {
        if node.is_element() && matcher.match_element_with_caches(&node, caches) {
            matched = matched.saturating_add(1);
        }
    }
    matched
}
