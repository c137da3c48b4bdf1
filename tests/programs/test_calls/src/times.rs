//! The time of calls on the markup from standard input, measured within the process. `test_calls
//! times CALL RUNS SELECTOR` prints the shortest time of that many runs, in nanoseconds, and what
//! the call counted. `test_calls times` makes each call once and prints only what it counted.

use crate::lines::words::{input, named, words_of};
use dom_index::index::TreeIndex;
use dom_links::gap::Place;
use dom_markup::document::snippet::Snippet;
use dom_markup::document::{Document, Tokens};
use dom_markup::serializing::NodeMarkup;
use dom_md::node_md::NodeMd;
use dom_mini::mini_selector::extension::MiniSelect;
use dom_nodes::fault::OutOfMemory;
use dom_nodes::node_id::NodeId;
use dom_sanitize::sanitize::{Allow, sanitize, sanitize_tree};
use dom_select::matcher::Matcher;
use dom_select::matcher::descendants::select_below;
use dom_selection::document_select::DocumentSelect;
use dom_trees::tree::Tree;
use page_reading::{Options, parse_page};
use std::alloc::Global;
use std::time::{Duration, Instant};

/// The calls that are timed.
#[derive(Clone, Copy, Drop)]
enum Call {
    Parse,
    Page,
    Drop,
    Tokens,
    Walk,
    Html,
    Text,
    Formatted,
    Md,
    Select,
    Index,
    Tables,
    Find,
    Edits,
    Clone,
    Append,
    Clean,
    Validate,
    Copy,
    Merge,
    Normalize,
    Strip,
    Sanitize,
}

#[rattlefmt::skip]
const CALLS: [(&str, Call); 23] = [
    ("parse", Call::Parse), ("page", Call::Page), ("drop", Call::Drop), ("tokens", Call::Tokens),
    ("walk", Call::Walk), ("html", Call::Html), ("text", Call::Text),
    ("formatted", Call::Formatted), ("md", Call::Md), ("select", Call::Select),
    ("index", Call::Index), ("tables", Call::Tables), ("find", Call::Find),
    ("edits", Call::Edits), ("clone", Call::Clone), ("append", Call::Append),
    ("clean", Call::Clean), ("validate", Call::Validate), ("copy", Call::Copy),
    ("merge", Call::Merge), ("normalize", Call::Normalize), ("strip", Call::Strip),
    ("sanitize", Call::Sanitize),
];

/// The elements and attributes that the cleaning of a page keeps.
const ELEMENTS: &str = "a b blockquote br code dd div dl dt em h1 h2 h3 i img li ol p pre span \
    strong table td tr ul";

const ATTRS: &str = "alt class colspan dir height href id lang rowspan src title width";

/// A run of a call: how long it took, and what it counted.
#[derive(Clone, Copy)]
struct Run {
    took: Duration,
    count: usize,
}

/// What the calls work on.
#[derive(Drop)]
struct Page<'a> {
    source: String,
    document: Document,
    matcher: Matcher,
    /// The text of the selector, which is also read as a path of mini selectors.
    selector: &'a str,
}

impl<'a> Page<'a> {
    /// Reads the markup from standard input, and makes the matcher of a selector.
    fn read(rt: &HostRuntime, selector: &'a str) -> Option<Page<'a>> {
        let source = input(rt)?;
        Some(Page {
            document: Document::parse(rt.alloc(), source.as_str()).ok()?,
            matcher: Matcher::new(rt.alloc(), selector).ok()?,
            source,
            selector,
        })
    }
}

/// Makes a call once. A call that changes a document gets a document of its own, and the time for
/// parsing that is not counted.
fn run_once(rt: &HostRuntime, page: &Page<'_>, call: Call) -> Option<Run> {
    match call {
        Call::Drop | Call::Edits | Call::Clean | Call::Copy | Call::Merge => run_fresh(
            rt, page, call,
        ),
        Call::Normalize | Call::Strip | Call::Sanitize => run_fresh(rt, page, call),
        _ => {
            let start = Instant::now(rt).ok()?;
            let count = count_of(rt, page, call)?;
            let took = start.elapsed(rt).ok()?;
            Some(Run { took, count })
        }
    }
}

fn run_fresh(rt: &HostRuntime, page: &Page<'_>, call: Call) -> Option<Run> {
    match (Document::parse(rt.alloc(), page.source.as_str()), call) {
        (Ok(document), Call::Drop) => run_drop(rt, document),
        (Ok(mut document), _) => run_change(rt, page, &mut document, call),
        (Err(_), _) => None,
    }
}

/// Drops a document, and counts its nodes.
fn run_drop(rt: &HostRuntime, document: Document) -> Option<Run> {
    let count = document.tree.len();
    let start = Instant::now(rt).ok()?;
    drop(document);
    let took = start.elapsed(rt).ok()?;
    Some(Run { took, count })
}

/// Changes a document. After cleaning, the nodes that remain below its root are counted; that is
/// not timed.
fn run_change(
    rt: &HostRuntime,
    page: &Page<'_>,
    document: &mut Document,
    call: Call,
) -> Option<Run> {
    let start = Instant::now(rt).ok()?;
    let mut count = changed(page, document, call)?;
    let took = start.elapsed(rt).ok()?;
    if let Call::Clean = call {
        count = document.root().descendants_it().count();
    }
    Some(Run { took, count })
}

/// Cleans a document by lists of allowed names.
fn clean(document: &mut Document) -> Option<()> {
    let alloc = document.tree.allocator();
    let elements = words_of(alloc, ELEMENTS)?;
    let attrs = words_of(alloc, ATTRS)?;
    let allow = Allow {
        elements: &elements,
        attrs: &attrs,
        drop: &["script", "style"],
    };
    sanitize(document, &allow).ok()
}

/// Changes a document. Returns how many nodes it then has, or for `edits` how many were moved.
fn changed(page: &Page<'_>, document: &mut Document, call: Call) -> Option<usize> {
    match call {
        Call::Edits => return Some(move_all(&mut document.tree)),
        Call::Clean => clean(document)?,
        Call::Copy | Call::Merge => copy_all(page, &mut document.tree, call)?,
        Call::Normalize => document.normalize().ok()?,
        Call::Strip => document.tree.strip_elements_of(&NodeId::root(), &["b"]),
        _ => strip_all(document)?,
    }
    Some(document.tree.len())
}

/// Copies all nodes of the tree into it, or merges all nodes of an equal tree into it.
fn copy_all(page: &Page<'_>, tree: &mut Tree, call: Call) -> Option<()> {
    let ids = page.document.tree.child_ids_of(&NodeId::root()).ok()?;
    let copied = match call {
        Call::Copy => tree.copy_nodes(&ids),
        _ => tree.merge(&page.document.tree, &ids),
    };
    copied.is_ok().then_some(())
}

/// Cleans the tree so that `i` elements are the only ones that remain.
fn strip_all(document: &mut Document) -> Option<()> {
    let allow = Allow {
        elements: &["i"],
        attrs: &[],
        drop: &[],
    };
    sanitize_tree(&mut document.tree, &allow).ok()
}

/// Moves each node to the end of the children of node 1, where this is allowed. Returns how many
/// were moved.
fn move_all(tree: &mut Tree) -> usize {
    let mut moved: usize = 0;
    let Some(first) = NodeId::new(1) else {
        return moved;
    };
    for number in 2..tree.len() {
        if let Some(id) = NodeId::new(number) {
            if tree.append_child_of(&first, &id).is_ok() {
                moved = moved.saturating_add(1);
            }
        }
    }
    moved
}

/// Makes a call, and counts bytes or nodes of its result.
fn count_of(rt: &HostRuntime, page: &Page<'_>, call: Call) -> Option<usize> {
    let source = page.source.as_str();
    match call {
        Call::Parse | Call::Page | Call::Tokens => count_read(rt.alloc(), source, call),
        Call::Html | Call::Text | Call::Formatted | Call::Md => length_of(&page.document, call),
        Call::Clone | Call::Append | Call::Validate | Call::Walk => count_nodes(page, call),
        _ => count_found(page, call),
    }
}

/// Reads the source, and counts the nodes, or the bytes of the tokens.
fn count_read(alloc: Global, source: &str, call: Call) -> Option<usize> {
    match call {
        Call::Parse => nodes_of(&Document::parse(alloc, source)),
        Call::Page => nodes_of(&parse_page(alloc, source, Options::default())),
        _ => last_end(source),
    }
}

/// Returns how many nodes a document has, if it could be made.
fn nodes_of<F>(made: &Result<Document, F>) -> Option<usize> {
    match made {
        Ok(document) => Some(document.tree.len()),
        Err(_) => None,
    }
}

/// Writes the document as a text, and counts its bytes.
fn length_of(document: &Document, call: Call) -> Option<usize> {
    let root = document.root();
    let written = match call {
        Call::Html => root.html(),
        Call::Text => root.text(),
        Call::Formatted => root.formatted_text(),
        _ => root.md(None),
    };
    match written {
        Ok(text) => Some(text.len()),
        Err(OutOfMemory) => None,
    }
}

/// Copies, validates or walks the document, and counts the nodes.
fn count_nodes(page: &Page<'_>, call: Call) -> Option<usize> {
    let document = &page.document;
    match call {
        Call::Clone => nodes_of(&document.try_clone()),
        Call::Append => append_to_all(page),
        Call::Validate => document
            .tree
            .validate()
            .is_ok()
            .then_some(document.tree.len()),
        _ => Some(document.root().descendants_it().count()),
    }
}

/// Makes an index or selects, and counts what is found.
fn count_found(page: &Page<'_>, call: Call) -> Option<usize> {
    let document = &page.document;
    match call {
        Call::Index | Call::Tables => match TreeIndex::new(&document.tree) {
            Ok(mut index) => count_indexed(&mut index, &page.matcher, call),
            Err(OutOfMemory) => None,
        },
        Call::Find => match document.root().find_descendants(page.selector) {
            Ok(found) => Some(found.len()),
            Err(OutOfMemory) => None,
        },
        _ => match document.select_matcher(&page.matcher) {
            Ok(found) => Some(found.length()),
            Err(OutOfMemory) => None,
        },
    }
}

/// Returns how many nodes an index finds or selects below the root.
fn count_indexed(index: &mut TreeIndex<'_>, matcher: &Matcher, call: Call) -> Option<usize> {
    match call {
        Call::Index => index.last_below(&NodeId::root()),
        _ => match index.select(matcher, &[NodeId::root()]) {
            Ok(found) => Some(found.len()),
            Err(OutOfMemory) => None,
        },
    }
}

/// Copies the document, and appends markup, which is parsed once, to the children of each selected
/// node. Returns how many nodes were selected.
fn append_to_all(page: &Page<'_>) -> Option<usize> {
    let mut document = page.document.try_clone().ok()?;
    let found = select_below(&document.tree, &NodeId::root(), &page.matcher).ok()?;
    append_at_each(&mut document.tree, &found)?;
    Some(found.len())
}

fn append_at_each(tree: &mut Tree, ids: &[NodeId]) -> Option<()> {
    let snippet = Snippet::read(tree.allocator(), "<i>x</i>").ok()?;
    for id in ids {
        snippet.put_at(tree, id, Place::AtEnd).ok()?;
    }
    Some(())
}

/// Returns where the last token ends.
fn last_end(source: &str) -> Option<usize> {
    let mut end = 0;
    for token in Tokens::new(source) {
        end = token.ok()?.end;
    }
    Some(end)
}

/// Prints the shortest time of that many runs.
fn time(rt: &HostRuntime, page: &Page<'_>, name: &str, runs: u64) -> Option<()> {
    let call = named(&CALLS, name)?;
    let mut best = Duration::MAX;
    let mut count = 0;
    for _ in 0..runs {
        let run = run_once(rt, page, call)?;
        if run.took < best {
            best = run.took;
        }
        count = run.count;
    }
    let nanos = best.as_nanos();
    println!(rt; "{name} {nanos} ns n {count}").ok()
}

/// Prints what each call counts.
fn count_all(rt: &HostRuntime, page: &Page<'_>) -> Option<()> {
    for (name, call) in &CALLS {
        let count = run_once(rt, page, *call)?.count;
        println!(rt; "{name} {count}").ok()?;
    }
    Some(())
}

/// Runs the command in the words: nothing, or a call, the number of runs and a selector.
pub fn run(rt: &HostRuntime, words: &[String]) -> Option<()> {
    match words {
        [] => count_all(rt, &Page::read(rt, "*")?),
        [name, runs, selector] => {
            let runs = runs.as_str().parse::<u64>().ok()?;
            time(rt, &Page::read(rt, selector.as_str())?, name.as_str(), runs)
        }
        _ => None,
    }
}
