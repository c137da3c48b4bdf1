//! Printing answers, one to a line. Errors of printing are ignored: a missing line shows when the
//! output is compared.

use dom_nodes::fault::OutOfMemory;
use dom_nodes::node_id::NodeId;
use dom_trees::node_ref::NodeRef;
use dom_trees::tree::Tree;
use std::fmt::Display;

/// Prints a value after what it is.
pub fn show<D: Display + Drop>(rt: &HostRuntime, what: &str, value: D) {
    println!(rt; "{what}: {value}").ok();
}

/// Prints flags, one to a line.
pub fn show_flags(rt: &HostRuntime, flags: &[(&str, bool)]) {
    for (what, flag) in flags {
        show(rt, what, *flag);
    }
}

/// Prints a value, or `-` if there is none.
pub fn show_some<D: Display + Drop>(rt: &HostRuntime, what: &str, value: Option<D>) {
    match value {
        Some(value) => show(rt, what, value),
        None => show(rt, what, "-"),
    }
}

/// Prints the value of a result, or the fault.
pub fn show_read<D: Display + Drop, F: Display + Drop>(
    rt: &HostRuntime,
    what: &str,
    read: Result<D, F>,
) {
    match read {
        Ok(value) => show(rt, what, value),
        Err(fault) => show(rt, what, fault),
    }
}

/// Prints the value of a result, `-` if there is none, or the fault.
pub fn show_some_read<D: Display + Drop, F: Display + Drop>(
    rt: &HostRuntime,
    what: &str,
    read: Result<Option<D>, F>,
) {
    match read {
        Ok(value) => show_some(rt, what, value),
        Err(fault) => show(rt, what, fault),
    }
}

/// Prints `done` for an edit that succeeded, or the fault.
pub fn show_edit<F: Display + Drop>(rt: &HostRuntime, what: &str, edit: Result<(), F>) {
    match edit {
        Ok(()) => show(rt, what, "done"),
        Err(fault) => show(rt, what, fault),
    }
}

/// Prints the id of a node, or `-` if there is none.
pub fn show_node(rt: &HostRuntime, what: &str, found: &Option<NodeRef<'_>>) {
    match found {
        Some(node) => show(rt, what, node.id.value()),
        None => show(rt, what, "-"),
    }
}

/// Begins a line of ids.
pub fn begin(rt: &HostRuntime, what: &str) {
    print!(rt; "{what}:").ok();
}

/// Prints the next id of the line.
pub fn show_next(rt: &HostRuntime, id: NodeId) {
    let value = id.value();
    print!(rt; " {value}").ok();
}

/// Ends the line.
pub fn end(rt: &HostRuntime) {
    println!(rt; "").ok();
}

/// Prints the ids in one line.
pub fn show_ids(rt: &HostRuntime, what: &str, ids: &[NodeId]) {
    begin(rt, what);
    for id in ids {
        show_next(rt, *id);
    }
    end(rt);
}

/// Prints the ids of the nodes in one line.
pub fn show_nodes(rt: &HostRuntime, what: &str, nodes: &[NodeRef<'_>]) {
    begin(rt, what);
    for node in nodes {
        show_next(rt, node.id);
    }
    end(rt);
}

/// Prints the ids of a result in one line, or the fault.
pub fn show_ids_read<F: Display + Drop>(rt: &HostRuntime, what: &str, ids: Result<Vec<NodeId>, F>) {
    match ids {
        Ok(ids) => show_ids(rt, what, &ids),
        Err(fault) => show(rt, what, fault),
    }
}

/// Prints the ids of the nodes of a result in one line, or the fault.
pub fn show_nodes_read<F: Display + Drop>(
    rt: &HostRuntime,
    what: &str,
    nodes: Result<Vec<NodeRef<'_>>, F>,
) {
    match nodes {
        Ok(nodes) => show_nodes(rt, what, &nodes),
        Err(fault) => show(rt, what, fault),
    }
}

/// Prints whether a copy is equal to the value, or the fault.
pub fn show_same<T: PartialEq>(
    rt: &HostRuntime,
    what: &str,
    value: &T,
    copy: &Result<T, OutOfMemory>,
) {
    match copy {
        Ok(copy) => show(rt, what, *copy == *value),
        Err(fault) => show(rt, what, *fault),
    }
}

/// Prints everything in a document: the nodes of its tree, and its list of parse errors.
pub fn print_state(rt: &HostRuntime, tree: &Tree, errors: &[String]) {
    let nodes = tree.nodes();
    println!(rt; "{nodes:?} {errors:?}").ok();
}
