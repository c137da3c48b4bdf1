//! Words of the command line and of lines of input, and standard input.

use dom_nodes::node_id::NodeId;
use std::alloc::Global;
use std::env;
use std::io::Read;

/// Returns the arguments of the program.
pub fn arguments(rt: &HostRuntime) -> Option<Vec<String>> {
    let words = env::args(rt).ok()?.skip(1);
    words.collect::<Vec<String>>(rt.alloc()).ok()
}

/// Returns the first word of a line, and what comes after it and one space.
pub fn cut(line: &str) -> (&str, &str) {
    line.split_once(' ').unwrap_or((line, ""))
}

/// Returns the value of a name in a table, or `None` if the name isn't in it.
pub fn named<T: Copy + Drop>(table: &[(&str, T)], name: &str) -> Option<T> {
    for (each, value) in table {
        if *each == name {
            return Some(*value);
        }
    }
    None
}

/// Returns the node id that is written in a word, in decimal digits.
pub fn node_of(word: &str) -> Option<NodeId> {
    NodeId::new(word.parse::<usize>().ok()?)
}

/// Returns the node ids that are written in a word, in decimal digits, separated by commas.
pub fn nodes_of(alloc: Global, word: &str) -> Option<Vec<NodeId>> {
    let mut ids = Vec::new(alloc);
    for number in word.split(',') {
        if !number.is_empty() {
            ids.push(node_of(number)?).ok()?;
        }
    }
    Some(ids)
}

/// Returns the words of a line, which spaces separate.
pub fn words_of(alloc: Global, line: &str) -> Option<Vec<&str>> {
    let mut words = Vec::new(alloc);
    for word in line.split(' ') {
        if !word.is_empty() {
            words.push(word).ok()?;
        }
    }
    Some(words)
}

/// Returns everything from standard input.
pub fn input(rt: &HostRuntime) -> Option<String> {
    let mut text = String::new(rt.alloc());
    rt.stdin().read_to_string(&mut text).ok()?;
    Some(text)
}
