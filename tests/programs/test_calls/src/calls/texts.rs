//! Markdown and its parts, formatted text, and tokens.

use crate::lines::printing::{show, show_read, show_some};
use crate::lines::words::{cut, node_of, words_of};
use dom_markup::document::{Token, Tokens};
use dom_md::cells::escape_table_cell_inplace;
use dom_md::chunks::push_escaped_chunk;
use dom_md::context::{EmphasisScope, FormatOpts, ListContext, ListKind};
use dom_md::fences::fence_len;
use dom_md::formatting::formatted_node;
use dom_md::html_escape;
use dom_md::node_md::NodeMd;
use dom_md::serializer::{MDSerializer, serialize_md};
use dom_trees::node_ref::NodeRef;
use dom_trees::tree::Tree;

/// Prints the Markdown of a node, by each call: `N`.
pub fn write_node(rt: &HostRuntime, tree: &Tree, line: &str) -> Option<()> {
    let node = NodeRef::new(node_of(line)?, tree);
    show_read(rt, "md", node.md(None));
    show_read(rt, "serialize_md", serialize_md(&node, false, None));
    let with_node = serialize_md(&node, true, None);
    show_read(rt, "serialize_md with the node", with_node);
    let serializer = MDSerializer::new(&node, None);
    show_read(rt, "MDSerializer", serializer.serialize(true));
    Some(())
}

/// Prints the Markdown of a node without the elements with some names, by each call: `N NAME NAME
/// ..`.
pub fn write_without(rt: &HostRuntime, tree: &Tree, line: &str) -> Option<()> {
    let (word, names) = cut(line);
    let node = NodeRef::new(node_of(word)?, tree);
    let names = words_of(rt.alloc(), names)?;
    let without = Some(names.as_slice());
    show_read(rt, "md", node.md(without));
    show_read(rt, "serialize_md", serialize_md(&node, false, without));
    let serializer = MDSerializer::new(&node, without);
    show_read(rt, "MDSerializer", serializer.serialize(false));
    Some(())
}

/// Prints the formatted text of a node: `N`.
pub fn format(rt: &HostRuntime, tree: &Tree, line: &str) -> Option<()> {
    let node = NodeRef::new(node_of(line)?, tree);
    show_read(rt, "formatted_text", node.formatted_text());
    show_read(rt, "formatted_node", formatted_node(&node));
    Some(())
}

/// Prints a chunk of text, escaped for Markdown: `TEXT`.
pub fn escape_chunk(rt: &HostRuntime, text: &str) -> Option<()> {
    let mut chunk = String::from_str(rt.alloc(), "x").ok()?;
    match push_escaped_chunk(&mut chunk, text, true, true) {
        Ok(()) => show(rt, "push_escaped_chunk", chunk.as_str()),
        Err(fault) => show(rt, "push_escaped_chunk", fault),
    }
    Some(())
}

/// Prints the text of a table cell, escaped for Markdown: `TEXT`.
pub fn escape_cell(rt: &HostRuntime, text: &str) -> Option<()> {
    let mut cell = String::from_str(rt.alloc(), text).ok()?;
    match escape_table_cell_inplace(&mut cell) {
        Ok(()) => show(rt, "escape_table_cell_inplace", cell.as_str()),
        Err(fault) => show(rt, "escape_table_cell_inplace", fault),
    }
    Some(())
}

/// Prints a text, escaped as the value of an attribute: `TEXT`.
pub fn escape_value(rt: &HostRuntime, text: &str) {
    show_read(rt, "html_escape", html_escape(rt.alloc(), text));
}

/// Prints the length of the fence that a code block with this text needs: `TEXT`.
pub fn measure_fence(rt: &HostRuntime, text: &str) {
    show(rt, "fence_len 1", fence_len(text, 1));
    show(rt, "fence_len 3", fence_len(text, 3));
}

/// Prints an ordered list that begins with this number at this offset, and an unordered one:
/// `NUMBER OFFSET`.
pub fn number_list(rt: &HostRuntime, line: &str) -> Option<()> {
    let (number, offset) = cut(line);
    let opts = FormatOpts::new().offset(offset.parse::<usize>().ok()?);
    let mut list = ListContext::new(opts, ListKind::Ol(number.parse::<u32>().ok()?));
    show_list(rt, &list);
    list.advance_ol_number();
    show_list(rt, &list);
    show_list(rt, &ListContext::new(opts, ListKind::Ul));
    let end = list.linebreak();
    println!(rt; "linebreak: {end:?}").ok()
}

fn show_list(rt: &HostRuntime, list: &ListContext) {
    show_read(rt, "prefix", list.prefix(rt.alloc()));
    show(rt, "offset", list.opts.offset);
    show(rt, "list_indent_len", list.list_indent_len());
}

/// Prints the emphasis of a mark: `MARK`.
pub fn read_mark(rt: &HostRuntime, mark: &str) {
    let scope = EmphasisScope::from(mark);
    show(rt, "italic", scope.contains(EmphasisScope::ITALIC));
    show(rt, "bold", scope.contains(EmphasisScope::BOLD));
}

/// Prints the tokens of a text: `TEXT`.
pub fn cut_tokens(rt: &HostRuntime, text: &str) {
    for token in Tokens::new(text) {
        match token {
            Ok(token) => show_token(rt, &token),
            Err(fault) => println!(rt; "{fault}").ok(),
        };
    }
}

fn show_token(rt: &HostRuntime, token: &Token<'_>) -> Option<()> {
    let (kind, start, end) = (token.kind, token.start, token.end);
    println!(rt; "{kind:?} {start} {end}: {}", token.text).ok()
}

/// Prints options that are set one after another, emphasis that is added, and the marks of lists.
pub fn print_options(rt: &HostRuntime) {
    let plain = FormatOpts::new();
    let (bold, cell) = (
        plain.emphasis_scope(EmphasisScope::BOLD),
        plain.table_cell(),
    );
    println!(rt; "{:?}", plain.include_node().skip_escape().inline()).ok();
    println!(rt; "{:?}", cell.skip_md().list_item().link_body()).ok();
    println!(rt; "{bold:?}").ok();
    let both = EmphasisScope::none()
        .insert(EmphasisScope::BOLD)
        .insert(EmphasisScope::ITALIC);
    println!(rt; "{both:?}").ok();
    for (opts, kind) in &[
        (cell, ListKind::Ul),
        (plain, ListKind::Ul),
        (plain, ListKind::Ol(1)),
    ] {
        show_some(rt, "mark", ListContext::new(*opts, *kind).mark());
    }
}
