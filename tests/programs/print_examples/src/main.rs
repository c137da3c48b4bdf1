//! Prints what the examples of the documents print.

use examples::fault::Fault;
use examples::{
    article, changing, comments, copying, counts, finding, links, many, mini, page, parens,
    reading, reducing, rewriter, selectors, table, texts, walking, writing,
};
use std::alloc::Global;
use std::io::Write;
use std::process::ExitCode;

/// Prints what the parts about reading print.
fn print_reading<W: Write>(alloc: Global, out: &mut W) -> Result<(), Fault> {
    reading::print_read(alloc, out)?;
    reading::print_pieces(alloc, out)?;
    reading::print_received(alloc, out)?;
    reading::print_fragment(alloc, out)?;
    reading::print_errors(alloc, out)?;
    reading::print_fault(alloc, out)
}

/// Prints what the parts about finding and walking print.
fn print_finding<W: Write>(alloc: Global, out: &mut W) -> Result<(), Fault> {
    finding::print_found(alloc, out)?;
    selectors::print_matches(alloc, out)?;
    mini::print_reached(alloc, out)?;
    walking::print_sections(alloc, out)
}

/// Prints what the parts about changing and writing print.
fn print_changing<W: Write>(alloc: Global, out: &mut W) -> Result<(), Fault> {
    changing::print_changed(alloc, out)?;
    many::print_marked(alloc, out)?;
    reducing::print_reduced(alloc, out)?;
    copying::print_copied(alloc, out)?;
    writing::print_written(alloc, out)?;
    texts::print_texts(alloc, out)?;
    texts::print_without_headings(alloc, out)?;
    texts::print_main(alloc, out)
}

/// Prints what the whole programs print, each over a page of its own.
fn print_programs<W: Write>(alloc: Global, out: &mut W) -> Result<(), Fault> {
    page::print_page(alloc, page::PAGE, out)?;
    links::print_links(alloc, links::PAGE, out)?;
    article::print_article(alloc, article::PAGE, out)?;
    rewriter::print_rewritten(alloc, rewriter::PAGE, out)?;
    comments::print_comments(alloc, &comments::COMMENTS, out)?;
    table::print_table(alloc, table::PAGE, out)?;
    parens::print_read(alloc, out)
}

/// Prints what all of them print. Where the program is run without names of files, `print_counts`
/// prints nothing.
fn print_all<W: Write>(rt: &HostRuntime, out: &mut W) -> Result<(), Fault> {
    print_reading(rt.alloc(), out)?;
    print_finding(rt.alloc(), out)?;
    print_changing(rt.alloc(), out)?;
    print_programs(rt.alloc(), out)?;
    counts::print_counts(rt, out)
}

fn main(rt: HostRuntime) -> ExitCode {
    let mut out = rt.stdout();
    match print_all(&rt, &mut out) {
        Ok(()) => ExitCode::from(0),
        Err(_) => ExitCode::from(1),
    }
}
