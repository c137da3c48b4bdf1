//! Readers and writers that fail.

use crate::batch::asking::show_read;
use crate::batch::inputs::input;
use dom_query::{
    NodeId, NodeMarkup, NodeRef, RunFault, SerializableNodeRef, TraversalScope, Tree, WriteFault,
    drive, run,
};
use std::alloc::Global;
use std::io::{self, ErrorKind, Read, Write};

/// A writer that accepts `left` writes, of at most `most` bytes each, and then fails.
#[derive(Drop)]
struct Failing {
    left: usize,
    most: usize,
    taken: Vec<u8>,
}

impl Write for Failing {
    fn write(&mut self, buf: &[u8]) -> io::Result<usize> {
        if self.left == 0 {
            return Err(io::Error::from(ErrorKind::BrokenPipe));
        }
        self.left -= 1;
        let count = buf.len().min(self.most);
        self.taken.extend_from_slice(&buf[..count])?;
        Ok(count)
    }

    fn flush(&mut self) -> io::Result<()> {
        Ok(())
    }
}

/// A reader that fails with this kind of error.
#[derive(Drop)]
struct NoReader(ErrorKind);

impl Read for NoReader {
    fn read(&mut self, _buf: &mut [u8]) -> io::Result<usize> {
        Err(io::Error::from(self.0))
    }
}

/// Prints what is written of a node's HTML to a writer that accepts all of it, to one that accepts
/// some, and to one that accepts no byte: `N`.
pub fn serialize(rt: &HostRuntime, tree: &Tree, line: &str) -> Option<()> {
    let id = NodeId::new(line.parse::<usize>().ok()?)?;
    let node = SerializableNodeRef::from(NodeRef::new(id, tree));
    for (left, most) in &[(usize::MAX, 3), (4, 3), (9, 0)] {
        let taken = Vec::new(rt.alloc());
        let mut out = Failing {
            left: *left,
            most: *most,
            taken,
        };
        let ended = node.serialize(TraversalScope::IncludeNode, &mut out);
        show_read(rt, "serialize", ended.map(|_done| "done"))?;
        show_read(rt, "taken", String::from_utf8_lossy(rt.alloc(), &out.taken))?;
    }
    Some(())
}

/// The call that writes a node's HTML.
#[derive(Clone, Copy, Debug)]
enum Writing {
    WriteHtml,
    Serialize,
}

/// Writes a node's HTML to a writer that accepts `left` writes of at most `most` bytes. Returns how
/// that ends, and the writer.
fn write_into(
    alloc: Global,
    node: &NodeRef<'_>,
    writing: Writing,
    (left, most): (usize, usize),
) -> (Result<(), WriteFault>, Failing) {
    let taken = Vec::new(alloc);
    let mut out = Failing { left, most, taken };
    let scope = TraversalScope::IncludeNode;
    let ended = match writing {
        Writing::WriteHtml => node.write_html(scope, &mut out),
        Writing::Serialize => SerializableNodeRef::from(NodeRef::new(node.id, node.tree)).serialize(
            scope, &mut out,
        ),
    };
    (ended, out)
}

/// Prints how writing a node's HTML ends if the writer accepts so many bytes in each write and
/// fails at the first write, at the second, and so on, until none fails: `N`.
pub fn write_failing(rt: &HostRuntime, tree: &Tree, line: &str) -> Option<()> {
    let node = NodeRef::new(NodeId::new(line.parse::<usize>().ok()?)?, tree);
    for writing in &[Writing::WriteHtml, Writing::Serialize] {
        for most in &[1, 2, 7, usize::MAX] {
            write_until_whole(rt, &node, *writing, *most)?;
        }
    }
    Some(())
}

/// Prints the number of writes that are enough, whether with fewer writes the writer got a
/// beginning of the whole output, and whether with that many it got all of it.
fn write_until_whole(
    rt: &HostRuntime,
    node: &NodeRef<'_>,
    writing: Writing,
    most: usize,
) -> Option<()> {
    let (_, whole) = write_into(rt.alloc(), node, writing, (usize::MAX, usize::MAX));
    let mut are_beginnings = true;
    for left in 0..usize::MAX {
        let (ended, out) = write_into(rt.alloc(), node, writing, (left, most));
        if ended != Err(WriteFault::Write) {
            let is_whole = out.taken.as_slice() == whole.taken.as_slice();
            println!(rt;
                "{writing:?}, {most}: {ended:?}, {left} {are_beginnings} {is_whole}"
            ).ok()?;
            break;
        }
        are_beginnings = are_beginnings && out.left == 0 && whole.taken.starts_with(&out.taken);
    }
    Some(())
}

/// Calls `drive` with these words, this reader and a writer that accepts `left` writes of at most
/// `most` bytes. Returns the status, and prints what `drive` reports.
fn drive_into<R: Read>(
    rt: &HostRuntime,
    words: &[String],
    input: &mut R,
    (left, most): (usize, usize),
) -> Option<u8> {
    let (taken, mut err) = (Vec::new(rt.alloc()), Vec::<u8>::new(rt.alloc()));
    let mut out = Failing { left, most, taken };
    let status = drive(rt.alloc(), words, input, &mut out, &mut err);
    let said = String::from_utf8_lossy(rt.alloc(), &err).ok()?;
    println!(rt; "{left}: {status} {said:?}").ok()?;
    Some(status)
}

/// Prints how `drive` with these arguments, and runs of the first one as a script, end on the
/// markup from standard input.
pub fn drive_all(rt: &HostRuntime, words: &[String]) -> Option<()> {
    let markup = input(rt)?;
    drive_over(rt, words, markup.as_str())
}

/// Prints how `drive` with these arguments ends if the reader fails, if there is no memory for the
/// reader, if the writer accepts no byte, and if it accepts 0, 1, 2 .. bytes, until those are
/// enough.
fn drive_over(rt: &HostRuntime, words: &[String], markup: &str) -> Option<()> {
    for kind in &[ErrorKind::BrokenPipe, ErrorKind::OutOfMemory] {
        drive_into(rt, words, &mut NoReader(*kind), (9, 9))?;
    }
    drive_into(rt, words, &mut markup.as_bytes(), (9, 0))?;
    for left in 0..usize::MAX {
        if drive_into(rt, words, &mut markup.as_bytes(), (left, 1))? != 5 {
            break;
        }
    }
    run_all(rt, markup, words.first()?)
}

/// Runs a script with a writer that accepts `left` writes of at most `most` bytes; returns how the
/// run ends, and the writer.
fn run_into(
    alloc: Global,
    markup: &str,
    script: &str,
    (left, most): (usize, usize),
) -> (Result<(), RunFault>, Failing) {
    let taken = Vec::new(alloc);
    let mut out = Failing { left, most, taken };
    let ended = run(alloc, markup.as_bytes(), script.as_bytes(), &mut out);
    (ended, out)
}

/// Prints how runs of a script end if the writer accepts no byte, and if it accepts up to 1, 2, 7
/// or all bytes in each write, for 0, 1, 2 .. writes, until those are enough.
fn run_all(rt: &HostRuntime, markup: &str, script: &str) -> Option<()> {
    let (ended, out) = run_into(rt.alloc(), markup, script, (9, 0));
    println!(rt; "run, 0: {ended:?}, {} writes left", out.left).ok()?;
    let (_, whole) = run_into(rt.alloc(), markup, script, (usize::MAX, usize::MAX));
    for most in &[1, 2, 7, usize::MAX] {
        run_until_whole(rt, markup, script, &whole.taken, *most)?;
    }
    Some(())
}

/// Prints the number of writes that are enough, and whether all runs with fewer wrote a prefix of
/// the whole output.
fn run_until_whole(
    rt: &HostRuntime,
    markup: &str,
    script: &str,
    whole: &[u8],
    most: usize,
) -> Option<()> {
    let mut are_beginnings = true;
    for left in 0..usize::MAX {
        let (ended, out) = run_into(rt.alloc(), markup, script, (left, most));
        if ended != Err(RunFault::Write) {
            let is_whole = out.taken.as_slice() == whole;
            println!(rt; "run, {most}: {ended:?}, {left} {are_beginnings} {is_whole}").ok()?;
            break;
        }
        are_beginnings = are_beginnings && out.left == 0 && whole.starts_with(&out.taken);
    }
    Some(())
}
