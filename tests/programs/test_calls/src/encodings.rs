//! Calls of the decoders. Standard input is a list of records, each a length of four bytes, the
//! least first, and so many bytes; so is what is written, but for the times.
//!
//! `decode LABEL` writes the text of each record, and behind each text how many replacements are in
//! it, a number of four bytes. `pieces LABEL SIZE` does the same with a decoder that is fed each
//! record in pieces of that size. `declared` writes the name of the encoding that each record
//! declares as a page, and `labels` that of the encoding of each record as a label; nothing where
//! there is none. `marks` writes the name of the encoding of each record's byte order mark. `time
//! LABEL RUNS` prints how many nanoseconds the best of so many runs takes to decode all of standard
//! input.

use std::alloc::Global;
use std::io::{Read, Write};
use std::time::Instant;
use text_decoding::{Decoded, Decoder, Encoding, declared_encoding, decode, decode_pieces};

/// Answers what the words ask of standard input.
pub fn run(rt: &HostRuntime, words: &[String]) -> Option<()> {
    let mut bytes = Vec::new(rt.alloc());
    rt.stdin().read_to_end(&mut bytes).ok()?;
    let mode = words.get(0)?.as_str();
    if mode == "time" {
        let encoding = Encoding::for_label(words.get(1)?.as_bytes())?;
        let runs = words.get(2)?.as_str().parse::<u16>().ok()?;
        return time(rt, encoding, &bytes, runs);
    }
    let out = answers(rt.alloc(), mode, words, &bytes)?;
    rt.stdout().write_all(out.as_slice()).ok()
}

/// What is written of all records.
fn answers(alloc: Global, mode: &str, words: &[String], bytes: &[u8]) -> Option<Vec<u8>> {
    match mode {
        "decode" | "pieces" => {
            let encoding = Encoding::for_label(words.get(1)?.as_bytes())?;
            let size = match words.get(2) {
                Some(word) => word.as_str().parse::<u16>().ok()?,
                None => 0,
            };
            texts(alloc, encoding, size, bytes)
        }
        _ => names(alloc, mode, bytes),
    }
}

/// The first record, and what stands behind it.
fn record(bytes: &[u8]) -> Option<(&[u8], &[u8])> {
    let (length, rest) = bytes.split_first_chunk::<4>()?;
    rest.split_at_checked(u32::from_le_bytes(*length) as usize)
}

/// Appends a number of four bytes.
fn write_number(out: &mut Vec<u8>, number: usize) -> Option<()> {
    let number = u32::try_from(number).ok()?;
    out.extend_from_slice(&number.to_le_bytes()).ok()
}

/// Appends a record.
fn write_record(out: &mut Vec<u8>, bytes: &[u8]) -> Option<()> {
    write_number(out, bytes.len())?;
    out.extend_from_slice(bytes).ok()
}

/// The texts of the records, each with its number of replacements.
fn texts(alloc: Global, encoding: Encoding, size: u16, bytes: &[u8]) -> Option<Vec<u8>> {
    let mut out = Vec::new(alloc);
    let mut rest = bytes;
    for _ in 0..bytes.len() {
        if let Some((item, others)) = record(rest) {
            if size == 0 {
                write_text(alloc, encoding, &mut out, item)?;
            } else {
                write_pieces(alloc, encoding, &mut out, item, usize::from(size))?;
            }
            rest = others;
        }
    }
    Some(out)
}

/// Appends the text of bytes that are whole.
fn write_text(alloc: Global, encoding: Encoding, out: &mut Vec<u8>, item: &[u8]) -> Option<()> {
    let text = decode(alloc, encoding, item).ok()?;
    write_record(out, text.as_str().as_bytes())?;
    write_number(out, text.replaced())
}

/// Appends the text of bytes that come in pieces. None where `Decoder` and `decode_pieces` differ.
fn write_pieces(
    alloc: Global,
    encoding: Encoding,
    out: &mut Vec<u8>,
    item: &[u8],
    size: usize,
) -> Option<()> {
    let pieces = pieces_of(alloc, item, size)?;
    let mut decoder = Decoder::new(alloc, encoding);
    let mut text = Vec::new(alloc);
    let mut replaced = 0;
    for piece in pieces.as_slice() {
        replaced = add(&mut text, replaced, &decoder.feed(piece).ok()?)?;
    }
    if decoder.encoding() != encoding {
        return None;
    }
    replaced = add(&mut text, replaced, &decoder.finish().ok()?)?;
    let joined = decode_pieces(alloc, encoding, pieces.as_slice()).ok()?;
    if joined.text.as_bytes() != text.as_slice() || joined.replaced != replaced {
        return None;
    }
    write_record(out, text.as_slice())?;
    write_number(out, replaced)
}

/// The pieces of that size that bytes are cut into.
fn pieces_of(alloc: Global, item: &[u8], size: usize) -> Option<Vec<&[u8]>> {
    let mut pieces = Vec::new(alloc);
    let mut rest = item;
    for _ in 0..item.len() {
        let (piece, others) = rest.split_at_checked(size.min(rest.len()))?;
        pieces.push(piece).ok()?;
        rest = others;
    }
    Some(pieces)
}

/// Appends the text of a piece, and returns the number of replacements so far.
fn add(text: &mut Vec<u8>, replaced: usize, piece: &Decoded) -> Option<usize> {
    text.extend_from_slice(piece.text.as_bytes()).ok()?;
    replaced.checked_add(piece.replaced)
}

/// The names of encodings that the records give.
fn names(alloc: Global, mode: &str, bytes: &[u8]) -> Option<Vec<u8>> {
    let mut out = Vec::new(alloc);
    let mut rest = bytes;
    for _ in 0..bytes.len() {
        if let Some((item, others)) = record(rest) {
            let found = named(mode, item)?;
            let name = match found {
                Some(encoding) => encoding.name(),
                None => "",
            };
            write_record(&mut out, name.as_bytes())?;
            rest = others;
        }
    }
    Some(out)
}

/// The encoding that a record gives.
fn named(mode: &str, item: &[u8]) -> Option<Option<Encoding>> {
    match mode {
        "declared" => Some(declared_encoding(item)),
        "labels" => Some(Encoding::for_label(item)),
        "marks" => match Encoding::for_bom(item) {
            Some((encoding, _)) => Some(Some(encoding)),
            None => Some(None),
        },
        _ => None,
    }
}

/// Prints how long the best run takes.
fn time(rt: &HostRuntime, encoding: Encoding, bytes: &[u8], runs: u16) -> Option<()> {
    let mut best = u128::MAX;
    for _ in 0..runs {
        let start = Instant::now(rt).ok()?;
        let text = decode(rt.alloc(), encoding, bytes).ok()?;
        let nanos = start.elapsed(rt).ok()?.as_nanos();
        if !text.as_str().is_empty() && nanos < best {
            best = nanos;
        }
    }
    println!(rt; "{best}").ok()
}
