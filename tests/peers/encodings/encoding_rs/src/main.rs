//! Asks `encoding_rs`, as the test program's part `encodings` is asked: records in, records out.
use encoding_rs::Encoding;
use std::io::{Read, Write};
use std::time::Instant;

fn replacements(encoding: &'static Encoding, bytes: &[u8]) -> (String, u32) {
    let mut decoder = encoding.new_decoder_without_bom_handling();
    let (mut text, mut count, mut at) = (String::with_capacity(bytes.len() * 3 + 16), 0, 0);
    loop {
        text.reserve(bytes.len() - at + 64);
        let (result, read) = decoder.decode_to_string_without_replacement(&bytes[at..], &mut text, true);
        at += read;
        match result {
            encoding_rs::DecoderResult::InputEmpty => return (text, count),
            encoding_rs::DecoderResult::OutputFull => {}
            encoding_rs::DecoderResult::Malformed(..) => {
                text.push('\u{FFFD}');
                count += 1;
            }
        }
    }
}

fn main() {
    let words: Vec<String> = std::env::args().skip(1).collect();
    let mut bytes = Vec::new();
    std::io::stdin().read_to_end(&mut bytes).unwrap();
    if words[0] == "time" {
        let encoding = Encoding::for_label(words[1].as_bytes()).unwrap();
        let mut best = u128::MAX;
        for _ in 0..words[2].parse::<u32>().unwrap() {
            let begun = Instant::now();
            let (text, _) = encoding.decode_without_bom_handling(&bytes);
            let nanos = begun.elapsed().as_nanos();
            if std::hint::black_box(text).len() > 0 {
                best = best.min(nanos);
            }
        }
        println!("{best}");
        return;
    }
    let (mut at, mut out) = (0, Vec::new());
    while at < bytes.len() {
        let length = u32::from_le_bytes(bytes[at..at + 4].try_into().unwrap()) as usize;
        let item = &bytes[at + 4..at + 4 + length];
        at += 4 + length;
        if words[0] == "labels" {
            let name = Encoding::for_label(item).map_or("", |encoding| encoding.name());
            out.extend_from_slice(&(name.len() as u32).to_le_bytes());
            out.extend_from_slice(name.as_bytes());
            continue;
        }
        let (text, count) = replacements(Encoding::for_label(words[1].as_bytes()).unwrap(), item);
        out.extend_from_slice(&(text.len() as u32).to_le_bytes());
        out.extend_from_slice(text.as_bytes());
        out.extend_from_slice(&count.to_le_bytes());
    }
    std::io::stdout().write_all(&out).unwrap();
}
