//! `peer_ammonia clean` cleans standard input by ammonia's rules, and prints what is left; `peer_ammonia parse` reads it as a page by
//! html5ever, and prints how many nodes there are; `peer_ammonia read` only reads it as a text, and prints its length.
use std::io::{Read, Write};

use html5ever::tendril::TendrilSink;
use markup5ever_rcdom::{Handle, RcDom};

fn count(root: &Handle) -> usize {
    let mut open = vec![root.clone()];
    let mut found = 0;
    while let Some(node) = open.pop() {
        found += 1;
        open.extend(node.children.borrow().iter().cloned());
    }
    found
}

fn main() {
    let mut bytes = Vec::new();
    std::io::stdin().read_to_end(&mut bytes).unwrap();
    let text = String::from_utf8_lossy(&bytes);
    match std::env::args().nth(1).as_deref() {
        Some("clean") => std::io::stdout().write_all(ammonia::clean(&text).as_bytes()).unwrap(),
        Some("parse") => {
            let dom: RcDom = html5ever::parse_document(RcDom::default(), Default::default()).one(&*text);
            println!("{}", count(&dom.document));
        }
        _ => println!("{}", text.len()),
    }
}
