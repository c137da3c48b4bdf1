//! `test_calls commonmark escape [cell] [link]` prints the text on standard input with the escapes
//! by which a reader of CommonMark takes it as text, in a cell or before a link.
//! `test_calls commonmark page [star|plus] [tildes] [contents]` prints the page on standard input
//! as CommonMark: with that bullet, with fences of tildes, without tables.

use crate::lines::words::input;
use dom_commonmark::escaping::{Place, push_escaped};
use dom_commonmark::options::{Bullet, Fence, Options};
use dom_commonmark::writer::commonmark;
use page_reading::parse_page;

/// Prints the escaped text, or the page.
pub fn run(rt: &HostRuntime, words: &[String]) -> Option<()> {
    let (first, words) = words.split_first()?;
    match first.as_str() {
        "escape" => escape(rt, words),
        "page" => page(rt, words),
        _ => None,
    }
}

fn escape(rt: &HostRuntime, words: &[String]) -> Option<()> {
    let place = Place {
        cell: has(words, "cell"),
        before_link: has(words, "link"),
    };
    let mut text = String::new(rt.alloc());
    push_escaped(&mut text, input(rt)?.as_str(), place).ok()?;
    let out = text.as_str();
    print!(rt; "{out}").ok()
}

fn page(rt: &HostRuntime, words: &[String]) -> Option<()> {
    let mut options = Options::new();
    if has(words, "star") {
        options.bullet = Bullet::Star;
    }
    if has(words, "plus") {
        options.bullet = Bullet::Plus;
    }
    if has(words, "tildes") {
        options.fence = Fence::Tilde;
    }
    options.tables = !has(words, "contents");
    let markup = input(rt)?;
    let page = parse_page(
        rt.alloc(),
        markup.as_str(),
        page_reading::Options::default(),
    )
    .ok()?;
    let text = commonmark(rt.alloc(), &page.root(), &options).ok()?;
    let out = text.as_str();
    print!(rt; "{out}").ok()
}

fn has(words: &[String], wanted: &str) -> bool {
    words.iter().any(|word| word.as_str() == wanted)
}
