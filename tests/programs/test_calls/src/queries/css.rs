//! Output of selectors and values as CSS, and for debugging.

use crate::lines::printing::{show, show_same};
use crate::queries::selecting::matcher_of;
use dom_nodes::fault::OutOfMemory;
use dom_select::matcher::{InnerSelector, Matcher};
use dom_selectors::css::{CssLocalName, CssString, ToCss};
use dom_selectors::mini_selector::selector::MiniSelector;
use dom_selectors::pseudo_class::{NonTSPseudoClass, PseudoElement};

/// Prints a value as CSS.
fn show_css<C: ToCss>(rt: &HostRuntime, what: &str, value: &C) {
    let mut css = String::new(rt.alloc());
    match value.to_css(&mut css) {
        Ok(()) => show(rt, what, css.as_str()),
        Err(fault) => show(rt, what, fault),
    }
}

/// Prints a copy of a value as CSS.
fn show_copy<C: ToCss + Drop>(rt: &HostRuntime, what: &str, copy: Result<C, OutOfMemory>) {
    match copy {
        Ok(copy) => show_css(rt, what, &copy),
        Err(fault) => show(rt, what, fault),
    }
}

/// Prints a copy of each selector in a list as CSS: `SELECTOR`.
pub fn write_selectors(rt: &HostRuntime, line: &str) {
    if let Some(matcher) = matcher_of(rt, line) {
        write_copy(rt, &matcher);
    }
}

fn write_copy(rt: &HostRuntime, matcher: &Matcher) {
    match matcher.try_clone() {
        Ok(copy) => write_each(rt, copy.selectors()),
        Err(fault) => show(rt, "try_clone", fault),
    }
}

fn write_each(rt: &HostRuntime, selectors: &[InnerSelector]) {
    for selector in selectors {
        show_css(rt, "to_css", selector);
    }
}

/// Prints the debug output of a selector list, and whether its first and last selectors equal a
/// copy of the first one: `SELECTOR`.
pub fn print_selector(rt: &HostRuntime, line: &str) {
    if let Some(matcher) = matcher_of(rt, line) {
        print_matcher(rt, &matcher);
    }
}

fn print_matcher(rt: &HostRuntime, matcher: &Matcher) {
    println!(rt; "{matcher:?}").ok();
    let selectors = matcher.selectors();
    if let (Some(first), Some(last)) = (selectors.first(), selectors.last()) {
        let copy = first.try_clone();
        show_same(rt, "the same as a copy", first, &copy);
        show_same(rt, "the same as the last", last, &copy);
    }
}

/// Prints the debug output of a text as a string, as a name, in a pseudo-class and as a mini
/// selector, and whether copies of the first three are equal to them: `TEXT`.
pub fn print_values(rt: &HostRuntime, text: &str) -> Option<()> {
    let string = CssString::new(rt.alloc(), text).ok()?;
    print_names(rt, &string, &CssLocalName::new(rt.alloc(), text).ok()?);
    print_pseudo(rt, &NonTSPseudoClass::Contains(string));
    match MiniSelector::new(rt.alloc(), text) {
        Ok(mini) => println!(rt; "{mini:?}").ok(),
        Err(_) => None,
    }
}

fn print_names(rt: &HostRuntime, string: &CssString, name: &CssLocalName) {
    println!(rt; "{string:?} {name:?}").ok();
    show_same(rt, "same string", string, &string.try_clone());
    show_same(rt, "same name", name, &name.try_clone());
}

fn print_pseudo(rt: &HostRuntime, pseudo: &NonTSPseudoClass) {
    println!(rt; "{pseudo:?}").ok();
    show_same(rt, "same pseudo-class", pseudo, &pseudo.try_clone());
    show(rt, "another", *pseudo == NonTSPseudoClass::OnlyText);
}

/// Prints copies of a text as CSS: as a string, in a pseudo-class and as a name: `TEXT`.
pub fn write_values(rt: &HostRuntime, text: &str) -> Option<()> {
    write_string(rt, &CssString::new(rt.alloc(), text).ok()?)?;
    let name = CssLocalName::new(rt.alloc(), text).ok()?;
    show_copy(rt, "CssLocalName", name.try_clone());
    show_css(rt, "PseudoElement", &PseudoElement);
    Some(())
}

fn write_string(rt: &HostRuntime, string: &CssString) -> Option<()> {
    show_css(rt, "CssString", string);
    let copy = string.try_clone().ok()?;
    show_css(rt, "HasText", &NonTSPseudoClass::HasText(copy));
    Some(())
}
