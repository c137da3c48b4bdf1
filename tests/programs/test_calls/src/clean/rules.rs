//! Rules by lines of a shell.

use dom_clean::Rules;
use url::Url;

/// Rules that keep texts alone.
pub fn none(rt: &HostRuntime) -> Rules {
    Rules::new(rt.alloc())
}

/// Changes rules by a line: a call's name, and what it is given.
pub fn change(rt: &HostRuntime, rules: &mut Rules, line: &str) -> Option<()> {
    let (call, rest) = line.split_once(' ').unwrap_or((line, ""));
    match call {
        "text" => *rules = Rules::text(rt.alloc()),
        "inline" => *rules = Rules::inline(rt.alloc()).ok()?,
        "comment" => *rules = Rules::comment(rt.alloc()).ok()?,
        "article" => *rules = Rules::article(rt.alloc()).ok()?,
        "email" => *rules = Rules::email(rt.alloc()).ok()?,
        "common" => *rules = Rules::common(rt.alloc()).ok()?,
        "data-attributes" => rules.set_data_attributes(true),
        "keep-relative" => rules.keep_relative(),
        "drop-relative" => rules.drop_relative(),
        "resolve-relative" => rules.resolve_relative(Url::parse(rt.alloc(), rest).ok()?),
        "no-rel" => rules.clear_rel(),
        "depth" => rules.set_depth(rest.parse().ok()?),
        "disallow-element" => rules.disallow_element(rest),
        "undrop-element" => rules.undrop_element(rest),
        "disallow-attribute" => rules.disallow_attribute(rest),
        "disallow-attribute-of" => take_own(rules, rest)?,
        "disallow-scheme" => rules.disallow_scheme(rest),
        "disallow-class" => rules.disallow_class(rest),
        _ => return add(rules, call, rest),
    }
    Some(())
}

fn take_own(rules: &mut Rules, rest: &str) -> Option<()> {
    let (element, name) = rest.split_once(' ')?;
    rules.disallow_attribute_of(element, name);
    Some(())
}

fn add(rules: &mut Rules, call: &str, rest: &str) -> Option<()> {
    match call {
        "element" => rules.allow_element(rest).ok(),
        "drop" => rules.drop_element(rest).ok(),
        "attribute" => rules.allow_attribute(rest).ok(),
        "scheme" => rules.allow_scheme(rest).ok(),
        "rel" => rules.set_rel(rest).ok(),
        "id-prefix" => rules.set_id_prefix(rest).ok(),
        "class" => rules.allow_class(rest).ok(),
        "attribute-of" => add_own(rules, rest),
        "value" => add_value(rules, rest),
        _ => None,
    }
}

fn add_own(rules: &mut Rules, rest: &str) -> Option<()> {
    let (element, name) = rest.split_once(' ')?;
    rules.allow_attribute_of(element, name).ok()
}

fn add_value(rules: &mut Rules, rest: &str) -> Option<()> {
    let (element, rest) = rest.split_once(' ')?;
    let (name, value) = rest.split_once(' ')?;
    rules.allow_value(element, name, value).ok()
}
