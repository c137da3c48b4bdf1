//! Names and attributes in the words of a line.

use dom_nodes::name::{Attr, LocalName, NameParts, Namespace, QualName};
use dom_nodes::node_data::Attrs;
use dom_nodes::text::Text;
use std::alloc::Global;

/// Returns the namespace that is written before a colon, or `None` if there is no such word.
pub fn namespace_of(written: &str) -> Option<Namespace> {
    let (prefix, _) = written.split_once(':')?;
    Some(match prefix {
        "none" => Namespace::None,
        "html" => Namespace::Html,
        "svg" => Namespace::Svg,
        "mathml" => Namespace::MathMl,
        "xlink" => Namespace::XLink,
        "xml" => Namespace::Xml,
        "xmlns" => Namespace::XmlNs,
        _ => return None,
    })
}

/// Returns what is written after the colon, or everything if there is no colon.
pub fn local_of(written: &str) -> &str {
    match written.split_once(':') {
        Some((_, local)) => local,
        None => written,
    }
}

/// Returns the name that is written `NAMESPACE:LOCAL`, or `LOCAL` alone for a name in the namespace
/// `ns`.
pub fn name_of(alloc: Global, written: &str, ns: Namespace) -> Option<QualName> {
    let ns = namespace_of(written).unwrap_or(ns);
    let local = LocalName::new(alloc, local_of(written)).ok()?;
    let prefix = None;
    QualName::new(alloc, NameParts { prefix, ns, local }).ok()
}

/// Returns the attributes that are written `name=value name=value`.
pub fn attributes(alloc: Global, written: &str) -> Option<Attrs> {
    let mut attrs = Attrs::new(alloc);
    for attr in written.split(' ') {
        if !attr.is_empty() {
            attrs.push(attribute(alloc, attr)?).ok()?;
        }
    }
    Some(attrs)
}

fn attribute(alloc: Global, written: &str) -> Option<Attr> {
    let (key, value) = written.split_once('=')?;
    let name = name_of(alloc, key, Namespace::None)?;
    let value = Text::new(alloc, value).ok()?;
    Some(Attr { name, value })
}
