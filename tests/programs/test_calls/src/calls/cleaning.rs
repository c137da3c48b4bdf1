//! What the sanitizer leaves of the document.

use crate::lines::printing::show;
use crate::lines::words::words_of;
use dom_markup::document::Document;
use dom_sanitize::sanitize::{Allow, sanitize};

/// Sanitizes the document by three lists of names: `ELEMENTS;ATTRIBUTES;DROPPED`.
pub fn clean(rt: &HostRuntime, document: &mut Document, line: &str) -> Option<()> {
    let (elements, rest) = line.split_once(';')?;
    let (attrs, dropped) = rest.split_once(';')?;
    let elements = words_of(rt.alloc(), elements)?;
    let attrs = words_of(rt.alloc(), attrs)?;
    let dropped = words_of(rt.alloc(), dropped)?;
    clean_by(rt, document, &elements, &attrs, &dropped);
    Some(())
}

fn clean_by(
    rt: &HostRuntime,
    document: &mut Document,
    elements: &[&str],
    attrs: &[&str],
    drop: &[&str],
) {
    let allow = Allow {
        elements,
        attrs,
        drop,
    };
    if let Err(fault) = sanitize(document, &allow) {
        show(rt, "sanitize", fault);
    }
}
