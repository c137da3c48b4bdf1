//! The messages of faults, and the position of a fault in a text.

use crate::lines::words::cut;
use dom_edits::edit::SelectionFault;
use dom_links::validation::ValidateFault;
use dom_markup::serializing::WriteFault;
use dom_nodes::fault::{EditFault, MarkupFault, MarkupFaultKind, OutOfMemory};
use dom_selectors::fault::SelectorFault;
use dom_selectors::mini_selector::fault::MiniFault;
use page_reading::PageFault;
use std::fmt::Display;

const WRITES: [WriteFault; 2] = [WriteFault::Write, WriteFault::Memory];

#[rattlefmt::skip]
const SELECTORS: [SelectorFault; 6] = [
    SelectorFault::Syntax, SelectorFault::UnknownPseudoClass, SelectorFault::Number,
    SelectorFault::NestedHas, SelectorFault::TooDeep, SelectorFault::Memory,
];

const MINIS: [MiniFault; 3] = [
    MiniFault::NoSelector,
    MiniFault::BadQuotedValue,
    MiniFault::Memory,
];

const KINDS: [MarkupFaultKind; 11] = [
    MarkupFaultKind::BadTag,
    MarkupFaultKind::Unclosed,
    MarkupFaultKind::MismatchedEnd,
    MarkupFaultKind::StrayEnd,
    MarkupFaultKind::SlashOnOpen,
    MarkupFaultKind::BadComment,
    MarkupFaultKind::BadDeclaration,
    MarkupFaultKind::MisplacedDoctype,
    MarkupFaultKind::Instruction,
    MarkupFaultKind::TooManyNodes,
    MarkupFaultKind::Memory,
];

const BAD_TAG: MarkupFault = MarkupFault {
    kind: MarkupFaultKind::BadTag,
    at: 12,
};

const EDITS: [EditFault; 8] = [
    EditFault::UnknownNode,
    EditFault::NoChildrenHere,
    EditFault::RootOrFragment,
    EditFault::Cycle,
    EditFault::TooManyNodes,
    EditFault::Memory,
    EditFault::BadContents,
    EditFault::Markup(BAD_TAG),
];

const STOPPED: SelectionFault = SelectionFault {
    done: 3,
    fault: EditFault::Cycle,
};

const PAGES: [PageFault; 2] = [PageFault::Memory, PageFault::TooManyNodes];

#[rattlefmt::skip]
const RAW: [ValidateFault; 13] = [
    ValidateFault::NoRoot, ValidateFault::RootPlaced, ValidateFault::BadId,
    ValidateFault::UnknownLink, ValidateFault::BadLink, ValidateFault::Cycle,
    ValidateFault::NotLinked, ValidateFault::SiblingCycle, ValidateFault::NoChildrenHere,
    ValidateFault::PlacedFragment, ValidateFault::BadContents, ValidateFault::TooManyNodes,
    ValidateFault::Memory,
];

/// Prints the message of each of the faults.
fn print_each<D: Display>(rt: &HostRuntime, faults: &[D]) {
    for fault in faults {
        println!(rt; "{fault}").ok();
    }
}

/// Prints the message of each kind of fault.
pub fn print_all(rt: &HostRuntime) {
    print_each(rt, &WRITES);
    print_each(rt, &SELECTORS);
    print_each(rt, &MINIS);
    print_each(rt, &KINDS);
    print_each(rt, &EDITS);
    print_each(rt, &PAGES);
    print_each(rt, &RAW);
    print_each(rt, &[BAD_TAG]);
    print_each(rt, &[STOPPED]);
    print_each(rt, &[OutOfMemory]);
}

/// Prints the line and the column of a byte of a text: `AT TEXT`.
pub fn find_position(rt: &HostRuntime, line: &str) -> Option<()> {
    let (word, text) = cut(line);
    let (kind, at) = (MarkupFaultKind::BadTag, word.parse::<usize>().ok()?);
    let (line, column) = MarkupFault { kind, at }.line_and_column(text);
    println!(rt; "line {line}, column {column}").ok()
}
