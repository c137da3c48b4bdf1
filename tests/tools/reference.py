"""Makes docs/REFERENCE.md from the sources: every public name that `dom_query` hands on.

The names are those of the `pub use` lines of crates/dom_query/src: lib.rt, and its public modules but for `laws`. Of each name the
page has the import, the signatures without their contract clauses, the first sentence of each doc comment, and the sentences that
say when a call fails. Where a method has no such sentence, that of its trait or `impl` block stands for it.

    python3 tests/tools/reference.py           writes docs/REFERENCE.md
    python3 tests/tools/reference.py --gaps    lists the names and calls that don't say what they are or when they fail"""
import dataclasses
import pathlib
import re
import sys

ROOT = pathlib.Path(__file__).resolve().parents[2]
QUERY = ROOT / "crates" / "dom_query" / "src"
PAGE = ROOT / "docs" / "REFERENCE.md"

# The names of each part of the page, in order. A name that no part has comes last.
PARTS = {
    "Reading": (
        "parse_page parse_page_bytes parse_page_fragment PageParser Options Context read_page ReadPage PageByteParser Charset Fallback "
        "Confidence Encoding decode_page PageText Document Snippet Tokens Token TokenKind QuirksMode TreeSink NodeOrText ElementFlags"
    ),
    "Finding": (
        "DocumentSelect Selection Selections Matcher MatchNode NodeSelect DescendantMatches Matches MatcherIter InnerSelector "
        "SelectorCaches TreeIndex IndexedNodes valid_selector_prefix MiniSelect MiniSelector MiniAttr parse_mini_selector "
        "parse_selector_list Traversal AttrOperator Combinator NonTSPseudoClass PseudoElement CssLocalName CssString ToCss"
    ),
    "Nodes": (
        "NodeRef Node ChildRefs AncestorRefs DescendantRefs NodeId Tree TreeNode Link NodeData Element Attr Attrs Text RareText "
        "LocalName LocalRef QualName NameParts NameRef Namespace NamespaceRef IndexKind CaseSensitivity TreeNodeOps ChildNodes "
        "AncestorNodes DescendantNodes child_nodes ancestor_nodes descendant_nodes"
    ),
    "Editing": "NodeMut NodeMutMarkup NodeEdit SelectionMut Place NodeFragment",
    "Sanitising": (
        "clean clean_page clean_bytes clean_page_bytes clean_tree clean_document write_clean_tree removed_from_tree "
        "removed_from_body removed_below Removed clean_report CleanReport count_removed RemovedCounts removed_lines CleanedBytes Policy PolicyFault Rules sanitize sanitize_tree Allow"
    ),
    "Writing": (
        "NodeMarkup SerializableNodeRef TraversalScope NodeMd DocumentMd SelectionMd serialize_md MDSerializer FormatOpts "
        "EmphasisScope ListContext ListKind push_escaped_chunk escape_table_cell_inplace fence_len html_escape"
    ),
    "Scripts and programs": "run run_commands read_script Command drive",
    "Errors": (
        "PageFault MarkupFault MarkupFaultKind SelectorFault EditFault SelectionFault OutOfMemory WriteFault ValidateFault "
        "MiniFault ScriptFault RunFault"
    ),
}

# Calls that name another one in place of saying when they fail.
ELSEWHERE = {"TreeSink::append_based_on_parent_node"}

ITEM = re.compile(r"pub (?:const )?(fn|struct|enum|trait|type|static|const) (\w+)")
BLOCK = re.compile(r"impl(?:<.*?>)? (?:(?P<of>[\w:]+)(?P<args><.*>)? for )?(?P<type>&?\w+)")
CLAUSE = re.compile(r"^\s*(requires|ensures|ghost)\b")
FAILS = re.compile(r"\b[Ff]ail(s|ed)?\b|\bis an error\b|\berror says\b|\bsays what is wrong\b|\bmemory is refused\b")
SENTENCE = re.compile(r"(?<=[.!?])\s+(?=[A-Z`(])")
# Traits of std whose methods everyone knows.
STD = {"Iterator", "DoubleEndedIterator", "From", "Default", "Display", "Debug"}


@dataclasses.dataclass
class Item:
    """A public item: its kind and name, its text as it is declared, its doc comment, and what belongs to it."""

    kind: str
    name: str
    text: str
    doc: list
    crate: str
    path: str
    parts: list = dataclasses.field(default_factory=list)
    traits: list = dataclasses.field(default_factory=list)


def sentences(doc):
    """The sentences of a doc comment; a list is one sentence with what comes before it."""
    paragraphs, lines = [], []
    for line in [*doc, ""]:
        if line:
            lines.append(line.strip())
        elif lines:
            paragraphs.append(" ".join(lines))
            lines = []
    joined = []
    for paragraph in paragraphs:
        if paragraph.startswith("- ") and joined:
            joined[-1] = f"{joined[-1]} {listed(paragraph)}"
        else:
            joined.append(paragraph)
    return [sentence for paragraph in joined for sentence in SENTENCE.split(paragraph)]


def listed(paragraph):
    """The items of a list in one line."""
    return " ".join(item.strip() for item in re.split(r"(?:^|(?<=[;.]) )- ", paragraph) if item)


def declared(lines, at):
    """The declaration that begins at a line, up to its body or clauses, in one line."""
    held = []
    for line in lines[at:]:
        if CLAUSE.match(line):
            break
        if not line.lstrip().startswith("//"):
            held.append(line.strip())
        if line.rstrip().endswith(("{", ";", "{}")):
            break
    text = re.sub(r"\s*(\{|\{\}|;)$", "", " ".join(held))
    return re.sub(r",? \)", ")", text.replace("( ", "(")).replace("pub ", "", 1)


def part_of(lines, at, inside, doc):
    """What a line inside a block declares: a call, a field or a variant."""
    line = lines[at]
    call = re.match(r"    (pub )?(const )?fn (\w+)", line)
    if call and (call[1] or inside.kind == "trait"):
        return ("call", call[3], declared(lines, at), doc)
    field = re.match(r"    pub (\w+: .*),$", line)
    if field and inside.kind == "struct":
        return ("field", "", field[1], doc)
    variant = re.match(r"    ([A-Z]\w*(?:\(.*\))?)(,| \{)", line)
    if variant and inside.kind == "enum":
        fields = fields_of(lines, at) if variant[2] == " {" else ""
        return ("variant", "", variant[1] + fields, doc)
    return None


def fields_of(lines, at):
    """The fields of a variant, in one line."""
    held = []
    for line in lines[at + 1 :]:
        if line.strip() == "},":
            break
        if not line.lstrip().startswith(("//", "#")):
            held.append(line.strip())
    return " { " + " ".join(held).rstrip(",") + " }"


def read_file(path, items, blocks):
    """Adds the public items and the `impl` blocks of a file."""
    lines = path.read_text(encoding="utf-8").splitlines()
    crate = path.relative_to(ROOT / "crates").parts[0]
    doc, inside = [], None
    for at, line in enumerate(lines):
        if comment := re.match(r"\s*///(?: (.*))?$", line):
            doc.append(comment[1] or "")
            continue
        if re.match(r"\s*#\[", line):
            continue
        if line == "}":
            inside = None
        elif found := ITEM.match(line):
            inside = Item(found[1], found[2], declared(lines, at), doc, crate, str(path))
            items.append(inside)
            inside = inside if line.endswith("{") and found[1] not in ("fn", "static") else None
        elif found := BLOCK.match(line):
            inside = Item("impl", found["type"], found["of"] or "", doc, crate, str(path))
            inside.traits = [(found["of"] or "") + (found["args"] or "")]
            blocks.append(inside)
        elif inside and (part := part_of(lines, at, inside, doc)):
            inside.parts.append(part)
        elif inside and inside.kind == "impl" and (item := re.match(r"    type Item = (.*);", line)):
            inside.traits[0] += f"<Item = {item[1]}>"
        doc = []


def libraries():
    """`dom_query` and the crates below it, by crates.txt."""
    lines = (ROOT / "crates.txt").read_text(encoding="utf-8").splitlines()
    below = {line.partition(":")[0]: line.partition(":")[2].split() for line in lines if not line.startswith("#")}
    found, left = set(), ["dom_query"]
    while left:
        crate = left.pop()
        if crate in below and crate not in found:
            found.add(crate)
            left += below[crate]
    return sorted(found)


def files():
    """The files of the libraries. A module comes before those inside it."""
    held = [path for crate in libraries() for path in (ROOT / "crates" / crate / "src").glob("**/*.rt")]
    return sorted(held, key=lambda path: path.with_suffix("").parts)


def sources():
    """All public items, and all `impl` blocks."""
    items, blocks = [], []
    for path in files():
        read_file(path, items, blocks)
    return items, blocks


def uses(path):
    """The names that a file hands on, each with the path that it has there."""
    text = re.sub(r"\s+", " ", path.read_text(encoding="utf-8"))
    for found in re.findall(r"pub use ([^;]*);", text):
        before, _, inner = found.partition("{")
        for name in inner.rstrip("} ").split(",") if inner else [found.rpartition("::")[2]]:
            if name.strip():
                yield name.strip(), (before if inner else found.rpartition("::")[0] + "::") + name.strip()


def imports():
    """Each public name with its import and its path: of the prelude, of the crate, or of one of its modules."""
    found = {}
    for name, path in uses(QUERY / "prelude.rt"):
        found.setdefault(name, ("use dom_query::prelude::*;", path))
    for name, path in uses(QUERY / "lib.rt"):
        found.setdefault(name, (f"use dom_query::{name};", path))
    root = (QUERY / "lib.rt").read_text(encoding="utf-8")
    for module in re.findall(r"^pub mod (\w+);", root, re.M):
        if module not in ("laws", "prelude"):
            for name, path in uses(QUERY / f"{module}.rt"):
                found.setdefault(name, (f"use dom_query::{module}::{name};", path))
    return found


def item_of(name, path, items):
    """The item that a path names: of that file, or else of that crate, or else of any."""
    crate, _, rest = path.replace("crate::", "dom_query::").partition("::")
    module = rest.rpartition("::")[0].replace("::", "/")
    of_name = [item for item in items if item.name == name]
    in_crate = [item for item in of_name if item.crate == crate]
    in_file = [item for item in in_crate if module and f"src/{module}" in item.path]
    for held in (in_file, in_crate, of_name):
        if held:
            return held[0]
    return item_of(renamed(name), path, items)


def renamed(name):
    """The name that an item has where it is declared, if it is handed on under another one."""
    for path in files():
        if found := re.search(rf"^pub use [\w:]*?(\w+) as {name};", path.read_text(encoding="utf-8"), re.M):
            return found[1]
    raise SystemExit(f"reference.py finds no {name}")


def failing(doc, outer):
    """The sentences that say when a call fails, but for the first sentence of its doc comment."""
    own = [sentence for sentence in sentences(doc)[1:] if FAILS.search(sentence)]
    return own or [sentence for sentence in sentences(outer) if FAILS.search(sentence)]


def says_when(text, doc, outer):
    """Whether a call can't fail, or only for lack of memory, or its doc comment, or that of what it is in, says when it fails."""
    may_fail = "Result<" in text and "OutOfMemory>" not in text
    return not may_fail or bool(failing(doc, outer)) or any(FAILS.search(sentence) for sentence in sentences(doc))


def described(text, doc, outer):
    """What a call is, does, and when it fails."""
    first = sentences(doc)[:1]
    fails = failing(doc, outer) if "Result<" in text else [held for held in failing(doc, []) if re.search(r"\bfail", held)]
    said = " ".join([*first, *(f"*{sentence}*" for sentence in fails)])
    return f"`{text}`" + (f"  \n  {said}" if said else "")


def written(name, given, items, blocks):
    """The lines of the page for one name."""
    use, path = given
    item = item_of(name, path, items)
    yield f"### {name}\n\n`{use}`\n"
    if item.kind == "fn":
        yield f"- {described(item.text, item.doc, [])}\n"
        return
    if item.doc:
        yield " ".join(sentences(item.doc)) + "\n"
    if item.kind == "type":
        yield f"`{item.text}`\n"
    yield from parts_of(item, item, item.doc)
    own = [block for block in blocks if block.name == name and block.crate == item.crate]
    own.sort(key=lambda block: block.path != item.path)
    for block in own:
        if not block.text:
            yield from parts_of(block, item, block.doc)
    known = sorted({block.traits[0] for block in own if block.text and block.text.split("::")[-1] in STD - {"Display", "Debug"}})
    if known:
        yield "Traits: " + ", ".join(f"`{trait}`" for trait in known) + "\n"


def parts_of(block, item, outer):
    """The lines for what is in a type, a trait or an `impl` block."""
    lines = []
    for kind, _, text, doc in block.parts:
        if kind == "call":
            lines.append(f"- {described(text, doc, outer)}")
        else:
            said = " ".join(sentences(doc))
            lines.append(f"- `{text}`" + (f": {said}" if said else ""))
    if lines:
        yield "\n".join(lines) + "\n"


HEAD = """# REFERENCE: every public name

*For programmers who look up a call. This page is made by tests/tools/reference.py from the sources, and
compared with them by the tests.*

Of each name the page has the import; of each call its signature, what it does, and in italics when it
fails. A call that doesn't return a `Result` can't fail, and one whose error is `OutOfMemory` fails only
when memory is refused. The contracts, which say the same precisely, are in the sources. Functions of the
modules `laws` do nothing when they run; proofs call them.
"""


def public_path(item):
    """The path by which other crates name an item: without the modules that aren't public."""
    source = ROOT / "crates" / item.crate / "src"
    parts = [part for part in pathlib.Path(item.path).relative_to(source).with_suffix("").parts if part != "lib"]
    for at in range(len(parts)):
        outer = source / "/".join(parts[:at]) if at else source / "lib"
        if not re.search(rf"^pub mod {parts[at]};", outer.with_suffix(".rt").read_text(encoding="utf-8"), re.M):
            parts = parts[:at]
            break
    return "::".join([item.crate, *parts, item.name])


def others(lines, names, items):
    """The types that signatures of the page name, and that only the crates below hand on, each with its import."""
    held = [re.sub(r"^[A-Z]\w*", "", text) for line in lines for text in re.findall(r"^- `([^`]+)`", line, re.M)]
    used = {word for text in held for word in re.findall(r"\b[A-Z]\w+", text)} - set(names)
    for item in items:
        if item.kind in ("struct", "enum", "trait") and item.name in used and item.doc:
            yield f"- `use {public_path(item)};`  \n  {sentences(item.doc)[0]}"


def page():
    """The text of the page."""
    items, blocks = sources()
    names = imports()
    parts = {part: [name for name in listed_names.split() if name in names] for part, listed_names in PARTS.items()}
    placed = {name for held in parts.values() for name in held}
    parts["More"] = sorted(set(names) - placed)
    lines = [HEAD]
    for part, held in parts.items():
        if held:
            lines.append(f"- [{part}](#{part.lower().replace(' ', '-')}): " + ", ".join(f"[{n}](#{n.lower()})" for n in held))
    lines.append("")
    for part, held in parts.items():
        if held:
            lines.append(f"## {part}\n")
        for name in held:
            lines += written(name, names[name], items, blocks)
    lines.append("## Types of the crates below\n")
    lines.append("Calls above take or return these, too. To use one, name its crate in crates.txt.\n")
    lines += others(lines, names, items)
    return "\n".join(lines).rstrip("\n") + "\n"


def gaps():
    """The calls whose doc comments don't say what they do, or when they fail."""
    items, blocks = sources()
    for name, (_, path) in imports().items():
        item = item_of(name, path, items)
        if not item.doc or (item.kind == "fn" and not says_when(item.text, item.doc, [])):
            yield name
        for block in [item, *(b for b in blocks if b.name == name and b.crate == item.crate and not b.text)]:
            for kind, call, text, doc in block.parts:
                if kind == "call" and not (doc and says_when(text, doc, block.doc)):
                    yield f"{name}::{call}"


def reference():
    """Compares the page with the sources, looks at each public call, and returns how many tests passed and failed."""
    wanted = page()
    right = PAGE.exists() and PAGE.read_text(encoding="utf-8") == wanted
    faults = [] if right else [f"{PAGE.relative_to(ROOT)} differs from the sources: run python3 tests/tools/reference.py"]
    faults += [f"no sentence says what this does, or when it fails: {gap}" for gap in gaps() if gap not in ELSEWHERE]
    for fault in faults:
        print(fault)
    passed = wanted.count("\n### ") + wanted.count("\n- `") + 1 - len(faults)
    print(f"public names and calls: {passed} passed, {len(faults)} failed")
    return passed, len(faults)


def main():
    if "--gaps" in sys.argv[1:]:
        print("\n".join(gaps()))
        return 0
    PAGE.write_text(page(), encoding="utf-8")
    return 0


if __name__ == "__main__":
    sys.exit(main())
