"""Parsing by two tables, that of the tokenizer and that of the rules of a part of tree construction: the tokenizer (machine.py) hands its tokens to
tree construction (rules/tree_builder.py), which switches the tokenizer's state behind the start tag of an element whose text it reads next.
trees/whole_parsing.py is for all of tree construction. Trees are as in tree_builder.py; None stands for a text for which there is no rule."""
import pathlib
import sys

sys.path.insert(0, str(pathlib.Path(__file__).resolve().parent / "rules"))
import machine  # noqa: E402
import tree_builder  # noqa: E402


def handed(token):
    """The tokens that tree construction takes for a token of the tokenizer: one for each character, and a doctype without a name where
    it has identifiers or the force-quirks flag."""
    if token[0] == "chars":
        return [("char", c) for c in token[1]]
    if token[0] == "doctype":
        return [("doctype", token[1] if token[2:] == (None, None, False) else None)]
    return [token[:3]]


def built(text, state, builder):
    """Parses a text, from that state of the tokenizer on."""
    m = machine.Machine(text, state=state, switches=False)
    while not m.done:
        before = len(m.tokens)
        m.step()
        new = m.tokens[before:]
        for token in new:
            for one in handed(token):
                builder.step(one)
        if new and new[-1][0] == "start" and builder.mode == "text":
            m.state = machine.SWITCHES[new[-1][1]]
    return builder.finish()


def page(text):
    """The document of a page."""
    try:
        return built(text, "Data", tree_builder.Builder())
    except tree_builder.NoRule:
        return None


def fragment(context, text):
    """The nodes of a fragment in a context element of that name (13.4)."""
    builder = tree_builder.Builder()
    builder.context = context
    builder.insert("html", [])
    try:
        builder.mode = builder.reset()
        return built(text, machine.SWITCHES.get(context, "Data"), builder)[0][3]
    except tree_builder.NoRule:
        return None
