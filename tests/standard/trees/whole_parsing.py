"""Parsing by the two tables: the tokenizer (machine.py over docs/standard/tokenizer.txt) and tree construction (construction.py over
docs/standard/tree_construction.txt). `page(text)`, `fragment(context, text)`: the builder at the end; `printed(trees)`: trees in the form
of html5lib's tests. Run as a program it prints the tree of the page, or the fragment in the context that is named, on standard input."""
import pathlib
import sys

sys.path.insert(0, str(pathlib.Path(__file__).resolve().parents[1]))
sys.path.insert(0, str(pathlib.Path(__file__).resolve().parent))
import construction  # noqa: E402
import machine  # noqa: E402


def run(text, builder):
    """The builder behind the whole text."""
    m = machine.Machine(text, state=builder.state or "Data", switches=False)
    while not m.done:
        m.foreign = builder.foreign
        before = len(m.tokens)
        m.step()
        for token in m.tokens[before:]:
            for one in [("char", c) for c in token[1]] if token[0] == "chars" else [token]:
                builder.step(one)
                if builder.state:
                    m.state = builder.state
    return builder


def page(text, scripting=False):
    return run(text, construction.Builder(scripting))


def fragment(context, text, scripting=False, attrs=(), quirks="no-quirks", in_form=False):
    """A context is the name of an HTML element, or one behind "svg" or "math" and a space. Its document is in that mode; a form element
    may be above it."""
    space, _, name = context.rpartition(" ")
    return run(text, construction.Builder(scripting, (space, name, attrs), quirks, in_form))


def lines(trees, depth=0):
    for t in trees:
        indent = "| " + "  " * depth
        if t[0] == "text":
            yield f'{indent}"{t[1]}"'
        elif t[0] == "comment":
            yield f"{indent}<!-- {t[1]} -->"
        elif t[0] == "doctype":
            ids = f' "{t[2][0]}" "{t[2][1]}"' if t[2][0] or t[2][1] else ""
            yield f"{indent}<!DOCTYPE {t[1]}{ids}>"
        else:
            _, space, name, attrs, contents, below = t
            yield f"{indent}<{space + ' ' if space else ''}{name}>"
            yield from (f'{indent}  {n}="{v}"' for n, v in sorted(attrs, key=lambda a: a[0].encode("utf-8", "surrogatepass")))
            if contents is not None:
                yield f"{indent}  content"
                yield from lines(contents, depth + 2)
            yield from lines(below, depth + 1)


def printed(trees):
    """The lines of trees as html5lib's tests have them."""
    return "".join(line + "\n" for line in lines(trees))


def by_rules(text, context, scripting, **around):
    """The tree of a page, or of a fragment in a context, and the mode of its Document."""
    b = fragment(context, text, scripting, **around) if context else page(text, scripting)
    return printed(b.result()), b.quirks


if __name__ == "__main__":
    whole = sys.stdin.read()
    print(printed((fragment(sys.argv[1], whole) if len(sys.argv) > 1 else page(whole)).result()), end="")
