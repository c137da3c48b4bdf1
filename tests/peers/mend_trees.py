"""mend_trees.py SOURCE TARGET: copies the folder of parse5 7.1.2, and mends where its trees aren't those of the HTML Standard:

- the step of the adoption agency that standard/mend_parse5.py adds;
- "in row", an end tag `tbody`, `tfoot` or `thead` is ignored unless that element is in table scope;
- a CDATA section may begin wherever the adjusted current node isn't an HTML element, integration points included;
- "any other end tag" looks for an HTML element of that name;
- "in body", the content of `noframes` is text;
- in a fragment, the content of `noscript` is text only with scripting;
- "in table body", a template ends the scope in which a `tbody`, `thead` or `tfoot` is looked for;
- `feDropShadow` is an SVG element;
- in foreign content, each null character is replaced by one U+FFFD, also where several are side by side;
- where the insertion mode is reset, an SVG or MathML element isn't taken for the HTML element of that name;
- in foreign content of a fragment, an end tag for which only the topmost element is left is processed by the current insertion mode.

table_rows.py knows of two more: parse5 7.1.2 doesn't know the element `search`, and has the rules of `select` that the Standard had until
2025, so the browsers are asked for pages with a `select` (browsers/ask.py)."""
import pathlib
import subprocess
import sys

HERE = pathlib.Path(__file__).resolve().parent
CHANGES = {
    "dist/cjs/parser/index.js": [
        (
            "p.openElements.hasInTableScope(token.tagID) || p.openElements.hasInTableScope(html_js_1.TAG_ID.TR)",
            "p.openElements.hasInTableScope(token.tagID) && p.openElements.hasInTableScope(html_js_1.TAG_ID.TR)",
        ),
        (
            "    for (let i = p.openElements.stackTop; i > 0; i--) {\n        const element = p.openElements.items[i];\n        if (p.treeAdapter.getNamespaceURI",
            "    for (let i = p.openElements.stackTop; i > 0 || (i === 0 && p.openElements.stackTop > 0); i--) {\n"
            "        const element = p.openElements.items[i];\n        if (p.treeAdapter.getNamespaceURI",
        ),
        (
            "            switch (i === 0 && this.fragmentContext ? this.fragmentContextID : this.openElements.tagIDs[i]) {\n"
            "                case html_js_1.TAG_ID.TR: {\n",
            "            const inFragment = i === 0 && this.fragmentContext;\n"
            "            const isHTML = this.treeAdapter.getNamespaceURI(inFragment ? this.fragmentContext : this.openElements.items[i]) === html_js_1.NS.HTML;\n"
            "            switch (!isHTML ? html_js_1.TAG_ID.UNKNOWN : inFragment ? this.fragmentContextID : this.openElements.tagIDs[i]) {\n"
            "                case html_js_1.TAG_ID.TR: {\n",
        ),
        ("    token.chars = unicode.REPLACEMENT_CHARACTER;\n", "    token.chars = unicode.REPLACEMENT_CHARACTER.repeat(token.chars.length);\n"),
        ("        this.currentNotInHTML = !isHTML;\n", "        this.currentNotInHTML = !isHTML;\n        this.tokenizer.allowsCdata = !isHTML;\n"),
        (
            "        if (tid === elementId && (tid !== html_js_1.TAG_ID.UNKNOWN || p.treeAdapter.getTagName(element) === tn)) {\n",
            "        if (tid === elementId && p.treeAdapter.getNamespaceURI(element) === html_js_1.NS.HTML &&\n"
            "            (tid !== html_js_1.TAG_ID.UNKNOWN || p.treeAdapter.getTagName(element) === tn)) {\n",
        ),
        (
            "        case html_js_1.TAG_ID.BASE:\n        case html_js_1.TAG_ID.LINK:\n        case html_js_1.TAG_ID.META:\n        case html_js_1.TAG_ID.STYLE:\n"
            "        case html_js_1.TAG_ID.TITLE:\n",
            "        case html_js_1.TAG_ID.NOFRAMES:\n"
            "        case html_js_1.TAG_ID.BASE:\n        case html_js_1.TAG_ID.LINK:\n        case html_js_1.TAG_ID.META:\n        case html_js_1.TAG_ID.STYLE:\n"
            "        case html_js_1.TAG_ID.TITLE:\n",
        ),
        (
            "            case html_js_1.TAG_ID.NOSCRIPT: {\n                this.tokenizer.state = index_js_1.TokenizerMode.RAWTEXT;\n",
            "            case html_js_1.TAG_ID.NOSCRIPT: {\n"
            "                if (this.fragmentContextID === html_js_1.TAG_ID.NOSCRIPT && !this.options.scriptingEnabled) break;\n"
            "                this.tokenizer.state = index_js_1.TokenizerMode.RAWTEXT;\n",
        ),
    ],
    "dist/cjs/parser/open-element-stack.js": [
        (
            "            if (tn === html_js_1.TAG_ID.TABLE || tn === html_js_1.TAG_ID.HTML) {\n",
            "            if (tn === html_js_1.TAG_ID.TABLE || tn === html_js_1.TAG_ID.TEMPLATE || tn === html_js_1.TAG_ID.HTML) {\n",
        ),
    ],
    "dist/cjs/common/foreign-content.js": [("    'feDistantLight',\n", "    'feDistantLight',\n    'feDropShadow',\n")],
    "dist/cjs/tokenizer/index.js": [
        ("        this.inForeignNode = false;\n", "        this.inForeignNode = false;\n        this.allowsCdata = false;\n"),
        ("            if (this.inForeignNode) {\n", "            if (this.allowsCdata) {\n"),
    ],
}


def main(source, target):
    subprocess.run([sys.executable, HERE / "standard" / "mend_parse5.py", source, target], check=True)
    for name, changes in CHANGES.items():
        path = pathlib.Path(target) / name
        text = path.read_text()
        for old, new in changes:
            assert text.count(old) == 1, (name, old, text.count(old))
            text = text.replace(old, new)
        path.write_text(text)


if __name__ == "__main__":
    main(*sys.argv[1:])
