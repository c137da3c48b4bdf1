"""The tokens of texts by html5lib. Standard input is a JSON list of the texts of tests/standard/random_texts.py; prints a JSON list of
their tokens, as tests/standard/machine.py gives them. Run by a Python that has html5lib."""
import json
import sys
from types import SimpleNamespace

from html5lib._tokenizer import HTMLTokenizer
from html5lib.constants import namespaces, tokenTypes

STATE = {
    "Data": "dataState", "RCDATA": "rcdataState", "RAWTEXT": "rawtextState", "ScriptData": "scriptDataState",
    "PLAINTEXT": "plaintextState", "CDATASection": "cdataSectionState",
}  # fmt: skip
SWITCHES = {
    "title": "RCDATA", "textarea": "RCDATA", "style": "RAWTEXT", "xmp": "RAWTEXT", "iframe": "RAWTEXT", "noembed": "RAWTEXT",
    "noframes": "RAWTEXT", "script": "ScriptData", "plaintext": "PLAINTEXT",
}  # fmt: skip


def tokenizer_of(case):
    node = SimpleNamespace(namespace=namespaces["svg" if case["foreign"] else "html"])
    tree = SimpleNamespace(openElements=[node], defaultNamespace=namespaces["html"])
    tokenizer = HTMLTokenizer(case["text"], parser=SimpleNamespace(tree=tree))
    tokenizer.state = getattr(tokenizer, STATE[case["state"]])
    if case["last"] is not None:
        tokenizer.currentToken = {"type": "startTag", "name": case["last"]}
    return tokenizer


def tokens(case):
    tokenizer, found = tokenizer_of(case), []
    for token in tokenizer:
        kind = token["type"]
        if kind in (tokenTypes["Characters"], tokenTypes["SpaceCharacters"]):
            if found and found[-1][0] == "chars":
                found[-1][1] += token["data"]
            else:
                found.append(["chars", token["data"]])
        elif kind == tokenTypes["StartTag"]:
            attrs = [list(a) for a in token["data"].items()]
            found.append(["start", token["name"], attrs, token["selfClosing"]])
            if case["switches"] and token["name"] in SWITCHES:
                tokenizer.state = getattr(tokenizer, STATE[SWITCHES[token["name"]]])
        elif kind == tokenTypes["EndTag"]:
            found.append(["end", token["name"]])
        elif kind == tokenTypes["Comment"]:
            found.append(["comment", token["data"]])
        elif kind == tokenTypes["Doctype"]:
            found.append(["doctype", token["name"], token["publicId"], token["systemId"], not token["correct"]])
    return [*found, ["eof"]]


def safe(case):
    try:
        return tokens(case)
    except Exception as fault:  # the peer's own faults are differences too
        return [["fault", repr(fault)]]


json.dump([safe(c) for c in json.load(sys.stdin)], sys.stdout)
