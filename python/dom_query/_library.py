"""The shared library, as ctypes sees it, and its answers. Nothing here is part of the package's interface.

An answer belongs to the call that asked for it. A call takes a `String`, a `Nodes` or a `Strings` out of a list, so that nothing
else has it, reads its answer there, and puts it back. So a handler of a signal, a trace function or a finalizer that uses the
package between the two has other memory of its own.
"""

from __future__ import annotations

import codecs
import ctypes
import os
import pathlib
import re
from typing import Any

from .errors import CharsetError, ClosedError, DomError, EditError, LimitError, MarkupError, NodeError, PolicyError, SelectorError

NOTHING, CLOSED, MEMORY, NOT_UTF8, ARGUMENT, NO_NODE, TOO_MANY_NODES = -1, -2, -3, -4, -5, -6, -7
NO_CHILDREN_HERE, ROOT_OR_FRAGMENT, BAD_NAME, BAD_KIND = -10, -11, -14, -15
UNKNOWN_LABEL, BAD_BASE, UNFINISHED, FINISHED = -40, -41, -42, -43
NO_TEXT = 2**32 - 1
KEPT = 1 << 16  # answers with more room than this are given back at once

_LOCK = ("lock", ctypes.c_uint64 * 8)


class Handle(ctypes.Structure):
    """What C holds of a document. All zero is a handle without one. It is never copied."""

    _fields_ = [("at", ctypes.c_void_p), ("byte", ctypes.c_size_t), ("full", ctypes.c_bool), _LOCK]


class PolicyHandle(ctypes.Structure):
    """What C holds of a policy. All zero is a handle without one. It is never copied."""

    _fields_ = [("at", ctypes.c_void_p), ("full", ctypes.c_bool), _LOCK]


class ReaderHandle(ctypes.Structure):
    """What C holds of a page that is read in pieces. All zero is a handle without one. It is never copied."""

    _fields_ = [("at", ctypes.c_void_p), ("full", ctypes.c_bool), _LOCK]


class String(ctypes.Structure):
    """A text that C answered with."""

    _fields_ = [("bytes", ctypes.c_void_p), ("length", ctypes.c_size_t), ("room", ctypes.c_size_t)]

    def __del__(self) -> None:
        _free("dq_string_free", self)


class Nodes(ctypes.Structure):
    """Numbers of nodes that C answered with."""

    _fields_ = [("numbers", ctypes.POINTER(ctypes.c_uint32)), ("count", ctypes.c_size_t), ("room", ctypes.c_size_t)]

    def __del__(self) -> None:
        _free("dq_nodes_free", self)


class _Text(ctypes.Structure):
    _fields_ = String._fields_


class _Lengths(ctypes.Structure):
    _fields_ = Nodes._fields_


class Strings(ctypes.Structure):
    """Several texts that C answered with: all of them joined, and the length of each."""

    _fields_ = [
        ("items", ctypes.c_void_p),
        ("count", ctypes.c_size_t),
        ("joined", _Text),
        ("lengths", _Lengths),
        ("room", ctypes.c_size_t),
    ]

    def __del__(self) -> None:
        _free("dq_strings_free", self)


def _free(name: str, answer: Any) -> None:
    try:
        getattr(lib, name)(answer)
    except (NameError, AttributeError, TypeError):
        pass  # the interpreter is ending


HANDLE, POLICY, READER = ctypes.POINTER(Handle), ctypes.POINTER(PolicyHandle), ctypes.POINTER(ReaderHandle)
STRING, NODES, STRINGS = ctypes.POINTER(String), ctypes.POINTER(Nodes), ctypes.POINTER(Strings)
NODE, TEXT, SIZE, NUMBER, BYTE = ctypes.c_uint32, ctypes.c_char_p, ctypes.c_size_t, ctypes.c_uint32, ctypes.POINTER(ctypes.c_size_t)

# What each function takes.
PARAMETERS: dict[str, tuple[Any, ...]] = {
    "dq_parse_page": (HANDLE, TEXT, SIZE, SIZE),
    "dq_parse_bytes": (HANDLE, TEXT, SIZE, TEXT, SIZE, SIZE),
    "dq_parse": (HANDLE, TEXT, SIZE, BYTE),
    "dq_parse_fragment": (HANDLE, TEXT, SIZE, TEXT, SIZE),
    "dq_document_free": (HANDLE,),
    "dq_reader_begin": (READER, TEXT, SIZE, SIZE),
    "dq_reader_feed": (READER, TEXT, SIZE),
    "dq_reader_end": (READER, HANDLE),
    "dq_reader_free": (READER,),
    "dq_encoding": (HANDLE, STRING),
    "dq_encoding_source": (HANDLE,),
    "dq_replaced_count": (HANDLE,),
    "dq_select": (HANDLE, NODE, TEXT, SIZE, NODES),
    "dq_select_first": (HANDLE, NODE, TEXT, SIZE),
    "dq_matches": (HANDLE, NODE, TEXT, SIZE),
    "dq_step": (HANDLE, NODE, NUMBER),
    "dq_list": (HANDLE, NODE, NUMBER, NODES),
    "dq_template_contents": (HANDLE, NODE),
    "dq_text": (HANDLE, NODE, STRING),
    "dq_html": (HANDLE, NODE, STRING),
    "dq_inner_html": (HANDLE, NODE, STRING),
    "dq_markdown": (HANDLE, NODE, STRING),
    "dq_md": (HANDLE, NODE, STRING),
    "dq_formatted_text": (HANDLE, NODE, STRING),
    "dq_name": (HANDLE, NODE, STRING),
    "dq_attr": (HANDLE, NODE, TEXT, SIZE, STRING),
    "dq_kind": (HANDLE, NODE),
    "dq_attrs": (HANDLE, NODE, STRINGS),
    "dq_classes": (HANDLE, NODE, STRINGS),
    "dq_select_texts": (HANDLE, NODE, TEXT, SIZE, STRINGS),
    "dq_select_html": (HANDLE, NODE, TEXT, SIZE, STRINGS),
    "dq_select_attrs": (HANDLE, NODE, TEXT, SIZE, TEXT, SIZE, STRINGS),
    "dq_article": (HANDLE, HANDLE, STRINGS),
    "dq_set_attr": (HANDLE, NODE, TEXT, SIZE, TEXT, SIZE),
    "dq_remove_attr": (HANDLE, NODE, TEXT, SIZE),
    "dq_set_name": (HANDLE, NODE, TEXT, SIZE),
    "dq_set_text": (HANDLE, NODE, TEXT, SIZE),
    "dq_put_html": (HANDLE, NODE, NUMBER, TEXT, SIZE, BYTE),
    "dq_new_element": (HANDLE, TEXT, SIZE),
    "dq_new_text": (HANDLE, TEXT, SIZE),
    "dq_move": (HANDLE, NODE, NUMBER, NODE),
    "dq_remove": (HANDLE, NODE),
    "dq_unwrap": (HANDLE, NODE),
    "dq_normalize": (HANDLE, NODE),
    "dq_sanitize": (HANDLE, TEXT, SIZE, TEXT, SIZE, TEXT, SIZE),
    "dq_policy_empty": (POLICY,),
    "dq_policy_common": (POLICY,),
    "dq_policy_preset": (POLICY, NUMBER),
    "dq_policy_rule": (POLICY, NUMBER, TEXT, SIZE),
    "dq_policy_attribute_of": (POLICY, TEXT, SIZE, TEXT, SIZE),
    "dq_policy_disallow_attribute_of": (POLICY, TEXT, SIZE, TEXT, SIZE),
    "dq_policy_value": (POLICY, TEXT, SIZE, TEXT, SIZE, TEXT, SIZE),
    "dq_policy_base": (POLICY, TEXT, SIZE),
    "dq_policy_set": (POLICY, NUMBER, SIZE),
    "dq_policy_finish": (POLICY, STRING),
    "dq_policy_free": (POLICY,),
    "dq_clean": (POLICY, TEXT, SIZE, STRING),
    "dq_clean_page": (POLICY, TEXT, SIZE, STRING),
    "dq_clean_document": (POLICY, HANDLE, STRING),
    "dq_string_free": (STRING,),
    "dq_nodes_free": (NODES,),
    "dq_strings_free": (STRINGS,),
    "dq_fault_text": (ctypes.c_int64, ctypes.c_char_p, SIZE),
    "dq_version": (),
}
RESULTS: dict[str, Any] = {
    "dq_document_free": None,
    "dq_reader_free": None,
    "dq_policy_free": None,
    "dq_string_free": None,
    "dq_nodes_free": None,
    "dq_strings_free": None,
    "dq_fault_text": ctypes.c_size_t,
    "dq_version": ctypes.c_char_p,
}
VERSION = "1.0.0"


def _path() -> str:
    named = os.environ.get("DOM_QUERY_LIBRARY")
    beside = pathlib.Path(__file__).resolve().parent / "libdom_query.so"
    if named:
        return named
    return str(beside) if beside.exists() else "libdom_query.so.0"


def _load(kind: Any) -> Any:
    try:
        library = kind(_path())
        for name, parameters in PARAMETERS.items():
            function = getattr(library, name)
            function.argtypes, function.restype = parameters, RESULTS.get(name, ctypes.c_int64)
    except (OSError, AttributeError) as fault:
        raise ImportError(
            f"dom_query can't load its shared library ({fault}). Run ./install-c in a clone of the repository, "
            "or name the library in the environment variable DOM_QUERY_LIBRARY."
        ) from None
    version = library.dq_version().decode()
    if version != VERSION:
        raise ImportError(f"dom_query {VERSION} can't use version {version} of its shared library, {_path()}. Run ./install-c again.")
    return library


# `lib` keeps the interpreter's lock during a call, which is cheap for short calls. `unlocked` gives it back, so that other
# threads run meanwhile. Each call on a document waits for another one on it, inside the library: no Python code runs there,
# and so no two threads can wait for each other.
lib = _load(ctypes.PyDLL)
unlocked = _load(ctypes.CDLL)

_decoded = ctypes.PYFUNCTYPE(ctypes.py_object, ctypes.c_void_p, ctypes.c_ssize_t, ctypes.c_char_p)(
    ("PyUnicode_DecodeUTF8", ctypes.pythonapi)
)
_strings: list[String] = []
_nodes: list[Nodes] = []
_pieces: list[Strings] = []


def text_of(call: Any, handle: Any, *arguments: Any) -> Any:
    """The text that the call answers with, or the number of a fault."""
    try:
        string = _strings.pop()
    except IndexError:
        string = String()
    count = call(handle, *arguments, string)
    if count < 0:
        _strings.append(string)
        return count
    text = _decoded(string.bytes, count, None)
    if string.room <= KEPT:
        _strings.append(string)
    return text


def bytes_of(call: Any, handle: Any, *arguments: Any) -> Any:
    """The text that the call answers with, in UTF-8, or the number of a fault."""
    string = String()
    count = call(handle, *arguments, string)
    return count if count < 0 else ctypes.string_at(string.bytes, count)


def numbers_of(call: Any, handle: Any, *arguments: Any) -> Any:
    """The numbers of nodes that the call answers with, or the number of a fault."""
    try:
        nodes = _nodes.pop()
    except IndexError:
        nodes = Nodes()
    count = call(handle, *arguments, nodes)
    if count <= 0:
        _nodes.append(nodes)
        return count if count < 0 else []
    numbers = nodes.numbers[0:count]
    if nodes.room <= KEPT:
        _nodes.append(nodes)
    return numbers


def texts_of(call: Any, handle: Any, *arguments: Any) -> Any:
    """The texts that the call answers with, None for one that isn't there, or the number of a fault."""
    try:
        strings = _pieces.pop()
    except IndexError:
        strings = Strings()
    count = call(handle, *arguments, strings)
    if count <= 0:
        _pieces.append(strings)
        return count if count < 0 else []
    return _taken(strings)


def article_of(call: Any, page: Any, article: Any) -> Any:
    """Whether the article is sure, and what the page says of it; or the number of a fault."""
    try:
        strings = _pieces.pop()
    except IndexError:
        strings = Strings()
    sure = call(page, article, strings)
    if sure < 0:
        _pieces.append(strings)
        return sure
    return bool(sure), _taken(strings)


def _taken(strings: Strings) -> list[str | None]:
    """The texts of an answer, which is put back."""
    lengths = strings.lengths.numbers[0 : strings.count]
    joined = ctypes.string_at(strings.joined.bytes, strings.joined.length)
    if strings.room <= KEPT and strings.joined.room <= KEPT:
        _pieces.append(strings)
    return _cut(joined, lengths)


def _cut(joined: bytes, lengths: list[int]) -> list[str | None]:
    """The texts of these lengths that are joined."""
    whole, at = joined.decode(), 0
    pieces: list[str | None] = []
    if len(whole) == len(joined):  # ASCII alone: a character is a byte
        for length in lengths:
            if length == NO_TEXT:
                pieces.append(None)
            else:
                pieces.append(whole[at : at + length])
                at += length
        return pieces
    for length in lengths:
        if length == NO_TEXT:
            pieces.append(None)
        else:
            pieces.append(joined[at : at + length].decode())
            at += length
    return pieces


_SURROGATES = re.compile("[\ud800-\udfff]")


def utf8(text: str) -> bytes:
    """The text in UTF-8. Half a surrogate pair, which UTF-8 can't hold, becomes U+FFFD, as in browsers."""
    if not isinstance(text, str):
        raise TypeError(f"a str is wanted, not {type(text).__name__}")
    try:
        return text.encode()
    except UnicodeEncodeError:
        return _SURROGATES.sub("\ufffd", text).encode()


def message(code: int) -> str:
    """What the number of a fault means."""
    text = ctypes.create_string_buffer(200)
    lib.dq_fault_text(code, text, 200)
    return text.value.decode() or f"fault {code}"


def position(handle: Handle, selectors: bytes) -> int:
    """How many characters of a text are selectors by themselves, as far as 256 bytes show."""
    for at in range(min(len(selectors), 257) - 1, 0, -1):
        code = lib.dq_matches(handle, 0, selectors[:at], at)
        if code != NOT_UTF8 and not -29 <= code <= -20:
            return len(selectors[:at].decode())
    return 0


def markup_error(code: int, markup: bytes, byte: int) -> MarkupError:
    """The exception for markup that is wrong at that byte."""
    before = markup[:byte]
    column = len(before[before.rfind(b"\n") + 1 :].decode("utf-8", "replace")) + 1
    return MarkupError(message(code), code, byte, before.count(b"\n") + 1, column)


def fault(code: int, handle: Handle, selectors: bytes = b"") -> Exception:
    """The exception for a fault of a call on that handle, with these selectors if it has some."""
    text = message(code)
    if code == MEMORY:
        return MemoryError(text)
    if code == CLOSED:
        return ClosedError(text, code)
    if code == NO_NODE:
        return NodeError(text, code)
    if code == TOO_MANY_NODES:
        return LimitError(text, code)
    if -19 <= code <= -10:
        return EditError(text, code)
    if -29 <= code <= -20:
        return SelectorError(text, code, selectors.decode(), position(handle, selectors))
    return DomError(text, code)


def charset_error(label: str) -> CharsetError:
    """The exception for a label that no encoding has. Python's own name of an encoding may be near one that the web has."""
    hint = ""
    try:
        name = codecs.lookup(label).name.replace("_", "-")
    except (LookupError, UnicodeError, ValueError):
        name = label
    if name != label and has_label(name):
        hint = f"; write {name!r}"
    return CharsetError(f"{message(UNKNOWN_LABEL)}: {label!r}{hint}", UNKNOWN_LABEL, label)


def has_label(label: str) -> bool:
    """Whether an encoding has that label."""
    handle, text = Handle(), label.encode("utf-8", "replace")
    answer = lib.dq_parse_bytes(handle, b"", 0, text, len(text), 0)
    lib.dq_document_free(handle)
    return bool(answer == 0)


# The rule that each refusal of a policy names.
REFUSED = {
    BAD_BASE: "relative",
    -50: "tags",
    -51: "tags",
    -52: "attributes",
    -53: "url_schemes",
    -54: "relative",
    -55: "link_rel",
    -56: "classes",
    -57: "id_prefix",
    -58: "max_depth",
}
_NAMED = re.compile("`(.*)`", re.DOTALL)


def policy_fault(code: int, said: str) -> Exception:
    """The exception for a fault of a call on a policy. `said` is the text of the fault, if it has one."""
    if code == MEMORY:
        return MemoryError(message(code))
    if code == TOO_MANY_NODES:
        return LimitError(message(code), code)
    if code not in REFUSED:
        return ClosedError(message(code), code) if code == CLOSED else DomError(message(code), code)
    named = _NAMED.findall(said) if code in (-50, -52, -53, -56) else re.findall("without `(.*)`", said)
    return PolicyError(said or message(code), code, REFUSED[code], named[0] if named else None)
