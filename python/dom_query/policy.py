"""Policies, and cleaning HTML from strangers by them."""

from __future__ import annotations

import ctypes
import re
from collections.abc import Iterable, Mapping
from typing import Any

from ._library import BAD_NAME, PolicyHandle, String, lib, policy_fault, text_of, unlocked, utf8
from .document import Document, _depth
from .errors import PolicyError

ELEMENT, DROP, ATTRIBUTE, SCHEME, CLASS, REL, PREFIX = range(7)
DEPTH, DATA_ATTRIBUTES, KEEP_RELATIVE, NO_REL = range(4)

# The rules of `Policy()`, which are those of dq_policy_common.
COMMON_TAGS = frozenset(
    "a abbr acronym area article aside b bdi bdo blockquote br caption center cite code col colgroup data dd del "
    "details dfn div dl dt em figcaption figure footer h1 h2 h3 h4 h5 h6 header hgroup hr i img ins kbd li map mark "
    "nav ol p pre q rp rt ruby s samp small span strike strong sub summary sup table tbody td tfoot th thead time tr tt u ul "
    "var wbr".split()
)
COMMON_ATTRIBUTES: Mapping[str, frozenset[str]] = {
    "*": frozenset({"lang", "title"}),
    "a": frozenset({"href", "hreflang"}),
    "bdo": frozenset({"dir"}),
    "blockquote": frozenset({"cite"}),
    "col": frozenset({"align", "char", "charoff", "span"}),
    "colgroup": frozenset({"align", "char", "charoff", "span"}),
    "del": frozenset({"cite", "datetime"}),
    "hr": frozenset({"align", "size", "width"}),
    "img": frozenset({"align", "alt", "height", "src", "width"}),
    "ins": frozenset({"cite", "datetime"}),
    "ol": frozenset({"start"}),
    "q": frozenset({"cite"}),
    "table": frozenset({"align", "char", "charoff", "summary"}),
    "tbody": frozenset({"align", "char", "charoff"}),
    "td": frozenset({"align", "char", "charoff", "colspan", "headers", "rowspan"}),
    "tfoot": frozenset({"align", "char", "charoff"}),
    "th": frozenset({"align", "char", "charoff", "colspan", "headers", "rowspan", "scope"}),
    "thead": frozenset({"align", "char", "charoff"}),
    "tr": frozenset({"align", "char", "charoff"}),
}
COMMON_URL_SCHEMES = frozenset(
    "bitcoin ftp ftps geo http https im irc ircs magnet mailto mms mx news nntp openpgp4fpr sip sms smsto ssh tel url "
    "webcal wtai xmpp".split()
)
CLEAN_CONTENT_TAGS = frozenset({"script", "style"})

# The rules of the presets, which are those of dq_policy_preset.
INLINE_TAGS = frozenset("a abbr b bdi bdo br cite code data del dfn em i ins kbd mark q s samp small span strong sub sup time u var wbr".split())
INLINE_ATTRIBUTES: Mapping[str, frozenset[str]] = {
    "*": frozenset({"lang", "title"}),
    "a": frozenset({"href"}),
    "bdo": frozenset({"dir"}),
    "time": frozenset({"datetime"}),
}
COMMENT_TAGS = frozenset("a abbr b blockquote br code del em i li ol p pre q s strong sub sup ul".split())
COMMENT_ATTRIBUTES: Mapping[str, frozenset[str]] = {
    "a": frozenset({"href"}),
    "ol": frozenset({"start"}),
}
ARTICLE_TAGS = frozenset((
    "a abbr address article aside b bdi bdo blockquote br caption cite code col colgroup data dd del details dfn "
    "div dl dt em figcaption figure footer h1 h2 h3 h4 h5 h6 header hgroup hr i img ins kbd li main mark ol p pre q "
    "rp rt ruby s samp section small span strong sub summary sup table tbody td tfoot th thead time tr u ul var wbr"
).split())
ARTICLE_ATTRIBUTES: Mapping[str, frozenset[str]] = {
    "*": frozenset({"dir", "lang", "title"}),
    "a": frozenset({"href", "hreflang"}),
    "blockquote": frozenset({"cite"}),
    "col": frozenset({"span"}),
    "colgroup": frozenset({"span"}),
    "data": frozenset({"value"}),
    "del": frozenset({"datetime"}),
    "details": frozenset({"open"}),
    "img": frozenset({"alt", "height", "src", "width"}),
    "ins": frozenset({"datetime"}),
    "ol": frozenset({"reversed", "start", "type"}),
    "q": frozenset({"cite"}),
    "td": frozenset({"colspan", "headers", "rowspan"}),
    "th": frozenset({"abbr", "colspan", "headers", "rowspan", "scope"}),
    "time": frozenset({"datetime"}),
}
EMAIL_TAGS = frozenset((
    "a abbr address b big blockquote br caption center cite code col colgroup dd del div dl dt em font h1 h2 h3 h4 "
    "h5 h6 hr i img ins li ol p pre q s small span strike strong sub sup table tbody td tfoot th thead tr tt u ul"
).split())
EMAIL_ATTRIBUTES: Mapping[str, frozenset[str]] = {
    "*": frozenset({"dir", "lang", "title"}),
    "a": frozenset({"href"}),
    "blockquote": frozenset({"cite"}),
    "col": frozenset({"span", "width"}),
    "colgroup": frozenset({"span", "width"}),
    "div": frozenset({"align"}),
    "font": frozenset({"color", "face", "size"}),
    "h1": frozenset({"align"}),
    "h2": frozenset({"align"}),
    "h3": frozenset({"align"}),
    "h4": frozenset({"align"}),
    "h5": frozenset({"align"}),
    "h6": frozenset({"align"}),
    "hr": frozenset({"align", "size", "width"}),
    "img": frozenset({"alt", "height", "width"}),
    "ol": frozenset({"start", "type"}),
    "p": frozenset({"align"}),
    "table": frozenset({"align", "bgcolor", "border", "cellpadding", "cellspacing", "width"}),
    "td": frozenset({"align", "bgcolor", "colspan", "height", "rowspan", "valign", "width"}),
    "th": frozenset({"align", "bgcolor", "colspan", "height", "rowspan", "valign", "width"}),
    "tr": frozenset({"align", "bgcolor", "valign"}),
}
SAFE_SCHEMES = frozenset({"http", "https", "mailto"})


class Policy:
    """What stays of HTML from strangers. `Policy()` is for comments, mails and articles; each argument changes one of its rules:

    - `tags`: the elements that stay. Any other is replaced by its children.
    - `clean_content_tags`: the elements that vanish with everything in them, also where `tags` has them.
    - `attributes`: for the name of an element, or `"*"` for every element, the attributes that stay.
    - `tag_attribute_values`: the same, where only some values stay: `{"ol": {"type": {"a", "i"}}}`.
    - `url_schemes`: the schemes of addresses that stay, as in `href` and `src`.
    - `relative`: what becomes of addresses without a scheme: `"keep"`, `"drop"`, or an absolute URL, to which they are joined.
    - `link_rel`: the `rel` that each link gets, or None.
    - `id_prefix`: what each `id` gets in front, where `attributes` has `id`.
    - `classes`: the classes that stay on any element; None lets `attributes` alone decide.
    - `data_attributes`: whether attributes whose names begin with `data-` stay.
    - `max_depth`: how deep the elements that stay may be nested, 256 at most; deeper ones are replaced by their children.

    Names of elements, attributes and schemes are read in lower case, as those of pages are. Raises `PolicyError` for rules whose
    result would not be safe, as for the element `svg` or the attribute `onclick`, and for names that nothing can have. A policy
    never changes; `changed` makes another. Threads may share a policy, and clean at once.
    """

    __slots__ = ("_rules", "_idle", "__weakref__")

    def __init__(
        self,
        *,
        tags: Iterable[str] = COMMON_TAGS,
        clean_content_tags: Iterable[str] = CLEAN_CONTENT_TAGS,
        attributes: Mapping[str, Iterable[str]] = COMMON_ATTRIBUTES,
        tag_attribute_values: Mapping[str, Mapping[str, Iterable[str]]] | None = None,
        url_schemes: Iterable[str] = COMMON_URL_SCHEMES,
        relative: str = "keep",
        link_rel: str | None = "noopener noreferrer",
        id_prefix: str = "",
        classes: Iterable[str] | None = None,
        data_attributes: bool = False,
        max_depth: int = 256,
    ) -> None:
        values = _mapping("tag_attribute_values", tag_attribute_values or {})
        self._rules: dict[str, Any] = {
            "tags": _lowered("tags", tags),
            "clean_content_tags": _lowered("clean_content_tags", clean_content_tags),
            "attributes": _lists("attributes", attributes),
            "tag_attribute_values": _values(values),
            "url_schemes": _lowered("url_schemes", url_schemes),
            "relative": _text("relative", relative),
            "link_rel": None if link_rel is None else _text("link_rel", link_rel),
            "id_prefix": _text("id_prefix", id_prefix),
            "classes": None if classes is None else _names("classes", classes),
            "data_attributes": bool(data_attributes),
            "max_depth": _depth(max_depth),
        }
        if self.classes == frozenset():
            raise ValueError("classes is None or has a class; for no class at all, leave class out of attributes")
        self._idle: list[PolicyHandle] = []
        self._idle.append(self._made())

    @classmethod
    def empty(cls) -> Policy:
        """The policy by which only texts stay, those of scripts and styles too. It is a beginning for `changed`."""
        return cls(
            tags=(), clean_content_tags=(), attributes={}, url_schemes=(), relative="drop", link_rel=None, max_depth=128
        )

    @classmethod
    def inline(cls) -> Policy:
        """The policy for a place that holds phrases alone, as a heading or a `span`: emphasised, marked, quoted and linked words stay."""
        return cls(
            tags=INLINE_TAGS, clean_content_tags=(), attributes=INLINE_ATTRIBUTES, url_schemes=SAFE_SCHEMES, max_depth=128
        )

    @classmethod
    def comment(cls) -> Policy:
        """The policy for comments of strangers: paragraphs, lists, quotes, code, and links to other sites, which get
        `rel="nofollow noopener noreferrer"`; no image, and no address without a scheme."""
        return cls(
            tags=COMMENT_TAGS, clean_content_tags=(), attributes=COMMENT_ATTRIBUTES, url_schemes=SAFE_SCHEMES,
            relative="drop", link_rel="nofollow noopener noreferrer", max_depth=64,
        )  # fmt: skip

    @classmethod
    def article(cls) -> Policy:
        """The policy for articles: texts, tables, images, links and sections stay, without attributes that only say how they look."""
        return cls(
            tags=ARTICLE_TAGS, clean_content_tags=(), attributes=ARTICLE_ATTRIBUTES, url_schemes=SAFE_SCHEMES | {"tel"}
        )

    @classmethod
    def email(cls) -> Policy:
        """The policy for mails: also tables and fonts with the old attributes of layout. An image isn't loaded, since that tells its
        sender that the mail was read; its text stays."""
        return cls(
            tags=EMAIL_TAGS, clean_content_tags=(), attributes=EMAIL_ATTRIBUTES, url_schemes=SAFE_SCHEMES | {"tel"},
            relative="drop",
        )  # fmt: skip

    def changed(self, **rules: Any) -> Policy:
        """The policy with other rules: `policy.changed(tags=policy.tags | {"u"})`."""
        return Policy(**{**self._rules, **rules})

    __replace__ = changed

    # ---- its rules

    @property
    def tags(self) -> frozenset[str]:
        """The elements that stay."""
        tags: frozenset[str] = self._rules["tags"]
        return tags

    @property
    def clean_content_tags(self) -> frozenset[str]:
        """The elements that vanish with everything in them."""
        tags: frozenset[str] = self._rules["clean_content_tags"]
        return tags

    @property
    def attributes(self) -> dict[str, frozenset[str]]:
        """The attributes that stay, for the name of an element, or `"*"` for every element."""
        return dict(self._rules["attributes"])

    @property
    def tag_attribute_values(self) -> dict[str, dict[str, frozenset[str]]]:
        """The values that stay, for the name of an element and that of an attribute."""
        return {tag: dict(names) for tag, names in self._rules["tag_attribute_values"].items()}

    @property
    def url_schemes(self) -> frozenset[str]:
        """The schemes of addresses that stay."""
        schemes: frozenset[str] = self._rules["url_schemes"]
        return schemes

    @property
    def relative(self) -> str:
        """What becomes of addresses without a scheme: `"keep"`, `"drop"`, or the URL that they are joined to."""
        relative: str = self._rules["relative"]
        return relative

    @property
    def link_rel(self) -> str | None:
        """The `rel` that each link gets."""
        rel: str | None = self._rules["link_rel"]
        return rel

    @property
    def id_prefix(self) -> str:
        """What each `id` gets in front."""
        prefix: str = self._rules["id_prefix"]
        return prefix

    @property
    def classes(self) -> frozenset[str] | None:
        """The classes that stay; None where they don't matter."""
        classes: frozenset[str] | None = self._rules["classes"]
        return classes

    @property
    def data_attributes(self) -> bool:
        """Whether attributes whose names begin with `data-` stay."""
        stay: bool = self._rules["data_attributes"]
        return stay

    @property
    def max_depth(self) -> int:
        """How deep the elements that stay may be nested."""
        depth: int = self._rules["max_depth"]
        return depth

    def __eq__(self, other: object) -> bool:
        return isinstance(other, Policy) and self._rules == other._rules

    def __hash__(self) -> int:
        return hash((self.tags, self.url_schemes, self.relative, self.link_rel))

    def __repr__(self) -> str:
        common = _common()._rules
        changed = ", ".join(f"{name}={rule!r}" for name, rule in self._rules.items() if rule != common[name])
        return f"Policy({changed})"

    def __reduce__(self) -> tuple[Any, ...]:
        return (_policy, (self._rules,))

    # ---- what it leaves

    def clean(self, html: str | Document) -> str:
        """What the policy leaves of a fragment, or of a document, as `dom_query.clean` returns it."""
        if isinstance(html, Document):
            return self._cleaned(html._slow.dq_clean_document, html._handle)
        text = _source(html)
        return self._cleaned(unlocked.dq_clean, text, len(text))

    def clean_page(self, html: str) -> str:
        """The page with what the policy leaves of the body of a page, as `dom_query.clean_page` returns it."""
        text = _source(html)
        return self._cleaned(unlocked.dq_clean_page, text, len(text))

    def _cleaned(self, call: Any, *arguments: Any) -> str:
        try:
            handle = self._idle.pop()
        except IndexError:
            handle = self._made()  # another thread is cleaning
        cleaned: str | int = text_of(call, handle, *arguments)
        self._idle.append(handle)
        if isinstance(cleaned, int):
            raise policy_fault(cleaned, "")
        return cleaned

    # ---- the library's policy

    def _made(self) -> PolicyHandle:
        """A policy of the library with these rules."""
        handle = PolicyHandle()
        try:
            _checked(lib.dq_policy_empty(handle))
            self._give(handle)
            why = String()
            code = lib.dq_policy_finish(handle, why)
            if code < 0:
                said = ctypes.string_at(why.bytes, why.length).decode(errors="replace") if why.bytes else ""
                raise policy_fault(code, said)
        except BaseException:
            lib.dq_policy_free(handle)
            raise
        return handle

    def _give(self, handle: PolicyHandle) -> None:
        """Gives the library the rules. It keeps the first fault, and dq_policy_finish answers it."""
        for rule, names in ((ELEMENT, self.tags), (DROP, self.clean_content_tags), (SCHEME, self.url_schemes), (CLASS, self.classes or ())):
            for name in sorted(names):
                _rule(handle, rule, name)
        for tag, names in self.attributes.items():
            for name in sorted(names):
                _attribute(handle, tag, name)
        if self.classes and not any("class" in names for names in self.attributes.values()):
            _attribute(handle, "*", "class")
        for tag, attributes in self.tag_attribute_values.items():
            for name, values in attributes.items():
                for element in sorted(self.tags) if tag == "*" else (tag,):
                    for value in sorted(values):
                        parts = [utf8(part) for part in (element, name, value)]
                        lib.dq_policy_value(handle, *(word for part in parts for word in (part, len(part))))
        lib.dq_policy_set(handle, DATA_ATTRIBUTES, int(self.data_attributes))
        lib.dq_policy_set(handle, DEPTH, self.max_depth)
        _rule(handle, PREFIX, self.id_prefix)
        if self.link_rel is not None:
            _rule(handle, REL, self.link_rel)
        if self.relative in ("keep", "drop"):
            lib.dq_policy_set(handle, KEEP_RELATIVE, int(self.relative == "keep"))
        else:
            base = utf8(self.relative)
            lib.dq_policy_base(handle, base, len(base))

    def __del__(self) -> None:
        try:
            for handle in self._idle:
                lib.dq_policy_free(handle)
        except (AttributeError, TypeError):
            pass  # the interpreter is ending, or the policy was refused


def _names(rule: str, names: Iterable[str]) -> frozenset[str]:
    if isinstance(names, (str, Mapping)) or not isinstance(names, Iterable):
        raise TypeError(f"{rule} is a set of names, and not {names!r}")
    found = frozenset(names)
    for name in found:
        if not isinstance(name, str):
            raise TypeError(f"{rule} is a set of names, and {name!r} is none")
    return found


def _mapping(rule: str, given: Mapping[str, Any]) -> Mapping[str, Any]:
    if not isinstance(given, Mapping):
        raise TypeError(f"{rule} is a dict from names of elements, or '*' for every element, and not {given!r}")
    return given


_WRITTEN = {
    "tags": re.compile(r"[a-z][^\t\n\f\r />\0]*"),
    "attributes": re.compile(r"[^\t\n\f\r />=\0]+"),
    "url_schemes": re.compile(r"[a-z][a-z0-9+.-]*"),
}
_WRITTEN["clean_content_tags"] = _WRITTEN["tags"]
_LOWER = str.maketrans({chr(upper): chr(upper + 32) for upper in range(ord("A"), ord("Z") + 1)})


def _lowered(rule: str, names: Iterable[str], said: str = "") -> frozenset[str]:
    """The names in lower case, as those of elements, attributes and schemes in a page are read."""
    found = frozenset(name.translate(_LOWER) for name in _names(said or rule, names))
    for name in found:
        if not _WRITTEN[rule].fullmatch(name):
            hint = f"; write {name.rstrip(':/')!r}" if _WRITTEN[rule].fullmatch(name.rstrip(":/")) else ""
            raise PolicyError(f"no page can have {name!r}, which {said or rule} has{hint}", BAD_NAME, rule, name)
    return found


def _tag(rule: str, tag: object) -> str:
    """The name of an element for which there are rules, or `*`."""
    if not isinstance(tag, str):
        raise TypeError(f"{rule} is a dict from names of elements, and {tag!r} is none")
    lower = tag.translate(_LOWER)
    if lower != "*" and not _WRITTEN["tags"].fullmatch(lower):
        raise PolicyError(f"no page can have the element {tag!r}, which {rule} has", BAD_NAME, rule, tag)
    return lower


def _lists(rule: str, given: Mapping[str, Iterable[str]]) -> dict[str, frozenset[str]]:
    lists: dict[str, frozenset[str]] = {}
    for tag, names in _mapping(rule, given).items():
        lower = _tag(rule, tag)
        lists[lower] = lists.get(lower, frozenset()) | _lowered("attributes", names, f"{rule}[{tag!r}]")
    return lists


def _values(given: Mapping[str, Mapping[str, Iterable[str]]]) -> dict[str, dict[str, frozenset[str]]]:
    """The values that stay, by elements and attributes in lower case."""
    rule = "tag_attribute_values"
    lists: dict[str, dict[str, frozenset[str]]] = {}
    for tag, attributes in given.items():
        of_tag = lists.setdefault(_tag(rule, tag), {})
        for name, values in _mapping(f"{rule}[{tag!r}]", attributes).items():
            (lower,) = _lowered("attributes", [name], f"{rule}[{tag!r}]")
            of_tag[lower] = of_tag.get(lower, frozenset()) | _names(f"{rule}[{tag!r}][{name!r}]", values)
    return lists


def _text(rule: str, text: str) -> str:
    if not isinstance(text, str):
        raise TypeError(f"{rule} is a str, and not {text!r}")
    return text


def _rule(handle: PolicyHandle, rule: int, text: str) -> None:
    given = utf8(text)
    lib.dq_policy_rule(handle, rule, given, len(given))


def _attribute(handle: PolicyHandle, tag: str, name: str) -> None:
    if tag == "*":
        _rule(handle, ATTRIBUTE, name)
    else:
        element, attribute = utf8(tag), utf8(name)
        lib.dq_policy_attribute_of(handle, element, len(element), attribute, len(attribute))


def _checked(code: int) -> int:
    if code < 0:
        raise policy_fault(code, "")
    return code


def _source(html: str) -> bytes:
    if not isinstance(html, str):
        raise TypeError(f"a str is wanted, and not {type(html).__name__}; decode bytes first, or read them by parse_bytes")
    return utf8(html)


def _policy(rules: dict[str, Any]) -> Policy:
    return Policy(**rules)


_shared: list[Policy] = []


def _common() -> Policy:
    if not _shared:
        _shared.append(Policy())
    return _shared[0]


def _chosen(policy: Policy | None) -> Policy:
    if policy is None:
        return _common()
    if not isinstance(policy, Policy):
        raise TypeError(f"a Policy is wanted, and not {policy!r}; write Policy(tags=..)")
    return policy


def clean(html: str | Document, policy: Policy | None = None) -> str:
    """What the policy leaves of a fragment of HTML from strangers, such as a comment or a mail; without a policy, `Policy()`.

    Whatever the text is, only elements and attributes that the policy allows stay, and all that is left is written so that any
    browser reads exactly these: the text in the body of a page is read as the tree that was left. Nothing is refused. A document,
    as `parse` returns it, is cleaned too, and stays as it is.
    """
    return _chosen(policy).clean(html)


def clean_page(html: str, policy: Policy | None = None) -> str:
    """A whole page with what the policy leaves of the body of a page: `<!DOCTYPE html>`, a `head` that declares UTF-8, and that `body`."""
    return _chosen(policy).clean_page(html)
