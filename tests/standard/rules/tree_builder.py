"""Runs the rules of rules.txt over tokens and gives the tree, or None where a rule isn't written.

A token: ('char', c), ('comment', text), ('doctype', name), ('start', name, attributes), ('end', name), ('eof',).
A tree: ('text', text), ('comment', text), ('doctype', name), ('element', name, attributes, children)."""
from read_rules import MODES, expanded

SPACE = "\t\n\f\r "
SCOPE = set("applet caption html table td th marquee object template select".split())
SCOPES = {"in scope": SCOPE, "in button scope": SCOPE | {"button"}, "in list item scope": SCOPE | {"ol", "ul"},
          "in table scope": {"html", "table", "template"}}
IMPLIED = set("dd dt li optgroup option p rb rp rt rtc".split())
SPECIAL = set("""address applet area article aside base basefont bgsound blockquote body br button caption center col colgroup dd details
dir div dl dt embed fieldset figcaption figure footer form frame frameset h1 h2 h3 h4 h5 h6 head header hgroup hr html iframe img input
keygen li link listing main marquee menu meta nav noembed noframes noscript object ol p param plaintext pre script search section select
source style summary table tbody td template textarea tfoot th thead title tr track ul wbr xmp""".split())
VOID = set("area base br col embed hr img input link meta source track wbr".split())
RESET = {"tr": "in row", "tbody": "in table body", "thead": "in table body", "tfoot": "in table body", "caption": "in caption",
         "colgroup": "in column group", "table": "in table", "body": "in body"}
TAKEN = set()  # the rules that were taken, as (mode, index), until a caller clears it


class NoRule(Exception):
    pass


def fixed(part):
    """A part of a rule, with its lists of names written out."""
    return part if len(part) < 2 or isinstance(part[1], str) else (part[0], expanded(part[1]))


RULES = {mode: [(fixed(p), fixed(c), [fixed(a) for a in acts], goes) for p, c, acts, goes in rules] for mode, rules in MODES.items()}


class Open:
    """An open element."""

    def __init__(self, number, name, attrs):
        self.number, self.name, self.attrs, self.children = number, name, attrs, []


class Builder:
    def __init__(self):
        self.document, self.stack, self.listed = [], [], []
        self.mode, self.original, self.form = "initial", "initial", None
        self.frameset_ok, self.skip, self.next = True, False, 0
        self.context = None  # the name of the context element of a fragment

    def children(self):
        return self.stack[-1].children if self.stack else self.document

    def pop(self):
        if len(self.stack) < 2:
            raise NoRule
        element = self.stack.pop()
        self.children().append(("element", element.name, element.attrs, element.children))
        return element

    def insert(self, name, attrs):
        self.stack.append(Open(self.next, name, attrs))
        self.next += 1

    def char(self, c):
        children = self.children()
        if children and children[-1][0] == "text":
            children[-1] = ("text", children[-1][1] + c)
        else:
            children.append(("text", c))

    def current_is(self, names):
        return bool(self.stack) and self.stack[-1].name in names

    def in_scope(self, bounds, names):
        for e in reversed(self.stack):
            if e.name in names:
                return True
            if e.name in bounds:
                return False
        return False

    def implied(self, but=()):
        while len(self.stack) > 1 and self.stack[-1].name in IMPLIED and self.stack[-1].name not in but:
            self.pop()

    def pop_until(self, names):
        while self.pop().name not in names:
            pass

    def close(self, name):
        self.implied([name])
        self.pop_until([name])

    def is_open(self, number):
        return any(e.number == number for e in self.stack)

    def last_listed(self, names):
        """The last entry of one of these names after the last marker of the list of active formatting elements."""
        for entry in reversed(self.listed):
            if entry is None:
                return None
            if entry[1] in names:
                return entry
        return None

    # ---- actions

    def act(self, action):
        names = [self.token[1]] if action[1:] == ("own name",) else action[1] if len(action) > 1 else None
        getattr(self, "do_" + action[0].replace(" ", "_"))(names)

    def do_insert_element(self, names):
        if names:
            self.insert(names[0], [])
        else:
            self.insert(self.token[1], self.token[2])

    def do_insert_character(self, names):
        self.char(self.token[1])

    def do_insert_comment(self, names):
        self.children().append(("comment", self.token[1]))

    def do_append_doctype(self, names):
        self.children().append(("doctype", self.token[1]))

    def do_pop(self, names):
        self.pop()

    def do_frameset_not_ok(self, names):
        self.frameset_ok = False

    def do_reconstruct_formatting(self, names):
        if self.listed and self.listed[-1] is not None and not self.is_open(self.listed[-1][0]):
            raise NoRule

    def do_close_p(self, names):
        if self.in_scope(SCOPES["in button scope"], ["p"]):
            self.close("p")

    def do_implied_end_tags(self, names):
        self.implied()

    def do_implied_end_tags_but(self, names):
        self.implied(names)

    def do_pop_until(self, names):
        self.pop_until(names)

    def do_pop_if(self, names):
        if self.current_is(names):
            self.pop()

    def do_close_items(self, names):
        for e in reversed(self.stack):
            if e.name in names:
                return self.close(e.name)
            if e.name in SPECIAL and e.name not in ("address", "div", "p"):
                return None
        return None

    def do_clear_stack_to(self, names):
        while len(self.stack) > 1 and self.stack[-1].name not in [*names, "html", "template"]:
            self.pop()

    def do_list_element(self, names):
        e, same = self.stack[-1], []
        for i in range(len(self.listed) - 1, -1, -1):
            if self.listed[i] is None:
                break
            if self.listed[i][1] == e.name and sorted(self.listed[i][2]) == sorted(e.attrs):
                same.append(i)
        if len(same) >= 3:
            del self.listed[same[2]]
        self.listed.append((e.number, e.name, e.attrs))

    def do_list_marker(self, names):
        self.listed.append(None)

    def do_clear_list_to_marker(self, names):
        while self.listed and self.listed.pop() is not None:
            pass

    def do_set_form_pointer(self, names):
        self.form = self.stack[-1].number

    def do_end_form(self, names):
        form, self.form = self.form, None
        if form is not None:
            if not self.stack or self.stack[-1].number != form:
                raise NoRule
            self.pop()

    def do_drop_next_line_feed(self, names):
        self.skip = True

    def do_any_other_end_tag(self, names):
        name = self.token[1]
        for e in reversed(self.stack):
            if e.name == name:
                return self.close(name)
            if e.name in SPECIAL:
                return None
        return None

    def do_adoption_agency(self, names):
        name = self.token[1]
        current = self.stack[-1]
        if current.name == name and not any(entry is not None and entry[0] == current.number for entry in self.listed):
            return self.pop()
        found = self.last_listed([name])
        if found is None:
            return self.do_any_other_end_tag(names)
        if current.number != found[0]:  # elements would be closed on the way, or moved
            raise NoRule
        self.listed = [entry for entry in self.listed if entry is not found]
        return self.pop()

    def reset(self):
        for e in reversed(self.stack):
            last = e is self.stack[0]
            name = self.context if last and self.context is not None else e.name
            if name in ("td", "th") and not last:
                return "in cell"
            if name in RESET:
                return RESET[name]
            if name in ("select", "template", "frameset", "html", "head"):
                raise NoRule
        return "in body"

    # ---- a token

    def fits(self, pattern, token):
        kind = pattern[0]
        if kind == "anything else":
            return True
        if kind in ("any start tag", "any end tag"):
            return token[0] == kind.split()[1]
        if kind in ("start", "end"):
            return token[0] == kind and token[1] in pattern[1]
        if kind in ("white space", "null", "character"):
            return token[0] == "char" and token[1] in {"white space": SPACE, "null": "\0"}.get(kind, token[1])
        if kind == "doctype named":
            return token[0] == "doctype" and token[1] in pattern[1]
        return token[0] == {"end of file": "eof"}.get(kind, kind)

    def holds(self, condition, token):
        kind = condition[0]
        if kind == "always":
            return True
        if kind == "no form element pointer":
            return self.form is None
        if kind == "type is hidden":
            return any(name == "type" and value.lower() == "hidden" for name, value in token[2])
        names = [token[1]] if condition[1] == "own name" else condition[1]
        if kind == "current node":
            return self.current_is(names)
        if kind == "no listed":
            return self.last_listed(names) is None
        return self.in_scope(SCOPES[kind], names)

    def rule_for(self, mode, token):
        for i, (pattern, condition, actions, goes) in enumerate(RULES[mode]):
            if self.fits(pattern, token) and self.holds(condition, token):
                TAKEN.add((mode, i))
                return actions, goes
        raise NoRule

    def step(self, token):
        self.token = token
        skipped, self.skip = self.skip, False
        if skipped and token == ("char", "\n"):
            return
        by = self.mode
        for _ in range(12):
            actions, goes = self.rule_for(by, token)
            if goes[0] == "no rule":
                raise NoRule
            for action in actions:
                self.act(action)
            if goes[0] == "use":
                by = goes[1]
                continue
            if goes[0] in ("switch", "reprocess"):
                self.mode = by = goes[1]
            elif goes[0].startswith("reset mode"):
                self.mode = by = self.reset()
            elif goes[0] == "switch back":
                self.mode = self.original
            elif goes[0] == "read text":
                self.original, self.mode = self.mode, "text"
            if not goes[0].endswith("reprocess"):
                return
        raise NoRule

    def finish(self):
        while len(self.stack) > 1:
            self.pop()
        for element in self.stack:
            self.document.append(("element", element.name, element.attrs, element.children))
        return self.document


def tokens_of(trees):
    """The tokens of trees: a start tag, the children, and an end tag unless the element is void."""
    out = []
    for t in trees:
        if t[0] == "text":
            out += [("char", c) for c in t[1]]
        elif t[0] == "element":
            out.append(("start", t[1], t[2]))
            if t[1] not in VOID:
                out += tokens_of(t[3]) + [("end", t[1])]
        else:
            out.append(t)
    return out


def build(tokens):
    """The trees of a page of these tokens."""
    builder = Builder()
    try:
        for token in [*tokens, ("eof",)]:
            builder.step(token)
    except NoRule:
        return None
    return builder.finish()


def build_fragment(context, tokens):
    """The trees of these tokens as a fragment in a context element (13.4)."""
    builder = Builder()
    builder.context = context
    builder.insert("html", [])
    try:
        builder.mode = builder.reset()
        for token in [*tokens, ("eof",)]:
            builder.step(token)
    except NoRule:
        return None
    return builder.finish()[0][3]
