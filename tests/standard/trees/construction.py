"""Runs the rules of docs/standard/tree_construction.txt over tokens: `Builder.step(token)`. It is written for clearness, and not for speed.

A token: ("char", c), ("comment", text), ("doctype", name, public, system, force_quirks), ("start", name, [(name, value)], self-closing),
("end", name), ("eof",). The tree is a store of nodes, each with the list of its children; an element of the name template has a
node more, its contents. What the rules name as an algorithm stands below as a method of that name."""
from construction_rules import FIRST, MODES, NAMES, RESET, TEXTS

SPACE = "\t\n\f\r "
LOWER = {upper: upper + 32 for upper in range(ord("A"), ord("Z") + 1)}
HTML, SVG, MATH = "", "svg", "math"
TAKEN = set()  # the rules that were taken, as (mode, index), until a caller clears it
DONE = set()  # the actions with a condition of their own, as (mode, index, action, whether it was met)
MOST = {}  # how deeply rules called rules for a token at most, by the number of template insertion modes


class Node:
    def __init__(self, kind, text=None, space=None, attrs=None):
        self.kind, self.text, self.space, self.attrs = kind, text, space, attrs  # an element's text is its name
        self.children, self.contents = [], None


def key(node):
    """The name of an element as the lists of names have it."""
    return node.space + " " + node.text if node.space else node.text


def lower(text):
    return text.translate(LOWER)


def adjusted(names, name):
    """The name of the list that is the same but for the case of ASCII letters, or the name itself."""
    return next((one for one in names if lower(one) == name), name)


class Builder:
    def __init__(self, scripting=False, context=None, quirks="no-quirks", in_form=False):
        self.nodes = [Node("document")]
        self.stack, self.listed = [], []  # numbers of nodes; in `listed` None is a marker
        self.mode, self.original, self.template_modes = "initial", "initial", []
        self.head, self.form, self.found = None, None, None
        self.frameset_ok, self.fostering, self.scripting, self.quirks = True, False, scripting, quirks
        self.pending, self.skip, self.context, self.stopped = [], False, None, False
        self.token, self.state = None, None  # the current token, and the state that the tokenizer is switched to
        if context is not None:
            self.start_fragment(*context, in_form=in_form)

    # ---- the HTML fragment parsing algorithm (13.4)

    def start_fragment(self, space, name, attrs=(), in_form=False):
        self.context = self.new(Node("element", name, space, list(attrs)))
        self.state = next(state for names, when, state in FIRST
                          if names is None or key(self.nodes[self.context]) in names and all(self.holds(c) for c in when))
        root = self.element(HTML, "html", [])
        self.nodes[0].children.append(root)
        self.stack.append(root)
        if key(self.nodes[self.context]) == "template":
            self.template_modes.append("in template")
        self.reset_mode()
        if in_form or key(self.nodes[self.context]) == "form":
            self.form = self.context

    # ---- nodes

    def new(self, node):
        self.nodes.append(node)
        return len(self.nodes) - 1

    def element(self, space, name, attrs):
        number = self.new(Node("element", name, space, attrs))
        if space == HTML and name == "template":
            self.nodes[number].contents = self.new(Node("contents"))
        return number

    def parent(self, number):
        return next((n for n, node in enumerate(self.nodes) if number in node.children), None)

    def remove(self, number):
        """Takes a node from its parent, if it has one."""
        above = self.parent(number)
        if above is not None:
            self.nodes[above].children.remove(number)

    def put(self, number, place):
        """Inserts a node at a place: a node, and the child before which it is put, or None."""
        self.remove(number)
        children = self.nodes[place[0]].children
        children.insert(children.index(place[1]) if place[1] is not None else len(children), number)

    def key(self, number):
        return key(self.nodes[number])

    # ---- the stack

    @property
    def current(self):
        return self.stack[-1]

    @property
    def adjusted_current(self):
        return self.context if self.context is not None and len(self.stack) == 1 else self.stack[-1]

    def pop(self):
        self.stack.pop()

    def pop_until(self, names):
        while self.key(self.stack.pop()) not in names:
            pass

    def in_scope(self, names, bounds):
        """One of the elements (given by names, or a number) is in the scope that these end."""
        for n in reversed(self.stack):
            if n == names if isinstance(names, int) else self.key(n) in names:
                return True
            if self.key(n) in bounds:
                return False
        return False

    # ---- the appropriate place for inserting a node (13.2.6.1)

    def place(self, target=None):
        target = self.current if target is None else target
        if self.fostering and self.key(target) in NAMES["fostering"]:
            where = self.foster_place()
        else:
            where = (target, None)
        contents = self.nodes[where[0]].contents
        return where if contents is None else (contents, None)

    def foster_place(self):
        template = next((i for i in reversed(range(len(self.stack))) if self.key(self.stack[i]) == "template"), None)
        table = next((i for i in reversed(range(len(self.stack))) if self.key(self.stack[i]) == "table"), None)
        if template is not None and (table is None or template > table):
            return (self.stack[template], None)
        if table is None:
            return (self.stack[0], None)
        above = self.parent(self.stack[table])
        if above is not None:
            return (above, self.stack[table])
        return (self.stack[table - 1], None)

    def insert(self, space, name, attrs):
        number = self.element(space, name, attrs)
        self.put(number, self.place())
        self.stack.append(number)

    def insert_text(self, text):
        number, before = self.place()
        if self.nodes[number].kind == "document":
            return
        children = self.nodes[number].children
        at = children.index(before) if before is not None else len(children)
        if at and self.nodes[children[at - 1]].kind == "text":
            self.nodes[children[at - 1]].text += text
        else:
            self.put(self.new(Node("text", text)), (number, before))

    # ---- the list of active formatting elements (13.2.4.3)

    def after_marker(self):
        """The entries after the last marker, the last first."""
        found = []
        for n in reversed(self.listed):
            if n is None:
                break
            found.append(n)
        return found

    def list_element(self):
        same = [n for n in self.after_marker()
                if self.key(n) == self.key(self.current) and sorted(self.nodes[n].attrs) == sorted(self.nodes[self.current].attrs)]
        if len(same) >= 3:
            self.listed.remove(same[-1])
        self.listed.append(self.current)

    def reconstruct(self):
        entries, i = self.listed, len(self.listed)
        while i and entries[i - 1] is not None and entries[i - 1] not in self.stack:
            i -= 1
        for j in range(i, len(entries)):
            old = self.nodes[entries[j]]
            self.insert(HTML, old.text, list(old.attrs))
            entries[j] = self.current

    # ---- the adoption agency (13.2.6.4.7)

    def adopt(self, subject):
        if self.key(self.current) == subject and self.current not in self.listed:
            self.pop()
            return
        for _ in range(8):
            formatting = next((n for n in self.after_marker() if self.key(n) == subject), None)
            if formatting is None:
                self.any_other_end()
                return
            if formatting not in self.stack:
                self.listed.remove(formatting)
                return
            if not self.in_scope(formatting, NAMES["scope"]):
                return
            at = self.stack.index(formatting)
            furthest = next((n for n in self.stack[at + 1:] if self.key(n) in NAMES["special"]), None)
            if furthest is None:
                del self.stack[at:]
                self.listed.remove(formatting)
                return
            common = self.stack[at - 1]
            bookmark, last = None, furthest
            between = self.stack[at + 1:self.stack.index(furthest)]
            for count, node in enumerate(reversed(between), 1):
                if count > 3 and node in self.listed:
                    self.listed.remove(node)
                if node not in self.listed:
                    self.stack.remove(node)
                    continue
                copy = self.copy(node)
                self.listed[self.listed.index(node)] = copy
                self.stack[self.stack.index(node)] = copy
                if last == furthest:
                    bookmark = copy
                self.put(last, (copy, None))
                last = copy
            self.put(last, self.place(common))
            copy = self.copy(formatting)
            self.nodes[copy].children, self.nodes[furthest].children = self.nodes[furthest].children, []
            self.put(copy, (furthest, None))
            if bookmark is None:
                self.listed[self.listed.index(formatting)] = copy
            else:
                self.listed.remove(formatting)
                self.listed.insert(self.listed.index(bookmark) + 1, copy)
            self.stack.remove(formatting)
            self.stack.insert(self.stack.index(furthest) + 1, copy)

    def copy(self, number):
        return self.element(HTML, self.nodes[number].text, list(self.nodes[number].attrs))

    # ---- other algorithms

    def any_other_end(self):
        name = self.token[1]
        for n in reversed(self.stack):
            if self.key(n) == name:
                self.implied(NAMES["implied"], [name])
                while self.stack.pop() != n:
                    pass
                return
            if self.key(n) in NAMES["special"]:
                return

    def implied(self, names, but=()):
        while self.key(self.current) in names and self.key(self.current) not in but:
            self.pop()

    def close_items(self, names):
        for n in reversed(self.stack):
            if self.key(n) in names:
                self.implied(NAMES["implied"], [self.key(n)])
                self.pop_until([self.key(n)])
                return
            if self.key(n) in NAMES["special"] and self.key(n) not in NAMES["crossed by items"]:
                return

    def end_form(self):
        node, self.form = self.form, None
        if node is not None and self.in_scope(node, NAMES["scope"]):
            self.implied(NAMES["implied"])
            self.stack.remove(node)

    def reset_mode(self):
        for i in reversed(range(len(self.stack))):
            self.at = i
            name = self.key(self.context if i == 0 and self.context is not None else self.stack[i])
            for names, when, mode in RESET:
                if (names is None or name in names) and all(self.holds(c) for c in when):
                    self.mode = self.template_modes[-1] if mode == "the current template mode" else mode
                    return

    def quirks_of(self, name, public, system, force):
        def fits(text, which, begins):
            return text is not None and any(lower(text).startswith(lower(t)) if begins else lower(text) == lower(t) for t in TEXTS[which])
        if force or name != "html" or fits(public, "quirks public is", False) or fits(system, "quirks system is", False) \
                or fits(public, "quirks public begins", True) or system is None and fits(public, "either quirks public begins", True):
            return "quirks"
        if fits(public, "limited quirks public begins", True) or fits(public, "either quirks public begins", True):
            return "limited-quirks"
        return "no-quirks"

    def adjust_attributes(self, names):
        self.token = (self.token[0], self.token[1], [(adjusted(names, n), v) for n, v in self.token[2]], *self.token[3:])

    def merge(self, number):
        have = {n for n, _ in self.nodes[number].attrs}
        self.nodes[number].attrs += [(n, v) for n, v in self.token[2] if n not in have]

    # ---- conditions

    def names(self, names):
        return [self.token[1]] if names == ["own"] else names

    def holds(self, condition):
        positive, c = condition
        return self.test(c[0], *c[1:]) == positive

    def test(self, kind, names=()):
        names = self.names(names) if names else names
        attrs = dict(self.token[2]) if self.token and self.token[0] == "start" else {}
        adjusted_node = self.nodes[self.adjusted_current] if self.stack else None
        match kind:
            case "in scope" | "in list item scope" | "in button scope" | "in table scope":
                return self.in_scope(names, NAMES[kind[3:]])
            case "current node":
                return self.key(self.current) in names
            case "adjusted current node":
                return key(adjusted_node) in names
            case "second element":
                return len(self.stack) > 1 and self.key(self.stack[1]) in names
            case "context":
                return self.context is not None and self.key(self.context) in names
            case "listed":
                return any(self.key(n) in names for n in self.after_marker())
            case "any attribute":
                return any(n in attrs for n in names)
            case "no open elements":
                return not self.stack
            case "adjusted current node in HTML":
                return adjusted_node.space == HTML
            case "adjusted current node in MathML":
                return adjusted_node.space == MATH
            case "at a MathML text integration point":
                return key(adjusted_node) in NAMES["text points"]
            case "at an HTML integration point":
                encoding = dict(adjusted_node.attrs).get("encoding")
                return key(adjusted_node) in NAMES["html points"] or key(adjusted_node) == "math annotation-xml" and \
                    encoding is not None and lower(encoding) in NAMES["html encodings"]
            case "template open":
                return any(self.key(n) == "template" for n in self.stack)
            case "template mode set":
                return bool(self.template_modes)
            case "form pointer set":
                return self.form is not None
            case "head pointer set":
                return self.head is not None
            case "scripting":
                return self.scripting
            case "frameset-ok":
                return self.frameset_ok
            case "quirks":
                return self.quirks == "quirks"
            case "fragment":
                return self.context is not None
            case "self-closing":
                return self.token[3]
            case "current node is topmost":
                return len(self.stack) == 1
            case "attribute type hidden":
                return lower(attrs.get("type", "")) == "hidden"
            case "pending all white space":
                return all(c in SPACE for c in self.pending)
            case "own before HTML":
                for n in reversed(self.stack):
                    if self.nodes[n].space == HTML:
                        return False
                    if lower(self.nodes[n].text) == self.token[1]:
                        return True
                return False
            case "topmost":
                return self.at == 0
        raise ValueError(kind)

    # ---- actions

    def act(self, kind, names=None):
        names = self.names(names) if isinstance(names, list) else names
        token = self.token
        match kind:
            case "insert character":
                self.insert_text(token[1])
            case "insert U+FFFD":
                self.insert_text("\ufffd")
            case "insert comment":
                self.put(self.new(Node("comment", token[1])), self.place())
            case "insert comment in document":
                self.put(self.new(Node("comment", token[1])), (0, None))
            case "insert comment in html":
                self.put(self.new(Node("comment", token[1])), (self.stack[0], None))
            case "append doctype":
                self.put(self.new(Node("doctype", token[1] or "", attrs=(token[2] or "", token[3] or ""))), (0, None))
            case "set quirks by doctype":
                self.quirks = self.quirks_of(*token[1:])
            case "set quirks":
                self.quirks = "quirks"
            case "insert element":
                self.insert(HTML, *((names[0], []) if names else (token[1], list(token[2]))))
            case "insert root element":
                number = self.element(HTML, *((names[0], []) if names else (token[1], list(token[2]))))
                self.put(number, (0, None))
                self.stack.append(number)
            case "insert MathML element":
                self.insert(MATH, token[1], list(token[2]))
            case "insert SVG element":
                self.insert(SVG, token[1], list(token[2]))
            case "set head pointer":
                self.head = self.current
            case "push head pointer":
                self.stack.append(self.head)
            case "remove head from stack":
                self.stack.remove(self.head)
            case "set form pointer":
                self.form = self.current
            case "pop":
                self.pop()
            case "pop to topmost":
                del self.stack[1:]
            case "pop until":
                self.pop_until(names)
            case "pop up to":
                while self.key(self.current) not in names:
                    self.pop()
            case "pop until own in any case":
                while lower(self.nodes[self.stack.pop()].text) != token[1]:
                    pass
            case "pop foreign elements":
                while self.nodes[self.current].space != HTML and self.key(self.current) not in NAMES["text points"] and not self.is_html_point(self.current):
                    self.pop()
            case "frameset not ok":
                self.frameset_ok = False
            case "switch to":
                self.mode = names
            case "keep mode":
                self.original = self.mode
            case "switch back":
                self.mode = self.original
            case "reset mode":
                self.reset_mode()
            case "push template mode":
                self.template_modes.append(names)
            case "pop template mode":
                self.template_modes.pop()
            case "tokenizer to":
                self.state = names
            case "list marker":
                self.listed.append(None)
            case "list element":
                self.list_element()
            case "clear list to marker":
                while self.listed and self.listed.pop() is not None:
                    pass
            case "reconstruct formatting":
                self.reconstruct()
            case "find listed":
                self.found = next((n for n in self.after_marker() if self.key(n) in names), None)
            case "drop found":
                self.listed = [n for n in self.listed if n is None or n != self.found]
                self.stack = [n for n in self.stack if n != self.found]
            case "adoption agency":
                self.adopt(token[1])
            case "close p":
                if self.in_scope(["p"], NAMES["button scope"]):
                    self.implied(NAMES["implied"], ["p"])
                    self.pop_until(["p"])
            case "close items":
                self.close_items(names)
            case "implied end tags":
                self.implied(NAMES["implied"])
            case "implied end tags but":
                self.implied(NAMES["implied"], names)
            case "all implied end tags":
                self.implied(NAMES["thoroughly implied"])
            case "end form":
                self.end_form()
            case "any other end tag":
                self.any_other_end()
            case "skip next line feed":
                self.skip = True
            case "merge attributes into html":
                self.merge(self.stack[0])
            case "merge attributes into body":
                self.merge(self.stack[1])
            case "remove body":
                self.remove(self.stack[1])
            case "rename":
                self.token = (token[0], names[0], *token[2:])
            case "adjust MathML attributes":
                self.adjust_attributes(NAMES["mathml attributes"])
            case "adjust SVG attributes":
                self.adjust_attributes(NAMES["svg attributes"])
            case "adjust SVG name":
                self.token = (token[0], adjusted(NAMES["svg names"], token[1]), *token[2:])
            case "adjust foreign attributes":
                # "xlink:href" has prefix and local name: written "xlink href"
                self.token = (token[0], token[1], [(n.replace(":", " ") if n in NAMES["foreign attributes"] else n, v) for n, v in token[2]], *token[3:])
            case "foster on":
                self.fostering = True
            case "foster off":
                self.fostering = False
            case "empty pending":
                self.pending = []
            case "add to pending":
                self.pending.append(token[1])
            case "insert pending":
                for c in self.pending:
                    self.insert_text(c)
            case _:
                raise ValueError(kind)

    def is_html_point(self, number):
        node = self.nodes[number]
        encoding = dict(node.attrs).get("encoding")
        return key(node) in NAMES["html points"] or key(node) == "math annotation-xml" and encoding is not None and lower(encoding) in NAMES["html encodings"]

    # ---- a token

    def fits(self, pattern):
        kind, token = pattern[0], self.token
        match kind:
            case "anything" | "anything else":
                return True
            case "any start tag" | "any end tag":
                return token[0] == kind.split()[1]
            case "start" | "end":
                return token[0] == kind and token[1] in pattern[1]
            case "start but":
                return token[0] == "start" and token[1] not in pattern[1]
            case "white space":
                return token[0] == "char" and token[1] in SPACE
            case "null":
                return token == ("char", "\0")
            case "character":
                return token[0] == "char"
            case "end of file":
                return token[0] == "eof"
        return token[0] == kind

    def use(self, mode):
        """Processes the token using the rules for a mode."""
        self.depth += 1
        self.deepest = max(self.deepest, self.depth)
        for index, r in enumerate(MODES[mode]):
            if any(self.fits(p) for p in r.patterns) and all(self.holds(c) for c in r.conditions):
                break
        else:
            raise ValueError(mode, self.token)
        TAKEN.add((mode, index))
        for at, ((kind, *names), when) in enumerate(r.actions):
            met = all(self.holds(c) for c in when)
            if when:
                DONE.add((mode, index, at, met))
            if not met:
                continue
            if kind == "use":
                self.use(names[0])
            elif kind == "use current mode":
                self.use(self.mode)
            elif kind == "use for each pending":
                whole = self.token
                for c in self.pending:
                    self.token = ("char", c)
                    self.use(names[0])
                self.token = whole
            elif kind == "reprocess":
                self.use("dispatcher")
            elif kind == "stop":
                self.stopped = True
            else:
                self.act(kind, *names)
        self.depth -= 1

    def step(self, token):
        self.token, self.state, self.depth, self.deepest = token, None, 0, 0
        skipped, self.skip = self.skip, False
        if skipped and token == ("char", "\n"):
            return
        before = len(self.template_modes)
        self.use("dispatcher")
        MOST[before] = max(MOST.get(before, 0), self.deepest)

    @property
    def foreign(self):
        """Whether the adjusted current node is an element that is not in the HTML namespace."""
        return bool(self.stack) and self.nodes[self.adjusted_current].space != HTML

    def tree(self, number):
        node = self.nodes[number]
        below = [self.tree(n) for n in node.children]
        if node.kind == "element":
            contents = None if node.contents is None else [self.tree(n) for n in self.nodes[node.contents].children]
            return ("element", node.space, node.text, node.attrs, contents, below)
        return (node.kind, node.text, node.attrs) if node.kind == "doctype" else (node.kind, node.text)

    def result(self):
        """The children of the document; of a fragment, those of the root element."""
        top = self.nodes[0] if self.context is None else self.nodes[self.nodes[0].children[0]]
        return [self.tree(n) for n in top.children]
