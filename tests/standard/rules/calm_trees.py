"""Random trees that satisfy the conditions of the definition IsCalmDocument, and texts that write them."""
KINDS = {
    'Html': 'html', 'Head': 'head', 'Body': 'body', 'Metadata': 'base link meta', 'Verbatim': 'script style title',
    'Phrase': 'abbr acronym area audio b bdi bdo big br canvas cite code data datalist del dfn em embed font i img input ins kbd label legend map mark meter '
              'output picture progress q s samp slot small source span strike strong sub sup time track tt u var video wbr',
    'Anchor': 'a', 'Button': 'button', 'Paragraph': 'p',
    'Block': 'address article aside blockquote center details dialog div fieldset figcaption figure footer header hgroup hr main nav search section summary',
    'Heading': 'h1 h2 h3 h4 h5 h6', 'Form': 'form', 'Pre': 'pre', 'ItemList': 'dir menu ol ul', 'Item': 'li', 'DescriptionList': 'dl', 'Description': 'dd dt',
    'Table': 'table', 'Caption': 'caption', 'ColumnGroup': 'colgroup', 'Column': 'col', 'RowGroup': 'tbody tfoot thead', 'TableRow': 'tr', 'Cell': 'td th', 'Ruby': 'ruby', 'RubyText': 'rp rt'}
KINDS = {k: v.split() for k, v in KINDS.items()}
FLOW = ['Ruby', 'Phrase', 'Anchor', 'Button', 'Paragraph', 'Block', 'Heading', 'Form', 'Pre', 'ItemList', 'DescriptionList']
HOLDS_FLOW = set(FLOW + ['RubyText', 'Body', 'Item', 'Description', 'Caption', 'Cell'])
HOLDS_PARTS = {'Table', 'Head', 'ColumnGroup', 'RowGroup', 'TableRow'}
IS_FLOW = FLOW + ['Verbatim', 'Table']
MORE = {'Head': ['Metadata', 'Verbatim'], 'ItemList': ['Item'], 'DescriptionList': ['Description'], 'Table': ['Caption', 'ColumnGroup', 'RowGroup'],
        'ColumnGroup': ['Column'], 'RowGroup': ['TableRow'], 'TableRow': ['Cell'], 'Ruby': ['RubyText']}
VOID = set('area base br col embed hr img input link meta source track wbr'.split())
FORMATTING = 'b big code em font i s small strike strong tt u'.split()
IN_P = {'Paragraph', 'Block', 'Heading', 'Pre', 'ItemList', 'DescriptionList', 'Table'}


def may_hold(parent):
    more = MORE.get(parent, [])
    if parent in HOLDS_FLOW:
        more = more + [k for k in IS_FLOW if not (parent == 'Heading' and k == 'Heading')]
    return more


def bars(scope, kind):
    return ((kind == 'Anchor' and scope['a']) or (kind == 'Button' and scope['button']) or (kind == 'Form' and (scope['p'] or scope['form']))
            or (kind in IN_P and scope['p']))


def inside(scope, kind):
    s = dict(scope, parent=kind)
    for k, n in (('Anchor', 'a'), ('Button', 'button'), ('Form', 'form'), ('Paragraph', 'p')):
        if k == kind:
            s[n] = True
    return s


def top(parent):
    return {'parent': parent, 'p': False, 'a': False, 'button': False, 'form': False}


WHITE = [' ', '\n', '\t', '\f', '  ', '\n\n']
PIECES = ['a', 'b', ' ', '\n', 'x y', '<', '>', '&', '"', "'", '\u00a0', 'é', '日', '\U0001f600', '-', '!', '/', '=', 'p', '<b>', '</p>', '\f', '\t', '\x01', '\x7f', ';', 'amp;']
RAW = ['a', ' ', '\n', '<', '< ', '<b>', '<!'[:1], '&amp;', '& ', '-->', '--', '>', '"', 'if (a < b)', '<script', '/', '<?', '\\']
COMMENT = ['a', ' ', '-', '--', '<', '!', '<!', '<!-', '&', '\n', 'é', '--!']
ATTR = ['class', 'id', 'type', 'href', 'a', 'data-x', 'é', ':x', '@y', 'x.y', 'xmlns', 'hidden', 'color']
VALUES = ['', 'x', 'hidden', 'a b', '"', "'", '&', '<', '>', '&amp;', '\n', '\u00a0', 'é', '/', '=']


class Maker:
    def __init__(self, rng):
        self.rng = rng
        self.left = rng.choice([5, 15, 40, 80])
        self.few = rng.random() < 0.5  # few names of formatting elements and few attributes, so that equal ones nest
        self.marks = rng.sample(FORMATTING, 2) if self.few else FORMATTING
        self.deep = rng.choice([0.5, 0.5, 0.9])

    def some(self, pieces):
        return ''.join(self.rng.choice(pieces) for _ in range(self.rng.choice([1, 1, 2, 3, 5])))

    def attrs(self):
        out = []
        while self.rng.random() < (0.05 if self.few else 0.25):
            n = self.rng.choice(ATTR)
            if n not in [x for x, _ in out]:
                out.append((n, self.some(VALUES)))
        return out

    def raw(self, name):
        t = self.some(PIECES if name == 'title' else RAW)
        return '' if '</' in t or '<!' in t or t.startswith(('/', '!')) and False else t

    def trees(self, scope, depth):
        rng, out = self.rng, []
        parent = scope['parent']
        for _ in range(rng.choice([0, 1, 1, 2, 2, 3, 4])):
            if self.left <= 0:
                break
            self.left -= 1
            r = rng.random()
            if r < 0.3:
                t = self.some(PIECES) if parent in HOLDS_FLOW else rng.choice(WHITE)
                if (out and out[-1][0] == 'text') or (parent == 'Pre' and t.startswith('\n')):
                    continue
                out.append(('text', t))
            elif r < 0.35:
                t = self.some(COMMENT)
                if '-->' in t + '--' + '' and '>' in t:
                    continue
                out.append(('comment', t))
            else:
                kinds = [k for k in may_hold(parent) if not bars(scope, k)]
                if not kinds or depth > 25:
                    continue
                special = [k for k in kinds if k in MORE.get(parent, [])]
                kind = rng.choice(special) if special and rng.random() < 0.8 else 'Phrase' if self.deep > 0.8 and 'Phrase' in kinds and rng.random() < 0.6 else rng.choice(kinds)
                names = KINDS[kind]
                name = rng.choice(self.marks) if kind == 'Phrase' and rng.random() < self.deep else rng.choice(names)
                attrs = self.attrs()
                if name in VOID:
                    children = []
                elif kind == 'Verbatim':
                    t = self.raw(name)
                    children = [('text', t)] if t else []
                else:
                    children = self.trees(inside(scope, kind), depth + 1)
                    if rng.random() < 0.4 and not children:
                        children = self.trees(inside(scope, kind), depth + 1)
                out.append(('element', name, attrs, children))
        return out

    def page(self):
        head, body = self.trees(top('Head'), 0), []
        self.left += 20
        body = self.trees(top('Body'), 0) or self.trees(top('Body'), 0)
        space = [('text', self.some(WHITE))] if self.rng.random() < 0.5 else []
        return [('doctype', 'html'), ('element', 'html', self.attrs(), [('element', 'head', self.attrs(), head)] + space + [('element', 'body', self.attrs(), body)])]


def is_bare(rest):
    return not rest or not (rest[0].isascii() and (rest[0].isalnum() or rest[0] == '#'))


def spelled_text(rng, t, quote=None):
    out = []
    for i, c in enumerate(t):
        rest = t[i + 1:]
        if c == '&':
            # a bare one only where what is written behind it keeps it bare
            out.append('&' if is_bare(rest) and not rest.startswith('&') and rng.random() < 0.5 else '&amp;')
        elif c == '<':
            out.append('<' if (quote and rng.random() < 0.5) or (rest[:1] in (' ', '=', '-', '\n') and rest) and rng.random() < 0.5 else '&lt;')
        elif c == '>':
            out.append(rng.choice(['>', '&gt;']))
        elif c == '"':
            out.append('&quot;' if quote == '"' else rng.choice(['"', '&quot;']))
        elif c == "'" and quote == "'":
            return None
        elif c == '\u00a0':
            out.append(rng.choice([c, '&nbsp;']))
        else:
            out.append(c)
    return ''.join(out)


def cased(rng, n):
    return n.upper() if n.isascii() and rng.random() < 0.1 else n


def spelled_attrs(rng, attrs):
    out = ''
    for n, v in attrs:
        out += rng.choice([' ', ' ', ' ', '\n', ' \t']) + cased(rng, n)
        r = rng.random()
        if v == '' and r < 0.5:
            continue
        one = spelled_text(rng, v, "'") if r < 0.3 else None
        out += rng.choice(['=', '=', '=', ' = ']) + (("'" + one + "'") if one is not None else ('"' + spelled_text(rng, v, '"') + '"'))
    return out


def spelled(rng, trees, raw=False):
    out = ''
    for t in trees:
        if t[0] == 'text':
            out += t[1] if raw else spelled_text(rng, t[1])
        elif t[0] == 'comment':
            out += '<!--' + t[1] + '-->'
        elif t[0] == 'doctype':
            out += rng.choice(['<!DOCTYPE html>', '<!doctype html>'])
        else:
            n = t[1]
            out += '<' + cased(rng, n) + spelled_attrs(rng, t[2]) + rng.choice(['', '', '', ' ']) + ('/' if n in VOID and rng.random() < 0.2 else '') + '>'
            if n not in VOID:
                out += spelled(rng, t[3], n in ('script', 'style')) + ('</body>' if n == 'body' else '</html>' if n == 'html' else '</' + cased(rng, n) + '>')
    return out
