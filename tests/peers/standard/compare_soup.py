"""compare_soup.py COUNT SEED [ROWS]: random tags in no order. Where every token has a written rule, parse5 must give the same tree.
With ROWS, writes into that file a few lists of tokens that take all the rules that were taken."""
import collections
import json
import random
import sys

from compare_calm import listed, parse5
import tree_builder
from tree_builder import RULES, TAKEN

NAMES = ['p', 'p', 'div', 'ul', 'li', 'li', 'dl', 'dd', 'dt', 'b', 'i', 'a', 'h1', 'h2', 'span', 'form', 'button', 'pre', 'table', 'table', 'caption', 'colgroup', 'col',
         'tbody', 'thead', 'tr', 'tr', 'td', 'td', 'th', 'br', 'hr', 'img', 'input', 'object', 'param', 'html', 'head', 'body', 'title', 'style', 'link', 'meta', 'address', 'em', 'source', 'ruby', 'rt', 'rp', 'rtc', 'rb']
VOID = tree_builder.VOID | {'param'}


def soup(rng):
    out = []
    framed = rng.random()
    if framed < 0.9:
        out.append(('doctype', 'html'))
    if framed < 0.6:
        out += [('start', 'html', []), ('start', 'head', []), ('end', 'head'), ('start', 'body', [])]
    stack = []
    if rng.random() < 0.3:
        path = rng.choice([['table'], ['table', 'tbody'], ['table', 'tbody', 'tr'], ['table', 'tbody', 'tr', 'td'], ['table', 'caption'], ['table', 'colgroup'], ['ul', 'li'], ['dl', 'dd'], ['table', 'tr']])
        out += [('start', n, []) for n in path]
        stack = list(path)
    for _ in range(rng.choice([1, 2, 4, 8, 12])):
        r = rng.random()
        if r < 0.15:
            out += [('char', c) for c in rng.choice(['x', ' ', '\n', 'a b', 'y'])]
        elif r < 0.2:
            out.append(('comment', 'c'))
        elif r < 0.22:
            out.append(('doctype', 'html'))
        elif r < 0.6 or not stack:
            n = rng.choice(NAMES)
            attrs = [('type', rng.choice(['hidden', 'x']))] if n == 'input' and rng.random() < 0.5 else []
            out.append(('start', n, attrs))
            if n in ('title', 'style'):
                out += [('char', 'q'), ('end', n)]
            elif n not in VOID:
                stack.append(n)
        elif r < 0.9:
            out.append(('end', stack.pop()))
        else:
            out.append(('end', rng.choice(NAMES)))
    return out


def written(tokens):
    out = ''
    for t in tokens:
        out += {'char': lambda: t[1], 'comment': lambda: '<!--' + t[1] + '-->', 'doctype': lambda: '<!DOCTYPE html>',
                'start': lambda: '<' + t[1] + ''.join(' %s="%s"' % a for a in t[2]) + '>', 'end': lambda: '</' + t[1] + '>'}[t[0]]()
    return out


def main():
    count, seed = int(sys.argv[1]), int(sys.argv[2])
    rng, seen, done, kept, new = random.Random(seed), collections.Counter(), 0, [], set()
    while done < count:
        batch = []
        for _ in range(5000):
            tokens = soup(rng)
            TAKEN.clear()
            got = tree_builder.build(tokens)
            if got is None:
                seen['unwritten'] += 1
                continue
            seen['built'] += 1
            if TAKEN - new:
                kept.append((len(TAKEN - new), tokens, got))
                new |= TAKEN
            batch.append((tokens, got))
        for (tokens, got), theirs in zip(batch, parse5([(None, written(t)) for t, _ in batch])):
            if theirs != listed(got):
                seen['differs'] += 1
                if seen['differs'] < 6:
                    print(written(tokens), '\n   ', json.dumps(got), '\n   ', json.dumps(theirs))
        done += 5000
        print(done, dict(seen), flush=True)
    for mode, rules in RULES.items():
        never = [i + 1 for i in range(len(rules)) if (mode, i) not in new]
        print(mode, len(rules), 'never taken', never)
    if len(sys.argv) > 3:
        json.dump([k[1] for k in kept], open(sys.argv[3], 'w'))


if __name__ == '__main__':
    main()
