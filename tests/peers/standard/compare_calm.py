"""compare_calm.py COUNT SEED: random calm pages and fragments, by the rules of tests/standard/rules and by parse5. Both must give the tree
that was written. NODE_PATH names the folder with parse5, as mend_parse5.py makes it, and /usr/share/nodejs for what it uses."""
import collections
import json
import os
import pathlib
import random
import subprocess
import sys

sys.dont_write_bytecode = True
sys.path.insert(0, str(pathlib.Path(__file__).resolve().parents[2] / "standard" / "rules"))
import calm_trees as calm  # noqa: E402
import tree_builder  # noqa: E402

HERE = os.path.dirname(os.path.abspath(__file__))
CONTEXTS = {'body': 'Body', 'div': 'Block', 'td': 'Cell', 'li': 'Item', 'blockquote': 'Block'}


def listed(t):
    return json.loads(json.dumps(t))


def parse5(items):
    done = subprocess.run(['node', os.path.join(HERE, 'peer_parse5.js')], input=json.dumps(items), capture_output=True, text=True, check=True)
    return json.loads(done.stdout)


def main():
    count, seed = int(sys.argv[1]), int(sys.argv[2])
    rng = random.Random(seed)
    seen = collections.Counter()
    done = 0
    while done < count:
        batch = []
        for _ in range(min(2000, count - done)):
            m = calm.Maker(rng)
            if rng.random() < 0.3:
                context = rng.choice(list(CONTEXTS))
                trees = m.trees(calm.top(CONTEXTS[context]), 0)
                got = tree_builder.build_fragment(context, tree_builder.tokens_of(trees))
            else:
                context, trees = None, m.page()
                got = tree_builder.build(tree_builder.tokens_of(trees))
            seen['fragments' if context else 'pages'] += 1
            if got != trees:
                seen['unwritten' if got is None else 'rules differ'] += 1
                if seen['rules differ'] + seen['unwritten'] < 5:
                    print('RULES', context, trees, got)
            batch.append((context, calm.spelled(rng, trees), trees))
        for (context, text, trees), theirs in zip(batch, parse5([(c, t) for c, t, _ in batch])):
            seen['characters'] += len(text)
            if theirs != listed(trees):
                seen['parse5 differs'] += 1
                if seen['parse5 differs'] < 6:
                    print('PARSE5', context, json.dumps(text), '\n   ', json.dumps(trees), '\n   ', json.dumps(theirs))
        done += len(batch)
        print(done, dict(seen), flush=True)


if __name__ == "__main__":
    main()
