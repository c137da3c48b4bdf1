"""Changes the table of the tokenizer's states one entry at a time, and lists the changes that no random text shows: each entry left out,
each of its acts left out, and where it goes on changed. Run outside the gate: mutate.py COUNT"""
import pathlib
import sys

sys.path.insert(0, str(pathlib.Path(__file__).resolve().parents[2] / "standard"))
import machine  # noqa: E402
import random_texts  # noqa: E402


def read(case):
    """The tokens and the entries that were taken; ("endless",) where a change makes the machine go round."""
    m = machine.Machine(**case)
    while not m.done:
        if m.steps > 20 * len(case["text"]) + 50:
            return ("endless",), m.taken
        m.step()
    return machine.joined(m.tokens), m.taken


def shows(case, right):
    try:
        return read(case)[0] != right
    except Exception:
        return True


def changes_of(entries, k):
    """What is changed in an entry, and the entries then."""
    e, before, behind = entries[k], entries[:k], entries[k + 1 :]
    if behind:
        yield "left out", before + behind
    for j, a in enumerate(e.do):
        yield f"without {a}", [*before, e._replace(do=e.do[:j] + e.do[j + 1 :]), *behind]
    if e.then[0] in ("switch", "reconsume"):
        other = "reconsume" if e.then[0] == "switch" else "switch"
        yield f"{other} in place of {e.then[0]}", [*before, e._replace(then=(other, e.then[1])), *behind]
        yield "stays", [*before, e._replace(then=("stay",)), *behind]


def main():
    count = int(sys.argv[1])
    cases = random_texts.mixed(count, 5) + random_texts.walks(count, 7)
    right, by_entry = [], {}
    for i, c in enumerate(cases):
        tokens, taken = read(c)
        right.append(tokens)
        for entry in taken:
            by_entry.setdefault(entry, []).append(i)
    tried, hidden = 0, []
    for name, entries in list(machine.STATES.items()):
        for k in range(len(entries)):
            for what, changed in changes_of(entries, k):
                tried += 1
                machine.STATES[name] = changed
                if not any(shows(cases[i], right[i]) for i in by_entry.get((name, k), [])):
                    hidden.append((name, k, what))
                machine.STATES[name] = entries
    print(f"changes: {tried}, not shown by a text: {len(hidden)}")
    for change in hidden:
        print("  ", *change)


if __name__ == "__main__":
    main()
