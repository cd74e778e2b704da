#!/usr/bin/env python3
"""Brings the repository's own definitions and lemmas to the spelling of today's Rattle: words in snake case, types and facts in camel case.

usage: tools/respell.py        at the top, once, right behind the kit's port.py

A name is taken from where it is defined, in specs/ and proofs/ of each crate, and turned wherever it stands as a whole word in .antt files, in
.rt files, in must-fail edits, and between backticks in pages. Comments, strings and names that the check makes (goals, invariants, steps) stay. It stops, and writes
nothing, where two names would fall together."""

import glob
import re
import sys

DEFINED = re.compile(r"^\s*(?:(?:abbrev|opaque|unfoldable|pub|record|data)\s+)*([^\s:(){},.=|λ]+)(?:\s+\([^=]*?\))*\s*:(?:\s|$)")
MADE = re.compile(r"^(returns|loop|invariant|decreases|overflow|bounds|slice_bounds|prove|invariant_of)-|-requires(-|$)")
WORD = re.compile(r"[^\s(){}\[\];,.:=|`\"]+")
# A dash joins two names in a lemma on them, as in `length-drop`. A fact that would have a variant's name begins with `Is`.
OTHERS = {
    "drop-nil": "drop-nil",
    "take-nil": "take-nil",
    "map-map": "map-map",
    "take-concat": "take-concat",
    "length-concat": "length-concat",
    "getD-records": "get_or-records",
    "One-row": "IsOneRow",
    "Row-for-row": "IsRowForRow",
}
# Variables in proofs and specs that have a dash.
VARIABLES = "answer-is inner-fetch inner-skip made-is n-is new-bytes new-empty no-skip not-row now-awaited one-child one-kid rest-counted rest-is rule-is true-kids All-fields All-fit".split()


def text(path):
    with open(path, encoding="utf-8") as f:
        return f.read()


def spelled(name):
    if name in OTHERS:
        return OTHERS[name]
    if name[0].isupper():
        return "".join(part[0].upper() + part[1:] for part in name.split("-"))
    return name.replace("-", "_")


def code_spans(path, whole):
    """The parts of a file that are neither comment nor string."""
    if path.endswith(".md"):
        return [m.span(1) for m in re.finditer(r"`([^`\n]+)`", whole)]
    if path.endswith(".antt"):
        skipped = re.compile(r"--(?=\s|$).*|\"(?:\\.|[^\"\\])*\"")
    else:
        skipped = re.compile(r"//.*|\"(?:\\.|[^\"\\])*\"")
    spans, at = [], 0
    for m in skipped.finditer(whole):
        spans.append((at, m.start()))
        at = m.end()
    return spans + [(at, len(whole))]


def by_port(word, path, names):
    """What port.py made of a name of ours: in edits and pages, which it does not turn."""
    outside = path.endswith((".edit", ".md"))
    return spelled(word) if outside and "-" in word and spelled(word) in names else word


def main():
    antt = sorted(glob.glob("crates/*/specs/*.antt") + glob.glob("crates/*/proofs/**/*.antt", recursive=True))
    rt = sorted(glob.glob("crates/*/src/**/*.rt", recursive=True))
    edits = sorted(glob.glob("crates/*/must-fail/*.edit"))
    pages = sorted(glob.glob("docs/*.md") + ["README.md"])
    names, words = set(), set()
    for path in antt + rt:
        whole = text(path)
        for a, b in code_spans(path, whole):
            words.update(WORD.findall(whole[a:b]))
        if path in antt:
            for line in whole.split("\n"):
                m = DEFINED.match(line)
                if m and not MADE.search(m[1]):
                    names.add(m[1])
    turned = {n: spelled(n) for n in [*names, *VARIABLES] if spelled(n) != n}
    bad = False
    for n, new in sorted(turned.items()):
        others = [o for o in turned if o != n and turned[o] == new]
        if new in names or others:
            print(f"{n} and {(others or [new])[0]} fall together")
            bad = True
        elif new in words:
            print(f"look: {n} becomes {new}, a word that stands already")
    if bad and "--anyway" not in sys.argv:
        return 1
    if "--dry" in sys.argv:
        return 0
    for path in antt + rt + edits + pages:
        whole = text(path)
        out, at = [], 0
        for a, b in code_spans(path, whole):
            out.append(whole[at:a])
            out.append(WORD.sub(lambda m: turned.get(m[0], by_port(m[0], path, names)), whole[a:b]))
            at = b
        out.append(whole[at:])
        new = "".join(out)
        if new != whole:
            with open(path, "w", encoding="utf-8") as f:
                f.write(new)
    print(f"{len(turned)} names turned")
    return 0


if __name__ == "__main__":
    sys.exit(main())
