#!/usr/bin/env python3
"""Brings the repository's own definitions and lemmas to the library's spelling, once, after port.py.

usage: tools/respell.py [--check]      at the top of the repository

A name that specs/ declares is written in snake case: `listsIn` is lists_in, `late-tasks` is late_tasks. A dash stays where it
joins two names of definitions, as in `take-pad`. Types, facts and modules keep their capitals; Rust's own names, strings,
inputs and outputs are not touched. Two names that would fall together stand in APART.
"""

import os
import re
import sys

# Names that would fall together with another, and what they are called.
APART = {
    "asked_by": "asked_by_lem",
    "blank-rule": "blank_rule_lem",
    "blank-task": "blank_task_lem",
    "call-words": "call_words_lem",
    "entry-by": "entry_by_lem",
    "is_digit": "is_digit_lem",
    "is-left": "is_left_lem",
    "late-lines": "late_lines_lem",
    "left-by-rank": "left_by_rank_lem",
    "one-order": "one_order_lem",
    "response-at": "response_at_lem",
    "responses-in": "responses_in_lem",
    "window-from": "window_from_lem",
}
# Names of the library's that a lemma's name may join, by a dash.
LIBRARY = set(
    "zero suc le lt add mul sub div append length take drop map set get_or not and or true false some none replicate max".split()
)
DECLARED = re.compile(r"^\s*(?:(?:pub|abbrev|unfoldable)\s+)*([^\s:(){};,.]+)\s*(?:\{[^}]*\}\s*)*:\s", re.M)
DEFINED = re.compile(r"^\s*(?:pub )?(?:abbrev|unfoldable) (?:pub )?([^\s:(){};,.]+)\s*(?:\{[^}]*\}\s*)*:\s", re.M)
WORD = re.compile(r'[^\s(){}.;,@"«»`⌜⌝|]+')


def files(ends, root="crates"):
    for folder, dirs, names in os.walk(root):
        dirs[:] = sorted(d for d in dirs if d not in ("out", "target", ".git"))
        for name in sorted(names):
            if name.endswith(ends):
                yield os.path.join(folder, name)


def read(path):
    with open(path, encoding="utf-8") as f:
        return f.read()


def snake(name):
    return re.sub(r"(?<=[a-z0-9])[A-Z](?![A-Z])", lambda m: "_" + m[0].lower(), name)


def table():
    declared, plain = set(), set(LIBRARY)
    for path in files(".antt"):
        if "/specs/" in path:
            declared |= set(DECLARED.findall(read(path)))
            plain |= set(DEFINED.findall(read(path)))
    rows = {}
    for name in sorted(declared):
        if not name[0].islower():
            continue
        parts = name.split("-")
        if len(parts) == 2 and all(p in plain for p in parts):
            new = "-".join(snake(p) for p in parts)
        else:
            new = "_".join(snake(p) for p in parts)
        new = APART.get(name, new)
        if new != name:
            rows[name] = new
    return declared, rows


def main():
    declared, rows = table()
    met = {}
    for name in declared:
        met.setdefault(rows.get(name, name), []).append(name)
    clash = {k: v for k, v in met.items() if len(v) > 1}
    for new, olds in sorted(clash.items()):
        print("fall together:", new, olds)
    if "--check" in sys.argv[1:]:
        for name in sorted(rows):
            print(name, rows[name])
        return 0
    if clash:
        return 1
    texts = list(files((".antt", ".rt", ".edit")))
    texts += [os.path.join(d, f) for d in ("docs", "docs/changes") if os.path.isdir(d) for f in sorted(os.listdir(d)) if f.endswith(".md")]
    if os.path.exists("README.md"):
        texts.append("README.md")
    for path in texts:
        old = read(path)
        new = WORD.sub(lambda m: rows.get(m[0], m[0]), old)
        if new != old:
            with open(path, "w", encoding="utf-8") as f:
                f.write(new)
    print(len(rows), "names")
    return 0


if __name__ == "__main__":
    raise SystemExit(main())
