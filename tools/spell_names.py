#!/usr/bin/env python3
"""Brings the repository's own definitions and lemmas to snake case, once, after port.py.

usage: python3 tools/spell_names.py [--dry] at the top of the repository

A name is turned if a file of specs/ or proofs/ declares it and its first letter is small. Types keep
their spelling, as do functions of src/, exported names, strings, and the names of goals and invariants,
which Rattle makes. Two names that would fall together are listed in APART with what they become.
"""

import glob
import re
import sys

APART = {
    "left-form": "left_form_is",
    "right-form": "right_form_is",
    "goesOn": "going_on",
}

# names of imports and of arguments that are spelled alike
ALSO = ["aSwitches", "aSchedule", "aMatrix", "ofSwitches", "ofSchedule", "ofMatrix", "machineText", "pulldownsOff", "lineC", "lineF"]

WORD = r"[A-Za-z_][\w']*(?:-[\w']+)*"
DECLARED = re.compile(r"^\s*(?:(?:pub|abbrev|unfoldable|opaque|private)\s+)*(" + WORD + r")\s*:(?!:)\s*(.*)")
TOKEN = re.compile(r'"(?:[^"\\]|\\.)*"|--.*|' + WORD)
GHOST = re.compile(r"^\s*(?:pub )?(?:ghost|ensures|requires)\b")


def snake(name):
    name = name.replace("-", "_")
    name = re.sub(r"(?<=[a-z0-9])(?=[A-Z])", "_", name)
    return name.lower()


def antt_files():
    return sorted(p for d in ("specs", "proofs") for p in glob.glob(f"crates/*/{d}/**/*.antt", recursive=True))


def turned():
    """The old and new spelling of each name that is declared and not in snake case."""
    names, kept = {}, set()
    for path in antt_files():
        for line in open(path, encoding="utf-8"):
            m = DECLARED.match(line)
            if not m or m.group(1)[0].isupper() or re.match(r"(goal|given)\.", m.group(2)):
                continue
            name = m.group(1)
            if snake(name) != name:
                names.setdefault(name, []).append(path)
            else:
                kept.add(name)
    becomes = {n: APART.get(n, snake(n)) for n in [*names, *ALSO]}
    together = {}
    for n, new in becomes.items():
        together.setdefault(new, set()).add(n)
    for new, olds in sorted(together.items()):
        if len(olds) > 1:
            print("fall together:", new, sorted(olds))
        if new in kept:
            print("stands already:", new, sorted(olds), names.get(sorted(olds)[0], [])[:2])
    return becomes


def main():
    becomes = turned()

    def word(m, comments):
        t = m.group(0)
        if t.startswith('"'):
            return t
        if t.startswith("--"):
            return re.sub(r"\b[a-z]\w*\b", lambda w: becomes.get(w.group(0), w.group(0)), t) if comments else t
        return becomes.get(t, t)

    changed = 0
    paths = antt_files() + sorted(glob.glob("crates/*/src/**/*.rt", recursive=True))
    for path in paths:
        text = open(path, encoding="utf-8").read()
        if path.endswith(".antt"):
            new = TOKEN.sub(lambda m: word(m, True), text)
        else:
            new = "".join(
                TOKEN.sub(lambda m: word(m, False), line) if GHOST.match(line) else line
                for line in text.splitlines(keepends=True)
            )
        if new != text:
            changed += 1
            if "--dry" not in sys.argv:
                open(path, "w", encoding="utf-8").write(new)
    print(len(becomes), "names,", changed, "files")


main()
