#!/usr/bin/env python3
"""Brings this repository's own definitions and lemmas to one spelling: words in snake case, facts in camel case.

usage: tools/respell.py [--list]     at the top of the repository; --list prints the names and changes nothing

Run once, after the kit's own script. It renames what the files of specs/ and proofs/ define, wherever ghost text
cites it. Functions and fields of src/, strings, answers to goals and the names that the checker makes stay.
"""

import os
import re
import sys

# A name of antt: letters, digits and marks; a dot, a bracket, a brace or a comma ends it.
NAME = r"[^\s.(){}\[\];,:\"«»⌜⌝λ@]+"
HEAD = re.compile(r"^\s*(?:(?:pub|abbrev|unfoldable|data|record|ruleset)\s+)*(" + NAME + r")(?:\s+\([^)]*\)|\s+\{[^}]*\})*\s*:\s+(\S+)")
TOKEN = re.compile(r'"(?:[^"\\]|\\.)*"|(?<![\w\'-])([A-Za-z][\w\'-]*)')


def files(kind):
    for folder, folders, names in os.walk("crates"):
        folders[:] = sorted(f for f in folders if f not in ("out", "must-fail"))
        for name in sorted(names):
            if name.endswith(kind):
                yield os.path.join(folder, name)


def defined():
    """The names that specs/ and proofs/ define, but for the answers to goals, which the checker names."""
    found = set()
    for path in files(".antt"):
        for line in open(path, encoding="utf-8"):
            head = HEAD.match(line)
            if head and not line.lstrip().startswith(("use ", "--")) and not re.match(r"(goal|given)\.", head[2]):
                found.add(head[1])
    return found


def words(name):
    parts = [p for p in re.split(r"[-_]", name) if p]
    return [w for p in parts for w in re.findall(r"[A-Z]?[a-z0-9']+|[A-Z]+(?![a-z])", p)]


def respelt(name):
    if name[0].isupper():
        return "".join(w[0].upper() + w[1:] for w in words(name))
    return "_".join(w.lower() for w in words(name))


# The first would fall together with the word that it speaks of; the others are names that src/ gives to words.
APART = {"last-of": "last_of_lem", "viewsOf": "views_of", "allZero": "all_zero"}


def changes():
    turned = dict(APART)
    for name in sorted(defined()):
        plain = re.fullmatch(r"[A-Za-z][\w'-]*", name)
        if plain and name not in APART and (("-" in name) or (not name[0].isupper() and re.search("[A-Z]", name))):
            turned[name] = respelt(name)
    return turned


def together(turned):
    """Names that would fall together with one that stands already, or with one another."""
    stand = defined()
    clash = []
    seen = {}
    for old, new in turned.items():
        if new in stand or new in seen:
            clash.append(f"{old} and {new if new in stand else seen[new]} would both be {new}")
        seen[new] = old
    return clash


def comment(path, line):
    return line.lstrip().startswith("--" if path.endswith(".antt") else "//")


def turn(path, turned):
    out = []
    for line in open(path, encoding="utf-8").read().split("\n"):
        if comment(path, line):
            line = re.sub(r"`([^`]*)`", lambda m: "`" + turned.get(m[1], m[1]) + "`", line)
        else:
            line = TOKEN.sub(lambda m: turned.get(m[1], m[0]) if m[1] else m[0], line)
        out.append(line)
    return "\n".join(out)


def main(argv):
    turned = changes()
    clash = together(turned)
    if clash:
        print("\n".join(clash))
        return 1
    if argv == ["--list"]:
        print("\n".join(f"{old} {new}" for old, new in turned.items()))
        return 0
    if argv or not os.path.isdir("crates"):
        print(__doc__)
        return 2
    for path in list(files(".antt")) + list(files(".rt")):
        text = turn(path, turned)
        if text != open(path, encoding="utf-8").read():
            with open(path, "w", encoding="utf-8") as f:
                f.write(text)
    return 0


if __name__ == "__main__":
    raise SystemExit(main(sys.argv[1:]))
