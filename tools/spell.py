#!/usr/bin/env python3
"""Spells the repository's own definitions and lemmas as today's Rattle does: words in snake case, types in camel case.

usage: python3 tools/spell.py        at the top of the repository, once, after the kit's upgrade script

tools/names.txt has a line 'old new' for each name. Names are turned in crates/*/specs, crates/*/proofs, crates/*/src
(where only clauses, ghost items and comments have them), and in docs/ and README.md between backticks. Strings stay.
Each crate's root file gets the line #![tactic(auto)] above its first item. Once, since proofs that were mended after it
cite names that the check makes, and a few of those (c.own-vote, c.memory-size) have an old name's letters.
"""

import os
import re

HERE = os.path.dirname(os.path.realpath(__file__))
TOKEN = re.compile(r"[^\s(){}\[\].,;:«»⌜⌝|`\"]+")
STRING = re.compile(r'"(?:\\.|[^"\\\n])*"')


def names():
    with open(os.path.join(HERE, "names.txt"), encoding="utf-8") as f:
        return dict(line.split() for line in f if line.strip())


def turned(text, table):
    return TOKEN.sub(lambda m: table.get(m[0], m[0]), text)


def outside_strings(text, table):
    out, at = [], 0
    for m in STRING.finditer(text):
        out += [turned(text[at : m.start()], table), m[0]]
        at = m.end()
    return "".join(out) + turned(text[at:], table)


def in_backticks(text, table):
    # a promise is named in running text too, and its name has a capital
    capitals = {old: new for old, new in table.items() if old[0].isupper()}
    parts = re.split(r"(```.*?```|`[^`\n]*`)", text, flags=re.S)
    return "".join(turned(p, table if k % 2 else capitals) for k, p in enumerate(parts))


def with_tactic(text):
    if "#![tactic(" in text:
        return text
    lines = text.split("\n")
    at = next((k for k, l in enumerate(lines) if not l.startswith("//")), len(lines))
    return "\n".join(lines[:at] + ["#![tactic(auto)]", ""] + lines[at:])


def files(top):
    for folder, dirs, found in os.walk(top):
        dirs[:] = sorted(d for d in dirs if d not in ("out", ".git"))
        for name in sorted(found):
            yield os.path.join(folder, name)


def rewrite(path, turn):
    with open(path, encoding="utf-8") as f:
        old = f.read()
    new = turn(old)
    if new != old:
        with open(path, "w", encoding="utf-8") as f:
            f.write(new)


def main():
    table = names()
    for path in files("crates"):
        if path.endswith(".antt"):
            rewrite(path, lambda t: turned(t, table))
        elif path.endswith(".rt"):
            rewrite(path, lambda t: outside_strings(t, table))
            if path.endswith(("/src/lib.rt", "/src/main.rt")):
                rewrite(path, with_tactic)
    for path in ["README.md", *files("docs")]:
        if path.endswith(".md"):
            rewrite(path, lambda t: in_backticks(t, table))


if __name__ == "__main__":
    main()
