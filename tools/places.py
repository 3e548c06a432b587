#!/usr/bin/env python3
"""Lists the places that docs/DESIGN-PASS.md counts, by pattern: usage: places.py [FOLDER], a checkout (else this one).

For each point a line 'point N: COUNT', and below it each place with its file and line. A place is only a candidate:
whether it is changed or kept is for a reader, and stands on that page."""

import collections
import pathlib
import re
import sys

ROOT = pathlib.Path(sys.argv[1] if len(sys.argv) > 1 else pathlib.Path(__file__).resolve().parent.parent)
SOURCES = sorted(ROOT.glob("crates/*/src/*.rt"))

# What a line of code shows of a point.
PATTERNS = {
    "1": [
        ("a kind as a number", r"\bkind: u64\b|const \w+: u64 = Kind::"),
        ("numbers of cases", r"fn (number|of)\((self|number: u64)\)|fn number_of\(|-> \(u64, u64\) \{"),
        ("an enum with one case that holds what was wanted", r"enum (Outcome|Answer|Said)\b"),
        ("a flag beside a value", r"^\s+(pub(\(crate\))? )?\w+: bool,$"),
        ("an error handed on by hand", r"=> return Err\(|Ok\((?P<same>\w+)\) => Ok\((?P=same)\)|None => Err\(|"
         r"unreachable!?\(\)"),
    ],
    "3": [("a loop over numbers", r"\bfor \w+ in (?!0\.\.u64::MAX)[^{]*\.\.|\bwhile\b|\bloop\b")],
    "4": [
        ("a trait by hand", r"impl (PartialEq|Eq|PartialOrd|Ord|Clone|Hash|Default|fmt::Debug|(Try)?From<.*>) for"),
        ("a conversion by hand", r"fn (number|of|new|limbs)\((self|number: u64|limbs: \[u64; 4\]|a: u64, .*)\)"),
        ("text for a case by hand", r"fn (name_of|most_of|why|unread|too_long)\("),
        ("a struct copied field by field", r"let Member \{$"),
        ("a test of a case by hand", r"Some\(_\) => true|if let Some\(_\) =|\*number = 0"),
    ],
    "6": [
        ("a slice with a count beside it", r"count: u64[,)]|let mut (bytes|buffer|out|tight) = \["),
        ("where a part begins and ends", r"\(usize, usize\)|start: usize, end: usize|^\s+start: usize,$"),
    ],
    "7": [("a switch on a step, or a table of functions", r"if self\.(member\.)?step == 0|: fn\(|Box<dyn|&dyn ")],
}


def code(text):
    """The text without its comments, line by line."""
    return [line.split("//")[0] for line in text.split("\n")]


def by_line():
    for point, kinds in PATTERNS.items():
        for kind, pattern in kinds:
            for path in SOURCES:
                for number, line in enumerate(code(path.read_text()), 1):
                    if re.search(pattern, line):
                        yield point, f"{kind}: {path.relative_to(ROOT)}:{number}: {line.strip()}"


def refused():
    """A None or an Err that is turned into another error by hand."""
    for path in SOURCES:
        text = "\n".join(code(path.read_text()))
        handed = r"let (?:Some|Ok)\([^=]*\) = ([^;]*?) else \{\s*return (Err\([^;]*|None|Answer::Refused\([^;]*);"
        for found in re.finditer(handed, text):
            number = text.count("\n", 0, found.start()) + 1
            yield "1", f"another error by hand: {path.relative_to(ROOT)}:{number}: {found[1].strip()[:60]}"


def named_alike():
    """Functions of one name in two places: a method and a function, or two crates."""
    names = collections.defaultdict(list)
    for path in SOURCES:
        for found in re.finditer(r"\bfn (\w+)", "\n".join(code(path.read_text()))):
            names[found[1]].append(str(path.relative_to(ROOT)))
    for name, places in sorted(names.items()):
        if len(places) > 1 and name not in ("main", "new", "fmt", "run", "eq", "from"):
            yield "2", f"the name {name}: {'; '.join(places)}"


def twins():
    """Functions whose bodies are the same but for names and numbers: crate by crate, and across crates."""
    shapes = collections.defaultdict(list)
    for path in SOURCES:
        lines = code(path.read_text())
        text = "\n".join(lines)
        for found in re.finditer(r"^( *)(?:pub(?:\(crate\))? )?fn (\w+)", text, re.M):
            start = text.find("\n" + found[1] + "{\n", found.start())
            inline = re.search(r"\) (?:-> [^{\n]+ )?\{\n", text[found.start():])
            if inline and (start < 0 or found.start() + inline.end() < start):
                start = found.start() + inline.end() - 3
            end = text.find("\n" + found[1] + "}", start)
            body = text[start:end]
            shape = re.sub(r"\b(?!let|else|return|for|in|if|match|mut|Some|None|Ok|Err|self)[A-Za-z_]\w*\b", "x", body)
            shape = re.sub(r"\b\d\w*\b", "0", re.sub(r"\s+", " ", shape))
            if len(shape) > 30:
                shapes[shape].append(f"{path.relative_to(ROOT)} {found[2]}")
    for places in shapes.values():
        if len(places) > 1:
            yield "2", "the same but for names: " + "; ".join(places)


def repeated():
    """Clauses that stand three times or more in a crate, and parameters that travel together."""
    clauses, groups = collections.defaultdict(list), collections.defaultdict(list)
    for path in SOURCES:
        text = "\n".join(code(path.read_text()))
        crate = path.relative_to(ROOT).parts[1]
        for clause in re.finditer(r"(requires)\s+(?:\w+ )?\{ (.*?) \}\n", text, re.S):
            fact = re.sub(r"\.(now|old|new)\b", "", re.sub(r"\s+", " ", clause[2]))
            clauses[crate, fact].append(path.name)
        for found in re.finditer(r"\bfn (\w+)(?:<[^>(]*>)?\(([^)]*)\)", text):
            names = [part.split(":")[0].strip() for part in found[2].split(",") if ":" in part]
            for one, other in zip(names, names[1:]):
                groups[crate, one, other].append(found[1])
    for (crate, fact), places in sorted(clauses.items()):
        if len(places) >= 3:
            yield "5", f"{crate}: {len(places)} functions ask {{ {fact} }}"
    for (crate, one, other), places in sorted(groups.items()):
        if len(places) >= 3:
            yield "5", f"{crate}: {one} and {other} are parameters of {', '.join(places)}"


def answers():
    for path in sorted(ROOT.glob("crates/*/proofs/**/Answers.antt")):
        goals = re.findall(r"^(?:pub |abbrev pub )?([\w'-]+) :", path.read_text(), re.M)
        yield "8", f"{len(goals)} answers: {path.relative_to(ROOT)}"


def main():
    places = collections.defaultdict(list)
    for point, place in [*by_line(), *refused(), *named_alike(), *twins(), *repeated(), *answers()]:
        places[point].append(place)
    for point in sorted(places):
        print(f"point {point}: {len(places[point])}")
        for place in places[point]:
            print(f"    {place}")


main()
