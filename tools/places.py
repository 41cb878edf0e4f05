#!/usr/bin/env python3
"""Counts the places where the code keeps a form that today's Rattle has a plainer one for: usage: tools/places.py [FOLDER] [-v]
FOLDER has crates/ (else the repository's own). It goes by text, so it lists what may be such a place; docs/DESIGN-PASS.md says what each is.
With -v each place is printed."""

import collections
import glob
import os
import re
import sys

PATTERNS = {
    "1 results by hand": [
        ("a Result in a Result", r"Result<Result<"),
        ("an error passed on or wrapped by hand", r"\bErr\(\w*\) => (return )?(Err\(|None\b|false\b)"),
        ("an Option passed on by hand", r"^\s*None => (return )?(None\b|Err\()|^\s*Some\((\w+)\) => Some\(\3\)"),
        ("an early return of None", r"return None;"),
        ("a flag that chooses a kind", r"^\s*(pub )?(sha3|there): bool|\bthere: bool\b"),
    ],
    "3 loops": [
        ("while over an offset or a length", r"\bwhile .*[<>]"),
        ("a counted for", r"\bfor \w+ in 0\.\."),
        ("a counter", r"\+= 1;"),
    ],
    "4 by hand": [
        ("a number for a case", r"^\s*[\w:|()_. ]+ => \d+,$"),
        ("bytes compared by a function of one's own", r"\bsame\("),
        ("a digit made of a number", r"b'[0aA]' \+"),
        ("a piece of text chosen by hand", r"f\.write_str\("),
        ("a wrapper made to be printed", r"^\s*(pub(\(crate\))? )?struct \w+\((pub )?(Reading|Refusal|Form|bool|u8)\)|struct \w+\(pub u8\)"),
        ("bytes of a number one by one", r"from_[bl]e_bytes\(\[$|from_[bl]e_bytes\(\[block"),
    ],
    "6 buffers": [
        ("an array with a count beside", r"^\s*(pub(\(crate\))? )?(bytes|buffer): \[u8; \d+\],"),
        ("a buffer and its length", r"\bn: usize\b"),
        ("numbered fields", r"^\s*pub (w0|x0|y0|a): (u32|u64|Plane),"),
    ],
    "7 switches": [
        ("a match on a kind, a form or a setting", r"\bmatch (kind|form|wanted|list|self\.kind|self\.0|version)\b"),
    ],
}


def sources(folder):
    for path in sorted(glob.glob(os.path.join(folder, "crates/*/src/**/*.rt"), recursive=True)):
        with open(path) as file:
            yield os.path.relpath(path, folder), [re.sub(r"//.*", "", line) for line in file.read().split("\n")]


def matches(folder):
    found = collections.defaultdict(list)
    for path, lines in sources(folder):
        for number, line in enumerate(lines, 1):
            for point, patterns in PATTERNS.items():
                for name, pattern in patterns:
                    if re.search(pattern, line):
                        found[point, name].append(f"{path}:{number}: {line.strip()}")
    return found


def functions(folder):
    """Each function's place, and the shape of its body: names and numbers left out."""
    for path, lines in sources(folder):
        start = None
        for number, line in enumerate(lines):
            head = re.match(r"\s*(pub(\(\w+\))? )?fn (\w+)", line)
            if head:
                start, name, body, inside = number + 1, head[3], [], False
            elif start and re.match(r"\s*\{\s*$", line):
                inside, indent = True, len(line) - len(line.lstrip())
            elif start and inside:
                if line.strip() == "}" and len(line) - len(line.lstrip()) <= indent:
                    yield f"{path}:{start}: {name}", shape(body)
                    start = None
                else:
                    body.append(line)


def shape(body):
    text = " ".join(" ".join(body).split())
    return re.sub(r"\b(0x)?\w+\b", "_", text)


def twins(folder):
    groups = collections.defaultdict(list)
    for place, form in functions(folder):
        if len(form) >= 40:
            groups[form].append(place)
    return [group for group in groups.values() if len(group) > 1]


def readers(folder):
    """A reader of a field, or of all the bytes, written out field by field."""
    found = []
    for path, lines in sources(folder):
        text = "\n".join(lines)
        for match in re.finditer(r"Reader \{\s*bytes[^}]*\}", text):
            found.append(f"{path}:{text[:match.start()].count(chr(10)) + 1}: {' '.join(match[0].split())}")
    return found


def repeated(folder):
    """A fact that stands in the clauses of three functions or more, names of variables left out."""
    groups = collections.defaultdict(set)
    for path, lines in sources(folder):
        name = ""
        for number, line in enumerate(lines, 1):
            head = re.match(r"\s*(pub(\(\w+\))? )?fn (\w+)", line)
            name = head[3] if head else name
            for clause in re.findall(r"(?:requires|ensures)[^{]*\{(.*)", line):
                for fact in re.split(r" × | → ", clause.rstrip(" }")):
                    fact = re.sub(r"\b(self|result|reader|inside|file|buffer|area|signers?|signed|unsigned|attributes|before|message|lists?)\b", "_", fact.strip(" ()"))
                    if len(fact) > 24:
                        groups[fact].add(f"{path}: {name}")
    return {fact: places for fact, places in groups.items() if len(places) >= 3}


def main():
    words = [word for word in sys.argv[1:] if word != "-v"]
    folder = words[0] if words else os.path.join(os.path.dirname(__file__), "..")
    verbose = "-v" in sys.argv
    found = matches(folder)
    rows = [(point, name, found[point, name]) for point in PATTERNS for name, _ in PATTERNS[point]]
    rows.append(("2 twins", "functions of one shape", [", ".join(group) for group in twins(folder)]))
    rows.append(("2 twins", "a reader written out", readers(folder)))
    rows.append(("5 facts", "a fact in three contracts or more", [f"{len(p)} times: {f}" for f, p in repeated(folder).items()]))
    for point, name, places in sorted(rows):
        print(f"{point:20} {name:45} {len(places):4}")
        for place in places if verbose else []:
            print(f"    {place}")


if __name__ == "__main__":
    main()
