#!/usr/bin/env python3
"""Compares an outline with `openssl asn1parse`.

    compare_openssl.py FILE OUTLINE

FILE is one element in DER, OUTLINE what the program printed for it. Offsets,
depths, header lengths and content lengths must agree, line by line.
"""

import re
import subprocess
import sys

OURS = re.compile(r"^ *(\d+): level (\d+) tag [0-9A-F]{2} header (\d+) contents (\d+)$")
THEIRS = re.compile(r"^ *(\d+):d=(\d+) +hl=(\d+) +l= *(\d+) +(?:prim|cons):")


def read(pattern, text, strict):
    """The numbers of each line. openssl prints text contents as they are, over
    several lines: only there may a line be passed over."""
    rows = []
    for line in text.splitlines():
        match = pattern.match(line)
        if match:
            rows.append(tuple(map(int, match.groups())))
        elif strict:
            sys.exit(f"not understood: {line!r}")
    return rows


def main():
    path, outline = sys.argv[1:]
    parsed = subprocess.run(["openssl", "asn1parse", "-inform", "DER", "-in", path], capture_output=True, text=True, check=True)
    theirs = [(offset, depth + 1, header, contents) for offset, depth, header, contents in read(THEIRS, parsed.stdout, strict=False)]
    with open(outline, encoding="ascii") as file:
        ours = read(OURS, file.read(), strict=True)
    for number, (mine, other) in enumerate(zip(ours, theirs), 1):
        if mine != other:
            sys.exit(f"line {number}: {mine} here, {other} there")
    if len(ours) != len(theirs):
        sys.exit(f"{len(ours)} lines here, {len(theirs)} there")
    print(f"{len(ours)} lines agree")


if __name__ == "__main__":
    main()
