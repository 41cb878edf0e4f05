#!/usr/bin/env python3
"""Checks every example of docs/MESSAGES.md and docs/PLAN_FORM.md against the independent reading.

An example is a table row that begins with bytes, or with the name of a
hand-made file, and ends with the line that is printed for it.
"""

import pathlib
import re
import sys

import make_files
import message_rules

DOCS = pathlib.Path(__file__).resolve().parent.parent / "docs"
ROW = re.compile(r"^\| `([^`]+)` \|.*\| `((?:refused|form) [^`]+)` \|$")


def main():
    made = make_files.files()
    checked = wrong = 0
    for name in ("MESSAGES.md", "PLAN_FORM.md"):
        for row in (DOCS / name).read_text().splitlines():
            found = ROW.match(row)
            if found:
                what, expected = found.groups()
                data = made[what] if what in made else bytes.fromhex(what)
                checked += 1
                if message_rules.line(data) != expected:
                    wrong += 1
                    print(f"{name}: {what}: {message_rules.line(data)}")
    print(f"{checked} examples, {wrong} wrong")
    sys.exit(1 if wrong or not checked else 0)


if __name__ == "__main__":
    main()
