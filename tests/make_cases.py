#!/usr/bin/env python3
"""Writes the cases that the program `message_cases` runs, and what it must print of them.

    make_cases.py

Each line of crates/message_cases/stdin is a name, a file in hexadecimal digits
(`+N` behind them stands for N zero bytes) and the line that must be told of the
file, which is that of the independent reading message_rules.py and not of a
program of the repository. The cases: the real files of tests/files, the
hand-made ones of make_files.py but for a few that are very long, and files at
the greatest length.
"""

import pathlib

import make_files
import message_rules

HERE = pathlib.Path(__file__).resolve().parent
CRATE = HERE.parent / "crates" / "message_cases"
# Longer ones are the same but for their contents, and are run by fuzz_plan_form.py.
MODERATE = 10_000


def cases():
    """Every case: a name, a file's front, and how many zero bytes follow it."""
    for path in sorted((HERE / "files").iterdir()):
        yield path.name, path.read_bytes(), 0
    for name, data in make_files.files().items():
        if len(data) <= MODERATE:
            yield name, data, 0
    whole = make_files.message()
    for length in (65_535, 65_536, 70_000):
        yield f"zeros-{length}", b"", length
        yield f"message-then-zeros-{length}", whole, length - len(whole)


def main():
    given, printed = [], []
    for name, front, zeros in cases():
        expected = message_rules.line(front + bytes(zeros))
        tail = f"+{zeros}" if zeros or not front else ""
        given.append(f"{name} {front.hex()}{tail} {expected}\n")
        printed.append(f"{name}: as expected\n")
    printed.append(f"{len(given)} cases, {len(given)} as expected\n")
    (CRATE / "stdin").write_text("".join(given))
    (CRATE / "stdout").write_text("".join(printed))
    print(f"{len(given)} cases")


if __name__ == "__main__":
    main()
