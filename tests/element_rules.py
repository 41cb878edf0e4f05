#!/usr/bin/env python3
"""An independent reading of the element rules, to compare the program `outline` with.

The rules, in the words that this file follows:

* An element is a tag byte, a length and that many content bytes. The length is
  one byte 00 to 7F that is itself the number; or 81 and one byte, for 128 to
  255; or 82 and two bytes, high one first, for 256 to 65,535.
* A tag with bit 20 says that the contents are again elements, back to back
  (none is fine), one level deeper. The outermost element is at level 1, the
  deepest may be at level 32. Contents of other tags are not looked into.
* An element is judged against the end of what encloses it, byte by byte; the
  first of these that applies is its cause:
      6  its level is above 32
      1  there is no tag byte
      2  the low five bits of the tag are all ones
      1  there is no length byte
      3  the length byte is 80
      4  the length byte is 83 or above
      1  after 81 or 82 a length byte is missing
      5  a shorter form could say the same length
      1  the contents pass the enclosing end
* The fault of a file is that of the first element, by the offset of its tag,
  that has a cause; its place is that offset.
* A file is one element of 1 to 65,535 bytes. What is left behind the element
  is not walked: it is refused as surplus, at its first byte.

Run as a program, it prints the outline of standard input.
"""

import sys

DEEPEST = 32
LONGEST = 65_535


class Fault(Exception):
    """An element at `place` breaks the rules by `cause`."""

    def __init__(self, place, cause):
        super().__init__(place, cause)
        self.place = place
        self.cause = cause


def byte_at(data, place, limit):
    """The byte at `place`, or None where `limit` comes first."""
    return data[place] if place < limit else None


def length_field(data, start, limit):
    """The length told by the bytes from `start + 1`, and where the contents begin."""
    first = byte_at(data, start + 1, limit)
    if first is None:
        raise Fault(start, 1)
    if first <= 0x7F:
        return first, start + 2
    if first == 0x80:
        raise Fault(start, 3)
    if first >= 0x83:
        raise Fault(start, 4)
    extra = first - 0x80
    value = 0
    for step in range(extra):
        following = byte_at(data, start + 2 + step, limit)
        if following is None:
            raise Fault(start, 1)
        value = value * 256 + following
    smallest = {1: 128, 2: 256}[extra]
    if value < smallest:
        raise Fault(start, 5)
    return value, start + 2 + extra


def elements(data):
    """The elements of the file's first element, in reading order, and its end.

    Raises the first fault. Works with a list of enclosing ends, so that no
    recursion limit of Python can stand in for a rule.
    """
    found = []
    ends = [len(data)]
    at = 0
    while True:
        level = len(ends)
        if level > DEEPEST:
            raise Fault(at, 6)
        tag = byte_at(data, at, ends[-1])
        if tag is None:
            raise Fault(at, 1)
        if tag % 32 == 31:
            raise Fault(at, 2)
        size, body = length_field(data, at, ends[-1])
        end = body + size
        if end > ends[-1]:
            raise Fault(at, 1)
        found.append((at, level, tag, body - at, size))
        if (tag // 32) % 2 == 1:
            ends.append(end)
            at = body
        else:
            at = end
        while len(ends) > 1 and at == ends[-1]:
            ends.pop()
        if len(ends) == 1:
            return found, at


def describe(element):
    """One line of the outline."""
    offset, level, tag, header, contents = element
    indent = " " * (2 * (level - 1))
    return f"{indent}{offset}: level {level} tag {tag:02X} header {header} contents {contents}"


def outline(data):
    """The whole text that the program prints for these bytes."""
    if not 1 <= len(data) <= LONGEST:
        return "refused 1 place 0 cause 0\n"
    try:
        found, end = elements(data)
    except Fault as fault:
        return f"refused 2 place {fault.place} cause {fault.cause}\n"
    if end < len(data):
        return f"refused 3 place {end} cause 0\n"
    return "".join(describe(element) + "\n" for element in found)


def verdict(data):
    """The first line of the outline."""
    return outline(data).split("\n", 1)[0]


def check_samples():
    """The rules' own samples."""
    samples = [
        ("30 81 7F", "refused 2 place 0 cause 5"),
        ("30 80", "refused 2 place 0 cause 3"),
        ("30 83", "refused 2 place 0 cause 4"),
        ("1F 01 00", "refused 2 place 0 cause 2"),
        ("30 04 02 05 00 00", "refused 2 place 2 cause 1"),
        ("", "refused 1 place 0 cause 0"),
        ("02", "refused 2 place 0 cause 1"),
        ("02 81", "refused 2 place 0 cause 1"),
        ("02 82 01", "refused 2 place 0 cause 1"),
        ("02 82 00 FF", "refused 2 place 0 cause 5"),
        ("30 00", "0: level 1 tag 30 header 2 contents 0"),
        ("30 00 05 00", "refused 3 place 2 cause 0"),
        ("30 02 05 00", "0: level 1 tag 30 header 2 contents 2"),
        ("30 02 1F 00", "refused 2 place 2 cause 2"),
        ("30 03 05 00 05", "refused 2 place 4 cause 1"),
    ]
    for text, expected in samples:
        got = verdict(bytes.fromhex(text))
        assert got == expected, (text, got, expected)


check_samples()

if __name__ == "__main__":
    sys.stdout.write(outline(sys.stdin.buffer.read()))
