#!/usr/bin/env python3
"""Compares the program `outline` with the independent reading, on many files.

    fuzz_outline.py PROGRAM [ROUNDS [SEED]]

First every file of tests/files as it is and a fixed set of edge cases, then
ROUNDS mutated ones. The whole output and the exit status are compared. Prints
how many cases ran, how often each first word and cause came, and every
difference; ends with status 1 if there was one.
"""

import collections
import pathlib
import random
import sys

import element_rules
import programs

HERE = pathlib.Path(__file__).resolve().parent
# Length bytes where the rules turn.
LENGTH_BYTES = [0x00, 0x01, 0x7E, 0x7F, 0x80, 0x81, 0x82, 0x83, 0x84, 0xFE, 0xFF]
SIZES = [0, 1, 2, 126, 127, 128, 129, 254, 255, 256, 257, 65_530, 65_531, 65_532, 65_535]


def element(tag, body):
    """The element with the shortest length that says the size of `body`."""
    size = len(body)
    if size < 128:
        head = bytes([tag, size])
    elif size < 256:
        head = bytes([tag, 0x81, size])
    else:
        head = bytes([tag, 0x82, size // 256 % 256, size % 256])
    return head + body


def nested(depth, core=b"", tag=0x30):
    """`depth` constructed elements, one in another, around `core`."""
    data = core
    for _ in range(depth):
        data = element(tag, data)
    return data


def edge_cases():
    """Cases at the edges of the rules."""
    yield b""
    for first in range(256):
        yield bytes([first])
        yield bytes([first, 0])
        yield bytes([0x30, first])
        yield bytes([0x04, first]) + bytes(300)
        yield bytes([0x04, 0x81, first]) + bytes(first)
        yield bytes([0x04, 0x82, first // 128, first]) + bytes(256 * (first // 128) + first)
    for depth in range(29, 36):
        for core in (b"", b"\x05\x00", b"\x1f\x00", b"\x30\x00", b"\x30", b"\x04\x02\x00"):
            yield nested(depth, core)
            yield nested(depth, core, 0xA0)
            yield nested(depth, core) + b"\x00"
    for size in SIZES:
        body = bytes(size)
        for tag in (0x04, 0x30):
            whole = element(tag, body)
            yield whole
            yield whole[:-1]
            yield whole + b"\x30"
            yield element(0x30, whole)
        yield bytes([0x04, 0x81, size % 256]) + body
        yield bytes([0x04, 0x82, size // 256 % 256, size % 256]) + body
    for length in (65_534, 65_535, 65_536, 65_537, 70_000, 200_000):
        yield bytes(length)
        yield b"\x30\x80" + bytes(length - 2)
        yield element(0x04, bytes(length - 4))[:length]
        yield element(0x30, element(0x04, bytes(length - 8)))[:length]
        yield b"\x05\x00" * (length // 2)


def change_byte(rng, data):
    place = rng.randrange(len(data))
    return data[:place] + bytes([rng.randrange(256)]) + data[place + 1:]


def change_header(rng, data):
    """Another byte in a header, often one where the rules turn."""
    try:
        found, _ = element_rules.elements(data)
    except element_rules.Fault:
        return change_byte(rng, data)
    offset, _, _, header, _ = rng.choice(found)
    place = offset + rng.randrange(header)
    near = (data[place] + rng.choice([-1, 1])) % 256
    value = rng.choice([near, rng.choice(LENGTH_BYTES), rng.randrange(256), data[place] ^ 0x20])
    return data[:place] + bytes([value]) + data[place + 1:]


def truncate(rng, data):
    return data[:rng.randrange(len(data))]


def insert(rng, data):
    place = rng.randrange(len(data) + 1)
    more = bytes(rng.randrange(256) for _ in range(rng.randint(1, 4)))
    return data[:place] + more + data[place:]


def remove(rng, data):
    place = rng.randrange(len(data))
    return data[:place] + data[place + rng.randint(1, 4):]


def append(rng, data):
    return data + bytes(rng.randrange(256) for _ in range(rng.randint(1, 3)))


def wrap(rng, data):
    """The file, deep inside others."""
    return nested(rng.randint(1, 33), data[:60_000])


def replace_leaf(rng, data):
    """A file of one list whose elements have sizes at the edges."""
    parts = [element(rng.choice([0x04, 0x02, 0x30, 0xA0]), bytes(rng.choice(SIZES[:11]))) for _ in range(rng.randint(1, 4))]
    rng.shuffle(parts)
    return element(0x30, b"".join(parts))


def random_tree(rng, room):
    """Some valid element of at most about `room` bytes."""
    if room < 8 or rng.random() < 0.3:
        return element(rng.choice([0x02, 0x04, 0x05, 0x80]), rng.randbytes(rng.randrange(max(1, min(room, 300)))))
    parts = [random_tree(rng, room // 2) for _ in range(rng.randrange(4))]
    return element(rng.choice([0x30, 0x31, 0xA0]), b"".join(parts))


def grow_tree(rng, data):
    return random_tree(rng, 2_000)


MUTATIONS = [change_byte, change_header, change_header, change_header, truncate, insert, remove, append, wrap, replace_leaf, grow_tree]


def mutated(rng, sources):
    """One to three mutations of a real file."""
    data = rng.choice(sources)
    for _ in range(rng.choice([1, 1, 1, 2, 3])):
        if data:
            data = rng.choice(MUTATIONS)(rng, data)
    return data


def main():
    program = sys.argv[1]
    rounds = int(sys.argv[2]) if len(sys.argv) > 2 else 5_000
    seed = int(sys.argv[3]) if len(sys.argv) > 3 else 1
    rng = random.Random(seed)
    sources = [path.read_bytes() for path in sorted((HERE / "files").iterdir())]
    cases = list(sources) + list(edge_cases())
    fixed = len(cases)
    seen = collections.Counter()
    differences = 0
    for number in range(fixed + rounds):
        data = cases[number] if number < fixed else mutated(rng, sources)
        expected = element_rules.outline(data)
        words = element_rules.verdict(data).split()
        seen[" ".join([words[0], words[1], *words[4:]]) if words[0] == "refused" else "outline"] += 1
        status, out, err = programs.run(program, data)
        if (status, out, err) != (0, expected.encode(), b""):
            differences += 1
            print(f"difference at case {number}, {len(data)} bytes: {data[:40].hex()}")
            print(f"  expected {expected[:80]!r}")
            print(f"  got status {status} {out[:80]!r} {err[:80]!r}")
    for word in sorted(seen):
        print(f"{word}: {seen[word]}")
    print(f"{fixed + rounds} cases ({fixed} fixed, {rounds} mutated, seed {seed}), {differences} differences")
    sys.exit(1 if differences else 0)


if __name__ == "__main__":
    main()
