#!/usr/bin/env python3
"""Compares the program `plan_form` with the independent reading, on many files.

    fuzz_plan_form.py PROGRAM ROUNDS [SEED]

First every file of tests/files and every hand-made one of make_files.py as it
is, then ROUNDS mutated ones: most of them changed as trees, with all lengths
mended, so that they reach the rules behind the element layer; the others as
raw bytes. Whole output, standard error and exit status are compared. Prints
how often each answer came and every difference; ends with status 1 if there
was one.
"""

import collections
import pathlib
import random
import sys

import element_rules
import make_files
import message_rules
import programs

HERE = pathlib.Path(__file__).resolve().parent
TAGS = [0x02, 0x04, 0x05, 0x06, 0x24, 0x30, 0x31, 0x80, 0xA0, 0xA1, 0xA2, 0xA3, 0xA4]
# The element tags, so that bit 20 says which hold others.
LEAF_TAGS = [tag for tag in TAGS if not tag & 0x20]
LIST_TAGS = [tag for tag in TAGS if tag & 0x20]
BYTES = [0x00, 0x01, 0x03, 0x7F, 0x80, 0x81, 0x82, 0x83, 0xFF]
TYPES = list(make_files.NAMED_TYPES.values()) + list(make_files.FREE_TYPES.values())
TYPES += [make_files.DATA, make_files.SIGNED_DATA, make_files.SHA_256]
LIST_COUNTS = [1, 2, 7, 8, 9, 10, 63, 64, 65, 66]


class Tree:
    """An element that can be changed: `inside` is bytes, or a list of trees."""

    def __init__(self, tag, inside):
        self.tag = tag
        self.inside = inside

    def copy(self):
        held = [child.copy() for child in self.inside] if self.holds() else self.inside
        return Tree(self.tag, held)

    def holds(self):
        return isinstance(self.inside, list)

    def encode(self):
        body = b"".join(child.encode() for child in self.inside) if self.holds() else self.inside
        return make_files.element(self.tag, body)

    def all(self):
        """This element and every one that it holds, at any depth."""
        yield self
        if self.holds():
            for child in self.inside:
                yield from child.all()


def parse(data):
    """The file's first element as a tree. Raises its fault."""
    found, _ = element_rules.elements(data)
    last_at = {}
    for offset, level, tag, header, size in found:
        body = offset + header
        last_at[level] = Tree(tag, [] if tag & 0x20 else data[body : body + size])
        if level > 1:
            last_at[level - 1].inside.append(last_at[level])
    return last_at[1]


def a_list(rng, root):
    """Some element that holds at least one other, the larger lists more often."""
    lists = [node for node in root.all() if node.holds() and node.inside]
    return rng.choice(lists) if lists else None


def change_tag(rng, root):
    """Another tag of the same kind, leaf or list."""
    node = rng.choice(list(root.all()))
    node.tag = rng.choice(LIST_TAGS if node.holds() else LEAF_TAGS)


def change_kind(rng, root):
    """A leaf becomes an empty list, a list a leaf with the same bytes."""
    node = rng.choice(list(root.all()))
    if node.holds():
        node.inside = b"".join(child.encode() for child in node.inside)
        node.tag = rng.choice([node.tag & ~0x20, *LEAF_TAGS])
    else:
        node.inside = []
        node.tag = rng.choice([node.tag | 0x20, *LIST_TAGS])


def delete(rng, root):
    held = a_list(rng, root)
    if held:
        held.inside.pop(rng.randrange(len(held.inside)))


def cut_short(rng, root):
    """Everything from some element of a list on is gone."""
    held = a_list(rng, root)
    if held:
        del held.inside[rng.randrange(len(held.inside)) :]


def duplicate(rng, root):
    held = a_list(rng, root)
    if held:
        place = rng.randrange(len(held.inside))
        held.inside.insert(rng.randint(0, len(held.inside)), held.inside[place].copy())


def swap(rng, root):
    held = a_list(rng, root)
    if held:
        first, second = (rng.randrange(len(held.inside)) for _ in range(2))
        held.inside[first], held.inside[second] = held.inside[second], held.inside[first]


def move(rng, root):
    """An element goes from one list into another."""
    source, target = a_list(rng, root), a_list(rng, root)
    if source:
        chosen = rng.choice(source.inside).copy()
        target.inside.insert(rng.randint(0, len(target.inside)), chosen)


def insert(rng, root):
    """A small element, an attribute of some type, or a signer comes into a list."""
    held = a_list(rng, root)
    if held:
        more = rng.choice(
            [
                make_files.element(rng.choice(TAGS)),
                make_files.attribute(rng.choice(TYPES), make_files.VALUE),
                make_files.signer(),
                make_files.identifier(rng.choice(TYPES)),
            ]
        )
        held.inside.insert(rng.randint(0, len(held.inside)), parse(more))


def repeat(rng, root):
    """A list gets as many elements as the limits care for."""
    held = a_list(rng, root)
    if held and len(root.encode()) < 4_000:
        chosen = rng.choice(held.inside)
        count = rng.choice(LIST_COUNTS)
        while len(held.inside) < count:
            held.inside.insert(rng.randint(0, len(held.inside)), chosen.copy())


def change_type(rng, root):
    """An identifier becomes one that a rule names, or one near it."""
    found = [node for node in root.all() if node.tag == 0x06]
    if found:
        rng.choice(found).inside = rng.choice(TYPES)


def change_attribute(rng, root):
    """An attribute's type becomes another one."""
    found = [node for node in root.all() if node.tag == 0x30 and node.holds() and len(node.inside) == 2]
    found = [node for node in found if node.inside[0].tag == 0x06 and node.inside[1].tag == 0x31]
    if found:
        rng.choice(found).inside[0].inside = rng.choice(TYPES)


def change_number(rng, root):
    """A version, or another small number, becomes another one."""
    found = [node for node in root.all() if node.tag == 0x02]
    if found:
        rng.choice(found).inside = rng.choice([b"", b"\x00\x01", *(bytes([number]) for number in range(7))])


def change_contents(rng, root):
    found = [node for node in root.all() if not node.holds()]
    if found:
        node = rng.choice(found)
        node.inside = rng.choice([b"", node.inside[:-1], node.inside + b"\x00", rng.randbytes(len(node.inside))])


def wrap(rng, root):
    """An element goes some levels deeper."""
    node = rng.choice(list(root.all()))
    for _ in range(rng.choice([1, 1, 2, 24, 27, 30])):
        node.inside = [node.copy()]
        node.tag = rng.choice([0x30, 0x31, 0xA0]) if not node.tag & 0x20 else node.tag


def unwrap(rng, root):
    """A list is replaced by what it holds."""
    held = a_list(rng, root)
    found = [place for place, child in enumerate(held.inside) if child.holds()] if held else []
    if found:
        place = rng.choice(found)
        held.inside[place : place + 1] = held.inside[place].inside


TREE_CHANGES = [
    change_tag, change_tag, change_kind, delete, delete, cut_short, duplicate, duplicate, swap, swap, move, insert,
    insert, repeat, repeat, repeat, change_type, change_attribute, change_attribute, change_number, change_contents, wrap, unwrap,
]  # fmt: skip


def change_byte(rng, data):
    place = rng.randrange(len(data))
    return data[:place] + bytes([rng.choice([rng.choice(BYTES), rng.randrange(256)])]) + data[place + 1 :]


def change_header(rng, data):
    """Another byte in the header of some element, if the bytes have elements."""
    try:
        found, _ = element_rules.elements(data)
    except element_rules.Fault:
        return change_byte(rng, data)
    offset, _, _, header, _ = rng.choice(found)
    place = offset + rng.randrange(header)
    value = rng.choice([data[place] ^ 0x20, (data[place] + rng.choice([-1, 1])) % 256, rng.choice(BYTES)])
    return data[:place] + bytes([value]) + data[place + 1 :]


def truncate(rng, data):
    return data[: rng.randrange(len(data))]


def insert_bytes(rng, data):
    place = rng.randrange(len(data) + 1)
    return data[:place] + rng.randbytes(rng.randint(1, 4)) + data[place:]


def remove_bytes(rng, data):
    place = rng.randrange(len(data))
    return data[:place] + data[place + rng.randint(1, 4) :]


def append_bytes(rng, data):
    return data + rng.choice([b"\x00", b"\x80", b"\x30\x00", data, rng.randbytes(3)])


BYTE_CHANGES = [change_byte, change_header, change_header, truncate, insert_bytes, remove_bytes, append_bytes]


def changed_as_tree(rng, data):
    """One to four changes of the tree; unchanged where it would become too long for an element."""
    try:
        root = parse(data)
    except element_rules.Fault:
        return data
    for _ in range(rng.choice([1, 1, 1, 2, 2, 3, 4])):
        rng.choice(TREE_CHANGES)(rng, root)
    try:
        return root.encode()
    except ValueError:
        return data


def changed_as_bytes(rng, data):
    for _ in range(rng.choice([1, 1, 2])):
        if data:
            data = rng.choice(BYTE_CHANGES)(rng, data)
    return data


def mutated(rng, sources):
    """A source changed as a tree, as bytes, or both."""
    data = rng.choice(sources)
    way = rng.random()
    if way < 0.85:
        data = changed_as_tree(rng, data)
    if way > 0.8:
        data = changed_as_bytes(rng, data)
    return data


def answer(line):
    """What a line is counted as."""
    words = line.split()
    if words[0] == "form":
        return " ".join(words[:4])
    return f"refused {words[1]}" + (f" cause {words[5]}" if words[1] == "2" else "")


def cases(rounds, seed):
    """Every case with its name: the files as they are, then the mutated ones."""
    rng = random.Random(seed)
    real = {path.name: path.read_bytes() for path in sorted((HERE / "files").iterdir())}
    made = make_files.files()
    yield from real.items()
    yield from made.items()
    # A file that read accepts meets the rules in more ways, a long one in few.
    short = [data for data in [*real.values(), *made.values()] if len(data) < 10_000]
    accepted = [data for data in short if message_rules.line(data).startswith("form")]
    for number in range(rounds):
        yield f"mutated {number}", mutated(rng, accepted if rng.random() < 0.8 else short)


def main():
    if len(sys.argv) not in (3, 4):
        sys.exit("usage: fuzz_plan_form.py PROGRAM ROUNDS [SEED]")
    program, rounds = sys.argv[1], int(sys.argv[2])
    seed = int(sys.argv[3]) if len(sys.argv) > 3 else 1
    seen = collections.Counter()
    differences = 0
    for name, data in cases(rounds, seed):
        expected = message_rules.line(data)
        seen[answer(expected)] += 1
        status, out, err = programs.run(program, data)
        if (status, out, err) != (0, expected.encode() + b"\n", b""):
            differences += 1
            print(f"difference in {name}, {len(data)} bytes: {data.hex() if len(data) < 700 else data[:40].hex() + '...'}")
            print(f"  expected {expected!r}")
            print(f"  got status {status} {out[:100]!r} {err[:100]!r}")
    for word in sorted(seen):
        print(f"{word}: {seen[word]}")
    total = sum(seen.values())
    print(f"{total} cases ({total - rounds} as they are, {rounds} mutated, seed {seed}), {differences} differences")
    sys.exit(1 if differences else 0)


if __name__ == "__main__":
    main()
