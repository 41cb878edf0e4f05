#!/usr/bin/env python3
"""An independent reading of the message rules, to compare the program `plan_form` with.

The rules, in the words that this file follows ("X with A, B" is an element
tagged X whose contents are exactly A and B; `?` may be absent, `*` is any
number, `+` at least one):

    message      30 with the identifier of signed data, and A0 with one signed data
    signed data  30 with version, 31, content info, certificates?, revocations?, signers
    version      02 01 and one of 01, 03, 04, 05
    content info 30 with 06 (the content type), and A0? with one 04 or one 24 with 04*
    certificates A0 with elements* tagged 30, A0, A1, A2 or A3
    revocations  A1 with elements* tagged 30 or A1
    signers      31 with signer+
    signer       30 with 02 01 01 and 30, or 02 01 03 and 80; then 30 that begins with 06;
                 A0 with attribute*; 30; 04; and A1? with attribute+
    attribute    30 with 06 (its type) and 31 with any element+

The answer is the first of these that applies, at its smallest place:

    1  the input is empty or longer than 65,535 bytes
    2  an element has a cause (element_rules.py)
    3  an element is not the one that is due: at it; none is left where one is
       due: at the end of the enclosing contents; one is left where none is due: at it
    4  a list has more elements than its limit: at the first one too many
    5  an attribute rule is broken: at the attribute, or at the signer that lacks one
    6  there is no such signer

Run as a program, it prints the line for standard input.
"""

import sys

import element_rules

P = bytes.fromhex("2A864886F70D0109")
Q = P + bytes.fromhex("1002")
SIGNED_DATA = bytes.fromhex("06092A864886F70D010702")

CONTENT_TYPE = P + b"\x03"
MESSAGE_DIGEST = P + b"\x04"
CERTIFICATE = Q + b"\x0C"
CERTIFICATE_V2 = Q + b"\x2F"
POLICY = Q + b"\x0F"
SIGNATURE_STAMP = Q + b"\x0E"
CERTIFICATE_REFERENCES = Q + b"\x15"
REVOCATION_REFERENCES = Q + b"\x16"
CERTIFICATE_VALUES = Q + b"\x17"
REVOCATION_VALUES = Q + b"\x18"
STAMP_19 = Q + b"\x19"
STAMP_1A = Q + b"\x1A"
ARCHIVE_STAMP = bytes.fromhex("04008D450204")

SIGNED_ONLY = [CONTENT_TYPE, MESSAGE_DIGEST, CERTIFICATE, CERTIFICATE_V2, POLICY]
UNSIGNED_ONLY = [
    SIGNATURE_STAMP,
    CERTIFICATE_REFERENCES,
    REVOCATION_REFERENCES,
    CERTIFICATE_VALUES,
    REVOCATION_VALUES,
    STAMP_19,
    STAMP_1A,
    ARCHIVE_STAMP,
]

MOST_SIGNERS = 8
MOST_IN_LIST = 64


class Refusal(Exception):
    """The file is refused with `number` at `place`, by `cause`."""

    def __init__(self, number, place=0, cause=0):
        super().__init__(number, place, cause)
        self.number = number
        self.place = place
        self.cause = cause


class Node:
    """An element of the file with those that it holds."""

    def __init__(self, data, offset, tag, header, size):
        self.place = offset
        self.tag = tag
        self.body = offset + header
        self.end = self.body + size
        self.whole = data[offset : self.end]
        self.contents = data[self.body : self.end]
        self.children = []


def tree(data):
    """The file's one element as a tree, and where it ends."""
    try:
        found, end = element_rules.elements(data)
    except element_rules.Fault as fault:
        raise Refusal(2, fault.place, fault.cause) from None
    last_at = {}
    for offset, level, tag, header, size in found:
        node = Node(data, offset, tag, header, size)
        last_at[level] = node
        if level > 1:
            last_at[level - 1].children.append(node)
    return last_at[1], end


class Fields:
    """The elements of an enclosing one, taken one by one from the front."""

    def __init__(self, node):
        self.left = list(node.children)
        self.end = node.end

    def take(self, fits):
        """The next element, which must be there and fit."""
        if not self.left:
            raise Refusal(3, self.end)
        if not fits(self.left[0]):
            raise Refusal(3, self.left[0].place)
        return self.left.pop(0)

    def take_if(self, fits):
        """The next element if there is one and it fits, else None."""
        if self.left and fits(self.left[0]):
            return self.left.pop(0)
        return None

    def finish(self):
        """Nothing may be left."""
        if self.left:
            raise Refusal(3, self.left[0].place)


def tagged(*tags):
    return lambda node: node.tag in tags


def equal_to(*wholes):
    return lambda node: node.whole in wholes


def anything(_):
    return True


class Attribute:
    """An attribute: its place, its type and its values."""

    def __init__(self, node):
        fields = Fields(node)
        self.place = node.place
        self.type = fields.take(tagged(0x06)).contents
        values = fields.take(tagged(0x31))
        Fields(values).take(anything)
        self.values = values.children
        fields.finish()


def attributes(field):
    """The attributes of a field that holds nothing else."""
    found = []
    for child in field.children:
        if child.tag != 0x30:
            raise Refusal(3, child.place)
        found.append(Attribute(child))
    return found


class Signer:
    """A signer: its place, its signed and its unsigned attributes."""

    def __init__(self, node):
        self.place = node.place
        fields = Fields(node)
        version = fields.take(equal_to(b"\x02\x01\x01", b"\x02\x01\x03"))
        fields.take(tagged({1: 0x30, 3: 0x80}[version.whole[2]]))
        algorithm = fields.take(tagged(0x30))
        Fields(algorithm).take(tagged(0x06))
        self.signed = attributes(fields.take(tagged(0xA0)))
        fields.take(tagged(0x30))
        fields.take(tagged(0x04))
        self.unsigned = []
        field = fields.take_if(tagged(0xA1))
        if field is not None:
            Fields(field).take(anything)
            self.unsigned = attributes(field)
        fields.finish()


def each(field, *tags):
    """The elements of a field, each with one of the tags; none if there is no field."""
    if field is None:
        return []
    for child in field.children:
        if child.tag not in tags:
            raise Refusal(3, child.place)
    return field.children


def content_type_of(info):
    """The content type element of a content info, whose content is judged too."""
    fields = Fields(info)
    content_type = fields.take(tagged(0x06))
    explicit = fields.take_if(tagged(0xA0))
    if explicit is not None:
        inside = Fields(explicit)
        content = inside.take(tagged(0x04, 0x24))
        if content.tag == 0x24:
            each(content, 0x04)
        inside.finish()
    fields.finish()
    return content_type


class Message:
    """A signed message: content type, certificates, revocation entries, signers."""

    def __init__(self, root):
        if root.tag != 0x30:
            raise Refusal(3, root.place)
        outer = Fields(root)
        outer.take(equal_to(SIGNED_DATA))
        explicit = Fields(outer.take(tagged(0xA0)))
        self.read_signed_data(Fields(explicit.take(tagged(0x30))))
        explicit.finish()
        outer.finish()

    def read_signed_data(self, fields):
        fields.take(equal_to(*(bytes([2, 1, version]) for version in (1, 3, 4, 5))))
        fields.take(tagged(0x31))
        self.content_type = content_type_of(fields.take(tagged(0x30)))
        self.certificates = each(fields.take_if(tagged(0xA0)), 0x30, 0xA0, 0xA1, 0xA2, 0xA3)
        self.revocations = each(fields.take_if(tagged(0xA1)), 0x30, 0xA1)
        signers = fields.take(tagged(0x31))
        Fields(signers).take(anything)
        self.signers = [Signer(child) for child in each_in_turn(signers)]
        fields.finish()


def each_in_turn(signers):
    """The signers one by one, so that a fault inside one comes before a wrong tag of a later one."""
    for child in signers.children:
        if child.tag != 0x30:
            raise Refusal(3, child.place)
        yield child


def judge_counts(message):
    """Refuses at the first element that is too many in its list."""
    lists = [(message.certificates, MOST_IN_LIST), (message.revocations, MOST_IN_LIST), (message.signers, MOST_SIGNERS)]
    for signer in message.signers:
        lists.append((signer.signed, MOST_IN_LIST))
        lists.append((signer.unsigned, MOST_IN_LIST))
    places = [members[most].place for members, most in lists if len(members) > most]
    if places:
        raise Refusal(4, min(places))


def of_type(attributes_, *types):
    return [attribute for attribute in attributes_ if attribute.type in types]


def broken_rules(signer, content_type):
    """The place of every broken attribute rule of a signer."""
    for required in ([CONTENT_TYPE], [MESSAGE_DIGEST], [CERTIFICATE, CERTIFICATE_V2]):
        if not of_type(signer.signed, *required):
            yield signer.place
    for single in SIGNED_ONLY:
        for attribute in of_type(signer.signed, single)[1:]:
            yield attribute.place
    for attribute in of_type(signer.signed, CONTENT_TYPE):
        if [value.whole for value in attribute.values] != [content_type.whole]:
            yield attribute.place
    for attribute in of_type(signer.signed, MESSAGE_DIGEST):
        if [value.tag for value in attribute.values] != [0x04]:
            yield attribute.place
    for attribute in of_type(signer.signed, *UNSIGNED_ONLY):
        yield attribute.place
    for attribute in of_type(signer.unsigned, *SIGNED_ONLY):
        yield attribute.place


def judge_attributes(message):
    """Refuses at the smallest place where an attribute rule is broken, in any signer."""
    places = [place for signer in message.signers for place in broken_rules(signer, message.content_type)]
    if places:
        raise Refusal(5, min(places))


def form(signer):
    """The highest form that holds."""
    types = {attribute.type for attribute in signer.unsigned}
    timed = SIGNATURE_STAMP in types
    complete = timed and {CERTIFICATE_REFERENCES, REVOCATION_REFERENCES} <= types
    extended = complete and (
        STAMP_19 in types or STAMP_1A in types or {CERTIFICATE_VALUES, REVOCATION_VALUES} <= types
    )
    holds = {"A": ARCHIVE_STAMP in types, "X": extended, "C": complete, "T": timed, "B": True}
    return next(name for name in holds if holds[name])


def read(data, signer_number=0):
    """Form, policy and the counts of signers, certificates and revocation entries; or a refusal."""
    if not 1 <= len(data) <= element_rules.LONGEST:
        raise Refusal(1)
    root, end = tree(data)
    message = Message(root)
    if end < len(data):
        raise Refusal(3, end)
    judge_counts(message)
    judge_attributes(message)
    if signer_number >= len(message.signers):
        raise Refusal(6)
    signer = message.signers[signer_number]
    policy = 1 if of_type(signer.signed, POLICY) else 0
    return form(signer), policy, len(message.signers), len(message.certificates), len(message.revocations)


def line(data, signer_number=0):
    """The line that the program prints, without its end."""
    try:
        name, policy, signers, certificates, revocations = read(bytes(data), signer_number)
    except Refusal as refusal:
        return f"refused {refusal.number} place {refusal.place} cause {refusal.cause}"
    return f"form {name} policy {policy} signers {signers} certificates {certificates} revocations {revocations}"


def check_samples():
    """The rules' own samples."""
    samples = [
        ("", "refused 1 place 0 cause 0"),
        ("30 03 02 01 05", "refused 3 place 2 cause 0"),
        ("30 00", "refused 3 place 2 cause 0"),
        ("31 00", "refused 3 place 0 cause 0"),
        ("30 00 80", "refused 3 place 2 cause 0"),
        ("30 80", "refused 2 place 0 cause 3"),
        ("30 04 02 05 00 00", "refused 2 place 2 cause 1"),
    ]
    for text, expected in samples:
        got = line(bytes.fromhex(text))
        assert got == expected, (text, got, expected)


check_samples()

if __name__ == "__main__":
    print(line(sys.stdin.buffer.read()))
