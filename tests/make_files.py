#!/usr/bin/env python3
"""Builds signed messages by hand, each at an edge of the message rules.

    make_files.py FOLDER

writes each of them as FOLDER/NAME.p7. `files()` gives them by name; the rest
are the parts to build more. A builder writes what it is told, also what the
rules refuse; only the lengths are always right.
"""

import pathlib
import sys

P = bytes.fromhex("2A864886F70D0109")
Q = P + bytes.fromhex("1002")
DATA = bytes.fromhex("2A864886F70D010701")
SIGNED_DATA = bytes.fromhex("2A864886F70D010702")
SHA_256 = bytes.fromhex("608648016503040201")
ARCHIVE_STAMP = bytes.fromhex("04008D450204")
ARCHIVE_INDEX = bytes.fromhex("04008D450205")

# Every type that a rule names, and types near them that are free.
NAMED_TYPES = {
    "content-type": P + b"\x03",
    "message-digest": P + b"\x04",
    "certificate": Q + b"\x0C",
    "certificate-v2": Q + b"\x2F",
    "policy": Q + b"\x0F",
    "signature-stamp": Q + b"\x0E",
    "certificate-references": Q + b"\x15",
    "revocation-references": Q + b"\x16",
    "certificate-values": Q + b"\x17",
    "revocation-values": Q + b"\x18",
    "stamp-19": Q + b"\x19",
    "stamp-1a": Q + b"\x1A",
    "archive-stamp": ARCHIVE_STAMP,
}
FREE_TYPES = {
    "signing-time": P + b"\x05",
    "q-1b": Q + b"\x1B",
    "q-30": Q + b"\x30",
    "archive-index": ARCHIVE_INDEX,
    "empty": b"",
    "short": P,
    "longer": P + b"\x03\x00",
    "stamp-longer": ARCHIVE_STAMP + b"\x00",
}
SIGNED_NAMES = ["content-type", "message-digest", "certificate", "certificate-v2", "policy"]
REFERENCES = ["signature-stamp", "certificate-references", "revocation-references"]
FORMS = {
    "b": [],
    "b-references-only": REFERENCES[1:],
    "b-stamps-only": ["stamp-19", "stamp-1a", "certificate-values", "revocation-values"],
    "t": ["signature-stamp"],
    "t-one-reference": REFERENCES[:2],
    "t-other-reference": [REFERENCES[0], REFERENCES[2]],
    "t-stamp-19": ["signature-stamp", "stamp-19"],
    "t-values": ["signature-stamp", "certificate-values", "revocation-values"],
    "c": REFERENCES,
    "c-backward": REFERENCES[::-1],
    "c-certificate-values": REFERENCES + ["certificate-values"],
    "c-revocation-values": REFERENCES + ["revocation-values"],
    "c-twice": REFERENCES + REFERENCES,
    "x-19": REFERENCES + ["stamp-19"],
    "x-1a": ["stamp-1a"] + REFERENCES,
    "x-values": REFERENCES + ["certificate-values", "revocation-values"],
    "a": ["archive-stamp"],
    "a-t": ["signature-stamp", "archive-stamp"],
    "a-x": REFERENCES + ["stamp-19", "archive-stamp"],
    "a-twice": ["archive-stamp", "archive-stamp"],
}


def element(tag, *parts):
    """The element with the shortest length that says the size of its contents."""
    body = b"".join(parts)
    size = len(body)
    if size < 128:
        return bytes([tag, size]) + body
    if size < 256:
        return bytes([tag, 0x81, size]) + body
    if size < 65_536:
        return bytes([tag, 0x82, size // 256, size % 256]) + body
    raise ValueError("contents too long for an element")


def identifier(body):
    return element(0x06, body)


def version(number):
    return element(0x02, bytes([number]))


ALGORITHM = element(0x30, identifier(SHA_256))
NAME = element(0x30, element(0x30), version(7))
KEY = element(0x80, b"\x11\x22\x33")
VALUE = element(0x30)


def attribute(kind, *values):
    return element(0x30, identifier(kind), element(0x31, *values))


def free(number):
    """An attribute of a free type, another one for each number."""
    return attribute(P + b"\x63" + number.to_bytes(2, "big"), VALUE)


def content_type_attribute(kind=DATA):
    return attribute(P + b"\x03", identifier(kind))


def digest_attribute(tag=0x04, body=bytes(32)):
    return attribute(P + b"\x04", element(tag, body))


def usual(policy=False, kind=DATA):
    """The signed attributes that every signer needs, with a policy if asked for."""
    found = [content_type_attribute(kind), digest_attribute(), attribute(Q + b"\x2F", VALUE)]
    if policy:
        found.append(attribute(Q + b"\x0F", VALUE))
    return found


def named(names):
    """Attributes by their names, each with one empty value."""
    return [attribute(NAMED_TYPES[name], VALUE) for name in names]


def signer(signed=None, unsigned=None, head=None, digest=ALGORITHM, algorithm=ALGORITHM, signature=None, tail=b""):
    """A signer; `head` is version and signer identifier, `unsigned` None leaves the field out."""
    parts = [
        head if head is not None else version(1) + NAME,
        digest,
        element(0xA0, *(usual() if signed is None else signed)),
        algorithm,
        element(0x04, b"\x55" * 8) if signature is None else signature,
    ]
    if unsigned is not None:
        parts.append(element(0xA1, *unsigned))
    return element(0x30, *parts, tail)


PLAIN = element(0xA0, element(0x04, b"drawing"))


def info(content=PLAIN, kind=DATA):
    """A content info; an empty `content` makes the file detached."""
    return element(0x30, identifier(kind), content)


def certificate(number, tag=0x30):
    return element(tag, element(0x02, number.to_bytes(2, "big")))


def fields(signers, certificates=None, revocations=None, content_info=None):
    """The fields of a signed data in their order; None leaves an optional one out."""
    parts = [version(1), element(0x31, ALGORITHM), info() if content_info is None else content_info]
    if certificates is not None:
        parts.append(element(0xA0, *certificates))
    if revocations is not None:
        parts.append(element(0xA1, *revocations))
    return parts + [element(0x31, *signers)]


def wrapped(parts):
    """A message around the fields of a signed data."""
    return element(0x30, identifier(SIGNED_DATA), element(0xA0, element(0x30, *parts)))


def message(signers=None, certificates=None, revocations=None, content_info=None):
    return wrapped(fields([signer()] if signers is None else signers, certificates, revocations, content_info))


def without(parts, number):
    return parts[:number] + parts[number + 1 :]


def form_files():
    for name, types in FORMS.items():
        unsigned = named(types) if types else None
        yield f"form-{name}", message([signer(unsigned=unsigned)])
        both = [certificate(1), certificate(2)]
        yield f"form-{name}-policy", message([signer(usual(policy=True), unsigned)], both)
    yield "form-second-signer-only", message([signer(), signer(usual(policy=True), named(["archive-stamp"]))])
    yield "form-policy-free-unsigned", message([signer(unsigned=[free(1), free(1)])])
    yield "form-stamp-two-values", message([signer(unsigned=[attribute(ARCHIVE_STAMP, VALUE, VALUE)])])
    for name, kind in FREE_TYPES.items():
        twice = [attribute(kind, VALUE, VALUE)] * 2
        yield f"free-{name}", message([signer(usual() + twice, twice)])


def content_files():
    segments = [element(0x04, b"draw"), element(0x04), element(0x04, b"ing")]
    contents = {
        "detached": b"",
        "plain-empty": element(0xA0, element(0x04)),
        "plain-long": element(0xA0, element(0x04, bytes(60_000))),
        "segmented": element(0xA0, element(0x24, *segments)),
        "segmented-none": element(0xA0, element(0x24)),
        "segmented-many": element(0xA0, element(0x24, *segments * 60)),
        "segmented-twofold": element(0xA0, element(0x24, segments[0], element(0x24, segments[2]))),
        "segmented-wrong-last": element(0xA0, element(0x24, *segments, element(0x30))),
        "empty-wrapper": element(0xA0),
        "two-contents": element(0xA0, *segments),
        "content-then-segmented": element(0xA0, segments[0], element(0x24)),
        "content-tag-30": element(0xA0, element(0x30)),
        "content-unwrapped": segments[0],
        "two-wrappers": PLAIN + PLAIN,
        "surplus-in-info": PLAIN + VALUE,
        "surplus-in-detached": VALUE,
    }
    for name, content in contents.items():
        yield f"content-{name}", message(content_info=info(content))
    yield "content-info-empty", message(content_info=element(0x30))
    yield "content-info-no-type", message(content_info=element(0x30, PLAIN))
    for name, kind in {"empty": b"", "stamp": P + b"\x10\x01\x04", "long": bytes(200)}.items():
        yield f"content-type-{name}", message([signer(usual(kind=kind))], content_info=info(kind=kind))


def list_files():
    for count in (0, 1, 63, 64, 65, 66):
        members = [certificate(number) for number in range(count)]
        yield f"certificates-{count}", message(certificates=members)
        yield f"revocations-{count}", message(revocations=members)
        if members:
            spoiled = members[:-1] + [certificate(0, 0x31)]
            yield f"certificates-{count}-last-mistagged", message(certificates=spoiled)
            yield f"revocations-{count}-last-mistagged", message(revocations=spoiled)
        if count > 3:
            signed = usual() + [free(number) for number in range(count - 3)]
            yield f"signed-{count}", message([signer(signed)])
            yield f"signed-{count}-last-spoiled", message([signer(signed[:-1] + [element(0x30)])])
        if count:
            unsigned = [free(number) for number in range(count)]
            yield f"unsigned-{count}", message([signer(unsigned=unsigned)])
            yield f"unsigned-{count}-last-spoiled", message([signer(unsigned=unsigned[1:] + [element(0x31)])])
            yield f"unsigned-{count}-last-misplaced", message([signer(unsigned=unsigned[1:] + named(["policy"]))])
    for tag in (0x30, 0xA0, 0xA1, 0xA2, 0xA3, 0xA4, 0x31, 0x80, 0x04, 0x10):
        yield f"certificate-tag-{tag:02x}", message(certificates=[certificate(1), element(tag)])
        yield f"revocation-tag-{tag:02x}", message(revocations=[certificate(1), element(tag)])
    yield "lists-both-empty", message(certificates=[], revocations=[])
    yield "lists-both-too-long", message([signer()] * 9, [certificate(1)] * 65, [certificate(1)] * 65)
    yield "revocations-and-signers-too-long", message([signer()] * 9, [certificate(1)] * 64, [certificate(1)] * 65)
    yield "certificates-65-broken-attribute", message([signer([])], [certificate(1)] * 65)
    yield "digest-algorithms-many", wrapped([version(1), element(0x31, *[ALGORITHM] * 70)] + fields([signer()])[2:])
    yield "values-many", message([signer(unsigned=[attribute(ARCHIVE_INDEX, *[VALUE] * 70)])])


def signer_files():
    for count in (0, 1, 2, 7, 8, 9, 10):
        yield f"signers-{count}", message([signer()] * count)
        if count:
            yield f"signers-{count}-last-empty", message([signer()] * (count - 1) + [element(0x30)])
            yield f"signers-{count}-last-mistagged", message([signer()] * (count - 1) + [element(0x31)])
            yield f"signers-{count}-last-without-attributes", message([signer()] * (count - 1) + [signer([])])
    yield "signers-fault-inside-then-mistagged", message([element(0x30), element(0x31)])
    long = signer([free(number) for number in range(65)])
    yield "signers-9-first-with-65", message([long] + [signer()] * 8)
    yield "signers-9-last-with-65", message([signer()] * 8 + [long])
    for number in (0, 1, 2, 3, 4, 5, 255):
        for name, sid in {"name": NAME, "key": KEY, "a0": element(0xA0), "none": b""}.items():
            yield f"signer-version-{number}-{name}", message([signer(head=version(number) + sid)])
    for name, head in {"none": b"", "wide": element(0x02, b"\x00\x01"), "empty": element(0x02), "tag-0a": element(0x0A, b"\x01")}.items():
        yield f"signer-version-{name}", message([signer(head=head + NAME)])
    parts = {
        "digest-empty": dict(digest=element(0x30)),
        "digest-no-identifier": dict(digest=element(0x30, version(1))),
        "digest-parameters": dict(digest=element(0x30, identifier(b""), element(0x05), element(0x05))),
        "digest-tag-31": dict(digest=element(0x31, identifier(SHA_256))),
        "algorithm-empty": dict(algorithm=element(0x30)),
        "algorithm-tag-31": dict(algorithm=element(0x31)),
        "signature-empty": dict(signature=element(0x04)),
        "signature-tag-24": dict(signature=element(0x24)),
        "signature-none": dict(signature=b""),
        "unsigned-empty": dict(unsigned=[]),
        "unsigned-tag-a2": dict(tail=element(0xA2, free(1))),
        "unsigned-twice": dict(unsigned=[free(1)], tail=element(0xA1, free(2))),
        "surplus": dict(tail=VALUE),
    }
    for name, changed in parts.items():
        yield f"signer-{name}", message([signer(**changed)])
    whole = [version(1), NAME, ALGORITHM, element(0xA0, *usual()), ALGORITHM, element(0x04), element(0xA1, free(1))]
    for number in range(len(whole)):
        yield f"signer-without-field-{number}", message([element(0x30, *without(whole, number))])
        yield f"signer-only-{number}-fields", message([element(0x30, *whole[:number])])


def attribute_files():
    for number, name in enumerate(["content-type", "message-digest", "certificate"]):
        rest = without(usual(), number)
        yield f"attribute-{name}-missing", message([signer(rest)])
        yield f"attribute-{name}-missing-second", message([signer(), signer(rest)])
        yield f"attribute-{name}-unsigned", message([signer(rest, [usual()[number]])])
        yield f"attribute-{name}-twice", message([signer(usual() + [usual()[number]])])
        yield f"attribute-{name}-thrice", message([signer([usual()[number]] * 2 + usual())])
    for name in SIGNED_NAMES:
        yield f"attribute-{name}-also-unsigned", message([signer(unsigned=[free(1)] + named([name]))])
    for name in NAMED_TYPES:
        yield f"attribute-{name}-added", message([signer(usual() + named([name]))])
        yield f"attribute-{name}-added-twice", message([signer(usual() + named([name, name]))])
        yield f"attribute-{name}-first", message([signer(named([name]) + usual())])
    tail = usual()[2:]
    first = {
        "other-type": content_type_attribute(P + b"\x10\x01\x04"),
        "longer": content_type_attribute(DATA + b"\x00"),
        "shorter": content_type_attribute(DATA[:-1]),
        "other-tag": attribute(P + b"\x03", element(0x04, DATA)),
        "two-values": attribute(P + b"\x03", identifier(DATA), identifier(DATA)),
    }
    for name, changed in first.items():
        yield f"content-type-value-{name}", message([signer([changed, digest_attribute()] + tail)])
        yield f"content-type-value-{name}-late", message([signer([digest_attribute()] + tail + [changed])])
        yield f"content-type-value-{name}-twice", message([signer([changed] + usual())])
    second = {
        "empty": digest_attribute(body=b""),
        "tag-24": digest_attribute(tag=0x24, body=b""),
        "tag-30": digest_attribute(tag=0x30, body=b""),
        "two-values": attribute(P + b"\x04", element(0x04), element(0x04)),
    }
    for name, changed in second.items():
        yield f"digest-value-{name}", message([signer([content_type_attribute(), changed] + tail)])
    yield "certificate-v1-alone", message([signer(usual()[:2] + named(["certificate"]))])
    yield "certificate-both", message([signer(usual() + named(["certificate"]))])
    yield "certificate-v1-missing-late-fault", message([signer(usual()[:2]), signer(usual() + named(["archive-stamp"]))])
    yield "misplaced-before-missing", message([signer(usual() + named(["archive-stamp"])), signer(usual()[:2])])
    shapes = {
        "empty": element(0x30),
        "no-values": element(0x30, identifier(P)),
        "empty-values": attribute(P),
        "values-tag-30": element(0x30, identifier(P), element(0x30, VALUE)),
        "no-type": element(0x30, element(0x31, VALUE)),
        "surplus": element(0x30, identifier(P), element(0x31, VALUE), VALUE),
        "tag-31": element(0x31, identifier(P), element(0x31, VALUE)),
        "stamp-no-values": attribute(ARCHIVE_STAMP),
    }
    for name, shape in shapes.items():
        yield f"attribute-shape-{name}-signed", message([signer(usual() + [shape])])
        yield f"attribute-shape-{name}-unsigned", message([signer(unsigned=[free(1), shape])])


def outer_files():
    usual_fields = fields([signer()], [certificate(1)], [certificate(1)])
    for number in range(len(usual_fields)):
        yield f"signed-data-without-{number}", wrapped(without(usual_fields, number))
        yield f"signed-data-only-{number}", wrapped(usual_fields[:number])
        yield f"signed-data-twice-{number}", wrapped(usual_fields[: number + 1] + usual_fields[number:])
    yield "signed-data-lists-swapped", wrapped(usual_fields[:3] + [usual_fields[4], usual_fields[3], usual_fields[5]])
    yield "signed-data-surplus", wrapped(usual_fields + [VALUE])
    yield "digest-algorithms-empty", wrapped([version(1), element(0x31)] + usual_fields[2:])
    for number in (0, 1, 2, 3, 4, 5, 6, 129):
        yield f"signed-data-version-{number}", wrapped([version(number)] + usual_fields[1:])
    yield "signed-data-version-wide", wrapped([element(0x02, b"\x00\x01")] + usual_fields[1:])
    data = element(0x30, *usual_fields)
    outer = {
        "tag-31": element(0x31, identifier(SIGNED_DATA), element(0xA0, data)),
        "other-type": element(0x30, identifier(DATA), element(0xA0, data)),
        "no-wrapper": element(0x30, identifier(SIGNED_DATA)),
        "empty-wrapper": element(0x30, identifier(SIGNED_DATA), element(0xA0)),
        "bare": element(0x30, identifier(SIGNED_DATA), data),
        "two-data": element(0x30, identifier(SIGNED_DATA), element(0xA0, data, data)),
        "two-wrappers": element(0x30, identifier(SIGNED_DATA), element(0xA0, data), element(0xA0, data)),
        "data-tag-31": element(0x30, identifier(SIGNED_DATA), element(0xA0, element(0x31, *usual_fields))),
    }
    for name, whole in outer.items():
        yield f"outer-{name}", whole
    yield "behind-one-byte", message() + b"\x80"
    yield "behind-an-element", message() + b"\x05\x00"
    yield "behind-and-limit", message([signer()] * 9) + b"\x00"
    yield "behind-and-field", message([]) + b"\x00"
    yield "behind-and-wrong-field", message([element(0x31)]) + b"\x00"


def nested(depth):
    core = b""
    for _ in range(depth):
        core = element(0x30, core)
    return core


def element_files():
    for depth in (27, 28, 29):
        yield f"certificate-depth-{depth}", message(certificates=[nested(depth)])
    for depth in (23, 24, 25):
        yield f"attribute-depth-{depth}", message([signer(unsigned=[attribute(ARCHIVE_STAMP, nested(depth))])])
    late = message([signer(algorithm=element(0x30, b"\x1f\x00"))], content_info=info(b""))
    yield "cause-late-wrong-type-early", late.replace(SIGNED_DATA, DATA)
    yield "cause-in-certificate", message(certificates=[element(0x30, b"\x02")])
    headers = {
        "1-no-length": b"\x30",
        "1-length-missing": b"\x30\x82\x01",
        "1-contents-missing": b"\x30\x04\x02\x05\x00\x00",
        "2-high-tag": b"\x1f\x01\x00",
        "3-open-length": b"\x30\x80",
        "4-huge-length": b"\x30\x83",
        "5-long-length": b"\x30\x81\x7f",
        "5-longer-length": b"\x30\x82\x00\xff",
    }
    for name, header in headers.items():
        yield f"cause-{name}", header
        yield f"cause-{name}-inside", message(certificates=[element(0x30, header)])
    for depth in (32, 33):
        yield f"cause-6-levels-{depth}", nested(depth)
    yield "cause-inside-content", message(content_info=info(element(0xA0, element(0x04, b"\x30\x80"))))
    room = 65_535 - len(message(content_info=info(element(0xA0, element(0x04, bytes(60_000)))))) + 60_000
    for name, size in {"65534": room - 1, "65535": room}.items():
        yield f"length-{name}", message(content_info=info(element(0xA0, element(0x04, bytes(size)))))
    longest = message(content_info=info(element(0xA0, element(0x04, bytes(room)))))
    yield "length-65536", longest + b"\x00"
    yield "length-70000", longest + bytes(4_465)
    yield "length-0", b""


def small_signer(signed=None, tail=b"", head=None):
    """A signer with as few bytes as its fields allow."""
    kinds = [content_type_attribute(), digest_attribute(body=b"\xAA"), attribute(Q + b"\x2F", VALUE)]
    head = version(1) + element(0x30) if head is None else head
    parts = [element(0x30, identifier(b"\x2A")), element(0xA0, *(kinds if signed is None else signed(kinds)))]
    return element(0x30, head, *parts, element(0x30), element(0x04, b"\x55"), tail)


def small(signers=None, lists=b""):
    """A detached message with small signers; `lists` stands where certificates and revocations do."""
    signers = [small_signer()] if signers is None else signers
    return wrapped([version(1), element(0x31), info(b""), lists, element(0x31, *signers)])


def example_files():
    """The worked examples of docs/MESSAGES.md."""
    one = element(0x30)
    stamp = attribute(ARCHIVE_STAMP, element(0x05))
    yield "example-base", small()
    yield "example-key", small([small_signer(head=version(3) + element(0x80))])
    yield "example-timed", small([small_signer(tail=element(0xA1, attribute(Q + b"\x0E", element(0x05))))])
    yield "example-stamped", small([small_signer(tail=element(0xA1, stamp))])
    yield "example-empty-certificates", small(lists=element(0xA0))
    yield "example-open-algorithm", small().replace(b"\x30\x00\x04\x01\x55", b"\x3F\x00\x04\x01\x55")
    wrong_type = small().replace(SIGNED_DATA, DATA)
    yield "example-wrong-type", wrong_type
    yield "example-wrong-type-open-algorithm", wrong_type.replace(b"\x30\x00\x04\x01\x55", b"\x3F\x00\x04\x01\x55")
    yield "example-lists-swapped", small(lists=element(0xA1) + element(0xA0))
    yield "example-version-2", small([small_signer(head=version(2) + element(0x30))])
    yield "example-version-3-name", small([small_signer(head=version(3) + element(0x30))])
    yield "example-no-signers", small([])
    yield "example-empty-unsigned", small([small_signer(tail=element(0xA1))])
    yield "example-byte-behind", small() + b"\x80"
    yield "example-66-certificates", small(lists=element(0xA0, *[one] * 66))
    yield "example-66-last-mistagged", small(lists=element(0xA0, *[one] * 65, element(0x31)))
    yield "example-9-signers", small([small_signer()] * 9)
    yield "example-9-last-empty", small([small_signer()] * 8 + [one])
    yield "example-no-signed-attributes", small([small_signer(lambda kinds: [])])
    yield "example-no-digest", small([small_signer(lambda kinds: [kinds[0], kinds[2]])])
    yield "example-two-content-types", small([small_signer(lambda kinds: [kinds[0], *kinds])])
    yield "example-stamp-signed", small([small_signer(lambda kinds: [*kinds, stamp])])
    misplaced = element(0xA1, content_type_attribute())
    yield "example-content-type-unsigned", small([small_signer(lambda kinds: kinds[1:], misplaced)])
    late = small_signer(lambda kinds: kinds[1:])
    yield "example-second-lacks", small([small_signer(lambda kinds: [*kinds, stamp]), late])


def files():
    """Every hand-made file by its name."""
    found = {}
    for make in (form_files, content_files, list_files, signer_files, attribute_files, outer_files, element_files, example_files):
        for name, data in make():
            assert name not in found, name
            found[name] = data
    return found


def main():
    folder = pathlib.Path(sys.argv[1])
    folder.mkdir(parents=True, exist_ok=True)
    made = files()
    for name, data in made.items():
        (folder / f"{name}.p7").write_bytes(data)
    print(f"{len(made)} files")


if __name__ == "__main__":
    main()
