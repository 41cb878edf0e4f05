#!/usr/bin/env python3
"""Respells the names that this repository's own specs/ and proofs/ declare: words in snake case, with underscores.

usage: python3 tools/respell.py [--dry]      at the top of the repository, right after the kit's port.py

`headerOf` becomes `header_of` and `length-framed` becomes `length_framed`, where they are declared, imported, cited in
contracts, in must-fail edits and (in backquotes) in docs/ and README.md. Names of types and modules stay, and so do names
of src/ and the names that Rattle makes of goals and of known facts. A name that would fall together with another one
has its spelling in APART. With --dry it prints what it would do, and names that fall together.
"""

import os
import re
import sys

# Names whose plain spelling is taken: by a function of src/, a word of std, or another name of ours.
APART = {
    "algorithm-of": "algorithm_of_lem",
    "algorithm-stop": "algorithm_stop_lem",
    "algorithmSize": "algorithm_size_of",
    "allowed_of": "allowed_of_lem",
    "attribute-of": "attribute_of_lem",
    "attributes-past": "attributes_past_lem",
    "attributesPath": "attributes_path_of",
    "brokenBy": "broken_told_by",
    "brokenRule": "broken_rule_of",
    "by-header": "by_header_lem",
    "by-version": "by_version_lem",
    "carried-of": "carried_of_lem",
    "certificates-read": "certificates_read_lem",
    "certificatesPath": "certificates_path_of",
    "content-of": "content_of_lem",
    "contentOf": "content_for",
    "contentsSize": "contents_size_of",
    "data-over": "data_over_lem",
    "digestBytes": "digest_bytes_of",
    "digests-in": "digests_in_lem",
    "digitOf": "digit_for",
    "elements-of": "elements_of_lem",
    "entries-stop": "entries_stop_lem",
    "entriesOf": "entries_for",
    "fields-over": "fields_over_lem",
    "fillBytes": "fill_bytes_of",
    "find-signer": "find_signer_lem",
    "firstBroken": "first_broken_of",
    "firstMisplaced": "first_misplaced_of",
    "firstMissing": "first_missing_of",
    "firstTooMany": "first_too_many_of",
    "firstTooManyEntry": "first_too_many_entry_of",
    "firstUnmatched": "first_unmatched_of",
    "formBy": "form_told_by",
    "framedSize": "framed_size_of",
    "hasAlgorithm": "has_algorithm_of",
    "hasPolicy": "has_policy_of",
    "headerSize": "header_size_of",
    "hex-text": "hex_text_lem",
    "identifierTag": "identifier_tag_of",
    "imprint-of": "imprint_of_lem",
    "index-length": "index_length_lem",
    "info-of": "info_of_lem",
    "insideBy": "inside_told_by",
    "kind-bytes": "kind_bytes_lem",
    "lines-of": "lines_of_lem",
    "listSize": "list_size_of",
    "meantBy": "meant_told_by",
    "nothing-behind": "nothing_behind_lem",
    "octets-of": "octets_of_lem",
    "octetsOf": "octets_for",
    "one_byte": "one_byte_lem",
    "or-else": "or_else_lem",
    "parts-of": "parts_of_lem",
    "parts-over": "parts_over_lem",
    "revocations-read": "revocations_read_lem",
    "revocationsPath": "revocations_path_of",
    "sideOf": "side_for",
    "signed-at": "signed_at_lem",
    "signer-of": "signer_of_lem",
    "signer-with": "signer_with_lem",
    "signers-field": "signers_field_lem",
    "signers-of": "signers_of_lem",
    "signers-past": "signers_past_lem",
    "signers-read": "signers_read_lem",
    "six-fields": "six_fields_lem",
    "size-by": "size_by_lem",
    "skip-maybe": "skip_maybe_lem",
    "tooMany": "too_many_of",
    "two_bytes": "two_bytes_lem",
    "unsigned_of": "unsigned_of_lem",
    "version_of": "version_of_lem",
}

NAME = r"[^\s(){}.;,@\"«»\[\]|]+"
MODIFIERS = r"(?:(?:abbrev|unfoldable|mutual|record|data|pub|private|irreducible)\s+)*"
DECLARED = re.compile(rf"^\s*{MODIFIERS}({NAME})((?:\s*(?:\{{[^{{}}]*\}}|\([^()]*\)))*)\s*:(?:\s|$)")
GOAL = re.compile(rf"^\s*{MODIFIERS}{NAME}\s*:\s*goal\.")


def files(root, endings):
    for folder, dirs, names in os.walk(root):
        dirs[:] = sorted(d for d in dirs if d not in ("out", ".git", "target"))
        for name in sorted(names):
            if name.endswith(endings):
                yield os.path.join(folder, name)


def read(path):
    with open(path, encoding="utf-8") as f:
        return f.read()


def spelled(name):
    if name in APART:
        return APART[name]
    return re.sub(r"(?<=[a-z0-9])[A-Z]", lambda m: "_" + m[0].lower(), name).replace("-", "_")


def is_word(name):
    """Whether the name is one to respell: it begins as a word and has a dash or a capital within."""
    return re.match(r"[A-Za-z]", name) and (("-" in name and re.fullmatch(r"[\w'-]+", name)) or re.match(r"[a-z]\w*[A-Z]", name))


def declared(crates):
    """Every name that a line of specs/ or proofs/ declares, but for goals."""
    found = set()
    for path in files(crates, ".antt"):
        text = read(path)
        goals = {m[1] for line in text.splitlines() if GOAL.match(line) and (m := DECLARED.match(line))}
        for line in text.splitlines():
            if line.lstrip().startswith("--"):
                continue
            m = DECLARED.match(line)
            if m and m[1] not in goals:
                found.add(m[1])
    return found


def turned(text, names, labels):
    """The text with each of the names respelled, but not behind a dot that follows a value, as in c.in_ok-x."""

    def one(match):
        word = match[0]
        if word not in names:
            return word
        before = text[: match.start()]
        if before.endswith(".") and word not in labels:
            qualifier = re.search(r"([\w·+']+)\.$", before)
            if not qualifier or not qualifier[1][0].isupper():
                return word
        return names[word]

    return re.sub(NAME, one, text)


def in_backquotes(text, names, labels):
    return re.sub(r"`[^`\n]+`", lambda m: "`" + turned(m[0][1:-1], names, labels) + "`", text)


def turned_lines(text, names, labels, mark):
    """The text respelled line by line; what is behind the mark of a comment keeps its words, but for names in backquotes."""
    out = []
    for line in text.split("\n"):
        cut = line.find(mark) if mark else -1
        code, rest = (line, "") if cut < 0 else (line[:cut], line[cut:])
        out.append(turned(code, names, labels) + in_backquotes(rest, names, labels))
    return "\n".join(out)


def labels(crates):
    """Names of record fields and ghost members: they stand behind a dot as well."""
    found = set()
    for path in files(crates, ".antt"):
        inside = False
        for line in read(path).splitlines():
            if re.match(r"\s*(?:pub\s+)?record\s", line):
                inside = True
            elif line.strip() and not line.startswith(" "):
                inside = False
            elif inside and (m := re.match(rf"\s+(?:pub\s+)?({NAME})\s*:", line)):
                found.add(m[1])
    for path in files(crates, ".rt"):
        found |= {m[1] for m in re.finditer(rf"\bghost (?:law )?({NAME})\s*:", read(path))}
    return found


# What begins a comment in each kind of file; an edit has none.
MARKS = {".antt": "--", ".rt": "//", ".edit": None}


def rewrite(path, turn):
    text = read(path)
    new = turn(text)
    if new != text:
        with open(path, "w", encoding="utf-8") as f:
            f.write(new)


def main(argv):
    crates = "crates"
    behind_dots = labels(crates)
    own = declared(crates) | behind_dots
    names = {n: spelled(n) for n in own if (is_word(n) or n in APART) and spelled(n) != n}
    if "--dry" in argv:
        report(crates, own, names)
        return 0
    for path in files(crates, tuple(MARKS)):
        mark = MARKS[os.path.splitext(path)[1]]
        rewrite(path, lambda text: turned_lines(text, names, behind_dots, mark))
    for path in [*files("docs", ".md"), "README.md"]:
        rewrite(path, lambda text: in_backquotes(text, names, behind_dots))
    print(f"respell: {len(names)} names")
    return 0


def report(crates, own, names):
    by_new = {}
    for n, s in names.items():
        by_new.setdefault(s, []).append(n)
    tokens, rust = set(), set()
    for path in files(crates, ".antt"):
        tokens |= set(re.findall(NAME, read(path)))
    for path in files(crates, ".rt"):
        text = read(path)
        rust |= set(re.findall(r"\b(?:fn|const|let|let mut|struct|mod)\s+(\w+)", text)) | set(re.findall(r"\b(\w+):", text))
    for s, olds in sorted(by_new.items()):
        if len(olds) > 1:
            print("together:", s, olds)
        elif s in own:
            print("own name already:", olds[0], s)
        elif s in rust:
            print("in src/:", olds[0], s)
        elif s in tokens:
            print("used already:", olds[0], s)
    print(len(names), "names")


if __name__ == "__main__":
    raise SystemExit(main(sys.argv[1:]))
