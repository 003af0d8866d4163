#!/usr/bin/env python3
"""Brings this repository's own antt names to today's spelling, once, after the kit's port.py: words in snake case.

usage: python3 tools/port_names.py            at the top of the repository: rewrites files in place
       python3 tools/port_names.py --list     prints each old name with its new one, and rewrites nothing

A name is turned if a file of specs/, or a file of lemmas right below proofs/, defines it with a small first letter and capitals within, as
enablesAllowed; a record's field also if it has a dash. Types, modules, and facts that are spelled as types keep their capitals, and a dash
still joins the parts of a lemma's name. Functions of src/, fields of structs, strings, inputs and outputs have no such names and stay. Where a
lemma would have a definition's name it gets _lem (LEMMAS, by hand). It stops before it writes where other names would fall together.
"""

import collections
import os
import re
import sys

WORD = re.compile(r"[A-Za-z0-9_'\u2080-\u2089-]+")
CAMEL = re.compile(r"[a-z][a-z0-9]*[A-Z]")
NAME = r"[^\s(){}\[\];,.:→λ⌜⌝]+"
HEAD = re.compile(r"(\s*)(?:abbrev |unfoldable )?(?:pub )?(?:data |record |ruleset )?(?:abbrev |unfoldable )?(" + NAME + r"(?: " + NAME + r")*) [:=](?: |$)")
KEEP = ("docs/request-3.patch", "docs/PORT.md")
# Lemmas, by the files that name them, that a definition's new name would meet.
LEMMAS = {
    "address_read": ["tlp_read/proofs/ReadReturns.antt"],
    "first_byte": ["tlp_demands/proofs/ReadTypes.antt", "tlp_demands/proofs/ReadHeader.antt"],
    "line_read": ["capture_decode/proofs/PacketReadLaws.antt"],
    "lines_step": ["capture_blocks/proofs/StepLaws.antt"],
    "no_lines": ["capture_blocks/proofs/StepBounds.antt"],
    "number_step": ["capture_blocks/proofs/StepReturns.antt", "capture_blocks/proofs/CallReturns.antt"],
    "run_on": ["decode/proofs/PrintsDecoding.antt"],
    "word_end": ["text/proofs/FieldTexts.antt", "capture/proofs/Grammar.antt"],
    "read_number": ["tlp_demands/proofs/Demand1.antt", "tlp_demands/proofs/ExportedCalls.antt", "reads_demands/proofs/Passes.antt"],
}
# A field that may have a definition's name, since no file that declares the field names the definition.
FIELDS = {"is_open", "traffic_class", "with_data"}


def files():
    for top in ("crates", "docs"):
        for folder, folders, names in os.walk(top):
            folders[:] = sorted(f for f in folders if f not in ("out", "data"))
            for name in sorted(names):
                if name.endswith((".rt", ".antt", ".edit", ".md")):
                    yield os.path.join(folder, name)
    yield "README.md"


def read(path):
    with open(path, encoding="utf-8") as f:
        return f.read()


def of_lemmas(path):
    """A file of definitions or lemmas, and no function's proof."""
    parts = path.split("/")
    return path.endswith(".antt") and (parts[2] == "specs" or parts[2] == "proofs" and len(parts) == 4)


def defined(text):
    """Each name before ':' or '=' at the head of a line: definitions, lemmas, constructors, fields, rule sets. And each after 'as' of an import."""
    for line in text.split("\n"):
        if line.startswith("use "):
            yield from re.findall(r" as (" + NAME + ")", line)
        at = HEAD.match(line)
        if at and not line.lstrip().startswith("--"):
            yield from at.group(2).split()


def fields(text):
    """Each field of a record's declaration."""
    record = None
    for line in text.split("\n"):
        depth = len(line) - len(line.lstrip())
        if re.match(r"\s*(?:pub )?record " + NAME, line):
            record = depth
        elif line.strip() and not line.lstrip().startswith("--"):
            at = HEAD.match(line)
            if record is not None and depth > record and at:
                yield from at.group(2).split()
            elif record is not None and depth <= record:
                record = None


def snake(word):
    """One part of a name, between dashes: capitals within it begin a new word, unless the part is a type's name."""
    if not CAMEL.match(word):
        return word
    return re.sub(r"(?<=[a-z0-9])([A-Z])", lambda m: "_" + m.group(1).lower(), word)


def turned(name):
    return "-".join(snake(part) for part in name.split("-"))


def main():
    paths = list(files())
    texts = {path: read(path) for path in paths}
    own = {n for p in paths if of_lemmas(p) for n in defined(texts[p]) if WORD.fullmatch(n)}
    names = {n: turned(n) for n in sorted(own) if turned(n) != n}
    dashed = {n for p in paths if of_lemmas(p) for n in fields(texts[p]) if "-" in n}
    names.update({n: turned(n).replace("-", "_") for n in sorted(dashed)} | {"is-record": "as_record"})
    if "--list" in sys.argv:
        for old, new in names.items():
            print(old, new)
        return 0
    meant = collections.Counter(names.values())
    antt = {w for p in paths if p.endswith(".antt") for w in WORD.findall(texts[p])}
    free = FIELDS | set(LEMMAS)
    bad = [f"{old}: {new} is there already" for old, new in names.items() if new in own - free or meant[new] > 1]
    seen = sorted(new for old, new in names.items() if new in antt and new not in own)
    if bad:
        print("\n".join(bad))
        return 1
    print("look at these, which a proof names already:", " ".join(seen))
    n = 0
    for path in paths:
        if path in KEEP:
            continue
        mine = {lemma: lemma + "_lem" for lemma, users in LEMMAS.items() if path.removeprefix("crates/") in users}
        text = WORD.sub(lambda m: mine.get(m.group(0)) or names.get(m.group(0)) or turned_parts(m.group(0), names), texts[path])
        if text != texts[path]:
            with open(path, "w", encoding="utf-8") as f:
                f.write(text)
            n += 1
    print(f"{len(names)} names turned, {n} files")
    return 0


def turned_parts(word, names):
    """A word that only a function's proof has, as a step named after a definition: each part that is turned alone is turned here. Or a possessive."""
    if word.endswith("'s") and word[:-2] in names:
        return names[word[:-2]] + "'s"
    if "-" not in word:
        return word
    return "-".join(names.get(part, part) for part in word.split("-"))


if __name__ == "__main__":
    raise SystemExit(main())
