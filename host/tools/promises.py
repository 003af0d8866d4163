#!/usr/bin/env python3
"""Holds docs/PROMISES.md to the sources, with one line for each fault.

Names: a marked name is in a file that its section names, or is a function or type of a crate that it names or takes a file from. A
section that names no files under "In" uses those above it too. What follows vectors, script and captures is a function that makes
them; what follows edit is an edit, with its crate (crate/edit) where two crates have one of that name. No edit is left out, and no
public function; the contract of each has the definition that the last section puts beside it, says what it leaves in what it is lent
for change, and has no requires. A function that answers nothing and is lent nothing for change has no result to state, and needs no
contract: what it prints no contract can say. Benchmarks are held to the same. A program has no public function.

Quotations: a text in double quotation marks in a comment of crates/*/specs stands in the papers, as PROMISES quotes them (`> ..`).
White space, backticks and the case of the first letter don't count; an omission is ` .. `. A quotation with omissions has its parts in
order within one quoted sentence, table row or title, or within two that follow each other."""
import functools
import glob
import os
import re
import sys

ROOT = os.path.dirname(os.path.dirname(os.path.dirname(os.path.abspath(__file__))))
DOCUMENT = "docs/PROMISES.md"
INDEX = "Every public function"
MAKERS = {
    "vectors": ["make_vectors.py"],
    "script": ["make_calls.py", "call_faults.py", "call_traffic.py"],
    "captures": ["make_captures.py"],
}
FUNCTION = r'(?m)^\s*pub (?:extern "C" )?fn (\w+)'
DEFINED = r"(?m)^\s*(?:(?:abbrev |unfoldable )?pub (?:record |data |ruleset )?|(?=[\w-]+ :))([\w-]+)"
TYPED = r"(?m)^\s*(?:pub (?:struct|enum|const) (\w+)|([A-Z]\w*)(?: = \d+)?(?:,|\(.*\),| \{.*)$)"


@functools.lru_cache(None)
def read(name):
    with open(os.path.join(ROOT, name), encoding="utf-8") as f:
        return f.read()


def found(pattern):
    return sorted(os.path.relpath(n, ROOT) for n in glob.glob(os.path.join(ROOT, pattern), recursive=True))


def crates():
    lines = (line.split("#")[0].strip() for line in read("crates.txt").splitlines())
    return [line.split(":")[0].split()[0] for line in lines if line]


# ---- names

@functools.lru_cache(None)
def defined(name):
    return set(re.findall(DEFINED, read(name)))


@functools.lru_cache(None)
def declared(crate):
    """The functions, types and cases of a crate."""
    names = set()
    for name in found("crates/%s/src/**/*.rt" % crate):
        names.update(re.findall(r"\bfn (\w+)", read(name)))
        names.update(n for pair in re.findall(TYPED, read(name)) for n in pair)
    return names


@functools.lru_cache(None)
def made(kind):
    return set(re.findall(r"(?m)^def (\w+)", "\n".join(read("host/second/" + n) for n in MAKERS[kind])))


@functools.lru_cache(None)
def edits():
    """The crates that have an edit of a name."""
    crates_of = {}
    for name in found("crates/*/must-fail/*.edit"):
        crates_of.setdefault(os.path.basename(name)[:-5], []).append(name.split("/")[1])
    return crates_of


def marked(text):
    return re.findall(r"`([^`]+)`", text)


def paths(word):
    """The files that a marked path names: crate/specs/X.antt, or several as crate/specs/{X,Y}.antt."""
    match = re.match(r"(\w+/(?:specs|proofs|src)/(?:\w+/)*)(?:(\w+)|\{([\w,]+)\})\.(antt|rt)$", word)
    if not match:
        return []
    return ["crates/%s%s.%s" % (match.group(1), x, match.group(4)) for x in (match.group(2) or match.group(3)).split(",")]


def exists(name):
    return os.path.exists(os.path.join(ROOT, name))


def sections(text):
    """Title and text of each section, quotations left out, with the text that names its files: a part (###) has its section's too."""
    for section in re.split(r"(?m)^##? ", re.sub(r"(?m)^>.*$", "", text))[1:]:
        parts = re.split(r"(?m)^### ", section)
        for part in parts:
            yield part.split("\n")[0].strip('"'), part, parts[0] + part


def names_of(text, names):
    scope = set()
    for word in marked(text):
        for path in filter(exists, paths(word)):
            scope |= declared(path.split("/")[1]) | (defined(path) if path.endswith(".antt") else set())
        if word in names:
            scope |= declared(word)
    return scope


def by_kind(text):
    """Each marked word with the kind that the word before its list says, if one does."""
    text = " ".join(text.split())
    runs = r"\b(edit|vectors|script|captures)s?((?:,? (?:and )?`[^`]+`(?: \([^)]*\))?)+)"
    for match in re.finditer(runs, text, re.I):
        for word in marked(re.sub(r"\([^)]*\)", "", match.group(2))):
            yield match.group(1).lower(), word
    for word in marked(re.sub(runs, "", text, flags=re.I)):
        yield None, word


def edit_fault(word):
    crate, _, name = word.rpartition("/")
    having = edits().get(name, [])
    if crate and crate not in having or not having:
        return "no such edit"
    return None if crate or len(having) == 1 else "an edit of several crates (%s)" % ", ".join(having)


def elsewhere(word, names):
    """Where a name stands that its section does not name a file or crate of."""
    files = [n for n in found("crates/*/specs/**/*.antt") + found("crates/*/proofs/**/*.antt") if word in defined(n)]
    return "".join("; it is in " + n for n in files[:3] + [c for c in names if word in declared(c)][:3])


def word_fault(kind, word, scope, names):
    function = re.match(r"(\w+)::(\w+)$", word)
    missing = [path for path in paths(word) if not exists(path)]
    if missing:
        return "no file %s" % missing[0]
    if kind == "edit":
        return edit_fault(word)
    if kind:
        return None if word in made(kind) else "no function that makes %s" % kind
    if word.startswith(("host/", "crates/")):
        return None if found(word) else "no file"
    if function:
        return None if function.group(2) in declared(function.group(1)) else "no function"
    if not re.match(r"[A-Za-z][\w-]*$", word) or word in names:
        return None
    return None if word in scope else "in no file or crate that its section names" + elsewhere(word, names)


def name_faults(text, names):
    above = set()
    for title, part, files in sections(text):
        here = names_of(files, names)
        above |= here
        scope = here if re.search(r"(?m)^In `", files) else above
        if title == INDEX:
            scope = set().union(*(declared(c) for c in names), *(defined(n) for n in found("crates/*/specs/**/*.antt")))
        for kind, word in by_kind(part):
            fault = word_fault(kind, word, scope, names)
            if fault:
                yield "%s: section %s: `%s`: %s" % (DOCUMENT, title, word, fault)


def index(text):
    """Of each crate in the last section, its functions, each with the definitions of the bracket behind it or behind its list."""
    lines = {}
    for item in [i for title, part, _ in sections(text) if title == INDEX for i in re.split(r"(?m)^- ", part)[1:]]:
        crate, _, rest = item.partition(":")
        functions = lines.setdefault(crate.strip("`"), {})
        waiting = []
        for name, bracket in re.findall(r"`(\w+)`(?:\s+(\([^)]*\)))?", rest):
            waiting.append(name)
            if bracket:
                functions.update((n, (bracket, n == name)) for n in waiting)
                waiting = []
        functions.update((n, ("", False)) for n in waiting)
    return lines


def contract(crate, function):
    """What stands between a public function's name and its body, which begins on a line of its own where there are clauses."""
    source = "\n".join(read(n) for n in found("crates/%s/src/**/*.rt" % crate))
    text = re.search(r'(?s)\bpub (?:extern "C" )?fn %s\b(.*)' % function, source).group(1)
    signature = re.match(r"(?s)(.*?)(?: \{\n|\n\s*(?:requires|ensures)\b)", text)
    return signature.group(1) if signature.group(0).endswith("{\n") else re.match(r"(?s)(.*?)\n\s*\{\n", text).group(1)


def contract_faults(crate, function, bracket, own):
    """No requires; the definition of the function's name, if the bracket is not its own, or all that the bracket has; what it leaves."""
    text = contract(crate, function)
    stated = text.partition("ensures")[2]
    if re.search(r"\brequires\b", text):
        yield "has a requires"
    if not stated:
        if re.search(r"->|&mut ", text):
            yield "states nothing"
        return
    # Neither a clause's own name, nor what stands behind a dot, nor a parameter is a definition.
    clauses = re.sub(r"\bensures \w+ \{", "ensures {", "ensures" + stated)
    words = set(re.findall(r"(?<![\w.-])[\w-]+", clauses)) - set(re.findall(r"(\w+): ", text.partition("ensures")[0]))
    same = not own and function in words
    if not same and not (bracket and all(name in words for name in marked(bracket))):
        yield "does not have the definition beside it"
    for lent in re.findall(r"(\w+): &mut ", text):
        if not re.search(r"(?<![\w.-])«?%s»?\.new\b" % lent, stated):
            yield "does not say what it leaves in " + lent


def omissions(text, names):
    lines = index(text)
    named = {word for _, part, _ in sections(text) for kind, word in by_kind(part) if kind == "edit"}
    for name, crates_of in sorted(edits().items()):
        for crate in crates_of:
            if name not in named and crate + "/" + name not in named:
                yield "%s: edit left out: %s/%s" % (DOCUMENT, crate, name)
    for crate in names:
        library = exists("crates/%s/src/lib.rt" % crate)
        public = [f for n in found("crates/%s/src/**/*.rt" % crate) for f in re.findall(FUNCTION, read(n))]
        for function in public:
            if not library:
                yield "a program has no public function: %s::%s" % (crate, function)
                continue
            if function not in lines.get(crate, {}):
                yield "%s: public function left out of the last section: %s::%s" % (DOCUMENT, crate, function)
                continue
            for fault in contract_faults(crate, function, *lines[crate][function]):
                yield "%s: the contract of %s::%s %s" % (DOCUMENT, crate, function, fault)
        for function in lines.get(crate, {}):
            if function not in public:
                yield "%s: no public function: %s::%s" % (DOCUMENT, crate, function)


# ---- quotations

def normal(text):
    return " ".join(text.replace("`", "").split())


def quoted_papers(text):
    """What PROMISES quotes, in its order: titles, sentences, and each row of a table or of a case alone."""
    papers, block = [], []
    for line in text.split("\n") + [""]:
        title = re.match(r'#+ "(.*)"$', line)
        row = re.match(r"> (\|.*|\w+=.*)$", line)
        if block and (row or not line.startswith(">")):
            papers.append(" ".join(block))
            block = []
        if title or row:
            papers.append((title or row).group(1).strip("|"))
        elif line.startswith(">"):
            block.append(line[1:])
    return [p for p in map(normal, papers) if p.strip("-| ")]


def comments(text):
    """Each comment of a file, lines joined, as a list of (line, text)."""
    run = []
    for number, line in enumerate(text.split("\n"), 1):
        alone = re.match(r"\s*--+ ?(.*)$", line)
        beside = re.match(r'(?:[^"]|"[^"]*")*? --+ (.*)$', line)
        if run and not alone:
            yield run
            run = []
        if alone:
            run.append((number, alone.group(1)))
        elif beside:
            yield [(number, beside.group(1))]
    if run:
        yield run


def quotations(text):
    """Line and text of each quotation; the text is None where the quotation has no end."""
    for run in comments(text):
        joined = " ".join(part for _, part in run)
        lines = [number for number, part in run for _ in range(len(part) + 1)]
        marks = [i for i, letter in enumerate(joined) if letter == '"']
        for start, end in zip(marks[::2], marks[1::2] + [None]):
            yield lines[start], joined[start + 1:end] if end else None


def stands_in(parts, text):
    at = 0
    for i, part in enumerate(parts):
        first = ("(?i:%s)" if i == 0 else "%s") % re.escape(part[0])
        before, after = r"(?<!\w)" if part[0].isalnum() else "", r"(?!\w)" if part[-1].isalnum() else ""
        match = re.compile(before + first + re.escape(part[1:]) + after).search(text, at)
        if not match:
            return False
        at = match.end()
    return True


def quotation_faults(text):
    papers = quoted_papers(text)
    whole, neighbours = [" ".join(papers)], [" ".join(pair) for pair in zip(papers, papers[1:])]
    for name in found("crates/*/specs/**/*.antt"):
        for line, quotation in quotations(read(name)):
            parts = [p.strip() for p in re.split(r"(?:^| )\.\.(?= |$|[;,:.])", normal(quotation or "")) if p.strip()]
            if not any(parts and stands_in(parts, paper) for paper in (neighbours if parts[1:] else whole)):
                yield '%s:%d: in no paper: "%s"' % (name, line, quotation) if quotation is not None \
                    else "%s:%d: a quotation without an end" % (name, line)


def main():
    text, names = read(DOCUMENT), crates()
    faults = [*name_faults(text, names), *omissions(text, names), *quotation_faults(text)]
    if faults:
        sys.exit("\n".join(dict.fromkeys(faults)))


if __name__ == "__main__":
    main()
