#!/usr/bin/env python3
"""Fills the marked parts of the documents and of the C header from their sources: the numbers from numbers.txt, the packet record from
record.txt, the definitions to believe, the lines of each crate, the must-fail edits and the example of a table from the tree.

    documents.py --write    fill them
    documents.py --check    fail, with a line for each fault, where a part is not what it would be filled with, a document is larger than
                            it may be, a line is too wide, a name stands for nothing in the tree, a public function has no row in
                            docs/TESTING.md, README shows another answer than the second implementation gives, or a theorem that a
                            document or the header names is not stated and proved (theorems.py), or the refusals of crate
                            tlp are not those of numbers.txt
"""
import glob
import os
import re
import sys
import textwrap

ROOT = os.path.dirname(os.path.dirname(os.path.dirname(os.path.abspath(__file__))))
sys.dont_write_bytecode = True   # the imports below leave no compiled files behind
sys.path.insert(0, os.path.join(ROOT, "host", "second"))

import capture
import reads
import theorems

HEADER = "host/include/tollpebble.h"
# The most bytes of a document, the columns of a line, and the lines of an entry in docs/LANDINGS.md.
SIZES = {"README.md": 8192, "docs/PROMISES.md": 69632}
COLUMNS = 120
ENTRY_LINES = 15
# PROMISES has a check of its own (promises.py); LANDINGS, DESIGN-PASS and LOOK-BACK are history, with the names of their
# day.
HISTORY = ["docs/LANDINGS.md", "docs/DESIGN-PASS.md", "docs/LOOK-BACK.md"]
NAMES_UNCHECKED = ["docs/PROMISES.md"] + HISTORY
# The crates of the kit that documents name functions of.
KIT = ["bytes", "io", "libc", "os", "std"]


def path(*parts):
    return os.path.join(ROOT, *parts)


def lines_of(name):
    with open(name, encoding="utf-8") as f:
        return f.read().splitlines()


def text_of(name):
    with open(path(name), encoding="utf-8") as f:
        return f.read()


def documents():
    """Every document, README first."""
    return ["README.md"] + sorted(os.path.relpath(n, ROOT) for n in glob.glob(path("docs", "*.md")))


def crates():
    """The listed crates of the repository, in the order of crates.txt."""
    names = []
    for line in lines_of(path("crates.txt")):
        line = line.split("#")[0].strip()
        if line:
            names.append(line.split(":")[0].split()[0])   # a static library has a word behind its name
    return names


def entries(name):
    """The lines of a list, without its comments."""
    return [line for line in lines_of(path(name)) if line.strip() and not line.startswith("#")]


def listed_numbers():
    """Every number with its name and its sentence."""
    return [line.split(" ", 2) for line in entries("numbers.txt")]


def listed_fields():
    """Every field of the packet record: first byte, size, name, which kinds have it, what it holds."""
    fields = []
    for line in entries("record.txt"):
        place, kinds, text = line.split(" | ")
        start, size, name = place.split(" ")
        fields.append((int(start), int(size), name, kinds, text))
    return fields


def numbers():
    """The table of numbers."""
    return ["| No. | Given when |", "|---|---|"] + ["| %s | %s |" % (number, sentence) for number, _, sentence in listed_numbers()]


def record():
    """The table of the packet record."""
    rows = ["| Bytes | Field | Of which kinds |", "|---|---|---|"]
    for start, size, _, kinds, text in listed_fields():
        place = str(start) if size == 1 else "%d-%d" % (start, start + size - 1)
        rows.append("| %s | %s | %s |" % (place, text, kinds))
    return rows + ["| 45-47 | 0 | |"]


# ---- the C header


def c_comment(text, indent=""):
    """A comment, folded."""
    rows = textwrap.wrap(text, 97, initial_indent=indent + "/* ", subsequent_indent=indent + " * ")
    return rows[:-1] + [rows[-1] + " */"]


def c_numbers():
    """The numbers as constants, each below its sentence."""
    rows = ["enum {", "    /* No fault. */", "    TOLLPEBBLE_ACCEPTED = 0"]
    for number, name, sentence in listed_numbers():
        rows[-1] += ","
        rows += c_comment(sentence, "    ") + ["    TOLLPEBBLE_%s = %s" % (name, number)]
    return rows + ["};"]


def c_sentences():
    """The sentence of each number, as a case."""
    rows = []
    for _, name, sentence in listed_numbers():
        parts = textwrap.wrap(sentence, 84, drop_whitespace=False)
        rows.append("    case TOLLPEBBLE_%s:" % name)
        rows += ["        %s\"%s\"" % ("return " if i == 0 else "       ", part) for i, part in enumerate(parts)]
        rows[-1] += ";"
    return rows


def c_offsets():
    """Where each field of the record starts."""
    rows = ["enum {"]
    for start, size, name, kinds, text in listed_fields():
        bytes_of = "1 byte" if size == 1 else "%d bytes" % size
        rows += c_comment("%s. Of %s; %s." % (text[0].upper() + text[1:], kinds, bytes_of), "    ")
        rows.append("    TOLLPEBBLE_AT_%s = %d," % (name.upper(), start))
    return rows + ["    TOLLPEBBLE_RECORD_SIZE = 48", "};"]


def c_accessors():
    """A getter and a setter for each field of the record."""
    rows = []
    for _, size, name, _, _ in listed_fields():
        bits = 8 * size
        at = "record + TOLLPEBBLE_AT_%s" % name.upper()
        rows += [
            "static inline uint%d_t tollpebble_get_%s(const uint8_t *record)" % (bits, name),
            "{",
            "    return tollpebble_load%d(%s);" % (bits, at),
            "}",
            "",
            "static inline void tollpebble_set_%s(uint8_t *record, uint%d_t value)" % (name, bits),
            "{",
            "    tollpebble_store%d(%s, value);" % (bits, at),
            "}",
            "",
        ]
    return rows[:-1]


def files_below(folder, ending):
    found = []
    for base, _, names in os.walk(folder):
        found += [os.path.join(base, n) for n in names if n.endswith(ending)]
    return sorted(found)


def spec_files(crate, inner):
    """A crate's files of definitions: those to believe, or those of specs/Inner, which serve inner functions and proofs alone."""
    specs = path("crates", crate, "specs")
    lists = [os.path.join(specs, "Lib.antt"), os.path.join(specs, "Inner.antt")]
    hidden = os.path.join(specs, "Inner") + os.sep
    return [n for n in files_below(specs, ".antt") if n not in lists and n.startswith(hidden) == inner]


def lines_in(names):
    return sum(len(lines_of(n)) for n in names)


def heading(text):
    """The comment at the head of a file, as one line."""
    said = []
    for line in text:
        if not line.startswith("-- "):
            break
        said.append(line[3:].strip())
    return " ".join(said)


def definitions():
    """The files of definitions to believe with their line counts and the first words of each."""
    rows = ["| File under crates/ | Lines | What it defines |", "|---|---|---|"]
    for crate in crates():
        for name in spec_files(crate, False):
            text = lines_of(name)
            said = re.split(r"(?<=[.]) ", heading(text))[0]
            rows.append("| %s | %d | %s |" % (os.path.relpath(name, path("crates")), len(text), said))
    return rows


def believed():
    """How much there is to believe."""
    names = [n for crate in crates() for n in spec_files(crate, False)]
    return ["To believe: %s lines of definitions in %d files." % (format(lines_in(names), ","), len(names))]


def has_code(crate):
    """Whether a crate has a function or a constant."""
    return any(re.search(r"\b(?:fn|const) \w", text_of(n)) for n in files_below(path("crates", crate, "src"), ".rt"))


def counts():
    """Lines of code, of definitions to believe, of inner definitions and of proof of each crate."""
    rows = ["| Crate | Code | Definitions | Inner definitions | Proof | Proof to a line of code |", "|---|---|---|---|---|---|"]
    sums = [0, 0, 0, 0]
    for crate in crates():
        lines = [
            lines_in(files_below(path("crates", crate, "src"), ".rt")),
            lines_in(spec_files(crate, False)),
            lines_in(spec_files(crate, True)),
            lines_in(files_below(path("crates", crate, "proofs"), ".antt")),
        ]
        sums = [a + b for a, b in zip(sums, lines)]
        ratio = "%.1f" % (lines[3] / lines[0]) if has_code(crate) else "theorems only"
        rows.append("| %s | %d | %d | %d | %d | %s |" % (crate, *lines, ratio))
    rows.append("| all | %d | %d | %d | %d | %.1f |" % (*sums, sums[3] / sums[0]))
    return rows


def edits():
    """The must-fail edits, each with the promise that it breaks: the first line of its file."""
    rows = ["| Edit | The promise that it breaks |", "|---|---|"]
    for crate in crates():
        for name in sorted(glob.glob(path("crates", crate, "must-fail", "*.edit"))):
            rows.append("| %s/%s | %s |" % (crate, os.path.basename(name)[:-5], lines_of(name)[0].lstrip("# ")))
    return rows


def example():
    """The calls of the example of a table, and what they print."""
    source = text_of("crates/example_table/src/main.rt")
    calls = source[source.index("// ---- calls"):].rstrip().splitlines()
    printed = lines_of(path("crates", "example_table", "stdout"))
    return ["```rust"] + calls + ["```", "", "prints", "", "```"] + printed + ["```"]


PARTS = {
    "numbers": numbers,
    "record": record,
    "definitions": definitions,
    "believed": believed,
    "counts": counts,
    "edits": edits,
    "example": example,
    "c_numbers": c_numbers,
    "c_sentences": c_sentences,
    "c_offsets": c_offsets,
    "c_accessors": c_accessors,
}
# A part stands between two marks: comments of Markdown or of C.
MARKS = re.compile(r"(?P<start>(?:<!--|/\*) made: (?P<name>\w+) (?:-->|\*/)\n).*?(?P<end> *(?:<!--|/\*) end (?:-->|\*/))", re.S)


def filled(text):
    return MARKS.sub(lambda match: match["start"] + "\n".join(PARTS[match["name"]]()) + "\n" + match["end"], text)


# ---- faults of a document


def is_wide(line):
    """A row of a table and a line of code can't be wrapped."""
    return len(line) > COLUMNS and not line.startswith(("|", "    "))


def wide_lines(name):
    """The lines that are too wide, outside made parts, tables and code."""
    found = []
    made = code = False
    for at, line in enumerate(text_of(name).splitlines(), 1):
        if line.startswith("<!-- "):
            made = line.startswith("<!-- made: ")
        elif line.startswith("```"):
            code = not code
        elif not made and not code and is_wide(line):
            found.append("%s:%d: %d columns, more than %d" % (name, at, len(line), COLUMNS))
    return found


def long_entries(name):
    """The entries that are too long, of a document whose entries begin with `## N.`."""
    found = []
    for entry in re.split(r"(?m)^## ", text_of(name))[1:]:
        title, _, body = entry.partition("\n")
        lines = len(body.strip().splitlines())
        if re.match(r"\d+\.", title) and lines > ENTRY_LINES:
            found.append("%s: entry %s has %d lines, more than %d" % (name, title, lines, ENTRY_LINES))
    return found


def has_function(crate, name):
    """Whether a crate has a module or a function of that name."""
    sources = files_below(path("crates", crate, "src"), ".rt")
    module = path("crates", crate, "src", name + ".rt") in sources
    return module or any(re.search(r"\bfn %s\b" % name, text_of(n)) for n in sources)


def is_there(word, names):
    """Whether a word that names a file, an edit, a module or a function finds it."""
    file = re.match(r"(?:crates/)?(\w+/(?:specs|proofs|src)/[\w/]+\.\w+)$", word)
    if file:
        return os.path.exists(path("crates", file[1]))
    if re.match(r"(docs|host|samples)/[\w/]+\.\w+$", word):
        return os.path.exists(path(word))
    edit = re.match(r"(\w+)/([a-z0-9_]+)$", word)
    if edit and edit[1] in names:
        return os.path.exists(path("crates", edit[1], "must-fail", edit[2] + ".edit"))
    function = re.match(r"([a-z]\w*)::(?:\w+::)*(\w+)$", word)
    if function and function[1] not in KIT:
        return has_function(function[1], function[2])
    return True


def missing_names(name):
    """What stands between backticks and names nothing."""
    names = crates()
    text = re.sub(r"(?ms)^```.*?^```$", "", text_of(name))
    words = [" ".join(word.split()) for word in re.findall(r"`([^`]+)`", text)]
    return ["%s: nothing is called %s" % (name, word) for word in dict.fromkeys(words) if not is_there(word, names)]


def functions_left_out(name):
    """The public functions that a document does not name."""
    named = {(word[0], word[1]) for word in re.findall(r"`([a-z]\w*)::(?:\w+::)*(\w+)`", text_of(name))}
    found = []
    for crate in crates():
        for source in files_below(path("crates", crate, "src"), ".rt"):
            public = re.findall(r'(?m)^\s*pub (?:extern "C" )?fn (\w+)', text_of(source))
            found += ["%s: %s::%s is left out" % (name, crate, f) for f in public if (crate, f) not in named]
    return found


def shown(name, words):
    """The rows of a document's tables that begin with one of the words as code, and what the second column has as code."""
    rows = re.findall(r"(?m)^\| `((?:%s)\b.*?)` \| (.*) \|$" % words, text_of(name))
    return [line for line, _ in rows], [answer for _, cell in rows for answer in re.findall("`(.*?)`", cell)]


def wrong_examples(name):
    """Where a capture or a script of calls that a document shows has other answers."""
    lines, answers = shown(name, "mps|at")
    decoded = capture.decode("".join(line + "\n" for line in lines).encode()).decode().splitlines()
    calls, given = shown(name, "new|open|owed|take|bytes|withdraw")
    console = reads.Console()
    right = lines and calls and answers == decoded and given == [console.run((call + "\n").encode()) for call in calls]
    return [] if right else ["%s: the second implementation gives other answers than it shows" % name]


def refusals():
    """The cases of the library's enum of refusals: each number under its name for C, in camel case."""
    names = [(number, "".join(w if w[0].isdigit() else w.capitalize() for w in name.split("_"))) for number, name, _ in listed_numbers()]
    return "pub enum Refusal {\n%s}\n" % "".join("    %s = %s,\n" % (name, number) for number, name in names)


def faults():
    found = []
    if refusals() not in text_of("crates/tlp/src/refusal.rt"):
        found.append("crates/tlp/src/refusal.rt: its refusals are not those of numbers.txt")
    for name in documents() + [HEADER]:
        if filled(text_of(name)) != text_of(name):
            found.append("%s: a made part is stale: run host/tools/documents.py --write" % name)
    for name in documents():
        size = os.path.getsize(path(name))
        if size > SIZES.get(name, size):
            found.append("%s: %d bytes, more than %d" % (name, size, SIZES[name]))
        found += wide_lines(name)
        if name not in NAMES_UNCHECKED:
            found += missing_names(name)
    found += long_entries("docs/LANDINGS.md") + functions_left_out("docs/TESTING.md") + wrong_examples("README.md")
    return found + theorems.faults(crates(), HEADER, [name for name in documents() if name not in HISTORY])


def write():
    for name in documents() + [HEADER]:
        new = filled(text_of(name))
        if new != text_of(name):
            with open(path(name), "w", encoding="utf-8") as f:
                f.write(new)


def main():
    if sys.argv[1:] == ["--write"]:
        write()
    elif sys.argv[1:] == ["--check"]:
        found = faults()
        if found:
            sys.exit("\n".join(found))
    else:
        sys.exit(__doc__)


main()
