"""What documents and the C header say is proved, held to the sources; documents.py --check has the faults.

A theorem is a type without parameters that is declared in crates/*/specs, outside Inner: `abbrev pub X : Type 0` or
`pub record X : Type 0`, but for the types of data below. It is proved by a `pub x : X` in a file of the same crate's
proofs which takes X from the file that states it. Files that Lib.antt does not list are no part of a crate.

Every theorem is proved. Each point of the header's "What is proved" ends with the theorem that says it, in brackets,
and each row of docs/READING.md's table of theorems names its own, as code. A name of this form that stands in another
place of a document is a theorem, a definition or a type."""
import glob
import os
import re

ROOT = os.path.dirname(os.path.dirname(os.path.dirname(os.path.abspath(__file__))))
STATED = re.compile(r"(?m)^(?:(?:abbrev|unfoldable) pub|pub record) (\w+) : Type 0(?: where)?$")
DATA = {
    "Case", "Decoding", "Edge", "History", "KindFields", "LentCall", "PacketText", "Records", "Row", "Said", "Stage", "Stepping", "Worked",
}
# A name of several words, or of one with a number: `ReadExactly`, `Demand1`. One word alone is a type or a case.
NAME = re.compile(r"`([A-Z][a-z]+(?:[A-Z][a-z]+|\d+)+)`")
PARAGRAPH = re.compile(r"(?s) \* What is proved.*?\n \*\n")
TABLE = re.compile(r"(?m)^\| Theorem \|.*\n\|[-|]*\|\n((?:\|.*\n)+)")


def text_of(name):
    with open(os.path.join(ROOT, name), encoding="utf-8") as f:
        return f.read()


def listed(crate, folder):
    """The files of a crate's specs or proofs, by name, each with its text."""
    base = "crates/%s/%s/" % (crate, folder)
    if not os.path.exists(os.path.join(ROOT, base + "Lib.antt")):
        return {}
    names = re.findall(r"(?m)^(?:pub )?mod (\w+)$", text_of(base + "Lib.antt"))
    return {name: text_of(base + name + ".antt") for name in names if name != "Inner"}


def statements(crate):
    """Each theorem of a crate with the file that states it."""
    return {x: name for name, text in listed(crate, "specs").items() for x in STATED.findall(text) if x not in DATA}


def is_proved(crate, theorem, file):
    """Whether a file of the proofs takes the theorem from the file that states it, and proves it."""
    taken = re.compile(r"(?m)^use Rattle\.%s\.specs\.%s\.\{([^}]*)\}$" % (crate, file))
    proof = re.compile(r"(?m)^pub [\w-]+ : %s$" % theorem)
    return any(
        proof.search(text) and any(theorem in re.split(r",\s*", names.strip()) for names in taken.findall(text))
        for text in listed(crate, "proofs").values()
    )


def definitions():
    """Every name of specs and of the types and cases of the code."""
    names = set()
    for file in glob.glob(os.path.join(ROOT, "crates/*/specs/**/*.antt"), recursive=True):
        declared = r"(?m)^\s*(?:abbrev |unfoldable )?(?:pub )?(?:record |data )?(\w+) :"
        names.update(re.findall(declared, text_of(file)))
        names.update(re.findall(r"(?m)^\s*(?:pub )?(?:record|data) (\w+)", text_of(file)))
    for file in glob.glob(os.path.join(ROOT, "crates/*/src/**/*.rt"), recursive=True):
        names.update(re.findall(r"(?m)^\s*(?:pub(?:\(crate\))? )?(?:struct |enum )?([A-Z]\w*)", text_of(file)))
    return names


def header_faults(name, stated):
    """Each point of the header's "What is proved" ends with its theorem."""
    paragraph = PARAGRAPH.search(text_of(name))
    points = re.split(r"(?m)^ \*  - ", paragraph[0])[1:] if paragraph else []
    found = [] if points else ['%s: no points under "What is proved"' % name]
    for point in points:
        said = " ".join(re.sub(r"(?m)^ \*", "", point).split())
        end = re.search(r"\((\w+)\)[.]$", said)
        if not end or end[1] not in stated:
            found.append("%s: no theorem behind: %s" % (name, said))
    return found


def table_faults(name, stated):
    """Each row of the table of theorems names its own, and no other type."""
    table = TABLE.search(text_of(name))
    found = [] if table else ["%s: no table of theorems" % name]
    for row in table[1].splitlines() if table else []:
        words = NAME.findall(row)
        if not words or not all(word in stated for word in words):
            found.append("%s: a row without its theorem: %s" % (name, row))
    return found


def faults(crates, header, documents):
    """The faults of what is stated, of the header and of the documents."""
    found, stated, names = [], set(), definitions()
    for crate in crates:
        for theorem, file in statements(crate).items():
            stated.add(theorem)
            if not is_proved(crate, theorem, file):
                found.append("crates/%s/specs/%s.antt: %s is stated and not proved" % (crate, file, theorem))
    found += header_faults(header, stated) + table_faults("docs/READING.md", stated)
    for document in documents:
        for word in dict.fromkeys(NAME.findall(text_of(document))):
            if word not in stated and word not in names:
                found.append("%s: %s is neither a theorem nor a type" % (document, word))
    return found
