"""Holds the plain C tables (host/second/reads_plain.c) to the second one on the stored script of calls.

They are what the proved table is measured against, so they must do the same work.  Each form is built as
a shared library and put in the second table's place in the console that runs the script; every line must
print what crates/calls/stdout has.  Prints one summary line, or one line with the first failure and exits
with 1.
"""

import ctypes
import shutil
import subprocess
import sys
import tempfile
from pathlib import Path

sys.dont_write_bytecode = True   # the imports below leave no compiled files behind

ROOT = Path(__file__).resolve().parent.parent.parent
sys.path.insert(0, str(ROOT / "host" / "second"))

import checks
import reads
from checks import require

SECOND = ROOT / "host" / "second"
SOURCES = (SECOND / "reads_plain.c", SECOND / "packet_plain.c")
FLAGS = ("-std=c11", "-O2", "-Wall", "-Wextra", "-Wpedantic", "-Wconversion", "-Wshadow", "-Werror")
FORMS = {"256 slots": "-DPLAIN_SLOTS=256", "32 slots": "-DPLAIN_SLOTS=32",
         "256 slots by pointer": "-DPLAIN_BY_POINTER", "a set": "-DPLAIN_SET"}
OUTCOMES = ("code", "more", "done", "failed", "poisoned")    # plain_outcome, in its order


class Request(ctypes.Structure):
    """struct plain_request."""
    _fields_ = [("address", ctypes.c_uint64), ("start", ctypes.c_uint64), ("length", ctypes.c_uint32),
                ("first", ctypes.c_uint8), ("last", ctypes.c_uint8),
                ("traffic_class", ctypes.c_uint8), ("attributes", ctypes.c_uint8)]


class PlainAnswer(ctypes.Structure):
    """struct plain_answer."""
    _fields_ = [("outcome", ctypes.c_int), ("value", ctypes.c_uint32)]


def request_of(read):
    """What open gets of a read."""
    return Request(read.address, read.start, read.length, read.first, read.last,
                   read.traffic_class, read.attributes)


class Records:
    """The table's records, read and put as the second table's are."""

    def __init__(self, table):
        self.table = table

    def __getitem__(self, tag):
        request, taken = Request(), ctypes.c_uint32(0)
        if not self.table.call("record", tag, ctypes.byref(request), ctypes.byref(taken)):
            return None
        return reads.Read(request.address, request.length, request.first, request.last,
                          request.traffic_class, request.attributes, request.start, taken.value)

    def __setitem__(self, tag, read):
        self.table.call("force", tag, ctypes.byref(request_of(read)), read.taken)


def lent(data):
    """A pointer to the bytes of a bytearray, which C may change."""
    return (ctypes.c_uint8 * len(data)).from_buffer(data)


class PlainTable:
    """The C table with the second table's methods."""

    library = None

    def __init__(self, *made_from):
        self.fields = ctypes.create_string_buffer(self.library.plain_size())
        self.slots = Records(self)
        self.made = self.call("make", *made_from)

    def call(self, name, *arguments):
        """A function of reads_plain.h on the table."""
        return getattr(self.library, "plain_" + name)(self.fields, *arguments)

    def open(self, read, tag, store, output):
        """plain_open."""
        return self.call("open", ctypes.byref(request_of(read)), tag, ctypes.c_size_t(len(store)),
                         lent(output), ctypes.c_size_t(len(output)))

    def take(self, data, store):
        """plain_take."""
        answer = self.call("take", data, ctypes.c_size_t(len(data)), lent(store),
                           ctypes.c_size_t(len(store)))
        return reads.Answer(OUTCOMES[answer.outcome], answer.value)

    def withdraw(self, tag):
        """plain_withdraw."""
        return self.call("withdraw", tag)

    def owed(self):
        """plain_owed."""
        owed = ctypes.c_uint64(0)
        number = self.call("owed", ctypes.byref(owed))
        return number, owed.value


class PlainConsole(reads.Console):
    """The second console with the C table in its place."""

    def __init__(self):
        super().__init__()
        self.table = PlainTable(128, 128, 64, 0)

    def new(self, mps, mrrs, rcb, requester):
        """A new table; its number is the C table's too."""
        printed = super().new(mps, mrrs, rcb, requester)
        self.table = PlainTable(mps, mrrs, rcb, requester)
        require(printed == "new code=%d" % self.table.made, "making a table: another number")
        return printed

    def set_settings(self, *settings):
        """Settings, unchecked."""
        self.table.call("put_settings", *settings)
        return "settings"


COMMANDS = {**reads.COMMANDS, "new": (PlainConsole.new, reads.COMMANDS["new"][1]),
            "settings": (PlainConsole.set_settings, reads.COMMANDS["settings"][1])}


def build(folder, form):
    """A form of the C table as a shared library."""
    path = str(Path(folder) / (form + ".so"))
    made = subprocess.run(["cc", *FLAGS, FORMS[form], "-shared", "-fPIC", "-o", path, *map(str, SOURCES)],
                          capture_output=True)
    require(made.returncode == 0 and not made.stderr, "%s: it does not build: %s", form,
            made.stderr.decode())
    library = ctypes.CDLL(path)
    library.plain_take.restype = PlainAnswer
    library.plain_size.restype = ctypes.c_size_t
    library.plain_record.restype = ctypes.c_bool
    for name in ("plain_make", "plain_open", "plain_withdraw", "plain_owed"):
        getattr(library, name).restype = ctypes.c_uint32
    return library


def check_script(form, lines, expected):
    """Every line prints what the stored output has."""
    console = PlainConsole()
    for number, (line, answer) in enumerate(zip(lines, expected, strict=True), 1):
        seen = console.run(line)
        require(seen == answer, "%s, line %d, %s: %s, not %s", form, number, line, seen, answer)


def all_checks():
    """Run every check, and say what was checked."""
    require(shutil.which("cc"), "missing tool: cc (a C compiler)")
    folder = ROOT / "crates" / "calls"
    lines = reads.script_lines((folder / "stdin").read_bytes())
    expected = (folder / "stdout").read_text(encoding="ascii").splitlines()
    reads.COMMANDS = COMMANDS
    with tempfile.TemporaryDirectory() as built:
        for form in FORMS:
            PlainTable.library = build(built, form)
            check_script(form, lines, expected)
    return "%d lines of the script with %s" % (len(lines), ", ".join(FORMS))


if __name__ == "__main__":
    sys.exit(checks.run("plain table", all_checks))
