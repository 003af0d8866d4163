"""A call script that is run while it is written, for make_calls.py.

Byte Count and Lower Address of a piece are counted here from the first byte still wanted to the
last one, as document 01's totals come out, and not by way of reads.py.
"""

from collections import Counter

import reads
from make_vectors import Xorshift, packet
from reads import STORE_LIMIT, TAG_LIMIT, Read

BOUNDARIES = (64, 128)
TOP = 1 << 64
REQUESTER = 0x0100
OVER_TAGS = (32, 33, 63, 255, 256, 257, 4294967295)
FAILING = (1, 3, 4, 5, 6, 7)          # statuses without data that close a read
RESERVED_BITS = bytes.fromhex("008b0c000000000000000080")   # of a completion with data

TABLE_CALLS = ("open", "take", "withdraw", "owed")
NAMES = ("stdin", "stdout")
FILE_LIMITS = (3_000_000, 2_000_000)
SUM_EVERY = 90           # table calls between two checksums of the store


# ---------------------------------------------------------------------------------------------
# What document 01 makes of a read, counted from addresses
# ---------------------------------------------------------------------------------------------

def set_bits(enables):
    """The places of the set bits; 0000 counts as the lowest byte, which makes a total of 1."""
    return [bit for bit in range(4) if enables >> bit & 1] or [0]


def count_and_lower(read, taken):
    """Byte Count and Lower Address of the piece that begins after `taken` DWs."""
    ending = read.first if read.length == 1 else read.last
    final = read.address + 4 * (read.length - 1) + max(set_bits(ending))
    begin = read.address + (4 * taken if taken else min(set_bits(read.first)))
    return final - begin + 1, begin % 128


def lawful_sizes(read, mps, rcb):
    """The lengths in DWs with which the read may go on."""
    place = read.address + 4 * read.taken
    return [n for n in range(1, min(read.left, mps // 4) + 1)
            if n == read.left or (place + 4 * n) % rcb == 0]


def wanted(read):
    """For each byte of the window, whether it is enabled."""
    middle = [15] * (read.length - 2)
    enables = [read.first] if read.length == 1 else [read.first, *middle, read.last]
    return [nibble >> bit & 1 == 1 for nibble in enables for bit in range(4)]


# ---------------------------------------------------------------------------------------------
# The script
# ---------------------------------------------------------------------------------------------

OPENING = {"addr": 0x2000, "len": 4, "first": 15, "last": 15, "tc": 0, "attr": 0, "tag": 5,
           "start": 256, "out": 16}


def read_of(addr, len, first, last, tc, attr, start, taken=0, **_):
    """A read from the keys of an `open` line."""
    return Read(addr, len, first, last, tc, attr, start, taken)


def opening_fields(read):
    """The keys of an `open` line for a read."""
    return {"addr": read.address, "len": read.length, "first": read.first, "last": read.last,
            "tc": read.traffic_class, "attr": read.attributes, "start": read.start}


def failed(status):
    """The answer to a failing status; reserved ones report as 1."""
    return "failed status=%d" % (4 if status == 4 else 1)


def with_bits(data, bits):
    """A packet with some bits of its header set."""
    return bytes(a | b for a, b in zip(data, bits.ljust(len(data), b"\0")))


class Script:
    """The lines so far with their outputs; every line is run as soon as it is written."""

    def __init__(self):
        self.console = reads.Console()
        self.random = Xorshift(0xD1B54A32D192ED03)
        self.lines = []
        self.outputs = []
        self.calls = 0
        self.counts = Counter()
        self.pairs = Counter()
        self.statuses = Counter()

    # Lines

    def put(self, line, expect=None):
        """Run and keep one line, given as bytes; stop if it prints something unexpected."""
        output = self.console.run(line)
        if expect is not None and output != expect:
            raise ValueError("%s instead of %s for %s" % (output, expect, line[:120]))
        self.lines.append(line)
        self.outputs.append(output)
        self.counts[answer_name(output)] += 1
        return output

    def say(self, text, expect=None):
        """One line without its newline."""
        output = self.put(text.encode() + b"\n", expect)
        if text.split(" ")[0] in TABLE_CALLS and output != "bad":
            self.calls += 1
            if self.calls % SUM_EVERY == 0:
                self.put(b"sum\n")
        return output

    def bad(self, text):
        """A line that prints `bad` and changes nothing."""
        table, store = self.state()
        self.say(text, "bad")
        if (table, store) != self.state():
            raise ValueError("a bad line did something: %s" % text[:120])

    def state(self):
        """Copies of table and store."""
        table = self.console.table
        return (table.settings, table.requester, list(table.slots)), bytes(self.console.store)

    def new(self, mps=128, mrrs=512, rcb=64, req=REQUESTER, expect=0):
        """A new table."""
        self.say("new mps=%d mrrs=%d rcb=%d req=%04x" % (mps, mrrs, rcb, req),
                 "new code=%d" % expect)

    def settings(self, mps=128, mrrs=512, rcb=64):
        """Settings put into the table."""
        self.say("settings mps=%d mrrs=%d rcb=%d" % (mps, mrrs, rcb), "settings")

    def store(self, size):
        """A store of zeros."""
        self.say("store len=%d" % size, "store len=%d" % size)

    def fill(self, byte):
        """A store of one byte's value."""
        self.say("fill byte=%d" % byte, "fill byte=%d" % byte)

    def open(self, expect=None, **changed):
        """An opening; `expect` is its number, if that is known beforehand."""
        fields = OPENING | changed
        output = self.say("open addr=%x len=%d first=%d last=%d tc=%d attr=%d tag=%d start=%d "
                          "out=%d" % tuple(fields[key] for key in OPENING))
        number = int(output.split(" ")[1].removeprefix("code="))
        if expect is not None and number != expect:
            raise ValueError("%s instead of %d for %s" % (output, expect, fields))
        if number and output != "open code=%d out=%s" % (number, "ee" * fields["out"]):
            raise ValueError("a refused opening wrote: %s" % output)
        return number

    def take(self, data, expect=None):
        """A taking; `expect` is a number or the answer's words."""
        if isinstance(expect, int):
            expect = "code=%d" % expect
        return self.say("take tlp=" + data.hex(), expect and "take " + expect)

    def withdraw(self, tag, expect=None):
        """A withdrawal."""
        self.say("withdraw tag=%d" % tag, None if expect is None else "withdraw code=%d" % expect)

    def owed(self, expect=None):
        """The question of what is owed; without `expect` the sum is made here."""
        if expect is None:
            expect = "dw=%d" % sum(read.left for _, read in self.open_tags())
        self.say("owed", "owed " + expect)

    def record(self, tag, expect=None):
        """A tag's record; `expect` is the read or "free"."""
        if isinstance(expect, Read):
            expect = "addr=%x len=%d first=%d last=%d tc=%d attr=%d start=%d taken=%d" % (
                expect.address, expect.length, expect.first, expect.last, expect.traffic_class,
                expect.attributes, expect.start, expect.taken)
        self.say("record tag=%d" % tag, expect and "record tag=%d %s" % (tag, expect))

    def bytes(self, start, size, expect=None):
        """Bytes of the store."""
        self.say("bytes from=%d len=%d" % (start, size),
                 None if expect is None else "bytes " + bytes(expect).hex())

    def sum(self):
        """A checksum of the store."""
        self.put(b"sum\n")

    def force(self, tag, read):
        """A record put into the table."""
        self.say("force tag=%d addr=%x len=%d first=%d last=%d tc=%d attr=%d start=%d taken=%d" % (
            tag, read.address, read.length, read.first, read.last, read.traffic_class,
            read.attributes, read.start, read.taken), "force")

    # Reads and their pieces

    def read(self, tag):
        """The read open under a tag, or None."""
        return self.console.table.slots[tag] if tag < TAG_LIMIT else None

    def open_tags(self):
        """The open tags with their reads."""
        return [(tag, read) for tag, read in enumerate(self.console.table.slots) if read]

    def random_bytes(self, count):
        """A payload."""
        words = (self.random.next().to_bytes(8, "big") for _ in range(0, count, 8))
        return b"".join(words)[:count]

    def piece(self, tag, /, n=None, read=None, **changed):
        """The next piece of a tag's read, of all DWs still owed unless n is given; any faults."""
        read = read or self.read(tag)
        count, lower = count_and_lower(read, read.taken)
        fields = {
            "form": "CplD", "length": read.left if n is None else n, "count": count,
            "lower": lower, "tc": read.traffic_class, "attr": read.attributes, "tag": tag,
            "requester": self.console.table.requester, "source": self.random.below(1 << 16),
        } | changed
        form = fields.pop("form")
        if form == "CplD":
            fields.setdefault("payload", self.random_bytes(4 * fields["length"]))
        return packet(form, **fields)

    def files(self):
        """The contents of the two files."""
        stdin = b"".join(self.lines)
        stdout = "".join(line + "\n" for line in self.outputs).encode()
        for name, contents, limit in zip(NAMES, (stdin, stdout), FILE_LIMITS):
            if len(contents) > limit:
                raise ValueError("%s is too large: %d" % (name, len(contents)))
        return stdin, stdout


def answer_name(output):
    """The output without what differs from call to call."""
    words = output.split(" ")
    if words[0] in ("open", "new", "withdraw"):
        return " ".join(words[:2])
    if words[0] == "record":
        return "record free" if words[2] == "free" else "record open"
    if words[0] == "owed":
        return "owed nothing" if output == "owed dw=0" else "owed " + words[1].split("=")[0]
    return output if words[0] == "take" else words[0].split("=")[0]
