"""Self-test of the second table of open reads, of its console and of the stored call script.

Written from document 01 alone, like reads.py: the answers below are worked out by hand.  Prints one
summary line, or one line with the first failure and exits with 1.
"""

import sys
from collections import Counter
from pathlib import Path

sys.dont_write_bytecode = True   # the imports below leave no compiled files behind

import checks
import make_calls
import reads
from checks import require
from make_vectors import packet
from reads import Answer, Read, Table

STORED = Path(__file__).resolve().parent.parent.parent / "crates" / "calls"
LEAST_CALLS = 20_000
TOP = 1 << 64


# ---------------------------------------------------------------------------------------------
# A table with its store
# ---------------------------------------------------------------------------------------------

class Bench:
    """A table, the store and the output lent to it; tag 5 and requester 0100 unless told."""

    def __init__(self, mps=256, mrrs=4096, rcb=64, size=65_536, filler=0):
        self.table = Table(mps, mrrs, rcb, 0x0100)
        self.store = bytearray([filler]) * size
        self.output = bytearray(b"\xee" * 16)

    def open(self, address=0x1000, length=4, first=15, last=None, tc=0, attr=0, tag=5, start=0):
        """The number of an opening; the last enables are all set unless the length is 1."""
        if last is None:
            last = 0 if length == 1 else 15
        read = Read(address, length, first, last, tc, attr, start)
        return self.table.open(read, tag, self.store, self.output)

    def take(self, n, count, lower, form="CplD", tag=5, **changed):
        """The answer to a completion, of zeros unless a payload is given."""
        has_data = form in ("CplD", "MWr32")
        fields = {"payload": bytes(4 * n) if has_data else b"", "source": 0x0200} | changed
        data = packet(form, length=n, count=count, lower=lower, tag=tag, **fields)
        return self.table.take(data, self.store)

    def state(self):
        """All that a refused call must leave alone."""
        return (self.table.settings, self.table.requester, list(self.table.slots),
                bytes(self.store), bytes(self.output))


MORE, DONE, POISONED = Answer("more"), Answer("done"), Answer("poisoned")


def code(number):
    """The answer of a refused take."""
    return Answer("code", number)


def failed(status):
    """The answer to a failing status."""
    return Answer("failed", status)


def expect(what, answer, wanted):
    """One answer as it must be."""
    require(answer == wanted, "%s: %s instead of %s", what, answer, wanted)


# ---------------------------------------------------------------------------------------------
# Document 01's edges
# ---------------------------------------------------------------------------------------------

TOTALS = (1, 1, 1, 2, 1, 3, 2, 3, 1, 4, 3, 4, 2, 4, 3, 4)        # length 1, first 0000 to 1111
OFFS = (0, 0, 1, 0, 2, 0, 1, 0, 3, 0, 1, 0, 2, 0, 1, 0)
TRAILS = (3, 3, 2, 2, 1, 1, 1, 1, 0, 0, 0, 0, 0, 0, 0, 0)


def check_enables():
    """Off, trail and total of every nibble, and of some longer reads."""
    for first in range(16):
        seen = (reads.off(first), reads.trail(first), Read(0, 1, first, 0, 0, 0, 0).total)
        expect("enables %d" % first, seen, (OFFS[first], TRAILS[first], TOTALS[first]))
    for length, first, last, total in ((2, 12, 3, 4), (2, 8, 1, 2), (2, 10, 5, 6), (3, 8, 1, 6),
                                       (64, 15, 15, 256), (20, 8, 1, 74), (1024, 15, 15, 4096)):
        seen = Read(0, length, first, last, 0, 0, 0).total
        expect("total of length %d" % length, seen, total)


def cuttings(bench, sizes=()):
    """Every row of lengths in bytes that ends in Done, found by trying every length."""
    found = []
    for n in range(1, 65 - sum(sizes)):
        bench.table.slots[5] = None
        bench.open(0x10020, 64)
        for size in sizes:
            p1_piece(bench, size)
        answer = p1_piece(bench, n)
        if answer == DONE:
            found.append([4 * size for size in (*sizes, n)])
        elif answer == MORE:
            found += cuttings(bench, (*sizes, n))
    return found


def p1_piece(bench, n):
    """A piece of P1's read: all bytes enabled, from 10020h up to 10120h."""
    place = 0x10020 + 4 * bench.table.slots[5].taken
    return bench.take(n, 0x10120 - place, place % 128)


def check_cuttings():
    """P1 to P4."""
    expect("P1", sorted(cuttings(Bench(256, rcb=128))),
           [[96, 128, 32], [96, 160], [224, 32], [256]])
    expect("P2", cuttings(Bench(128, rcb=128)), [[96, 128, 32]])
    bench = Bench(128, rcb=128)
    bench.open(0x10020, 64)
    expect("P3, first", bench.take(24, 256, 32), MORE)
    expect("P3, second", bench.take(32, 160, 0), MORE)
    expect("P3, owed", bench.table.owed(), (0, 8))
    expect("P3, third", bench.take(8, 32, 0), DONE)
    for rcb, answer in ((64, MORE), (128, code(33))):
        bench = Bench(256, rcb=rcb)
        bench.open(0x10020, 64)
        expect("P4 at %d" % rcb, bench.take(8, 256, 32), answer)


def check_bytes():
    """P5 to P8: totals, lower addresses and the bytes that are written."""
    for what, length, first, last, count, lower, window in (
            ("P5", 1, 0b1010, 0, 3, 1, "aa 02 aa 04"),
            ("P6", 1, 0b0000, 0, 1, 0, "aa aa aa aa"),
            ("P7", 2, 0b1100, 0b0011, 4, 2, "aa aa 03 04 05 06 aa aa"),
            ("holes", 2, 0b0101, 0b1010, 8, 0, "01 aa 03 aa aa 06 aa 08"),
            ("ends", 3, 0b1000, 0b0001, 6, 3, "aa aa aa 04 05 06 07 08 09 aa aa aa")):
        bench = Bench(filler=0xAA)
        expect(what, bench.open(0x1000, length, first, last, start=8), 0)
        before = bench.state()
        for wrong in {count + 1, count - 1, 4 * length} - {count, 0}:
            expect(what + ", wrong count", bench.take(length, wrong, lower), code(33))
        expect(what + ", wrong address", bench.take(length, count, lower ^ 4), code(33))
        require(bench.state() == before, "%s: a refused take did something", what)
        payload = bytes(range(1, 4 * length + 1))
        expect(what, bench.take(length, count, lower, payload=payload), DONE)
        store = b"\xaa" * 8 + bytes.fromhex(window)
        require(bench.store == store.ljust(65_536, b"\xaa"), "%s: the store", what)
    bench = Bench(4096)
    expect("P8", bench.open(0x2000, 1024), 0)
    expect("P8, header", bench.output.hex(), "00000000010005ff00002000eeeeeeee")
    data = bytes.fromhex("4a000000 02000000 01000500") + bytes(range(256)) * 16
    expect("P8, completion", bench.table.take(data, bench.store), DONE)
    require(bench.store[:4097] == bytes(range(256)) * 16 + b"\0", "P8: the store")


def check_openings():
    """P9 to P11, headers, and each number of open alone."""
    for what, number, fields in (
            ("P9, length 1", 0, dict(address=0xFFC, length=1)),
            ("P9, length 2", 8, dict(address=0xFFC, length=2)),
            ("P10", 7, dict(length=3, first=0b1010)),
            ("P11", 7, dict(length=2, last=0)),
            ("length 1 with last enables", 7, dict(length=1, last=1)),
            ("length 2 with holes", 0, dict(length=2, first=9, last=9)),
            ("the very top", 0, dict(address=TOP - 16)),
            ("past a page at the top", 8, dict(address=TOP - 12)),
            ("address 2", 6, dict(address=2)), ("length 0", 6, dict(length=0)),
            ("length 1025", 6, dict(length=1025)), ("first 16", 6, dict(first=16)),
            ("last 16", 6, dict(last=16)), ("traffic class 8", 6, dict(tc=8)),
            ("attributes 8", 6, dict(attr=8)),
            ("tag 31", 0, dict(tag=31)), ("tag 32", 20, dict(tag=32)),
            ("tag 256", 20, dict(tag=256)), ("tag 2^32 - 1", 20, dict(tag=2**32 - 1)),
            ("start 2", 23, dict(start=2)), ("start 65,520", 0, dict(start=65_520)),
            ("start 65,524", 23, dict(start=65_524)), ("start 2^64 - 4", 23, dict(start=TOP - 4)),
            ("start 2^64 - 16", 23, dict(start=TOP - 16)),
            ("start 2^64 - 1", 23, dict(start=TOP - 1))):
        bench = Bench()
        before = bench.state()
        expect(what, bench.open(**fields), number)
        require(number == 0 or bench.state() == before, "%s: a refusal did something", what)
    for mrrs, length, number in ((128, 32, 0), (128, 33, 22), (512, 128, 0), (512, 129, 22)):
        expect("MRRS %d" % mrrs, Bench(mrrs=mrrs).open(length=length), number)
    for size, number in ((0, 23), (15, 23), (16, 0), (65_536, 0), (65_537, 23)):
        expect("store of %d" % size, Bench(size=size).open(), number)


def check_headers():
    """The header of document 01's capture, one of the 64-bit form, and 12."""
    bench = Bench(128, 512)
    expect("header", bench.open(0x1000, 1, 0), 0)
    expect("header", bench.output.hex(), "000000010100050000001000eeeeeeee")
    expect("wide header", bench.open(0x123456789ABCDEF0, 4, tc=5, attr=6, tag=31, start=64), 0)
    expect("wide header", bench.output.hex(), "2054200401001fff123456789abcdef0")
    for address, room, number in ((0xFFFFFFF0, 11, 12), (0xFFFFFFF0, 12, 0), (1 << 32, 15, 12),
                                  (1 << 32, 16, 0)):
        bench = Bench()
        bench.output = bytearray(room)
        expect("room for %d" % room, bench.open(address), number)
        require(number == 0 or not any(bench.output), "12 wrote to the output")


def check_windows():
    """24: touching windows stand, windows that share one DW do not."""
    for start, number in ((84, 0), (88, 24), (100, 24), (112, 24), (116, 0), (92, 24), (0, 0)):
        bench = Bench()
        bench.open(start=100)
        expect("window at %d" % start, bench.open(tag=6, start=start), number)
    bench = Bench()
    bench.open(start=100)
    expect("a window around", bench.open(length=16, tag=6, start=80), 24)
    bench.table.withdraw(5)
    expect("a freed window", bench.open(tag=6, start=100), 0)
    expect("a freed tag", bench.open(start=0), 0)


def check_withdrawals():
    """20 before 25; a tag is never cut to fewer bits; the store stays."""
    for tag, number in ((0, 0), (31, 0), (1, 25), (30, 25), (32, 20), (255, 20), (256, 20),
                        (287, 20), (1 << 31, 20), (2**32 - 1, 20)):
        bench = Bench(filler=9)
        bench.open(tag=0)
        bench.open(tag=31, start=16)
        expect("withdraw %d" % tag, bench.table.withdraw(tag), number)
        expect("owed", bench.table.owed(), (0, 8 if number else 4))
        require(set(bench.store) == {9}, "withdraw %d: the store", tag)


# ---------------------------------------------------------------------------------------------
# Errors that must not slip in, and what stands only once in document 01
# ---------------------------------------------------------------------------------------------

def check_errors():
    """The list of document 01."""
    bench = Bench()                       # subtracting 4n from Byte Count when off is not 0
    bench.open(0x1000, 20, 0b1000, 0b0001)
    expect("first piece", bench.take(16, 74, 3), MORE)
    for wrong in (74 - 64, 16, 12):
        expect("count %d" % wrong, bench.take(4, wrong, 64), code(33))
    expect("off in a later Lower Address", bench.take(4, 13, 67), code(33))
    expect("second piece", bench.take(4, 13, 64), DONE)
    bench = Bench()                       # cutting at multiples of RCB from the start
    bench.open(0x1020, 32)
    expect("64 bytes from the start", bench.take(16, 128, 32), code(33))
    expect("32 bytes up to a boundary", bench.take(8, 128, 32), MORE)
    bench = Bench()                       # freeing a tag because Byte Count was small
    bench.open(0x103C, 2, 0b1000, 0b0001)
    expect("count 2 of 4n = 4", bench.take(1, 2, 0x3F), MORE)
    expect("still open", bench.open(), 21)
    expect("still owed", bench.table.owed(), (0, 1))
    expect("the last DW", bench.take(1, 1, 0x40), DONE)
    expect("free", bench.table.withdraw(5), 25)
    bench = Bench()                       # A + 4L = 2^64
    bench.open(TOP - 160, 40)
    expect("up to a boundary below the top", bench.take(8, 160, 96), MORE)
    expect("off a boundary", bench.take(8, 128, 0), code(33))
    expect("the very top", bench.take(32, 128, 0), DONE)


def check_completions():
    """Take's answers one by one, with the tag open or free afterwards."""
    for what, answer, changed in (
            ("good", DONE, {}), ("with a digest", DONE, dict(td=1)),
            ("reserved bits", DONE, dict(th=1, at=3)),
            ("another completer", DONE, dict(source=0x1234)),
            ("a short packet", code(1), dict(cut=11)),
            ("an unknown kind", code(2), dict(byte0=0x4B)),
            ("a digest missing", code(3), dict(td=1, cut=28)),
            ("a byte more", code(3), dict(extra=b"\0")),
            ("over MPS", code(5), dict(n=65)), ("a write", code(29), dict(form="MWr32", last=15)),
            ("a read", code(29), dict(form="MRd32", last=15)),
            ("a message", code(29), dict(form="Msg")),
            ("another requester", code(30), dict(requester=0x0101)),
            ("a free tag", code(30), dict(tag=6)),
            ("tag 37", code(30), dict(tag=37)), ("tag 255", code(30), dict(tag=255)),
            ("another class", code(31), dict(tc=1)), ("Attr[2]", code(31), dict(attr=4)),
            ("Attr[0]", code(31), dict(attr=1)), ("BCM", code(32), dict(bcm=1)),
            ("status 010", code(32), dict(form="Cpl", status=2)),
            ("status 000 without data", code(32), dict(form="Cpl")),
            ("status 001 with data", code(32), dict(status=1)),
            ("status 011 with data", code(32), dict(status=3)),
            ("status 001", failed(1), dict(form="Cpl", status=1)),
            ("status 100", failed(4), dict(form="Cpl", status=4)),
            ("status 011", failed(1), dict(form="Cpl", status=3)),
            ("status 101", failed(1), dict(form="Cpl", status=5)),
            ("status 110", failed(1), dict(form="Cpl", status=6)),
            ("status 111", failed(1), dict(form="Cpl", status=7)),
            ("a DW too many", code(33), dict(n=5)), ("off a boundary", code(33), dict(n=3)),
            ("a boundary past the end", code(33), dict(n=16)),
            ("poisoned", POISONED, dict(ep=1))):
        bench = Bench(filler=0xAA)
        bench.open()
        before = bench.state()
        expect(what, bench.take(**dict(n=4, count=16, lower=0) | changed), answer)
        require(answer.name != "code" or bench.state() == before, "%s: it did something", what)
        require(answer == DONE or bytes(bench.store) == before[3], "%s: the store", what)
        expect(what + ", the tag", bench.table.withdraw(5), 0 if answer.name == "code" else 25)


def check_stores():
    """34 is about the whole window, and about a store over 65,536."""
    for size, answer in ((0, code(34)), (64, code(34)), (79, code(34)), (80, MORE), (65_536, MORE),
                         (65_537, code(34))):
        for ep in (0, 1):
            bench = Bench()
            bench.open(0x1000, 20)
            bench.store = bytearray(size)
            expect("33 before a store of %d" % size, bench.take(16, 79, 0, ep=ep), code(33))
            wanted = POISONED if ep and answer == MORE else answer
            expect("a store of %d" % size, bench.take(16, 80, 0, ep=ep), wanted)
            if bench.table.slots[5]:
                seen = bench.take(0, 1, 0, "Cpl", status=4, ep=ep)
                expect("Failed with a store of %d" % size, seen, failed(4))


# ---------------------------------------------------------------------------------------------
# The order of refusals
# ---------------------------------------------------------------------------------------------

OPEN_ORDER = (     # two faults at once, beside tag 5 at 100: the number of the first
    (6, dict(tc=8, last=0)), (6, dict(address=2, length=1024)), (6, dict(length=0, tag=32)),
    (7, dict(last=0, address=0xFFC)), (7, dict(first=5, tag=32)), (8, dict(address=0xFFC, tag=32)),
    (8, dict(address=0xFFC, tag=5)), (20, dict(tag=32, length=33)), (20, dict(tag=32, start=2)),
    (21, dict(tag=5, length=33)), (21, dict(tag=5, start=100)), (22, dict(length=33, start=2)),
    (22, dict(length=33, start=100)), (23, dict(start=102)), (23, dict(start=102, out=0)),
    (24, dict(start=100, out=0)), (24, dict(start=104, out=11)), (12, dict(out=11)),
)

TAKE_ORDER = (     # for a read with traffic class 3 and attributes 5: the answer of the first
    (code(1), dict(cut=8, byte0=0xFF)), (code(2), dict(byte0=0xFF, extra=b"\0")),
    (code(3), dict(n=65, extra=b"\0")), (code(5), dict(n=65, tag=6)),
    (code(5), dict(n=65, tag=6, form="MWr32", last=15)), (code(3), dict(form="MRd32", extra=b"\0")),
    (code(29), dict(form="MRd32", last=15, requester=1, tag=6)),
    (code(30), dict(requester=1, tc=0)), (code(30), dict(tag=6, bcm=1)),
    (code(30), dict(tag=6, form="Cpl", status=1)),
    (code(31), dict(tc=0, bcm=1)), (code(31), dict(attr=1, form="Cpl", status=1)),
    (code(31), dict(attr=4, count=1)), (code(32), dict(bcm=1, count=1)),
    (code(32), dict(form="Cpl", status=1, bcm=1)), (code(32), dict(status=1, ep=1)),
    (failed(1), dict(form="Cpl", status=1, count=1, lower=127)),
    (failed(4), dict(form="Cpl", status=4, ep=1)), (failed(1), dict(form="Cpl", status=7, size=0)),
    (code(33), dict(count=1, size=0)), (code(33), dict(lower=4, ep=1)),
    (code(34), dict(size=0, ep=1)), (code(34), dict(size=65_537, ep=1)), (POISONED, dict(ep=1)),
)


def check_order():
    """Calls with two faults give the first number; with a setting off the list they give 11."""
    for number, fields in OPEN_ORDER:
        for rcb in (64, 65):
            bench = Bench(128, 128)
            bench.open(start=100)
            fields = dict(tag=6, start=200) | fields
            bench.output = bytearray(fields.pop("out", 16))
            bench.table.rcb = rcb
            expect("open %s" % fields, bench.open(**fields), number if rcb == 64 else 11)
    for answer, fields in TAKE_ORDER:
        for rcb in (64, 65):
            bench = Bench()
            bench.open(tc=3, attr=5)
            fields = dict(n=4, count=16, lower=0, tc=3, attr=5) | fields
            bench.store = bytearray(fields.pop("size", 65_536))
            bench.table.rcb = rcb
            expect("take %s" % fields, bench.take(**fields), answer if rcb == 64 else code(11))


SOUND = Read(0x2000, 8, 15, 15, 0, 0, 1024, 2)
INVALID = (
    dict(address=0x2002), dict(length=0), dict(length=1025), dict(first=16), dict(last=16),
    dict(traffic_class=8), dict(attributes=8), dict(first=10), dict(last=10), dict(address=0x2FE4),
    dict(length=33), dict(start=1026), dict(start=65_508), dict(start=TOP - 32), dict(taken=8),
    dict(taken=9),
)


def check_invalid():
    """11 from every call for each reason, and nothing changed; then the table is sound again."""
    for index, changed in enumerate(({}, *INVALID, dict(mps=0), dict(mrrs=64), dict(rcb=32))):
        bench = Bench(256, 128)
        bench.open()
        settings = {name: changed[name] for name in ("mps", "mrrs", "rcb") if name in changed}
        fields = {name: value for name, value in changed.items() if name not in settings}
        vars(bench.table).update(settings)
        bench.table.slots[31 * (index % 2)] = Read(**vars(SOUND) | fields)
        before = bench.state()
        seen = (bench.open(tag=32, start=64), bench.take(4, 15, 0), bench.table.withdraw(6),
                bench.table.owed())
        wanted = (11, code(11), 11, (11, 0)) if changed else (20, code(33), 25, (0, 10))
        expect("table with %s" % changed, seen, wanted)
        require(bench.state() == before, "table with %s: a refusal did something", changed)


def check_forced():
    """Overlapping windows and p off a boundary do not make a table invalid."""
    bench = Bench(256, 512, 128)
    bench.table.slots[1] = Read(0x1000, 8, 8, 1, 0, 0, 0, 3)
    bench.table.slots[2] = Read(0x1000, 8, 15, 15, 0, 0, 4, 0)
    expect("owed", bench.table.owed(), (0, 13))
    expect("p off a boundary", bench.take(5, 17, 12, tag=1, payload=b"\1" * 20), DONE)
    require(bytes(bench.store[:36]) == bytes(12) + b"\1" * 17 + bytes(7), "the forced window")
    expect("the other read", bench.take(8, 32, 0, tag=2), DONE)


# ---------------------------------------------------------------------------------------------
# The console
# ---------------------------------------------------------------------------------------------

CONSOLE = (        # a script and what it prints, line by line
    ("owed", "owed dw=0"),
    ("bytes from=65535 len=1", "bytes 00"),
    ("bytes from=65536 len=0", "bytes "),
    ("bytes from=65536 len=1", "bad"),
    ("new mps=128 mrrs=512 rcb=64 req=0100", "new code=0"),
    ("open addr=1000 len=1 first=0 last=0 tc=0 attr=0 tag=5 start=0 out=12",
     "open code=0 out=000000010100050000001000"),
    ("record tag=5", "record tag=5 addr=1000 len=1 first=0 last=0 tc=0 attr=0 start=0 taken=0"),
    ("owed", "owed dw=1"),
    ("open addr=1000 len=1 first=0 last=0 tc=0 attr=0 tag=5 start=4 out=3",
     "open code=21 out=eeeeee"),
    ("open addr=1000 len=1 first=0 last=0 tc=0 attr=0 tag=6 start=4 out=33", "bad"),
    ("take tlp=4a000001020000010100050000000000", "take done"),
    ("record tag=5", "record tag=5 free"),
    ("take tlp=4a000001020000010100050000000000", "take code=30"),
    ("take tlp=", "take code=1"),
    ("take tlp=0", "bad"),
    ("force tag=31 addr=ffffffffffffff80 len=32 first=15 last=15 tc=7 attr=7 start=8 taken=16",
     "force"),
    ("withdraw tag=32", "withdraw code=20"),
    ("withdraw tag=30", "withdraw code=25"),
    ("take tlp=0a7430000200200001001f00", "take failed status=1"),
    ("settings mps=1 mrrs=2 rcb=3", "settings"),
    ("owed", "owed code=11"),
    ("fill byte=7", "fill byte=7"),
    ("bytes from=0 len=2", "bytes 0707"),
    ("new mps=1 mrrs=128 rcb=64 req=ffff", "new code=11"),
    ("bytes from=0 len=2", "bytes 0000"),
    ("withdraw tag=4294967295", "withdraw code=11"),
    ("withdraw tag=4294967296", "bad"),
    ("store len=1", "store len=1"),
    ("fill byte=97", "fill byte=97"),
    ("sum", "sum=af63dc4c8601ec8c"),      # FNV-1a of "a"
    ("store len=0", "store len=0"),
    ("sum", "sum=cbf29ce484222325"),      # FNV-1a of nothing
    ("store len=70000", "store len=70000"),
    ("store len=70001", "bad"),
    ("record tag=32", "bad"),
    ("", "bad"),
)


def check_console():
    """A short script, lines that are too long or not ended, and line ends."""
    script = "".join(line + "\n" for line, _ in CONSOLE).encode()
    printed = reads.run_script(reads.script_lines(script))
    for (line, output), seen in zip(CONSOLE, printed, strict=True):
        expect("line %s" % line, seen, output)
    for text, printed in (
            (b"", []), (b"\n", ["bad"]), (b"owed", ["bad"]), (b"owed\nowed", ["owed dw=0", "bad"]),
            (b"owed\r\n", ["bad"]), (b"owed\0\n", ["bad"]), (b"\xff\n", ["bad"]),
            (b"x" * 9000, ["bad"]), (b"x" * 9000 + b"\nowed\n", ["bad", "owed dw=0"]),
            (b"take tlp=" + b"00" * 4145 + b"\n", ["take code=3"]),
            (b"take tlp=" + b"00" * 4146 + b"\n", ["bad"]),
            (b"withdraw tag=" + b"1" * 8000 + b"\n", ["bad"])):
        expect("script %s" % text[:20], reads.run_script(reads.script_lines(text)), printed)


# ---------------------------------------------------------------------------------------------
# The stored files
# ---------------------------------------------------------------------------------------------

def stored_files():
    """The two stored files, required to equal those made anew and to belong together."""
    paths = [STORED / name for name in make_calls.NAMES]
    for path in paths:
        require(path.is_file(), "stored file %s is missing", path.name)
    script = make_calls.make()
    for path, contents in zip(paths, script.files()):
        require(path.read_bytes() == contents, "stored file %s differs from a new one", path.name)
    stdin, stdout = (path.read_bytes() for path in paths)
    require(reads.script_lines(stdin) == script.lines, "the stored script has other lines")
    require(stdout.decode().split("\n") == script.outputs + [""], "it prints other lines")
    return stdin, stdout


def count_calls(stdin, stdout):
    """The table calls of the stored script by their first word."""
    words = [line.split(b" ")[0].decode() for line, output in zip(stdin.split(b"\n"),
                                                                 stdout.split(b"\n"))
             if output != b"bad"]
    calls = Counter(word for word in words if word in ("open", "take", "withdraw", "owed"))
    require(sum(calls.values()) >= LEAST_CALLS, "only %d table calls", sum(calls.values()))
    return calls


CHECKS = (check_enables, check_cuttings, check_bytes, check_openings, check_headers, check_windows,
          check_withdrawals, check_errors, check_completions, check_stores, check_order,
          check_invalid, check_forced, check_console)


def all_checks():
    """Run every check, and say what was checked."""
    for check in CHECKS:
        check()
    calls = count_calls(*stored_files())
    return "%d table calls; %s" % (
        sum(calls.values()), ", ".join("%s %d" % pair for pair in sorted(calls.items())))


if __name__ == "__main__":
    sys.exit(checks.run("second table", all_checks))
