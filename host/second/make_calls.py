"""Make the stored call script for the table of open reads, and what it prints.

    make_calls.py [DIR]

writes DIR/stdin (the script) and DIR/stdout (the answers of the second implementation); without
DIR they go where the files of the `calls` program are stored.  The same files come out of every
run: all numbers come from a generator with a fixed seed.

Where an answer is known beforehand it is stated, by document 01, and compared with that of the
second implementation while the script is made.
"""

import sys
from dataclasses import replace
from pathlib import Path

sys.dont_write_bytecode = True   # the imports below leave no compiled files behind

import tlp
from call_faults import (ORDERED_DATA, ORDERED_FAILING, ORDERED_OPEN, bad_lines, changed_settings,
                         data_orders, failing_orders, invalid_tables, open_orders, reached_by_none,
                         small_orders, unended_line, unlisted_settings)
from call_script import (BOUNDARIES, FAILING, NAMES, OPENING, OVER_TAGS, REQUESTER, RESERVED_BITS,
                         TOP, Script, count_and_lower, failed, lawful_sizes, read_of, wanted,
                         with_bits)
from call_traffic import traffic
from make_vectors import FORMS, SIZES, packet, random_enables
from reads import STORE_LIMIT, TAG_LIMIT

STORED = Path(__file__).resolve().parent.parent.parent / "crates" / "calls"
LEAST_CALLS = 20_000
LEAST_PAIRS = 4          # how often each adjacent pair of faults must be tried at least

# ---------------------------------------------------------------------------------------------
# Document 01's edges
# ---------------------------------------------------------------------------------------------

def before_new(script):
    """The table and the store before the first `new`."""
    script.record(0, "free")
    script.record(31, "free")
    script.owed("dw=0")
    script.bytes(0, 16, bytes(16))
    script.bytes(65_535, 1, b"\0")
    script.bytes(65_536, 0, b"")
    script.bad("bytes from=65536 len=1")
    script.sum()
    script.say("open addr=2000 len=32 first=15 last=15 tc=0 attr=0 tag=5 start=256 out=16",
               "open code=0 out=00000020000005ff00002000eeeeeeee")
    script.open(22, tag=6, len=33, start=1024)
    script.take(script.piece(5, 16), "more")
    script.take(script.piece(5, 16), "done")
    script.sum()


def found_cuttings(script, tag, read):
    """The cuttings, in bytes, that the table takes; every length is tried at every place."""
    found = []
    for n in range(1, read.left + 1):
        if script.read(tag) != read:
            script.force(tag, read)
        output = script.take(script.piece(tag, n))
        if output == "take done":
            found.append([4 * n])
        elif output == "take more":
            later = found_cuttings(script, tag, script.read(tag))
            found += [[4 * n, *rest] for rest in later]
    return found


def edges_cuttings(script):
    """P1, P2: all cuttings; P3: the fields of the pieces; P4: a first piece of 32 bytes."""
    long = OPENING | {"addr": 0x10020, "len": 64}
    for mps, cuttings in ((256, [[96, 128, 32], [96, 160], [224, 32], [256]]),
                          (128, [[96, 128, 32]])):
        script.new(mps, 512, 128)
        script.open(0, **long)
        found = sorted(found_cuttings(script, 5, script.read(5)))
        if found != cuttings:
            raise ValueError("cuttings at MPS %d: %s" % (mps, found))
        script.new(mps, 512, 128)
        script.open(0, **long)
        for n, count, lower, answer in ((24, 256, 32, "more"), (32, 160, 0, "more"),
                                        (8, 32, 0, "done")):
            script.take(script.piece(5, n, count=count, lower=lower), answer)
    for rcb, answer in ((64, "more"), (128, 33)):
        script.new(256, 512, rcb)
        script.open(0, **long)
        script.take(script.piece(5, 8, count=256, lower=32), answer)
        script.owed("dw=56" if rcb == 64 else "dw=64")


def edges_enables(script):
    """P5 to P11, with the counts and bytes as document 01 has them."""
    script.new(4096, 4096, 64)
    script.fill(0xAA)
    script.open(0, len=1, first=0b1010, last=0)
    for count in (2, 4, 1):
        script.take(script.piece(5, count=count), 33)
    script.take(script.piece(5, lower=0, count=3), 33)
    script.take(script.piece(5, count=3, lower=1, payload=b"\1\2\3\4"), "done")
    script.bytes(256, 4, b"\xaa\2\xaa\4")
    script.open(0, len=1, first=0, last=0)
    for count in (0, 4, 2):
        script.take(script.piece(5, count=count), 33)
    script.take(script.piece(5, count=1, lower=0, payload=b"\1\2\3\4"), "done")
    script.bytes(256, 4, b"\xaa\2\xaa\4")
    script.open(0, len=2, first=0b1100, last=0b0011)
    script.take(script.piece(5, count=8), 33)
    script.take(script.piece(5, count=4, lower=2, payload=b"abcdefgh"), "done")
    script.bytes(256, 8, b"\xaa\2cdef\xaa\xaa")
    script.say("open addr=2000 len=1024 first=15 last=15 tc=0 attr=0 tag=5 start=0 out=12",
               "open code=0 out=00000000010005ff00002000")
    data = script.piece(5, count=4096, lower=0)
    if data[2:4] != b"\0\0" or data[6:8] != b"\0\0":
        raise ValueError("P8: the fields of the completion")
    script.take(data, "done")
    script.bytes(0, 4096, data[12:])
    for fields, number in ((dict(addr=0xFFC, len=1, last=0), 0), (dict(addr=0xFFC, len=2), 8),
                           (dict(len=3, first=0b1010), 7), (dict(len=2, last=0), 7)):
        script.open(number, **fields)


def edges_errors(script):
    """The errors that must not slip in, each as a call that would show it."""
    script.new(128, 512, 64)
    script.fill(0x55)
    # Off is taken away once: the second piece has 4 x (L - p) - trail, and not total - 4n.
    script.open(0, addr=0x2000, len=20, first=0b1000, last=0b0001)
    script.take(script.piece(5, 16, count=74, lower=3), "more")
    for count in (74 - 64, 16, 10, 12):
        script.take(script.piece(5, count=count, lower=64), 33)
    script.take(script.piece(5, count=13, lower=64), "done")
    script.bytes(256, 80)
    # Cuts lie at multiples of RCB from address 0, and not from the start.
    script.open(0, addr=0x10020, len=32)
    script.take(script.piece(5, 16), 33)
    script.take(script.piece(5, 8), "more")
    script.take(script.piece(5, 8), 33)
    script.take(script.piece(5, 16), "more")
    script.take(script.piece(5, 8), "done")
    # A small Byte Count does not free the tag: More and Done follow from n and L - p.
    script.open(0, addr=0x203C, len=2, first=0b1000, last=0b0001)
    script.take(script.piece(5, 1, count=2, lower=0x3F), "more")
    script.record(5, read_of(**OPENING | dict(addr=0x203C, len=2, first=8, last=1, taken=1)))
    script.owed("dw=1")
    script.open(21, addr=0x3000)
    script.take(script.piece(5, 1, count=1, lower=0x40), "done")
    script.record(5, "free")
    script.owed("dw=0")


def all_enables(script):
    """Every pair of enables at lengths 1 to 3; every legal pair whole and cut, with its bytes."""
    script.new(256, 512, 64)
    for length in (1, 2, 3):
        for first in range(16):
            for last in range(16):
                script.fill(script.random.below(256))
                fields = OPENING | dict(addr=0x2040 - 4 * (length - 1), len=length, first=first,
                                        last=last, start=4 * script.random.below(8), out=12)
                if script.open(**fields) == 0:
                    enables_pieces(script, read_of(**fields))
    for length in (4, 17, 128):
        for first in tlp.LONG_FIRST_ENABLES:
            for last in tlp.LONG_LAST_ENABLES:
                fields = OPENING | dict(addr=0x2FFC - 4 * length, len=length, first=first,
                                        last=last, start=8)
                script.open(0, **fields)
                run_cutting(script, 5, 256, 64)


def enables_pieces(script, read):
    """Wrong counts, then the read whole or cut before its last DW, where a boundary lies."""
    right, lower = count_and_lower(read, 0)
    ones = bin(read.first).count("1") + bin(read.last).count("1") + 4 * max(read.length - 2, 0)
    for count in sorted({ones, 4 * read.length} - {right, 0}):
        script.take(script.piece(5, count=count), 33)
    if lower != read.address % 128:
        script.take(script.piece(5, lower=read.address % 128), 33)
    before = bytes(script.console.store[:64])
    payload = script.random_bytes(4 * read.length)
    sizes = [read.length] if read.length == 1 or read.first % 3 == 0 else [read.length - 1, 1]
    for n in sizes:
        here = script.read(5)
        part = payload[4 * here.taken:4 * here.taken + 4 * n]
        script.take(script.piece(5, n, payload=part), "done" if n == here.left else "more")
    after = bytearray(before)
    for index, enabled in enumerate(wanted(read)):
        if enabled:
            after[read.start + index] = payload[index]
    script.bytes(0, 64, after)


def run_cutting(script, tag, mps, rcb):
    """The pieces of a random lawful cutting up to Done, then the window's bytes."""
    read = script.read(tag)
    before = script.console.store[read.start:read.end]
    joined = b""
    while script.read(tag):
        here = script.read(tag)
        n = script.random.pick(lawful_sizes(here, mps, rcb))
        data = script.piece(tag, n)
        joined += data[12:]
        script.take(data, "done" if n == here.left else "more")
    window = [new if enabled else old for new, old, enabled in zip(joined, before, wanted(read))]
    script.bytes(read.start, 4 * read.length, window)


# ---------------------------------------------------------------------------------------------
# Opening
# ---------------------------------------------------------------------------------------------

def open_ranges(script):
    """Each field of an opening at its edges, alone."""
    script.new(128, 4096, 64)
    for key, good, wrong in (
            ("addr", (0, 4, 0xFFFFFFF0, 1 << 32, (1 << 32) + 0xFF0, TOP - 16, 1 << 63),
             (1, 2, 3, 0x2001, 0xFFFFFFFF, (1 << 32) + 2, TOP - 1, TOP - 2)),
            ("len", (1024, 1023, 3, 4), (0, 1025, 2048, 0x10001, 1 << 31, 4294967295)),
            ("first", (8, 12, 14, 15), (16, 31, 128, 255)),
            ("last", (1, 3, 7, 15), (16, 31, 128, 255)),
            ("tc", range(8), (8, 9, 16, 128, 255)),
            ("attr", range(8), (8, 9, 16, 128, 255)),
            ("tag", range(TAG_LIMIT), ()),
            ("start", (0, 4, 65_520, 61_440), ())):
        for value in good:
            script.open(0, **{key: value})
            tag = value if key == "tag" else 5
            script.record(tag, read_of(**OPENING | {key: value}))
            script.withdraw(tag, 0)
        for value in wrong:
            script.open(6, **{key: value})
    for tag in OVER_TAGS:
        script.open(20, tag=tag)
        script.withdraw(tag, 20)
    for start in (1, 2, 3, 258, 65_521, 65_524, 65_532, 65_536, 65_540, 1 << 31, 1 << 32, 1 << 63,
                  TOP - 1, TOP - 2, TOP - 4, TOP - 8, TOP - 16, TOP - 20):
        script.open(23, start=start)
    script.owed("dw=0")


def open_pages(script):
    """8: a read never crosses a page; a page's end, 4 GiB and the very top are reached."""
    script.new(128, 4096, 128)
    for page in (0x1000, 0x2000, 0xFFFFF000, 1 << 32, (1 << 32) + 0x1000, 1 << 63, TOP - 0x1000):
        for offset, length, number in (
                (0xFFC, 1, 0), (0xFFC, 2, 8), (0xFF8, 2, 0), (0xFF8, 3, 8), (0, 1024, 0),
                (4, 1024, 8), (4, 1023, 0), (8, 1023, 8), (0x800, 512, 0), (0x800, 513, 8)):
            last = 15 if length > 1 else 0
            script.open(number, addr=page + offset, len=length, last=last, start=0)
            script.withdraw(5, 25 if number else 0)


def open_tops(script):
    """Reads with A + 4L = 2^64 and A + 4L = 2^32, cut and taken."""
    for rcb in BOUNDARIES:
        for top in (TOP, 1 << 32, (1 << 32) + 0x1000):
            for length in (1, 2, 3, 15, 16, 17, 31, 32, 33, 63, 64, 65, 100, 128):
                script.new(128, 512, rcb)
                script.fill(script.random.below(256))
                enables = random_enables(script.random, length)
                script.open(0, addr=top - 4 * length, len=length, tc=script.random.below(8),
                            attr=script.random.below(8), start=STORE_LIMIT - 4 * length, **enables)
                run_cutting(script, 5, 128, rcb)


def open_sizes(script):
    """22: at each MRRS the largest length, and one more."""
    for mrrs in SIZES:
        script.new(128, mrrs, 64)
        script.open(0, len=mrrs // 4)
        script.withdraw(5, 0)
        if mrrs < 4096:
            script.open(22, len=mrrs // 4 + 1)
        script.open(0 if mrrs == 4096 else 22, len=1024)


def open_outputs(script):
    """12: every room for the 12-byte and the 16-byte header; bytes beyond it stay."""
    script.new(128, 512, 64)
    for address, size in ((0x12345678, 12), (0x123456789ABCDEF0, 16), (0xFFFFFFF0, 12),
                          (1 << 32, 16)):
        for room in range(33):
            number = script.open(12 if room < size else 0, addr=address, tc=5, attr=6, out=room)
            script.withdraw(5, 25 if number else 0)


def windows(script):
    """24: windows that share a byte, and windows that only touch."""
    script.new(128, 512, 64)
    script.open(0, tag=0, len=4, start=256)
    script.open(0, tag=31, len=1, last=0, start=1024)
    for length in (1, 2, 3, 4, 5, 9):
        size = 4 * length
        last = 15 if length > 1 else 0
        for start, number in (
                (256 - size, 0), (260 - size, 24), (272, 0), (268, 24), (256, 24), (264, 24),
                (1024 - size, 0), (1028 - size, 24), (1028, 0), (1024, 24), (512, 0)):
            script.open(number, tag=7, len=length, last=last, start=start)
            script.withdraw(7, 25 if number else 0)
    script.open(24, tag=7, len=64, start=128)
    script.open(24, tag=7, len=2, start=260)
    for tag, start in ((1, 272), (2, 240), (3, 288), (4, 224)):
        script.open(0, tag=tag, start=start)
    script.withdraw(0, 0)
    script.open(24, tag=0, start=252)
    script.open(24, tag=0, start=260)
    script.open(0, tag=0, start=256)
    script.owed("dw=21")


def stores(script):
    """23 and 34: stores that are too long or too short, for windows at several places."""
    for length, start in ((8, 0), (8, 1000), (8, STORE_LIMIT - 32), (40, 4096)):
        fields = OPENING | dict(len=length, start=start)
        end = start + 4 * length
        for size in (0, 4, start, end - 4, end - 1, end, end + 1, 65_535, 65_536, 65_537, 70_000):
            holds = end <= size <= STORE_LIMIT
            one_store(script, fields, size, holds)
    script.store(STORE_LIMIT)


def one_store(script, fields, size, holds):
    """One read with one store: the opening, and every kind of completion."""
    script.new(256, 512, 64)
    script.store(size)
    if script.open(0 if holds else 23, **fields):
        script.store(STORE_LIMIT)
        script.open(0, **fields)
        script.store(size)
    read = script.read(5)
    script.take(script.piece(5, count=1), 33)
    script.take(script.piece(5, count=1, ep=1), 33)
    n = min(lawful_sizes(read, 256, 64))
    script.take(script.piece(5, n), ("done" if n == read.left else "more") if holds else 34)
    if script.read(5):
        script.take(script.piece(5, ep=1), "poisoned" if holds else 34)
    if script.read(5):
        script.record(5, read)
        script.take(script.piece(5, form="Cpl", status=1), "failed status=1")
    script.record(5, "free")
    script.sum()


def changed_stores(script):
    """Each call gets its own store: a piece writes its part of the one lent, and no other byte."""
    for rcb in BOUNDARIES:
        script.new(128, 512, rcb)
        script.store(1024)
        script.fill(1)
        script.open(0, addr=0x5_0000_0034, len=60, first=12, last=7, start=400)
        for byte in (2, 3):
            smallest_piece(script, rcb)
            script.bytes(384, 272)
            script.fill(byte)
        script.store(639)                       # the part would fit, the window does not
        smallest_piece(script, rcb, 34)
        script.store(640)
        while script.read(5):
            smallest_piece(script, rcb)
            script.bytes(384, 256)
    script.store(STORE_LIMIT)


def smallest_piece(script, rcb, expect=None):
    """The smallest lawful piece of the read under tag 5."""
    read = script.read(5)
    n = min(lawful_sizes(read, 128, rcb))
    script.take(script.piece(5, n), expect or ("done" if n == read.left else "more"))


# ---------------------------------------------------------------------------------------------
# Taking
# ---------------------------------------------------------------------------------------------

def statuses(script):
    """Every status, with and without data, BCM, EP and a digest; before and after a first piece."""
    script.new(128, 512, 64)
    script.fill(0x77)
    for taken in (False, True):
        for status in range(8):
            for form in ("Cpl", "CplD"):
                for flags in range(8):
                    one_status(script, taken, status, form, flags)
    script.sum()


def one_status(script, taken, status, form, flags):
    """One completion with one status."""
    bcm, ep, td = flags & 1, flags >> 1 & 1, flags >> 2
    if script.read(5) is None:
        script.open(0, len=20, tc=1, attr=2)
        if taken:
            script.take(script.piece(5, 16), "more")
    if bcm or status == 2 or (form == "CplD") != (status == 0):
        expect = 32
    elif status:
        expect = failed(status)
        script.statuses[status] += 1
    else:
        expect = "poisoned" if ep else "done"
    data = script.piece(5, form=form, status=status, bcm=bcm, ep=ep, td=td)
    script.take(data, expect)
    script.record(5)


def matching(script):
    """30 and 31: every traffic class and attribute, requester IDs, tags over the limit."""
    script.new(128, 512, 64, 0xA5C3)
    for tc in range(8):
        attr = (tc * 3 + 1) % 8
        script.open(0, tc=tc, attr=attr)
        for other in range(8):
            if other != tc:
                script.take(script.piece(5, tc=other), 31)
            if other != attr:
                script.take(script.piece(5, attr=other), 31)
        for bit in range(16):
            script.take(script.piece(5, requester=0xA5C3 ^ 1 << bit), 30)
        script.take(script.piece(5), "done")
        script.take(script.piece(5, read=read_of(**OPENING)), 30)
    script.open(0)
    for tag in range(256):
        if tag != 5:
            script.take(script.piece(5, tag=tag), 30)
    script.take(script.piece(5, source=0xFFFF), "done")
    script.owed("dw=0")


def boundaries(script):
    """33: every length as the first and as the second piece, for starts all over a boundary."""
    for rcb in BOUNDARIES:
        for offset in (0, 4, 32, 60, 64, 68, 100, 124):
            script.new(256, 512, rcb)
            script.fill(script.random.below(256))
            start = 4 * script.random.below(1000)
            script.open(0, addr=0x30000 + offset, len=37, first=14, last=7, start=start)
            read = script.read(5)
            for n in range(1, 40):
                lawful = n in lawful_sizes(read, 256, rcb)
                script.take(script.piece(5, n),
                            33 if not lawful else "done" if n == 37 else "more")
                if script.read(5) != read:
                    script.force(5, read)
            second = replace(read, taken=min(lawful_sizes(read, 256, rcb)))
            script.force(5, second)
            for n in range(1, second.left + 2, 3):
                lawful = n in lawful_sizes(second, 256, rcb)
                script.take(script.piece(5, n),
                            33 if not lawful else "done" if n == second.left else "more")
                if script.read(5) != second:
                    script.force(5, second)
            script.bytes(start, 148)


def lower_addresses(script):
    """33: Lower Address and Byte Count off by each bit, at p = 0 and later."""
    for rcb in BOUNDARIES:
        for taken in (0, 1):
            script.new(256, 512, rcb)
            script.open(0, addr=0x4_0000_0F38, len=50, first=12, last=3)
            if taken:
                script.take(script.piece(5, lawful_sizes(script.read(5), 256, rcb)[0]), "more")
            count, lower = count_and_lower(script.read(5), script.read(5).taken)
            for bit in range(7):
                script.take(script.piece(5, lower=lower ^ 1 << bit), 33)
            for bit in range(12):
                script.take(script.piece(5, count=count ^ 1 << bit), 33)
            script.take(script.piece(5, lower=lower | 0x80), "done")   # a reserved bit


def payload_sizes(script):
    """5: at each MPS the largest piece, and one more DW."""
    for mps in SIZES[:-1]:
        script.new(mps, 4096, 64)
        script.open(0, len=1024, start=4096)
        n = mps // 4
        script.take(script.piece(5, n + 1), 5)
        script.take(script.piece(5, n + 16, count=1, ep=1), 5)
        script.take(script.piece(5, n), "more")
        script.owed("dw=%d" % (1024 - n))
        script.bytes(4096, mps)


def foreign_packets(script):
    """29 for every other kind, and each reader number before it."""
    script.new(128, 512, 64)
    script.open(0)
    for form in FORMS:
        if not form.startswith("Cpl"):
            for extra in ({}, {"td": 1}, {"ep": 1}):
                script.take(packet(form, **extra), 29)
    for form, changed, number in (
            ("MRd32", {"cut": 11}, 1), ("MRd64", {"cut": 15}, 1), ("Msg", {"cut": 12}, 1),
            ("MsgD", {"cut": 12}, 1), ("MRd32", {"byte0": 0x01}, 2), ("MWr32", {"byte0": 0x61}, 2),
            ("MRd32", {"extra": b"\0"}, 3), ("MWr32", {"cut": 15}, 3),
            ("MRd32", {"td": 1, "cut": 12}, 3),
            ("MRd32", {"th": 1}, 4), ("MWr64", {"at": 1}, 4), ("MWr32", {"at": 3}, 4),
            ("MWr32", {"length": 33, "last": 15}, 5), ("IOWr", {"length": 33}, 5),
            ("MsgD", {"length": 33}, 5), ("IORd", {"length": 2}, 6), ("CfgRd0", {"tc": 1}, 6),
            ("CfgWr1", {"attr": 1}, 6), ("IOWr", {"at": 2}, 6), ("MRd32", {"last": 1}, 7),
            ("CfgRd1", {"last": 8}, 7), ("MRd64", {"length": 3, "first": 10, "last": 15}, 7),
            ("MRd32", {"length": 2, "last": 15, "address": 0xFFC}, 8),
            ("MRd64", {"length": 1024, "last": 15, "address": 0xFFFFF004}, 8),
            ("Msg", {"byte0": 0x36}, 9), ("MsgD", {"byte0": 0x77}, 9), ("MRd64", {"top": 0}, 10),
            ("MWr64", {"top": 0}, 10)):
        for extra in ({}, {"ep": 1}, {"tag": 255, "source": REQUESTER}):
            script.take(packet(form, **extra | changed), number)
    for byte0 in range(256):
        script.take(bytes([byte0]) + script.piece(5)[1:])
        make_open(script, OPENING)
    script.record(5)


def make_open(script, fields):
    """Open the read again if a packet closed it."""
    if script.read(fields["tag"]) is None:
        script.open(0, **fields)


def truncated(script):
    """Every beginning of a good piece, with and without a digest, then more bytes than it has."""
    script.new(128, 512, 64)
    script.open(0)
    for td in (0, 1):
        whole = script.piece(5, td=td)
        for size in range(len(whole)):
            script.take(whole[:size], 1 if size < 12 else 3)
        for more in (1, 2, 3, 4, 5, 8):
            script.take(whole + bytes(more), 3)
        script.take(whole, "done")
        script.bytes(256, 16, whole[12:28])
        script.open(0)
    script.take(with_bits(script.piece(5), RESERVED_BITS), "done")


def header_bits(script):
    """Each bit of a piece's header changed, for a first and for a later piece."""
    for taken in (False, True):
        script.new(128, 512, 64)
        for bit in range(96):
            if script.read(5):
                script.withdraw(5, 0)
            script.open(0, addr=0x2000, len=20, first=14, last=7)
            if taken:
                script.take(script.piece(5, 16), "more")
            data = bytearray(script.piece(5, 16 if not taken else None))
            data[bit // 8] ^= 0x80 >> bit % 8
            script.take(bytes(data))
            script.record(5)


def late_pieces(script):
    """Pieces of withdrawn, failed and finished reads, and a new read that one matches."""
    script.new(128, 512, 64)
    for ending in ("withdraw", "failed", "poisoned", "done"):
        script.fill(0x33)
        script.open(0, len=48)
        first, second = script.piece(5, 16), None
        script.take(first, "more")
        second = script.piece(5, 16)
        if ending == "withdraw":
            script.withdraw(5, 0)
        elif ending == "failed":
            script.take(script.piece(5, form="Cpl", status=4), "failed status=4")
        elif ending == "poisoned":
            script.take(script.piece(5, 16, ep=1), "poisoned")
        else:
            script.take(second, "more")
            script.take(script.piece(5), "done")
        script.take(second, 30)
        script.take(first, 30)
        script.bytes(256, 192)
        script.open(0, len=48, start=1024)      # the same read again, with another window
        script.take(second, 33)
        script.take(first, "more")              # late, but it matches
        script.take(first, 33)
        script.take(second, "more")
        script.bytes(256, 192)
        script.bytes(1024, 128, first[12:] + second[12:])
        script.withdraw(5, 0)
        script.open(0, addr=0x2040, len=33)
        script.take(second, 33)                 # the right place, but another total
        script.withdraw(5, 0)
        script.open(0, addr=0x2040, len=32)
        script.take(second, "more")             # another read, which the caller bears
        script.withdraw(5, 0)


def many_tags(script):
    """All tags open at once, their pieces in turn; then each order of closing."""
    script.new(128, 512, 128)
    script.fill(0xC3)
    for tag in range(TAG_LIMIT):
        script.open(0, tag=tag, addr=0x1_0000_0040 + 0x1000 * tag, len=40 + tag, tc=tag % 8,
                    attr=tag // 8, start=2048 * (31 - tag), first=14, last=3)
    script.owed()
    for tag in (0, 5, 31):
        script.open(21, tag=tag, start=65_000)
    for tag in range(TAG_LIMIT):
        script.take(script.piece(tag, 16), "more")
        script.owed()
    for tag in reversed(range(TAG_LIMIT)):
        script.record(tag)
        if tag % 4 == 0:
            script.take(script.piece(tag, form="Cpl", status=4), "failed status=4")
        elif tag % 4 == 1:
            script.take(script.piece(tag, 32, ep=1), "poisoned" if tag >= 8 else 33)
        elif tag % 4 == 2:
            script.withdraw(tag, 0)
        else:
            run_rest(script, tag)
        script.owed()
    script.sum()


def run_rest(script, tag):
    """The smallest lawful pieces up to Done, with digests."""
    while script.read(tag):
        read = script.read(tag)
        table = script.console.table
        n = min(lawful_sizes(read, table.mps, table.rcb))
        script.take(script.piece(tag, n, td=1), "done" if n == read.left else "more")
    script.record(tag, "free")


# ---------------------------------------------------------------------------------------------
# The whole script
# ---------------------------------------------------------------------------------------------

SECTIONS = (
    before_new, edges_cuttings, edges_enables, edges_errors, all_enables,
    open_ranges, open_pages, open_tops, open_sizes, open_outputs, windows, stores,
    changed_stores,
    open_orders, data_orders, failing_orders, small_orders,
    statuses, matching, boundaries, lower_addresses, payload_sizes, foreign_packets, truncated,
    header_bits, late_pieces, many_tags,
    invalid_tables, unlisted_settings, changed_settings, reached_by_none,
    bad_lines, traffic, unended_line,
)

ANSWERS = (
    *("open code=%d" % number for number in (0, *ORDERED_OPEN)),
    *("take code=%d" % number for number in (11, *range(1, 11), *range(29, 35))),
    "take more", "take done", "take failed status=1", "take failed status=4", "take poisoned",
    *("withdraw code=%d" % number for number in (0, 11, 20, 25)),
    "owed nothing", "owed dw", "owed code",
    "new code=0", "new code=11", "store", "fill", "record free", "record open", "bytes", "sum",
    "force", "settings", "bad",
)

PAIRS = (
    *(("open", *pair) for pair in zip(ORDERED_OPEN, ORDERED_OPEN[1:]) if pair != (20, 21)),
    ("open", 8, 21), ("open", 20, 22),
    *(("take", *pair) for pair in zip(ORDERED_DATA, ORDERED_DATA[1:])),
    *(("take", *pair) for pair in zip(ORDERED_FAILING, ORDERED_FAILING[1:])),
    ("take", "failed", 34), ("take", "failed", "poisoned"), ("take", 33, "poisoned"),
    ("withdraw", 11, 20), ("withdraw", 11, 25),
)


def check_coverage(script):
    """Enough calls, every answer and no other, every adjacent pair of faults, every status."""
    if script.calls < LEAST_CALLS:
        raise ValueError("only %d table calls" % script.calls)
    if set(script.counts) != set(ANSWERS):
        raise ValueError("answers: %s" % sorted(set(script.counts) ^ set(ANSWERS)))
    few = [pair for pair in PAIRS if script.pairs[pair] < LEAST_PAIRS]
    if few:
        raise ValueError("pairs of faults tried too seldom: %s" % few)
    if set(script.statuses) != set(FAILING):
        raise ValueError("failing statuses: %s" % sorted(script.statuses))


def make():
    """The whole script, run and checked."""
    script = Script()
    for section in SECTIONS:
        section(script)
    check_coverage(script)
    return script


def main(arguments):
    """Write the two files and print the counts."""
    if len(arguments) > 1:
        print("usage: make_calls.py [DIR]", file=sys.stderr)
        return 2
    directory = Path(arguments[0]) if arguments else STORED
    script = make()
    directory.mkdir(parents=True, exist_ok=True)
    for name, contents in zip(NAMES, script.files()):
        (directory / name).write_bytes(contents)
        print("%s: %d bytes" % (name, len(contents)))
    print("lines: %d, table calls: %d" % (len(script.lines), script.calls))
    for answer in ANSWERS:
        print("%7d  %s" % (script.counts[answer], answer))
    return 0


if __name__ == "__main__":
    sys.exit(main(sys.argv[1:]))
