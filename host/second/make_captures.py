"""Make the stored captures, cut into blocks, and their decodings.

    make_captures.py DIR

writes DIR/stdin (frames) and DIR/stdout (the decodings by the second implementation).  The same
files come out of every run: all numbers come from a generator with a fixed seed.

A frame is a line `size=N block=B` and the N bytes of a capture, which is to be decoded in blocks of
B bytes.  Its output is the decoding and then the line `--`.  Where the code of a line is known
beforehand it is stated, by document 01, and compared while the frames are made.
"""

import re
import sys
from itertools import permutations, product
from pathlib import Path

sys.dont_write_bytecode = True   # the imports below leave no compiled files behind

import capture
from make_vectors import FORMS, MEMORY, SINGLE, SIZES, Xorshift, packet, pattern

NAMES = ("stdin", "stdout")
SIZE_LIMIT = 60_000
BLOCK_LIMIT = 16_384
FILE_LIMIT = 2_000_000
LINE = 8_267                     # the longest line, with its newline

WHOLE_CASE = b"""\
mps=128 mrrs=512 rcb=64 req=0100
at=1 dir=tx len=12 tlp=000000010100050000001000
at=2 dir=rx len=16 tlp=4a000001020000010100050000000000
at=3 dir=rx len=12 tlp=000000020100050000001000
at=4 dir=rx len=4 tlp=00000001
"""
HEADER = b"mps=128 mrrs=512 rcb=64 req=0100\n"
WIDE = b"mps=4096 mrrs=4096 rcb=128 req=01ff\n"   # under these settings the longest line is good
DIGITS = b"000000010100050f00001000"
WORDS = (b"at=7", b"dir=rx", b"len=12", b"tlp=" + DIGITS)
GOOD = b" ".join(WORDS) + b"\n"


class Frames:
    """The frames so far, with the decodings that the second implementation gives them."""

    def __init__(self):
        self.inputs = []
        self.outputs = []
        self.decoded = {}        # many frames hold the same capture

    def add(self, data, *blocks, codes=None):
        """The same capture with each size of block; `codes` are those that its lines must give."""
        if len(data) > SIZE_LIMIT or not all(1 <= block <= BLOCK_LIMIT for block in blocks):
            raise ValueError("a frame is out of its limits")
        if data not in self.decoded:
            self.decoded[data] = capture.decode(data)
        if codes is not None and codes_of(self.decoded[data]) != codes:
            raise ValueError("%s instead of %s for %s" % (
                codes_of(self.decoded[data]), codes, data[:200]))
        for block in blocks or (BLOCK_LIMIT,):
            self.inputs.append(b"size=%d block=%d\n" % (len(data), block) + data)
            self.outputs.append(self.decoded[data] + b"--\n")

    def files(self):
        """The contents of the two files."""
        stdin, stdout = b"".join(self.inputs), b"".join(self.outputs)
        if max(len(stdin), len(stdout)) > FILE_LIMIT:
            raise ValueError("a file is too large: %d, %d" % (len(stdin), len(stdout)))
        return stdin, stdout


def codes_of(output):
    """The code of each line of a decoding."""
    return [int(digits) for digits in re.findall(rb"^code=(\d+)", output, re.M)]


def line_of(data, at=7, way="rx"):
    """The line of a packet."""
    return b"at=%d dir=%s len=%d tlp=%s\n" % (at, way.encode(), len(data), data.hex().encode())


def header(mps=128, mrrs=512, rcb=64, req="0100"):
    """A first line; each setting is given as a number or as text."""
    return ("mps=%s mrrs=%s rcb=%s req=%s\n" % (mps, mrrs, rcb, req)).encode()


# ---------------------------------------------------------------------------------------------
# Packets
# ---------------------------------------------------------------------------------------------

def whole_case(frames):
    """Document 01's own case."""
    frames.add(WHOLE_CASE, 1, 2, 3, 7, 64, 16_384, codes=[0, 0, 7, 1])


def ignored_bits(form):
    """Reserved fields that reading ignores: low address bits, TH, AT, Attr[2], where they are."""
    if form in MEMORY:
        return dict(address=0xFFF), dict(address=0xFFB, length=2, last=15)
    if form in SINGLE:
        return dict(th=1), dict(attr=4)
    return dict(th=1), dict(at=3)


def accepted_kinds(frames):
    """Every kind, with tags, digest, poisoning and fields at their edges."""
    for form in FORMS:
        lines = [line_of(packet(form, **fields), at) for at, fields in enumerate((
            {}, dict(td=1), dict(ep=1), dict(td=1, ep=1), dict(tag=0), dict(tag=31), dict(tag=32),
            dict(tag=128), dict(tag=255), dict(source=0xFFFF), dict(source=0, requester=0x0A0B),
            *ignored_bits(form)))]
        frames.add(HEADER + b"".join(lines), 16_384, 61, codes=[0] * len(lines))
    routed = [line_of(packet(form, byte0=base + routing, code=0x20, tag=routing))
              for form, base in (("Msg", 0x30), ("MsgD", 0x70)) for routing in range(6)]
    frames.add(HEADER + b"".join(routed), 16_384, 97, codes=[0] * len(routed))


def lengths(frames):
    """`dw`: 1024 for the field 0, 0 for Msg and Cpl; data up to MPS and over it."""
    requests = [line_of(packet(form, length=length, last=15 if length > 1 else 0, address=0x2000))
                for form in ("MRd32", "MRd64") for length in (1, 2, 3, 255, 256, 1023, 1024)]
    ignored = [line_of(packet(form, length=length)) for form in ("Msg", "Cpl")
               for length in (0, 1, 7, 1023)]
    lines = requests + ignored
    frames.add(HEADER + b"".join(lines), 16_384, 53, codes=[0] * len(lines))
    for mps in SIZES:
        exact, over = (line_of(packet("CplD", length=length, count=4 * length))
                       for length in (mps // 4, mps // 4 + 1))
        frames.add(header(mps=mps) + exact + (over if mps < 4096 else b""), 16_384,
                   codes=[0] + [5] * (mps < 4096))
    whole = [line_of(packet(form, length=1024, last=15, address=0x2000, count=0, td=td))
             for form, td in (("MWr32", 0), ("MWr64", 1), ("MsgD", 1), ("CplD", 1))]
    frames.add(WIDE + b"".join(whole), 8_191, codes=[0] * 4)


def refused_packets():
    """A packet for each refusal of each kind that has it, with its number."""
    for form, (byte0, header_dw, has_data) in FORMS.items():
        whole = packet(form)
        for cut in range(4 * header_dw):
            yield 1, whole[:cut]
        for extra in (1, 2, 4):
            yield 3, whole + pattern(extra)
        yield 3, packet(form, td=1)[:-4]
        if has_data:
            yield 3, whole[:-4]
            yield 5, packet(form, length=33, last=15)
        if form in MEMORY:
            yield from ((4, packet(form, **fields))
                        for fields in (dict(th=1), dict(at=1), dict(at=2), dict(at=3)))
            yield from ((7, packet(form, **fields)) for fields in (
                dict(last=1), dict(length=2), dict(length=2, first=0, last=15),
                dict(length=3, first=10, last=15), dict(length=3, last=14)))
            yield from ((8, packet(form, length=length, last=15, address=address))
                        for length, address in ((2, 0xFFC), (2, 0x1FFF), (3, 0xFFFFFFF8)))
        if form in SINGLE:
            yield from ((6, packet(form, **fields)) for fields in (
                dict(length=2), dict(tc=1), dict(attr=1), dict(attr=2), dict(at=1), dict(at=3)))
            yield from ((7, packet(form, last=last)) for last in (1, 8, 15))
        if form.startswith("Msg"):
            yield from ((9, packet(form, byte0=byte0 & 0xF8 | low)) for low in (6, 7))
        if form in MEMORY and header_dw == 4:
            yield from ((10, packet(form, top=0, address=address)) for address in (0, 0x1000))
    for byte0 in (0x01, 0x03, 0x06, 0x0B, 0x1F, 0x21, 0x38, 0x4B, 0x5B, 0x78, 0x80, 0xFF):
        yield 2, packet("MRd32", byte0=byte0)
        yield 2, packet("MWr64", byte0=byte0)


def refused_numbers(frames):
    """Every refusal of the reader, with lines that are accepted between them."""
    for number in range(1, 11):
        packets = [data for code, data in refused_packets() if code == number]
        lines = [line_of(data, at, "rt"[at % 2] + "x") + GOOD for at, data in enumerate(packets)]
        frames.add(HEADER + b"".join(lines), 16_384, codes=[number, 0] * len(lines))


# ---------------------------------------------------------------------------------------------
# Bad lines
# ---------------------------------------------------------------------------------------------

AT = {
    13: ("", "00", "07", "0000000007", "4294967296", "4294967303", "9999999999", "10000000000",
         "18446744073709551615", "18446744073709551616", "18446744073709551623", "1" * 30,
         "1" * 8_000, "+1", "-1", "-0", "1+", "0x7", "7a", "a", "7.", ".7", "7.0", "1e1", "7_0",
         "7,000", "7 ", " 7", "\t7", "7\0", "\0007", "=7", "7=", "\uff17", "\u0667", "7\r"),
    0: ("0", "1", "9", "10", "99", "100", "999999999", "1000000000", "4294967294", "4294967295"),
}
DIR = {
    13: ("", "r", "t", "x", "up", "RX", "TX", "Rx", "rX", "rxx", "txx", "rt", "xr", "xt", "rr",
         "tr", "rx,tx", "rx=", "=rx", " rx", "rx ", "rx\0", "rx\r", "\0rx", "r x", "rx0", "sx",
         "ux", "ry"),
    0: ("rx", "tx"),
}
LEN = {
    13: ("", "0", "1", "6", "11", "13", "24", "012", "0012", "00", "120", "112", "268", "65548",
         "4294967308", "18446744073709551628", "340282366920938463463374607431768211468",
         "1" * 30, "12" + "0" * 28, "12" * 4_000, "+12", "-12", "12.", "12.0", "0xc", "c", "12 ",
         " 12", "12\0", "\t12", "1 2", "=12", "12=", "12,"),
    0: ("12",),
}
DIGIT_TEXTS = {
    13: ("", "0", DIGITS.decode()[:-1], DIGITS.decode() + "0", DIGITS.decode() + "00",
         DIGITS.decode()[:-2], DIGITS.decode().upper(), "0x" + DIGITS.decode()[2:],
         " " + DIGITS.decode(), DIGITS.decode() + " ", DIGITS.decode() + "\t",
         DIGITS.decode() + "\r", DIGITS.decode() + "\0", DIGITS.decode() + " x",
         DIGITS.decode() + " ext=0", DIGITS.decode() + "x", DIGITS.decode() + "\0\0",
         DIGITS.decode()[:12] + " " + DIGITS.decode()[12:],
         DIGITS.decode()[:11] + " " + DIGITS.decode()[12:], "=" + DIGITS.decode(),
         DIGITS.decode() + "="),
    0: (DIGITS.decode(),),
}
VALUES = (("at", AT), ("dir", DIR), ("len", LEN), ("tlp", DIGIT_TEXTS))

KEYS = ("", "A%s", "%s%s", "%s ", " %s", "%s\0", "x%s", "%sx", "\t%s", "%s\t")


def with_word(index, word):
    """The good line with one word changed."""
    return b" ".join(WORDS[:index] + (word,) + WORDS[index + 1:]) + b"\n"


def changed_values():
    """Every value of every key that is tried, with the line's code."""
    for index, (key, texts) in enumerate(VALUES):
        for code, values in texts.items():
            for value in values:
                yield code, with_word(index, ("%s=%s" % (key, value)).encode())


def changed_keys():
    """Keys that are misspelt, in capitals, short, long, or without their sign."""
    for index, word in enumerate(WORDS):
        key, value = word.decode().split("=")
        spelt = [form % ((key,) * form.count("%s")) for form in KEYS]
        spelt += [key.upper(), key.capitalize(), key[:-1], key[1:]]
        for other in spelt:
            yield 13, with_word(index, ("%s=%s" % (other, value)).encode())
        for sign in ("", ":", "==", " = ", "= ", " =", "\0"):
            yield 13, with_word(index, ("%s%s%s" % (key, sign, value)).encode())


def changed_words():
    """Words that are missing, doubled or in another order, and other gaps between them."""
    for index in range(4):
        yield 13, b" ".join(WORDS[:index] + WORDS[index + 1:]) + b"\n"
        yield 13, b" ".join(WORDS[:index + 1] + WORDS[index:]) + b"\n"
        yield 13, b" ".join(WORDS + WORDS[index:index + 1]) + b"\n"
        yield 13, b" ".join(WORDS[index:index + 1] + WORDS) + b"\n"
    for order in permutations(WORDS):
        yield 0 if order == WORDS else 13, b" ".join(order) + b"\n"
    for gap in (b"", b"  ", b"   ", b"\t", b" \t", b"\r", b"\0", b",", b"\xa0", b"\xff"):
        for index in range(1, 4):
            yield 13, b" ".join(WORDS[:index]) + gap + b" ".join(WORDS[index:]) + b"\n"
    for other in (b" ", b"\t", b"\r", b"\0", b"\xff", b"\x80", b"\xef\xbb\xbf", b"0", b"x", b";"):
        yield 13, other + GOOD
        yield 13, GOOD[:-1] + other + b"\n"


def other_lines():
    """Lines of no form at all, and the shortest good one."""
    yield 1, b"at=0 dir=rx len=0 tlp=\n"
    yield 1, b"at=4294967295 dir=tx len=0 tlp=\n"
    yield 1, b"at=0 dir=tx len=1 tlp=ff\n"
    for text in (b"", b" ", b"  ", b"\r", b"\0", b"\xff", b"\t", b"at", b"at=", b"at=7", b"at=7 ",
                 b"at=7 dir=rx", b"at=7 dir=rx len=12", b"at=7 dir=rx len=12 ",
                 b"at=7 dir=rx len=12 tlp", b"at=7 dir=rx len=12 tlp=", b"at=7 dir=rx len= tlp=",
                 b"at=7 dir=rx len=00 tlp=", b"at=7 dir=rx len=0 tlp=0",
                 b"at=7 dir=rx len=0 tlp= ", b"at=7 dir=rx len=1 tlp=f",
                 b"at=7 dir=rx len=1 tlp=fg", b"at=7 dir=rx len=1 tlp=Ff",
                 b"at=7 dir=rx len=1 tlp=fF", b"at=7 dir=rx len=1 tlp=fff", b"= = = =", b"   ",
                 b"code=13", b"lines=0 refused=0", b"--", b"# at=7", HEADER[:-1], DIGITS,
                 GOOD[:-1] + GOOD[:-1], GOOD[:-1] + b" " + GOOD[:-1], bytes(range(10)),
                 bytes(range(11, 256))):
        yield 13, text + b"\n"


def digit_bytes():
    """Every byte as a digit of the packet, high and low; a newline there makes two bad lines."""
    for byte in range(256):
        good = byte in b"0123456789abcdef"
        for pair in (b"0%c" % byte, b"%c0" % byte):
            line = with_word(3, b"tlp=" + DIGITS[:10] + pair + DIGITS[12:])
            for part in capture.lines_of(line):
                yield 0 if good else 13, part


def bad_lines(frames):
    """All of them, each alone and as the last line, and together with good ones between."""
    for lines in (changed_values(), changed_keys(), changed_words(), other_lines()):
        lines = list(lines)
        for code, line in lines:
            if len(line) < 1_000:
                frames.add(HEADER + line, 16_384, codes=[code])
        codes = [code for pair in lines for code in (pair[0], 0)]
        data = HEADER + b"".join(line + GOOD for _, line in lines)
        frames.add(data, 16_384, 71, codes=codes)
    lines = list(digit_bytes())
    frames.add(HEADER + b"".join(line for _, line in lines), 16_384, 1_021,
               codes=[code for code, _ in lines])


OTHER_BYTES = b"\0\n\r 0=Af~\x80\xff"


def changed_bytes(line):
    """The line with one byte replaced, left out or doubled, at every place."""
    for index in range(len(line)):
        before, after = line[:index], line[index + 1:]
        for other in OTHER_BYTES:
            yield before + bytes([other]) + after
        yield before + after
        yield before + line[index:index + 1] * 2 + after


def bad_bytes(frames):
    """A good packet line with any byte changed, each before a good line."""
    lines = [line + GOOD for line in changed_bytes(GOOD)]
    for start in range(0, len(lines), 300):
        frames.add(HEADER + b"".join(lines[start:start + 300]), 16_384)


# ---------------------------------------------------------------------------------------------
# The first line
# ---------------------------------------------------------------------------------------------

UNLISTED = ("0", "1", "32", "63", "65", "96", "127", "129", "192", "255", "257", "384", "4095",
            "4097", "8192", "65664", "65600", "4294967296", "4294967360", "4294967424",
            "4294968320",
            "18446744073709551680", "18446744073709551744", "18446744073709552640",
            "9" * 30, "", "0128", "064", "00", "+128", "-128", "128.0", "0x80", "128 ", " 128",
            "128\0", "128\r", "a", "12 8")
REQUESTERS = ("", "0", "100", "01000", "00100", "010g", "01AB", "01aB", "0x10", "010 ", " 100",
              "-100", "0100 ", "0100\0", "0100\r", "0100 ext=0", "0100x", "01\n00", "010\xff")


def bad_headers():
    """First lines that are bad, with their newline."""
    for value in UNLISTED:
        for key in ("mps", "mrrs", "rcb"):
            yield header(**{key: value})
    for changed in (dict(mps=64), dict(mps="128x"), dict(mrrs=64), dict(rcb=256), dict(rcb=4096)):
        yield header(**changed)
    yield from (header(req=req) for req in REQUESTERS)
    words = tuple(HEADER[:-1].split(b" "))
    for index in range(4):
        yield b" ".join(words[:index] + words[index + 1:]) + b"\n"
        yield b" ".join(words[:index + 1] + words[index:]) + b"\n"
    yield from (b" ".join(order) + b"\n" for order in permutations(words) if order != words)
    for gap in (b"", b"  ", b"\t", b"\0", b"\r", b","):
        for index in range(1, 4):
            yield b" ".join(words[:index]) + gap + b" ".join(words[index:]) + b"\n"
    for other in (b" ", b"\t", b"\r", b"\0", b"\xff", b"\n", b"\xef\xbb\xbf", b"x"):
        yield other + HEADER
    for other in (b" ", b"\t", b"\r", b"\0", b"\xff", b" at=7", b" " + GOOD[:-1]):
        yield HEADER[:-1] + other + b"\n"
    yield from (b"\n", b" \n", b"\r\n", b"\0\n", b"mps=\n", b"code=11\n", GOOD, HEADER.upper())
    yield header(mps="9" * 8_000)
    yield header(rcb="9" * 9_000)
    for size in (LINE - 1, LINE, LINE + 1, 20_000):
        yield HEADER[:-1].ljust(size - 1) + b"\n"


def unended_headers():
    """Inputs that end before the first newline."""
    yield from (HEADER[:size] for size in range(len(HEADER)))
    yield from (b" ", b"\0", b"\r", b"\xff", GOOD[:-1])
    yield from (HEADER[:-1].ljust(size) for size in (LINE - 1, LINE, LINE + 1, 20_000))


def first_lines(frames):
    """Listed settings, bad first lines before good lines, unended ones, and a header alone."""
    for mps, mrrs, rcb in product(SIZES, SIZES, (64, 128)):
        frames.add(header(mps, mrrs, rcb, "%04x" % (mps + mrrs)) + GOOD, 16_384, codes=[0])
    for req in ("0000", "ffff", "01ab", "dead", "9999"):
        frames.add(header(req=req) + GOOD, 16_384, 5, codes=[0])
    frames.add(HEADER, 1, len(HEADER) - 1, len(HEADER), 16_384, codes=[])
    frames.add(HEADER + b"\n", 1, len(HEADER), 16_384, codes=[13])
    for data in bad_headers():
        frames.add(data + GOOD, 8_267 if len(data) > 10_000 else 16_384, codes=[11])
    for data in unended_headers():
        frames.add(data, 16_384, *((1, 32) if 0 < len(data) < 40 else ()), codes=[11])
    for data in changed_bytes(HEADER):
        frames.add(data + GOOD, 16_384)


# ---------------------------------------------------------------------------------------------
# Long lines and unended ones
# ---------------------------------------------------------------------------------------------

LONGEST = packet("MWr64", length=1024, last=15, address=0x2000, td=1)        # 4,116 bytes
FULL = line_of(LONGEST, 4294967295)
NEARLY = line_of(LONGEST, 429496729)
OVER = line_of(LONGEST + b"\0", 429496729)         # of good form, but for its size
FURTHER = line_of(LONGEST + b"\0", 4294967295)


def filled(size, filler=b"x"):
    """A line of no form, of this size with its newline."""
    return filler * (size - 1) + b"\n"


def line_lengths(frames):
    """Lines about as long as the longest, and far longer, each before a good line."""
    assert [len(line) for line in (NEARLY, FULL, OVER, FURTHER)] == [8_266, 8_267, 8_268, 8_269]
    long = FULL + GOOD + NEARLY + GOOD + OVER + GOOD + FURTHER + GOOD
    frames.add(WIDE + long, 16_384, codes=[0, 0, 0, 0, 13, 0, 13, 0])
    frames.add(HEADER + FULL + GOOD, 8_268, codes=[5, 0])
    unknown = line_of(b"\xff" + LONGEST[1:], 4294967295)
    upper = FULL[:-2] + b"F\n"
    frames.add(WIDE + unknown + upper + FULL, 4_093, codes=[2, 13, 0])
    for size in (LINE - 1, LINE, LINE + 1, 20_000):
        frames.add(HEADER + filled(size) + GOOD, 16_384, codes=[13, 0])
    frames.add(HEADER + filled(20_000, b"\0") + filled(9_000, b"\xff") + GOOD, 10_007,
               codes=[13, 13, 0])
    for size, block in ((LINE - 1, 16_384), (LINE, 16_384), (LINE, 8_267), (LINE + 1, 16_384),
                        (16_384, 16_384)):
        # A good line's text where a decoder that resumes too early would find it.
        frames.add(HEADER + b"x" * size + GOOD + GOOD, block, codes=[13, 0])


def unended_lines(frames):
    """Last lines without a newline, of many sizes, and such as a newline would make good."""
    for size in (1, LINE - 2, LINE - 1, LINE, LINE + 1, 20_000):
        frames.add(HEADER + GOOD + b"x" * size, 8_267, codes=[0, 13])
    for size in range(1, len(GOOD)):
        frames.add(HEADER + GOOD[:size], 16_384, codes=[13])
    for line in (NEARLY, FULL, OVER):
        frames.add(WIDE + line[:-1], 16_384, codes=[13])
    for last in (b"\r", b"\0", b"\xff", b" ", b"at=0 dir=rx len=0 tlp="):
        frames.add(HEADER + GOOD + last, 1, 16_384, codes=[0, 13])
    frames.add(HEADER + filled(9_000) + GOOD[:-1], 8_267, codes=[13, 13])
    frames.add(HEADER + filled(9_000) + b"x" * 9_000, 9_000, codes=[13, 13])


# ---------------------------------------------------------------------------------------------
# Edges of blocks
# ---------------------------------------------------------------------------------------------

MIXED = b"".join((
    HEADER, GOOD, line_of(packet("CplD", length=2, count=8), 123456), b"\n", b"at=8\n",
    line_of(packet("MRd64"), 4294967295, "tx"), line_of(packet("MRd32", th=1)), b"x", GOOD,
    line_of(packet("Msg", byte0=0x34)), b"at=0 dir=rx len=0 tlp=\n", GOOD.upper(), b"\n\n",
    line_of(packet("Cpl", status=1)), GOOD[:-1] + b"\r\n", line_of(packet("CfgWr0", td=1)),
    b"at=9"))
SHORT = b"".join((
    HEADER, GOOD, b"\n", line_of(packet("Cpl")), b"at=1 dir=tx len=0 tlp=\n", b"bad\n", GOOD))


def small_blocks(frames):
    """Every size up to 80, and the first edge at every place of a short capture."""
    frames.add(MIXED, *range(1, 81), codes=[0, 0, 13, 13, 0, 4, 13, 0, 1, 13, 13, 13, 0, 13, 0, 13])
    frames.add(SHORT, *range(1, len(SHORT) + 2), codes=[0, 13, 0, 1, 13, 0])


def drifting_edges(frames):
    """Lines of one size and blocks one byte off it: an edge falls at every place of a line."""
    completion = line_of(packet("Cpl", tag=200), 12345)
    for line, code in ((GOOD, 0), (completion, 0), (filled(20), 13), (b"\n", 13),
                       (line_of(packet("MRd32", last=1)), 7)):
        count = len(line) + 3
        blocks = [block for block in (len(line) - 1, len(line), len(line) + 1) if block > 0]
        frames.add(HEADER + line * count, *blocks, codes=[code] * count)


def places(first, line):
    """Places about the newline of a long second line, and about where it gets too long."""
    start = len(first)
    ends = (start + min(len(line), LINE), start + len(line))
    return sorted({end + step for end in ends for step in (-2, -1, 0, 1, 2)})


def long_blocks(frames):
    """Long lines with edges about their ends, and with blocks of primes and of near sizes."""
    for line, code in ((FULL, 0), (OVER, 13)):
        frames.add(WIDE + line + GOOD, *places(WIDE, line), codes=[code, 0])
    data = WIDE + FULL + GOOD + filled(9_000) + GOOD
    frames.add(data, 8_266, 8_267, 8_268, 13, 1_009, 4_133, 8_191, 8_192, 16_383,
               codes=[0, 0, 13, 0])
    data = HEADER + filled(20_000) + GOOD
    frames.add(data, 16_383, codes=[13, 0])


def skipped_edges(frames):
    """The newline that ends the skipping of an over-long line is last or first in its block."""
    for step in (-1, 0, 1, 2):
        # Blocks of 100 have an edge where the line gets too long, and 100 bytes on.
        line = filled(8_400 - len(HEADER) + step)
        for rest, codes in ((GOOD, [0]), (b"\n" + GOOD, [13, 0]), (b"", []), (b"x", [13])):
            frames.add(HEADER + line + rest, 100, codes=[13, *codes])
    line = filled(8_400)
    frames.add(HEADER[:-1] + line + GOOD, 100, codes=[11])
    frames.add(HEADER + filled(8_400 - len(HEADER)) + line * 2 + GOOD, 100, codes=[13] * 3 + [0])


# ---------------------------------------------------------------------------------------------
# Random captures
# ---------------------------------------------------------------------------------------------

def random_line(random):
    """A line of some kind of packet, about one in eight refused."""
    form = random.pick(tuple(FORMS))
    length = 1 if form in SINGLE else 1 + random.below(8)
    data = packet(form, length=length, last=15 if form in MEMORY and length > 1 else 0,
                  tag=random.below(256), count=4 * length, td=random.below(2), ep=random.below(2),
                  source=random.below(1 << 16), address=random.below(1 << 12) << 8)
    if random.below(8) == 0:
        place = random.below(len(data))
        data = data[:place] + bytes([random.below(256)]) + data[place + 1:]
    at = random.below(1 << random.pick((4, 8, 16, 32)))
    return line_of(data, at, random.pick(("rx", "tx")))


def damaged(random, text):
    """The text with a few bytes replaced, left out or put in, newlines too."""
    changed = bytearray(text)
    for _ in range(1 + random.below(4)):
        place = random.below(len(changed))
        other = random.pick((10, 32, 48, 61, 97, 0, 13, 255, random.below(256)))
        changed[place:place + random.below(2)] = bytes([other])[:random.below(3)]
    return bytes(changed)


def random_captures(frames):
    """Traffic with random blocks, whole and damaged."""
    random = Xorshift(0x2545F4914F6CDD1D)
    for _ in range(6):
        lines = [random_line(random) for _ in range(60)]
        frames.add(HEADER + b"".join(lines), *(1 + random.below(400) for _ in range(2)))
    for _ in range(250):
        lines = b"".join(random_line(random) for _ in range(1 + random.below(5)))
        text = damaged(random, HEADER + lines) if random.below(8) == 0 else (
            HEADER + damaged(random, lines))
        frames.add(text, 1 + random.below(100))


SECTIONS = (
    whole_case, accepted_kinds, lengths, refused_numbers, bad_lines, bad_bytes, first_lines,
    line_lengths, unended_lines, small_blocks, drifting_edges, long_blocks, skipped_edges,
    random_captures,
)


def make():
    """All frames."""
    frames = Frames()
    for section in SECTIONS:
        section(frames)
    return frames


def main(arguments):
    """Write the two files into the directory named by the one argument."""
    if len(arguments) != 1:
        print("usage: make_captures.py DIR", file=sys.stderr)
        return 2
    directory = Path(arguments[0])
    directory.mkdir(parents=True, exist_ok=True)
    for name, contents in zip(NAMES, make().files()):
        (directory / name).write_bytes(contents)
    return 0


if __name__ == "__main__":
    sys.exit(main(sys.argv[1:]))
