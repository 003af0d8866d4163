"""Self-test of the second decoder of captures, of the stored captures and of the sample.

Written from document 01 alone, like capture.py: the outputs below are worked out by hand.  Prints
one summary line, or one line with the first failure and exits with 1.
"""

import re
import sys
from collections import Counter
from pathlib import Path

sys.dont_write_bytecode = True   # the imports below leave no compiled files behind

import capture
import checks
import make_captures
from checks import require

ROOT = Path(__file__).resolve().parent.parent.parent
STORED = ROOT / "crates" / "capture_vectors"
SAMPLE = ROOT / "samples"

LINE_NUMBERS = {0, 1, 2, 3, 4, 5, 6, 7, 8, 9, 10, 13}
KINDS = {"MRd32", "MRd64", "MWr32", "MWr64", "IORd", "IOWr", "CfgRd0", "CfgWr0", "CfgRd1", "CfgWr1",
         "Msg", "MsgD", "Cpl", "CplD"}
LEAST_FRAMES = 1_000
LEAST_SAMPLE_NUMBERS = 8


def expect(what, data, output):
    """One capture with its decoding, both as text."""
    seen = capture.decode(data.encode("latin-1")).decode()
    require(seen == output, "%s: %r instead of %r", what, seen, output)


# ---------------------------------------------------------------------------------------------
# Document 01's whole case
# ---------------------------------------------------------------------------------------------

INPUT = """\
mps=128 mrrs=512 rcb=64 req=0100
at=1 dir=tx len=12 tlp=000000010100050000001000
at=2 dir=rx len=16 tlp=4a000001020000010100050000000000
at=3 dir=rx len=12 tlp=000000020100050000001000
at=4 dir=rx len=4 tlp=00000001
"""
OUTPUT = """\
code=0 kind=MRd32 tag=5 dw=1
code=0 kind=CplD tag=5 dw=1
code=7
code=1
lines=4 refused=2
"""


def check_whole_case():
    """The case as printed there, and with its last newline missing."""
    expect("the whole case", INPUT, OUTPUT)
    expect("the whole case, unended", INPUT[:-1], OUTPUT.replace("code=1\nl", "code=13\nl"))


# ---------------------------------------------------------------------------------------------
# Packets: a line of each kind and of each number
# ---------------------------------------------------------------------------------------------

HEADER = "mps=128 mrrs=512 rcb=64 req=0100\n"

ACCEPTED = (   # packet, kind, tag, dw
    ("00000001 0100000f 00001000", "MRd32", 0, 1),
    ("00000000 010009ff 00002000", "MRd32", 9, 1024),
    ("20000003 0100ff18 00000001 00001000", "MRd64", 255, 3),
    ("40000001 0100010f 00001000 11223344", "MWr32", 1, 1),
    ("60000002 010080ff ffffffff 00001000 1122334455667788", "MWr64", 128, 2),
    ("02000001 0100050f 0000e000", "IORd", 5, 1),
    ("42000001 0100060f 0000e000 00000000", "IOWr", 6, 1),
    ("04000001 0000070f 01000000", "CfgRd0", 7, 1),
    ("44000001 0000080f 01000004 00000006", "CfgWr0", 8, 1),
    ("05000001 00000a0f 02000000", "CfgRd1", 10, 1),
    ("45000001 00000b0f 02000004 00000006", "CfgWr1", 11, 1),
    ("30000000 01000c18 00000000 00000000", "Msg", 12, 0),
    ("350003ff 01000d1b 00000000 00000000", "Msg", 13, 0),
    ("74000001 00000e50 00000000 00000000 0000c319", "MsgD", 14, 1),
    ("0a000000 00002004 01000f00", "Cpl", 15, 0),
    ("0a0003ff 00632004 01001000", "Cpl", 16, 0),
    ("4a000001 00630004 01001100 deadbeef", "CplD", 17, 1),
    ("4a008001 00630004 01001200 deadbeef 00000000", "CplD", 18, 1),
    ("4a004002 00630008 0100fe00 deadbeef deadbeef", "CplD", 254, 2),
)

REFUSED = (   # packet, number
    ("", 1), ("00", 1), ("00000001 0100050f 000010", 1), ("20000001 0100050f 00000001 000010", 1),
    ("01000001 0100050f 00001000", 2), ("ff000001 0100050f 00001000", 2),
    ("00000001 0100050f 0000100000", 3), ("4a000001 00000004 01000500", 3),
    ("00008001 0100050f 00001000", 3),
    ("00010001 0100050f 00001000", 4), ("00000401 0100050f 00001000", 4),
    ("42000021 0100050f 00001000" + "00" * 132, 5), ("4a000021 00000084 01000500" + "ff" * 132, 5),
    ("02000002 0100050f 00001000", 6), ("04001001 0100050f 00001000", 6),
    ("00000001 0100051f 00001000", 7), ("04000001 0100051f 01000000", 7),
    ("00000002 010005ff 00000ffc", 8), ("36000000 01000518 00000000 00000000", 9),
    ("20000001 0100050f 00000000 00001000", 10),
)


def line_of(packet, at=0, way="rx"):
    """The line of a packet, given as digits with spaces."""
    digits = packet.replace(" ", "")
    return "at=%d dir=%s len=%d tlp=%s\n" % (at, way, len(digits) // 2, digits)


def check_packets():
    """Each kind, each number, and the totals of all together."""
    for packet, kind, tag, dw in ACCEPTED:
        expect(packet, HEADER + line_of(packet),
               "code=0 kind=%s tag=%d dw=%d\nlines=1 refused=0\n" % (kind, tag, dw))
    for packet, number in REFUSED:
        expect(packet, HEADER + line_of(packet, 4294967295, "tx"),
               "code=%d\nlines=1 refused=1\n" % number)
    require({kind for _, kind, _, _ in ACCEPTED} == KINDS, "a kind is not tried")
    lines = "".join(line_of(row[0]) for row in ACCEPTED + REFUSED)
    ending = "\nlines=%d refused=%d\n" % (len(ACCEPTED) + len(REFUSED), len(REFUSED))
    seen = capture.decode((HEADER + lines).encode()).decode()
    require(seen.endswith(ending), "the totals of all packets")


def check_payload_sizes():
    """5 depends on the header's MPS alone."""
    line = line_of("4a000021 00000084 01000500" + "00" * 132)
    for mps, output in ((128, "code=5\nlines=1 refused=1\n"),
                        (256, "code=0 kind=CplD tag=5 dw=33\nlines=1 refused=0\n")):
        for others in ("mrrs=128 rcb=64 req=0000", "mrrs=4096 rcb=128 req=ffff"):
            expect("MPS %d" % mps, "mps=%d %s\n%s" % (mps, others, line), output)


# ---------------------------------------------------------------------------------------------
# Lines
# ---------------------------------------------------------------------------------------------

GOOD = "at=7 dir=rx len=12 tlp=000000010100050f00001000\n"
ANSWER = "code=0 kind=MRd32 tag=5 dw=1\n"

GOOD_LINES = (
    GOOD, GOOD.replace("rx", "tx"), GOOD.replace("at=7", "at=0"),
    GOOD.replace("at=7", "at=4294967295"), GOOD.replace("at=7", "at=10"),
)

BAD_LINES = (
    "\n", " \n", "\r\n", "\0\n", "\xff\n", "at=7\n", "at=7 dir=rx len=12\n",
    GOOD.replace("at=7", "at="), GOOD.replace("at=7", "at=07"), GOOD.replace("at=7", "at=00"),
    GOOD.replace("at=7", "at=4294967296"), GOOD.replace("at=7", "at=18446744073709551623"),
    GOOD.replace("at=7", "at=+7"), GOOD.replace("at=7", "at=-7"), GOOD.replace("at=7", "at=7a"),
    GOOD.replace("at=7", "at=" + "7" * 8_000), GOOD.replace("at=7", "AT=7"),
    GOOD.replace("dir=rx", "dir=up"), GOOD.replace("dir=rx", "dir=RX"),
    GOOD.replace("dir=rx", "dir=r"), GOOD.replace("dir=rx", "dir="), GOOD.replace("rx", "rxx"),
    GOOD.replace("len=12", "len=11"), GOOD.replace("len=12", "len=13"),
    GOOD.replace("len=12", "len=012"), GOOD.replace("len=12", "len="),
    GOOD.replace("len=12", "len=4294967308"), GOOD.replace("len=12", "len=" + "1" * 30),
    GOOD.replace("len=12", "len=0"), GOOD.replace("0f", "0F"),
    GOOD.replace("0f", "0g"), GOOD.replace("1000\n", "100\n"), GOOD.replace("\n", "0\n"),
    GOOD.replace("\n", "00\n"), GOOD.replace("\n", " \n"), GOOD.replace("\n", "\r\n"),
    GOOD.replace("\n", "\0\n"), GOOD.replace("\n", " x\n"), GOOD.replace("\n", " ext=0\n"),
    " " + GOOD, "\t" + GOOD, "x" + GOOD, GOOD.replace(" dir", "  dir"), GOOD.replace(" ", "\t", 1),
    GOOD.replace(" len", "len"), GOOD.replace("at=7 ", ""), GOOD.replace("dir=rx ", ""),
    GOOD.replace("len=12 ", ""), GOOD.replace("at=7", "at=7 at=7"), GOOD.replace("rx", "rx dir=rx"),
    GOOD.replace("at=7 dir=rx", "dir=rx at=7"), GOOD.replace("tlp=", "tlp=tlp="),
    "at=7 dir=rx len=0 tlp=0\n", "at=7 dir=rx len=00 tlp=\n", "at=7 dir=rx len=0 tlp\n", HEADER,
)


def check_lines():
    """Good and bad forms, each between two good lines; a bad one counts in both totals."""
    for line in GOOD_LINES:
        expect(line, HEADER + GOOD + line + GOOD, ANSWER * 3 + "lines=3 refused=0\n")
    for line in BAD_LINES:
        expect(line, HEADER + GOOD + line + GOOD,
               ANSWER + "code=13\n" + ANSWER + "lines=3 refused=1\n")
    expect("no bytes at all", HEADER + "at=7 dir=rx len=0 tlp=\n", "code=1\nlines=1 refused=1\n")


def check_line_lengths():
    """8,267 bytes with the newline are good, 8,268 are bad, whatever they hold."""
    packet = "60008000 010005ff 00000001 00002000" + "5a" * 4096 + "00000000"
    first = "mps=4096 mrrs=512 rcb=64 req=0100\n"
    full = line_of(packet, 4294967295)
    require(len(full) == 8_267, "the longest line has %d bytes", len(full))
    answer = "code=0 kind=MWr64 tag=5 dw=1024\n"
    expect("8,267 bytes", first + full + GOOD, answer + ANSWER + "lines=2 refused=0\n")
    expect("8,266 bytes", first + line_of(packet, 429496729), answer + "lines=1 refused=0\n")
    over = line_of(packet + "00", 429496729)
    require(len(over) == 8_268, "the line after it has %d bytes", len(over))
    filled = ["x" * size + "\n" for size in (8_265, 8_266, 8_267, 19_999)]
    for line in (over, "x" * 8_267 + GOOD, *filled):
        expect("%d bytes" % len(line), HEADER + line + GOOD,
               "code=13\n" + ANSWER + "lines=2 refused=1\n")


def check_endings():
    """A last line without its newline is one bad line; a header alone has none."""
    expect("a header alone", HEADER, "lines=0 refused=0\n")
    expect("a header and an empty line", HEADER + "\n", "code=13\nlines=1 refused=1\n")
    for last in ("x", "\0", "\r", GOOD[:-1], "x" * 8_265, "x" * 8_266, "x" * 8_267, "x" * 8_268,
                 "x" * 20_000):
        expect("unended, %d bytes" % len(last), HEADER + last, "code=13\nlines=1 refused=1\n")
        expect("unended, %d bytes" % len(last), HEADER + GOOD + last,
               ANSWER + "code=13\nlines=2 refused=1\n")


# ---------------------------------------------------------------------------------------------
# The first line
# ---------------------------------------------------------------------------------------------

BAD_HEADERS = (
    "\n", " " + HEADER, "\n" + HEADER, "\xef\xbb\xbf" + HEADER, GOOD, HEADER.upper(),
    HEADER.replace("128", "127"), HEADER.replace("128", "64"), HEADER.replace("128", "8192"),
    HEADER.replace("128", "0128"), HEADER.replace("128", ""), HEADER.replace("128", "+128"),
    HEADER.replace("128", "4294967424"), HEADER.replace("128", "1" * 5_000),
    HEADER.replace("512", "64"), HEADER.replace("512", "513"), HEADER.replace("512", "0512"),
    HEADER.replace("64", "32"), HEADER.replace("64", "256"), HEADER.replace("64", "064"),
    HEADER.replace("0100", "100"), HEADER.replace("0100", "00100"), HEADER.replace("0100", ""),
    HEADER.replace("0100", "01AB"), HEADER.replace("0100", "010g"), HEADER.replace("\n", "\r\n"),
    HEADER.replace("\n", " \n"), HEADER.replace("\n", " ext=0\n"), HEADER.replace(" rcb", "  rcb"),
    HEADER.replace(" ", "\t", 1), HEADER.replace("mps=128 ", ""), HEADER.replace(" req=0100", ""),
    HEADER.replace("mps=128 mrrs=512", "mrrs=512 mps=128"), HEADER.replace("64", "64 rcb=64"),
    HEADER[:-1] + " " * 8_300 + "\n", "x" * 20_000 + "\n",
)


def check_headers():
    """A bad, missing or unended first line gives one line alone; every listed setting is good."""
    for line in BAD_HEADERS:
        expect("header %s" % line[:60], line + GOOD, "code=11\n")
        expect("header %s, alone" % line[:60], line, "code=11\n")
    for data in ("", "m", HEADER[:-1], GOOD[:-1], "x" * 9_000):
        expect("unended header %s" % data[:60], data, "code=11\n")
    for size in (128, 256, 512, 1024, 2048, 4096):
        for line in (HEADER.replace("128", str(size)), HEADER.replace("512", str(size))):
            expect(line, line + GOOD, ANSWER + "lines=1 refused=0\n")
    for line in (HEADER.replace("64", "128"), HEADER.replace("0100", "ffff"),
                 HEADER.replace("0100", "0a9f")):
        expect(line, line + GOOD, ANSWER + "lines=1 refused=0\n")


# ---------------------------------------------------------------------------------------------
# The stored files
# ---------------------------------------------------------------------------------------------

def stored_frames():
    """Every stored frame, split by its own first line, with its output."""
    made = make_captures.make().files()
    stored = []
    for name, contents in zip(make_captures.NAMES, made):
        path = STORED / name
        require(path.is_file(), "stored file %s is missing", name)
        stored.append(path.read_bytes())
        require(stored[-1] == contents, "stored file %s differs from a new one", name)
        require(len(contents) < make_captures.FILE_LIMIT, "file %s is too large", name)
    frames = split_frames(stored[0])
    *outputs, rest = re.split(rb"^--\n", stored[1], flags=re.M)
    require(rest == b"" and len(outputs) == len(frames), "the two files do not belong together")
    return list(zip(frames, outputs))


def split_frames(stdin):
    """The captures with their sizes of block."""
    frames = []
    place = 0
    while place < len(stdin):
        match = re.compile(rb"size=(\d+) block=(\d+)\n").match(stdin, place)
        require(match is not None, "bad frame at byte %d", place)
        size, block = map(int, match.groups())
        require(size <= 60_000 and 1 <= block <= 16_384, "frame at byte %d: limits", place)
        place = match.end() + size
        require(place <= len(stdin), "the last frame is cut short")
        frames.append((stdin[match.end():place], block))
    return frames


def check_coverage(frames):
    """Every number and kind occurs, and 11 always alone; the counts of codes."""
    require(len(frames) >= LEAST_FRAMES, "only %d frames", len(frames))
    counts, kinds = Counter(), set()
    for (data, _), output in frames:
        codes = make_captures.codes_of(output)
        require(11 not in codes or output == b"code=11\n", "11 is not alone for %s", data[:80])
        require(output == b"code=11\n" or output.endswith(
            b"lines=%d refused=%d\n" % (len(codes), sum(code != 0 for code in codes))),
            "the totals of %s", data[:80])
        counts.update(codes)
        kinds.update(kinds_of(output))
    require(set(counts) == LINE_NUMBERS | {11}, "the stored numbers: %s", sorted(counts))
    require(kinds == KINDS, "the stored kinds: %s", sorted(kinds))
    return counts


def kinds_of(output):
    """The kinds in a decoding."""
    return {word.decode() for word in re.findall(rb" kind=(\w+) ", output)}


def check_sample():
    """The sample's stored decoding; it shows every kind and most numbers."""
    data, output = ((SAMPLE / name).read_bytes() for name in ("bench.cap", "bench.out"))
    require(capture.decode(data) == output, "samples/bench.out is not the decoding of the sample")
    require(kinds_of(output) == KINDS, "kinds of the sample: %s", sorted(kinds_of(output)))
    numbers = set(make_captures.codes_of(output)) - {0}
    require(len(numbers) >= LEAST_SAMPLE_NUMBERS, "numbers of the sample: %s", sorted(numbers))


CHECKS = (check_whole_case, check_packets, check_payload_sizes, check_lines, check_line_lengths,
          check_endings, check_headers, check_sample)


def all_checks():
    """Run every check, and say what was checked."""
    for check in CHECKS:
        check()
    frames = stored_frames()
    counts = check_coverage(frames)
    return "%d captures in blocks; codes %s" % (
        len(frames), " ".join("%d:%d" % pair for pair in sorted(counts.items())))


if __name__ == "__main__":
    sys.exit(checks.run("second decoder", all_checks))
