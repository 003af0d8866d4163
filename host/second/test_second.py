"""Self-test of the second packet reader and writer and of the stored test vectors.

Prints one summary line, or one line with the first failure and exits with 1.
"""

import sys
import tempfile
from collections import Counter
from pathlib import Path

sys.dont_write_bytecode = True   # the imports below leave no compiled files behind

import checks
import make_vectors
import tlp
from checks import require

STORED = Path(__file__).resolve().parent.parent.parent / "crates" / "tlp_vectors"
NAMES = ("stdin", "stdout")

READ_NUMBERS = {0, 1, 2, 3, 4, 5, 6, 7, 8, 9, 10, 11}
WRITE_NUMBERS = {0, 3, 5, 6, 7, 8, 11, 12}
KINDS = set(range(1, 13))
LEAST_LINES = 3000


# ---------------------------------------------------------------------------------------------
# The stored files
# ---------------------------------------------------------------------------------------------

def generated_files():
    """The two files as made anew, required to equal the stored ones."""
    with tempfile.TemporaryDirectory() as directory:
        require(make_vectors.main([directory]) == 0, "make_vectors.py failed")
        made = [(Path(directory) / name).read_bytes() for name in NAMES]
    for name, contents in zip(NAMES, made):
        stored = STORED / name
        require(stored.is_file(), "stored file %s is missing", name)
        require(stored.read_bytes() == contents, "stored file %s differs from a new one", name)
        require(len(contents) < 1_500_000, "file %s is too large", name)
        longest = max(map(len, contents.splitlines(True)))
        require(longest <= 20_000, "a line of %s is too long", name)
    return made


def call_of(line):
    """One input line by its fixed columns: (name, settings, room, record or None, bytes)."""
    settings = tuple(int(line[start:start + 8], 16) for start in (2, 11, 20))
    require(line[1] + line[10] + line[19] + line[28] == "    ", "bad input line %s", line[:80])
    if line[0] == "r":
        return "r", settings, None, None, bytes.fromhex(line[29:])
    require(line[0] == "w", "bad input line %s", line[:80])
    room, size = int(line[29:33], 16), int(line[34:38], 16)
    end = 39 + 2 * size
    require(line[33] + line[38] + line[end] == "   ", "bad input line %s", line[:80])
    return "w", settings, room, bytes.fromhex(line[39:end]), bytes.fromhex(line[end + 1:])


def result_of(line):
    """One output line as a dictionary."""
    return dict(part.split("=") for part in line.split(" "))


def vectors_of(stdin, stdout):
    """Every call with its result."""
    calls = stdin.decode().split("\n")
    results = stdout.decode().split("\n")
    require(calls.pop() == "" and results.pop() == "", "a file does not end in a newline")
    require(results.pop() == "lines=%d" % len(calls), "the count of lines is wrong")
    require(len(calls) == len(results), "the two files have different counts of lines")
    return [(call_of(call), result_of(result)) for call, result in zip(calls, results)]


def check_coverage(vectors):
    """Each number and each accepted kind, for reading and for writing; enough lines."""
    require(len(vectors) >= LEAST_LINES, "only %d vectors", len(vectors))
    counts = {"r": Counter(), "w": Counter()}
    kinds = {"r": set(), "w": set()}
    for (name, _, _, record, _), result in vectors:
        counts[name][int(result["code"])] += 1
        if result["code"] == "0":
            kinds[name].add((record or bytes.fromhex(result.get("record", "")))[0])
    for name, numbers in (("r", READ_NUMBERS), ("w", WRITE_NUMBERS)):
        require(set(counts[name]) == numbers, "numbers of %s: %s", name, sorted(counts[name]))
        require(kinds[name] == KINDS, "accepted kinds of %s: %s", name, sorted(kinds[name]))
    return counts


# ---------------------------------------------------------------------------------------------
# Round trips
# ---------------------------------------------------------------------------------------------

# The bits of each header that are not reserved, by byte 0 without a message's routing.
KEPT = {
    0x00: "ff75ffff ffffffff fffffffc",            # MRd32
    0x20: "ff75ffff ffffffff ffffffff fffffffc",   # MRd64
    0x40: "ff75ffff ffffffff fffffffc",            # MWr32
    0x60: "ff75ffff ffffffff ffffffff fffffffc",   # MWr64
    0x02: "ff70ffff ffffffff fffffffc",            # IORd
    0x42: "ff70ffff ffffffff fffffffc",            # IOWr
    0x04: "ff70ffff ffffffff ffff0ffc",            # CfgRd0
    0x44: "ff70ffff ffffffff ffff0ffc",            # CfgWr0
    0x05: "ff70ffff ffffffff ffff0ffc",            # CfgRd1
    0x45: "ff70ffff ffffffff ffff0ffc",            # CfgWr1
    0x30: "ff74f000 ffffffff ffffffff ffffffff",   # Msg
    0x70: "ff74f3ff ffffffff ffffffff ffffffff",   # MsgD
    0x0A: "ff74f000 ffffffff ffffff7f",            # Cpl
    0x4A: "ff74f3ff ffffffff ffffff7f",            # CplD
}


def clear_reserved(data):
    """The packet's bytes with the header's reserved bits 0."""
    key = data[0] & 0xF8 if data[0] & 0x30 == 0x30 else data[0]
    kept = bytes.fromhex(KEPT[key])
    return bytes(a & b for a, b in zip(data, kept)) + data[len(kept):]


def check_round_trips(vectors):
    """Read then write gives the bytes without reserved bits; write then read gives the record."""
    trips = 0
    for (name, settings, room, record, data), result in vectors:
        if name == "w":
            size, out = int(result["size"]), bytes.fromhex(result["out"])
            require(len(out) == room and set(out[size:]) <= {0xEE}, "output of %s", record.hex())
            require(size == 0 or result["code"] == "0", "size of refused %s", record.hex())
        if result["code"] != "0":
            continue
        trips += 1
        if name == "r":
            read = bytes.fromhex(result["record"]), bytes.fromhex(result["payload"])
            written = tlp.write(*settings, *read, len(data))
            require(written == (0, clear_reserved(data)), "read then write of %s", data.hex())
        else:
            read = tlp.read(*settings, out[:size])
            require(read == (0, record, data), "write then read of %s", record.hex())
    return trips


# ---------------------------------------------------------------------------------------------
# Document 01's worked numbers
# ---------------------------------------------------------------------------------------------

SETTINGS = (128, 512, 64)

CAPTURE = (   # packet, number, and of an accepted one its kind, tag and length
    ("000000010100050000001000", 0, (1, 5, 1)),
    ("4a000001020000010100050000000000", 0, (12, 5, 1)),
    ("000000020100050000001000", 7, None),
    ("00000001", 1, None),
)

READ_CASES = (   # what, packet, number
    ("P5: length 1, first 1010", "00000001 0100050a 00001000", 0),
    ("P6: length 1, first 0000", "00000001 01000500 00001000", 0),
    ("P7: length 2, first 1100, last 0011", "00000002 0100053c 00001000", 0),
    ("P8: length 1024 at 2000h, a read over MPS", "00000000 010005ff 00002000", 0),
    ("P9: length 1 at FFCh", "00000001 0100050f 00000ffc", 0),
    ("P9: length 2 at FFCh", "00000002 010005ff 00000ffc", 8),
    ("P10: length 3, first 1010", "00000003 010005fa 00001000", 7),
    ("P11: length 2, last 0000", "00000002 0100050f 00001000", 7),
    ("an unknown byte 0 with 12 bytes", "01000001 0100050f 00001000", 2),
    ("a 4-DW kind with 12 bytes", "20000001 0100050f 00000001", 1),
    ("low address bits dropped before 8", "00000001 0100050f 00000fff", 0),
    ("TH of a memory request", "00010001 0100050f 00001000", 4),
    ("AT of a memory request", "00000801 0100050f 00001000", 4),
    ("TH and Attr[2] of I/O", "02050001 0100050f 00001000", 0),
    ("AT of I/O", "02000401 0100050f 00001000", 6),
    ("AT and TH of a completion", "0a010c01 01000004 01000500", 0),
    ("length of Msg", "300003ff 0100057f 00000000 00000000", 0),
    ("routing 110", "36000000 0100057f 00000000 00000000", 9),
    ("routing 111", "37000000 0100057f 00000000 00000000", 9),
    ("MRd64 below 4 GiB", "20000001 0100050f 00000000 00001000", 10),
    ("IOWr of 64 DWs at MPS 128", "42000040 0100050f 00001000" + "00" * 256, 5),
)

WRITE_CASES = (   # what, fields of the record, payload size, number
    ("IOWr of length 2 with 4 bytes", {"kind": "IOWr", "length": 2}, 4, 3),
    ("IOWr of length 2 with 8 bytes", {"kind": "IOWr", "length": 2}, 8, 6),
    ("IOWr with Attr[2] and length 2", {"kind": "IOWr", "length": 2, "attr": 4}, 4, 6),
    ("IOWr of 64 DWs at MPS 128", {"kind": "IOWr", "length": 64}, 256, 5),
    ("P9: length 2 at FFCh", {"kind": "MRd", "length": 2, "last": 15, "value": 0xFFC}, 0, 8),
    ("P10: length 3, first 1010", {"kind": "MRd", "length": 3, "first": 10, "last": 15}, 0, 7),
    ("P11: length 2, last 0000", {"kind": "MRd", "length": 2}, 0, 7),
)


def check_capture():
    """The four packets of the capture case: 0, 0, 7, 1."""
    for text, number, shown in CAPTURE:
        code, record, _ = tlp.read(*SETTINGS, bytes.fromhex(text))
        require(code == number, "capture packet %s gives %d", text, code)
        if shown is not None:
            seen = record[0], record[6], int.from_bytes(record[28:32], "big")
            require(seen == shown, "capture packet %s reads as %s", text, seen)


def check_cases():
    """Document 01's edges and the readings that are easily missed."""
    for what, text, number in READ_CASES:
        code = tlp.read(*SETTINGS, bytes.fromhex(text))[0]
        require(code == number, "reading, %s: %d instead of %d", what, code, number)
    for what, fields, size, number in WRITE_CASES:
        code = tlp.write(*SETTINGS, make_vectors.record(**fields), bytes(size), 64)[0]
        require(code == number, "writing, %s: %d instead of %d", what, code, number)


def check_full_counts():
    """P8: length 1024 and byte count 4096 both have the field 0, reading and writing."""
    request = make_vectors.record("MRd", length=1024, last=15, value=0x2000)
    number, packet = tlp.write(*SETTINGS, request, b"", 12)
    require((number, packet.hex()) == (0, "00000000010005ff00002000"), "P8: the read request")
    completion = make_vectors.record("CplD", length=1024, count=4096, value=0x0100)
    number, packet = tlp.write(4096, 512, 64, completion, bytes(4096), 4108)
    require((number, packet[:12].hex()) == (0, "4a0000000100000001000500"), "P8: the completion")
    require(tlp.read(4096, 512, 64, packet) == (0, completion, bytes(4096)), "P8: reading it")


def check_enables():
    """How many pairs of enables are legal: 16 at length 1, 15 x 15 at 2, 4 x 4 beyond."""
    for length, pairs in ((1, 16), (2, 225), (3, 16), (4, 16), (1024, 16)):
        header = bytes([0, 0, (length & 0x3FF) >> 8, length & 0xFF, 1, 0, 5])
        numbers = Counter(tlp.read(*SETTINGS, header + bytes([enables, 0, 0, 0x20, 0]))[0]
                          for enables in range(256))
        require(numbers == {0: pairs, 7: 256 - pairs}, "enables at length %d: %s", length, numbers)


def check_routes():
    """Every routing of a message reads as the case that document 01 names."""
    expected = ((2, 0), (0, 0x0102030405060708), (1, 0x0102), (3, 0), (4, 0), (5, 0))
    for routing, (route, value) in enumerate(expected):
        header = bytes([0x30 + routing]) + bytes.fromhex("000000 0100057f 0102030405060708")
        record = tlp.read(*SETTINGS, header)[1]
        seen = record[5], int.from_bytes(record[8:16], "big")
        require(seen == (route, value), "routing %d reads as %s", routing, seen)


def summary(counts, trips):
    """What was checked."""
    shown = ["%s %s" % (name, " ".join("%d:%d" % pair for pair in sorted(counts[name].items())))
             for name in ("r", "w")]
    total = sum(counts["r"].values()) + sum(counts["w"].values())
    return "%d vectors, %d round trips; %s" % (
        total, trips, "; ".join(shown))


def all_checks():
    """Run every check, and say what was checked."""
    check_capture()
    check_cases()
    check_full_counts()
    check_enables()
    check_routes()
    vectors = vectors_of(*generated_files())
    return summary(check_coverage(vectors), check_round_trips(vectors))


if __name__ == "__main__":
    sys.exit(checks.run("second implementation", all_checks))
