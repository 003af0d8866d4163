"""Make the stored test vectors for reading and writing packets.

    make_vectors.py DIR

writes DIR/stdin (one call in each line) and DIR/stdout (its result).  The same files come out of
every run: all numbers come from a generator with a fixed seed.

Input lines, in lower-case hex:
    r MPS MRRS RCB PACKET                          8 digits for each setting
    w MPS MRRS RCB ROOM LENGTH RECORD PAYLOAD      4 digits each for the output's room and the
                                                   record's length in bytes
Output lines:
    code=N                                         a refused reading
    code=0 record=HEX payload=HEX                  an accepted one
    code=N size=S out=HEX                          a writing; `out` is the whole output afterwards,
                                                   each byte 0xee before
    lines=N                                        after the last one
"""

import struct
import sys
from itertools import combinations
from pathlib import Path

sys.dont_write_bytecode = True   # the import below leaves no compiled file behind

import tlp

LINE_LIMIT = 20_000
FILE_LIMIT = 1_500_000
FILLER = 0xEE

SETTINGS = {"mps": 128, "mrrs": 512, "rcb": 64}

# Every form with its byte 0, header DWs and whether it has data; messages by address.
FORMS = {
    "MRd32": (0x00, 3, False), "MRd64": (0x20, 4, False),
    "MWr32": (0x40, 3, True), "MWr64": (0x60, 4, True),
    "IORd": (0x02, 3, False), "IOWr": (0x42, 3, True),
    "CfgRd0": (0x04, 3, False), "CfgWr0": (0x44, 3, True),
    "CfgRd1": (0x05, 3, False), "CfgWr1": (0x45, 3, True),
    "Msg": (0x31, 4, False), "MsgD": (0x71, 4, True),
    "Cpl": (0x0A, 3, False), "CplD": (0x4A, 3, True),
}
MEMORY = ("MRd32", "MRd64", "MWr32", "MWr64")
SINGLE = ("IORd", "IOWr", "CfgRd0", "CfgWr0", "CfgRd1", "CfgWr1")

KINDS = {
    "MRd": 1, "MWr": 2, "IORd": 3, "IOWr": 4, "CfgRd0": 5, "CfgWr0": 6, "CfgRd1": 7, "CfgWr1": 8,
    "Msg": 9, "MsgD": 10, "Cpl": 11, "CplD": 12,
}
WITH_DATA = ("MWr", "IOWr", "CfgWr0", "CfgWr1", "MsgD", "CplD")


class Xorshift:
    """A 64-bit xorshift generator."""

    def __init__(self, seed):
        self.state = seed

    def next(self):
        """The next 64-bit number."""
        mask = (1 << 64) - 1
        self.state ^= self.state << 13 & mask
        self.state ^= self.state >> 7
        self.state ^= self.state << 17 & mask
        return self.state

    def below(self, limit):
        """A number from 0 up to the limit, without it."""
        return (self.next() >> 11) % limit

    def pick(self, choices):
        """One of the choices."""
        return choices[self.below(len(choices))]

    def bytes(self, count):
        """Some bytes."""
        return bytes(self.below(256) for _ in range(count))


class Vectors:
    """The calls so far, with the results that the second implementation gives them."""

    def __init__(self):
        self.calls = []
        self.results = []

    def add(self, call, result):
        """Keep one call and its result."""
        for line in (call, result):
            if len(line) + 1 > LINE_LIMIT:
                raise ValueError("a line is too long")
        self.calls.append(call)
        self.results.append(result)

    def read(self, data, expect=None, **changed):
        """A reading; `expect` is the number that it must give, if that is known beforehand."""
        settings = (SETTINGS | changed).values()
        number, record, payload = tlp.read(*settings, data)
        check(number, expect, data)
        call = "r %08x %08x %08x %s" % (*settings, data.hex())
        accepted = "" if number else " record=%s payload=%s" % (record.hex(), payload.hex())
        self.add(call, "code=%d%s" % (number, accepted))

    def write(self, record, payload=b"", room=None, expect=None, **changed):
        """A writing; without `room`, the output just holds the packet (16 bytes if refused)."""
        settings = (SETTINGS | changed).values()
        if room is None:
            room = len(tlp.write(*settings, record, payload, 1 << 16)[1]) or 16
        number, packet = tlp.write(*settings, record, payload, room)
        check(number, expect, record)
        call = "w %08x %08x %08x %04x %04x %s %s" % (
            *settings, room, len(record), record.hex(), payload.hex())
        out = packet + bytes([FILLER]) * (room - len(packet))
        self.add(call, "code=%d size=%d out=%s" % (number, len(packet), out.hex()))

    def files(self):
        """The contents of the two files."""
        ending = ["lines=%d" % len(self.calls)]
        stdin, stdout = ("".join(line + "\n" for line in lines).encode()
                         for lines in (self.calls, self.results + ending))
        if max(len(stdin), len(stdout)) > FILE_LIMIT:
            raise ValueError("a file is too large: %d, %d" % (len(stdin), len(stdout)))
        return stdin, stdout


def check(number, expect, subject):
    """Stop if a vector does not give the number that it was made for."""
    if expect is not None and number != expect:
        raise ValueError("%d instead of %d for %s" % (number, expect, subject.hex()))


# ---------------------------------------------------------------------------------------------
# Packets and records
# ---------------------------------------------------------------------------------------------

def pattern(count):
    """Payload bytes that differ from their neighbours."""
    return bytes(index * 37 + 11 & 0xFF for index in range(count))


def packet(form, byte0=None, tc=0, attr=0, th=0, at=0, td=0, ep=0, length=1, source=0x0100, tag=5,
           first=15, last=0, top=0x00000001, address=0x00001000, target=0x0208, register=0x0340,
           code=0x7F, carried=0x0102030405060708, status=0, bcm=0, count=4, requester=0x0100,
           lower=0, payload=None, digest=0xD1D2D3D4, extra=b"", cut=None):
    """The bytes of a packet of any form, with any faults; fields are placed by plain arithmetic."""
    listed, header_dw, has_data = FORMS[form]
    start = bytes([
        listed if byte0 is None else byte0,
        tc << 4 | (attr >> 2) << 2 | th,
        td << 7 | ep << 6 | (attr & 3) << 4 | at << 2 | (length & 0x3FF) >> 8,
        length & 0xFF,
    ])
    request = struct.pack(">HBB", source, tag, last << 4 | first)
    if form in MEMORY and header_dw == 4:
        rest = request + struct.pack(">II", top, address)
    elif form in MEMORY or form.startswith("IO"):
        rest = request + struct.pack(">I", address)
    elif form.startswith("Cfg"):
        rest = request + struct.pack(">HH", target, register)
    elif form.startswith("Msg"):
        rest = struct.pack(">HBBQ", source, tag, code, carried)
    else:
        rest = struct.pack(">HHHBB", source, status << 13 | bcm << 12 | count & 0xFFF, requester,
                           tag, lower)
    if payload is None:
        payload = pattern(4 * length) if has_data else b""
    ending = struct.pack(">I", digest) if td else b""
    return (start + rest + payload + ending + extra)[:cut]


def record(kind, tc=0, attr=0, ep=0, td=0, route=None, tag=5, code=None, value=None, carried=None,
           digest=None, length=None, count=None, source=0x0100, first=None, last=0, ext=None,
           reg=None, status=0, bcm=0, lower=None, unused=b"\0\0\0"):
    """The record of a packet, legal unless told otherwise; `kind` is a name or a number."""
    name = kind if isinstance(kind, str) else ""
    message, completion = name.startswith("Msg"), name.startswith("Cpl")
    addressed, configuration = name in ("MRd", "MWr", "IORd", "IOWr"), name.startswith("Cfg")

    def given(number, own, usual):
        return number if number is not None else usual if own else 0

    carried = given(carried, message, 0x0102030405060708)
    route = given(route, configuration or completion, 1)
    if value is None:
        value = (0x1000 if addressed else 0x0208 if configuration or completion
                 else message_value(route, carried))
    return struct.pack(
        ">8BQQIIIH7B3s", KINDS.get(kind, kind), tc, attr, ep, td, route, tag,
        given(code, message, 0x7F), value, carried,
        given(digest, td == 1, 0xD1D2D3D4), given(length, name not in ("Msg", "Cpl"), 1),
        given(count, completion, 4), source, given(first, addressed or configuration, 15), last,
        given(ext, configuration, 3), given(reg, configuration, 16), status, bcm,
        given(lower, completion, 0), unused)


def message_value(route, carried):
    """The route value of a message for a case of its route."""
    return carried if route == 0 else carried >> 48 if route == 1 else 0


def payload_of(kind, length=1):
    """A payload of the right size."""
    return pattern(4 * length) if kind in WITH_DATA else b""


# ---------------------------------------------------------------------------------------------
# Readings
# ---------------------------------------------------------------------------------------------

UNLISTED_SIZES = (0, 1, 32, 64, 127, 129, 192, 255, 257, 384, 511, 513, 1023, 1025, 2047, 2049,
                  4095, 4097, 8192, 0x00010080, 0x01000100, 0x80000080, 0xFFFFFFFF)
UNLISTED_BOUNDARIES = (0, 1, 32, 63, 65, 96, 127, 129, 192, 256, 4096, 0x00010040, 0x80000080,
                       0xFFFFFFFF)
SIZES = (128, 256, 512, 1024, 2048, 4096)


def all_settings():
    """Settings at every edge, with the number that an otherwise good call gives."""
    for name in ("mps", "mrrs"):
        yield from (({name: size}, 0) for size in SIZES)
        yield from (({name: size}, 11) for size in UNLISTED_SIZES)
    yield from (({"rcb": size}, 0) for size in (64, 128))
    yield from (({"rcb": size}, 11) for size in UNLISTED_BOUNDARIES)
    yield {"mps": 512, "mrrs": 64}, 11
    yield {"mps": 0, "mrrs": 0, "rcb": 0}, 11


def read_settings(vectors):
    """Listed and unlisted settings, with good packets and with other faults."""
    for changed, number in all_settings():
        vectors.read(packet("MRd32"), number, **changed)
        vectors.read(packet("CplD"), number, **changed)
        vectors.read(b"", number or 1, **changed)


def read_sizes(vectors):
    """Every size up to the full one, and sizes off by one and by four, with and without TD."""
    for form in FORMS:
        for td in (0, 1):
            whole = packet(form, td=td)
            vectors.read(whole, 0)
            for more in (1, 2, 3, 4, 8):
                vectors.read(whole + pattern(more), 3)
            header = 4 * FORMS[form][1]
            for size in range(len(whole)):
                if size in (0, 1, 4, 8, 11) or size >= 12:
                    vectors.read(whole[:size], 1 if size < header else 3)
    for form in ("MWr32", "MWr64", "MsgD", "CplD"):
        for length in (2, 3):
            for more in (-4, -1, 0, 1, 4):
                data = packet(form, length=length, last=15, payload=pattern(4 * length + more))
                vectors.read(data, 3 if more else 0)


def read_byte0(vectors):
    """Every value of byte 0, with the sizes of each header and of one DW of data."""
    for byte0 in range(256):
        header = bytes([byte0]) + bytes.fromhex("000001 0100050f 00001000 00002000")
        for size in (12, 16, 20):
            vectors.read((header + pattern(4))[:size])
    for byte0 in (0x01, 0x0B, 0x1F, 0x38, 0x4B, 0x5B, 0x80, 0xFF):
        vectors.read(packet("MRd32", byte0=byte0), 2)
        vectors.read(packet("MRd32", byte0=byte0, cut=11), 1)


def read_kinds(vectors):
    """Each form with each of its fields at the edges, with and without digest and poisoning."""
    for form in FORMS:
        for td, ep in ((0, 0), (1, 0), (0, 1), (1, 1)):
            for digest in (0, 0xFFFFFFFF, 0x80000001)[:1 + 2 * td]:
                vectors.read(packet(form, td=td, ep=ep, digest=digest), 0)
        for tag in (0, 1, 31, 32, 128, 255):
            vectors.read(packet(form, tag=tag), 0)
        for source in (0, 1, 0x00FF, 0xFF00, 0xFFFF):
            vectors.read(packet(form, source=source, target=source, requester=source ^ 0x1234), 0)
        for tc in range(8):
            vectors.read(packet(form, tc=tc), 6 if form in SINGLE and tc else 0)
        for attr in range(8):
            vectors.read(packet(form, attr=attr), 6 if form in SINGLE and attr & 3 else 0)
        for th in (0, 1):
            for at in range(4):
                number = (4 if form in MEMORY and (th or at)
                          else 6 if form in SINGLE and at else 0)
                vectors.read(packet(form, th=th, at=at), number)
    for form in ("CfgRd0", "CfgWr0", "CfgRd1", "CfgWr1"):
        for register in (0x0000, 0x0F00, 0x00FC, 0x0FFC, 0xF003, 0xFFFF):
            vectors.read(packet(form, register=register), 0)
    for form in ("Cpl", "CplD"):
        for status in range(8):
            for bcm in (0, 1):
                vectors.read(packet(form, status=status, bcm=bcm), 0)
        for count in (0, 1, 2, 4, 255, 256, 257, 2048, 4094, 4095):
            vectors.read(packet(form, count=count), 0)
            vectors.read(packet(form, count=count, status=7, bcm=1), 0)
        for lower in (0, 1, 4, 63, 64, 127, 128, 255):
            vectors.read(packet(form, lower=lower), 0)


def read_messages(vectors):
    """Every routing, with several contents of bytes 8-15 and message codes."""
    contents = (0, 1, 0x0102030405060708, 0xFFFFFFFFFFFFFFFF, 0x0001000000000003,
                0xFFFF000000000000, 0x0000FFFFFFFFFFFF)
    for form, base in (("Msg", 0x30), ("MsgD", 0x70)):
        for routing in range(8):
            number = 9 if routing > 5 else 0
            for carried in contents:
                vectors.read(packet(form, byte0=base + routing, carried=carried), number)
            for td in (0, 1):
                vectors.read(packet(form, byte0=base + routing, td=td, ep=1, tc=7, attr=7), number)
            for code in (0, 0x14, 0x20, 0xFF):
                vectors.read(packet(form, byte0=base + routing, code=code), number)
            for cut in (11, 12, 15):
                vectors.read(packet(form, byte0=base + routing, cut=cut), 1)
    for length in (0, 1, 2, 255, 256, 1023):
        vectors.read(packet("Msg", length=length), 0)
        vectors.read(packet("Cpl", length=length), 0)


def read_bits(vectors):
    """Each header bit changed on each form; all the bits that document 01 reserves set at once."""
    for form in FORMS:
        whole = packet(form)
        for bit in range(32 * FORMS[form][1]):
            changed = bytearray(whole)
            changed[bit // 8] ^= 0x80 >> bit % 8
            vectors.read(bytes(changed))
    reserved = {
        "MRd32": "008a00000000000000000003", "MRd64": "008a0000000000000000000000000003",
        "MWr32": "008a00000000000000000003", "MWr64": "008a0000000000000000000000000003",
        "IORd": "008f00000000000000000003", "IOWr": "008f00000000000000000003",
        "CfgRd0": "008f0000000000000000f003", "CfgWr0": "008f0000000000000000f003",
        "CfgRd1": "008f0000000000000000f003", "CfgWr1": "008f0000000000000000f003",
        "Msg": "008b0fff000000000000000000000000", "MsgD": "008b0c00000000000000000000000000",
        "Cpl": "008b0fff0000000000000080", "CplD": "008b0c000000000000000080",
    }
    for form, bits in reserved.items():
        for td in (0, 1):
            for start in (packet(form, td=td), packet(form, td=td, ep=1, tag=0xFF)):
                set_bits = bytes.fromhex(bits).ljust(len(start), b"\0")
                vectors.read(bytes(a | b for a, b in zip(start, set_bits)), 0)


def read_enables(vectors):
    """Every pair of enables on MRd at lengths 1 to 3; a selection on the other kinds."""
    for length in (1, 2, 3):
        for first in range(16):
            for last in range(16):
                vectors.read(packet("MRd32", length=length, first=first, last=last))
    chosen = ((15, 15), (14, 7), (12, 3), (8, 1), (15, 0), (0, 15), (0, 0), (13, 15), (15, 14),
              (1, 15), (15, 8), (9, 15), (10, 5), (7, 15), (15, 2))
    for form in ("MRd64", "MWr32", "MWr64"):
        for length in (1, 2, 3, 4):
            for first, last in chosen:
                vectors.read(packet(form, length=length, first=first, last=last))
    for first, last in chosen:
        for length in (4, 5, 1023, 1024):
            vectors.read(packet("MRd32", length=length, first=first, last=last))
    for form in SINGLE:
        for first in range(16):
            vectors.read(packet(form, first=first), 0)
        for last in range(1, 16):
            vectors.read(packet(form, last=last), 7)


def read_lengths(vectors):
    """Length edges, alone and against MPS; reads carry no data, whatever their length."""
    for form in ("MRd32", "MRd64"):
        for length in (1, 2, 3, 4, 31, 32, 33, 64, 255, 256, 257, 511, 512, 1022, 1023, 1024):
            data = packet(form, length=length, last=15 if length > 1 else 0)
            for mps in (128, 4096):
                vectors.read(data, 0, mps=mps)
    for form in SINGLE:
        for length in (2, 3, 32, 33, 1023, 1024):
            if length < 1000 or not FORMS[form][2]:
                data = packet(form, length=length)
                vectors.read(data, 5 if FORMS[form][2] and length > 32 else 6)
    for form in ("MWr32", "MWr64", "IOWr", "CfgWr0", "CfgWr1", "MsgD", "CplD"):
        sizes = SIZES if form in ("MWr32", "MsgD", "CplD") else SIZES[:2]
        for mps in sizes:
            for length in (mps // 4, mps // 4 + 1):
                if length <= 1024:
                    number = 5 if 4 * length > mps else 6 if form in SINGLE else 0
                    data = packet(form, length=length, last=0 if form in SINGLE else 15,
                                  count=4 * length)
                    vectors.read(data, number, mps=mps)
    vectors.read(packet("MWr64", length=1023, last=15, td=1), 0, mps=4096)
    vectors.read(packet("MWr32", length=1024, last=15), 5, mps=2048)
    vectors.read(packet("CplD", length=1024, count=0), 5, mps=2048)
    vectors.read(packet("IOWr", length=64), 5)


def read_pages(vectors):
    """Page edges, the low two address bits, and the edges of the two memory forms."""
    for form in MEMORY:
        for address, length, number in (
                (0xFFC, 1, 0), (0xFFC, 2, 8), (0xFF8, 2, 0), (0xFF8, 3, 8), (0xFF4, 3, 0),
                (0xFFD, 1, 0), (0xFFE, 1, 0), (0xFFF, 1, 0), (0xFFB, 2, 0), (0x1000, 1, 0),
                (0x1FFC, 2, 8), (0xFFFFFFFC, 1, 0), (0xFFFFFFFF, 1, 0), (0xFFFFFFFC, 2, 8),
                (0xFFFFFFF8, 2, 0), (0xFFFFF000, 2, 0), (0x80000000, 1, 0), (0, 1, 0)):
            data = packet(form, address=address, length=length, last=15 if length > 1 else 0)
            vectors.read(data, number)
    for form in ("MRd32", "MRd64"):
        for address, length, number in (
                (0x2000, 1024, 0), (0x2004, 1024, 8), (0x2004, 1023, 0), (0x2008, 1023, 8),
                (0x2003, 1024, 0), (0x2007, 1024, 8), (0xFFFFF000, 1024, 0), (0x2800, 512, 0),
                (0x2800, 513, 8)):
            vectors.read(packet(form, address=address, length=length, last=15), number)
    for form in ("MRd64", "MWr64"):
        for address in (0, 4, 0x1000, 0xFFFFFFFC, 0xFFFFFFFF):
            for top, number in ((0, 10), (1, 0), (0x80000000, 0), (0xFFFFFFFF, 0)):
                vectors.read(packet(form, top=top, address=address), number)
        vectors.read(packet(form, top=0, td=1, ep=1), 10)
    for form in ("IORd", "IOWr"):
        for address in (0, 3, 4, 0xFFC, 0xFFF, 0x80000000, 0xFFFFFFFC, 0xFFFFFFFF):
            vectors.read(packet(form, address=address), 0)


def read_orders(vectors):
    """Pairs of faults, and each fault with every later one, to pin the order of checking."""
    common = {
        "11": {"mrrs": 0},
        "1 start": {"cut": 8},
        "2": {"byte0": 0x61},
        "1 header": {"cut": 14},
        "3": {"extra": b"\1\2\3\4"},
    }
    own = {
        "memory": {"4": {"th": 1}, "7": {"first": 0}, "8": {"address": 0x1FFC}},
        "single": {"6": {"tc": 1}, "7": {"last": 1}},
        "message": {},
        "completion": {},
    }
    order = ("11", "1 start", "2", "1 header", "3", "4", "5", "6", "7", "8", "9", "10")
    for form, (byte0, header_dw, has_data) in FORMS.items():
        family = ("memory" if form in MEMORY else "single" if form in SINGLE
                  else "message" if form.startswith("Msg") else "completion")
        faults = common | own[family]
        base = {"length": 2, "last": 15} if family == "memory" else {}
        if header_dw == 3:
            del faults["1 header"]
        if family == "message":
            faults["9"] = {"byte0": byte0 & 0xF8 | 6}
        if family == "memory" and header_dw == 4:
            faults["10"] = {"top": 0}
        if has_data:
            faults["5"] = {"length": 33}
        names = [name for name in order if name in faults]
        chosen = [*combinations(names, 1), *combinations(names, 2)]
        chosen += [names[start:] for start in range(len(names))]
        for some in chosen:
            read_faults(vectors, form, base, {name: faults[name] for name in some})
    for at in (1, 2, 3):
        vectors.read(packet("MWr32", at=at, length=33, last=15), 4)
        vectors.read(packet("MRd64", at=at, length=2, last=0, address=0xFFC, top=0), 4)
        vectors.read(packet("IOWr", at=at, length=33), 5)
        vectors.read(packet("CfgRd0", at=at, last=1), 6)
    for attr in (1, 2, 3):
        vectors.read(packet("IORd", attr=attr, last=1), 6)
        vectors.read(packet("CfgWr1", attr=attr, extra=b"\0"), 3)


def read_faults(vectors, form, base, faults):
    """A packet with several faults gives the number of the first; `faults` are in their order."""
    fields = dict(base)
    for name, changed in reversed(faults.items()):
        fields |= changed
    settings = {name: fields.pop(name) for name in ("mps", "mrrs", "rcb") if name in fields}
    vectors.read(packet(form, **fields), int(next(iter(faults)).split()[0]), **settings)


# ---------------------------------------------------------------------------------------------
# Writings
# ---------------------------------------------------------------------------------------------

def write_settings(vectors):
    """Listed and unlisted settings, with good records and with other faults."""
    for changed, number in all_settings():
        vectors.write(record("MRd"), b"", None, number, **changed)
        vectors.write(b"", b"", 0, number or 6, **changed)


def write_rooms(vectors):
    """Each kind with and without digest and poisoning; room exact, larger and short."""
    for kind in KINDS:
        for td, ep in ((0, 0), (1, 0), (0, 1), (1, 1)):
            given, payload = record(kind, td=td, ep=ep), payload_of(kind)
            vectors.write(given, payload, None, 0)
            exact = len(tlp.write(*SETTINGS.values(), given, payload, 100)[1])
            for room, number in ((exact + 1, 0), (exact + 9, 0), (exact - 1, 12), (exact - 4, 12),
                                 (0, 12)):
                vectors.write(given, payload, room, number)
        vectors.write(record(kind, td=1, digest=0), payload_of(kind), None, 0)
        vectors.write(record(kind, td=1, digest=0xFFFFFFFF), payload_of(kind), 64, 0)
        for digest in (1, 0x80000000, 0xFFFFFFFF):
            vectors.write(record(kind, td=0, digest=digest), payload_of(kind), None, 6)
    wide = record("MRd", value=0x123456789ABCDEF0)
    for room, number in ((16, 0), (17, 0), (15, 12), (12, 12), (0, 12)):
        vectors.write(wide, b"", room, number)


def write_record_shapes(vectors):
    """Records of other lengths, of unknown kinds, and with each byte changed."""
    whole = record("CplD")
    for size in (0, 1, 16, 47):
        vectors.write(whole[:size], payload_of("CplD"), None, 6)
    for more in (1, 2, 48):
        vectors.write(whole + bytes(more), payload_of("CplD"), None, 6)
    for kind in (0, 13, 14, 128, 129, 255):
        vectors.write(bytes([kind]) + record("MRd")[1:], b"", None, 6)
        vectors.write(bytes([kind]) + bytes(47), b"", None, 6)
    for kind in KINDS:
        whole = record(kind)
        for size in (47, 49):
            vectors.write((whole + b"\0")[:size], payload_of(kind), None, 6)
        for place in range(48):
            for bit in (0x01, 0x80):
                changed = bytearray(whole)
                changed[place] ^= bit
                vectors.write(bytes(changed), payload_of(kind))


# Every field that a record can hold too large, with its largest number and the kinds that have it.
LIMITED = (
    ("tc", 7, KINDS), ("attr", 7, KINDS),
    ("first", 15, ("MRd", "MWr", "IORd", "IOWr", "CfgRd0", "CfgWr0", "CfgRd1", "CfgWr1")),
    ("last", 15, ("MRd", "MWr", "IORd", "IOWr", "CfgRd0", "CfgWr0", "CfgRd1", "CfgWr1")),
    ("ext", 15, ("CfgRd0", "CfgWr0", "CfgRd1", "CfgWr1")),
    ("reg", 63, ("CfgRd0", "CfgWr0", "CfgRd1", "CfgWr1")),
    ("status", 7, ("Cpl", "CplD")), ("lower", 127, ("Cpl", "CplD")),
    ("ep", 1, KINDS), ("td", 1, KINDS), ("bcm", 1, ("Cpl", "CplD")),
)


def write_ranges(vectors):
    """Each field just in range and just over, lengths and byte counts at their edges."""
    for name, largest, kinds in LIMITED:
        for kind in kinds:
            vectors.write(record(kind, **{name: largest}), payload_of(kind))
            for number in (largest + 1, 255):
                vectors.write(record(kind, **{name: number}), payload_of(kind), None, 6)
    for kind in KINDS:
        for tag in (0, 31, 32, 255):
            vectors.write(record(kind, tag=tag), payload_of(kind), None, 0)
        for source in (0, 0x00FF, 0xFFFF):
            vectors.write(record(kind, source=source), payload_of(kind), None, 0)
        for attr in (1, 2, 3, 4, 5):
            single = kind in SINGLE
            vectors.write(record(kind, attr=attr), payload_of(kind), None, 6 if single else 0)
        for length in (0, 1025, 0x10001, 0xFFFFFFFF):
            vectors.write(record(kind, length=length), payload_of(kind), None,
                          0 if length == 0 and kind in ("Msg", "Cpl") else 6)
        vectors.write(record(kind, length=1), payload_of(kind), None,
                      6 if kind in ("Msg", "Cpl") else 0)
    for kind in ("Cpl", "CplD"):
        for count in (0, 1, 2, 255, 256, 4095, 4096, 4097, 8192, 0x10001, 0xFFFFFFFF):
            vectors.write(record(kind, count=count), payload_of(kind), None,
                          0 if 1 <= count <= 4096 else 6)
    for kind in ("Msg", "MsgD"):
        for code in (0, 1, 0x80, 0xFF):
            vectors.write(record(kind, code=code), payload_of(kind), None, 0)


def write_routes(vectors):
    """Each case of the route with each kind, with values that suit and values that do not."""
    carried = 0x0102030405060708
    for kind in KINDS:
        for route in range(6):
            for value in (0, 0x0102, 0x1000, 0x10000, carried):
                vectors.write(record(kind, route=route, value=value), payload_of(kind))
        for route in (6, 7, 128, 255):
            vectors.write(record(kind, route=route, value=0), payload_of(kind), None, 6)
    for kind in ("Msg", "MsgD"):
        for carried in (0, 3, 0x0001000000000000, 0xFFFFFFFFFFFFFFFF):
            for route in range(6):
                given = record(kind, route=route, carried=carried)
                vectors.write(given, payload_of(kind), None, 0)
        carried = 0x0102030405060708
        for route, value in ((0, carried ^ 1), (0, carried ^ 1 << 63), (0, carried & ~3 ^ 4),
                             (1, 0x0103), (1, 0x0708), (1, 0x8102), (2, 1), (3, 1), (4, 1 << 63),
                             (5, 0x0102)):
            vectors.write(record(kind, route=route, value=value), payload_of(kind), None, 6)


def write_addresses(vectors):
    """Alignment, the edges of 4 GiB and of a page, and I/O addresses over 32 bits."""
    for kind in ("MRd", "MWr", "IORd", "IOWr"):
        narrow = kind.startswith("IO")
        for value in (0, 4, 0xFFC, 0x80000000, 0xFFFFFFF8, 0xFFFFFFFC):
            vectors.write(record(kind, value=value), payload_of(kind), None, 0)
        for value in (0x100000000, 0x100000004, 0x8000000000000000, 0xFFFFFFFFFFFFFFFC):
            vectors.write(record(kind, value=value), payload_of(kind), None, 6 if narrow else 0)
        for value in (1, 2, 3, 0xFFF, 0xFFFFFFFD, 0x100000002, 0xFFFFFFFFFFFFFFFF):
            vectors.write(record(kind, value=value), payload_of(kind), None, 6)
    for kind in ("MRd", "MWr"):
        for high in (0, 0x100000000, 0xFFFFFFFF00000000):
            for low, length, number in (
                    (0xFFC, 1, 0), (0xFFC, 2, 8), (0xFF8, 2, 0), (0xFF8, 3, 8), (0xFF4, 3, 0),
                    (0xFFFFFFFC, 2, 8), (0xFFFFFFF8, 2, 0)):
                given = record(kind, value=high + low, length=length, last=15 if length > 1 else 0)
                vectors.write(given, payload_of(kind, length), None, number)
    for value, length, number in (
            (0x2000, 1024, 0), (0x2004, 1024, 8), (0x2004, 1023, 0), (0x2008, 1023, 8),
            (0xFFFFFFFFFFFFF000, 1024, 0), (0xFFFFFFFFFFFFF004, 1024, 8), (0xFFFFF000, 1024, 0)):
        vectors.write(record("MRd", value=value, length=length, last=15), b"", None, number)


def write_enables(vectors):
    """A selection of enables at each length; I/O and configuration follow length 1."""
    some = (0, 1, 3, 7, 8, 10, 12, 14, 15)
    for length in (1, 2, 3):
        for first in some:
            for last in some:
                vectors.write(record("MRd", length=length, first=first, last=last))
    for first, last in ((15, 15), (8, 1), (12, 3), (15, 0), (0, 15), (10, 15), (15, 10)):
        for length in (1, 2, 3, 4):
            vectors.write(record("MWr", length=length, first=first, last=last),
                          payload_of("MWr", length))
        for length in (4, 1023, 1024):
            vectors.write(record("MRd", length=length, first=first, last=last))
    for kind in SINGLE:
        for first in some:
            vectors.write(record(kind, first=first), payload_of(kind), None, 0)
        for last in some[1:]:
            vectors.write(record(kind, last=last), payload_of(kind), None, 7)


def write_payloads(vectors):
    """Payloads off by one and by four both ways, and the edges of MPS."""
    for kind in KINDS:
        payload = payload_of(kind)
        for size in (0, 1, 3, 4, 5, 8):
            vectors.write(record(kind), pattern(size), None, 0 if size == len(payload) else 3)
    for kind in ("MWr", "MsgD", "CplD"):
        for length in (2, 3):
            given = record(kind, length=length, last=15 if kind == "MWr" else 0)
            for more in (-4, -1, 0, 1, 4):
                vectors.write(given, pattern(4 * length + more), None, 3 if more else 0)
    for kind in ("MWr", "IOWr", "CfgWr0", "CfgWr1", "MsgD", "CplD"):
        for mps in SIZES if kind in ("MWr", "MsgD", "CplD") else SIZES[:2]:
            for length in (mps // 4, mps // 4 + 1):
                if length <= 1024:
                    number = 5 if 4 * length > mps else 6 if kind in SINGLE else 0
                    given = record(kind, length=length, last=15 if kind == "MWr" else 0)
                    vectors.write(given, pattern(4 * length), None, number, mps=mps)
    vectors.write(record("MWr", length=1023, last=15, value=1 << 40, td=1), pattern(4092), None, 0,
                  mps=4096)
    vectors.write(record("MRd", length=1024, last=15), b"", None, 0, mps=128)
    vectors.write(record("CplD", length=32, count=4096), pattern(128), None, 0)


def write_orders(vectors):
    """Pairs of faults, and each fault with every later one, to pin the order of checking."""
    order = ("11", "6 shape", "6 range", "3", "5", "6 single", "7", "8", "12")
    for kind in KINDS:
        faults = {
            "11": {"rcb": 0},
            "6 shape": {"unused": b"\0\0\1"},
            "6 range": {"attr": 8},
            "3": {"more": b"\1"},
            "12": {"room": 11},
        }
        base = {}
        if kind in WITH_DATA:
            faults["5"] = {"length": 33}
        if kind in SINGLE:
            faults |= {"6 single": {"tc": 1}, "7": {"last": 1}}
        if kind in ("MRd", "MWr"):
            faults |= {"7": {"first": 0}, "8": {"value": 0x1FFC}}
            base = {"length": 2, "last": 15}
        names = [name for name in order if name in faults]
        chosen = [*combinations(names, 1), *combinations(names, 2)]
        chosen += [names[start:] for start in range(len(names))]
        for some in chosen:
            write_faults(vectors, kind, base, {name: faults[name] for name in some})
    write_single_orders(vectors)


def write_faults(vectors, kind, base, faults):
    """A record with several faults gives the number of the first; `faults` are in their order."""
    fields = dict(base)
    for changed in faults.values():
        fields |= changed
    outside = {name: fields.pop(name) for name in ("mps", "mrrs", "rcb", "room") if name in fields}
    more = fields.pop("more", b"")
    payload = payload_of(kind, fields.get("length", 1)) + more
    vectors.write(record(kind, **fields), payload, outside.pop("room", None),
                  int(next(iter(faults)).split()[0]), **outside)


def write_single_orders(vectors):
    """The two places of 6 on I/O and configuration, and other conflicts of one field."""
    for kind in ("IOWr", "CfgWr0", "CfgWr1"):
        vectors.write(record(kind, length=2), pattern(4), None, 3)
        vectors.write(record(kind, length=2), pattern(8), None, 6)
        vectors.write(record(kind, length=2, attr=4), pattern(4), None, 6)
        vectors.write(record(kind, length=33), pattern(132), None, 5)
        vectors.write(record(kind, length=33, attr=4), pattern(132), None, 6)
        vectors.write(record(kind, length=33, attr=1), pattern(132), None, 5)
        for attr in (1, 2, 3):
            vectors.write(record(kind, attr=attr), pattern(3), None, 3)
            vectors.write(record(kind, attr=attr), pattern(4), None, 6)
            vectors.write(record(kind, attr=attr, last=1), pattern(4), None, 6)
            vectors.write(record(kind, attr=attr, last=16), pattern(3), None, 6)
    for kind in ("IORd", "CfgRd0", "CfgRd1"):
        for length in (2, 3, 1024):
            vectors.write(record(kind, length=length), b"", None, 6)
            vectors.write(record(kind, length=length), b"\0", None, 3)
            vectors.write(record(kind, length=length, last=1), b"", 0, 6)
    vectors.write(record("IORd", value=1 << 32), b"\0", None, 6)
    vectors.write(record("MRd", value=2, length=1024, last=0), b"", None, 6)
    vectors.write(record("MRd", length=0, last=15), b"", None, 6)
    vectors.write(record("MWr", length=1025, last=15), pattern(128), None, 6)
    vectors.write(record("CplD", count=0), b"", None, 6)
    vectors.write(record("CplD", route=0), b"", None, 6)


# ---------------------------------------------------------------------------------------------
# Random packets, good and damaged
# ---------------------------------------------------------------------------------------------

def random_call(random):
    """A legal record of some kind and its payload, at most 48 bytes of data."""
    kind = random.pick(list(KINDS))
    single = kind in SINGLE
    length = 1 if single else random.pick((1, 1, 2, 3, 4, 12))
    fields = {
        "tc": 0 if single else random.below(8), "attr": 0 if single else random.below(8),
        "ep": random.below(2), "td": random.below(2), "tag": random.below(256),
        "source": random.below(1 << 16),
    }
    if fields["td"]:
        fields["digest"] = random.below(1 << 32)
    if kind not in ("Msg", "Cpl"):
        fields["length"] = length
    if kind in ("MRd", "MWr"):
        high = random.pick((0, 1, random.below(1 << 32))) << 32
        low = random.below(1 << 20) << 12 | random.below(1024 - length + 1) * 4
        fields |= {"value": high | low, **random_enables(random, length)}
    elif single:
        fields["first"] = random.below(16)
        if kind.startswith("IO"):
            fields["value"] = random.below(1 << 30) * 4
        else:
            fields |= {"value": random.below(1 << 16), "ext": random.below(16),
                       "reg": random.below(64)}
    elif kind.startswith("Msg"):
        fields |= {"route": random.below(6), "code": random.below(256), "carried": random.next()}
    else:
        fields |= {"value": random.below(1 << 16), "status": random.below(8),
                   "bcm": random.below(2), "count": 1 + random.below(4096),
                   "lower": random.below(128)}
    payload = random.bytes(4 * length) if kind in WITH_DATA else b""
    return record(kind, **fields), payload


def random_enables(random, length):
    """Legal enables for a memory request."""
    if length == 1:
        return {"first": random.below(16), "last": 0}
    if length == 2:
        return {"first": 1 + random.below(15), "last": 1 + random.below(15)}
    return {"first": random.pick((15, 14, 12, 8)), "last": random.pick((15, 7, 3, 1))}


def damaged(random, data, start):
    """The bytes with one to three changes: mostly bits of the first `start` bytes."""
    data = bytearray(data)
    for _ in range(1 + random.below(3)):
        place = random.below(min(start, len(data))) if data else 0
        change = random.below(10)
        if change < 6 and data:
            data[place] ^= 1 << random.below(8)
        elif change == 6 and data:
            data[place] = random.below(256)
        elif change == 7:
            data[place:place] = random.bytes(1 + 3 * random.below(2))
        elif change == 8:
            del data[place:place + 1 + 3 * random.below(2)]
        else:
            data[random.below(len(data) + 1):] = b""
    return bytes(data)


def random_settings(random):
    """Listed settings."""
    return {"mps": random.pick(SIZES), "mrrs": random.pick(SIZES), "rcb": random.pick((64, 128))}


def random_packets(vectors):
    """Good and damaged packets and records."""
    random = Xorshift(0x9E3779B97F4A7C15)
    for _ in range(250):
        given, payload = random_call(random)
        settings = random_settings(random)
        vectors.write(given, payload, None, 0, **settings)
        vectors.read(tlp.write(*settings.values(), given, payload, 100)[1], 0, **settings)
    for _ in range(1000):
        good = tlp.write(*SETTINGS.values(), *random_call(random), 100)[1]
        vectors.read(damaged(random, good, 16), **random_settings(random))
    for _ in range(300):
        given, payload = random_call(random)
        if random.below(4) == 0:
            payload = damaged(random, payload, 48)
        else:
            given = damaged(random, given, 48)
        vectors.write(given, payload, random.pick((None, None, 12, 16, 40)),
                      **random_settings(random))
    for _ in range(300):
        given, payload = random_call(random)
        changed = bytearray(given)
        for _ in range(1 + random.below(2)):
            changed[random.below(48)] ^= 1 << random.below(8)
        vectors.write(bytes(changed), payload, None, **random_settings(random))


SECTIONS = (
    read_settings, read_sizes, read_byte0, read_kinds, read_messages, read_bits, read_enables,
    read_lengths, read_pages, read_orders,
    write_settings, write_rooms, write_record_shapes, write_ranges, write_routes, write_addresses,
    write_enables, write_payloads, write_orders,
    random_packets,
)


def make():
    """The contents of the two files, `stdin` and `stdout`."""
    vectors = Vectors()
    for section in SECTIONS:
        section(vectors)
    return vectors.files()


def main(arguments):
    """Write the two files into the directory named by the one argument."""
    if len(arguments) != 1:
        print("usage: make_vectors.py DIR", file=sys.stderr)
        return 2
    directory = Path(arguments[0])
    directory.mkdir(parents=True, exist_ok=True)
    for name, contents in zip(("stdin", "stdout"), make()):
        (directory / name).write_bytes(contents)
    return 0


if __name__ == "__main__":
    sys.exit(main(sys.argv[1:]))
