"""A second table of open memory reads, and the console that drives it by call scripts.

Written from document 01, the decided readings of it and the form of the call scripts, and not from
the code of the implementation that it is compared with.  Packets are read and headers written by
tlp.py.  Number 0 means accepted.
"""

import re
from dataclasses import dataclass, replace
from functools import lru_cache
from typing import NamedTuple

import tlp

TAG_LIMIT = 32
STORE_LIMIT = 65_536
MRD, CPL, CPLD = 1, 11, 12                   # kinds in tlp's record
SUCCESSFUL, RETRY, ABORT = 0b000, 0b010, 0b100
UNSUPPORTED = 0b001

# ---------------------------------------------------------------------------------------------
# Byte enables
# ---------------------------------------------------------------------------------------------


def off(first):
    """The clear bits below the lowest set bit of the first enables; 0 for 0000."""
    return next((bit for bit in range(4) if first >> bit & 1), 0)


def trail(enables):
    """The clear bits above the highest set bit of the last DW's enables; 3 for 0000."""
    return next((3 - bit for bit in reversed(range(4)) if enables >> bit & 1), 3)


@dataclass(frozen=True)
class Read:
    """What open got for a read, and the DWs already taken."""
    address: int
    length: int
    first: int
    last: int
    traffic_class: int
    attributes: int
    start: int
    taken: int = 0

    @property
    def left(self):
        """The DWs still owed."""
        return self.length - self.taken

    @property
    def end(self):
        """The end of the window."""
        return self.start + 4 * self.length

    @property
    def trail(self):
        """Trail is that of the last enables, or of the first when Length is 1."""
        return trail(self.first if self.length == 1 else self.last)

    @property
    def total(self):
        """The total is 4 x Length - off - trail."""
        return 4 * self.length - off(self.first) - self.trail

    def enables(self, dw):
        """The enables of one DW of the read; between first and last every byte is enabled."""
        if dw == 0:
            return self.first
        return self.last if dw == self.length - 1 else 0b1111


# ---------------------------------------------------------------------------------------------
# Conditions on reads
# ---------------------------------------------------------------------------------------------


def request_record(address, length, first, last, traffic_class, attributes, requester, tag):
    """The packet record of a read request; TD, EP and AT are 0."""
    return tlp.pack({
        "kind": MRD, "route": tlp.BY_ADDRESS, "route_value": address, "length": length,
        "first_enables": first, "last_enables": last, "traffic_class": traffic_class,
        "attributes": attributes, "source_id": requester, "tag": tag,
    })


def header(settings, read, requester, tag):
    """The writer's number and header; a header has at most 16 bytes."""
    record = request_record(read.address, read.length, read.first, read.last, read.traffic_class,
                            read.attributes, requester, tag)
    return tlp.write(*settings, record, b"", 16)


@lru_cache(maxsize=None)
def fields_refusal(*fields):
    """6, 7 or 8 as the writer, else 0.  A read carries no data, so no setting bears on them."""
    return tlp.write(128, 128, 64, request_record(*fields, 0, 0), b"", 16)[0]


def request_refusal(read):
    """6, 7 or 8 for the request; requester and tag always fit and never give 6."""
    return fields_refusal(read.address, read.length, read.first, read.last, read.traffic_class,
                          read.attributes)


def over_request_size(read, mrrs):
    """22: 4 x length over MRRS."""
    return 4 * read.length > mrrs


def store_refused(read, size):
    """34: the store is over 65,536 bytes or too short for the window."""
    return size > STORE_LIMIT or read.end > size


def window_refused(read, size):
    """23: as 34, or the start is not a multiple of 4."""
    return store_refused(read, size) or read.start % 4 != 0


def share_a_byte(read, other):
    """24: two windows overlap; touching ones do not."""
    return max(read.start, other.start) < min(read.end, other.end)


def record_valid(read, mrrs):
    """Open would not refuse by 6, 7, 8, 22 or 23 with a store of 65,536, and p is below L."""
    return (request_refusal(read) == 0
            and not over_request_size(read, mrrs)
            and not window_refused(read, STORE_LIMIT)
            and read.taken < read.length)


def continues(read, rcb, completion):
    """33 unless this holds: the completion legally continues the read."""
    n = completion["length"]
    place = read.address + 4 * read.taken
    if read.taken == 0:
        byte_count, lower_address = read.total, (read.address + off(read.first)) % 128
    else:
        byte_count, lower_address = 4 * read.left - read.trail, place % 128
    return (1 <= n <= read.left
            and completion["byte_count"] == byte_count
            and completion["lower_address"] == lower_address
            and (n == read.left or (place + 4 * n) % rcb == 0))


def status_refused(completion):
    """32: BCM set, status 010, status 000 without data, or another status with data."""
    status, with_data = completion["status"], completion["kind"] == CPLD
    return (completion["byte_count_modified"] == 1 or status == RETRY
            or (status == SUCCESSFUL) != with_data)


# ---------------------------------------------------------------------------------------------
# The table
# ---------------------------------------------------------------------------------------------


class Answer(NamedTuple):
    """The answer of take: more, done, failed (status), poisoned or code (number)."""
    name: str
    value: int = 0


def refused(number):
    """The answer of a refused take."""
    return Answer("code", number)


class Table:
    """Settings and requester ID, and for each tag the open read or None."""

    def __init__(self, mps, mrrs, rcb, requester):
        self.mps, self.mrrs, self.rcb = mps, mrrs, rcb
        self.requester = requester
        self.slots = [None] * TAG_LIMIT

    @property
    def settings(self):
        """The settings in the order of tlp's parameters."""
        return self.mps, self.mrrs, self.rcb

    def open_reads(self):
        """The open reads; closed records are not looked at."""
        return [read for read in self.slots if read is not None]

    def invalid(self):
        """11 comes first in every call: an unlisted setting or an open record not valid."""
        return not (tlp.settings_listed(*self.settings)
                    and all(record_valid(read, self.mrrs) for read in self.open_reads()))

    def open_refusal(self, read, tag, store_size):
        """The first number of open's list but for 12, which is about the header's size."""
        if self.invalid():
            return 11
        if request_refusal(read):
            return request_refusal(read)
        if tag >= TAG_LIMIT:
            return 20
        if self.slots[tag] is not None:
            return 21
        if over_request_size(read, self.mrrs):
            return 22
        if window_refused(read, store_size):
            return 23
        return 24 if any(share_a_byte(read, other) for other in self.open_reads()) else 0

    def open(self, read, tag, store, output):
        """Open a read: its number; on 0 the header stands at the output's start."""
        number = self.open_refusal(read, tag, len(store))
        if number:
            return number
        _, request = header(self.settings, read, self.requester, tag)
        if len(output) < len(request):
            return 12
        output[:len(request)] = request
        self.slots[tag] = read
        return 0

    def completion_refusal(self, packet):
        """29 to 32 for a packet that the reader accepts."""
        if packet["kind"] not in (CPL, CPLD):
            return 29
        read = self.slots[packet["tag"]] if packet["tag"] < TAG_LIMIT else None
        if packet["route_value"] != self.requester or read is None:
            return 30
        if (packet["traffic_class"], packet["attributes"]) != (read.traffic_class, read.attributes):
            return 31
        return 32 if status_refused(packet) else 0

    def take(self, data, store):
        """Take a packet's bytes; the store is written only for More and Done."""
        if self.invalid():
            return refused(11)
        number, record, payload = tlp.read(*self.settings, data)
        if number:
            return refused(number)
        completion = tlp.unpack(record)
        number = self.completion_refusal(completion)
        if number:
            return refused(number)
        tag = completion["tag"]
        if completion["status"] != SUCCESSFUL:
            self.slots[tag] = None
            return Answer("failed", ABORT if completion["status"] == ABORT else UNSUPPORTED)
        return self.take_data(tag, completion, payload, store)

    def take_data(self, tag, completion, payload, store):
        """The rest of take for a completion with data: 33, 34, Poisoned, Done or More."""
        read = self.slots[tag]
        if not continues(read, self.rcb, completion):
            return refused(33)
        if store_refused(read, len(store)):
            return refused(34)
        if completion["poisoned"]:
            self.slots[tag] = None
            return Answer("poisoned")
        write_enabled(read, payload, store)
        n = completion["length"]
        done = n == read.left
        self.slots[tag] = None if done else replace(read, taken=read.taken + n)
        return Answer("done" if done else "more")

    def withdraw(self, tag):
        """Free a tag: 0, or 11, 20, 25."""
        if self.invalid():
            return 11
        if tag >= TAG_LIMIT:
            return 20
        if self.slots[tag] is None:
            return 25
        self.slots[tag] = None
        return 0

    def owed(self):
        """(0, the sum of L - p over open reads), or (11, 0)."""
        if self.invalid():
            return 11, 0
        return 0, sum(read.left for read in self.open_reads())


def write_enabled(read, payload, store):
    """Put a piece's enabled bytes into the store from window start plus 4p on."""
    for index, byte in enumerate(payload):
        dw = read.taken + index // 4
        if read.enables(dw) >> index % 4 & 1:
            store[read.start + 4 * read.taken + index] = byte


# ---------------------------------------------------------------------------------------------
# Call scripts: the forms of numbers and bytes
# ---------------------------------------------------------------------------------------------

LINE_LIMIT = 8_300       # with the newline
STORED_LIMIT = 70_000    # a store may be lent that is too long for the table
OUTPUT_LIMIT = 32
SHOWN_LIMIT = 4_096
FILLER = 238

DECIMAL = re.compile(r"0|[1-9][0-9]{0,19}")
HEXADECIMAL = re.compile(r"0|[1-9a-f][0-9a-f]{0,15}")
FOUR_DIGITS = re.compile(r"[0-9a-f]{4}")
BYTES = re.compile(r"(?:[0-9a-f]{2})*")


class Bad(Exception):
    """A line that is no call."""


def matched(form, text):
    """The text, if it has the form."""
    if not form.fullmatch(text):
        raise Bad
    return text


def decimal(largest):
    """The form of a decimal number up to the largest."""
    def number(text):
        value = int(matched(DECIMAL, text))
        if value > largest:
            raise Bad
        return value
    return number


def address_number(text):
    """An address: hex without leading zeros, at most 64 bits."""
    return int(matched(HEXADECIMAL, text), 16)


def identifier(text):
    """A requester ID: four hex digits."""
    return int(matched(FOUR_DIGITS, text), 16)


def packet_bytes(text):
    """Any even number of hex digits."""
    return bytes.fromhex(matched(BYTES, text))


U8, U32, U64 = decimal(2**8 - 1), decimal(2**32 - 1), decimal(2**64 - 1)
LISTED_TAG = decimal(TAG_LIMIT - 1)


# ---------------------------------------------------------------------------------------------
# Call scripts: the console
# ---------------------------------------------------------------------------------------------


@lru_cache(maxsize=16)
def checksum(data):
    """FNV-1a, 64 bits."""
    value = 0xCBF29CE484222325
    for byte in data:
        value = (value ^ byte) * 0x100000001B3 & 0xFFFFFFFFFFFFFFFF
    return value


class Console:
    """The table and the store of a script, and what each line prints."""

    def __init__(self):
        self.table = Table(128, 128, 64, 0)
        self.store = bytearray(STORE_LIMIT)

    def run(self, line):
        """The output of one line, given as bytes with its newline."""
        try:
            if len(line) > LINE_LIMIT or not line.endswith(b"\n"):
                raise Bad
            return self.call(line[:-1].decode("latin-1").split(" "))
        except Bad:
            return "bad"

    def call(self, words):
        """Check the form of every word, then make the call."""
        if words[0] not in COMMANDS:
            raise Bad
        action, keys = COMMANDS[words[0]]
        if len(words) != 1 + len(keys):
            raise Bad
        values = []
        for word, (key, form) in zip(words[1:], keys.items()):
            if not word.startswith(key + "="):
                raise Bad
            values.append(form(word[len(key) + 1:]))
        return action(self, *values)

    def new(self, mps, mrrs, rcb, requester):
        """A new table, used even if a setting is not in the list."""
        self.table = Table(mps, mrrs, rcb, requester)
        self.store = bytearray(len(self.store))
        return "new code=%d" % (0 if tlp.settings_listed(mps, mrrs, rcb) else 11)

    def set_store(self, size):
        """Another store, of zeros."""
        self.store = bytearray(size)
        return "store len=%d" % size

    def fill(self, byte):
        """The same byte everywhere in the store."""
        self.store = bytearray([byte]) * len(self.store)
        return "fill byte=%d" % byte

    def open(self, address, length, first, last, traffic_class, attributes, tag, start, room):
        """Open a read with a lent output."""
        output = bytearray([FILLER]) * room
        read = Read(address, length, first, last, traffic_class, attributes, start)
        number = self.table.open(read, tag, self.store, output)
        return "open code=%d out=%s" % (number, output.hex())

    def take(self, data):
        """Take a packet."""
        name, value = self.table.take(data, self.store)
        return "take " + {"failed": "failed status=%d" % value,
                          "code": "code=%d" % value}.get(name, name)

    def withdraw(self, tag):
        """Withdraw a tag's read."""
        return "withdraw code=%d" % self.table.withdraw(tag)

    def owed(self):
        """The DWs still owed."""
        number, dws = self.table.owed()
        return "owed code=%d" % number if number else "owed dw=%d" % dws

    def record(self, tag):
        """A tag's record."""
        read = self.table.slots[tag]
        if read is None:
            return "record tag=%d free" % tag
        return "record tag=%d addr=%x len=%d first=%d last=%d tc=%d attr=%d start=%d taken=%d" % (
            tag, read.address, read.length, read.first, read.last, read.traffic_class,
            read.attributes, read.start, read.taken)

    def show(self, start, size):
        """Bytes of the store."""
        if start + size > len(self.store):
            raise Bad
        return "bytes " + self.store[start:start + size].hex()

    def sum(self):
        """A checksum of the whole store."""
        return "sum=%016x" % checksum(bytes(self.store))

    def force(self, tag, *fields):
        """An open record, unchecked."""
        self.table.slots[tag] = Read(*fields)
        return "force"

    def set_settings(self, mps, mrrs, rcb):
        """Settings, unchecked."""
        self.table.mps, self.table.mrrs, self.table.rcb = mps, mrrs, rcb
        return "settings"


SETTINGS_KEYS = {"mps": U32, "mrrs": U32, "rcb": U32}
READ_KEYS = {"addr": address_number, "len": U32, "first": U8, "last": U8, "tc": U8, "attr": U8}

# Each command with its keys in order and the form of each value.
COMMANDS = {
    "new": (Console.new, {**SETTINGS_KEYS, "req": identifier}),
    "store": (Console.set_store, {"len": decimal(STORED_LIMIT)}),
    "fill": (Console.fill, {"byte": U8}),
    "open": (Console.open, {**READ_KEYS, "tag": U32, "start": U64, "out": decimal(OUTPUT_LIMIT)}),
    "take": (Console.take, {"tlp": packet_bytes}),
    "withdraw": (Console.withdraw, {"tag": U32}),
    "owed": (Console.owed, {}),
    "record": (Console.record, {"tag": LISTED_TAG}),
    "bytes": (Console.show, {"from": U64, "len": decimal(SHOWN_LIMIT)}),
    "sum": (Console.sum, {}),
    "force": (Console.force, {"tag": LISTED_TAG, **READ_KEYS, "start": U64, "taken": U32}),
    "settings": (Console.set_settings, SETTINGS_KEYS),
}


def script_lines(script):
    """The lines of a script's bytes, each with its newline but perhaps the last."""
    *ended, rest = script.split(b"\n")
    return [line + b"\n" for line in ended] + ([rest] if rest else [])


def run_script(lines):
    """The output lines of a script's lines."""
    console = Console()
    return [console.run(line) for line in lines]
