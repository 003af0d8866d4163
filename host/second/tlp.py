"""A second reader and writer of PCI Express transaction-layer packets (non-flit).

Written from document 01, the decided readings of it and the layout of the record, and not from the
code of the implementation that it is compared with.  The tables are kept here as data: where each
field lies in a header, which kinds there are, how the 48-byte record is laid out, and the refusal
numbers in their order of checking.  Number 0 means accepted.
"""

import re
from dataclasses import dataclass
from functools import cached_property

# ---------------------------------------------------------------------------------------------
# Settings
# ---------------------------------------------------------------------------------------------

PAYLOAD_SIZES = (128, 256, 512, 1024, 2048, 4096)   # for MPS and for MRRS
BOUNDARIES = (64, 128)                              # for RCB


def settings_listed(mps, mrrs, rcb):
    """Document 01, "What is built": MPS and MRRS from one list, RCB 64 or 128."""
    return mps in PAYLOAD_SIZES and mrrs in PAYLOAD_SIZES and rcb in BOUNDARIES


# ---------------------------------------------------------------------------------------------
# Header fields: "2[1:0] 3" is byte 2 bits 1:0 followed by the whole of byte 3, high bits first;
# "8-10" is three whole bytes.  Bits that no field names are reserved.
# ---------------------------------------------------------------------------------------------

PIECE = re.compile(r"(\d+)(?:-(\d+))?(?:\[(\d)(?::(\d))?\])?")


def pieces(text):
    """The places of a field as (byte, highest bit, lowest bit), highest part first."""
    found = []
    for word in text.split():
        start, end, high, low = PIECE.fullmatch(word).groups()
        top, bottom = (7, 0) if high is None else (int(high), int(low or high))
        found += [(byte, top, bottom) for byte in range(int(start), int(end or start) + 1)]
    return tuple(found)


def width(places):
    """The number of bits of a field."""
    return sum(high - low + 1 for _, high, low in places)


def extract(header, places):
    """The number that a field holds in a header."""
    number = 0
    for byte, high, low in places:
        size = high - low + 1
        number = number << size | header[byte] >> low & (1 << size) - 1
    return number


def insert(header, places, number):
    """Put a number into a field of a header whose bits there are still 0."""
    for byte, high, low in reversed(places):
        size = high - low + 1
        header[byte] |= (number & (1 << size) - 1) << low
        number >>= size


# Bytes 0 to 3.  `processing_hint` is TH, `address_type` is AT.
FIRST_DW = {
    "traffic_class": "1[6:4]",
    "attributes": "1[2] 2[5:4]",
    "processing_hint": "1[0]",
    "digest_present": "2[7]",
    "poisoned": "2[6]",
    "address_type": "2[3:2]",
    "length": "2[1:0] 3",
}


def first_dw(reserved=(), **changed):
    """Bytes 0 to 3 without the fields reserved for the kind."""
    return {name: text for name, text in (FIRST_DW | changed).items() if name not in reserved}


# Reserved: TH and Attr[2] in I/O and configuration; AT and TH in messages and completions; Length
# in Msg and Cpl.
MEMORY_FIRST = first_dw()
SINGLE_FIRST = first_dw(("processing_hint",), attributes="2[5:4]")
DATA_FIRST = first_dw(("processing_hint", "address_type"))
NO_DATA_FIRST = first_dw(("processing_hint", "address_type", "length"))

# `source_id` is the requester of a request or message and the completer of a completion;
# `address_dw` is the address without its two reserved low bits; `route_id` is the target of a
# configuration request and the requester of a completion.
REQUEST = {
    "source_id": "4-5",
    "tag": "6",
    "last_enables": "7[7:4]",
    "first_enables": "7[3:0]",
}
ADDRESS_32 = REQUEST | {"address_dw": "8-10 11[7:2]"}
ADDRESS_64 = REQUEST | {"address_dw": "8-14 15[7:2]"}
CONFIGURATION = REQUEST | {
    "route_id": "8-9",
    "extended_register": "10[3:0]",
    "register": "11[7:2]",
}
MESSAGE = {
    "source_id": "4-5",
    "tag": "6",
    "message_code": "7",
    "message_bytes": "8-15",
}
COMPLETION = {
    "source_id": "4-5",
    "status": "6[7:5]",
    "byte_count_modified": "6[4]",
    "byte_count": "6[3:0] 7",
    "route_id": "8-9",
    "tag": "10",
    "lower_address": "11[6:0]",
}

# Fields in which 0 stands for the largest number, which does not fit.
FULL_COUNT = {"length": 1024, "byte_count": 4096}

# ---------------------------------------------------------------------------------------------
# Kinds and their forms
# ---------------------------------------------------------------------------------------------

MEMORY, IO, CONFIG, MSG, CPL = "memory", "I/O", "configuration", "message", "completion"


@dataclass(frozen=True)
class Form:
    """One value of byte 0 from the kind table, with the layout of its header."""
    kind: int
    name: str
    family: str
    byte0: int
    header_dw: int
    has_data: bool
    fields: dict

    @property
    def header_size(self):
        """The header's size in bytes."""
        return 4 * self.header_dw

    @property
    def routing(self):
        """The routing of a message: the low three bits of byte 0."""
        return self.byte0 & 0b111


def forms(kind, name, family, codes, header_dw, has_data, layout):
    """The forms of one row of the kind table."""
    fields = {field: pieces(text) for field, text in layout.items()}
    return [Form(kind, name, family, code, header_dw, has_data, fields) for code in codes]


KIND_TABLE = (
    forms(1, "MRd", MEMORY, (0x00,), 3, False, MEMORY_FIRST | ADDRESS_32)
    + forms(1, "MRd", MEMORY, (0x20,), 4, False, MEMORY_FIRST | ADDRESS_64)
    + forms(2, "MWr", MEMORY, (0x40,), 3, True, MEMORY_FIRST | ADDRESS_32)
    + forms(2, "MWr", MEMORY, (0x60,), 4, True, MEMORY_FIRST | ADDRESS_64)
    + forms(3, "IORd", IO, (0x02,), 3, False, SINGLE_FIRST | ADDRESS_32)
    + forms(4, "IOWr", IO, (0x42,), 3, True, SINGLE_FIRST | ADDRESS_32)
    + forms(5, "CfgRd0", CONFIG, (0x04,), 3, False, SINGLE_FIRST | CONFIGURATION)
    + forms(6, "CfgWr0", CONFIG, (0x44,), 3, True, SINGLE_FIRST | CONFIGURATION)
    + forms(7, "CfgRd1", CONFIG, (0x05,), 3, False, SINGLE_FIRST | CONFIGURATION)
    + forms(8, "CfgWr1", CONFIG, (0x45,), 3, True, SINGLE_FIRST | CONFIGURATION)
    + forms(9, "Msg", MSG, range(0x30, 0x38), 4, False, NO_DATA_FIRST | MESSAGE)
    + forms(10, "MsgD", MSG, range(0x70, 0x78), 4, True, DATA_FIRST | MESSAGE)
    + forms(11, "Cpl", CPL, (0x0A,), 3, False, NO_DATA_FIRST | COMPLETION)
    + forms(12, "CplD", CPL, (0x4A,), 3, True, DATA_FIRST | COMPLETION)
)

FORM_OF_BYTE0 = {form.byte0: form for form in KIND_TABLE}
FORMS_OF_KIND = {}
for _form in KIND_TABLE:
    FORMS_OF_KIND.setdefault(_form.kind, []).append(_form)

# ---------------------------------------------------------------------------------------------
# Routes
# ---------------------------------------------------------------------------------------------

BY_ADDRESS, BY_ID, TO_ROOT, BROADCAST, LOCAL, GATHERED = range(6)
ROUTE_OF_ROUTING = {0: TO_ROOT, 1: BY_ADDRESS, 2: BY_ID, 3: BROADCAST, 4: LOCAL, 5: GATHERED}
ROUTING_OF_ROUTE = {route: routing for routing, route in ROUTE_OF_ROUTING.items()}


def message_route_value(route, message_bytes):
    """What the route of a message holds: all of bytes 8-15, bytes 8-9, or nothing."""
    return {BY_ADDRESS: message_bytes, BY_ID: message_bytes >> 48}.get(route, 0)


# ---------------------------------------------------------------------------------------------
# The packet record
# ---------------------------------------------------------------------------------------------

RECORD_SIZE = 48
RECORD = {                       # name: (first byte, size)
    "kind": (0, 1),
    "traffic_class": (1, 1),
    "attributes": (2, 1),
    "poisoned": (3, 1),
    "digest_present": (4, 1),
    "route": (5, 1),
    "tag": (6, 1),
    "message_code": (7, 1),
    "route_value": (8, 8),
    "message_bytes": (16, 8),
    "digest": (24, 4),
    "length": (28, 4),
    "byte_count": (32, 4),
    "source_id": (36, 2),
    "first_enables": (38, 1),
    "last_enables": (39, 1),
    "extended_register": (40, 1),
    "register": (41, 1),
    "status": (42, 1),
    "byte_count_modified": (43, 1),
    "lower_address": (44, 1),
    "unused": (45, 3),
}
OUTSIDE_HEADER_FIELDS = ("kind", "route", "route_value", "digest")   # every record has these
FLAGS = ("poisoned", "digest_present", "byte_count_modified")


def pack(values):
    """The record of a packet; fields that its kind does not have are 0."""
    record = bytearray(RECORD_SIZE)
    for name, (start, size) in RECORD.items():
        record[start:start + size] = values.get(name, 0).to_bytes(size, "big")
    return bytes(record)


def unpack(record):
    """The numbers in a record, by name."""
    return {name: int.from_bytes(record[start:start + size], "big")
            for name, (start, size) in RECORD.items()}


# ---------------------------------------------------------------------------------------------
# Conditions that reader and writer share ("5 to 9 as above")
# ---------------------------------------------------------------------------------------------

LONG_FIRST_ENABLES = (0b1111, 0b1110, 0b1100, 0b1000)
LONG_LAST_ENABLES = (0b1111, 0b0111, 0b0011, 0b0001)


def data_size(form, values):
    """The bytes of data that the packet carries: 4 x Length for a kind with data, else none."""
    return 4 * values["length"] if form.has_data else 0


def settings_refused(packet):
    """11: a setting is not in the list."""
    return not settings_listed(packet.mps, packet.mrrs, packet.rcb)


def over_payload_size(packet):
    """5: data over MPS."""
    return data_size(packet.form, packet.values) > packet.mps


def single_refused(packet):
    """6: I/O or configuration with Length not 1, or TC, Attr[1:0] or AT not 0."""
    if packet.form.family not in (IO, CONFIG):
        return False
    values = packet.values
    return (values["length"] != 1 or values["traffic_class"] != 0 or values["attributes"] != 0
            or values.get("address_type", 0) != 0)


def enables_refused(packet):
    """7: enables break the rules; I/O and configuration follow those of Length 1."""
    if "first_enables" not in packet.form.fields:
        return False
    first, last = packet.values["first_enables"], packet.values["last_enables"]
    length = packet.values["length"] if packet.form.family == MEMORY else 1
    if length == 1:
        return last != 0
    if length == 2:
        return first == 0 or last == 0
    return first not in LONG_FIRST_ENABLES or last not in LONG_LAST_ENABLES


def page_crossed(packet):
    """8: memory, address mod 4096 plus 4 x Length exceeds 4096."""
    if packet.form.family != MEMORY:
        return False
    return packet.values["route_value"] % 4096 + 4 * packet.values["length"] > 4096


def first_refusal(rows, packet):
    """The number of the first row that holds, else 0."""
    return next((number for number, refused in rows if refused(packet)), 0)


# ---------------------------------------------------------------------------------------------
# Reader
# ---------------------------------------------------------------------------------------------

@dataclass
class Received:
    """The bytes given to the reader, with what they say once the earlier rows have passed."""
    mps: int
    mrrs: int
    rcb: int
    data: bytes

    @cached_property
    def form(self):
        """The form that byte 0 names, or None."""
        return FORM_OF_BYTE0.get(self.data[0])

    @cached_property
    def values(self):
        """The header's fields by name, reserved bits left out."""
        form = self.form
        values = {name: extract(self.data, places) for name, places in form.fields.items()}
        for name, full in FULL_COUNT.items():
            if values.get(name) == 0:
                values[name] = full
        values["kind"] = form.kind
        values["route"], values["route_value"] = self.route(values)
        return values

    def route(self, values):
        """The case of the route and what it holds; the case is None for routing 110 and 111."""
        if "address_dw" in values:
            return BY_ADDRESS, 4 * values["address_dw"]
        if "route_id" in values:
            return BY_ID, values["route_id"]
        route = ROUTE_OF_ROUTING.get(self.form.routing)
        return route, message_route_value(route, values["message_bytes"])

    def parts(self):
        """The payload and the digest, which is 0 where TD is clear."""
        end = self.form.header_size + data_size(self.form, self.values)
        return self.data[self.form.header_size:end], int.from_bytes(self.data[end:], "big")


def header_start_missing(packet):
    """1: fewer than 12 bytes."""
    return len(packet.data) < 12


def kind_unknown(packet):
    """2: byte 0 is not in the kind table."""
    return packet.form is None


def header_incomplete(packet):
    """1: a 4-DW header and fewer than 16 bytes."""
    return len(packet.data) < packet.form.header_size


def size_wrong(packet):
    """3: length is not header + data + digest."""
    digest_size = 4 * packet.values["digest_present"]
    expected = packet.form.header_size + data_size(packet.form, packet.values) + digest_size
    return len(packet.data) != expected


def memory_not_plain(packet):
    """4: memory request with TH set or AT not 0."""
    if packet.form.family != MEMORY:
        return False
    return packet.values["processing_hint"] != 0 or packet.values["address_type"] != 0


def routing_unknown(packet):
    """9: message routing 110 or 111."""
    return packet.form.family == MSG and packet.form.routing not in ROUTE_OF_ROUTING


def wide_form_needless(packet):
    """10: MRd64 or MWr64 with the top 32 address bits 0."""
    return (packet.form.family == MEMORY and packet.form.header_dw == 4
            and packet.values["route_value"] < 1 << 32)


READ_ROWS = (
    (11, settings_refused),
    (1, header_start_missing),
    (2, kind_unknown),
    (1, header_incomplete),
    (3, size_wrong),
    (4, memory_not_plain),
    (5, over_payload_size),
    (6, single_refused),
    (7, enables_refused),
    (8, page_crossed),
    (9, routing_unknown),
    (10, wide_form_needless),
)


def read(mps, mrrs, rcb, data):
    """Read a packet: (0, its record, its payload), or (number, None, b"") on a refusal."""
    packet = Received(mps, mrrs, rcb, bytes(data))
    number = first_refusal(READ_ROWS, packet)
    if number:
        return number, None, b""
    payload, digest = packet.parts()
    return 0, pack(packet.values | {"digest": digest}), payload


# ---------------------------------------------------------------------------------------------
# Writer
# ---------------------------------------------------------------------------------------------

@dataclass
class Offered:
    """The record and payload given to the writer, and the room for its output."""
    mps: int
    mrrs: int
    rcb: int
    record: bytes
    payload: bytes
    room: int

    @cached_property
    def values(self):
        """The record's numbers by name."""
        return unpack(self.record)

    @cached_property
    def form(self):
        """The form to write: memory below 4 GiB takes the 32-bit one, a message its routing's."""
        choices = FORMS_OF_KIND[self.values["kind"]]
        if choices[0].family == MEMORY:
            return choices[self.values["route_value"] >> 32 != 0]
        if choices[0].family == MSG:
            return choices[ROUTING_OF_ROUTE[self.values["route"]]]
        return choices[0]

    def packet(self):
        """The packet's bytes: header with reserved bits 0, payload, digest."""
        header = bytearray(self.form.header_size)
        header[0] = self.form.byte0
        for name, number in self.header_values().items():
            insert(header, self.form.fields[name], number)
        digest = self.values["digest"].to_bytes(4, "big") if self.values["digest_present"] else b""
        return bytes(header) + self.payload + digest

    def header_values(self):
        """The numbers to put into the header's fields; TH and AT are written 0."""
        values = {name: number for name, number in self.values.items() if name in self.form.fields}
        for name, full in FULL_COUNT.items():
            if name in values:
                values[name] %= full
        if "address_dw" in self.form.fields:
            values["address_dw"] = self.values["route_value"] // 4
        if "route_id" in self.form.fields:
            values["route_id"] = self.values["route_value"]
        return values


def not_a_record(packet):
    """6: the record is not that of any packet."""
    if len(packet.record) != RECORD_SIZE or packet.values["kind"] not in FORMS_OF_KIND:
        return True
    values = packet.values
    return (foreign_field_set(values)
            or any(values[flag] > 1 for flag in FLAGS)
            or route_malformed(values["route"], values["route_value"]))


def foreign_field_set(values):
    """A field that the kind does not have, or one of the last three bytes, is not 0."""
    own = FORMS_OF_KIND[values["kind"]][0].fields
    return any(number != 0 for name, number in values.items()
               if name not in own and name not in OUTSIDE_HEADER_FIELDS)


def route_malformed(route, value):
    """The case is unknown, or the value is more than that case holds."""
    if route not in ROUTING_OF_ROUTE:
        return True
    limit = {BY_ADDRESS: 1 << 64, BY_ID: 1 << 16}.get(route, 1)
    return value >= limit


def out_of_range(packet):
    """6, first place: ranges, reserved fields, length, byte count, alignment, route, digest."""
    return (field_exceeded(packet)
            or count_outside(packet)
            or route_disagrees(packet)
            or not packet.values["digest_present"] and packet.values["digest"] != 0)


def field_exceeded(packet):
    """A number exceeds its field; Attr[2] of I/O and configuration lies outside theirs."""
    return any(packet.values[name] >> width(places) != 0
               for name, places in packet.form.fields.items()
               if name in RECORD and name not in FULL_COUNT)


def count_outside(packet):
    """A length is outside 1..1024 DW or a byte count outside 1..4096."""
    return any(not 1 <= packet.values[name] <= full
               for name, full in FULL_COUNT.items() if name in packet.form.fields)


def route_disagrees(packet):
    """The route does not suit the kind and its other fields, or an address its field."""
    route, value = packet.values["route"], packet.values["route_value"]
    fields = packet.form.fields
    if "address_dw" in fields:
        return route != BY_ADDRESS or value % 4 != 0 or value // 4 >> width(fields["address_dw"])
    if "route_id" in fields:
        return route != BY_ID
    return value != message_route_value(route, packet.values["message_bytes"])


def payload_wrong(packet):
    """3: the payload is not 4 x length bytes, or not empty for a kind without data."""
    return len(packet.payload) != data_size(packet.form, packet.values)


def room_short(packet):
    """12: the output is shorter than the packet."""
    return packet.room < len(packet.packet())


WRITE_ROWS = (
    (11, settings_refused),
    (6, not_a_record),
    (6, out_of_range),
    (3, payload_wrong),
    (5, over_payload_size),
    (6, single_refused),
    (7, enables_refused),
    (8, page_crossed),
    (12, room_short),
)


def write(mps, mrrs, rcb, record, payload, room):
    """Write a packet into `room` bytes: (0, its bytes), or (number, b"") on a refusal."""
    packet = Offered(mps, mrrs, rcb, bytes(record), bytes(payload), room)
    number = first_refusal(WRITE_ROWS, packet)
    return (number, b"") if number else (0, packet.packet())
