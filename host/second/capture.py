"""A second decoder of captures: from the bytes of a whole input to the bytes of the whole output.

Written from document 01, "Captures", and the decided readings of it, over the second packet reader,
and not from the code of the implementation that it is compared with.
"""

import re

import tlp

LINE_LIMIT = 8267            # bytes, with the newline
AT_LIMIT = 4294967295
LONGEST_NUMBER = 10          # digits of the largest number that is good anywhere

BAD_HEADER = 11
BAD_LINE = 13

DECIMAL = rb"(0|[1-9][0-9]*)"
HEADER_LINE = re.compile(
    rb"mps=" + DECIMAL + rb" mrrs=" + DECIMAL + rb" rcb=" + DECIMAL + rb" req=[0-9a-f]{4}\n")
PACKET_LINE = re.compile(
    rb"at=" + DECIMAL + rb" dir=(?:rx|tx) len=" + DECIMAL + rb" tlp=([0-9a-f]*)\n")


def lines_of(data):
    """The lines with their newlines; only the last one can lack it."""
    *ended, rest = data.split(b"\n")      # splitlines would also split at other characters
    return [line + b"\n" for line in ended] + ([rest] if rest else [])


def number(digits):
    """The number that decimal digits show; infinity if they are too many to be good anywhere."""
    return int(digits) if len(digits) <= LONGEST_NUMBER else float("inf")


def settings_of(line):
    """MPS, MRRS and RCB of a good first line, else None."""
    match = HEADER_LINE.fullmatch(line)
    if match is None:
        return None
    settings = [number(digits) for digits in match.groups()]
    return settings if tlp.settings_listed(*settings) else None


def packet_of(line):
    """The packet's bytes of a good line, else None."""
    match = PACKET_LINE.fullmatch(line) if len(line) <= LINE_LIMIT else None
    if match is None:
        return None
    at, count, digits = match.groups()
    if number(at) > AT_LIMIT or 2 * number(count) != len(digits):
        return None
    return bytes.fromhex(digits.decode("ascii"))


def kind_word(packet):
    """The kind table's word; the two sizes of a memory header have words of their own."""
    form = tlp.FORM_OF_BYTE0[packet[0]]
    size = {3: "32", 4: "64"}[form.header_dw] if form.family == tlp.MEMORY else ""
    return form.name + size


def decode_line(settings, line):
    """The number of a line after the first, and the text that stands for it."""
    packet = packet_of(line)
    if packet is None:
        return BAD_LINE, "code=%d\n" % BAD_LINE
    code, record, _ = tlp.read(*settings, packet)
    if code:
        return code, "code=%d\n" % code
    values = tlp.unpack(record)           # the length of a kind that has none is 0 there
    return 0, "code=0 kind=%s tag=%d dw=%d\n" % (kind_word(packet), values["tag"], values["length"])


def decode(data):
    """The decoding of a whole capture."""
    first, *rest = lines_of(data) or [b""]
    settings = settings_of(first)
    if settings is None:
        return b"code=%d\n" % BAD_HEADER
    decoded = [decode_line(settings, line) for line in rest]
    refused = sum(code != 0 for code, _ in decoded)
    text = "".join(text for _, text in decoded)
    return ("%slines=%d refused=%d\n" % (text, len(decoded), refused)).encode("ascii")
