"""Part of the call script, for make_calls.py: random lawful cuttings over many tags, with damaged
pieces and other calls between them.

The bytes that the pieces must leave in the store are kept in a copy of it.
"""

from dataclasses import replace

import tlp
from call_script import (BOUNDARIES, FAILING, OVER_TAGS, RESERVED_BITS, TOP, count_and_lower,
                         failed, lawful_sizes, opening_fields, wanted, with_bits)
from make_vectors import SIZES, random_call, random_enables
from reads import STORE_LIMIT, TAG_LIMIT, Read

STORE_SIZES = (65_536, 65_536, 65_535, 16_384, 8_192, 4_096, 2_500)


class Traffic:
    """One table with its reads; the copy of the store has what the pieces must leave there."""

    def __init__(self, script, mps, mrrs, rcb):
        self.script, self.random = script, script.random
        self.mps, self.mrrs, self.rcb = mps, mrrs, rcb
        script.new(mps, mrrs, rcb, self.random.below(1 << 16))
        self.size = self.random.pick(STORE_SIZES)
        script.store(self.size)
        script.fill(self.random.below(256))
        self.copy = bytearray(script.console.store)
        self.sent = [b""]        # pieces taken so far
        self.late = [b""]        # pieces of withdrawn reads
        self.large = mrrs >= 1024
        self.usual = self.random.pick((2, 5, 8, 12, 20, 31))     # reads open at once
        self.steps = [step for weight, step in (
            (5, self.open_read), (40, self.next_piece), (22, self.damaged_piece),
            (5, self.changed_bits), (3, self.repeated), (4, self.ahead), (2, self.failing),
            (2, self.poisoned), (4, self.withdraw), (3, self.late_piece), (4, self.owed),
            (8, self.faulty_opening), (3, self.other_packet), (2, self.noise), (4, self.record),
            (1, self.other_store)) for _ in range(weight)]

    def run(self, steps):
        """Some random steps; then what is open is finished, and the store compared."""
        for _ in range(steps):
            few = len(self.script.open_tags()) < self.usual
            step = self.open_read if few and self.random.below(2) else self.random.pick(self.steps)
            step()
        for tag, _ in self.script.open_tags():
            while self.script.read(tag) and self.random.below(8):
                self.send_piece(tag)
        self.script.owed()
        self.script.sum()
        if self.copy != self.script.console.store:
            raise ValueError("the store is not what the pieces leave")

    def some_tag(self):
        """One of the open tags, or None."""
        tags = self.script.open_tags()
        return self.random.pick(tags)[0] if tags else None

    # Takes

    def take(self, data, expect=None):
        """A taking; what it delivers goes into the copy of the store too."""
        tag = data[10] if len(data) > 10 else TAG_LIMIT
        read = self.script.read(tag)
        output = self.script.take(data, expect)
        if output in ("take more", "take done"):
            self.deliver(read, data)
            self.sent = self.sent[-7:] + [data]
        if output == "take done":
            window = self.copy[read.start:read.end]
            self.script.bytes(read.start, 4 * read.length, window)
        return output

    def deliver(self, read, data):
        """Put the enabled bytes of a piece into the copy."""
        n = int.from_bytes(data[2:4], "big") & 0x3FF or 1024
        enabled = wanted(read)
        for index in range(4 * read.taken, 4 * (read.taken + n)):
            if enabled[index]:
                self.copy[read.start + index] = data[12 + index - 4 * read.taken]

    def lawful_size(self, read):
        """A length with which the read may go on; the largest and the smallest more often."""
        sizes = lawful_sizes(read, self.mps, self.rcb)
        return self.random.pick((sizes[0], sizes[-1], self.random.pick(sizes)))

    def send_piece(self, tag):
        """The next lawful piece of a read, sometimes with digest and reserved bits."""
        read = self.script.read(tag)
        n = self.lawful_size(read)
        data = self.script.piece(tag, n, td=self.random.below(8) == 0)
        if self.random.below(8) == 0:
            data = with_bits(data, RESERVED_BITS)
        fits = read.end <= len(self.copy) <= STORE_LIMIT
        self.take(data, ("done" if n == read.left else "more") if fits else 34)

    def next_piece(self):
        """A lawful piece of some read."""
        tag = self.some_tag()
        if tag is None:
            self.open_read()
        else:
            self.send_piece(tag)

    def damaged_piece(self):
        """A piece with one fault."""
        tag = self.some_tag()
        if tag is None:
            return self.open_read()
        read = self.script.read(tag)
        n = self.lawful_size(read)
        changed, expect = self.random.pick(DAMAGES)(self, read, n)
        self.take(self.script.piece(tag, **{"n": n} | changed), expect)
        if self.random.below(4) == 0:
            self.script.record(tag)

    def changed_bits(self):
        """A piece with one to three bits of the header changed."""
        tag = self.some_tag()
        if tag is None:
            return self.open_read()
        data = bytearray(self.script.piece(tag, self.lawful_size(self.script.read(tag))))
        for _ in range(1 + self.random.below(3)):
            data[self.random.below(12)] ^= 1 << self.random.below(8)
        self.take(bytes(data))

    def repeated(self):
        """A piece that was taken before."""
        self.take(self.random.pick(self.sent))

    def ahead(self):
        """A later piece of a read before the one that is due."""
        tag = self.some_tag()
        read = self.script.read(tag) if tag is not None else None
        n = self.lawful_size(read) if read else 0
        if read is None or n == read.left:
            return self.next_piece()
        later = replace(read, taken=read.taken + n)
        self.take(self.script.piece(tag, self.lawful_size(later), read=later), 33)

    def failing(self):
        """A failing completion of some read."""
        tag = self.some_tag()
        if tag is not None:
            status = self.random.pick(FAILING)
            self.script.statuses[status] += 1
            self.take(self.script.piece(tag, form="Cpl", status=status), failed(status))
            self.script.record(tag, "free")

    def poisoned(self):
        """A poisoned piece of some read."""
        tag = self.some_tag()
        if tag is not None:
            read = self.script.read(tag)
            self.take(self.script.piece(tag, self.lawful_size(read), ep=1), "poisoned")
            self.script.bytes(read.start, 4 * read.length, self.copy[read.start:read.end])

    def late_piece(self):
        """A piece of a read that was withdrawn."""
        self.take(self.random.pick(self.late))

    def other_packet(self):
        """Any legal packet, mostly no completion; every other one with a bit changed."""
        settings = self.script.console.table.settings
        data = bytearray(tlp.write(*settings, *random_call(self.random), 100)[1])
        if self.random.below(2):
            data[self.random.below(12)] ^= 1 << self.random.below(8)
        self.take(bytes(data))

    def noise(self):
        """Bytes at random."""
        self.take(self.script.random_bytes(self.random.below(40)))

    # Other calls

    def withdraw(self):
        """Some tag is withdrawn, mostly an open one; its next piece is late then."""
        tag = self.some_tag()
        if tag is None or self.random.below(4) == 0:
            return self.script.withdraw(self.random.pick((*range(TAG_LIMIT), *OVER_TAGS)))
        read = self.script.read(tag)
        self.late = self.late[-5:] + [self.script.piece(tag, self.lawful_size(read))]
        self.script.withdraw(tag, 0)

    def owed(self):
        """What is owed."""
        self.script.owed()

    def record(self):
        """Any tag's record."""
        self.script.record(self.random.below(TAG_LIMIT))

    def other_store(self):
        """Another store for a few calls; afterwards one of zeros."""
        size = self.random.pick((0, 64, self.size // 2, 65_536, 65_537, 70_000))
        self.script.store(size)
        self.copy = bytearray(size)
        for _ in range(3):
            self.next_piece()
            self.open_read()
        self.script.store(self.size)
        self.copy = bytearray(self.size)

    # Openings

    def open_read(self):
        """A lawful read under some tag; the window may lie over another or past the store."""
        free = [tag for tag in range(TAG_LIMIT) if self.script.read(tag) is None]
        tag = self.random.pick(free or [0])
        read = self.random_read()
        others = [other for _, other in self.script.open_tags()]
        if not free:
            expect = 21
        elif read.end > len(self.copy) or len(self.copy) > STORE_LIMIT:
            expect = 23
        else:
            apart = all(read.end <= other.start or other.end <= read.start for other in others)
            expect = 0 if apart else 24
        self.script.open(expect, tag=tag, **opening_fields(read), out=16)

    def random_read(self):
        """A read that open accepts if its window is free."""
        length = self.random_length()
        enables = random_enables(self.random, length)
        return Read(self.random_address(length), length, enables["first"], enables["last"],
                    self.random.below(8), self.random.below(8), self.random_start(length))

    def random_length(self):
        """Mostly a short read; one as long as MRRS allows in a table with a large one."""
        if self.large and self.random.below(30) == 0:
            self.large = False
            return self.mrrs // 4 - self.random.pick((0, 0, 1, 5))
        kind = self.random.below(20)
        if kind < 5:
            return 1 + kind // 3
        return 3 + self.random.below(14 if kind < 12 else min(self.mrrs // 4, 64) - 2)

    def random_address(self, length):
        """An address anywhere, at the end of a page as often as near a boundary."""
        room = 1024 - length
        near = self.random.below(32) * 32 + self.random.pick((1, 14, 15, 16, 17, 30, 31))
        offset = self.random.pick((room, self.random.below(room + 1), *3 * [min(near, room)]))
        page = self.random.pick((0, 0xFFFFF, 1 << 20, (1 << 52) - 1, self.random.below(1 << 20),
                                 self.random.below(1 << 20), self.random.below(1 << 52)))
        return page << 12 | offset << 2

    def random_start(self, length):
        """A start in the store, mostly of a free window, often of one that touches another."""
        for _ in range(4):
            start = self.some_start(length)
            free = all(start + 4 * length <= read.start or read.end <= start
                       for _, read in self.script.open_tags())
            if free or self.random.below(6) == 0:
                break
        return start

    def some_start(self, length):
        """A start anywhere, or beside an open window, or one DW over its edge."""
        tags = self.script.open_tags()
        if tags and self.random.below(12) < 5:
            _, other = self.random.pick(tags)
            before = other.start - 4 * length
            return max(0, self.random.pick((other.end, other.end, before, before, other.end - 4,
                                            before + 4)))
        most = max(self.size - 4 * length, 0) // 4
        anywhere = self.random.below(most + 1)
        return 4 * self.random.pick((anywhere, anywhere, most))

    def faulty_opening(self):
        """An opening with one or two faults; the numbers are the second implementation's."""
        fields = opening_fields(self.random_read()) | {"tag": self.random.below(TAG_LIMIT)}
        for _ in range(1 + self.random.below(2)):
            fields |= self.random.pick((
                {"addr": fields["addr"] ^ 1 + self.random.below(3)},
                {"addr": fields["addr"] | 0xFFC}, {"len": self.random.pick((0, 1025, 4294967295))},
                {"len": self.mrrs // 4 + 1}, {"len": min(fields["len"] + 1, 1025)},
                {"first": self.random.below(32)}, {"last": self.random.below(32)},
                {"tc": 8 + self.random.below(248)}, {"attr": 8 + self.random.below(248)},
                {"tag": self.random.pick(OVER_TAGS)}, {"start": fields["start"] ^ 2},
                {"start": self.random.pick((TOP - 1, TOP - 4, self.size, self.size - 4))},
                {"out": self.random.below(16)}))
        self.script.open(**fields)


# Damage to a piece of n DWs: the changed fields and the answer, if it is known beforehand.

def wrong_count(traffic, read, n):
    """A Byte Count that a slip might lead to."""
    right = count_and_lower(read, read.taken)[0]
    total = count_and_lower(read, 0)[0]
    likely = (right + 1, right - 1, right + 4, right - 4, 4 * n, 4 * read.left, total,
              total - 4 * read.taken, sum(wanted(read)), 0, 4095)
    wrong = [count for count in likely if count % 4096 != right % 4096]
    return {"count": traffic.random.pick(wrong)}, 33


def wrong_lower(traffic, read, n):
    """A Lower Address that a slip might lead to."""
    right = count_and_lower(read, read.taken)[1]
    likely = (right ^ 64, right ^ 4, right ^ 1, 0, read.address % 128, (right + 4 * n) % 128)
    return {"lower": traffic.random.pick([lower for lower in likely if lower != right])}, 33


def wrong_length(traffic, read, n):
    """A length off the boundary or over what is owed; over MPS it is 5."""
    lawful = lawful_sizes(read, traffic.mps, traffic.rcb)
    past = -(read.address + 4 * read.length) % traffic.rcb // 4 or 16    # up to a boundary
    likely = [m for m in (n - 2, n - 1, n + 1, n + 3, read.left + 1, read.left + past)
              if 1 <= m <= 1024 and m not in lawful]
    if not likely:
        return wrong_count(traffic, read, n)
    m = traffic.random.pick(likely)
    return {"length": m}, 5 if 4 * m > traffic.mps else 33


def over_payload_size(traffic, read, n):
    """More data than MPS; kept to the smaller ones for the size of the script."""
    if traffic.mps > 256:
        return wrong_length(traffic, read, n)
    return {"length": traffic.mps // 4 + 1 + traffic.random.below(4)}, 5


def wrong_tag(traffic, read, n):
    """Another tag, open or not."""
    return {"tag": traffic.random.below(TAG_LIMIT)}, None


def over_tag(traffic, read, n):
    """A tag over the limit."""
    return {"tag": TAG_LIMIT + traffic.random.below(256 - TAG_LIMIT)}, 30


def wrong_requester(traffic, read, n):
    """Another requester."""
    right = traffic.script.console.table.requester
    return {"requester": right ^ 1 << traffic.random.below(16)}, 30


def wrong_class(traffic, read, n):
    """Another traffic class."""
    return {"tc": read.traffic_class ^ 1 + traffic.random.below(7)}, 31


def wrong_attributes(traffic, read, n):
    """Other attributes."""
    return {"attr": read.attributes ^ 1 + traffic.random.below(7)}, 31


def modified_count(traffic, read, n):
    """BCM set."""
    return {"bcm": 1}, 32


def status_with_data(traffic, read, n):
    """A status other than 000 with data."""
    return {"status": 1 + traffic.random.below(7)}, 32


def status_without_data(traffic, read, n):
    """Status 000 or 010 without data, or a failing one with BCM."""
    fields = traffic.random.pick(({"status": 0}, {"status": 2}, {"status": 1, "bcm": 1}))
    return {"form": "Cpl"} | fields, 32


def cut_short(traffic, read, n):
    """Bytes missing at the end."""
    size = traffic.random.below(12 + 4 * n)
    return {"cut": size}, 1 if size < 12 else 3


def too_long(traffic, read, n):
    """Bytes too many, or a digest that TD does not announce."""
    return {"extra": bytes(1 + traffic.random.below(5))}, 3


def missing_digest(traffic, read, n):
    """TD set without a digest."""
    return {"td": 1, "cut": 12 + 4 * n}, 3


DAMAGES = (wrong_count, wrong_count, wrong_lower, wrong_lower, wrong_length, wrong_length,
           over_payload_size, wrong_tag, over_tag, wrong_requester, wrong_class, wrong_attributes,
           modified_count, status_with_data, status_without_data, cut_short, too_long,
           missing_digest)


def traffic(script):
    """A table for each listed triple of settings."""
    for mps in SIZES:
        for mrrs in SIZES:
            for rcb in BOUNDARIES:
                Traffic(script, mps, mrrs, rcb).run(190)
