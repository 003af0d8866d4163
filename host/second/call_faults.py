"""Parts of the call script, for make_calls.py: calls with several faults at once, tables that no
call reaches, and bad lines.
"""

from dataclasses import replace
from itertools import combinations

from call_script import (BOUNDARIES, FAILING, OPENING, OVER_TAGS, REQUESTER, TOP, failed,
                         lawful_sizes, read_of)
from make_vectors import SIZES, UNLISTED_BOUNDARIES, UNLISTED_SIZES, packet
from reads import STORE_LIMIT, TAG_LIMIT, Read

# ---------------------------------------------------------------------------------------------
# The order of refusals: calls with several faults at once give the first one's number
# ---------------------------------------------------------------------------------------------

UNLISTED = ({"mps": 0}, {"mrrs": 64}, {"rcb": 32}, {"mps": 4097}, {"rcb": 4294967295})
ORDERED_OPEN = (11, 6, 7, 8, 20, 21, 22, 23, 24, 12)
ORDERED_DATA = (11, 1, 2, 3, 5, 29, 30, 31, 32, 33, 34, "poisoned")
ORDERED_FAILING = (11, 1, 2, 3, 30, 31, 32, "failed", 33, 34, "poisoned")


def fault_sets(names):
    """Each fault alone, each pair, each fault with all later ones."""
    chosen = [*combinations(names, 1), *combinations(names, 2)]
    return chosen + [names[start:] for start in range(len(names) - 2)]


def without(names, name):
    """The names but for one."""
    return tuple(other for other in names if other != name)


def open_faults(random, faults):
    """The fields of an opening with these faults, beside the read of tag 5 at 256."""
    length = 33 if 22 in faults else 4
    fields = {"len": length, "tag": 7, "start": 512, "addr": 0x2000}
    if 8 in faults:
        fields["addr"] = 0x3004 - 4 * length
    if 7 in faults:
        fields["last"] = random.pick((0, 2, 8, 14))
    if 6 in faults:
        address = fields["addr"] + 1 + random.below(3)
        fields |= random.pick(({"tc": 8}, {"attr": 8}, {"first": 31}, {"addr": address}))
    if 20 in faults:
        fields["tag"] = random.pick(OVER_TAGS)
    if 21 in faults:
        fields["tag"] = 5
    if 24 in faults:
        fields["start"] = random.pick((256, 260, 268))
    if 23 in faults:
        far = (512 + 2, STORE_LIMIT, STORE_LIMIT - 4 * length + 4, TOP - 4, TOP - 1)
        fields["start"] = fields["start"] + 2 if 24 in faults else random.pick(far)
    if 12 in faults:
        fields["out"] = random.below(12)
    return fields


def open_orders(script):
    """Every pair of open's faults, but for 20 with 21, which exclude each other."""
    script.new(128, 128, 64)
    script.open(0)
    chosen = fault_sets(without(ORDERED_OPEN, 20)) + fault_sets(without(ORDERED_OPEN, 21))
    for faults in 4 * chosen:
        fields = open_faults(script.random, faults)
        with_settings(script, faults, dict(mps=128, mrrs=128, rcb=64),
                      lambda: script.open(faults[0], **fields))
        note_pairs(script, "open", faults)
    for size in (0, 100, 270, 65_537, 70_000):      # 23 by the store, with 24 and 12 behind it
        script.store(size)
        for start in (256, 260, 268):
            script.open(23, tag=7, start=start)
            script.open(23, tag=7, start=start, out=0)
            script.open(22, tag=7, start=start, len=33)
        note_pairs(script, "open", (23, 24))
    script.store(STORE_LIMIT)
    script.owed("dw=4")


def with_settings(script, faults, settings, call):
    """Make the call, with a setting off the list if 11 is among the faults."""
    if 11 in faults:
        script.settings(**settings | script.random.pick(UNLISTED))
    call()
    if 11 in faults:
        script.settings(**settings)


def note_pairs(script, name, faults):
    """Count the pairs of faults that were tried together."""
    for pair in combinations(faults, 2):
        script.pairs[(name, *pair)] += 1


def data_faults(script, faults):
    """A completion with data for tag 5 with these faults."""
    random, fields = script.random, {}
    if 33 in faults:
        fields |= random.pick(({"count": 15}, {"count": 0}, {"lower": 4}, {"length": 3},
                               {"length": 5}))
    if 32 in faults:
        with_data = [{"bcm": 1}] + [{"status": status} for status in range(1, 8)]
        without = [{"form": "Cpl", "status": 0}, {"form": "Cpl", "status": 2},
                   {"form": "Cpl", "status": 1, "bcm": 1}]
        fields |= random.pick(with_data if 5 in faults or 29 in faults else with_data + without)
    if 31 in faults:
        fields |= random.pick(({"tc": 2}, {"attr": 1}, {"attr": 4}, {"attr": 7}, {"tc": 0}))
    if 30 in faults:
        wrong = {"requester": random.pick((REQUESTER ^ 1, 0, 0xFFFF, 0x0001))}
        absent = {"tag": random.pick((4, 6, 31, 32, 37, 255))}
        fields |= wrong if 31 in faults else random.pick((wrong, absent))
    if 29 in faults:
        forms = ("MWr32", "MWr64", "MsgD")
        fields |= {"form": random.pick(forms if 5 in faults else forms + ("MRd32", "MRd64", "Msg")),
                   "last": 15}
        fields.setdefault("length", 4)
    return reader_faults(script, faults, fields)


def reader_faults(script, faults, fields):
    """The completion's bytes, with faults for the reader too."""
    random = script.random
    if 5 in faults:
        fields["length"] = 33 + random.below(3)
    if "poisoned" in faults:
        fields["ep"] = 1
    if 3 in faults:
        fields["extra"] = bytes(random.pick((1, 2, 3, 4, 8)))
    if 2 in faults:
        fields["byte0"] = random.pick((0x01, 0x0B, 0x4B, 0x2A, 0x6A, 0xFF))
    if 1 in faults:
        fields["cut"] = random.below(12)
    return script.piece(5, **fields)


READY = OPENING | {"tc": 3, "attr": 5}


def make_ready(script):
    """Tag 5 has the read of these sections, nothing of it taken."""
    if script.read(5) == read_of(**READY):
        return
    if script.read(5):
        script.withdraw(5, 0)
    script.open(0, **READY)


def try_faults(script, faults, data, expect):
    """One taking with faults; 11 and 34 need other settings and another store."""
    if 34 in faults:
        script.store(script.random.pick((0, 16, 256, 268, 271, 65_537, 70_000)))
    with_settings(script, faults, dict(mps=128, mrrs=512, rcb=64),
                  lambda: script.take(data, expect))
    if 34 in faults:
        script.store(STORE_LIMIT)
    note_pairs(script, "take", faults)


def data_orders(script):
    """Every pair of faults of a completion with data, and poisoning last."""
    script.new(128, 512, 64)
    for faults in 5 * fault_sets(ORDERED_DATA):
        make_ready(script)
        try_faults(script, faults, data_faults(script, faults), faults[0])
        script.record(5, "free" if faults[0] == "poisoned" else read_of(**READY))
    script.sum()


def failing_orders(script):
    """The same for a failing completion: what comes before Failed, and what is not looked at."""
    script.new(128, 512, 64)
    script.fill(0x11)
    for faults in 4 * fault_sets(ORDERED_FAILING):
        faults = tuple(name for name in ORDERED_FAILING if name in faults or name == "failed")
        make_ready(script)
        status = script.random.pick(FAILING)
        fields = {"form": "Cpl", "status": status, "length": script.random.below(1024)}
        if 33 in faults:
            fields |= script.random.pick(({"count": 15}, {"count": 4095}, {"lower": 127}))
        if 32 in faults:
            fields |= script.random.pick(({"bcm": 1}, {"status": 2}, {"status": 2, "bcm": 1}))
        if 31 in faults:
            fields |= script.random.pick(({"tc": 2}, {"attr": 1}, {"attr": 4}, {"tc": 7}))
        if 30 in faults:
            fields |= {"requester": script.random.pick((0, REQUESTER ^ 0x100, 0xFFFF))}
        expect = failed(status) if faults[0] == "failed" else faults[0]
        try_faults(script, faults, reader_faults(script, faults, fields), expect)
        script.record(5, "free" if faults[0] == "failed" else read_of(**READY))
    script.sum()


def small_orders(script):
    """Withdraw and owed: 11 before 20 and 25."""
    script.new(128, 128, 64)
    script.open(0)
    for tag in (5, 6, 31, *OVER_TAGS):
        for unlisted in UNLISTED:
            script.settings(**dict(mps=128, mrrs=128, rcb=64) | unlisted)
            script.withdraw(tag, 11)
            script.owed("code=11")
            if tag != 5:
                note_pairs(script, "withdraw", (11, 20 if tag >= TAG_LIMIT else 25))
        script.settings(128, 128, 64)
    for tag in range(TAG_LIMIT):
        script.withdraw(tag, 0 if tag == 5 else 25)
    script.withdraw(5, 25)


# ---------------------------------------------------------------------------------------------
# Tables that no call reaches
# ---------------------------------------------------------------------------------------------

SOUND = Read(0x2000, 8, 15, 15, 0, 0, 1024, 2)      # a record that a valid table may hold
INVALID = (                                          # at MRRS 128
    *({"address": address} for address in (0x2001, 0x2002, 0x2003, TOP - 1)),
    *({"length": length} for length in (0, 1025, 65_536, 4294967295)),
    *({"first": first} for first in (16, 31, 255)), *({"last": last} for last in (16, 31, 255)),
    *({"traffic_class": tc} for tc in (8, 255)), *({"attributes": attr} for attr in (8, 255)),
    {"length": 1, "taken": 0}, {"length": 1, "last": 1, "taken": 0},
    {"length": 2, "first": 0, "taken": 1}, {"length": 2, "last": 0, "taken": 1},
    {"first": 0}, {"first": 10}, {"last": 0}, {"last": 10}, {"first": 7}, {"last": 14},
    {"address": 0x2FFC, "length": 2, "taken": 0}, {"address": 0x2FE4}, {"address": TOP - 28},
    {"address": 0xFFFFFFE4},
    {"length": 33}, {"length": 64}, {"length": 1024},
    {"start": 1}, {"start": 2}, {"start": 1026}, {"start": 65_508}, {"start": 65_536},
    {"start": 1 << 32}, {"start": TOP - 32}, {"start": TOP - 4}, {"start": TOP - 1},
    {"taken": 8}, {"taken": 9}, {"taken": 1024}, {"taken": 4294967295},
    {"address": 1, "length": 0, "first": 255, "start": TOP - 1, "taken": 4294967295},
)


def invalid_tables(script):
    """11 from every call, whichever tag holds the invalid record; then the table repaired."""
    script.store(2048)       # records are judged by one of 65,536 all the same
    for index, changed in enumerate(INVALID):
        tag = (0, 31, 3, 20)[index % 4]
        script.new(128, 128, 64)
        script.fill(index)
        script.open(0, tag=9, len=16, start=512)
        script.open(0, tag=30, len=2, start=640)
        record = replace(SOUND, **changed)
        good = script.piece(9)
        script.force(tag, record)
        all_refused(script, good, tag)
        script.record(tag, record)
        if index % 2:
            script.force(tag, SOUND)
            script.owed("dw=24")
            script.take(good, "done")
            script.withdraw(tag, 0)
        else:
            script.new(128, 128, 64)
            script.owed("dw=0")
            script.record(tag, "free")
            script.open(0, tag=tag)
    script.store(STORE_LIMIT)


def all_refused(script, good, tag):
    """Every kind of call, good ones and faulty ones, answers 11."""
    before = script.state()
    for fields in ({"tag": 7}, {"tag": tag}, {"tag": 32}, {"tag": 7, "tc": 8},
                   {"tag": 7, "start": 512, "out": 0}):
        script.open(11, **fields)
    failing = packet("Cpl", tag=9, requester=REQUESTER, status=1)
    for data in (good, failing, b"", packet("MRd32"), good[:-1]):
        script.take(data, 11)
    for number in (9, 30, tag, 7, 32, 4294967295):
        script.withdraw(number, 11)
    script.owed("code=11")
    script.sum()
    if script.state() != before:
        raise ValueError("a refused call did something")


def unlisted_settings(script):
    """Each setting off the list, put into a table and given to a new one."""
    edges = [(name, value) for name in ("mps", "mrrs") for value in UNLISTED_SIZES]
    edges += [("rcb", value) for value in UNLISTED_BOUNDARIES]
    for name, value in edges:
        script.new(128, 512, 64)
        script.open(0)
        good = script.piece(5)
        script.settings(**{name: value})
        script.open(11, tag=6, start=512)
        script.take(good, 11)
        script.withdraw(5, 11)
        script.owed("code=11")
        script.settings()
        script.take(good, "done")
        script.new(**{name: value}, expect=11)
        script.open(11)
        script.take(good, 11)
        script.withdraw(5, 11)
        script.owed("code=11")
        script.record(5, "free")
        script.settings()
        script.open(0)
        script.take(good, "done")


def changed_settings(script):
    """Listed settings changed under open reads: MRRS too small makes a record invalid."""
    script.new(128, 512, 64)
    script.open(0, len=100)
    for mrrs in SIZES:
        script.settings(mrrs=mrrs)
        script.owed("dw=100" if mrrs >= 512 else "code=11")
        script.open(0 if mrrs >= 512 else 11, tag=6, start=1024)
        script.withdraw(6, 0 if mrrs >= 512 else 11)
    script.settings(mps=512)
    script.take(script.piece(5, 65), 33)
    script.settings(mps=512, rcb=128)
    script.take(script.piece(5, 16), 33)
    script.settings(mps=64)
    script.take(script.piece(5, 16), 11)
    script.settings(mps=128)
    script.take(script.piece(5, 33), 5)
    script.take(script.piece(5, 16), "more")


def reached_by_none(script):
    """Valid tables that no call reaches: overlapping windows, p off a boundary, everything open."""
    script.new(4096, 4096, 128)
    script.fill(0xEE)
    for tag in range(TAG_LIMIT):
        script.force(tag, Read(0x1000 * tag, 1024, 15, 15, tag % 8, tag // 8, 61_440, tag))
    script.owed("dw=%d" % sum(1024 - tag for tag in range(TAG_LIMIT)))
    script.open(21, tag=31, start=0)
    script.take(script.piece(31, 1), "more")
    script.withdraw(0, 0)
    script.open(24, tag=0, start=65_532, len=1, last=0)
    script.open(0, tag=0, start=61_436, len=1, last=0)
    for rcb in BOUNDARIES:
        script.new(256, 512, rcb)
        for taken in range(1, 40):
            read = Read(0x8000_0000_0000_0FE0 - 160, 40, 8, 1, 6, 3, 1000, taken)
            script.force(5, read)
            script.take(script.piece(5, count=4 * read.left), 33)
            script.take(script.piece(5, read.left + 1), 33)
            if read.left > 1:
                n = 1 + taken % (read.left - 1)
                lawful = n in lawful_sizes(read, 256, rcb)
                script.take(script.piece(5, n), "more" if lawful else 33)
            script.take(script.piece(5), "done")
            script.bytes(1000, 160)
    overlapping(script)
    beyond_the_store(script)


def overlapping(script):
    """Two reads over one window: each piece writes its own enabled bytes."""
    script.new(128, 512, 64)
    script.force(1, Read(0x1000, 4, 8, 1, 0, 0, 100, 0))
    script.force(2, Read(0x1000, 4, 15, 15, 0, 0, 104, 0))
    script.owed("dw=8")
    script.open(24, tag=3, start=116)
    script.open(0, tag=3, start=120)
    script.take(script.piece(2, payload=bytes(range(1, 17))), "done")
    script.bytes(96, 28, bytes(8) + bytes(range(1, 17)) + bytes(4))
    script.take(script.piece(1, payload=bytes(range(0x81, 0x91))), "done")
    script.bytes(96, 28, bytes.fromhex("00000000 00000084 85868788 898a8b8c 8d0a0b0c 0d0e0f10"
                                       "00000000"))
    script.owed("dw=4")


def beyond_the_store(script):
    """Records are judged by a store of 65,536, whatever store is lent."""
    script.new(128, 512, 64)
    for size in (0, 100, 4096, 65_532, 65_537, 70_000):
        script.store(size)
        script.force(5, Read(0x1000, 16, 15, 15, 0, 0, 65_472, 0))
        script.owed("dw=16")
        script.take(script.piece(5), 34)
        script.withdraw(5, 0)
    script.store(STORE_LIMIT)


# ---------------------------------------------------------------------------------------------
# Bad lines
# ---------------------------------------------------------------------------------------------

GOOD_LINES = (
    "new mps=128 mrrs=512 rcb=64 req=0100",
    "store len=64",
    "fill byte=7",
    "open addr=2000 len=4 first=15 last=15 tc=0 attr=0 tag=7 start=512 out=16",
    "take tlp=4a0000010200000401000500000000ff",
    "withdraw tag=5",
    "owed",
    "record tag=5",
    "bytes from=0 len=4",
    "sum",
    "force tag=5 addr=2000 len=4 first=15 last=15 tc=0 attr=0 start=512 taken=0",
    "settings mps=128 mrrs=512 rcb=128",
)

BAD_VALUES = (      # key and value that may stand in no line with that key
    *(("mps", value) for value in ("4294967296", "0128", "128.", "80h")),
    ("mrrs", "4294967296"), ("rcb", "4294967296"), ("rcb", "064"),
    *(("req", value) for value in ("100", "00100", "01 00", "010G", "010g", "00FF", "0x01")),
    *(("byte", value) for value in ("256", "1000", "07")),
    *(("addr", value) for value in ("02000", "00", "2000h", "0x2000", "ABC", "g", "-4",
                                    "10000000000000000", "fffffffffffffffff")),
    *((key, value) for key in ("first", "last", "tc", "attr") for value in ("256", "00", "0f")),
    *(("taken", value) for value in ("4294967296", "00")),
    *(("start", value) for value in ("18446744073709551616", "0512", "99999999999999999999",
                                     "100000000000000000000000")),
    *(("tag", value) for value in ("4294967296", "05", "00", "99999999999999999999999999")),
    *(("out", value) for value in ("33", "64", "016", "4294967296")),
    *(("tlp", value) for value in ("0", "4a0", "4A", "4g", "0x4a", "4a 00", "4a_0")),
)
BAD_ANYWHERE = ("", "-1", "+1", " 1", "1 ", "1,000", "one", "1=1", "1.0", "\u0661")


def bad_values(script):
    """Each key with values that it can't have."""
    for line in GOOD_LINES:
        words = line.split(" ")
        for index, word in enumerate(words[1:], 1):
            key = word.split("=")[0]
            values = [value for name, value in BAD_VALUES if name == key]
            values += [value for value in BAD_ANYWHERE if (key, value) != ("tlp", "")]
            for value in values:
                script.bad(" ".join(words[:index] + [key + "=" + value] + words[index + 1:]))
    for line in ("open addr=2000 len=4294967296 first=15 last=15 tc=0 attr=0 tag=7 start=0 out=16",
                 "force tag=32 addr=2000 len=4 first=15 last=15 tc=0 attr=0 start=512 taken=0",
                 "force tag=5 addr=0 len=4294967296 first=15 last=15 tc=0 attr=0 start=0 taken=0",
                 "record tag=32", "record tag=255", "record tag=256", "record tag=4294967295",
                 "store len=70001", "store len=4294967296", "store len=99999999999999999999",
                 "bytes from=0 len=4097", "bytes from=65536 len=1", "bytes from=65537 len=0",
                 "bytes from=61441 len=4096", "bytes from=18446744073709551615 len=1",
                 "bytes from=18446744073709551615 len=0", "bytes from=18446744073709551616 len=0",
                 "bytes from=4294967296 len=4", "bytes from=0 len=18446744073709551615"):
        script.bad(line)


def bad_shapes(script):
    """Words missing, repeated, in another order or with other spaces, and no call at all."""
    for line in GOOD_LINES:
        words = line.split(" ")
        for shape in (line + " ", " " + line, line + " x=1", line.upper(), line + " " + words[-1],
                      line.replace(" ", "  ") + " " * (len(words) == 1), line + "\t", line + "\r ",
                      line.replace("=", " ", 1) + "=" * ("=" not in line),
                      line.replace("=", ":") + ":" * ("=" not in line), "x" + line, line[1:]):
            script.bad(shape)
        for index in range(1, len(words)):
            script.bad(" ".join(words[:index] + words[index + 1:]))
            script.bad(" ".join(words[:index] + [words[index].title()] + words[index + 1:]))
        if len(words) > 2:
            script.bad(" ".join([words[0], words[2], words[1], *words[3:]]))
            script.bad(" ".join(words[:-2] + [words[-1], words[-2]]))
        if len(words) > 1:
            script.bad(line.replace(" ", "\t"))
            script.bad(line.replace(" ", "", 1))
    for line in ("", " ", "=", "tag=5", "close tag=5", "open", "take", "takes tlp=00", "owed dw=0",
                 "sum=0", "sum ", "bad", "new", "# owed", "owed;", "owed owed", "owed\rowed",
                 "\u00e9", "owed\u00a0", "record tag=5 free", "\x7f", "\x0c"):
        script.bad(line)


def line_lengths(script):
    """Lines of up to 8,300 bytes with newline are read, longer ones are not."""
    for size in (4140, 4144, 4145):
        script.say("take tlp=" + "00" * size, "take code=3")
    if len(script.lines[-1]) != 8_300:
        raise ValueError("the longest line")
    for size in (4146, 4150, 5000, 8192):
        script.bad("take tlp=" + "00" * size)
    script.bad("withdraw tag=" + "1" * 8_000)
    script.bad("open addr=" + "f" * 8_286)
    script.bad("x" * 8_299)
    script.bad("x" * 8_300)
    script.bad("owed" + " " * 8_296)
    script.bad("owed" + " " * 20_000)


def bad_lines(script):
    """Lines of every other form, with an open read that none of them touches."""
    script.new(128, 512, 64)
    script.fill(0x5A)
    script.open(0)
    bad_values(script)
    script.record(5, read_of(**OPENING))
    bad_shapes(script)
    script.owed("dw=4")
    line_lengths(script)
    script.record(5, read_of(**OPENING))
    script.say("take tlp=", "take code=1")
    script.bytes(0, 0, b"")
    script.bytes(65_536, 0, b"")
    script.bytes(61_440, 4096)
    script.take(script.piece(5), "done")
    script.store(0)
    script.sum()
    script.bytes(0, 0, b"")
    script.bad("bytes from=0 len=1")
    script.fill(255)
    script.new()
    script.store(STORE_LIMIT)
    script.sum()


def unended_line(script):
    """The last line of the script is a good one but for its newline."""
    script.owed()
    script.put(b"owed", "bad")
