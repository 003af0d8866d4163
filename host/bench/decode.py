#!/usr/bin/env python3
"""Measures the proved decoder against a plain C one that does the same work, and against cat.

    host/bench/decode.py

makes a capture of 200 MB in a temporary folder, requires that both decoders print the same for it, and
that the second decoder agrees on its first megabyte; then runs decode, the C program and cat in turn.
Ratios are taken within each round, so that a slower moment of the machine weighs on all three.
Exits with 1 when outputs differ or a bound is not met.
"""

import filecmp
import os
import random
import shutil
import statistics
import subprocess
import sys
import tempfile
import time
from pathlib import Path

sys.dont_write_bytecode = True   # the imports below leave no compiled files behind

ROOT = Path(__file__).resolve().parent.parent.parent
sys.path.insert(0, str(ROOT / "host" / "second"))

import capture
from make_vectors import packet

DECODE = ROOT / "crates" / "decode" / "out" / "decode"
SOURCE = ROOT / "host" / "second" / "decode_plain.c"

CAPTURE_SIZE = 200_000_000
DISTINCT_LINES = 12_000          # lines that differ in more than their time
FIRST_PART = 1_000_000
ROUNDS = 9
RATIO_BOUND = 1.5
MEMORY_BOUND = 32                # MB

HEADER = b"mps=256 mrrs=512 rcb=64 req=0100\n"


class Failure(Exception):
    """What stops the measurement."""


# ---------------------------------------------------------------------------------------------
# The capture
# ---------------------------------------------------------------------------------------------

def completion(source):
    """A piece of 64 to 256 bytes of a read's answer."""
    length = source.randrange(16, 65)
    return "rx", packet("CplD", length=length, count=4 * length, tag=source.randrange(32),
                        source=0x0008, payload=source.randbytes(4 * length))


def read_request(source):
    """A read of up to 512 bytes, below or above 4 GiB."""
    length = source.randrange(2, 129)
    return "tx", packet(source.choice(("MRd32", "MRd64")), length=length, last=15,
                        address=source.randrange(1 << 20) << 12, tag=source.randrange(32))


def write_request(source):
    """A write of up to 128 bytes."""
    length = source.randrange(1, 33)
    return "tx", packet(source.choice(("MWr32", "MWr64")), length=length, last=15 if length > 1 else 0,
                        address=source.randrange(1 << 20) << 12, payload=source.randbytes(4 * length))


def other_packet(source):
    """One of the rarer kinds."""
    form = source.choice(("Msg", "MsgD", "Cpl", "CfgRd0", "CfgWr0", "CfgRd1", "CfgWr1", "IORd", "IOWr"))
    return source.choice(("rx", "tx")), packet(form, tag=source.randrange(256), td=source.randrange(2))


def refused_packet(source):
    """A packet with a fault."""
    return "rx", source.choice((
        packet("MRd32", length=2, last=0), packet("CplD", length=65, count=260), packet("MRd64", top=0),
        packet("CplD", length=16, payload=bytes(60)), packet("MWr32", length=2, last=15, address=0xFFC),
        packet("MRd32", byte0=0x01), packet("CfgRd0", length=2), packet("Msg", byte0=0x36)))


MAKERS = (completion, read_request, write_request, other_packet, refused_packet)
WEIGHTS = (700, 140, 110, 43, 7)
BAD_LINES = 0.003


def line_rest(source):
    """A line from its second word on; a few are bad."""
    way, data = source.choices(MAKERS, WEIGHTS)[0](source)
    text = "dir=%s len=%d tlp=%s\n" % (way, len(data), data.hex())
    if source.random() < BAD_LINES:
        text = source.choice((text.upper(), text.replace("len=", "len=0"), text[:-2] + "\n",
                              text.replace(" ", "  "), "\n"))
    return text.encode()


def make_capture(path):
    """The capture: the same lines again and again, with times that go on."""
    source = random.Random(20_000)
    rests = [line_rest(source) for _ in range(DISTINCT_LINES)]
    steps = [source.randrange(1, 900) for _ in rests]
    at = size = 0
    with open(path, "wb") as file:
        size += file.write(HEADER)
        while size < CAPTURE_SIZE:
            lines = []
            for rest, step in zip(rests, steps):
                at += step
                lines.append(b"at=%d %s" % (at, rest))
            size += file.write(b"".join(lines))
    return size


# ---------------------------------------------------------------------------------------------
# Outputs
# ---------------------------------------------------------------------------------------------

def build_plain(folder):
    """The C program."""
    program = os.path.join(folder, "decode_plain")
    made = subprocess.run(["cc", "-O2", "-Wall", "-Wextra", "-Werror", "-o", program, str(SOURCE)])
    if made.returncode != 0:
        raise Failure("%s does not build" % SOURCE.name)
    return program


def output_file(program, source):
    """What a program prints for a capture, in a file beside it."""
    target = "%s.%s" % (source, os.path.basename(program))
    with open(source, "rb") as given, open(target, "wb") as taken:
        run = subprocess.run([program], stdin=given, stdout=taken, stderr=subprocess.PIPE)
    if run.returncode != 0 or run.stderr:
        raise Failure("%s failed: %s" % (program, run.stderr.decode(errors="replace").strip()))
    return target


def compare_whole(programs, path):
    """Both programs print the same for the whole capture."""
    first, second = (output_file(program, path) for program in programs)
    if not filecmp.cmp(first, second, shallow=False):
        raise Failure("the outputs of the two programs differ")
    return os.path.getsize(first)


def compare_start(programs, path):
    """Both programs print what the second decoder says for the capture's start."""
    start = path + ".start"
    with open(path, "rb") as file:
        data = file.read(FIRST_PART) + file.readline()
    Path(start).write_bytes(data)
    expected = capture.decode(data)
    for program in programs:
        if Path(output_file(program, start)).read_bytes() != expected:
            raise Failure("%s and the second decoder differ" % os.path.basename(program))


# ---------------------------------------------------------------------------------------------
# Measurements
# ---------------------------------------------------------------------------------------------

def run_once(program, path):
    """Wall time and processor time of a program with the capture as its input, in seconds."""
    actions = [(os.POSIX_SPAWN_OPEN, 0, path, os.O_RDONLY, 0),
               (os.POSIX_SPAWN_OPEN, 1, os.devnull, os.O_WRONLY, 0)]
    start = time.perf_counter()
    child = os.posix_spawn(program, [program], os.environ, file_actions=actions)
    _, status, usage = os.wait4(child, 0)
    wall = time.perf_counter() - start
    if status != 0:
        raise Failure("%s ended with status %d" % (program, status))
    return wall, usage.ru_utime + usage.ru_stime


def measure(programs, path):
    """For each round, the two times of each program."""
    for program in programs:
        run_once(program, path)          # the first run of each also warms the file's pages
    return [[run_once(program, path) for program in programs] for _ in range(ROUNDS)]


def peak_memory(program, path):
    """The most memory that a program had, in MB.

    It is asked for before the end of its input: what wait4 says of a child is at least the size of
    the process that started it.
    """
    with open(path, "rb") as file, subprocess.Popen(
            [program], stdin=subprocess.PIPE, stdout=subprocess.DEVNULL) as child:
        shutil.copyfileobj(file, child.stdin, 1 << 20)
        child.stdin.flush()
        status = Path("/proc/%d/status" % child.pid).read_text()
    return int(status.split("VmHWM:")[1].split()[0]) / 1024


def ratios(rounds, one, other, time_index):
    """One program's time over another's, round by round."""
    return [times[one][time_index] / times[other][time_index] for times in rounds]


def verdict(good):
    """A word for a bound."""
    return "met" if good else "NOT MET"


def report(rounds, names):
    """Print the ratios, their median and range; whether their bound is met."""
    met = True
    for other, bound in ((1, RATIO_BOUND), (2, None)):
        for time_index, time_name in ((0, "wall"), (1, "processor")):
            found = ratios(rounds, 0, other, time_index)
            middle = statistics.median(found)
            good = bound is None or middle <= bound
            met = met and good
            print("decode / %-13s %-10s %.2f (%.2f to %.2f)%s" % (
                names[other], time_name, middle, min(found), max(found),
                "" if bound is None else "; bound %.1f: %s" % (bound, verdict(good))))
    return met


def main():
    """Make the capture, compare, measure; 0 when all is equal and within its bounds."""
    if not os.access(DECODE, os.X_OK):
        print("crates/decode/out/decode is missing: run ./tollpebble decode once", file=sys.stderr)
        return 1
    for tool in ("cc", "cat"):
        if shutil.which(tool) is None:
            print("missing tool: %s" % tool, file=sys.stderr)
            return 1
    try:
        with tempfile.TemporaryDirectory() as folder:
            path = os.path.join(folder, "capture")
            size = make_capture(path)
            programs = [str(DECODE), build_plain(folder), shutil.which("cat")]
            printed = compare_whole(programs[:2], path)
            compare_start(programs[:2], path)
            print("capture of %d bytes, output of %d bytes: the same from all decoders" % (size, printed))
            met = report(measure(programs, path), ("decode", "plain C", "cat"))
            memory = peak_memory(programs[0], path)
    except (Failure, OSError) as failure:
        print("benchmark: FAILED, %s" % failure, file=sys.stderr)
        return 1
    within = memory <= MEMORY_BOUND
    print("peak memory of decode %.1f MB; bound %d MB: %s" % (memory, MEMORY_BOUND, verdict(within)))
    return 0 if met and within else 1


if __name__ == "__main__":
    sys.exit(main())
