#!/usr/bin/env python3
"""Measures the proved table beside plain C ones that do the same checks (reads_plain.c, cc -O2).

The calls are repeated inside programs that read the same lines and print the same.  Plain C keeps its
reads in slots, scanned by index or by pointer, or in rows beside a set of tags (reads_turns.c).  The
proved table is called by value and in place, each in a program of its own, so that the core has one
caller and is compiled into it (crates/bench_by_value, crates/bench_in_place); and by value, in place and
over what is lent of it, all three ways in one program, so that the cores of open and take have two
callers each and stand apart (crates/bench_every_way).  The core alone is called from C over what it is
lent (reads_lent.c).  Each is timed as a process with an empty run subtracted, all of them in turn in
every round, on one processor.  A turn opens a read and takes it whole, or withdraws it.  Printed are
medians over the rounds: times for one of plain C's, what one more open read costs a scan, and how a turn
grows with the reads open and with the turns before.

    host/bench/reads.py [ROUNDS] [--beside TREE]

TREE is a checkout with room for 32 tags, its programs built: its times, and what room for 256 costs.
Exits with 1 where two programs disagree, and with 2 where an aim is missed.
"""

import argparse
import os
import statistics
import subprocess
import sys
import tempfile
import time
from pathlib import Path
from typing import NamedTuple

sys.dont_write_bytecode = True

ROOT = Path(__file__).resolve().parent.parent.parent
CRATES = ROOT / "crates"
BENCH = ROOT / "host" / "bench"
SECOND = ROOT / "host" / "second"
FLAGS = ("-std=c11", "-O2", "-Wall", "-Wextra", "-Werror", "-I", SECOND)
PLAIN = [BENCH / "reads_turns.c", SECOND / "reads_plain.c", SECOND / "packet_plain.c"]

MEASURED = 0.05                      # seconds of a measurement, about
FEWEST, PROBED, MOST = 20_000, 100_000, 4_000_000            # turns
SCANS = 3                            # of a turn with a withdrawal: open's two and withdraw's one
SCAN_AIM = 4.0                       # ns for one more open read in a scan of the core
OPEN = (1, 32)                       # the reads open while a turn's own is
GROWING = (1, 9, 17, 25, 32)
CASES = (("open, withdraw", "withdraw", 64), ("open, take 64 bytes", "take", 64),
         ("open, take 256 bytes", "take", 256), ("open, take 4096 bytes", "take", 4096))

# What each table is for one of, and its columns: a program and its aim.
OF_SLOTS = ("256 slots", {"by value": 1.0, "in place": 0.9, "by value, apart": 1.1, "in place, apart": 1.1})
OF_POINTER = ("256 by pointer", {"by value": None, "in place": None, "by value, apart": None,
                                 "in place, apart": None})
OF_SET = ("set", {"256 slots": None, "256 by pointer": None, "in place": None, "by value": None,
                  "core lent": 1.3, "core apart": None})
OF_32 = ("32 slots", {"in place": None, "by value": None, "core lent": None, "older in place": None,
                      "older by value": None})


class Program(NamedTuple):
    """A program, and the form of its lines: what they start with, and how they say the turns' tag."""
    path: Path
    start: str = ""
    tag: str = " tag=5"

    def timed(self, work, turns):
        """Seconds for a line of turns, and what was printed."""
        line = "%s%s others=%d size=%d%s turns=%d\n" % (self.start, work.kind, work.opened - 1, work.size,
                                                        self.tag, turns)
        start = time.perf_counter()
        done = subprocess.run([self.path], input=line.encode(), capture_output=True, check=True)
        return time.perf_counter() - start, done.stdout


class Work(NamedTuple):
    """What a turn does."""
    kind: str
    size: int
    opened: int


def run_checked(command, what, folder=ROOT):
    """Run a command of the build, on empty input; one line where it fails."""
    made = subprocess.run(command, cwd=folder, stdin=subprocess.DEVNULL, capture_output=True, text=True)
    if made.returncode != 0:
        sys.exit("reads: %s\n%s" % (what, (made.stdout + made.stderr)[-2000:]))


def compiled(path, *arguments):
    """A C program."""
    run_checked(["cc", *FLAGS, "-o", path, *arguments], "%s does not build" % path.name)
    return Program(path)


def executable(tree, name):
    """Where a program of a tree is left: in its crate's folder, or in target/bin by an older kit."""
    places = tree / "crates" / name / "out" / name, tree / "target" / "bin" / name
    return next((place for place in places if place.exists()), None)


def proved(name):
    """A proved program: rt run proves it, builds it, and runs it once, on nothing."""
    run_checked(["rt", "run"], "%s is not proved or not built" % name, CRATES / name)
    return CRATES / name / "out" / name


def build(folder):
    """The programs by name."""
    by_value, in_place, every_way = (proved(name) for name in ("bench_by_value", "bench_in_place", "bench_every_way"))
    run_checked(["rt", "lib"], "the lent core is not proved or not built", CRATES / "bench_lent")
    return {
        "256 slots": compiled(folder / "256 slots", "-DPLAIN_SLOTS=256", *PLAIN),
        "256 by pointer": compiled(folder / "256 by pointer", "-DPLAIN_BY_POINTER", *PLAIN),
        "set": compiled(folder / "set", "-DPLAIN_SET", *PLAIN),
        "core lent": compiled(folder / "core lent", BENCH / "reads_lent.c",
                              CRATES / "bench_lent" / "out" / "libbench_lent.a"),
        "by value": Program(by_value),
        "in place": Program(in_place),
        "by value, apart": Program(every_way, "value "),
        "in place, apart": Program(every_way, "place "),
        "core apart": Program(every_way, "lent "),
    }


def build_beside(tree, folder):
    """The programs of a tree with room for 32 tags, whose lines say no tag, and plain C with that room."""
    value, place = (executable(tree, name) for name in ("bench_by_value", "bench_in_place"))
    if not (value and place):
        sys.exit("reads: the programs of %s are not built" % tree)
    return {"32 slots": compiled(folder / "32 slots", "-DPLAIN_SLOTS=32", *PLAIN),
            "older by value": Program(value, tag=""), "older in place": Program(place, tag="")}


class Bench:
    """The programs, and the times of turns."""

    def __init__(self, programs, count):
        self.programs = programs
        self.count = count               # of rounds
        self.printed = {}
        self.turns = {}

    def turn(self, name, work, turns):
        """Seconds for a turn, an empty run subtracted."""
        whole, printed = self.programs[name].timed(work, turns)
        empty, _ = self.programs[name].timed(work, 0)
        expected = self.printed.setdefault(work, printed)
        if printed != expected or not printed.startswith(b"code=0 "):
            sys.exit("reads: %s, %s: %s, and others: %s" % (name, work, printed, expected))
        return max(whole - empty, 1e-9) / turns

    def turns_for(self, name, work):
        """As many turns as take about the time of a measurement."""
        if (name, work) not in self.turns:
            wanted = int(MEASURED / self.turn(name, work, PROBED))
            self.turns[name, work] = min(max(wanted, FEWEST), MOST)
        return self.turns[name, work]

    def rounds(self, names, works):
        """The seconds of each round, by program and work."""
        return [{(name, work): self.turn(name, work, self.turns_for(name, work))
                 for work in works for name in names} for _ in range(self.count)]

    def measured(self):
        """For each case, the rounds of all programs."""
        return {case: self.rounds(self.programs, [Work(*case[1:], opened) for opened in OPEN])
                for case in CASES}

    def growth(self, works):
        """Turns in place, each for one of the first."""
        rounds = self.rounds(["in place"], works)
        return " ".join("%.2f" % ratio(rounds, ("in place", work), ("in place", works[0])) for work in works)

    def history(self, times):
        """Turns in place after so many times as many, each for one of the first."""
        work = Work("take", 64, 1)
        turns = self.turns_for("in place", work)
        rounds = [{n: self.turn("in place", work, n * turns) for n in times} for _ in range(self.count)]
        return " ".join("%.2f" % ratio(rounds, n, times[0]) for n in times)


def ratio(rounds, one, other):
    """The median over the rounds of one for one of the other."""
    return statistics.median(seconds[one] / seconds[other] for seconds in rounds)


def print_table(measured, base, columns):
    """A row for each case and number of open reads; the aims that are missed."""
    missed = []
    print("for 1 of plain C, %s:" % base)
    print("%-22s %10s" % ("turn", "reads open") + "".join("%17s" % name for name in columns))
    for case, rounds in measured.items():
        for opened in OPEN:
            work = Work(*case[1:], opened)
            found = {name: round(ratio(rounds, (name, work), (base, work)), 2) for name in columns}
            print("%-22s %10d" % (case[0], opened) + "".join("%17.2f" % value for value in found.values()))
            missed += ["%s with %d open: %s is %.2f of plain C, %s, and the aim %.1f"
                       % (case[0], opened, name, value, base, columns[name])
                       for name, value in found.items() if columns[name] and value > columns[name]]
    print(flush=True)
    return missed


def print_scan(measured):
    """What one more open read costs in one scan; the aim if it is missed."""
    one, many = (Work(*CASES[0][1:], opened) for opened in OPEN)
    reads = SCANS * (many.opened - one.opened)
    cost = {name: 1e9 * statistics.median((seconds[name, many] - seconds[name, one]) / reads
                                          for seconds in measured[CASES[0]])
            for name in ("core lent", "set")}
    print("one more open read in a scan: %.2f ns in the core, %.2f ns in plain C's set"
          % (cost["core lent"], cost["set"]))
    if cost["core lent"] <= SCAN_AIM:
        return []
    return ["one more open read in a scan is %.2f ns, and the aim %.1f" % (cost["core lent"], SCAN_AIM)]


def main(count, beside):
    """Print the tables; 2 where an aim is missed."""
    os.sched_setaffinity(0, {max(os.sched_getaffinity(0))})
    with tempfile.TemporaryDirectory() as folder:
        programs = build(Path(folder))
        if beside:
            programs |= build_beside(beside, Path(folder))
        bench = Bench(programs, count)
        print("medians of %d rounds" % count, flush=True)
        measured = bench.measured()
        missed = print_table(measured, *OF_SLOTS)
        print_table(measured, *OF_POINTER)
        missed += print_table(measured, *OF_SET)
        if beside:
            print_table(measured, *OF_32)
        missed += print_scan(measured)
        print("in place with %s reads open, for 1 with 1: %s"
              % (", ".join(map(str, GROWING)), bench.growth([Work("take", 64, n) for n in GROWING])))
        print("in place after 1, 4 and 16 times as many turns, for 1: %s" % bench.history((1, 4, 16)))
    for what in missed:
        print("missed: %s" % what)
    return 2 if missed else 0


if __name__ == "__main__":
    parser = argparse.ArgumentParser(description="Measures the proved table beside plain C ones.")
    parser.add_argument("rounds", nargs="?", type=int, default=15)
    parser.add_argument("--beside", type=Path, metavar="TREE", help="a checkout with room for 32 tags, built")
    options = parser.parse_args()
    sys.exit(main(options.rounds, options.beside))
