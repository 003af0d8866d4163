"""Tests of the command ./tollpebble that need no toolchain.

They run it in a temporary copy of what it looks at, with a stand-in for the decoder and for `rt`.
Prints one summary line, or one line with the first failure and exits with 1.
"""

import os
import shutil
import signal
import subprocess
import sys
import tempfile
from pathlib import Path

sys.dont_write_bytecode = True   # the imports below leave no compiled files behind

ROOT = Path(__file__).resolve().parent.parent.parent
sys.path.insert(0, str(ROOT / "host" / "second"))

import checks
from checks import require

TOOLS = ("cat", "cp", "dirname", "find", "kill", "mkdir", "mv", "readlink", "sh", "touch", "tr")

PASS_ON = "#!/bin/sh\nprintf 'decoded '\nexec cat\n"
COMPLAIN = "#!/bin/sh\ncat\necho 'decode: a read failed' >&2\n"
KILLED = "#!/bin/sh\nkill -TERM $$\n"

# A stand-in for rt, called in the decoder's crate: it notes its words, is noisy and reads, as a true one might, and makes
# the program.
RT_GOOD = """#!/bin/sh
echo "$@" >>../../rt-words
cat
echo noise
echo noise >&2
mkdir -p out
cp ../../stand-in out/decode
"""
RT_IDLE = "#!/bin/sh\necho \"$@\" >>../../rt-words\n"
RT_FAILING = "#!/bin/sh\necho 'not proved'\nexit 1\n"

OLD, NEW, NEWER = 1_000_000_000, 1_000_000_100, 1_000_000_200


def write_program(path, text):
    """An executable script."""
    path.parent.mkdir(parents=True, exist_ok=True)
    path.write_text(text)
    path.chmod(0o755)


class Place:
    """A temporary copy of the command with its files, in a folder with spaces in its name."""

    def __init__(self, folder):
        self.base = Path(folder)
        self.root = self.base / "a copy" / "of it"
        self.user = self.base / "where the user stands"
        self.tools = self.base / "tools"
        self.command = self.root / "tollpebble"
        self.program = self.root / "target" / "bin" / "decode"
        self.built = self.root / "crates" / "decode" / "out"
        for path in (self.root / "crates" / "one", self.built.parent, self.user, self.tools):
            path.mkdir(parents=True)
        for name in ("tollpebble", "numbers.txt"):
            shutil.copy(ROOT / name, self.root)
        for path in (self.root / "crates.txt", self.root / "crates" / "one" / "a file"):
            path.write_text("")
            os.utime(path, (OLD, OLD))
        for name in TOOLS:
            (self.tools / name).symlink_to(shutil.which(name))
        write_program(self.root / "stand-in", PASS_ON)

    def decoder(self, text, time=NEW):
        """A stand-in for the decoder, built at a time."""
        write_program(self.program, text)
        os.utime(self.program, (time, time))

    def rt(self, text):
        """A stand-in for rt; without a text, none."""
        (self.tools / "rt").unlink(missing_ok=True)
        (self.root / "rt-words").unlink(missing_ok=True)
        if text:
            write_program(self.tools / "rt", text)

    def rt_words(self):
        """What rt was called with, one call in each line."""
        path = self.root / "rt-words"
        return path.read_text() if path.exists() else ""

    def run(self, *words, given=b"", folder=None, command=None, **options):
        """The command's status, output and standard error."""
        run = subprocess.run([str(command or self.command), *words], input=given,
                             cwd=folder or self.user, env={"PATH": str(self.tools)},
                             stdout=subprocess.PIPE, stderr=subprocess.PIPE, **options)
        return run.returncode, run.stdout.decode(), run.stderr.decode()


def expect_refusal(what, result, word):
    """A status other than 0, nothing printed, and one line that has a certain word."""
    status, printed, said = result
    require(status != 0, "%s: status 0", what)
    require(printed == "", "%s: it printed %r", what, printed)
    require(said.startswith("tollpebble: ") and said.count("\n") == 1 and said.endswith("\n"),
            "%s: %r", what, said)
    require(word in said, "%s: no %r in %r", what, word, said)


def expect(what, result, wanted):
    """A status, an output and a standard error."""
    require(result == wanted, "%s: %r instead of %r", what, result, wanted)


# ---------------------------------------------------------------------------------------------
# Without the decoder
# ---------------------------------------------------------------------------------------------

def check_help(place):
    """The usage, printed when asked for and said when there is no word."""
    status, printed, said = place.run("help")
    require(status == 0 and said == "" and "decode [FILE]" in printed, "help: %r", printed)
    expect("no word", (place.run()[0] != 0, *place.run()[1:]), (True, "", printed))


def check_codes(place):
    """Every number of numbers.txt with its sentence, and one alone."""
    rows = [line.split(" ", 2) for line in (ROOT / "numbers.txt").read_text().splitlines()
            if line and not line.startswith("#")]
    shown = ["%s  %s\n" % (number, sentence) for number, _, sentence in rows]
    expect("codes", place.run("codes"), (0, "".join(shown), ""))
    for (number, _, _), line in zip(rows, shown):
        expect("codes %s" % number, place.run("codes", number), (0, line, ""))
    for number in ("999", "01", "-1", "", "x", "1 2", "*", "#", "7\n8"):
        expect_refusal("codes %r" % number, place.run("codes", number), "no such number")


def check_words(place):
    """Unknown words and too many of them."""
    for word in ("", "Decode", "decode ", "codes 1", "--version", "a\nb"):
        expect_refusal("word %r" % word, place.run(word), "unknown word")
    for words in (("codes", "1", "2"), ("decode", "a", "b"), ("help", "codes")):
        expect_refusal(" ".join(words), place.run(*words), "take")


def check_files(place):
    """Files that cannot be decoded are refused before anything is built."""
    place.rt(RT_GOOD)
    expect_refusal("a missing file", place.run("decode", "no such"), "no such file: no such")
    expect_refusal("an empty name", place.run("decode", ""), "no such file")
    expect_refusal("a folder", place.run("decode", str(place.root)), "is a directory")
    closed = place.user / "closed"
    closed.write_text("")
    closed.chmod(0)
    place.base.chmod(0o755)
    ordinary = {"user": 65534, "group": 65534, "extra_groups": []} if os.geteuid() == 0 else {}
    expect_refusal("a closed file", place.run("decode", "closed", **ordinary), "cannot read closed")
    require(place.rt_words() == "", "something was built for a file that cannot be decoded")


# ---------------------------------------------------------------------------------------------
# With a decoder
# ---------------------------------------------------------------------------------------------

def check_input(place):
    """The file or standard input reaches the program, wherever the user stands."""
    place.rt(None)
    place.decoder(PASS_ON)
    (place.user / "a capture.cap").write_text("some lines\n")
    (place.user / "-x").write_text("a dash\n")
    for what, result in (
            ("a file", place.run("decode", "a capture.cap")),
            ("a whole path", place.run("decode", str(place.user / "a capture.cap"), folder="/")),
            ("a path upwards", place.run("decode", "../where the user stands/a capture.cap")),
            ("standard input", place.run("decode", given=b"some lines\n")),
            ("a dash", place.run("decode", "-", given=b"some lines\n"))):
        expect(what, result, (0, "decoded some lines\n", ""))
    expect("a name with a dash", place.run("decode", "-x"), (0, "decoded a dash\n", ""))
    link = place.user / "link"
    link.symlink_to(place.command)
    expect("by a link", place.run("decode", "a capture.cap", command=link),
           (0, "decoded some lines\n", ""))
    expect("beside it", place.run("decode", given=b"\n", folder=place.root, command="./tollpebble"),
           (0, "decoded \n", ""))
    data = bytes(range(256)) * 1_000
    run = subprocess.run([place.command, "decode"], input=data, capture_output=True)
    require(run.stdout == b"decoded " + data, "some bytes did not get through")


def check_failing_program(place):
    """A line on standard error is passed on and gives a status; a signal's status is passed on."""
    place.decoder(COMPLAIN)
    expect("a complaint", place.run("decode", given=b"text\n"),
           (1, "text\n", "decode: a read failed\n"))
    place.decoder(KILLED)
    status, printed, _ = place.run("decode")
    require((status, printed) == (128 + signal.SIGTERM, ""), "a signal: status %d", status)


# ---------------------------------------------------------------------------------------------
# Building
# ---------------------------------------------------------------------------------------------

def check_missing_rt(place):
    """Without rt there is one line, and a program that is up to date needs none."""
    place.rt(None)
    shutil.rmtree(place.root / "target")
    expect_refusal("no rt", place.run("decode"), "missing tool: rt")
    place.decoder(PASS_ON)
    expect("no rt needed", place.run("decode"), (0, "decoded ", ""))


def expect_build(place, what, calls):
    """One decoding after which rt has been called so often; it says so only when it calls it."""
    before = place.rt_words().count("\n")
    status, printed, said = place.run("decode", given=b"text\n")
    require((status, printed) == (0, "decoded text\n"), "%s: %d, %r", what, status, printed)
    require(place.rt_words() == "run\n" * calls, "%s: rt got %r", what, place.rt_words())
    require(said.count("\n") == calls - before and ("minutes" in said) == (calls > before),
            "%s: %r", what, said)


def check_build(place):
    """The first decoding builds, quietly, and so does one after a change, once."""
    place.rt(RT_GOOD)
    shutil.rmtree(place.root / "target")
    expect_build(place, "the first time", 1)
    expect_build(place, "the second time", 1)
    require("noise" in (place.root / "target/tollpebble/decode.log").read_text(), "no log")
    for name in ("crates/one/a file", "crates.txt"):
        place.rt(RT_GOOD)
        shutil.rmtree(place.root / "target")
        place.decoder(PASS_ON)
        os.utime(place.root / name, (NEWER, NEWER))
        expect_build(place, "%s is newer" % name, 1)
        expect_build(place, "%s is newer, again" % name, 1)
        os.utime(place.root / name, (OLD, OLD))


def check_idle_build(place):
    """A proof that finds nothing to do leaves an old program; it is not asked for again."""
    place.rt(RT_IDLE)
    shutil.rmtree(place.root / "target")
    place.decoder(PASS_ON)
    os.utime(place.root / "crates.txt", (NEWER, NEWER))
    expect_build(place, "nothing to do", 1)
    expect_build(place, "nothing to do, again", 1)
    os.utime(place.root / "crates.txt", (OLD, OLD))


def check_failed_build(place):
    """A failed proof, or one that leaves no program, is one more line and no decoding."""
    for what, text, word in (("not proved", RT_FAILING, "not proved or not built"),
                             ("no program", RT_IDLE, "left no")):
        place.rt(text)
        shutil.rmtree(place.root / "target")
        shutil.rmtree(place.built, ignore_errors=True)
        status, printed, said = place.run("decode")
        require(status != 0 and printed == "", "%s: %d, %r", what, status, printed)
        require(said.count("\n") == 2 and word in said and "decode.log" in said,
                "%s: %r", what, said)
    place.decoder(PASS_ON)
    place.rt(RT_FAILING)
    os.utime(place.root / "crates.txt", (NEWER, NEWER))
    require(place.run("decode")[:2] == (1, ""), "an old program was run after a failed proof")


CHECKS = (check_help, check_codes, check_words, check_files, check_input, check_failing_program,
          check_missing_rt, check_build, check_idle_build, check_failed_build)


def all_checks():
    """Run every check, and say what was checked."""
    with tempfile.TemporaryDirectory() as folder:
        place = Place(folder)
        for check in CHECKS:
            check(place)
    return "%d groups of tests" % len(CHECKS)


if __name__ == "__main__":
    sys.exit(checks.run("command", all_checks))
