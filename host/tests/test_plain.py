"""Holds the plain C decoder (host/second/decode_plain.c) to the second one on the stored captures.

It is what the proved decoder is measured against, so it must do the same work.  It is built three
times: with small blocks, so that lines are cut at many places, and as it is measured.  Prints one
summary line, or one line with the first failure and exits with 1.
"""

import os
import shutil
import subprocess
import sys
import tempfile
from pathlib import Path

sys.dont_write_bytecode = True   # the imports below leave no compiled files behind

ROOT = Path(__file__).resolve().parent.parent.parent
sys.path.insert(0, str(ROOT / "host" / "second"))

import checks
import make_captures
from checks import require

SOURCE = ROOT / "host" / "second" / "decode_plain.c"
FLAGS = ("-O2", "-Wall", "-Wextra", "-Werror")
BLOCKS = (1, 61, None)           # None: the size that the source has


def build(folder, block):
    """The program with this size of block."""
    program = os.path.join(folder, "decode_plain")
    own = [] if block is None else ["-DBLOCK_SIZE=%d" % block]
    made = subprocess.run(["cc", *FLAGS, *own, "-o", program, str(SOURCE)], capture_output=True)
    require(made.returncode == 0 and not made.stderr, "it does not build: %s", made.stderr.decode())
    return program


def store(folder, decoded):
    """One file for each capture."""
    for number, data in enumerate(decoded):
        with open(os.path.join(folder, "%d.cap" % number), "wb") as file:
            file.write(data)


# One shell runs the program on all files: that is quicker than to start each run from here.
RUN_ALL = """
n=0
while [ $n -lt $2 ]; do
  "$1" <$n.cap || echo "status $?"
  echo --
  n=$((n + 1))
done
"""


def check_captures(program, folder, decoded, block):
    """Every capture gives what the second decoder says, and nothing on standard error."""
    run = subprocess.run(["sh", "-c", RUN_ALL, "sh", program, str(len(decoded))], cwd=folder,
                         capture_output=True)
    require(not run.stderr, "standard error: %s", run.stderr)
    outputs = run.stdout.split(b"--\n")
    for number, (output, seen) in enumerate(zip([*decoded.values(), b""], outputs, strict=True)):
        require(seen == output, "capture %d, blocks of %s: another output", number, block)


def check_failures(program):
    """A failed read and a failed write are one line on standard error and status 1."""
    folder = os.open("/", os.O_RDONLY)
    with open("/dev/full", "wb") as full:
        runs = (subprocess.run([program], stdin=folder, stdout=subprocess.DEVNULL,
                               stderr=subprocess.PIPE),
                subprocess.run([program], input=make_captures.HEADER, stdout=full,
                               stderr=subprocess.PIPE))
    os.close(folder)
    for what, run in zip(("read", "write"), runs):
        require(run.returncode == 1, "a failed %s: status %d", what, run.returncode)
        require(run.stderr.count(b"\n") == 1, "a failed %s: %s", what, run.stderr)


def check(decoded):
    """Every build on the captures."""
    with tempfile.TemporaryDirectory() as folder:
        store(folder, decoded)
        for block in BLOCKS:
            program = build(folder, block)
            check_captures(program, folder, decoded, block)
        check_failures(program)


def all_checks():
    """Run every check, and say what was checked."""
    require(shutil.which("cc"), "missing tool: cc (a C compiler)")
    decoded = make_captures.make().decoded
    check(decoded)
    return "%d captures, each with %d sizes of block" % (len(decoded), len(BLOCKS))


if __name__ == "__main__":
    sys.exit(checks.run("plain decoder", all_checks))
