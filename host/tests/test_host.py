"""Holds what a C host gets to its source and to the second implementation.

The library, the example and the tests are built by host/build. Held are: the header's declarations to
the exported functions of the library's source; the header's layout, kinds, routes and sentences to
the second implementation and to numbers.txt; the example to what it must print; library and plain C
reader and writer to the stored vectors; the plain one to the second implementation on calls at
random, and the library to the plain one on more of them.  Prints one summary line, or one line with
the first failure and exits with 1.
"""

import re
import shutil
import subprocess
import sys
import tempfile
from pathlib import Path

sys.dont_write_bytecode = True   # the imports below leave no compiled files behind

ROOT = Path(__file__).resolve().parent.parent.parent
sys.path.insert(0, str(ROOT / "host" / "second"))

import checks
import make_vectors
import test_second
import tlp
from checks import require

HEADER = ROOT / "host" / "include" / "tollpebble.h"
SOURCE = ROOT / "crates" / "tlp_static" / "src" / "lib.rt"
BUILT = ROOT / "target" / "host"
STORED = ROOT / "crates" / "tlp_vectors"
WARNINGS = ("-Wall", "-Wextra", "-Wpedantic", "-Wconversion", "-Wshadow", "-Werror")

CALLS_AT_RANDOM = 20_000    # of the plain reader and writer, against the second implementation
SEED = 3
COMPARED = 1_000_000        # readings, and as many writings, of the library against the plain ones


def run(*words, **more):
    """What a command prints; it must end with status 0 and say nothing on standard error."""
    ran = subprocess.run([str(word) for word in words], capture_output=True, text=True, **more)
    said = (ran.stdout[-2000:] + ran.stderr)[:4000]
    require(ran.returncode == 0 and not ran.stderr, "%s: status %d: %s", words[0], ran.returncode, said)
    return ran.stdout


# ---------------------------------------------------------------------------------------------
# The header
# ---------------------------------------------------------------------------------------------

# How Rattle passes a parameter to C: a slice is a pointer and then a length.
PASSED = {
    "u32": "uint32_t {0}",
    "&[u8]": "const uint8_t *{0}, size_t {0}_length",
    "&mut [u8]": "uint8_t *{0}, size_t {0}_length",
    "&mut u64": "uint64_t *{0}",
}


def exported():
    """The declarations that the exported functions of the source call for."""
    found = re.findall(r'#\[unsafe\(no_mangle\)\]\s*pub extern "C" fn (\w+)\(([^)]*)\) -> (\w+)', SOURCE.read_text())
    for name, parameters, result in found:
        require(result == "u32", "%s returns %s", name, result)
        passed = []
        for parameter in filter(None, (text.strip() for text in parameters.split(","))):
            own, kind = parameter.split(": ")
            require(kind in PASSED, "%s has a parameter %s", name, parameter)
            passed.append(PASSED[kind].format(own))
        yield "uint32_t %s(%s);" % (name, ", ".join(passed))


def declared():
    """The declarations of the header, each as one line."""
    text = re.sub(r"/\*.*?\*/", "", HEADER.read_text(), flags=re.S)
    return [" ".join(found.split()) for found in re.findall(r"^uint\w+ tollpebble_\w+\([^)]*\);", text, flags=re.M)]


def check_declarations():
    """The header declares what the library exports, parameter by parameter."""
    expected = list(exported())
    require(len(expected) == 2, "the source exports %d functions", len(expected))
    require(declared() == expected, "the header declares %s, the source exports %s", declared(), expected)


# A value with another byte at each place.
SAMPLE = 0x0102030405060708

KIND_NAMES = {form.kind: form.name for form in tlp.KIND_TABLE}
ROUTES = ("BY_ADDRESS", "BY_ID", "TO_ROOT", "BROADCAST", "LOCAL", "GATHERED")


def listed_numbers():
    """Every number with its name and its sentence."""
    return [line.split(" ", 2) for line in (ROOT / "numbers.txt").read_text().splitlines()
            if line and not line.startswith("#")]


def printing_program():
    """A C program that prints what the header has, and the lines that it must print."""
    rows, lines = [], []
    for name, (start, size) in tlp.RECORD.items():
        if name == "unused":
            continue
        value = SAMPLE & (1 << 8 * size) - 1
        record = bytes(start) + value.to_bytes(size, "big") + bytes(tlp.RECORD_SIZE - start - size)
        rows.append('show("%s", TOLLPEBBLE_AT_%s, fresh(), tollpebble_set_%s(record, (uint%d_t)%#xu), '
                    'tollpebble_get_%s(record));' % (name, name.upper(), name, 8 * size, value, name))
        lines.append("%s %d %s %d" % (name, start, record.hex(), value))
    constants = [("RECORD_SIZE", tlp.RECORD_SIZE), ("ACCEPTED", 0)]
    constants += [(name.upper(), kind) for kind, name in KIND_NAMES.items()]
    constants += [(name, getattr(tlp, name)) for name in ROUTES]
    constants += [(name, int(number)) for number, name, _ in listed_numbers()]
    for name, value in constants:
        rows.append('printf("%s %%d\\n", TOLLPEBBLE_%s);' % (name, name))
        lines.append("%s %d" % (name, value))
    for number, _, sentence in listed_numbers():
        rows.append('printf("%%s\\n", tollpebble_sentence(%s));' % number)
        lines.append(sentence)
    for kind in range(256):
        rows.append('printf("%%s\\n", tollpebble_kind_name(%d));' % kind)
        lines.append(KIND_NAMES.get(kind, "?"))
    return PROGRAM % "\n    ".join(rows), "\n".join(lines) + "\n"


PROGRAM = """#include <stdio.h>
#include <string.h>
#include "tollpebble.h"

static uint8_t record[TOLLPEBBLE_RECORD_SIZE];

static void fresh(void)
{
    memset(record, 0, sizeof record);
}

static void print(const char *name, int at, unsigned long long value)
{
    printf("%%s %%d ", name, at);
    for (size_t i = 0; i < sizeof record; i++)
        printf("%%02x", record[i]);
    printf(" %%llu\\n", value);
}

#define show(name, at, clear, set, get) do { clear; set; print(name, at, get); } while (0)

int main(void)
{
    %s
    return 0;
}
"""

LANGUAGES = (("cc", "-std=c99", "c"), ("cc", "-std=c11", "c"), ("c++", "-std=c++11", "c++"), ("c++", "-std=c++17", "c++"))


def check_header():
    """The header's constants, getters, setters and sentences, as C and as C++."""
    text, expected = printing_program()
    with tempfile.TemporaryDirectory() as folder:
        source, program = Path(folder) / "header.c", Path(folder) / "header"
        source.write_text(text)
        for compiler, standard, language in LANGUAGES:
            run(compiler, "-x", language, standard, *WARNINGS, "-I", HEADER.parent, "-o", program, source)
            require(run(program) == expected, "%s, %s: the header has other values", compiler, standard)


# ---------------------------------------------------------------------------------------------
# The example
# ---------------------------------------------------------------------------------------------

EXAMPLE = """read: 0, No fault.
kind                CplD
traffic class       0
attributes          0
poisoned            0
requester ID        0100
completer ID        0200
tag                 5
status              0
byte count          8
lower address       16
length in DW        2
payload             deadbeef00010203
write: 0, No fault.
packet              4a0000020200000801000510deadbeef00010203
as it was read      yes
read of a part: 3, %s
record afterwards   ee .. ee
"""


def check_example():
    """The example prints its packet's fields, as the layout in document 01 has them."""
    sentence = next(sentence for number, _, sentence in listed_numbers() if number == "3")
    require(run(BUILT / "example") == EXAMPLE % sentence, "the example prints something else")


# ---------------------------------------------------------------------------------------------
# Calls
# ---------------------------------------------------------------------------------------------

def check_stored():
    """Both implementations in C answer the stored vectors as the second one does."""
    calls, answers = (STORED / "stdin").read_text(), (STORED / "stdout").read_text()
    for by in ("library", "plain"):
        require(run(BUILT / "vectors", by, input=calls) == answers, "%s: other answers to the stored vectors", by)


def answer(call):
    """The second implementation's answer to a call, in the vectors' form."""
    name, settings, room, record, data = test_second.call_of(call)
    settings = dict(zip(make_vectors.SETTINGS, settings))
    vectors = make_vectors.Vectors()
    if name == "r":
        vectors.read(data, **settings)
    else:
        vectors.write(record, data, room, **settings)
    return vectors.results[-1]


def check_at_random():
    """The plain reader and writer agree with the second implementation on calls at random."""
    calls = run(BUILT / "differential", "--calls", CALLS_AT_RANDOM, SEED)
    answers = run(BUILT / "vectors", "plain", input=calls).splitlines()
    require(answers.pop() == "lines=%d" % CALLS_AT_RANDOM, "calls at random: not all were answered")
    for call, seen in zip(calls.splitlines(), answers, strict=True):
        require(seen == answer(call), "%s: the plain one answers %s, the second %s", call, seen, answer(call))


def check_differential():
    """The library agrees with the plain reader and writer; says what was compared."""
    return run(BUILT / "differential", COMPARED).splitlines()[-1].removeprefix("differential: ")


def all_checks():
    """Run every check, and say what was checked."""
    for tool, what in (("rt", "the Rattle kit"), ("cc", "a C compiler"), ("c++", "a C++ compiler")):
        require(shutil.which(tool), "missing tool: %s (%s)", tool, what)
    check_declarations()
    check_header()
    run(ROOT / "host" / "build")
    check_example()
    check_stored()
    check_at_random()
    compared = check_differential()
    return "header in %d standards, example, stored vectors, %d calls at random by the second one; %s" % (
        len(LANGUAGES), CALLS_AT_RANDOM, compared)


if __name__ == "__main__":
    sys.exit(checks.run("C host", all_checks))
