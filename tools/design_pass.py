#!/usr/bin/env python3
"""Counts the places of each point of docs/DESIGN-PASS.md in crates/*/src, of this tree or of a commit:
    python3 tools/design_pass.py [COMMIT] [--list]
By patterns of text: what they find is then read."""
import re
import subprocess
import sys
from collections import defaultdict

ROOT = subprocess.run(["git", "rev-parse", "--show-toplevel"], capture_output=True, text=True, check=True).stdout.strip()


def files(commit):
    if commit:
        names = subprocess.run(["git", "ls-tree", "-r", "--name-only", commit, "crates"], cwd=ROOT, capture_output=True, text=True, check=True).stdout.split()
    else:
        names = subprocess.run(["git", "ls-files", "crates"], cwd=ROOT, capture_output=True, text=True, check=True).stdout.split()
    for name in names:
        if re.search(r"/src/.*\.rt$|/proofs/.*\.antt$", name):
            if commit:
                yield name, subprocess.run(["git", "show", f"{commit}:{name}"], cwd=ROOT, capture_output=True, text=True, check=True).stdout
            else:
                yield name, open(f"{ROOT}/{name}", encoding="utf-8").read()


FUNCTION = re.compile(r"^( *)(?:pub(?:\(crate\))? )?(?:extern \"C\" )?fn (\w+)(.*?)^\1\}\n", re.M | re.S)
CLAUSE = re.compile(r"(?:requires|ensures)(?: \w+)? \{(.*?)\}\n(?=\s*(?:requires|ensures|\{))", re.S)


def functions(text):
    """Name, head (parameters and contract) and body of each function that has a block of its own lines."""
    for m in FUNCTION.finditer(text):
        head, found, body = m.group(3).partition("\n" + m.group(1) + "{\n")
        if found:
            yield m.group(2), head, body, text.count("\n", 0, m.start()) + 1


def shape(body):
    """The body without names, numbers and comments: two functions of one shape differ in these alone."""
    body = re.sub(r"//.*", "", body)
    body = re.sub(r'b?"[^"]*"', "S", body)
    body = re.sub(r"b'[^']*'", "N", body)
    body = re.sub(r"\b(?!let|mut|while|for|in|if|else|match|return|as|true|false)[A-Za-z_]\w*(?:::\w+)*", "x", body)
    body = re.sub(r"\b\d[\w]*", "N", body)
    return re.sub(r"\s+", " ", body).strip()


def count(commit):
    places = defaultdict(list)
    shapes = defaultdict(list)
    facts = defaultdict(set)
    parameters = defaultdict(set)
    answers = 0
    lines_of_answers = 0
    for name, text in files(commit):
        if name.endswith(".antt"):
            if name.endswith("Answers.antt"):
                answers += len(re.findall(r"^pub [\w+-]+ : goal", text, re.M))
                lines_of_answers += text.count("\n")
            continue
        crate = name.split("/")[1]

        def find(point, pattern, flags=re.M):
            for m in re.finditer(pattern, text, flags):
                places[point].append(f"{name}:{text.count(chr(10), 0, m.start()) + 1}: {m.group(0).strip().splitlines()[0]}")

        # 1: a variant that says no, a flag in a struct, a number that says why or that nothing is wrong
        find("1 enums", r"^    (Refused\(\w+\)|Bad|Missing|Free),$")
        find("1 flags", r"^    (pub )?\w+: bool,$")
        find("1 numbers", r"^ +ensures(?: \w+)? \{ (?:result ≡ (?:first \(|read_number|open_number|withdraw_number|done_number))")
        find("1 numbers", r"-> isize\b")
        find("1 numbers", r"Refused\(\d+\)|Refusal \{ number|return refused\(\d+\)")
        # 3: loops that count by hand
        find("3", r"^ +while .*\{$")
        # 4: lesser, least, flags and bytes as numbers, tests of an enum that name each case, fields copied one by one
        find("4", r"\b(lesser|least|flag_of|wide)\(")
        find("4", r"^ +\w+::\w+(\(_\)| \{ .* \})? => (true|false),$")
        find("4", r"^ +(\w+): \1,$")
        # 6: a buffer and how much of it is meant
        find("6", r"\bpart\(&\w+, 0, [\w.]+\)")
        find("6", r"\bopened: &(mut )?TagSet$|\bopened: &(mut )?TagSet,\s+words", re.M)
        # 7: a letter or a flag that picks the step
        find("7", r"^ +match letter \{$|^ +if (takes|lent|place|named) \{$")
        for fn, head, body, line in functions(text):
            if body.count("\n") >= 2:
                shapes[shape(body)].append(f"{name}:{line}: {fn}")
            for m in re.finditer(r"requires(?: \w+)? \{ ([^{}]*) \}", head):
                facts[(crate, m.group(1).strip())].add(fn)
            names = tuple(re.findall(r"(\w+): ", head.partition(")")[0]))
            for i in range(len(names) - 2):
                parameters[(crate, names[i:i + 3])].add(fn)
    for group in shapes.values():
        if len(group) > 1:
            places["2"].extend(group)
    for (crate, fact), users in sorted(facts.items()):
        if len(users) >= 3:
            places["5 facts"].append(f"{crate}: {fact} ({len(users)})")
    for (crate, names), users in sorted(parameters.items()):
        if len(users) >= 3:
            places["5 parameters"].append(f"{crate}: {', '.join(names)} ({len(users)})")
    return places, answers, lines_of_answers


def main():
    words = [w for w in sys.argv[1:] if not w.startswith("--")]
    places, answers, lines = count(words[0] if words else None)
    for point in sorted(places):
        print(f"{point}: {len(places[point])}")
        if "--list" in sys.argv:
            for place in places[point]:
                print("   ", place)
    print(f"8 answers: {answers} goals, {lines} lines")


if __name__ == "__main__":
    main()
