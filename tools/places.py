#!/usr/bin/env python3
"""Counts, by text, the places in crates/*/src where an older form of Rattle may stand.

    python3 tools/places.py [--list] [COMMIT]

Without a commit it reads the files as they lie here. It goes by patterns and by counting parentheses, so what it
finds still has to be read: docs/DESIGN-PASS.md says what became of each place.
"""
import re
import subprocess
import sys

PATTERNS = [
    ("1 own enums, each read for the shape of Option or Result", r"^\s*(pub(\(crate\))? )?enum \w"),
    ("1 a flag in a result", r"-> .*\bbool\)|\(\w+, bool\)"),
    ("1 a flag as a parameter or a field", r"^\s*(pub )?\w+: bool,|[(,] ?\w+: bool[,)]"),
    ("1 a pair of numbers without names", r"\(usize, usize\)[,>)]|^\s+Solved\(usize, usize\)"),
    ("1 a number that means nothing", r"^pub fn \w+(<.*>)?\(\) -> u8$"),
    ("1 numbers for kinds and refusals", r"^\s*\d+ => |=> \d+,$|\b(call|kind\w*|\.number\(\)) ?[!=]= \d|number\(\) -> u32|!= kind\.number\(\)|^const [A-Z]+: u8 = \d"),
    ("1 0 for an unbound term", r"\.0 == 0\b|\bx == 0\b|\bt != 0\b|number != 0|\bobject == 0\b"),
    ("3 loops over a range of numbers", r"^\s*for \w+ in .*\.\."),
    ("3 while loops", r"^\s*while "),
    ("3 loops that stop at the first, by hand", r"^ {8,}return (true|false);$|^ {12,}return (true|false|Some\(\w+\)|\w+);$"),
    ("4 orders and equality written by hand", r"^impl.* (TotalOrder|PartialEq|Eq|Ord|PartialOrd|Clone|Copy) for "),
    ("4 matches on an Ordering", r"^\s*(\} else )?(if let|match|_ =>|unequal =>|Ordering::\w+ (\| Ordering::\w+ )?=>).*(Ordering::\w+|\.order\()"),
    ("4 printing a refusal by its number", r"\.number\(\)"),
    ("4 functions that print a value", r"^(pub(\(crate\))? )?fn (print|write)_\w+"),
    ("6 an array with its length beside it", r"^\s*(len|count): usize,$"),
    ("6 searches by halving", r"low \+ \(high - low\) / 2"),
    ("6 rows by number of an area", r"\brow_at\("),
    ("7 matches on a strategy", r"^\s*(Strategy|Way)::\w+ => "),
]


def sources(commit):
    if commit:
        names = subprocess.run(["git", "ls-tree", "-r", "--name-only", commit, "crates"], capture_output=True, text=True, check=True).stdout.split()
    else:
        names = subprocess.run(["git", "ls-files", "crates"], capture_output=True, text=True, check=True).stdout.split()
    for name in names:
        if re.fullmatch(r"crates/\w+/src/.*\.rt", name):
            if commit:
                yield name, subprocess.run(["git", "show", f"{commit}:{name}"], capture_output=True, text=True, check=True).stdout
            else:
                yield name, open(name).read()


def parameters(text):
    """(line, function, number of parameters) of each fn."""
    for m in re.finditer(r"\bfn (\w+)(<[^(]*>)?\(", text):
        depth, count, filled, at = 1, 0, False, m.end()
        while depth:
            c = text[at]
            if c in "([{<":
                depth += 1
            elif c in ")]}" or (c == ">" and text[at - 1] != "-"):
                depth -= 1
            elif c == "," and depth == 1:
                count, filled = count + 1, False
            if not c.isspace() and c != "," and depth:
                filled = True
            at += 1
        yield text.count("\n", 0, m.start()) + 1, m.group(1), count + filled


def main():
    listing = "--list" in sys.argv
    commits = [a for a in sys.argv[1:] if a != "--list"]
    files = list(sources(commits[0] if commits else None))
    for title, pattern in PATTERNS:
        found = [(n, i, line.strip()) for n, text in files for i, line in enumerate(text.split("\n"), 1) if re.search(pattern, line)]
        print(f"{len(found):4} {title}")
        if listing:
            for name, i, line in found:
                print(f"       {name}:{i}: {line}")
    many = [(n, i, f, k) for n, text in files for i, f, k in parameters(text) if k > 5]
    print(f"{len(many):4} 5 functions of more than five parameters")
    if listing:
        for name, i, f, k in many:
            print(f"       {name}:{i}: {f}, {k}")
    kept = [(n, i, line.strip()) for n, text in files for i, line in enumerate(text.split("\n"), 1) if "// Kept: " in line]
    print(f"{len(kept):4} lines that say why a place is kept")
    if listing:
        for name, i, line in kept:
            print(f"       {name}:{i}: {line}")


main()
