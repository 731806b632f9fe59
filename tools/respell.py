#!/usr/bin/env python3
"""Respells this repository's own hyphenated words of contracts, definitions and lemmas: words in snake case, types in camel case.

usage: python3 tools/respell.py [--list]      at the top of the repository, after the kit's port.py; run once.

A word is the repository's own where a file of specs/ or a lemma file of proofs/ declares it (a signature, a field, a constructor, a parameter), or where a
ghost item of src/ does. Names that the check makes for a function's goals, and names of the library, keep their spelling: in a function's own
proof folder a word stays where it follows a dot or heads an answer. Comments and strings keep theirs, but for words between backticks.
"""
import collections
import os
import re
import sys

EDGE = r"\s(){}.,;:\[\]|&@\"`"
WORD = re.compile(f"[^{EDGE}]+")
IMPORT = re.compile(r"^\s*(?:ghost |pub )*use\s+(?:Rattle\.(?:std|core)|mathlib|native|Prim|lib|denote)\b[^{]*\{([^}]*)\}", re.M)


# declared here and in the library: told apart by what a file imports
SHARED = {"and-false", "and-true", "length-insert", "or-false"}
# names of parameters that comments write bare
BARE = {"full-then", "log-then", "m-then", "n-then", "v-then", "w-then"}


def files(root="crates"):
    for folder, dirs, names in os.walk(root):
        dirs[:] = sorted(d for d in dirs if d != "out")
        for name in sorted(names):
            if name.endswith((".rt", ".antt")):
                yield os.path.join(folder, name)


def kind(path):
    parts = path.split(os.sep)
    if parts[2] == "src":
        return "src"
    if parts[2] == "specs" or len(parts) == 4:
        return "lemmas"
    return "answers"


def hyphenated(word):
    return "-" in word.strip("-") and re.match(r"[A-Za-z]", word) and "+" not in word


def code(line, path):
    """The line without its comment, and the comment."""
    at = re.search(r"//" if path.endswith(".rt") else r"(^|(?<=\s))--(?=\s|$)", line)
    return (line, "") if not at else (line[: at.start()], line[at.start():])


def declared(text, path):
    found = set()
    for line in text.splitlines():
        line, _ = code(line, path)
        if kind(path) == "src":
            for m in re.finditer(r"\bghost\s+(?:fn\s+)?([^\s:={}]+)\s*[:=]", line):
                found.add(m.group(1))
            continue
        for m in re.finditer(r"((?:[^\s(){}.,;:=]+\s+)*[^\s(){}.,;:=]+)\s*:\s", line):
            found.update(m.group(1).split())
        m = re.match(r"\s*(?:pub )?(?:data|record)\s+(\S+)", line)
        if m:
            found.add(m.group(1))
        for m in re.finditer(r"\blet\s+([^\s:=(){}]+)\s*[:=]", line):
            found.add(m.group(1))
        for m in re.finditer(r"λ\s+([^.]*)\.", line):
            found.update(WORD.findall(m.group(1)))
        for m in re.finditer(r"\bas\s+([^\s(){},;]+)", line):
            found.add(m.group(1))
        m = re.match(r"\s*([^=]*)\s=\s", line)
        if m:
            # the parameters of a clause
            found.update(WORD.findall(m.group(1)))
    return {w for w in found if hyphenated(w)}


def new_spelling(word):
    if word in APART:
        return APART[word]
    if word[0].isupper() and word.split("-")[0] not in TYPES_BEFORE:
        return "".join(p[:1].upper() + p[1:] for p in word.split("-"))
    return word.replace("-", "_")


# in camel case these would fall together with the variants of Strategy
APART = {"Bottom-up": "BottomUpWork", "Top-down": "TopDownWork"}
# the first part of a name that the library or the check made
TYPES_BEFORE = {"All", "IfOk", "Made"}


def imported(text):
    """The words that a file has from the library."""
    return {w for m in IMPORT.finditer(text) for w in WORD.findall(m.group(1))}


def turn_words(text, own):
    return WORD.sub(lambda m: own.get(m.group(0), m.group(0)), text)


def turn(text, path, own):
    out = []
    own = {w: n for w, n in own.items() if w not in imported(text)}
    for line in text.splitlines(keepends=True):
        body, note = code(line, path)
        if kind(path) == "answers":
            parts = []
            last = 0
            for m in WORD.finditer(body):
                parts.append(body[last: m.start()])
                word = m.group(0)
                after_dot = m.start() > 0 and body[m.start() - 1] == "."
                heads = m.start() == 0 or bool(re.fullmatch(r"(abbrev |pub )*", body[: m.start()]))
                parts.append(word if after_dot or heads else own.get(word, word))
                last = m.end()
            body = "".join(parts) + body[last:]
        elif path.endswith(".rt"):
            body = "".join(s if s.startswith('"') else turn_words(s, own) for s in re.split(r'("(?:\\.|[^"\\])*")', body))
        else:
            body = turn_words(body, own)
        note = re.sub(r"`([^`]*)`", lambda m: "`" + turn_words(m.group(1), own) + "`", note)
        note = turn_words(note, {w: n for w, n in own.items() if w in BARE})
        out.append(body + note)
    return "".join(out)


def main():
    texts = {p: open(p, encoding="utf-8").read() for p in files()}
    own = set()
    for p, t in texts.items():
        if kind(p) != "answers":
            own |= declared(t, p)
    own -= set().union(*(imported(t) for t in texts.values())) - SHARED
    spelling = {w: new_spelling(w) for w in own}
    if "--list" in sys.argv:
        for w in sorted(spelling):
            print(w, spelling[w])
        return
    for p, t in texts.items():
        new = turn(t, p, spelling)
        if new != t:
            with open(p, "w", encoding="utf-8") as f:
                f.write(new)


main()
