#!/usr/bin/env python3
"""Writes the stream of worked examples that the program is run on at each check.

Usage: examples.py > crates/stream/stdin; reference.py < crates/stream/stdin > crates/stream/stdout
"""
WEIGHT, UNIT, GRAMS = 1, 5, 9
# Reels 17 and 21 have weight readings, of which the first is in grams per square metre.
READINGS = [(2, UNIT, GRAMS), (17, WEIGHT, 2), (21, WEIGHT, 6)]
NO_VALUES = []


def v(n): return (0, n)
def t(n): return (1, n)
def triple(s, p, o): return [0, *s, *p, *o]
def values(first, count): return [1, first, count]
INITIAL = [2]
def both_of(l, r): return [3, l, r]
def either_of(l, r): return [4, l, r]
def optional(l, r): return [5, l, r]
def minus(l, r): return [6, l, r]
def select(p, *variables): return [7, p, sum(1 << n for n in variables)]
def where(p, c): return [8, p, c]
def equal(a, b): return [9, *a, *b]
def blank(a): return [10, *a]
def bound(n): return [11, n]
def negated(c): return [12, c]
def both(c, d): return [13, c, d]
def either(c, d): return [14, c, d]
def exists(p): return [15, p]


def row(**places):
    numbers = [0] * 16
    for name, term in places.items():
        numbers[int(name[1:])] = term
    return numbers


EMPTY = row()


def question(entries, rows, reading=3, start=EMPTY, value_rows=NO_VALUES):
    return [len(entries), *(n for e in entries for n in e), len(value_rows), *(n for r in value_rows for n in r), *start, reading, rows]


def listed(*triples): return [0, len(triples), *(n for u in triples for n in u)]
def stored(places, *calls): return [1, places, len(calls), *(n for c in calls for n in c)]
def overlay(beneath, *calls): return [2, *beneath, len(calls), *(n for c in calls for n in c)]
def union(left, right): return [3, *left, *right]
def add(*u): return [1, *u]
def remove(*u): return [2, *u]


def numbered(n): return (17, WEIGHT, 4 * n + 1)


WEIGHTS = triple(v(0), t(WEIGHT), v(1))
UNITS = triple(v(1), t(UNIT), v(2))
IN_GRAMS = triple(v(1), t(UNIT), t(GRAMS))
# The reels with a weight that is not in grams per square metre.
NOT_IN_GRAMS = [WEIGHTS, INITIAL, IN_GRAMS, both_of(1, 2), exists(3), negated(4), where(0, 5)]
NARROW = [triple(t(17), t(WEIGHT), v(1)), WEIGHTS, both_of(0, 1)]


def wide(unions):
    """So many unions of INITIAL with itself, cut down to one variable."""
    entries = [INITIAL]
    for _ in range(unions):
        entries += [INITIAL, either_of(len(entries) - 1, len(entries))]
    return entries + [select(len(entries) - 1, 3)]


RULES = [
    question(NOT_IN_GRAMS, 14),
    question(NOT_IN_GRAMS, 13),
    question(NOT_IN_GRAMS, 7),
    question(NOT_IN_GRAMS, 6),
    question(NARROW, 3),
    question(NARROW, 6),
    question([WEIGHTS, UNITS, optional(0, 1)], 6),
    question([WEIGHTS, triple(v(2), t(UNIT), t(GRAMS)), minus(0, 1)], 6),
    question([WEIGHTS, equal(v(5), t(GRAMS)), negated(1), where(0, 2)], 8),
    question([values(0, 0)], 1),
    question([values(0, 1)], 1, value_rows=[EMPTY]),
    question([INITIAL, WEIGHTS, both_of(0, 1)], 6, start=row(v1=6)),
    question([WEIGHTS, both_of(0, 0)], 4),
    question([triple(v(15), t(WEIGHT), v(1))], 2),
    question([triple(v(16), t(WEIGHT), v(1))], 2),
    question([WEIGHTS], 2, reading=3),
    question([WEIGHTS], 2, reading=2),
]

# What else tells the sizes of working sets: the right side of an optional join is cut by the left row alone, a projection hands on less
# of the outer row, and the pattern of an EXISTS is not cut.
SIZES = [
    question([triple(t(17), t(WEIGHT), v(1)), WEIGHTS, UNITS, optional(1, 2), both_of(0, 3)], 10),
    question([values(0, 1), WEIGHTS, UNITS, optional(1, 2), both_of(0, 3)], 10, value_rows=[row(v2=13)]),
    question([triple(t(17), t(WEIGHT), v(1)), WEIGHTS, select(1, 0), both_of(0, 2)], 8),
    question([triple(t(17), t(WEIGHT), v(1)), WEIGHTS, exists(1), where(0, 2)], 8),
]

# Each check comes before the next.
CHECKS = [
    question([], 4),
    question(wide(31), 64, start=row(v3=7, v4=11)),
    question(wide(31) + [select(63, 3)], 65),
    question([both_of(0, 1)], 4),
    question([bound(1), negated(0)], 4),
    question([equal(v(1), t(2)), INITIAL, where(1, 0)], 4),
    question([triple(t(3), t(WEIGHT), v(1))], 4),
    question([values(1, 1)], 4, value_rows=[EMPTY]),
    question([values(0, 1)], 4, value_rows=[row(v3=2)]),
    question([INITIAL], 4, start=row(v3=4)),
    question([INITIAL], 4, start=row(v3=2)),
    question([INITIAL, blank(v(3)), bound(4), either(1, 2), bound(3), both(3, 4), where(0, 5)], 7, start=row(v3=2)),
]

ASKED = question([WEIGHTS, UNITS, optional(0, 1), select(2, 0, 2)], 16, reading=6)
CASES = [
    (0, listed(READINGS[2], (4, 4, 4), READINGS[0], READINGS[1], READINGS[2]), [(0, 0, 0), (17, 1, 2), (21, 1, 6)],
     RULES + SIZES + CHECKS),
    (1, stored(3, add(21, 1, 6), add(2, 5, 9), add(2, 6, 9), add(17, 1, 2), add(25, 1, 6), add(2, 5, 9), remove(25, 1, 6),
               remove(2, 5, 9), add(25, 1, 6)), [(17, 1, 1)], [ASKED]),
    (2, overlay(listed(numbered(3)), *(add(*numbered(n)) for n in range(10, 43)), remove(*numbered(20)), add(*numbered(42)),
                add(*numbered(20)), remove(*numbered(3))), [numbered(10)], []),
    (3, overlay(stored(2, add(2, 5, 9), add(17, 1, 2)), remove(2, 5, 9), add(21, 1, 6), add(2, 5, 9)), [(2, 5, 8)], [ASKED]),
    (4, union(listed((17, 1, 2)), stored(2, add(2, 5, 9), add(17, 1, 2), add(21, 1, 6))), [(2, 5, 9)], [ASKED]),
    (5, overlay(union(listed((17, 1, 2), (21, 1, 6)), listed((2, 5, 9), (17, 1, 2))), remove(17, 1, 2), add(6, 5, 9)),
     [(4294967295, 4294967295, 4294967295)], [ASKED]),
    (6, overlay(overlay(listed(*READINGS), remove(21, 1, 6), add(25, 1, 2)), add(21, 1, 6), remove(25, 1, 2), remove(3, 1, 2)),
     [(17, 1, 2)], [ASKED]),
    (7, union(overlay(stored(2, add(17, 1, 2), add(21, 1, 6)), remove(21, 1, 6), add(25, 1, 6)), listed((6, 5, 13), (2, 5, 9))),
     [(6, 5, 13)], [ASKED]),
]


def main():
    print(len(CASES))
    for shape, graph, probes, questions in CASES:
        print(shape, *graph)
        print(len(probes), *(n for u in probes for n in u))
        print(len(questions))
        for q in questions:
            print(*q)


if __name__ == '__main__':
    main()
