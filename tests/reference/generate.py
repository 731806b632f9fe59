#!/usr/bin/env python3
"""Makes streams of cases by chance, the same ones for the same seed.

Each case has a seed of its own, so that one of them can be made again alone. Terms are few, so that joins match. Memory is often
exactly as large as a question needs, or one place less; what it needs is asked of the reference. Some queries are broken on purpose.

Usage: generate.py SEED CASES [FIRST]     writes the cases FIRST to FIRST + CASES - 1 of the seed (FIRST is 0 unless given)
"""
import random
import sys

import reference

LIST, STORED, OVERLAY, UNION = range(4)
SHAPES = [
    (LIST,),
    (STORED,),
    (OVERLAY, (LIST,)),
    (OVERLAY, (STORED,)),
    (UNION, (LIST,), (STORED,)),
    (OVERLAY, (UNION, (LIST,), (LIST,))),
    (OVERLAY, (OVERLAY, (LIST,))),
    (UNION, (OVERLAY, (STORED,)), (LIST,)),
]
TRIPLE, VALUES, INITIAL, AND, UNION_OF, OPT, MINUS, SELECT, FILTER, EQUAL, BLANK, BOUND, NOT, BOTH, EITHER, EXISTS = range(16)
LARGEST = 2 ** 32 - 1
EXTREMES = [LARGEST, LARGEST - 1, LARGEST - 2, LARGEST - 3, 2 ** 31, 2 ** 31 + 1]
NO_TERMS = [0, 4, 8, LARGEST - 3]


class TooMuch(Exception):
    """A question that would take the reference too long."""


class Bounded(reference.Query):
    def sol(self, n, r):
        found = super().sol(n, r)
        if len(found) > 200:
            raise TooMuch
        return found


class Sizes(list):
    def append(self, size):
        super().append(size)
        if len(self) > 4000:
            raise TooMuch


class Maker:
    def __init__(self, seed):
        self.chance = random.Random(seed)
        c = self.chance
        few = c.random() < 0.5
        self.identifiers = c.sample([1, 5, 9, 13, 17, 21, 25], 2 if few else 4)
        self.blanks = c.sample([2, 6, 10, 14], 1 if few else 2)
        self.literals = c.sample([3, 7, 11, 15], 1 if few else 2)
        if c.random() < 0.1:
            self.identifiers.append(LARGEST - 2)
            self.blanks.append(LARGEST - 1)
            self.literals.append(LARGEST)
        self.variables = c.sample(range(16), 2 if few else 4)

    def one_in(self, n): return self.chance.randrange(n) == 0

    # Triples and graphs

    def triple(self):
        c = self.chance
        if self.one_in(12):
            return tuple(c.choice(self.identifiers + self.blanks + self.literals + NO_TERMS) for _ in range(3))
        return (c.choice(self.identifiers + self.blanks), c.choice(self.identifiers),
                c.choice(self.identifiers + self.blanks + self.literals))

    def triples(self):
        return [self.triple() for _ in range(self.chance.choice([0, 1, 2, 4, 6, 8, 10, 12, 15]))]

    def calls(self, made, numbers, crowded):
        """Calls on a graph, written to numbers and carried out."""
        c = self.chance
        if crowded:
            spread = [(c.choice(self.identifiers), c.choice(self.identifiers), 4 * n + 1) for n in range(c.choice([33, 36]))]
            calls = [(c.choice([1, 1, 1, 2]), t) for t in spread] + [(c.choice([1, 2]), c.choice(spread)) for _ in range(8)]
        else:
            calls = [(c.choice([1, 1, 1, 2]), self.triple()) for _ in range(c.choice([0, 1, 4, 8, 12, 15]))]
            if calls:
                calls += [c.choice(calls) for _ in range(c.randrange(3))]
        numbers.append(len(calls))
        for kind, t in calls:
            made.call(kind, t)
            numbers += [kind, *t]

    def graph(self, shape, numbers):
        numbers.append(shape[0])
        if shape[0] == LIST:
            entries = self.triples()
            numbers += [len(entries), *(n for t in entries for n in t)]
            return reference.Listed(entries)
        if shape[0] == UNION:
            left = self.graph(shape[1], numbers)
            return reference.Union(left, self.graph(shape[2], numbers))
        if shape[0] == STORED:
            places = self.chance.choice([0, 1, 3, 8, 12, 16, 16])
            numbers.append(places)
            made = reference.Stored(places)
        else:
            made = reference.Overlay(self.graph(shape[1], numbers))
        self.calls(made, numbers, self.one_in(12))
        return made

    def probe(self, triples):
        c = self.chance
        kind = c.randrange(4)
        if kind == 0 and triples:
            s, p, o = c.choice(triples)
            return c.choice([(s, p, o), (s, p, max(o - 1, 0)), (s, p, min(o + 1, LARGEST)), (s, 0, 0), (s, LARGEST, LARGEST)])
        if kind == 1:
            return tuple(c.choice(EXTREMES + [0]) for _ in range(3))
        if kind == 2:
            return (0, 0, 0)
        return tuple(c.choice(self.identifiers + self.blanks + self.literals + NO_TERMS) for _ in range(3))

    # Queries: a tree of [kind, words, children], turned into a table in any order that has children first

    def variable(self): return (0, self.chance.choice(self.variables))

    def position(self, terms, often=2):
        return (1, self.chance.choice(terms)) if self.one_in(often) else self.variable()

    def pattern(self, size, values):
        c = self.chance
        if size == 1:
            kind = c.choice([TRIPLE, TRIPLE, TRIPLE, TRIPLE, VALUES, INITIAL, INITIAL])
            if kind == TRIPLE:
                words = [self.position(self.identifiers, 5), self.position(self.identifiers, 2),
                         self.position(self.identifiers + self.literals, 4)]
            elif kind == VALUES:
                first = c.randrange(len(values) + 1)
                words = [first, c.randrange(len(values) - first + 1)]
            else:
                words = []
            return [kind, words, []]
        if size == 2 or self.one_in(8):
            mask = sum(1 << v for v in self.variables if self.one_in(2)) if not self.one_in(8) else c.randrange(2 ** 16)
            return [SELECT, [mask], [self.pattern(size - 1, values)]]
        left = c.randint(1, size - 2)
        if self.one_in(3):
            return [FILTER, [], [self.pattern(left, values), self.condition(size - 1 - left, values)]]
        kind = c.choice([AND, AND, UNION_OF, OPT, OPT, MINUS])
        return [kind, [], [self.pattern(left, values), self.pattern(size - 1 - left, values)]]

    def condition(self, size, values):
        c = self.chance
        if size == 1:
            kind = c.choice([EQUAL, EQUAL, BLANK, BOUND])
            terms = self.identifiers + self.literals
            words = {EQUAL: [self.position(terms), self.position(terms, 4)], BLANK: [self.position(terms, 8)],
                     BOUND: [self.variable()[1]]}[kind]
            return [kind, words, []]
        if size == 2 or self.one_in(3):
            if self.one_in(3):
                return [NOT, [], [self.condition(size - 1, values)]]
            return [EXISTS, [], [self.pattern(size - 1, values)]]
        left = c.randint(1, size - 2)
        return [c.choice([BOTH, EITHER]), [], [self.condition(left, values), self.condition(size - 1 - left, values)]]

    def table(self, tree):
        """The entries as the reference has them; a child stands before its parent, and else in any order."""
        nodes = []

        def gather(node):
            nodes.append(node)
            for child in node[2]:
                gather(child)
        gather(tree)
        if self.one_in(2):
            order = list(reversed(nodes))
        else:
            order, waiting = [], list(nodes)
            while waiting:
                ready = [n for n in waiting if all(any(m is k for m in order) for k in n[2])]
                order.append(self.chance.choice(ready))
                waiting = [n for n in waiting if n is not order[-1]]
        at = {id(n): k for k, n in enumerate(order)}
        return [self.entry(kind, words, [at[id(k)] for k in children]) for kind, words, children in order]

    def entry(self, kind, words, children):
        return (kind, *children, *words)

    def row(self, terms, often):
        places = [0] * 16
        for v in self.variables:
            if self.one_in(often):
                places[v] = self.chance.choice(terms)
        return tuple(places)

    def value_rows(self):
        c = self.chance
        rows = [self.row(self.identifiers + self.literals, 2) for _ in range(c.choice([0, 1, 2, 4]))]
        return rows + [c.choice(rows) for _ in range(c.randrange(3)) if rows]

    # Breaks: each takes the parts of a question and gives them back, where it can break them

    def break_size(self, entries, values, start):
        if self.one_in(2):
            return [], values, start
        return entries + [(INITIAL,)] * (65 - len(entries)), values, start

    def renamed(self, entries, name):
        """Another number in place of one that an entry names."""
        naming = [k for k, e in enumerate(entries) if reference.named(e)]
        if naming:
            k = self.chance.choice(naming)
            e = list(entries[k])
            e[1 + self.chance.randrange(len(reference.named(entries[k])))] = name(k)
            entries[k] = tuple(e)
        return entries

    def break_forward(self, entries, values, start):
        name = lambda k: self.chance.choice([k, k + 1, len(entries), 64, LARGEST])
        return self.renamed(entries, name), values, start

    def break_tree(self, entries, values, start):
        if self.one_in(3):
            return [(INITIAL,)] + [self.shifted(e) for e in entries], values, start
        return self.renamed(entries, lambda k: self.chance.randrange(k) if k else 0), values, start

    def shifted(self, entry):
        count = len(reference.named(entry))
        return (entry[0], *(min(n + 1, LARGEST) for n in entry[1:1 + count]), *entry[1 + count:])

    def break_kind(self, entries, values, start):
        if self.one_in(3):
            return entries + [(EXISTS, len(entries) - 1)], values, start
        k = self.chance.randrange(len(entries))
        if not reference.named(entries[k]):
            entries[k] = self.chance.choice([(BOUND, 1), (INITIAL,)])
        return entries, values, start

    def moved(self, entries, kinds, change):
        places = [k for k, e in enumerate(entries) if e[0] in kinds]
        if places:
            k = self.chance.choice(places)
            e = list(entries[k])
            i = 1 + self.chance.randrange(len(e) - 1)
            e[i] = change(e[i])
            entries[k] = tuple(e)
        return entries

    def break_variable(self, entries, values, start):
        number = self.chance.choice([15, 16, 17, 32, 255])
        change = lambda word: (0, number) if isinstance(word, tuple) else number
        return self.moved(entries, (TRIPLE, EQUAL, BLANK, BOUND), change), values, start

    def break_position(self, entries, values, start):
        number = self.chance.choice(self.blanks + self.literals + NO_TERMS + EXTREMES)
        return self.moved(entries, (TRIPLE, EQUAL, BLANK), lambda _: (1, number)), values, start

    def break_values(self, entries, values, start):
        c = self.chance
        if values and self.one_in(2):
            k = c.randrange(len(values))
            row = list(values[k])
            row[c.randrange(16)] = c.choice(self.blanks + NO_TERMS[1:])
            values = values[:k] + [tuple(row)] + values[k + 1:]
            return entries, values, start
        change = lambda n: c.choice([min(n + 1, LARGEST), len(values) + 1, LARGEST])
        return self.moved(entries, (VALUES,), change), values, start

    def break_start(self, entries, values, start):
        start = list(start)
        start[self.chance.randrange(16)] = self.chance.choice(NO_TERMS[1:])
        return entries, values, tuple(start)

    def broken(self, entries, values, start):
        breaks = [self.break_size, self.break_forward, self.break_tree, self.break_kind, self.break_variable, self.break_position,
                  self.break_values, self.break_start]
        for one in self.chance.sample(breaks, self.chance.choice([1, 1, 1, 2])):
            if entries:
                entries, values, start = one(list(entries), values, start)
        return entries, values, start

    # Questions

    def needs(self, graph, entries, values, start):
        """The largest working set of either way; none where the query is refused."""
        try:
            reference.check(entries, values, start, LARGEST)
        except reference.Refused:
            return []
        needs = []
        for way in (0, 1):
            query, sizes, r = Bounded(graph, entries, values), Sizes(), reference.mapping(start)
            if way == 0:
                query.bottom_up(len(entries) - 1, r, sizes)
            else:
                query.top_down(len(entries) - 1, r, reference.NOTHING, sizes)
            needs.append(max(sizes))
        return needs

    def question(self, graph):
        c = self.chance
        size = c.choice([1, 2, 3, 3, 4, 5, 6, 7, 8, 9, 10, 11, 12, 12]) if not self.one_in(40) else c.choice([16, 24, 40, 63, 64, 64])
        values = self.value_rows()
        entries = self.table(self.pattern(size, values))
        start = self.row(self.identifiers + self.literals + self.blanks, 3) if self.one_in(2) else (0,) * 16
        if self.one_in(5):
            entries, values, start = self.broken(entries, values, start)
        needs = self.needs(graph, entries, values, start)
        count = len(entries)
        rows = count * 20
        if needs and not self.one_in(6):
            rows = max(0, count * max(1, c.choice(needs + [min(needs)])) + c.choice([-1, 0, 0, 0, 1, count - 1]))
        elif self.one_in(4):
            rows = max(0, c.choice([0, 1, count - 1, count, count + 1]))
        reading = max(0, len(graph) + c.choice([0, 0, 0, 1, 4]) if not self.one_in(10) else c.choice([0, len(graph) - 1, len(graph) // 2]))
        return flat([count, entries, len(values), values, start, reading, rows])

    def case(self, shape):
        numbers = [shape]
        graph = set(self.graph(SHAPES[shape], numbers).triples())
        triples = sorted(graph)
        probes = [self.probe(triples) for _ in range(self.chance.randrange(4))]
        numbers += flat([len(probes), probes])
        questions = []
        for _ in range(self.chance.choice([1, 2, 3])):
            try:
                questions.append(self.question(graph))
            except TooMuch:
                pass
        return numbers + flat([len(questions), questions])


def flat(words):
    return [n for w in words for n in (flat(w) if isinstance(w, (list, tuple)) else [w])]


def main():
    seed, count = sys.argv[1], int(sys.argv[2])
    first = int(sys.argv[3]) if len(sys.argv) > 3 else 0
    print(count)
    for k in range(first, first + count):
        print(*Maker(f'{seed}/{k}').case(k % 8))


if __name__ == '__main__':
    main()
