"""Seeded good sheets for comparing two judges pair by pair: rules that share much and use every clause.

cases(seed, count) yields (label, record words, record text, rule words, rule text), as sheets.cases does. Many of the
rules are mended until the record holds. Spread counts what the judging of cases came to, and says what must be met.
Written, like second.py and sheets.py, from paper 01 and requests #102 and #106 of 02 alone.
"""
import itertools
import random
from collections import Counter

import second
import sheets
from sheets import ABOUT, ARRAY, CODES, FIRST, KIND, LIMIT, OBJECT, OWNER, UNGUARDED, WORD

TESTS = [code for code in CODES if code < UNGUARDED[0]]
MOST = 128                                  # rows and schemas that the bench program judges
LONGEST = second.LONGEST_CHAIN
BOTH = (True, False)
# Unguarded clauses that can pass on marks, and whether they hold: only failed schemas stand under an anyOf or ref that
# fails, or under a not that holds.
PASSING = ((30, True), (30, False), (31, True), (32, True), (32, False), (33, False), (34, True), (36, True), (36, False),
           (37, True), (37, False))
NEW = (36, 37, 45)                          # the codes of request #106: each under and over every other
APPLYING = [code for code in CODES if code >= UNGUARDED[0]]


def derivation_of(words, text, rules, rule_text):
    return second.Derivation(second.read_rows(words), text, second.read_rules(rules, rule_text))


def clauses_judged(derivation, j, s):
    """Each clause of schema s about row j's type: the clause, the marks before it, its pairs, whether it holds."""
    kind, marked = derivation.rows[j].kind, frozenset()
    for clause in second.clauses_of(derivation.rules, s):
        if second.CONCERNS.get(clause.code, kind) == kind:
            pairs = derivation.pairs_applied(j, s, clause, marked)
            yield clause, marked, pairs, derivation.clause_holds(j, clause, pairs)
            marked = marked | derivation.clause_marks(clause, pairs)


# ---- layered rules: every clause, few schemas that many refer to ----

class Layered(sheets.Writer):
    """Unguarded steps go to a higher layer, so no chain has more schemas than there are layers."""

    def __init__(self, rng, record, m, layers):
        self.layers = layers
        super().__init__(rng, record, m, full=rng.random() < 0.2)

    def ranks(self):
        return [0] + self.rng.sample([1 + s % (self.layers - 1) for s in range(self.m - 1)], self.m - 1)

    def views(self):
        """Half of the schemas see the root, to be joined there; the others see rows further down."""
        return [row if self.rng.random() < 0.5 else 0 for row in super().views()]

    def codes(self, s):
        kind = self.record.rows[self.view[s]][KIND]
        count = self.rng.randint(2, 8 if kind >= ARRAY else 4)
        return [self.rng.choice(ABOUT[kind] if self.rng.random() < 0.9 else CODES) for _ in range(count)]


def lengthen(rng, writer):
    """A chain through all layers, by any unguarded clauses."""
    for layer in range(writer.layers - 1):
        here, above = ([s for s in range(writer.m) if writer.rank[s] == rank] for rank in (layer, layer + 1))
        if here and above:
            sheets.add_step(rng, writer.schemas[here[0]], above[0], rng.choice(UNGUARDED))


def derived(record, writer):
    return derivation_of(*sheets.lent(record), *sheets.lent(sheets.RuleSheet(writer.text, writer.schemas)))


def failing(derivation, j, s):
    return [clause.code for clause, _, _, holds in clauses_judged(derivation, j, s) if not holds]


def soften(rng, record, writer):
    """Drop most clauses that fail on the row in view, so that schemas hold there and pass on marks."""
    derivation = derived(record, writer)
    for s, schema in enumerate(writer.schemas):
        for code in failing(derivation, writer.view[s], s):
            if rng.random() < 0.6:
                del schema[code]


def first_failing(derivation):
    """The clauses that fail of the root schema's first settled pair that has any."""
    for j, s in second.settling_order(derivation):
        codes = failing(derivation, j, s) if s == 0 else []
        if codes:
            return codes
    return []


def mend(record, writer):
    """Drop clauses of the root schema until it holds wherever it is applied."""
    while codes := first_failing(derived(record, writer)):
        for code in codes:
            del writer.schemas[0][code]


def case_of(rng, label, record, writer):
    rules = sheets.RuleSheet(writer.text, writer.schemas, sheets.words_before(rng))
    return label, *sheets.lent(record), *sheets.lent(rules)


def layered(rng, label, record, m, layers):
    writer = Layered(rng, record, m, layers)
    if layers == LONGEST:
        lengthen(rng, writer)
    if rng.random() < 0.7:
        soften(rng, record, writer)
    if layers == LONGEST:
        writer.schemas[0] |= {42: [0, 0], 44: [0, 0]}       # and so on down to the deepest row
    if rng.random() < 0.4:
        mend(record, writer)
    return case_of(rng, 'layered: ' + label, record, writer)


def layered_case(rng):
    record = sheets.good_record(rng, rng.choice((8, 20, 20, 60)))
    return layered(rng, 'shared schemas', record, rng.randint(3, 20), rng.choice((2, 4, 8)))


def large_case(rng):
    record = sheets.good_record(rng, MOST, second.HIGHEST_LEVEL)
    return layered(rng, 'many rows', record, rng.randint(20, MOST), rng.choice((4, LONGEST)))


def deep_case(rng):
    """Records to level 32 and chains of up to 32 schemas."""
    record = sheets.deep_record(rng, rng.choice((8, 31, 32, 32)))
    return layered(rng, 'deep and long', record, rng.randint(33, 48), LONGEST)


class Joined(Layered):
    """Every schema sees the root and has little but clauses that mark its children or pass on marks."""

    def views(self):
        return [0] * self.m

    def codes(self, s):
        marking, last = ((40, 42), 60) if self.record.rows[0][KIND] == OBJECT else ((43, 44, 45), 61)
        joins = self.rng.sample(UNGUARDED, self.rng.randint(0 if s else 1, 2))
        marks = [code for code in marking if self.rng.random() < 0.35]
        return joins + marks + [last] * (self.rng.random() < 0.6)

    def inner(self, code, s):
        return self.rng.choice([t for t in range(self.m) if self.rank[t] > self.rank[s]])


def joined_case(rng):
    record = sheets.rich_record(rng)
    writer = Joined(rng, record, rng.randint(4, 12), rng.choice((3, 4, 6)))
    return case_of(rng, 'joined: marks passed on', record, writer)


# ---- values: each of a row of values under each of many tests ----

def near_numbers(rng):
    """One number in several writings, with its negative, its neighbours and its multiples."""
    base, scale = rng.choice((rng.randint(-30, 30), rng.randint(-LIMIT // 10, LIMIT // 10))), rng.randrange(10)
    near = [(base, scale), (-base, scale), (base + 1, scale), (base * 2, scale), (base * 3, scale), (base * 10, scale),
            (base * 10, scale + 1), (base * 10 + 1, scale + 1), (base * 1000, scale + 3), (0, scale)]
    return [(first % WORD, count) for first, count in near if abs(first) <= LIMIT and count <= 9]


def values_record(rng):
    """An array or object of values of every kind; most of its numbers are near one another."""
    root = sheets.root(rng.choice((ARRAY, OBJECT)))
    record = sheets.RecordSheet(sheets.Text(rng), [root], sheets.words_before(rng))
    kinds = rng.choices(range(7), (1, 1, 1, 8, 4, 1, 1), k=rng.randint(2, 12))
    sheets.add_children(rng, record, 0, kinds)
    near = near_numbers(rng)
    for row in record.rows:
        if row[KIND] == 3 and rng.random() < 0.8:
            row[FIRST:OWNER] = rng.choice(near)
    return record


class Tests(sheets.Writer):
    """The root wants or denies schema 1, which applies 2 to each child; 2 joins tests, each with a child in view."""

    def ranks(self):
        return [0, 1, 1] + [2] * (self.m - 3)

    def views(self):
        return [0, 0, 1] + [self.rng.choice(self.record.children(0)) for _ in range(self.m - 3)]

    def schema(self, s):
        if s == 0:
            return {self.rng.choice((33, 34)): [1, 0]}
        if s == 1:
            return {42: [2, 0], 44: [2, 0]}
        if s == 2:
            return {code: self.fields(code, s) for code in self.rng.sample(UNGUARDED, self.rng.randint(1, 5))}
        return {code: self.fields(code, s) for code in self.rng.sample(self.tests(s), self.rng.randint(1, 2))}

    def tests(self, s):
        about = [code for code in ABOUT[self.record.rows[self.view[s]][KIND]] if code in TESTS]
        return sorted(set(about + [self.rng.choice(TESTS)]))


def values_case(rng):
    record = values_record(rng)
    return case_of(rng, 'values: each under each test', record, Tests(rng, record, rng.randint(5, 16)))


def cases(seed, count):
    rng = random.Random(seed)
    makers = [layered_case] * 10 + [joined_case] * 5 + [values_case] * 6 + [deep_case, large_case]
    for _ in range(count):
        yield rng.choice(makers)(rng)


# ---- what the cases came to ----

class Spread:
    """Counts, over judged sheets: verdicts, clauses by code and verdict, clauses over clauses, what stood beside."""

    def __init__(self):
        self.met = Counter()

    def note(self, *parts):
        derivation = derivation_of(*parts)
        order = second.settling_order(derivation)
        self.note_sheet(derivation, order)
        for j, s in order:
            for judged_clause in clauses_judged(derivation, j, s):
                self.note_clause(derivation, j, s, *judged_clause)

    def note_sheet(self, derivation, order):
        applied = 1 + sum(len(derivation.outcome(*pair).applied) for pair in order)
        schemas = range(len(derivation.rules.schemas))
        steps = [second.unguarded_steps(derivation.rules, s) for s in schemas]
        self.met['sheets'] += 1
        self.met['pairs'] += len(order)
        self.met['verdict', derivation.holds((0, 0))] += 1
        self.met['marks of the root'] += bool(derivation.marks((0, 0)))
        self.met['a pair applied again'] += applied > len(order)
        self.met['level 32'] += max(second.level(derivation.rows, j) for j, _ in order) == second.HIGHEST_LEVEL
        self.met['chain of 32 from the root'] += 0 in second.starting_chain(steps, LONGEST)

    def note_clause(self, derivation, j, s, clause, marked, pairs, holds):
        row, code = derivation.rows[j], clause.code
        self.met['clause', code, holds] += 1
        if code == 3:
            self.met['enum', row.kind, holds] += 1
        if code == 14 and second.decimal(row.first, row.count) < 0:
            self.met['negative multiple', holds] += 1
        if code == 40:
            self.met['empty name'] += any(derivation.name(child) == b'' for child, _ in pairs)
        if code in (42, 44):
            beside = derivation.adjacent_entries(s, {42: 40, 44: 43}[code])
            self.met['rest', code, bool(beside), bool(pairs)] += 1
        if code in UNGUARDED and derivation.clause_marks(clause, pairs):
            self.met['marks passed on', code, holds] += 1
        if code in (60, 61):
            self.met['left over', code, bool(marked), bool(pairs)] += 1
        if code in NEW:
            self.note_new(derivation, clause, pairs, holds)
        for _, t in pairs:
            for inner in second.clauses_of(derivation.rules, t):
                self.met['over', code, inner.code] += 1

    def note_new(self, derivation, clause, pairs, holds):
        """Which branch was taken, whether a name was missing, on which side of the bounds the count was."""
        entries = second.entries_of(derivation.rules, clause)
        if clause.code == 36:
            self.met['branch', derivation.holds(pairs[0]), holds] += 1
        elif clause.code == 37:
            self.met['depending', bool(pairs), len(pairs) < len(entries)] += 1
        else:
            count = len([pair for pair in pairs if derivation.holds(pair)])
            (_, least, most), = entries
            self.met['counted', count >= least, count <= most] += 1
            self.met['counted, some'] += 0 < count < len(pairs)

    def wanted(self):
        """What must be met, with how often at least."""
        rare = ['marks of the root', 'a pair applied again', 'level 32', 'chain of 32 from the root', 'empty name']
        rare += [('clause', code, held) for code in CODES for held in BOTH if (code, held) != (1, True)]
        rare += [('enum', kind, held) for kind in range(ARRAY) for held in BOTH]
        rare += [('negative multiple', held) for held in BOTH]
        rare += [('marks passed on', code, holds) for code, holds in PASSING]
        rare += [('over', code, inner) for code in UNGUARDED for inner in UNGUARDED + (60, 61)]
        rare += [('over', *pair) for new in NEW for pairs in (((new, code) for code in CODES), ((code, new) for code in APPLYING))
                 for pair in pairs]
        rare += [('branch', taken, holds) for taken in BOTH for holds in BOTH] + ['counted, some']
        rare += [(what, *both) for what in ('depending', 'counted') for both in itertools.product(BOTH, BOTH)]
        rare += [(what, code, before, left) for what, codes in (('rest', (42, 44)), ('left over', (60, 61)))
                 for code in codes for before in BOTH for left in BOTH]
        often = {('verdict', held): self.met['sheets'] // 4 for held in BOTH}
        return often | {what: 1 + self.met['sheets'] // 200 for what in rare}
