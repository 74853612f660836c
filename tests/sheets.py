"""Seeded record and rule sheets for comparing two judges, from paper 01 and requests #102 and #106 of 02 alone.

cases(seed, count, what) yields (label, record words, record text, rule words, rule text).
A label says what the case is aimed at, its group before the colon. A case aimed at a
refusal may miss it: several damages stand on both sides of their limit. Every case is
worth judging. limits() yields fixed cases on both sides of each limit, whose labels
begin with the answer they must get. bundles(seed, count) yields (label, bytes) for the
bench program, most of them bad. full_sheet() is one case of 1,024 rows × 1,024 schemas.
"""
import random

from second import bundle

WORD = 2 ** 32
KIND, FIRST, COUNT, OWNER, START, LENGTH = range(6)        # words of a row
CODE = 0                                                   # a clause is code, FIRST, COUNT
ARRAY, OBJECT = 5, 6
LIMIT = 999_999_999

FEWEST = {3: 1, 26: 0, 30: 1, 31: 1, 32: 1, 36: 3, 37: 0, 40: 0, 43: 1, 45: 1}     # list codes and their fewest entries
ABOUT = {0: (2, 3, 31, 33, 36), 1: (2, 3, 30, 32, 36), 2: (2, 3, 31, 34, 36),       # codes to be met on rows of a kind
         3: (2, 2, 2, 3, 3, 3, 10, 11, 12, 13, 14, 10, 11, 12, 13, 14, 30, 31, 32, 33, 34, 36),
         4: (2, 3, 3, 20, 21, 20, 21, 30, 31, 32, 33, 34, 36),
         5: (2, 22, 23, 30, 31, 31, 32, 33, 34, 34, 36, 36, 43, 43, 43, 44, 45, 45, 45, 61, 61, 61),
         6: (2, 24, 25, 26, 30, 31, 31, 32, 33, 34, 34, 36, 36, 37, 37, 37, 40, 40, 40, 40, 42, 60, 60, 60)}
UNGUARDED = (30, 31, 32, 33, 34, 36, 37)
NAMES_IN = (26, 37, 40)                                    # codes whose entries have names
CODES = (1, 2, 3, 10, 11, 12, 13, 14, 20, 21, 22, 23, 24, 25, 26, 30, 31, 32, 33, 34, 36, 37, 40, 42, 43, 44, 45, 60, 61)
TYPE_BITS = {0: (1,), 1: (2,), 2: (2,), 3: (4, 4, 8), 4: (16,), 5: (32,), 6: (64,)}

NAMES = (b'', b'a', b'b', b'ab', b'aa', b'ba', b'p', b'q', b'r', b'pq', b'\x00', b'\xc3\xa9', b'name')
ABSENT = (b'z', b'zz', b'abz', b'nam', b'\xc3\xa8')
STRINGS = NAMES + (b'abab', b'a name', 'żółw'.encode(), '日本語'.encode(), '🏃é'.encode(), b'qrpq' * 3)
# UTF-8 at both ends of each length, and what stands beside it: overlong forms, surrogates, above 10FFFF, stray and missing bytes
UTF8 = (b'', b'\x00', b'\x7f', b'\xc2\x80', b'\xdf\xbf', b'\xe0\xa0\x80', b'\xe1\x80\x80', b'\xec\xbf\xbf', b'\xed\x9f\xbf', b'\xee\x80\x80',
        b'\xef\xbf\xbf', b'\xf0\x90\x80\x80', b'\xf1\x80\x80\x80', b'\xf3\xbf\xbf\xbf', b'\xf4\x8f\xbf\xbf')
NOT_UTF8 = (b'\x80', b'\xbf', b'\xc0\x80', b'\xc1\xbf', b'\xc2', b'\xc2\x7f', b'\xc2\xc0', b'\xe0\x80\x80', b'\xe0\x9f\xbf', b'\xe1\x80', b'\xe1\x80\x41',
            b'\xed\xa0\x80', b'\xed\xbf\xbf', b'\xf0\x80\x80\x80', b'\xf0\x8f\xbf\xbf', b'\xf1\x80\x80', b'\xf4\x90\x80\x80', b'\xf5\x80\x80\x80',
            b'\xf8\x88\x80\x80\x80', b'\xfe', b'\xff')


# ---- sheets that can be built up and damaged ----

class Text:
    """Text that grows; strings and names may share its bytes."""

    def __init__(self, rng, share=0.6):
        self.rng, self.share, self.bytes = rng, share, b''

    def place(self, wanted):
        """Start and length of bytes equal to wanted, some of them there already."""
        spots = [i for i in range(len(self.bytes) + 1) if self.bytes.startswith(wanted, i)]
        if spots and self.rng.random() < self.share:
            return [self.rng.choice(spots), len(wanted)]
        self.bytes += wanted
        return [len(self.bytes) - len(wanted), len(wanted)]


class RecordSheet:
    def __init__(self, text, rows=(), before=()):
        self.text, self.before = text, list(before)
        self.rows = [list(row) for row in rows]

    def words(self):
        n = len(self.rows)
        return self.before + flat(self.rows) + [n, 6 * n, len(self.text.bytes), 1]

    def level(self, j):
        return 1 if j == 0 else 1 + self.level(self.rows[j][OWNER])

    def name(self, j):
        start, length = self.rows[j][START:]
        return self.text.bytes[start:start + length]

    def children(self, j):
        kind, first, count = self.rows[j][:OWNER]
        return range(first, first + count) if kind in (ARRAY, OBJECT) else range(0)


class RuleSheet:
    def __init__(self, text, schemas=(), before=()):
        """schemas: for each a table from code to [first, count], or to entries for list codes."""
        self.text, self.before = text, list(before)
        self.schemas, self.clauses, self.entries = [], [], []
        for schema in schemas:
            self.schemas.append([len(self.clauses), len(schema)])
            for code in sorted(schema):
                self.add_clause(code, schema[code])

    def add_clause(self, code, fields):
        if code in FEWEST:
            self.clauses.append([code, len(self.entries), len(fields)])
            self.entries += [list(entry) for entry in fields]
        else:
            self.clauses.append([code, *fields])

    def words(self):
        tables = flat(self.schemas) + flat(self.clauses) + flat(self.entries)
        return self.before + tables + [len(self.schemas), len(self.clauses), len(self.entries),
                                       len(tables), len(self.text.bytes), 2]

    def code_of_entry(self, k):
        return next((code for code, first, count in self.clauses
                     if code in FEWEST and first <= k < first + count), None)


def flat(rows):
    return [word for row in rows for word in row]


def words_before(rng):
    """Words before row 0 or schema 0: none, or some that look like anything."""
    return [rng.choice((0, 1, 2, 6, 40, WORD - 1, rng.getrandbits(32))) for _ in range(rng.choice((0, 0, 1, 4, 7)))]


# ---- good record sheets ----

def number(rng):
    """first and count of a number, often small, often at a bound, at any scale."""
    scale = rng.choice((0, 0, 1, 2, 5, 9))
    small = rng.randint(-12, 12)
    whole = small * 10 ** min(scale, 7)
    first = rng.choice((small, small * 10 ** rng.randint(0, 7), whole, whole,
                        rng.choice((-1, 1)) * (LIMIT - rng.randint(0, 1)), rng.randint(-LIMIT, LIMIT)))
    return [first % WORD, scale]


def leaf(rng, text, kind):
    """first and count of a row of kinds 0 to 4."""
    if kind == 3:
        return number(rng)
    return text.place(rng.choice(STRINGS)) if kind == 4 else [0, 0]


def add_children(rng, sheet, j, kinds):
    """Give the container j children of these kinds, as the next rows; their numbers."""
    first = len(sheet.rows)
    sheet.rows[j][FIRST:OWNER] = [first, len(kinds)] if kinds else [0, 0]
    names = rng.sample(NAMES, len(kinds)) if sheet.rows[j][KIND] == OBJECT else None
    for i, kind in enumerate(kinds):
        label = sheet.text.place(names[i]) if names else [0, 0]
        sheet.rows.append([kind, *leaf(rng, sheet.text, kind), j, *label])
    return list(range(first, len(sheet.rows)))


def random_kinds(rng, count):
    return rng.choices(range(7), (1, 1, 1, 4, 3, 4, 5), k=count)


def good_record(rng, most=20, levels=8):
    """A good sheet; blocks of children mostly breadth first, sometimes in another good order."""
    sheet = RecordSheet(Text(rng), before=words_before(rng))
    kind = rng.choice((5, 6, 5, 6, 6, 6, rng.randrange(5)))
    sheet.rows.append([kind, *leaf(rng, sheet.text, kind), 0, 0, 0])
    pending = [0]
    depth_first = rng.random() < 0.3
    while pending:
        j = pending.pop(-1 if depth_first else 0)
        if sheet.rows[j][KIND] in (ARRAY, OBJECT):
            count = min(rng.choice((0, 1, 2, 2, 3, 4, 6)), most - len(sheet.rows))
            if sheet.level(j) < levels:
                pending += add_children(rng, sheet, j, random_kinds(rng, count))
    return sheet


def deep_record(rng, levels):
    """A sheet whose deepest row is at that level, with a few rows beside the deep ones."""
    sheet = RecordSheet(Text(rng), [[rng.choice((ARRAY, OBJECT)), 0, 0, 0, 0, 0]], words_before(rng))
    deepest = 0
    for current in range(2, levels + 1):
        deep_kind = rng.choice((ARRAY, OBJECT)) if current < levels else rng.randrange(7)
        kinds = [deep_kind] + [rng.randrange(7) for _ in range(rng.choice((0, 0, 0, 1)))]
        rng.shuffle(kinds)
        deepest = add_children(rng, sheet, deepest, kinds)[kinds.index(deep_kind)]
    return sheet


def rich_record(rng):
    """A good record with enough rows to damage."""
    while True:
        sheet = good_record(rng, 24)
        if len(sheet.rows) >= 6:
            return sheet


# ---- good rule sheets, written with a record in view ----

class Writer:
    """Writes schemas, each with one row of the record in view, so that many clauses concern it."""

    def __init__(self, rng, record, m, full=False):
        self.rng, self.record, self.m = rng, record, m
        self.text = Text(rng)
        self.rank = self.ranks()                            # unguarded steps go up in rank
        self.hubs = rng.sample(range(m), min(m, 3))         # few schemas that many refer to
        self.mild = rng.choice((0.6, 0.85, 0.97))           # how often a clause fits the row in view
        self.view = self.views()
        self.plain = [s > 0 and rng.random() < 0.25 for s in range(m)]
        self.full = self.rank.index(min(1, m - 1)) if full else None
        self.schemas = [self.schema(s) for s in range(m)]

    def ranks(self):
        return [0] + self.rng.sample(range(1, self.m), self.m - 1)

    def views(self):
        """The row in view of each schema: of the root's the root, of another's one near a row already in view."""
        view = [0]
        for _ in range(1, self.m):
            view.append(self.near(self.rng.choice(view)))
        return view

    def near(self, j):
        """Row j or one of its children."""
        return self.rng.choice([j] + 2 * list(self.record.children(j)))

    def is_mild(self):
        return self.rng.random() < self.mild

    def schema(self, s):
        if s == self.full:
            codes = CODES
        elif self.plain[s]:
            codes = self.rng.choice(((), (), (1,)))
        else:
            codes = self.codes(s)
        return {code: self.fields(code, s) for code in codes if self.may_have(code, s)}

    def codes(self, s):
        kind = self.record.rows[self.view[s]][KIND]
        count = self.rng.randint(1, 6 if kind >= ARRAY else 3)
        return [self.rng.choice(ABOUT[kind] if self.rng.random() < 0.93 else CODES) for _ in range(count)]

    def may_have(self, code, s):
        """Schemas of the highest rank have no unguarded step; few never hold, or have enums, on containers."""
        if code in UNGUARDED:
            return self.rank[s] < max(self.rank)
        on_container = self.record.rows[self.view[s]][KIND] >= ARRAY
        return code not in (1, 3) or not on_container or self.plain[s] or s == self.full or not self.is_mild()

    def fields(self, code, s):
        """first and count, or the entries, of a clause of schema s."""
        if code in (10, 11, 12, 13):
            return self.bound(code, s)
        if code in range(20, 26):
            return [self.size(code, s), 0]
        if code in (30, 31, 32):
            return [[self.inner(code, s), 0, 0] for _ in range(self.rng.choice((1, 2, 2, 3, 4)))]
        if code in (33, 34):
            return [self.inner(code, s), 0]
        if code == 36:
            return [[self.inner(code, s), 0, 0] for _ in range(3)]
        if code in (42, 44, 60, 61):
            return [self.outer(self.near(self.view[s])), 0]
        return {1: self.never, 2: self.types, 3: self.values, 14: self.factor, 26: self.required,
                37: self.depending, 40: self.properties, 43: self.prefix, 45: self.counted}[code](s)

    def never(self, s):
        return [0, 0]

    def required(self, s):
        return [[*self.text.place(name), 0] for name in self.names(s)[:3]]

    def types(self, s):
        own = self.rng.choice(TYPE_BITS[self.record.rows[self.view[s]][KIND]])
        other = self.rng.choice((0, 0, 2, 64, self.rng.randrange(128)))
        return [own | other if self.is_mild() else other or 4, 0]

    def values(self, s):
        """Entries of an enum, of all kinds, with the row in view among them where that can be."""
        kinds = [self.rng.randrange(5) for _ in range(self.rng.choice((1, 2, 3)))]
        entries = [[kind, *leaf(self.rng, self.text, kind)] for kind in kinds]
        kind, first, count = self.record.rows[self.view[s]][:OWNER]
        if kind < ARRAY and self.is_mild():
            own = [first, count]
            if kind == 3:
                own = other_scale(self.rng, first, count)
            if kind == 4:
                own = self.text.place(self.record.text.bytes[first:first + count])
            entries.insert(self.rng.randrange(len(entries) + 1), [kind, *own])
        return entries

    def base(self, s):
        """The number of the row in view, or any, as a signed first and a count."""
        row = self.record.rows[self.view[s]]
        first, count = row[FIRST:OWNER] if row[KIND] == 3 else number(self.rng)
        return as_signed(first), count

    def bound(self, code, s):
        first, count = self.base(s)
        sign = 1 if code in (11, 13) else -1
        step = self.rng.choice((0, 0, 1, 3, 10 ** 6)) if self.is_mild() else -self.rng.choice((0, 1, 1, 5))
        first = max(-LIMIT, min(LIMIT, first + sign * (step + (code >= 12))))
        return other_scale(self.rng, first % WORD, count)

    def factor(self, s):
        first, count = self.base(s)
        whole = self.rng.choice((1, abs(first) or 1)) if self.is_mild() else self.rng.choice((2, 3, 4, 5, 7, 25))
        return other_scale(self.rng, whole, count if self.is_mild() else self.rng.choice((0, 1, 9)))

    def size(self, code, s):
        kind, first, count = self.record.rows[self.view[s]][:OWNER]
        if kind == 4:
            count = len(self.record.text.bytes[first:first + count].decode('utf-8', 'replace'))
        own = count if kind >= 4 else self.rng.randrange(3)
        if not self.is_mild():
            return max(0, own + self.rng.choice((-1, 1)))
        if code % 2 == 0:
            return max(0, own - self.rng.choice((0, 0, 1)))
        return self.rng.choice((own, own, own + 1, WORD - 1))

    def names(self, s):
        """Different names: those of the children in view, and some the record may not have."""
        own = [self.record.name(child) for child in self.record.children(self.view[s])]
        other = [] if self.is_mild() else self.rng.sample(ABSENT + NAMES, 2)
        names = list(dict.fromkeys(own + other))
        return self.rng.sample(names, self.rng.randint(0, len(names)))

    def inner(self, code, s):
        """A schema to be applied to the same row: of higher rank, often a hub or one with the same view."""
        above = [t for t in range(self.m) if self.rank[t] > self.rank[s]]
        other = code == 33 and self.is_mild()
        same = [t for t in above if (self.view[t] == self.view[s]) != other]
        hubs = [t for t in above if t in self.hubs]
        return self.rng.choice(self.rng.choice((same, same, same, hubs, above)) or above)

    def outer(self, child):
        """A schema to be applied to a child: any one, often a hub or one with that child in view."""
        same = [t for t in range(self.m) if self.view[t] == child]
        plain = [t for t in range(self.m) if self.plain[t]]
        return self.rng.choice(self.rng.choice((same, same, same, plain, self.hubs)) or range(self.m))

    def properties(self, s):
        children = {self.record.name(child): child for child in self.record.children(self.view[s])
                    if self.record.rows[self.view[s]][KIND] == OBJECT}
        names = self.names(s) + self.rng.sample(ABSENT, self.rng.choice((0, 0, 1)))
        return [[*self.text.place(name), self.outer(children.get(name, 0))] for name in dict.fromkeys(names)]

    def depending(self, s):
        names = (self.names(s) or self.names(s)) + self.rng.sample(ABSENT, self.rng.choice((0, 0, 1)))
        return [[*self.text.place(name), self.inner(37, s)] for name in dict.fromkeys(names)]

    def counted(self, s):
        """A schema for elements, with least and most about as many as there are."""
        many = len(self.record.children(self.view[s]))
        least = self.rng.choice((0, 0, 1, 1, 2, many, many + 1, WORD - 1))
        most = self.rng.choice((WORD - 1, WORD - 1, many, many + 1, 1, 0))
        return [[self.outer(self.near(self.view[s])), least, most]]

    def prefix(self, s):
        children = list(self.record.children(self.view[s])) or [self.view[s]]
        count = self.rng.randint(1, len(children) + 1)
        return [[self.outer(children[i % len(children)]), 0, 0] for i in range(count)]


def as_signed(word):
    return word - WORD if word >= WORD // 2 else word


def other_scale(rng, first, count):
    """The same number, sometimes written at a larger scale."""
    larger = as_signed(first) * 10
    if rng.random() < 0.4 and abs(larger) <= LIMIT and count < 9:
        return [larger % WORD, count + 1]
    return [first, count]


def good_rules(rng, record, most=10, full=False):
    writer = Writer(rng, record, rng.randint(1, most), full)
    return RuleSheet(writer.text, writer.schemas, words_before(rng))


def add_step(rng, schema, t, code):
    """Let a schema reach schema t by an unguarded clause."""
    if code == 36:
        entries = schema.setdefault(code, [[t, 0, 0] for _ in range(3)])
        entries[rng.randrange(3)] = [t, 0, 0]
    elif code == 37:
        schema[code] = [[0, 0, t]]
    elif code in FEWEST:
        entries = schema.setdefault(code, [])
        entries.insert(rng.randint(0, len(entries)), [t, 0, 0])
    else:
        schema[code] = [t, 0]


def chain_rules(rng, length, code=None):
    """Rules with an unguarded chain of that many schemas, which stand in any order."""
    m = length + rng.randint(0, 4)
    order = rng.sample(range(m), m)
    if rng.random() < 0.5:
        order.sort()
    schemas = [{} for _ in range(m)]
    for s, t in zip(order[:length], order[1:length]):
        add_step(rng, schemas[s], t, code or rng.choice(UNGUARDED))
    for s in order[length:]:
        schemas[s] = {44: [rng.randrange(m), 0], 42: [rng.randrange(m), 0]}
    schemas[order[length - 1]] = rng.choice(({}, {1: [0, 0]}, {44: [0, 0], 42: [0, 0]}))
    return RuleSheet(Text(rng), schemas, words_before(rng))


def loop_rules(rng, record):
    """Rules with a loop among some schemas, which the root may or may not reach."""
    m = rng.randint(1, 9)
    writer = Writer(rng, record, m)
    loop = rng.sample(range(m), rng.randint(1, min(m, rng.choice((1, 2, 3, 9)))))
    for s, t in zip(loop, loop[1:] + loop[:1]):
        add_step(rng, writer.schemas[s], t, rng.choice(UNGUARDED))
    return RuleSheet(writer.text, writer.schemas, words_before(rng))


# ---- damage to one row, schema, clause or entry ----
#
# A line of damage is: label, part of the sheet, which of its members, what to write. What to write
# is a function of sheet, member and its number, to a list of tables from field to value, one of
# which is written.

def put(field, *values):
    return lambda sheet, row, i: [{field: value} for value in values]


def shift(field, *steps):
    return lambda sheet, row, i: [{field: row[field] + step} for step in steps]


def compute(field, values):
    return lambda sheet, row, i: [{field: value} for value in values(sheet, row, i)]


def ranges_around(length):
    """Ranges on both sides of fitting into a text of that length, some wrapping modulo 2^32."""
    return [(0, length), (0, length + 1), (length, 0), (length + 1, 0), (length, 1), (1, length),
            (max(length - 1, 0), 1), (max(length - 1, 0), 2), (WORD - 1, 0), (WORD - 1, 1), (WORD - 1, 2),
            (length, WORD - length), (1, WORD - 1), (0, WORD - 1), (WORD // 2, WORD // 2)]


def put_range(field):
    return lambda sheet, row, i: [{field: start, field + 1: length}
                                  for start, length in ranges_around(len(sheet.text.bytes))]


BOUNDS = (LIMIT, LIMIT + 1, WORD - LIMIT, WORD - LIMIT - 1, WORD // 2, WORD // 2 - 1)
SCALES = (9, 10, 11, WORD - 1)
ANYTHING = (1, 2, 5, WORD // 2, WORD - 1)


def any_one(sheet, row, i):
    return True


def of_kind(*kinds):
    return lambda sheet, row, i: row[KIND] in kinds


of_code = of_kind           # the code is the first word of a clause as the kind is of a row


def under(kind):
    return lambda sheet, row, i: i > 0 and sheet.rows[row[OWNER]][KIND] == kind


def is_root(sheet, row, i):
    return i == 0


def is_child(sheet, row, i):
    return i > 0


def is_parent(sheet, row, i):
    return row[KIND] in (ARRAY, OBJECT) and row[COUNT] > 0


def is_empty(sheet, row, i):
    return row[KIND] in (ARRAY, OBJECT) and row[COUNT] == 0


def other_containers(sheet, row, i):
    return [j for j, other in enumerate(sheet.rows) if other[KIND] >= ARRAY and j != row[OWNER]] or [0]


def no_containers(sheet, row, i):
    return [j for j, other in enumerate(sheet.rows) if other[KIND] < ARRAY] or [0]


def past_the_rows(sheet, row, i):
    return [len(sheet.rows), len(sheet.rows) + 1, WORD - 1]


ROW_DAMAGES = (
    ('unknown kind', 'rows', any_one, put(KIND, 7, 8, 255, 256, WORD - 1)),
    ('another kind', 'rows', any_one, put(KIND, *range(7))),
    ('first in kinds 0 to 2', 'rows', of_kind(0, 1, 2), put(FIRST, *ANYTHING)),
    ('count in kinds 0 to 2', 'rows', of_kind(0, 1, 2), put(COUNT, *ANYTHING)),
    ('number bound', 'rows', of_kind(3), put(FIRST, *BOUNDS)),
    ('number scale', 'rows', of_kind(3), put(COUNT, *SCALES)),
    ('string range', 'rows', of_kind(4), put_range(FIRST)),
    ('label range', 'rows', under(OBJECT), put_range(START)),
    ('label start under an array', 'rows', under(ARRAY), put(START, *ANYTHING)),
    ('label length under an array', 'rows', under(ARRAY), put(LENGTH, *ANYTHING)),
    ('root label start', 'rows', is_root, put(START, *ANYTHING)),
    ('root label length', 'rows', is_root, put(LENGTH, *ANYTHING)),
    ('root owner', 'rows', is_root, put(OWNER, *ANYTHING)),
    ('empty container with a first', 'rows', is_empty,
     compute(FIRST, lambda sheet, row, i: [1, i + 1, len(sheet.rows), WORD - 1])),
    ('child range moved', 'rows', is_parent, shift(FIRST, -1, 1)),
    ('child range longer or shorter', 'rows', is_parent, shift(COUNT, -1, 1)),
    ('child range emptied', 'rows', is_parent, put(COUNT, 0)),
    ('child range at or before the row', 'rows', is_parent, compute(FIRST, lambda sheet, row, i: [i, i - 1, 0])),
    ('child range past the rows', 'rows', is_parent,
     compute(COUNT, lambda sheet, row, i: [len(sheet.rows) - row[FIRST] + extra
                                           for extra in (0, 1, WORD - len(sheet.rows))] + [WORD - 1])),
    ('child range starting past the rows', 'rows', is_parent, compute(FIRST, past_the_rows)),
    ('child range given to an empty one', 'rows', is_empty,
     lambda sheet, row, i: [{FIRST: first, COUNT: 1} for first in (i + 1, i, len(sheet.rows) - 1)]),
    ('owner past the rows', 'rows', is_child, compute(OWNER, past_the_rows)),
    ('owner no container', 'rows', is_child, compute(OWNER, no_containers)),
    ('owner itself', 'rows', is_child, compute(OWNER, lambda sheet, row, i: [i])),
    ('owner a later row', 'rows', is_child,
     compute(OWNER, lambda sheet, row, i: list(range(i + 1, len(sheet.rows) + 1)))),
    ('owner another container', 'rows', is_child, compute(OWNER, other_containers)),
)


def entry_of(*codes):
    return lambda sheet, entry, k: sheet.code_of_entry(k) in codes


def enum_entry(*kinds):
    return lambda sheet, entry, k: sheet.code_of_entry(k) == 3 and entry[KIND] in kinds


def follows_in_schema(sheet, clause, i):
    return any(first < i < first + count for first, count in sheet.schemas)


def code_before(sheet, clause, i):
    before = sheet.clauses[i - 1][CODE]
    return [before, before - 1, 1, 2]


def schema_numbers(sheet, row, i):
    m = len(sheet.schemas)
    return [m - 1, m, m + 1, WORD - 1]


def end_of_list(field_before, part):
    """Counts that end exactly at the end of the next table, one past it, or wrap to it."""
    return lambda sheet, row, i: [len(getattr(sheet, part)) - row[field_before] + extra
                                  for extra in (0, 1)] + [WORD - row[field_before], WORD - 1]


LIST = tuple(FEWEST)
ONE_SCHEMA = (33, 34, 42, 44, 60, 61)
RULE_DAMAGES = (
    ('schema start', 'schemas', any_one, shift(0, -1, 1)),
    ('schema length', 'schemas', any_one, shift(1, -1, 1)),
    ('schema end', 'schemas', any_one, compute(1, end_of_list(0, 'clauses'))),
    ('schema far off', 'schemas', any_one, put(0, WORD - 1, WORD // 2)),
    ('unknown code', 'clauses', any_one, put(CODE, 0, 4, 9, 15, 19, 27, 29, 35, 38, 39, 41, 46, 50, 59, 62, WORD - 1)),
    ('another code', 'clauses', any_one, put(CODE, *CODES)),
    ('code equal or falling', 'clauses', follows_in_schema, compute(CODE, code_before)),
    ('first of never', 'clauses', of_code(1), put(FIRST, *ANYTHING)),
    ('count that is unused', 'clauses', of_code(1, 2, 20, 21, 22, 23, 24, 25, *ONE_SCHEMA), put(COUNT, *ANYTHING)),
    ('type sum', 'clauses', of_code(2), put(FIRST, 0, 1, 127, 128, 255, WORD - 1)),
    ('bound of a bound', 'clauses', of_code(10, 11, 12, 13, 14), put(FIRST, *BOUNDS)),
    ('scale of a bound', 'clauses', of_code(10, 11, 12, 13, 14), put(COUNT, *SCALES)),
    ('multipleOf not above 0', 'clauses', of_code(14), put(FIRST, 0, 1, WORD - 1, WORD - LIMIT)),
    ('size of any number', 'clauses', of_code(20, 21, 22, 23, 24, 25), put(FIRST, *ANYTHING)),
    ('schema of a clause', 'clauses', of_code(*ONE_SCHEMA), compute(FIRST, schema_numbers)),
    ('list start', 'clauses', of_code(*LIST), shift(FIRST, -1, 1)),
    ('list length', 'clauses', of_code(*LIST), shift(COUNT, -1, 1)),
    ('list end', 'clauses', of_code(*LIST), compute(COUNT, end_of_list(FIRST, 'entries'))),
    ('list far off', 'clauses', of_code(*LIST), put(FIRST, WORD - 1, WORD // 2)),
    ('enum kind', 'entries', entry_of(3), put(KIND, *range(8), WORD - 1)),
    ('enum first in kinds 0 to 2', 'entries', enum_entry(0, 1, 2), put(FIRST, *ANYTHING)),
    ('enum count in kinds 0 to 2', 'entries', enum_entry(0, 1, 2), put(COUNT, *ANYTHING)),
    ('enum number bound', 'entries', enum_entry(3), put(FIRST, *BOUNDS)),
    ('enum number scale', 'entries', enum_entry(3), put(COUNT, *SCALES)),
    ('enum string range', 'entries', enum_entry(4), put_range(1)),
    ('name range', 'entries', entry_of(*NAMES_IN), put_range(0)),
    ('third word of required', 'entries', entry_of(26), put(2, *ANYTHING)),
    ('schema of an entry', 'entries', entry_of(30, 31, 32, 36, 43, 45), compute(0, schema_numbers)),
    ('schema beside a name', 'entries', entry_of(37, 40), compute(2, schema_numbers)),
    ('second word of a schema entry', 'entries', entry_of(30, 31, 32, 36, 43), put(1, *ANYTHING)),
    ('third word of a schema entry', 'entries', entry_of(30, 31, 32, 36, 43), put(2, *ANYTHING)),
    ('least and most of any number', 'entries', entry_of(45), put(1, *ANYTHING)),
    ('most of any number', 'entries', entry_of(45), put(2, *ANYTHING)),
)


def possible(sheet, table):
    """The lines of damage that have members to damage, with their numbers."""
    found = []
    for label, part, fits, change in table:
        members = [i for i, row in enumerate(getattr(sheet, part)) if fits(sheet, row, i)]
        if members:
            found.append((label, part, members, change))
    return found


def damage(rng, sheet, table, times=1):
    """Damage a sheet by so many lines of the table, at members chosen before any is damaged."""
    lines = possible(sheet, table)
    chosen = [rng.choice(lines) for _ in range(times)]
    writes = []
    for label, part, members, change in chosen:
        i = rng.choice(members)
        row = getattr(sheet, part)[i]
        writes.append((row, rng.choice(change(sheet, row, i))))
    for row, fields in writes:
        for field, value in fields.items():
            row[field] = value % WORD
    return chosen[0][0] if times == 1 else 'several faults'


# ---- damage of other forms ----

def swap_owners(rng, sheet):
    """Two rows name each other's owner."""
    j, k = rng.choices(range(len(sheet.rows)), k=2)
    sheet.rows[j][OWNER], sheet.rows[k][OWNER] = sheet.rows[k][OWNER], sheet.rows[j][OWNER]
    return 'owners swapped'


def later_owner(rng, sheet):
    """A row whose owner stands after it and has it in range (the owner is at fault)."""
    n = len(sheet.rows)
    sheet.rows[0] = [ARRAY, 2, 1, 0, 0, 0]
    sheet.rows[1:] = [[0, 0, 0, 2, 0, 0], [ARRAY, 1, 1, 0, 0, 0]] + [[0, 0, 0, 0, 0, 0]] * (n % 2)
    return 'owner stands later'


def stray_row(rng, sheet):
    """One more row, in the range of none: its owner a string that covers its number, or anything."""
    n = len(sheet.rows)
    strings = [j for j, row in enumerate(sheet.rows) if row[KIND] == 4]
    owner = rng.choice(strings) if strings and rng.random() < 0.7 else rng.randrange(n + 2)
    if owner in strings:
        sheet.text.bytes += b'x' * (n + 1 - len(sheet.text.bytes))
        sheet.rows[owner][FIRST:OWNER] = [rng.randrange(n + 1), 0]
        sheet.rows[owner][COUNT] = len(sheet.text.bytes) - sheet.rows[owner][FIRST]
    sheet.rows.append([rng.randrange(3), 0, 0, owner, 0, 0])
    return 'row in no range'


def same_range_twice(rng, sheet):
    """Two containers with one child range: the later one, or the earlier, has the rows against it."""
    parents = [row for row in sheet.rows if row[KIND] in (ARRAY, OBJECT)]
    one, other = rng.choice(parents), rng.choice(parents)
    one[FIRST:OWNER] = other[FIRST:OWNER]
    return 'overlapping child ranges'


def repeat_name(rng, text, rows, start):
    """Give a later one of these rows the name of an earlier one: the same range, or equal bytes elsewhere."""
    one, other = sorted(rng.sample(range(len(rows)), 2))
    place, length = rows[one][start:start + 2]
    name = text.bytes[place:place + length]
    if rng.random() < 0.5:
        text.bytes += rng.choice((b'', b'!')) + name
        place = len(text.bytes) - length
    rows[other][start:start + 2] = [place, length]
    return 'equal bytes or equal range'


def repeat_record_name(rng, sheet, times=1):
    objects = [j for j, row in enumerate(sheet.rows) if row[KIND] == OBJECT and row[COUNT] > 1]
    for _ in range(times if objects else 0):
        repeat_name(rng, sheet.text, [sheet.rows[k] for k in sheet.children(rng.choice(objects))], START)
    return 'name repeated' if objects else 'no name to repeat'


def repeat_rule_name(rng, sheet, times=1):
    lists = [(first, count) for code, first, count in sheet.clauses if code in NAMES_IN and count > 1]
    for _ in range(times if lists else 0):
        first, count = rng.choice(lists)
        repeat_name(rng, sheet.text, sheet.entries[first:first + count], 0)
    return 'name repeated' if lists else 'no name to repeat'


def damage_text(rng, sheet, ranges):
    """A range cut or moved by a byte, a byte of the text changed, or bytes that are not UTF-8 named or left unnamed."""
    text = sheet.text
    kind = rng.randrange(4)
    if kind == 0 and text.bytes:
        at = rng.randrange(len(text.bytes))
        text.bytes = text.bytes[:at] + bytes([rng.choice((0x80, 0xbf, 0xc3, 0xe0, 0xff, 0x41))]) + text.bytes[at + 1:]
    elif kind == 1 or not ranges:
        text.bytes += rng.choice(NOT_UTF8)
    elif kind == 2:
        row, at = rng.choice(ranges)
        row[at + 1] = max(0, row[at + 1] - 1)
    else:
        row, at = rng.choice(ranges)
        row[at:at + 2] = text.place(rng.choice(NOT_UTF8 + UTF8))
    return ('a byte changed', 'bytes that nothing names', 'a range cut', 'another range')[kind]


def record_ranges(sheet):
    """The rows and where in them a text range stands."""
    strings = [(row, FIRST) for row in sheet.rows if row[KIND] == 4]
    return strings + [(row, START) for row in sheet.rows[1:] if sheet.rows[row[OWNER]][KIND] == OBJECT]


def rule_ranges(sheet):
    found = []
    for code, first, count in sheet.clauses:
        entries = sheet.entries[first:first + count]
        found += [(entry, 0) for entry in entries if code in NAMES_IN]
        found += [(entry, 1) for entry in entries if code == 3 and entry[0] == 4]
    return found


def damage_record_text(rng, sheet):
    return damage_text(rng, sheet, record_ranges(sheet))


def damage_rule_text(rng, sheet):
    return damage_text(rng, sheet, rule_ranges(sheet))


def empty_list(rng, sheet):
    """Take the entries of one list clause out, and keep all other lists in order."""
    lists = [clause for clause in sheet.clauses if clause[CODE] in FEWEST]
    if lists:
        clause = rng.choice(lists)
        first, count = clause[FIRST], clause[COUNT]
        del sheet.entries[first:first + count]
        clause[COUNT] = 0
        for later in lists[lists.index(clause) + 1:]:
            later[FIRST] -= count
    return 'empty list'


def another_length(rng, sheet):
    """An entry more or less in one list clause, all other lists kept in order."""
    lists = [clause for clause in sheet.clauses if clause[CODE] in FEWEST and clause[COUNT] > 0]
    if lists:
        clause, step = rng.choice(lists), rng.choice((-1, 1))
        first, count = clause[FIRST], clause[COUNT]
        kept = sheet.entries[first:first + count]
        sheet.entries[first:first + count] = kept[1:] if step < 0 else kept + [list(rng.choice(kept))]
        clause[COUNT] += step
        for later in sheet.clauses[sheet.clauses.index(clause) + 1:]:
            later[FIRST] += step if later[CODE] in FEWEST else 0
    return 'another number of entries'


def one_none_takes(rng, sheet):
    """Clauses or entries at the end that none takes."""
    part, row = rng.choice((('clauses', [1, 0, 0]), ('clauses', [26, len(sheet.entries), 0]),
                            ('entries', [0, 0, 0])))
    for _ in range(rng.choice((1, 1, 2))):
        getattr(sheet, part).append(list(row))
    return 'none takes one of the ' + part


def swap_clauses(rng, sheet):
    """Two clauses change places, lists and all."""
    if len(sheet.clauses) > 1:
        i, k = rng.sample(range(len(sheet.clauses)), 2)
        sheet.clauses[i], sheet.clauses[k] = sheet.clauses[k], sheet.clauses[i]
    return 'clauses swapped'


def retarget(rng, sheet):
    """Unguarded references now go anywhere, perhaps in a loop."""
    for code, first, count in sheet.clauses:
        if code in UNGUARDED and code in FEWEST and count > 0:
            sheet.entries[first + rng.randrange(count)][2 if code == 37 else 0] = rng.randrange(len(sheet.schemas))
    for clause in sheet.clauses:
        if clause[CODE] in (33, 34):
            clause[FIRST] = rng.randrange(len(sheet.schemas))
    return 'references retargeted'


# ---- damage to trailers, on words and text ----

def trailer_word(index, *steps):
    """Another trailer word, counted from the end, by steps or as given values."""
    def change(rng, words, text):
        step = rng.choice(steps)
        words[index] = (words[index] + step) % WORD
        return words, text
    return change


def set_word(index, *values):
    def change(rng, words, text):
        words[index] = rng.choice(values)
        return words, text
    return change


def cut_short(rng, words, text):
    """Fewer words than a trailer has."""
    return words[len(words) - rng.randrange(7):] if rng.random() < 0.8 else [], text


def cut_front(rng, words, text):
    """Words missing at the front: back may reach over it."""
    return words[rng.choice((1, 1, 2, 6)):], text


def other_text(rng, words, text):
    """Text lent that is longer or shorter than the trailer says."""
    return words, rng.choice((text + b'x', text[:-1], text + b'xy', b''))


def wrapped_count(index, sizes):
    """A count so large that back is right modulo 2^32 only; sizes of what the trailer counts."""
    def change(rng, words, text):
        words[index] = WORD // 2 * rng.choice((1, 1, 0)) + WORD // 6 + 1 + rng.randrange(3)
        words[-3] = sum(size * words[place] for place, size in sizes.items()) % WORD
        return words, text
    return change


COMMON_TRAILER = (
    ('under the trailer', cut_short), ('front cut', cut_front), ('text lent', other_text),
    ('text length', trailer_word(-2, -1, 1)), ('kind', set_word(-1, 0, 1, 2, 3, 257, WORD - 1)),
    ('back', trailer_word(-3, -1, 1, -6, 6)), ('back wraps', set_word(-3, WORD - 4, WORD - 6, WORD - 1, 0)))
RULE_SIZES = {-6: 2, -5: 3, -4: 3}
TRAILER_DAMAGES = {
    1: COMMON_TRAILER + (
        ('rows', trailer_word(-4, -1, 1)), ('row limits', set_word(-4, 0, 1024, 1025, WORD - 1)),
        ('rows wrap', wrapped_count(-4, {-4: 6}))),
    5: COMMON_TRAILER + (
        ('schemas', trailer_word(-6, -1, 1)), ('schema limits', set_word(-6, 0, 1024, 1025, WORD - 1)),
        ('clauses', trailer_word(-5, -1, 1)), ('clause limits', set_word(-5, 4096, 4097, WORD - 1)),
        ('entries', trailer_word(-4, -1, 1)), ('entry limits', set_word(-4, 4096, 4097, WORD - 1)),
        ('schemas wrap', wrapped_count(-6, RULE_SIZES)), ('clauses wrap', wrapped_count(-5, RULE_SIZES)),
        ('entries wrap', wrapped_count(-4, RULE_SIZES))),
}


def damage_trailer(rng, refusal, words, text):
    label, change = rng.choice(TRAILER_DAMAGES[refusal])
    words, text = change(rng, words, text)
    return label, words, text


# ---- cases aimed at the record check ----

def lent(sheet):
    return sheet.words(), sheet.text.bytes


def aim_record_trailer(rng):
    label, words, text = damage_trailer(rng, 1, *lent(good_record(rng)))
    return 'record 1: ' + label, words, text


def aim_rows(rng, times=1):
    sheet = rich_record(rng)
    label = damage(rng, sheet, ROW_DAMAGES, times)
    return 'record 2: ' + label, *lent(sheet)


def aim_several_rows(rng):
    return aim_rows(rng, rng.randint(2, 4))


def aim_row_forms(rng):
    sheet = rich_record(rng)
    label = rng.choice((swap_owners, later_owner, stray_row, same_range_twice))(rng, sheet)
    return 'record 2: ' + label, *lent(sheet)


def aim_record_names(rng):
    sheet = rich_record(rng)
    label = repeat_record_name(rng, sheet, rng.choice((1, 1, 2, 3)))
    return 'record 3: ' + label, *lent(sheet)


def aim_record_texts(rng):
    sheet = rich_record(rng)
    labels = [damage_record_text(rng, sheet) for _ in range(rng.choice((1, 1, 2)))]
    return 'record 13: ' + labels[0], *lent(sheet)


def aim_overlapping(rng):
    """Many strings of one text, most of which has characters of several bytes, with or without a byte that is none."""
    text = b''.join(rng.choice(UTF8 + (b'a', b'bc', 'ż'.encode())) for _ in range(rng.choice((20, 100, 200))))
    if rng.random() < 0.7:
        at = rng.choice((rng.randrange(len(text) + 1), len(text)))
        text = text[:at] + rng.choice(NOT_UTF8) + text[at:]
    starts = [i for i in range(len(text) + 1) if i == len(text) or text[i] & 0xc0 != 0x80]
    rows = []
    for _ in range(rng.choice((3, 12))):
        start, end = sorted(rng.choice(starts) if rng.random() < 0.95 else rng.randrange(len(text) + 1) for _ in range(2))
        rows.append([4, start, end - start, 0, 0, 0])
    return 'record 13: overlapping strings', *lent(RecordSheet(fixed_text(text), [root(ARRAY, 1, len(rows))] + rows))


def aim_levels(rng):
    levels = rng.choice((31, 32, 33, 33, 34, 40))
    label = 'level up to 32' if levels < 33 else 'level 33 and more'
    return 'record 4: ' + label, *lent(deep_record(rng, levels))


def aim_record_order(rng):
    """Faults of several refusals in one record; the first of the table is given."""
    sheet = deep_record(rng, rng.choice((3, 33, 36)))
    if rng.random() < 0.7:
        repeat_record_name(rng, sheet)
    if rng.random() < 0.4:
        damage_record_text(rng, sheet)
    if rng.random() < 0.4:
        damage(rng, sheet, ROW_DAMAGES)
    words, text = lent(sheet)
    if rng.random() < 0.2:
        _, words, text = damage_trailer(rng, 1, words, text)
    return 'record 1-4: several refusals', words, text


def aim_good_record(rng):
    return 'record good: any', *lent(good_record(rng, rng.choice((1, 6, 20, 60))))


RECORD_AIMS = (aim_record_trailer, aim_rows, aim_rows, aim_rows, aim_several_rows, aim_row_forms,
               aim_record_names, aim_record_texts, aim_overlapping, aim_levels, aim_record_order, aim_good_record)


# ---- cases aimed at the rule check; rules fit the record given ----

def aim_rule_trailer(rng, record):
    label, words, text = damage_trailer(rng, 5, *lent(good_rules(rng, record)))
    return 'rules 5: ' + label, words, text


def aim_layout(rng, record, times=1):
    sheet = good_rules(rng, record, full=rng.random() < 0.7)
    label = damage(rng, sheet, RULE_DAMAGES, times)
    return 'rules 6: ' + label, *lent(sheet)


def aim_several_layout(rng, record):
    return aim_layout(rng, record, rng.randint(2, 4))


def aim_layout_forms(rng, record):
    sheet = good_rules(rng, record, full=rng.random() < 0.5)
    label = rng.choice((empty_list, empty_list, another_length, another_length, one_none_takes, swap_clauses))(rng, sheet)
    return 'rules 6: ' + label, *lent(sheet)


def named_rules(rng, record):
    """Good rules to which a schema with several names is added."""
    sheet = good_rules(rng, record)
    names = rng.sample(NAMES + ABSENT, 4)
    sheet.schemas.append([len(sheet.clauses), 3])
    sheet.add_clause(26, [[*sheet.text.place(name), 0] for name in names[:rng.randint(0, 4)]])
    sheet.add_clause(37, [[*sheet.text.place(name), rng.randrange(len(sheet.schemas) - 1)] for name in names])
    sheet.add_clause(40, [[*sheet.text.place(name), rng.randrange(len(sheet.schemas))] for name in names])
    return sheet


def aim_rule_names(rng, record):
    sheet = named_rules(rng, record)
    label = repeat_rule_name(rng, sheet, rng.choice((1, 1, 2, 3)))
    return 'rules 7: ' + label, *lent(sheet)


def aim_rule_texts(rng, record):
    sheet = named_rules(rng, record)
    labels = [damage_rule_text(rng, sheet) for _ in range(rng.choice((1, 1, 2)))]
    return 'rules 13: ' + labels[0], *lent(sheet)


def aim_loops(rng, record):
    return 'rules 8: loop', *lent(loop_rules(rng, record))


def aim_retargeted(rng, record):
    sheet = good_rules(rng, record)
    return 'rules 8: ' + retarget(rng, sheet), *lent(sheet)


def aim_chains(rng, record):
    length = rng.choice((2, 31, 32, 33, 33, 34, 40))
    code = rng.choice(UNGUARDED + (None, None))
    label = 'chain up to 32' if length < 33 else 'chain of 33 and more'
    return 'rules 9: %s by %s' % (label, code or 'any code'), *lent(chain_rules(rng, length, code))


def aim_rule_order(rng, record):
    """Faults of several refusals in one rule sheet; the first of the table is given."""
    sheet = rng.choice((lambda: chain_rules(rng, rng.choice((32, 33, 35))), lambda: loop_rules(rng, record),
                        lambda: named_rules(rng, record)))()
    for some, change in ((0.4, retarget), (0.5, repeat_rule_name), (0.4, damage_rule_text), (0.2, one_none_takes)):
        if rng.random() < some:
            change(rng, sheet)
    if rng.random() < 0.3 and sheet.clauses:
        damage(rng, sheet, RULE_DAMAGES)
    words, text = lent(sheet)
    if rng.random() < 0.2:
        _, words, text = damage_trailer(rng, 5, words, text)
    return 'rules 5-9: several refusals', words, text


def aim_good_rules(rng, record):
    return 'rules good: any', *lent(good_rules(rng, record))


RULE_AIMS = (aim_rule_trailer, aim_layout, aim_layout, aim_layout, aim_several_layout, aim_layout_forms,
             aim_rule_names, aim_rule_texts, aim_loops, aim_retargeted, aim_chains, aim_rule_order, aim_good_rules)


# ---- cases ----

def small_record():
    """{"p": 7, "q": [1, "p"]}, the fixed good record."""
    return RecordSheet(fixed_text(b'pq'), [[6, 1, 2, 0, 0, 0], [3, 7, 0, 0, 0, 1], [5, 3, 2, 0, 1, 1],
                                           [3, 1, 0, 2, 0, 0], [4, 0, 1, 2, 0, 0]])


def small_rules():
    """p an integer, nothing else; the fixed good rules."""
    return RuleSheet(fixed_text(b'p'), [{40: [[0, 1, 1]], 60: [2, 0]}, {2: [4, 0]}, {1: [0, 0]}])


def fixed_text(text=b''):
    fixed = Text(random.Random(0))
    fixed.bytes = text
    return fixed


def matched_case(rng):
    record = rich_record(rng) if rng.random() < 0.85 else good_record(rng)
    return 'matched: record and rules', *lent(record), *lent(good_rules(rng, record, 14))


def marking_schema(rng, text, names, leaves, ends):
    """Clauses that mark some children, now and then one that fails; ends: how likely 60 and 61 are."""
    some = list(dict.fromkeys(rng.sample(names, rng.randint(0, len(names)))))
    clauses = ((40, 0.6, [[*text.place(name), rng.choice(leaves)] for name in some]),
               (43, 0.6, [[rng.choice(leaves), 0, 0] for _ in range(rng.randint(1, 4))]),
               (42, 0.15, [rng.choice(leaves), 0]), (44, 0.15, [rng.choice(leaves), 0]),
               (45, 0.4, [[rng.choice(leaves), rng.choice((0, 0, 1, 2)), rng.choice((1, 4, WORD - 1))]]),
               (60, ends, [rng.choice(leaves), 0]), (61, ends, [rng.choice(leaves), 0]), (1, 0.1, [0, 0]))
    return {code: fields for code, likely, fields in clauses if rng.random() < likely}


def marking_rules(rng, record):
    """A root that passes on marks of inner schemas, some of which fail, to its 60 or 61."""
    m = rng.randint(4, 9)
    leaves = range(m - 2, m)
    text, schemas = Text(rng), []
    names = [record.name(child) for child in record.children(0)]
    for s in range(m - 2):
        schemas.append(marking_schema(rng, text, names, leaves, 0.3 if s else 0.9))
        for _ in range(rng.randint(0, 3) if s < m - 3 else 0):
            add_step(rng, schemas[s], rng.randint(s + 1, m - 3), rng.choice(UNGUARDED))
    return RuleSheet(text, schemas + [{}, rng.choice(({2: [13, 0]}, {1: [0, 0]}, {}))], words_before(rng))


def marks_case(rng):
    record = rich_record(rng)
    return 'matched: marks passed on', *lent(record), *lent(marking_rules(rng, record))


def value_case(rng):
    """One value alone, with few schemas: bounds, sizes, types and enums decide."""
    kind = rng.choice((0, 1, 2, 3, 3, 3, 3, 4, 4))
    text = Text(rng)
    record = RecordSheet(text, [[kind, *leaf(rng, text, kind), 0, 0, 0]], words_before(rng))
    return 'matched: one value', *lent(record), *lent(good_rules(rng, record, 4))


def chain_case(rng):
    """Chains and levels that are long but good."""
    record = deep_record(rng, rng.choice((4, 16, 32)))
    return 'matched: chain and levels', *lent(record), *lent(chain_rules(rng, rng.choice((3, 16, 32))))


def record_case(rng, with_rules=None):
    label, words, text = rng.choice(RECORD_AIMS)(rng)
    return label, words, text, *lent(with_rules or good_rules(rng, rich_record(rng)))


def rule_case(rng, with_record=None):
    record = with_record or rich_record(rng)
    label, words, text = rng.choice(RULE_AIMS)(rng, record)
    return label, *lent(record), words, text


def hidden_case(rng):
    """Faults in both sheets: those of the record hide those of the rules."""
    record, rules = record_case(rng), rule_case(rng)
    return 'both: record before rules', *record[1:3], *rules[3:]


def wrong_kind_case(rng):
    """A sheet of the wrong kind, or both."""
    record = rich_record(rng)
    one, other = lent(record), lent(good_rules(rng, record))
    as_record, as_rules = rng.choice(((other, other), (one, one), (other, one)))
    return 'wrong kind: swapped', *as_record, *as_rules


def cases(seed, count, what='all'):
    """Yield count cases; what is 'all', 'record' (fixed rules) or 'rules' (fixed record)."""
    rng = random.Random(seed)
    makers = {'all': [matched_case] * 9 + [marks_case] * 3 + [value_case] * 3 + [chain_case]
              + [record_case] * 4 + [rule_case] * 5 + [hidden_case, wrong_kind_case],
              'record': [lambda rng: record_case(rng, small_rules())],
              'rules': [lambda rng: rule_case(rng, small_record())]}[what]
    for _ in range(count):
        yield rng.choice(makers)(rng)


# ---- fixed cases on both sides of each limit ----
#
# Each label begins with the answer the case must get: accepted, or refused, number and place.

def answer(accepted, number_, place):
    return 'accepted' if accepted else 'refused %d %d' % (number_, place)


def with_rows(expected, what, rows, text=b''):
    return '%s: %s' % (expected, what), *lent(RecordSheet(fixed_text(text), rows)), *lent(small_rules())


def with_schemas(expected, what, schemas, text=b''):
    return '%s: %s' % (expected, what), *lent(small_record()), *lent(RuleSheet(fixed_text(text), schemas))


def root(kind, first=0, count=0):
    return [kind, first, count, 0, 0, 0]


def array_of(count):
    return [root(ARRAY, 1, count)] + [root(0)] * count


def nested(levels, kind):
    """One container in another, down to that level; in objects each named by the first byte."""
    label = [0, 1] if kind == OBJECT else [0, 0]
    rows = [[kind, j + 1, 1, max(j - 1, 0), *label] for j in range(levels)]
    rows[0][START:] = [0, 0]
    rows[-1][FIRST:OWNER] = [0, 0]
    return rows


def count_limits():
    """Rows, schemas, clauses and entries, levels and text at their limits."""
    for n in (1, 128, 129, 1024, 1025):
        yield with_rows(answer(n <= 1024, 1, 0), '%d rows' % n, array_of(n - 1) if n > 1 else [root(ARRAY)])
    yield with_rows('refused 1 0', 'no rows', [])
    for levels in (31, 32, 33, 34):
        for kind in (ARRAY, OBJECT):
            what = 'level %d, kind %d' % (levels, kind)
            yield with_rows(answer(levels <= 32, 4, 32), what, nested(levels, kind), b'p')
    for length in (65_535, 65_536):
        text, what = b'p' * length, 'text of %d bytes' % length
        yield with_rows(answer(length < 65_536, 1, 0), what, [root(4, 0, length)], text)
        yield with_schemas(answer(length < 65_536, 5, 0), what, [{26: [[0, length, 0]]}], text)
    for m in (1, 128, 129, 1024, 1025):
        yield with_schemas(answer(m <= 1024, 5, 0), '%d schemas' % m, [{} for _ in range(m)])
    yield with_schemas('refused 5 0', 'no schemas', [])
    sizes = {20: [0, 0], 21: [WORD - 1, 0], 22: [0, 0], 23: [WORD - 1, 0]}
    for extra in ({}, {24: [0, 0]}):
        what = '%d clauses' % (4096 + len(extra))
        yield with_schemas(answer(not extra, 5, 0), what, [sizes | extra] + [sizes] * 1023)
    for e in (4096, 4097):
        yield with_schemas(answer(e == 4096, 5, 0), '%d entries' % e, [{3: [[0, 0, 0]] * e}])


def trailer_limits():
    """Every trailer word one off, words missing, text one off, for both sheets."""
    sheets = [lent(small_record()), lent(small_rules())]
    for which, number_, size in ((0, 1, 4), (1, 5, 6)):
        words, text = sheets[which]
        changed = [('no words before', words, text), ('one word before', [WORD - 1] + words, text),
                   ('first word missing', words[1:], text), ('text longer', words, text + b'x'),
                   ('text shorter', words, text[:-1])]
        changed += [('only %d words' % length, words[len(words) - length:], text) for length in range(size + 1)]
        for index in range(-size, 0):
            for step in (-1, 1):
                other = list(words)
                other[index] = (other[index] + step) % WORD
                changed.append(('trailer word %d by %d' % (index, step), other, text))
        for what, other, other_text_ in changed:
            accepted = what in ('no words before', 'one word before')
            both = list(sheets)
            both[which] = (other, other_text_)
            yield '%s: %s' % (answer(accepted, number_, 0), what), *both[0], *both[1]


def number_limits():
    """Numbers in a row, in an enum, in each bound and in multipleOf."""
    for first, count in ((LIMIT, 0), (LIMIT + 1, 0), (-LIMIT, 0), (-LIMIT - 1, 0), (LIMIT, 9), (LIMIT, 10),
                         (-1, 0), (0, 0), (1, 9), (1, 10), (1, WORD - 1), (WORD // 2, 0), (WORD // 2 - 1, 0)):
        fits = -LIMIT <= as_signed(first % WORD) <= LIMIT and count <= 9
        what = 'number %d / 10^%d' % (first, count)
        words = [first % WORD, count]
        yield with_rows(answer(fits, 2, 0), what, [root(3, *words)])
        yield with_schemas(answer(fits, 6, 2), what + ' in an enum', [{3: [[3, *words]]}])
        for code in (10, 11, 12, 13, 14):
            accepted = fits and (code < 14 or 0 < first)
            yield with_schemas(answer(accepted, 6, 1), what + ' in code %d' % code, [{code: words}])


def range_limits():
    """Ranges around the end of a text of three bytes, wherever a range may stand."""
    for start, length in ranges_around(3):
        fits, what = start + length <= 3, 'range %d, %d' % (start, length)
        yield with_rows(answer(fits, 2, 0), what + ' of a string', [root(4, start, length)], b'abc')
        named = [root(OBJECT, 1, 1), [0, 0, 0, 0, start, length]]
        yield with_rows(answer(fits, 2, 1), what + ' of a label', named, b'abc')
        for code, entry in texts_in_rules(start, length):
            yield with_schemas(answer(fits, 6, 3), what + ' in code %d' % code, [{code: [entry]}, {}], b'abc')


def chain_limits():
    """Chains by each code, numbered upwards and downwards, the root at an end of them or apart."""
    for code in UNGUARDED:
        for length in (32, 33, 34):
            up = [{} for _ in range(length)]
            down = [{} for _ in range(length)]
            for s in range(length - 1):
                add_step(random.Random(0), up[s], s + 1, code)
                add_step(random.Random(0), down[s + 1], s, code)
            what = 'chain of %d by code %d' % (length, code)
            yield with_schemas(answer(length <= 32, 9, 0), what, up)
            yield with_schemas(answer(length <= 32, 9, 32), what + ' downwards', down)


def loop_limits():
    """Loops of several lengths by each code, from the root, apart from it, and led into."""
    for code in UNGUARDED:
        for length in (1, 2, 3, 40):
            for before, leads in ((0, False), (1, False), (2, True)):
                schemas = [{} for _ in range(before + length)]
                for s in range(length):
                    add_step(random.Random(0), schemas[before + s], before + (s + 1) % length, code)
                for s in range(before if leads else 0):
                    add_step(random.Random(0), schemas[s], s + 1, code)
                what = 'loop of %d by code %d after %d' % (length, code, before)
                yield with_schemas('refused 8 %d' % before, what, schemas)
    for i in range(3):
        one = [[int(k == i), 0, 0] for k in range(3)]
        yield with_schemas('refused 8 1', 'loop by entry %d of 36 alone' % i, [{}, {36: one}])
    yield with_schemas('refused 8 0', 'loop by the second of 37', [{37: [[0, 0, 1], [0, 1, 0]]}, {}], b'a')
    yield with_schemas('accepted', 'loop through items', [{44: [1, 0]}, {42: [0, 0], 34: [2, 0]}, {61: [1, 0]}])
    yield with_schemas('accepted', 'loop through contains', [{45: [[0, 1, 1]]}])


def code_limits():
    """Every code alone with first and count 0, and with the words of a good clause damaged."""
    accepted = (1, 10, 11, 12, 13, 20, 21, 22, 23, 24, 25, 26, 37, 40, 42, 44, 60, 61)
    for code in list(range(71)) + [256 + 1, WORD - 1]:
        expected = 'refused 8 0' if code in (33, 34) else answer(code in accepted, 6, 1)
        yield with_schemas(expected, 'code %d with 0, 0' % code, [{code: [] if code in FEWEST else [0, 0]}])
    for first in (0, 1, 127, 128, WORD - 1):
        yield with_schemas(answer(1 <= first <= 127, 6, 1), 'type %d' % first, [{2: [first, 0]}])
    for code in (1, 2, 20, 21, 22, 23, 24, 25, 33, 34, 42, 44, 60, 61):
        first = 0 if code == 1 else 1
        yield with_schemas('refused 6 2', 'code %d with count 1' % code, [{code: [first, 1]}, {}])
    yield with_schemas('refused 6 1', 'never with first 1', [{1: [1, 0]}])
    for code in (20, 21, 22, 23, 24, 25):
        yield with_schemas('accepted', 'code %d with the largest first' % code, [{code: [WORD - 1, 0]}])


def entry_limits():
    """How many entries 36, 37 and 45 may have, also where another list follows; 45 with any least and most."""
    for code, entry, right in ((36, [1, 0, 0], (3,)), (37, [0, 0, 1], (0, 1)), (45, [1, 0, 0], (1,))):
        for count in range(6 if code == 36 else 3 if code == 45 else 2):
            what = '%d entries of code %d' % (count, code)
            yield with_schemas(answer(count in right, 6, 2), what, [{code: [entry] * count}, {}])
            yield with_schemas(answer(count in right, 6, 3), what + ', lists around', [
                {26: [[0, 0, 0]], code: [entry] * count, 61: [1, 0]}, {3: [[0, 0, 0]]}])
    for least, most in ((0, 0), (1, 0), (0, WORD - 1), (WORD - 1, 0), (WORD - 1, WORD - 1), (WORD // 2, WORD // 2 - 1)):
        yield with_schemas('accepted', 'least %d and most %d' % (least, most), [{45: [[1, least, most]]}, {}])


def schema_limits():
    """Schema numbers at m, unused words of entries, kinds of enum entries."""
    for code in (30, 31, 32, 33, 34, 36, 37, 40, 42, 43, 44, 45, 60, 61):
        for t in (1, 2, WORD - 1):
            fields = [[0, 0, t]] if code in (37, 40) else [[t, 0, 0]] if code in FEWEST else [t, 0]
            fields = fields + [[1, 0, 0]] * 2 if code == 36 else fields
            expected = answer(t < 2, 6, 3 if code in FEWEST else 2)
            yield with_schemas(expected, 'code %d to schema %d of 2' % (code, t), [{code: fields}, {}])
    unused = [(26, [0, 0, 1])] + [(code, entry) for code in (30, 31, 32, 43) for entry in ([1, 1, 0], [1, 0, 1])]
    for code, entry in unused:
        yield with_schemas('refused 6 3', 'unused word of an entry of %d' % code, [{code: [entry]}, {}])
    for i in range(3):
        for entry in ([2, 0, 0], [1, 1, 0], [1, 0, WORD - 1]):
            three = [entry if k == i else [1, 0, 0] for k in range(3)]
            yield with_schemas('refused 6 %d' % (3 + i), 'entry %d of 36 is %s' % (i, entry), [{36: three}, {}])
    for kind in range(9):
        yield with_schemas(answer(kind <= 4, 6, 2), 'enum kind %d' % kind, [{3: [[kind, 0, 0]]}])
        if kind <= 2:
            for entry in ([kind, 1, 0], [kind, 0, 1]):
                yield with_schemas('refused 6 2', 'enum kind %d with a word' % kind, [{3: [entry]}])


# Four schemas with five clauses and two entries; and, for one word of theirs and each step, the place at fault.
IN_ORDER = [{20: [0, 0], 26: [[0, 0, 0]]}, {}, {26: [], 40: [[0, 0, 1]]}, {40: []}]
OUT_OF_ORDER = (
    ('schemas', 0, 0, {-1: 0, 1: 0}), ('schemas', 0, 1, {-1: 1, 1: 1}),
    ('schemas', 1, 0, {-1: 1, 1: 1}), ('schemas', 1, 1, {-1: 1, 1: 2}),
    ('schemas', 2, 0, {-1: 2, 1: 2}), ('schemas', 2, 1, {-1: 3, 1: 3}),
    ('schemas', 3, 0, {-1: 3, 1: 3}), ('schemas', 3, 1, {-1: 8, 1: 3}),
    ('clauses', 1, FIRST, {-1: 5, 1: 5}), ('clauses', 1, COUNT, {-1: 6, 1: 6}),
    ('clauses', 2, FIRST, {-1: 6, 1: 6}), ('clauses', 2, COUNT, {-1: 6, 1: 7}),
    ('clauses', 3, FIRST, {-1: 7, 1: 7}), ('clauses', 3, COUNT, {-1: 8, 1: 7}),
    ('clauses', 4, FIRST, {-1: 8, 1: 8}), ('clauses', 4, COUNT, {-1: 8, 1: 8}),
    ('clauses', 1, CODE, {-6: 5, -7: 5}), ('clauses', 3, CODE, {-14: 7, 1: 7}), ('clauses', 4, CODE, {-1: 8, 1: 8}))


def taking_limits():
    """Schemas and lists that do not follow one another; clauses and entries none takes."""
    yield with_schemas('accepted', 'schemas and lists in order', IN_ORDER)
    for part, i, field, places in OUT_OF_ORDER:
        for step, place in places.items():
            sheet = RuleSheet(fixed_text(), IN_ORDER)
            row = getattr(sheet, part)[i]
            row[field] = (row[field] + step) % WORD
            what = '%s %d word %d by %d' % (part, i, field, step)
            yield 'refused 6 %d: %s' % (place, what), *lent(small_record()), *lent(sheet)
    for part, row, place in (('clauses', [61, 0, 0], 9), ('clauses', [40, 2, 0], 9), ('entries', [0, 0, 0], 11)):
        sheet = RuleSheet(fixed_text(), IN_ORDER)
        getattr(sheet, part).append(row)
        yield 'refused 6 %d: none takes one of the %s' % (place, part), *lent(small_record()), *lent(sheet)


def layout_limits():
    """Rows at fault and rows beside them that are not."""
    child, grandchild = [0, 0, 0, 0, 0, 0], [0, 0, 0, 1, 0, 0]
    for expected, what, rows in (
            ('refused 2 2', 'owner stands later', [root(5, 2, 1), [0, 0, 0, 2, 0, 0], [5, 1, 1, 0, 0, 0]]),
            ('refused 2 0', 'row in range names another', [root(5, 1, 2), [5, 3, 1, 0, 0, 0], grandchild, grandchild]),
            ('refused 2 1', 'overlap', [root(5, 1, 2), [5, 2, 1, 0, 0, 0], child]),
            ('refused 2 0', 'owner past the rows', [root(5, 1, 1), [0, 0, 0, 2, 0, 0]]),
            ('refused 2 1', 'owner past the rows, in no range', [root(0), [0, 0, 0, 2, 0, 0]]),
            ('refused 2 1', 'owner is a string over the row', [root(4, 0, 2), child]),
            ('refused 2 1', 'owner is null', [root(0), child]),
            ('refused 2 1', 'owner itself', [root(5), [5, 1, 1, 1, 0, 0]]),
            ('refused 2 2', 'not in the range of its owner', [root(5, 1, 1), child, child]),
            ('refused 2 0', 'empty with first 1', [root(5, 1, 0)]),
            ('refused 2 0', 'first 0 with a child', [root(6, 0, 1)]),
            ('refused 2 0', 'range past the rows', [root(5, 1, 2), child]),
            ('refused 2 0', 'range wraps', [root(5, 1, WORD - 1), child]),
            ('refused 2 0', 'kind 7', [root(7)]),
            ('refused 2 0', 'root with an owner', [[6, 1, 1, 1, 0, 0], child]),
            ('refused 2 0', 'root with a label', [[6, 1, 1, 0, 0, 1], child]),
            ('refused 2 1', 'label under an array', [root(5, 1, 1), [0, 0, 0, 0, 1, 0]]),
            ('accepted', 'empty name at the end of the text', [root(6, 1, 2), [0, 0, 0, 0, 3, 0], [0, 0, 0, 0, 0, 3]]),
            ('refused 3 2', 'empty names', [root(6, 1, 2), child, [0, 0, 0, 0, 3, 0]]),
            ('refused 3 2', 'equal ranges', [root(6, 1, 2), [0, 0, 0, 0, 2, 1], [0, 0, 0, 0, 2, 1]]),
            ('refused 3 2', 'equal bytes', [root(6, 1, 2), [0, 0, 0, 0, 0, 1], [0, 0, 0, 0, 1, 1]]),
            ('accepted', 'equal names under two objects', [root(5, 1, 2), [6, 3, 1, 0, 0, 0], [6, 4, 1, 0, 0, 0],
                                                          [0, 0, 0, 1, 0, 1], [0, 0, 0, 2, 0, 1]])):
        yield with_rows(expected, what, rows, b'aab')


def name_limits():
    """Repeated names in 26, 37 and 40, and equal names in two clauses."""
    for one, other, equal in (([0, 1], [0, 1], True), ([0, 1], [1, 1], True),
                              ([0, 0], [3, 0], True), ([0, 1], [2, 1], False)):
        names = [one, [2, 0] if one[1] else [2, 1], other]
        for code in NAMES_IN:
            what = 'code %d names %s and %s' % (code, one, other)
            entries = [[*name, int(code == 37)] for name in names]
            yield with_schemas(answer(not equal, 7, 5), what, [{code: entries}, {}], b'aab')
    two = [{26: [[0, 1, 0]], 37: [[0, 1, 1]], 40: [[0, 1, 0]]}, {37: [[0, 1, 2]], 40: [[1, 1, 0]]}, {}]
    yield with_schemas('accepted', 'equal names in two clauses', two, b'aa')
    yield with_schemas('refused 7 7', '7 of 37 before 8', [{26: [[0, 1, 0]], 37: [[0, 1, 0], [1, 1, 0], [2, 0, 0]]}, {},
                                                          {}], b'aa')


def texts_in_rules(start, length):
    """The range as a value of an enum, a required name, one that a schema goes with, and a property, of two schemas."""
    return (3, [4, start, length]), (26, [start, length, 0]), (37, [start, length, 1]), (40, [start, length, 0])


def texts_named(expected, what, text, start, length):
    """The range as a string, as a name, and in the rules."""
    good = expected == 'accepted'
    yield with_rows(answer(good, 13, 0), what + ' as a string', [root(4, start, length)], text)
    yield with_rows(answer(good, 13, 1), what + ' as a label', [root(OBJECT, 1, 1), [0, 0, 0, 0, start, length]], text)
    for code, entry in texts_in_rules(start, length):
        yield with_schemas(answer(good, 13, 3), what + ' in code %d' % code, [{code: [entry]}, {}], text)


def text_limits():
    """UTF-8 and what is not, alone and in a text that is not UTF-8 elsewhere; ranges that end inside a character."""
    for expected, parts in (('accepted', UTF8), ('refused', NOT_UTF8)):
        for part in parts:
            for text, start in ((part, 0), (b'a' + part + b'b\xff', 1), (b'\xc3\xa9' * 100 + part + b'\xf0\x90', 200)):
                yield from texts_named(expected, '%s at %d' % (part.hex(), start), text, start, len(part))
    letters = 'aż日🏃'.encode()
    starts = {0, 1, 3, 6, 10}
    for text in (letters, letters + b'\xff'):
        for start in range(11):
            for end in range(start, 11):
                good = start == end or {start, end} <= starts
                yield from texts_named('accepted' if good else 'refused', 'bytes %d to %d' % (start, end), text, start, end - start)


def text_order():
    """13 beside 3, 4, 7, 8 and 9, and the lowest of two."""
    bad, twice = [0, 0, 0, 0, 0, 1], [0, 0, 0, 0, 1, 1]
    yield with_rows('refused 3 3', '3 before 13', [root(OBJECT, 1, 3), bad, twice, twice], b'\xffa')
    yield with_rows('refused 13 2', 'the lowest row', [root(ARRAY, 1, 3), [0] * 6, [4, 0, 1, 0, 0, 0], [4, 0, 1, 0, 0, 0]], b'\xff')
    deep = nested(33, ARRAY)
    deep[-1][:3] = [4, 0, 1]
    yield with_rows('refused 13 32', '13 before 4', deep, b'\xff')
    for code in NAMES_IN:
        same = [[0, 1, 0], [1, 1, 0], [1, 1, 0]]
        yield with_schemas('refused 7 4', '7 before 13 in code %d' % code, [{code: same}], b'\xffa')
        yield with_schemas('refused 13 4', '13 before 8, in code %d' % code, [{code: [[1, 1, 0], [0, 1, 0]], 34: [0, 0]}],
                           b'\xffa')
    chain = [{34: [s + 1, 0]} for s in range(32)] + [{3: [[4, 0, 1]]}]
    yield with_schemas('refused 13 66', '13 before 9', chain, b'\xff')


def every_pair(size):
    """An array and rules of that many rows and schemas, nearly all pairs of which are settled."""
    schemas = [{44: [1, 0]}, {30: [[s, 0, 0] for s in range(2, size)]}]
    schemas += [{2: [1 + s % 2, 0]} for s in range(2, size)]
    return *lent(RecordSheet(fixed_text(), array_of(size - 1))), *lent(RuleSheet(fixed_text(), schemas))


def large_cases():
    """Bundles of just the largest size, long chains at deep levels, and many rows with many schemas."""
    rules, room = small_rules(), 65_536 - len(bundle(*lent(small_record()), *lent(small_rules())))
    for extra in (0, 1):
        record = small_record()
        record.text.bytes += b'x' * (room + extra)
        yield 'accepted: bundle of %d bytes' % (65_536 + extra), *lent(record), *lent(rules)
    chain = [{} for _ in range(32)]
    for s in range(31):
        add_step(random.Random(0), chain[s], s + 1, UNGUARDED[s % 6])       # by all but 37, whose name is missing
    chain[31] = {44: [0, 0], 42: [0, 0]}
    for kind in (ARRAY, OBJECT):
        deep = RecordSheet(fixed_text(b'p'), nested(32, kind))
        label = 'accepted: 32 levels and a chain of 32, kind %d' % kind
        yield label, *lent(deep), *lent(RuleSheet(fixed_text(), chain))
    many = RecordSheet(fixed_text(), array_of(1023))
    few = RuleSheet(fixed_text(), [{44: [s + 1, 0], 22: [0, 0]} for s in range(1023)] + [{}])
    yield 'accepted: 1024 rows, 1024 schemas', *lent(many), *lent(few)
    yield 'accepted: 128 rows by 128 schemas', *every_pair(128)


def refused_and_large():
    """Sheets of which one is refused and the other too large for the bench program: the refusal comes first."""
    loop, chain = [{}], [{} for _ in range(33)]
    add_step(random.Random(0), loop[0], 0, UNGUARDED[0])
    for s in range(32):
        add_step(random.Random(0), chain[s], s + 1, UNGUARDED[0])
    large = RecordSheet(fixed_text(), array_of(128))
    for refusal, schemas in (('8 0', loop), ('9 0', chain)):
        yield 'refused %s: with 129 rows' % refusal, *lent(large), *lent(RuleSheet(fixed_text(), schemas))
    deep = RecordSheet(fixed_text(b'p'), nested(33, ARRAY))
    yield 'refused 4 32: with 129 schemas', *lent(deep), *lent(RuleSheet(fixed_text(), [{} for _ in range(129)]))


def limits():
    """Yield the fixed cases on both sides of each limit."""
    for part in (count_limits, trailer_limits, number_limits, range_limits, chain_limits, loop_limits, code_limits,
                 entry_limits, schema_limits, taking_limits, layout_limits, name_limits, text_limits, text_order, refused_and_large, large_cases):
        yield from part()


def full_sheet():
    """1,024 rows and 1,024 schemas of which nearly all pairs are settled: over a million."""
    return 'accepted: full sheet', *every_pair(1024)


# ---- bundles for the bench program ----

def change_lengths(rng, good):
    """Lengths in the bundle's trailer that are off, or right in sum or modulo 2^32 only."""
    words = [int.from_bytes(good[i:i + 4], 'little') for i in range(len(good) - 16, len(good), 4)]
    one, other = rng.sample(range(4), 2)
    label, steps = rng.choice((('one length off', (rng.choice((-1, 1, 4)), 0)), ('bytes moved', (1, -1)),
                               ('words moved', (4, -4)), ('sum wraps', (WORD // 2, WORD // 2))))
    words[one], words[other] = (words[one] + steps[0]) % WORD, (words[other] + steps[1]) % WORD
    return label, good[:-16] + b''.join(word.to_bytes(4, 'little') for word in words)


def change_size(rng, good):
    """Bundles too short, too long, cut or extended."""
    return rng.choice((('first byte cut', good[1:]), ('last byte cut', good[:-1]), ('byte before', b'x' + good),
                       ('under 16 bytes', good[:rng.randrange(16)]), ('trailer alone', good[-16:]),
                       ('zero bytes', bytes(rng.choice((15, 16, 17, 32)))), ('too long', bytes(65_537)),
                       ('too long by much', good + bytes(70_000))))


def bundles(seed, count):
    """Yield (label, bytes) for the bench program: good bundles of cases, and bad ones made of them."""
    rng = random.Random(seed)
    for label, *parts in cases(seed, count):
        good = bundle(*parts)
        change = rng.choice((None, change_lengths, change_size))
        if change:
            label, good = change(rng, good)
        yield 'bundle: ' + label, good
