"""Queues of records, made from those of sheets.py and judged.py and written from paper 02, #107.

cases(seed, count) yields (label, words, text, listing, rules, rule text, lengths), lengths being those of cells, list
and answers; limits() yields fixed ones, whose labels begin with the answer that the call must get.
"""
import random

import judged
import second
import sheets

FOUR = ('start', 'length', 'text start', 'text length')
LARGE = sheets.WORD - 1
MANY_SCHEMAS = 40           # rules of more are not tried on many records: the second program takes its time


def joined(records):
    """One word slice, one byte slice, and the listing of records that stand in them one after the other."""
    words, text, listing = [], b'', []
    for record, record_text in records:
        listing += [len(words), len(record), len(text), len(record_text)]
        words, text = words + record, text + record_text
    return words, text, listing


def room(words, listing, rules):
    """Cells enough for every listed record, by the trailers, where these are not out of their limits."""
    ends = [listing[k] + listing[k + 1] for k in range(0, len(listing) // 4 * 4, 4)]
    rows = [words[end - 4] for end in ends if 4 <= end <= len(words)]
    return max([n for n in rows if n <= 1024], default=1) * (rules[-6] if len(rules) >= 6 and rules[-6] <= 1024 else 1)


def small():
    """The fixed good record and the fixed good rules."""
    return sheets.lent(sheets.small_record()), sheets.lent(sheets.small_rules())


# ---- fixed queues ----

def many_limits():
    """0, 1, 511, 512 and 513 records, all in one place or one after the other."""
    (record, text), rules = small()
    for many in (0, 1, 2, 511, 512, 513):
        wanted = 'in order %d' % many if many <= 512 else 'refused 30 0'
        listing = [0, len(record), 0, len(text)] * many
        yield '%s: one record listed %d times' % (wanted, many), record, text, listing, *rules, (15, 15, many)
    tiny = second.record_of([(0, 0, 0, 0, 0, 0)], b''), b''
    for many in (512, 513):
        wanted = 'in order 512' if many == 512 else 'refused 30 0'
        yield '%s: %d records' % (wanted, many), *joined([tiny] * many), *rules, (3, 3, many)
    for words in (1, 2, 3, 5, 2047, 2049, 2050, 2051):
        listing = ([0, len(record), 0, len(text)] * 513)[:words]
        yield 'refused 30 0: a listing of %d words' % words, record, text, listing, *rules, (15, 15, 513)


def place_limits():
    """Each of the four numbers at its limit, and one more, also where only a sum modulo 2^32 would fit."""
    (record, text), rules = small()
    good = [0, len(record), 0, len(text)]
    fit = ((0, len(record), 0, len(text)), (len(record), 0, len(text), 0), (3, 0, 1, 0), (1, len(record) - 1, 1, 1))
    no_fit = ((0, len(record) + 1, 0, 0), (1, len(record), 0, 0), (len(record) + 1, 0, 0, 0), (LARGE, 0, 0, 0),
              (LARGE, 1, 0, 0), (1, LARGE, 0, 0), (LARGE, LARGE, 0, 0), (2 ** 31, 2 ** 31, 0, 0), (0, 0, 0, len(text) + 1),
              (0, 0, 1, len(text)), (0, 0, len(text) + 1, 0), (0, 0, LARGE, 1), (0, 0, 1, LARGE), (0, 0, 2 ** 31, 2 ** 31))
    for four in fit:
        yield 'in order 3: %s %s %s %s fits' % four, record, text, good + [*four] + good, *rules, (15, 15, 3)
    for four in no_fit:
        for before in (0, 1, 3):
            listing = good * before + [*four] + good + [*four]
            yield ('refused 31 %d: %s %s %s %s' % (before, *four), record, text, listing, *rules, (15, 15, 6))
    yield 'in order 2: no words and no bytes', [], b'', [0] * 8, *rules, (15, 15, 2)
    yield 'refused 31 1: no words and no bytes', [], b'', [0] * 7 + [1], *rules, (15, 15, 2)


def order_limits():
    """30 before 31 before 32, and both before anything is judged."""
    (record, text), rules = small()
    good, far = [0, len(record), 0, len(text)], [0, len(record), 0, LARGE]
    yield 'refused 30 0: and 31 and 32', record, text, far + [0], *rules, (15, 15, 0)
    yield 'refused 31 1: and 32', record, text, good + far, *rules, (15, 15, 0)
    for many in (1, 2, 7):
        for answers in (0, many - 1):
            yield 'refused 32 %d: %d answers' % (many, answers), record, text, good * many, *rules, (15, 15, answers)
        yield 'in order %d: as many answers' % many, record, text, good * many, *rules, (15, 15, many)
        yield 'in order %d: more answers' % many, record, text, good * many, *rules, (15, 15, many + 9)


def mixed_limits():
    """Refused records among good ones, short areas, records that overlap, refused rules."""
    (record, text), rules = small()
    other = second.record_of([(3, 7, 0, 0, 0, 0)], b''), b''
    bad = [(record[:-1] + [9], text), (record, text[:-1]), ([], b''), ([1], b''),
           (second.record_of([(6, 1, 2, 0, 0, 0), (0, 0, 0, 0, 0, 1), (0, 0, 0, 0, 0, 1)], b'p'), b'p'),
           (second.record_of([(4, 0, 1, 0, 0, 0)], b'\xff'), b'\xff')]
    among = [one for each in bad for one in ((record, text), each, other)]
    for label, lent_rules in (('good rules', rules), ('rules that loop', (second.rules_of([(0, 1)], [(34, 0, 0)], [], b''), b'')),
                              ('no rules', ([], b'')), ('rules without their text', (rules[0], b''))):
        for cells, list_ in ((15, 15), (14, 15), (15, 14), (3, 3), (2, 3), (3, 2), (0, 0), (40, 50)):
            yield ('in order %d: refused among good, %s, areas of %d and %d' % (len(among), label, cells, list_),
                   *joined(among), *lent_rules, (cells, list_, len(among) + 1))
    words, places = record + other[0], [0, len(record), 0, len(text)]
    inside = [len(record), len(other[0]), 0, 0]
    yield 'in order 4: over each other', words, text, places + inside + [0, len(words), 0, 0] + places, *rules, (15, 15, 4)


def limits():
    for part in (many_limits, place_limits, order_limits, mixed_limits):
        yield from part()


# ---- random queues ----

def some_records(rng, pool):
    """Records of the pool, perhaps one twice, perhaps one of the other kind."""
    return [rng.choice(pool) for _ in range(rng.choice((1, 2, 3, 5, 8, 13)))]


def damaged(rng, words, text, listing):
    """A listing with a number that is off, or a word more or less."""
    listing = list(listing)
    how = rng.randrange(4)
    if how == 0:
        return listing + [rng.getrandbits(32)]
    if how == 1:
        return listing[:-1]
    at = rng.randrange(len(listing))
    listing[at] = rng.choice((0, listing[at] + 1, max(listing[at] - 1, 0), len(words), len(text), LARGE, rng.getrandbits(32)))
    return listing


def cases(seed, count):
    """Queues of the records of count cases, by the rules of one of them."""
    rng = random.Random(seed)
    made = list(sheets.cases(seed, count)) + list(judged.cases(seed, count // 3))
    pool = [(record, text) for _, record, text, _, _ in made]
    for label, record, text, rules, rule_text in made:
        few = len(rules) < 6 or rules[-6] <= MANY_SCHEMAS
        records = [(record, text)] + (some_records(rng, pool) if few else [])
        rng.shuffle(records)
        words, texts, listing = joined(records)
        how = 'as it is'
        if rng.random() < 0.2:
            how, listing = 'its listing damaged', damaged(rng, words, texts, listing)
        size = room(words, listing, rules)
        areas = rng.choice(((size, size), (size + 5, size + 3), (size - 1, size), (size, size - 1), (size // 2, size)))
        given = len(listing) // 4
        answers = rng.choice((given, given, given, given + 3, max(given - 1, 0)))
        yield '%s and %d others, %s' % (label, len(records) - 1, how), words, texts, listing, rules, rule_text, (*areas, answers)
