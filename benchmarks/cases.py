"""The benchmark's cases: a record as JSON and rules as a sheet and, where draft 4 can say the same, a schema for
rapidjson.

Schemas go through the command's converter, and records are read by the library. Only names and strings that overlap in
their text are written word by word, as no JSON has them.
"""
import json
from collections import namedtuple

from tools import keywords, schemas, sheets
from tools.reading import read_json
from tools.references import References

# text is the record's JSON, or None where record is its sheet; rules are a sheet; schema is that for rapidjson, None if it
# is not asked.
Case = namedtuple('Case', 'name text record rules schema')
SAME = object()     # rapidjson is asked by the schema that we judge by


def case(name, schema, value, draft4=SAME):
    """A case of JSON; draft4 says the same for rapidjson, or is None if that draft cannot."""
    rules = schemas.rules_of(References(read_json(json.dumps(schema).encode())))
    return Case(name, json.dumps(value).encode(), None, rules.sheet, schema if draft4 is SAME else draft4)


def defined(name):
    return {'$ref': '#/definitions/' + name}


def closed(properties, required=(), by='additionalProperties'):
    """An object with these members and no others."""
    schema = {'type': 'object', 'properties': properties, by: False}
    return dict(schema, required=list(required)) if required else schema


def text(least, most):
    return {'type': 'string', 'minLength': least, 'maxLength': most}


def whole(least, most):
    return {'type': 'integer', 'minimum': least, 'maximum': most}


# ---- passages of a trail junction, from a gate's few members to a form that has everything

BIB, CLOCK, WORD = whole(1, 9999), whole(0, 86399), text(1, 40)
TOWARDS = {'enum': ['summit', 'valley', 'finish']}
RUNNER = closed({'name': WORD, 'club': WORD, 'born': whole(1900, 2026), 'nation': text(3, 3)}, ['name'])
JUNCTION = closed({'name': WORD, 'km': {'type': 'number', 'minimum': 0, 'maximum': 330},
                   'altitude': whole(-420, 4810)}, ['name', 'km'])
LEG = closed({'bib': defined('bib'), 'at': defined('clock'), 'minutes': {'type': 'number', 'minimum': 0},
              'handover': text(2, 20)}, ['bib', 'at'])
DEFINITIONS = {'bib': BIB, 'clock': CLOCK, 'runner': RUNNER, 'junction': JUNCTION, 'leg': LEG}
ONE_RUNNER = {'name': 'A. Kowalski', 'club': 'Wierchy', 'born': 1991}


def passage(missing=None):
    """The anyOf marks a member that the unevaluatedProperties beside it then allows; draft 4 has to name both."""
    def schema(by, either):
        runner = closed({'name': WORD, 'team': WORD}, ['name'], by)
        known = dict({'bib': BIB, 'junction': WORD, 'time': {'type': 'number', 'minimum': 0}}, **either)
        return dict(closed(known, ['bib', 'junction', 'time'], by),
                    anyOf=[{'required': ['runner'], 'properties': {'runner': runner}},
                           {'required': ['team'], 'properties': {'team': WORD}}])

    value = {'bib': 1042, 'junction': 'Przelecz Karb', 'time': 36125,
             'runner': {'name': 'A. Kowalski', 'team': 'Wierchy'}}
    value = {name: value[name] for name in value if name != missing}
    return case('a passage without its ' + missing if missing else 'a passage', schema('unevaluatedProperties', {}), value,
                schema('additionalProperties', {'runner': {}, 'team': {}}))


def flat():
    members = {'bib': BIB, 'gate': text(2, 12), 'at': CLOCK, 'towards': TOWARDS}
    schema = {'type': 'object', 'required': list(members), 'properties': members}
    return case('flat: four members', schema, {'bib': 712, 'gate': 'lake-2', 'at': 28860, 'towards': 'valley'})


def full():
    """30 rows and 40 schemas, of which the record meets half."""
    weather = closed({'sky': {'enum': ['clear', 'cloud', 'fog', 'snow']}, 'wind': whole(0, 60),
                      'degrees': {'type': 'number', 'minimum': -40, 'maximum': 50}, 'damp': whole(0, 100)})
    penalty = closed({'minutes': whole(1, 120), 'why': text(1, 200), 'by': text(2, 60)}, ['minutes', 'why'])
    aid = closed({'kind': {'enum': ['water', 'food', 'medic']}, 'stay': whole(0, 7200), 'note': text(0, 400)}, ['kind'])
    members = {
        'race': text(3, 30), 'bib': defined('bib'), 'towards': TOWARDS, 'junction': defined('junction'),
        'runner': defined('runner'),
        'splits': {'type': 'array', 'maxItems': 32, 'items': {'type': 'integer', 'minimum': 0}},
        'relay': {'type': 'array', 'maxItems': 6, 'items': defined('leg')},
        'chip': text(8, 8), 'marshal': text(1, 60), 'phone': text(6, 20), 'retired': {'enum': [True]},
        'gear': {'type': 'array', 'items': text(2, 16)},
        'weather': weather, 'penalties': {'type': 'array', 'maxItems': 9, 'items': penalty},
        'aid': {'type': 'array', 'items': aid}}
    leg = {'bib': 712, 'at': 28860, 'minutes': 41.5}
    value = {'race': 'Tatra 2026', 'bib': 712, 'towards': 'summit', 'runner': ONE_RUNNER,
             'junction': {'name': 'Karb', 'km': 17.25, 'altitude': 1853},
             'splits': [312, 641, 977, 1310, 1655, 2001, 2340, 2699], 'relay': [leg, dict(leg, bib=713)]}
    schema = dict(closed(members, ['race', 'bib', 'junction']), definitions=DEFINITIONS)
    return case('full: 30 rows, 40 schemas', schema, value)


def unevaluated():
    """What two definitions and one of two alternatives name is allowed, and nothing else; draft 4 cannot say it."""
    named = {'type': 'object', 'required': ['bib', 'towards'],
             'properties': {'bib': defined('bib'), 'towards': TOWARDS}}
    timed = {'type': 'object', 'required': ['at', 'junction'],
             'properties': {'at': defined('clock'), 'junction': defined('junction')}}
    alone = {'required': ['runner'], 'properties': {'runner': defined('runner')}}
    relay = {'required': ['relay'], 'properties': {'relay': {'type': 'array', 'items': defined('leg')}}}
    schema = {'definitions': dict(DEFINITIONS, named=named, timed=timed), 'anyOf': [relay, alone],
              'allOf': [defined('named'), defined('timed')], 'unevaluatedProperties': False}
    value = {'bib': 712, 'towards': 'summit', 'at': 28860, 'junction': {'name': 'Karb', 'km': 17.25},
             'runner': ONE_RUNNER}
    return case('unevaluated over allOf, anyOf', schema, value, None)


# ---- one thing that grows

def names(n):
    return ['m%04d' % i for i in range(n)]


def numbered(n):
    return {name: i for i, name in enumerate(names(n))}


def members(n):
    return case('members', {'additionalProperties': {'type': 'number'}}, numbered(n))


def required(n):
    return case('required', {'required': names(n)}, numbered(n))


def properties(n):
    return case('properties in order', {'properties': dict.fromkeys(names(n), {'type': 'number'})}, numbered(n))


def reversed_properties(n):
    return case('properties reversed', {'properties': dict.fromkeys(names(n)[::-1], {'type': 'number'})}, numbered(n))


def additional(n):
    known = dict.fromkeys(names(n), {'type': 'number'})
    return case('and additionalProperties', {'properties': known, 'additionalProperties': False}, numbered(n))


def rule_names(n):
    return case('names in one rule list', {'required': names(n)}, 1)


def chain(n):
    """Each schema applies the next twice, so that a validator that does not remember takes 2^n steps."""
    twice = [[defined('s%d' % i)] * 2 for i in range(1, n)]
    links = {'s%d' % i: {'allOf': both} for i, both in enumerate(twice[1:], 1)}
    schema = {'allOf': twice[0], 'definitions': dict(links, **{'s%d' % (n - 1): {'type': 'number'}})}
    return case('chain, each link twice', schema, 7, SAME if n <= RAPIDJSON_CHAIN else None)


RAPIDJSON_CHAIN = 24
SIZES, CHAINS = (16, 64, 256, 1023), (4, 8, 16, 31)
FAMILIES = [(family, SIZES) for family in (members, required, properties, reversed_properties, additional, rule_names)]
FAMILIES.append((chain, CHAINS))


def splits(n):
    return case('%d splits' % n, {'type': 'array', 'items': {'type': 'integer', 'minimum': 0}},
                list(range(0, 7 * n, 7)))


SHARED = 'the-same-long-beginning-of-every-name-of-an-organiser-60-bytes'[:60]


def shared(n, name, make):
    """n members against a `properties` of their names in another order; what the names share is as long as SHARED."""
    known = [make('%03d' % i) for i in range(n)]
    return case(name, {'properties': dict.fromkeys(known[::-1], {'type': 'number'})}, {k: i for i, k in enumerate(known)})


def shared_beginnings(n):
    return shared(n, '%d names that begin alike' % n, lambda i: SHARED + i)


def shared_endings(n):
    return shared(n, '%d names that end alike' % n, lambda i: i + SHARED)


def many_schemas(n):
    """A record that meets two of n schemas."""
    known = {'p%03d' % i: {'type': 'integer', 'minimum': i, 'maximum': 1000 + i} for i in range(n - 1)}
    return case('%d schemas, one member' % n, {'type': 'object', 'properties': known}, {'p003': 40})


def million_pairs():
    """1,023 elements, each judged by all schemas but the first."""
    schema = {'items': {'allOf': [{'maximum': 2000 + i} for i in range(1022)]}}
    return case('a million pairs', schema, list(range(1023)))


def table():
    return [passage(), passage(missing='bib'), flat(), full(), unevaluated(), members(1023)._replace(name='1,023 members'), splits(200),
            properties(100)._replace(name='100 properties in order'),
            reversed_properties(100)._replace(name='100 properties reversed'), shared_beginnings(200),
            shared_endings(200), many_schemas(300),
            chain(24)._replace(name='chain of 24, each link twice'), million_pairs()]


# ---- texts to be read that are as long as may be, made of one thing

TEXT_SIZES = (4_096, 16_384, 65_536)


def filled(size, before, part, after):
    """A text of about that many bytes."""
    return before + part * ((size - len(before) - len(after)) // len(part)) + after


def spread(size, parts, opening, closing):
    """A text of about that many bytes: the parts, with blanks between them."""
    blanks = b' ' * ((size - sum(map(len, parts))) // len(parts) - 1)
    return opening + (b',' + blanks).join(parts) + closing


def texts():
    """(what they are made of, a text of each of TEXT_SIZES)."""
    values = lambda size: spread(size, [b'0'] * 1023, b'[', b']')
    long_names = lambda size: spread(size, [b'"%s%04d":0' % (b'x' * 50, i) for i in range(size // 66)], b'{', b'}')
    for name, made in (('opening brackets', lambda size: b'[' * size),
                       ('a string of escapes', lambda size: filled(size, b'"', b'\\u0061', b'"')),
                       ('a plain string', lambda size: filled(size, b'"', b'a', b'"')),
                       ('digits of one number', lambda size: filled(size, b'0.', b'7', b'')),
                       ('1,024 values', values), ('names that begin alike', long_names)):
        yield name, [made(size) for size in TEXT_SIZES]


# ---- names that overlap in their text

NAME_BYTES, TEXT_BYTES, OVERLAPS = 59_000, 65_535, (100, 1000)


def overlapping():
    """A text in which names of NAME_BYTES, each a byte on, are alike up to their last bytes, and none is another."""
    one = sheets.Text()
    one.bytes += b'a' * (NAME_BYTES - 1) + b'b' + b'a' * (TEXT_BYTES - NAME_BYTES)
    return one


def record_sheet(rows, text):
    return sheets.sheet(sheets.flat(rows) + [len(rows), 6 * len(rows), len(text.bytes), 1], text)


def overlapping_record(n):
    rows = [(sheets.OBJECT, 1, n, 0, 0, 0)] + [(sheets.NULL, 0, 0, 0, i, NAME_BYTES) for i in range(n)]
    return record_sheet(rows, overlapping())


def overlapping_rules(n, clauses):
    """Schema 0 has the clauses, over n names that come in the other order than the record's; schema 1 allows all."""
    entries = [(i, NAME_BYTES, 1 if clauses[0] == keywords.PROPERTIES else 0) for i in reversed(range(n))]
    listed = [(code, 0, n) if code in (keywords.REQUIRED, keywords.PROPERTIES) else (code, 1, 0) for code in clauses]
    return sheets.rule_sheet([(0, len(clauses)), (len(clauses), 0)], listed, entries, overlapping())


STRING_BYTES = 60_000


def overlapping_strings(n, end):
    """An array of n strings of STRING_BYTES, each a character on in a text of two-byte characters that ends with `end`."""
    one = sheets.Text()
    one.bytes += 'ż'.encode() * (TEXT_BYTES // 2) + end
    rows = [(sheets.ARRAY, 1, n, 0, 0, 0)] + [(sheets.STRING, 2 * i, STRING_BYTES, 0, 0, 0) for i in range(n)]
    return record_sheet(rows, one)


def no_rules():
    return sheets.rule_sheet([(0, 0)], [], [], sheets.Text())


def hostile():
    """(what has such names or strings, cases of OVERLAPS)."""
    ways = [('the record alone', None), ('both: required', (keywords.REQUIRED,)),
            ('both: properties', (keywords.PROPERTIES,)),
            ('both: and additionalProperties', (keywords.PROPERTIES, keywords.SCHEMAS['additionalProperties']))]
    for name, clauses in ways:
        yield name, [Case('%s, %d' % (name, n), None, overlapping_record(n),
                          overlapping_rules(n, clauses) if clauses else no_rules(), None) for n in OVERLAPS]
    for name, end in (('strings, UTF-8', b''), ('strings, and a byte that is none', b'\xff')):
        yield name, [Case('%s, %d' % (name, n), None, overlapping_strings(n, end), no_rules(), None) for n in OVERLAPS]
