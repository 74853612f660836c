"""What is wrong with a value by itself, in words: the tests of clauses that apply no schema, and how values are shown.

Verdicts are the judge's. Which of a failed schema's own tests failed is looked up here, as no pair tells it.
"""
from fractions import Fraction

from tools.keywords import ENUM, NEVER, TYPE, TYPES
from tools.reading import Number
from tools.structured import json_text

BOUNDS = {10: ('at least', lambda value, bound: value >= bound), 11: ('at most', lambda value, bound: value <= bound),
          12: ('above', lambda value, bound: value > bound), 13: ('below', lambda value, bound: value < bound),
          14: ('a multiple of', lambda value, bound: (value / bound).denominator == 1)}
UNITS = {20: 'character', 21: 'character', 22: 'item', 23: 'item', 24: 'member', 25: 'member'}
VALUE_MAX, LIST_MAX = 40, 80        # characters of a value, and of a list, in a message


def test_words(clause, value):
    """What is wrong with a value under a clause that applies no schema; None if nothing is."""
    if clause.code == NEVER:
        return 'not allowed here'
    if clause.code == TYPE:
        return type_words(clause.fields[0], value)
    if clause.code == ENUM:
        return enum_words(clause, value)
    if clause.code in BOUNDS:
        words, holds = BOUNDS[clause.code]
        bound = decimal(clause.fields)
        return None if holds(decimal(value.scaled()), bound) else 'is %s, must be %s %s' % (value, words, number(bound))
    if clause.code in UNITS:
        return size_words(clause, value)
    missing = [entry.name for entry in clause.entries if entry.name not in value]
    return 'missing ' + listed(map(shown, missing), ', ', ', and %d more %s', 'name') if missing else None


def decimal(scaled):
    return Fraction(scaled[0], 10 ** scaled[1])


def number(value):
    """A decimal as it is written."""
    digits = str(abs(value) * 10 ** 9 // 1).rjust(10, '0')
    return ('-' if value < 0 else '') + (digits[:-9] + '.' + digits[-9:]).rstrip('0').rstrip('.')


def type_words(wanted, value):
    if any(TYPES[name] & wanted for name in types_of(value)):
        return None
    return 'is %s, must be %s' % (found(value), ' or '.join(name for name, bit in TYPES.items() if bit & wanted))


def types_of(value):
    if isinstance(value, Number):
        return ['number', 'integer'] if decimal(value.scaled()).denominator == 1 else ['number']
    if value is None or isinstance(value, bool):
        return ['null' if value is None else 'boolean']
    return [{str: 'string', list: 'array'}.get(type(value), 'object')]


def enum_words(clause, value):
    if not isinstance(value, (list, dict)) and any(same(value, entry.value) for entry in clause.entries):
        return None
    return must_be_one_of(value, [json_text(entry.value) for entry in clause.entries])


def must_be_one_of(value, texts):
    return 'is %s, must be %s' % (found(value), one_of(texts))


def same(value, other):
    if isinstance(value, Number) and isinstance(other, Number):
        return value.scaled() == other.scaled()
    return type(value) is type(other) and value == other


def size_words(clause, value):
    size = len(value)
    limit, at_least = clause.fields[0], clause.code % 2 == 0
    if size >= limit if at_least else size <= limit:
        return None
    return '%shas %s, must have at %s %d' % (found(value) + ' ' if isinstance(value, str) else '',
                                             counted(size, UNITS[clause.code]), 'least' if at_least else 'most', limit)


def contained_words(count, least, most):
    """Which of contains and its two bounds is not kept, and in words, if so many items fit."""
    if least <= count <= most:
        return 'contains', None
    few = count < least
    keyword = 'contains' if few and least == 1 else 'minContains' if few else 'maxContains'
    fit = '%s that fit%s contains' % (counted(count, 'item'), 's' if count == 1 else '')
    return keyword, 'has %s, must have at %s' % (fit, 'least %d' % least if few else 'most %d' % most)


# ---- values and lists, not longer than one likes to read ----

def counted(count, what):
    return '%d %s%s' % (count, what, '' if count == 1 else 's')


def shown(value):
    return cut(json_text(value))


def cut(text, length=VALUE_MAX):
    return text if len(text) <= length else text[:length - 3] + '...'


def found(value):
    """A value as it stands in a record: its JSON text if that is short, else what kind of value it is."""
    text = json_text(value)
    if len(text) <= VALUE_MAX or not isinstance(value, (list, dict)):
        return cut(text)
    return 'an array of %s' % counted(len(value), 'item') if isinstance(value, list) else (
        'an object of %s' % counted(len(value), 'member'))


def listed(texts, between, rest, what):
    """The texts up to LIST_MAX characters, at least one; then rest with how many more there are, and of what."""
    texts, length, count = list(texts), 0, 0
    while count < len(texts) and (count == 0 or length + len(texts[count]) <= LIST_MAX):
        length += len(texts[count]) + len(between)
        count += 1
    more = len(texts) - count
    return between.join(texts[:count]) + (rest % (more, what + ('' if more == 1 else 's')) if more else '')


def one_of(texts):
    texts = [cut(text, LIST_MAX) for text in texts]
    if len(', '.join(texts)) <= LIST_MAX and len(texts) > 1:
        return '%s or %s' % (', '.join(texts[:-1]), texts[-1])
    return listed(texts, ', ', ' or one of %d more %s', 'value')


def all_of(texts, what):
    if len(texts) == 2:
        return ' and '.join(texts)
    return listed(texts, ', ', ' and %d more %s', what)
