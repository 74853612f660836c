"""A record sheet as JSON values, by its rows: what a cause is told by."""
import struct
from collections import namedtuple
from fractions import Fraction

from tools import sheets
from tools.reading import Number
from tools.words import number

# Row j is rows[j]; values[j] is the JSON value and places[j] the tokens of its pointer.
Record = namedtuple('Record', 'rows values places')
SIMPLE = {sheets.NULL: None, sheets.FALSE: False, sheets.TRUE: True}


def record_of(sheet):
    rows = list(struct.iter_unpack('<6I', sheet.words[:-16]))
    names = [text_at(sheet, *row[4:]) for row in rows]
    values = [None] * len(rows)
    for j in reversed(range(len(rows))):            # children stand after their owner
        values[j] = value_of(sheet, rows[j], names, values)
    places = [()]
    for j, row in enumerate(rows[1:], 1):
        kind, first = rows[row[3]][:2]
        places.append(places[row[3]] + (names[j] if kind == sheets.OBJECT else str(j - first),))
    return Record(rows, values, places)


def value_of(sheet, row, names, values):
    """The value of a row, those of its children being known."""
    kind, first, count = row[:3]
    if kind == sheets.NUMBER:
        return Number(number(Fraction(first - (first >> 31 << 32), 10 ** count)))
    if kind == sheets.STRING:
        return text_at(sheet, first, count)
    children = range(first, first + count)
    if kind == sheets.ARRAY:
        return [values[k] for k in children]
    return {names[k]: values[k] for k in children} if kind == sheets.OBJECT else SIMPLE[kind]


def text_at(sheet, start, length):
    return sheet.text[start:start + length].decode('utf-8')
