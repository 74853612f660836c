"""The JSON text of a schema, read exactly: numbers as written, no repeated member names, nothing that UTF-8 cannot hold.
Records are read by the library.

A value is None, True, False, a Number, a str, a list or an Object.
"""
import json
import re
from collections import deque

from tools.fault import CannotJudge, pointer, refuse_if_any

BYTES_MAX = 4 << 20     # of a schema document: one that the judge takes is shorter, unless it is mostly blanks
MARK_OF_UTF8 = b'\xef\xbb\xbf'
STRING_OR_CONSTANT = re.compile(r'"(?:[^"\\]|\\.)*"|NaN|-?Infinity', re.DOTALL)


class Number:
    """A JSON number: its literal, and the same as sign, digits without zeros at either end, and a power of ten."""

    DIGITS_MAX = 9      # of a number in a sheet
    SCALE_MAX = 9
    WORD_MAX = 2 ** 32 - 1

    def __init__(self, literal):
        mantissa, _, power = literal.lower().partition('e')
        whole, _, part = mantissa.lstrip('-').partition('.')
        digits = (whole + part).lstrip('0')
        self.literal = literal
        self.negative = mantissa.startswith('-')
        self.digits = digits.rstrip('0')
        self.power = exponent(power) - len(part) + len(digits) - len(self.digits)

    def scaled(self):
        """(first, count) with the number first / 10^count, as a sheet has it; None if it is out of a sheet's range."""
        if not self.digits:
            return 0, 0
        if len(self.digits) + max(self.power, 0) > self.DIGITS_MAX or -self.power > self.SCALE_MAX:
            return None
        first = int(self.digits) * 10 ** max(self.power, 0)
        return -first if self.negative else first, max(-self.power, 0)

    def size(self):
        """The number as a length or count; None if it is not whole, below 0 or more than a word holds."""
        if not self.digits:
            return 0
        if self.negative or self.power < 0 or len(self.digits) + self.power > len(str(self.WORD_MAX)):
            return None
        whole = int(self.digits) * 10 ** self.power
        return whole if whole <= self.WORD_MAX else None

    def out_of_range(self):
        return 'the number %s is out of range: at most %d digits, and %d places after the point' % (
            self, self.DIGITS_MAX, self.SCALE_MAX)

    def __str__(self):
        return self.literal if len(self.literal) <= 40 else self.literal[:37] + '...'


def exponent(power):
    """The power of ten as written; any power of more than 12 digits counts as one of 12: both are out of range."""
    digits = power.lstrip('+-').lstrip('0') or '0'
    size = int(digits) if len(digits) <= 12 else 10 ** 12
    return -size if power.startswith('-') else size


class Object(dict):
    """The members of a JSON object; repeated are the names that come a second time."""

    def __init__(self, members):
        super().__init__(members)
        self.repeated = ()
        if len(self) < len(members):
            seen = set()
            self.repeated = tuple(dict.fromkeys(name for name, _ in members if name in seen or seen.add(name)))


def read_some(file):
    """The bytes of an open file, refused as soon as they are too many."""
    data = file.read(BYTES_MAX + 1)
    if len(data) > BYTES_MAX:
        raise CannotJudge('more than %d bytes of JSON' % BYTES_MAX)
    return data


def without_mark(data):
    """The bytes without the mark that some programs put before UTF-8."""
    return data[len(MARK_OF_UTF8):] if data.startswith(MARK_OF_UTF8) else data


def read_json(data):
    """The value that the bytes are the JSON text of."""
    text = decoded(without_mark(data))
    try:
        value = json.loads(text, parse_int=Number, parse_float=Number, parse_constant=no_value,
                           object_pairs_hook=Object)
    except json.JSONDecodeError as fault:
        words = fault.msg[:1].lower() + fault.msg[1:]
        raise not_json(re.sub('( starting)? at$|: *$', '', words), fault.lineno, fault.colno)
    except ConstantFound as fault:
        raise not_json('%s is no JSON value' % fault, *line_and_column(text, constant_at(text)))
    except RecursionError:
        raise CannotJudge('nested too deeply to be read')
    refuse_names_and_strings(value)
    return value


def decoded(data):
    try:
        return data.decode('utf-8')
    except UnicodeDecodeError as fault:
        before = data[:fault.start].decode('utf-8')
        raise not_json('byte 0x%02x is not UTF-8' % data[fault.start], *line_and_column(before, len(before)))


def not_json(words, line, column):
    return CannotJudge('not JSON: ' + words, 'line %d, column %d' % (line, column))


def line_and_column(text, at):
    return text.count('\n', 0, at) + 1, at - text.rfind('\n', 0, at)


class ConstantFound(Exception):
    """NaN, Infinity or -Infinity, which Python's reader would take."""


def no_value(name):
    raise ConstantFound(name)


def constant_at(text):
    """Where the first constant stands that is not inside a string."""
    return next(found.start() for found in STRING_OR_CONSTANT.finditer(text) if not found.group().startswith('"'))


def refuse_names_and_strings(value):
    """Refuses repeated member names, and strings and names that have no UTF-8 form: all of them."""
    faults, to_visit = [], deque([((), value)])
    while to_visit:
        tokens, value = to_visit.popleft()
        if isinstance(value, str):
            faults += lone_surrogate(value, tokens)
        elif isinstance(value, Object):
            faults += [CannotJudge('two members of this name', pointer(tokens + (name,))) for name in value.repeated]
            for name, member in value.items():
                faults += lone_surrogate(name, tokens)
                to_visit.append((tokens + (name,), member))
        elif isinstance(value, list):
            to_visit.extend((tokens + (str(place),), item) for place, item in enumerate(value))
    refuse_if_any(faults)


def lone_surrogate(string, tokens):
    if string.isascii() or not any('\ud800' <= character <= '\udfff' for character in string):
        return []
    return [CannotJudge('a lone surrogate, which UTF-8 cannot hold', pointer(tokens))]
