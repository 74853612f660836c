"""Sheets and bundles, as the requirements lay them out: words with their text."""
import struct
from collections import namedtuple

NULL, FALSE, TRUE, NUMBER, STRING, ARRAY, OBJECT = range(7)     # kinds of rows
BUNDLE_MAX = 65_536     # bytes that the bench program reads

Sheet = namedtuple('Sheet', 'words text')       # both as bytes


class Text:
    """The text of a sheet; what is placed twice stands there once."""

    def __init__(self):
        self.bytes, self.ranges = bytearray(), {}

    def place(self, string):
        """Start and length of the string's bytes."""
        if string not in self.ranges:
            encoded = string.encode('utf-8')
            self.ranges[string] = len(self.bytes), len(encoded)
            self.bytes += encoded
        return self.ranges[string]


def leaf(value, text):
    """Kind, first, count of a value that has no children; None for an array, an object or a number out of range."""
    if isinstance(value, str):
        return (STRING,) + text.place(value)
    if value is None or isinstance(value, bool):
        return {None: NULL, False: FALSE, True: TRUE}[value], 0, 0
    if isinstance(value, (list, dict)):
        return None
    scaled = value.scaled()
    return scaled and (NUMBER,) + scaled


def rule_sheet(schemas, clauses, entries, text):
    words = flat(schemas) + flat(clauses) + flat(entries)
    return sheet(words + [len(schemas), len(clauses), len(entries), len(words), len(text.bytes), 2], text)


def sheet(words, text):
    return Sheet(to_bytes(words), bytes(text.bytes))


def rows(record):
    """How many rows a record sheet has."""
    return struct.unpack_from('<I', record.words, len(record.words) - 16)[0]


def record_size(count):
    """Bytes of the words of a record sheet with so many rows."""
    return 4 * (6 * count + 4)


def text_size(words):
    """Bytes of the text of a record sheet, by its words."""
    return struct.unpack_from('<I', words, len(words) - 8)[0]


def schemas(rules):
    """How many schemas a rule sheet has."""
    return struct.unpack_from('<I', rules.words, len(rules.words) - 24)[0]


def flat(lines):
    return [word for line in lines for word in line]


def to_bytes(words):
    words = [word % 2 ** 32 for word in words]
    return struct.pack('<%dI' % len(words), *words)


def bundle(record, rules):
    """What the bench program reads: both sheets, then the byte lengths of the four parts."""
    parts = [record.words, record.text, rules.words, rules.text]
    return b''.join(parts) + to_bytes([len(part) for part in parts])
