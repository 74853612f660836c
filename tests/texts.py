"""JSON texts for the tests of reading (paper 02, #101), each with a label: good ones in many spellings, each refusal on
both sides of its limit, two faults in one text, damaged and cut ones, and bytes at random."""
import random

BLANKS = (b'', b'', b'', b' ', b'\n', b'\t', b'\r\n', b'  ')
SHORT = {'"': b'\\"', '\\': b'\\\\', '/': b'\\/', '\b': b'\\b', '\f': b'\\f', '\n': b'\\n', '\r': b'\\r', '\t': b'\\t'}
CHARACTERS = 'ab"\\/\b\f\n\r\t\0\x1f \x7f\x80é߿ࠀ€\ud7ff\ue000�￿\U00010000😀\U0010ffff'
NUMBERS = ('0', '-0', '1', '-1', '7', '10', '999999999', '-999999999', '1.0', '1e3', '1E+3', '10e-1', '0.1', '0.000000001',
           '-0.5e1', '123456789', '12345678.9', '0e999999', '-0.000e-77', '1000000000e-1', '0.1000000000000', '999999999.0',
           '100e-11', '1e0000000000000000003', '1.5', '-2.25', '3e8', '0.0', '5e-9', '999999999e-9', '1e8', '90e7')
WIDE = ('1e9', '1e-10', '1000000000', '-1000000000', '1234567.891', '0.1234567891', '1e99999999999999999999', '9999999999',
        '1e-99999999999999999999', '0.0000000001', '99999999.99', '1.0000000001')
BROKEN = ('', ' ', '\n\t', '01', '-01', '1.e5', '-', '1e', '1e+', '1.', 'tru', 'trux', 'nan', 'NaN', 'Infinity', '-Infinity', '+1',
          '.5', '[1,]', '[,1]', '[', ']', '{', '}', '{"a":1,}', '{,}', '[1 2]', '1 2', '{} x', '"\\x"', '"\\u12g4"', '{1', '[12', '"a',
          '"\\', '"\\u', '"\\u00', '{"a"', '{"a":', '{"a":1', '{"a":1,', '{"a" 1}', '{a:1}', "'a'", '[]]', '{}}', '[}', '{]',
          '"a\nb"', '"a\tb"', '"\0"', '"\x1f"', '// x', '/**/1', 'nul', 'null null', 'truefalse', '0x1', '1_0', '--1', '1e1.5', '\ufeff1',
          '[1]\x00', '\x0b1', '\xa01')


def spelled(rng, text, escapes):
    """A string in quotes; some of its characters as escapes."""
    out = b'"'
    for character in text:
        code = ord(character)
        if character in '"\\' or code < 0x20 or rng.random() < escapes:
            if character in SHORT and rng.random() < 0.6:
                out += SHORT[character]
            else:
                units = character.encode('utf-16-be', 'surrogatepass')
                form = rng.choice((b'\\u%04x', b'\\u%04X'))
                out += b''.join(form % int.from_bytes(units[i:i + 2], 'big') for i in range(0, len(units), 2))
        else:
            out += character.encode()
    return out + b'"'


class Writer:
    """Random values as texts; `left` values may still be written."""

    def __init__(self, rng, left, escapes, blanks):
        self.rng, self.left, self.escapes, self.blanks = rng, left, escapes, blanks

    def space(self):
        return self.rng.choice(BLANKS) if self.blanks else b''

    def string(self):
        picked = (self.rng.choice(CHARACTERS) if self.rng.random() < 0.5 else self.rng.choice('abcdefgh')
                  for _ in range(self.rng.choice((0, 1, 2, 3, 5, 9))))
        return spelled(self.rng, ''.join(picked), self.escapes)

    def names(self, count):
        """Names that differ, numbered at one end."""
        shared = ''.join(self.rng.choice('abcé') for _ in range(self.rng.choice((0, 1, 8, 40))))
        front = self.rng.random() < 0.5
        return [spelled(self.rng, '%d%s' % (i, shared) if front else '%s%d' % (shared, i), self.escapes) for i in range(count)]

    def value(self, depth):
        self.left -= 1
        kind = self.rng.randrange(8 if depth > 1 else 5)
        if kind < 2:
            return self.rng.choice((b'null', b'true', b'false')) if kind == 0 else self.rng.choice(NUMBERS).encode()
        if kind < 5:
            return self.string() if kind < 4 else self.rng.choice(NUMBERS).encode()
        count = min(self.left, self.rng.choice((0, 1, 2, 3, 4, 7)))
        names = self.names(count) if kind > 5 else [None] * count
        parts = []
        for name in names:
            if self.left <= 0:
                break
            item = self.value(depth - 1)
            parts.append(self.space() + (name + self.space() + b':' + self.space() if name else b'') + item + self.space())
        inside = b','.join(parts) or self.space()
        return b'{' + inside + b'}' if kind > 5 else b'[' + inside + b']'

    def text(self, depth):
        return self.space() + self.value(depth) + self.space()


def good(rng):
    return Writer(rng, rng.choice((1, 5, 20, 60)), rng.choice((0, 0, 0.1, 0.5, 1)), rng.random() < 0.5).text(rng.choice((1, 2, 3, 5, 9)))


def limits():
    """Both sides of each limit, and two faults in one text."""
    for text in BROKEN:
        yield 'broken', text.encode()
    for number in NUMBERS + WIDE:
        yield 'number', number.encode()
        yield 'number', b'[' + number.encode() + b',0]'
    yield 'number', b'0.' + b'0' * 60_000 + b'1e60001'
    yield 'number', b'1' + b'0' * 60_000 + b'e-60000'
    yield 'number', b'[' + b'9' * 65_000 + b']'
    for size in (65_535, 65_536, 65_537):
        yield 'long', b' ' * size
        yield 'long', b' ' * (size - 1) + b'1'
        yield 'long', b'"' + b'a' * (size - 2) + b'"'
        yield 'long', b'[' * size
        yield 'long', (b'[0' + b',0' * 40_000)[:size - 1] + b']'
    for count in (1_022, 1_023, 1_024, 1_025):
        yield 'values', b'[' + b','.join([b'0'] * count) + b']'
        yield 'values', b'{' + b','.join(b'"%d":[]' % i for i in range(count)) + b'}'
        yield 'values', b'[' + b','.join([b'[1]'] * (count // 2)) + b',0]'
    for depth in (1, 31, 32, 33, 34, 40, 200):
        yield 'levels', b'[' * depth + b']' * depth
        yield 'levels', b'[' * depth + b'1' + b']' * depth
        yield 'levels', b'{"a":' * depth + b'{}' + b'}' * depth
        yield 'levels', (b'[{"k":' * depth)[:6 * (depth // 2)] + b'"x"' + b'}]' * (depth // 2)
    for text in ('{"a":1,"a":2}', '{"a":1,"\\u0061":2}', '{"a":{"a":1},"b":{"a":2}}', '{"":1,"":2}', '{"a":{"x":1,"x":2},"a":3}',
                 '{"é":1,"\\u00e9":2}', '{"\\ud83d\\ude00":1,"😀":2}', '[{"a":1},{"a":2}]', '{"a":1,"b":2,"c":3,"b":4,"a":5}',
                 '{"ab":1,"a":2,"b":3}', '{"a":[{"b":1,"b":2}],"a":1}'):
        yield 'names', text.encode()
    for units in ('\\ud800', '\\udc00', '\\udfff', '\\udbff', '\\ud800\\ud800\\udc00', '\\ud800\\udc00\\udc00', '\\ud800\\n\\udc00',
                  '\\ud800a\\udc00', '\\ud800\\u0061', '\\uD83D\\uDE00', '\\ud7ff\\ue000', '\\udc00\\ud800', '\\u0000'):
        yield 'surrogates', b'"' + units.encode() + b'"'
        yield 'surrogates', b'{"' + units.encode() + b'":1}'
        yield 'surrogates', b'{"a' + units.encode() + b'":1,"a' + units.encode() + b'":1e9}'
    for first in (b'1e9', b'"\\ud800"', b'{"a":1,"a":2}', b'[' * 33 + b']' * 33):
        for then in (b'1e9', b'"\\udc00"', b'{"b":1,"b":2}', b'[' * 33 + b']' * 33, b'01', b'"\xff"'):
            yield 'two faults', b'[' + first + b',' + then + b']'
    yield 'two faults', b'[' + b','.join([b'0'] * 1_023) + b',1e9]'
    yield 'two faults', b'[' * 32 + b','.join([b'1'] * 1_100) + b']' * 32
    for bad in (b'\x80', b'\xc0\x80', b'\xc1\xbf', b'\xc3', b'\xe0\x80\x80', b'\xe0\x9f\xbf', b'\xed\xa0\x80', b'\xed\xbf\xbf',
                b'\xf0\x80\x80\x80', b'\xf0\x8f\xbf\xbf', b'\xf4\x90\x80\x80', b'\xf5\x80\x80\x80', b'\xff', b'\xe2\x82', b'\xf0\x9f\x98'):
        yield 'UTF-8', b'"' + bad + b'"'
        yield 'UTF-8', b'{"' + bad + b'":1}'
        yield 'UTF-8', bad
        yield 'UTF-8', b'"' + bad
    for pattern in (b'\\u0061', b'\\n', '😀'.encode()):
        yield 'long', b'"' + pattern * ((65_534) // len(pattern)) + b'"'


def damaged(rng, text):
    """Every cut of a text, and every byte of it changed once."""
    for end in range(len(text)):
        yield 'cut', text[:end]
    for at in range(len(text)):
        byte = rng.choice(b'0"\\{}[],:e.-\x00\x80\xff aux')
        yield 'damaged', text[:at] + bytes([byte]) + text[at + 1:]


def texts(seed, count):
    """At least `count` texts."""
    rng = random.Random(seed)
    made = 0
    for label, text in limits():
        made += 1
        yield label, text
    for _ in range(12):
        for label, text in damaged(rng, good(rng)[:160]):
            made += 1
            yield label, text
    while made < count:
        made += 1
        if rng.random() < 0.1:
            yield 'at random', bytes(rng.choice(b'{}[]:,"0123e.-\\untrfals \n\xc3\xa9') for _ in range(rng.randrange(24)))
        else:
            yield 'good', good(rng)
