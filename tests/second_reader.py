"""The second program's reader of JSON (paper 02, #101), written from the paper and RFC 8259 alone: bytes in, a record
sheet and its text out, or the refusal and its place.

`Parser` goes over the bytes once and stops at the first at which no JSON text can continue (21). What it meets on the
way are values, names and escapes with the byte at which each starts; from these come refusals 22 to 26, and from the
values the sheet, row by row from a queue."""
from collections import deque, namedtuple

LONGEST = 65_536                        # bytes of an input
MOST_VALUES, DEEPEST = 1_024, 32
MOST_DIGITS, MOST_SCALE = 999_999_999, 9
NULL, FALSE, TRUE, NUMBER, STRING, ARRAY, OBJECT = range(7)
SHORT = {0x22: 0x22, 0x5C: 0x5C, 0x2F: 0x2F, 0x62: 8, 0x66: 12, 0x6E: 10, 0x72: 13, 0x74: 9}
BLANK = frozenset(b' \t\n\r')
DIGITS = frozenset(b'0123456789')
HEX = frozenset(b'0123456789abcdefABCDEF')
WORDS = {0x6E: (b'null', NULL), 0x74: (b'true', TRUE), 0x66: (b'false', FALSE)}

# kind, where it starts, its level, its name's bytes or None, and by kind: digits and scale, bytes, or the children
Value = namedtuple('Value', 'kind at level name number bytes children')
# n, words and text; or a refusal's number and place
Reading = namedtuple('Reading', 'n words text number place')


class Stops(Exception):
    """No JSON text goes on with the byte at this place."""


class Parser:
    def __init__(self, data):
        self.data, self.at = data, 0
        self.faults = []                # (place, number) of 22 to 26
        self.values = 0

    # ---- bytes

    def peek(self):
        return self.data[self.at] if self.at < len(self.data) else None

    def stop(self):
        raise Stops(self.at)

    def take(self, allowed):
        """One byte out of those."""
        byte = self.peek()
        if byte is None or byte not in allowed:
            self.stop()
        self.at += 1
        return byte

    def blanks(self):
        while self.peek() in BLANK:
            self.at += 1

    def run(self, allowed):
        start = self.at
        while self.peek() in allowed:
            self.at += 1
        return self.data[start:self.at]

    # ---- strings

    def character(self):
        """The bytes of a character as it stands."""
        start = self.at
        lead = self.peek()
        if lead is None or lead < 0x20 or 0x80 <= lead < 0xC2 or lead > 0xF4:
            self.stop()
        self.at += 1
        if lead < 0x80:
            return bytes([lead])
        low, high = {0xE0: (0xA0, 0xBF), 0xED: (0x80, 0x9F), 0xF0: (0x90, 0xBF), 0xF4: (0x80, 0x8F)}.get(lead, (0x80, 0xBF))
        self.take(range(low, high + 1))
        for _ in range(0 if lead < 0xE0 else 1 if lead < 0xF0 else 2):
            self.take(range(0x80, 0xC0))
        return self.data[start:self.at]

    def string(self):
        """After the opening quote: (code or None, bytes or None, start) of each piece, up to the closing quote."""
        pieces = []
        while True:
            start = self.at
            if self.peek() == 0x22:
                self.at += 1
                return pieces
            if self.peek() != 0x5C:
                pieces.append((None, self.character(), start))
                continue
            self.at += 1
            if self.peek() == 0x75:
                self.at += 1
                pieces.append((int(bytes(self.take(HEX) for _ in range(4)), 16), None, start))
            else:
                pieces.append((None, bytes([SHORT[self.take(SHORT)]]), start))

    def decoded(self, pieces):
        """The bytes of a string; None if it has a lone surrogate, which is a fault at its escape."""
        found, lone, i = b'', False, 0
        while i < len(pieces):
            code, plain, start = pieces[i]
            i += 1
            if code is None:
                found += plain
            elif 0xD800 <= code <= 0xDBFF and i < len(pieces) and 0xDC00 <= (pieces[i][0] or 0) <= 0xDFFF:
                found += chr(0x10000 + (code - 0xD800) * 0x400 + pieces[i][0] - 0xDC00).encode()
                i += 1
            elif 0xD800 <= code <= 0xDFFF:
                self.faults.append((start, 26))
                lone = True
            else:
                found += chr(code).encode()
        return None if lone else found

    # ---- numbers

    def number(self):
        """Digits and scale, or None if it is too wide."""
        negative = self.peek() == 0x2D
        if negative:
            self.at += 1
        whole = bytes([self.take(DIGITS)])
        if whole != b'0':
            whole += self.run(DIGITS)
        part, power = b'', 0
        if self.peek() == 0x2E:
            self.at += 1
            part = bytes([self.take(DIGITS)]) + self.run(DIGITS)
        if self.peek() in (0x45, 0x65):
            self.at += 1
            sign = self.take(b'+-') if self.peek() in (0x2B, 0x2D) else 0x2B
            places = (bytes([self.take(DIGITS)]) + self.run(DIGITS)).lstrip(b'0')
            power = int(places[:30] or b'0') * (-1 if sign == 0x2D else 1)      # 30 digits: larger than any text is long
        digits = (whole + part).lstrip(b'0')
        if not digits:
            return 0, 0
        shown = digits.rstrip(b'0')
        power += len(digits) - len(shown) - len(part)
        if len(shown) > 9 or power > 9 or power < -MOST_SCALE:
            return None
        size, scale = int(shown) * 10 ** max(power, 0), max(-power, 0)
        return None if size > MOST_DIGITS else (-size if negative else size, scale)

    # ---- values

    def begins(self, level):
        """A value starts: what is wrong with that."""
        self.values += 1
        if self.values > MOST_VALUES:
            self.faults.append((self.at, 22))
        if level > DEEPEST:
            self.faults.append((self.at, 24))

    def scalar(self, level, name):
        start, first = self.at, self.peek()
        if first == 0x22:
            self.at += 1
            return Value(STRING, start, level, name, None, self.decoded(self.string()), ())
        if first in WORDS:
            word, kind = WORDS[first]
            for byte in word:
                self.take((byte,))
            return Value(kind, start, level, name, None, None, ())
        if first == 0x2D or first in DIGITS:
            number = self.number()
            if number is None:
                self.faults.append((start, 23))
            return Value(NUMBER, start, level, name, number, None, ())
        self.stop()

    def member_name(self, names):
        """A member's name and the colon; the name is a fault if an earlier sibling has it."""
        start = self.at
        self.take(b'"')
        name = self.decoded(self.string())
        if name is not None and name in names:
            self.faults.append((start, 25))
        names.add(name)
        self.blanks()
        self.take(b':')
        self.blanks()
        return name

    def text(self):
        """The root of the text, which must be all of it."""
        self.blanks()
        root, open_ = None, []          # open_: container and the names in it
        while True:
            name = None
            if open_ and open_[-1][0].kind == OBJECT:
                name = self.member_name(open_[-1][1])
            level = len(open_) + 1
            if self.peek() is None:
                self.stop()
            self.begins(level)
            if self.peek() in b'[{':
                kind = ARRAY if self.peek() == 0x5B else OBJECT
                value = Value(kind, self.at, level, name, None, None, [])
                self.at += 1
                self.blanks()
            else:
                kind, value = None, self.scalar(level, name)
            if open_:
                open_[-1][0].children.append(value)
            else:
                root = value
            if kind is not None:
                open_.append((value, set()))
                if self.peek() != (0x5D if kind == ARRAY else 0x7D):
                    continue
            # a value has ended, or an empty container is to be closed
            first = kind is not None
            while open_:
                self.blanks()
                closing = 0x5D if open_[-1][0].kind == ARRAY else 0x7D
                if first or self.peek() == closing:
                    first = False
                    self.take((closing,))
                    open_.pop()
                else:
                    self.take(b',')
                    self.blanks()
                    break
            if not open_:
                break
        self.blanks()
        if self.at < len(self.data):
            self.stop()
        return root


def sheet(root):
    """The words and the text of a value, rows breadth first."""
    words, text, queue, rows = [], b'', deque([(root, 0, False)]), 1
    while queue:
        value, owner, named = queue.popleft()
        row = len(words) // 6
        label = (len(text), len(value.name)) if named else (0, 0)
        text += value.name if named else b''
        first = count = 0
        if value.kind == NUMBER:
            first, count = value.number[0] % 2 ** 32, value.number[1]
        elif value.kind == STRING:
            first, count = len(text), len(value.bytes)
            text += value.bytes
        elif value.children:
            first, count = rows, len(value.children)
            rows += count
            queue.extend((child, row, value.kind == OBJECT) for child in value.children)
        words += [value.kind, first, count, owner, *label]
    return words + [rows, 6 * rows, len(text), 1], text


def read(data, lent_words, lent_text):
    """What reading gives where so many words and bytes are lent."""
    if len(data) > LONGEST:
        return Reading(None, None, None, 20, 0)
    parser = Parser(data)
    try:
        root = parser.text()
    except Stops as stopped:
        return Reading(None, None, None, 21, stopped.args[0])
    if parser.faults:
        place, number = min(parser.faults)
        return Reading(None, None, None, number, place)
    words, text = sheet(root)
    if len(words) > lent_words:
        return Reading(None, None, None, 27, len(words))
    if len(text) > lent_text:
        return Reading(None, None, None, 28, len(text))
    return Reading(words[-4], words, text, None, None)
