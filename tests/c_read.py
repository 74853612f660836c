"""Calls of `amphorust_read` for tests/c_entry.py: what is sent to the caller in C, and what it must write.

The texts are those of tests/texts.py, and what must come of them is said by tests/second_reader.py, which tests/reading.py
holds to paper 02 and to Python's json on the same texts."""
import random
import struct

import c_check
import second
import second_reader
import texts

TOLD = struct.Struct('<10Q')            # what the caller tells of an answer before the areas
AMPLE = 10 ** 6
FEW = 200                               # bytes of a text that is tried with areas of every sort


class Read:
    """JSON, words and text; None is a null pointer. Knows what the second program makes of them."""

    def __init__(self, label, json, words, text):
        self.label, self.arrays = 'read: ' + label, (json, words, text)

    def sent(self):
        json, words, text = self.arrays
        lengths = [c_check.ABSENT if array is None else len(array) for array in self.arrays]
        return struct.pack('<3I', *lengths) + (json or b'') + second.to_bytes(words or []) + (text or b'')

    def result_size(self):
        return TOLD.size + 4 * len(self.arrays[1] or []) + len(self.arrays[2] or [])

    def wanted(self):
        """What the caller must write."""
        json, words, text = [array or empty for array, empty in zip(self.arrays, (b'', [], b''))]
        found = second_reader.read(json, len(words), len(text))
        made, spelled = ([], b'') if found.number else (found.words, found.text)
        number = 10 + found.number + 256 * found.place if found.number else 256 * found.n
        told = TOLD.pack(number, not found.number, bool(found.number), found.n or 0, found.number or 0, found.place or 0,
                         len(made), len(spelled), *enough(len(json)))
        return told + second.to_bytes(made + words[len(made):]) + spelled + text[len(spelled):]


def enough(size):
    """Words and bytes of text that are enough for a JSON text of so many bytes, as the header says."""
    return 6 * min((size + 1) // 2, second_reader.MOST_VALUES) + 4, min(size, second.LONGEST_TEXT)


def area_lengths(rng, json):
    """Labels and lengths of the words and of the text; None is a null pointer."""
    found = second_reader.read(json, AMPLE, AMPLE)
    words, text = enough(len(json)) if found.number else (len(found.words), len(found.text))
    more = rng.choice((1, 2, 7, 4096))
    sorts = [('exact', words, text), ('longer', words + more, text + rng.choice((1, 3, more))),
             ('one word short', words - 1, text), ('both short', words - 1, text - 1), ('empty', 0, 0), ('null', None, None),
             ('as the header says', *enough(len(json))), ('one byte short', words, text - 1)]
    return [one for one in sorts if one[2] is None or one[2] >= 0]


def calls_of(rng, label, json):
    """A text with areas of each length, or of some if it is long; a text of length 0 is a null pointer in some calls."""
    sorts = area_lengths(rng, json)
    for areas, words, text in sorts if len(json) <= FEW else [sorts[-2], *rng.sample(sorts, 2)]:
        yield Read('%s, areas %s: %r' % (label, areas, json[:60]), None if not json and rng.random() < 0.5 else json,
                   None if words is None else second.to_words(rng.randbytes(4 * words)),
                   None if text is None else rng.randbytes(text))


def calls(seed, count):
    rng = random.Random(seed)
    for label, json in texts.texts(seed, count):
        yield from calls_of(rng, label, json)


def deepest():
    """What takes the most of the stack: brackets to the end of a long text, and many names."""
    yield Read('brackets', b'[' * second_reader.LONGEST, [0] * 10, b'')
    names = b'{' + b','.join(b'"%04d%s":0' % (i, b'x' * 50) for i in range(1023)) + b'}'
    yield Read('names', names, [0] * enough(len(names))[0], bytes(enough(len(names))[1]))


def least(seed, count):
    """Whether the header's numbers are enough for each text, and for some no more than that."""
    reached = False
    for _, json in texts.texts(seed, count):
        found = second_reader.read(json, AMPLE, AMPLE)
        if not found.number:
            words, text = enough(len(json))
            if len(found.words) > words or len(found.text) > text:
                return False
            reached = reached or len(found.words) == words
    return reached
