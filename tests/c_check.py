"""Calls of `amphorust_check` for tests/c_entry.py: what is sent to the caller in C, and what it must write."""
import random
import struct

import one_sheet
import second
import sheets

ABSENT = 2 ** 32 - 1                    # the length that stands for a null pointer
TOLD = struct.Struct('<6Q')             # what the caller tells of an answer


class Check:
    """Words and text; None is a null pointer. Knows what the second program makes of them."""

    def __init__(self, label, words, text):
        self.label, self.arrays = 'check: ' + label, (words, text)

    def sent(self):
        words, text = self.arrays
        lengths = [ABSENT if array is None else len(array) for array in self.arrays]
        return struct.pack('<2I', *lengths) + second.to_bytes(words or []) + (text or b'')

    def result_size(self):
        return TOLD.size

    def wanted(self):
        """What the caller must write."""
        words, text = self.arrays
        answer = second.check(words or [], text or b'')
        refused = answer.verdict == 'refused'
        return TOLD.pack(second.number_for_c(answer), not refused, refused, answer.count or 0, answer.number or 0,
                         answer.place or 0)


def lent(rng, label, words, text):
    """The call; an array of length 0 is a null pointer in some."""
    return Check(label, *[None if len(array) == 0 and rng.random() < 0.5 else array for array in (words, text)])


def calls(seed, count):
    rng = random.Random(seed)
    for words, text in ((None, None), (None, b'x'), ([1], None), ([2], None), ([0], None)):
        yield Check('null pointers', words, text)
    for label, *sheet in one_sheet.limits():
        yield lent(rng, label, *sheet)
    for label, record, record_text, rules, rule_text in sheets.limits():
        yield lent(rng, label, record, record_text)
        yield lent(rng, label, rules, rule_text)
    for label, *sheet in one_sheet.cases(seed, count):
        yield lent(rng, label, *sheet)
