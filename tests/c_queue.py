"""Calls of `amphorust_judge_queue` for tests/c_entry.py: what is sent to the caller in C, and what it must write."""
import random
import struct

import c_check
import queues
import second

TOLD = struct.Struct('<5Q')             # what the caller tells of an answer before the areas


class Queue:
    """Eight arrays; None is a null pointer. Knows what the second program makes of them."""

    def __init__(self, label, words, text, listing, rules, rule_text, cells, list_, answers):
        self.label = 'queue: ' + label
        self.arrays = (words, text, listing, rules, rule_text, cells, list_, answers)

    def sent(self):
        lengths = [c_check.ABSENT if array is None else len(array) for array in self.arrays]
        return struct.pack('<8I', *lengths) + in_bytes(*self.arrays)

    def result_size(self):
        cells, list_, answers = [len(array or []) for array in self.arrays[5:]]
        return TOLD.size + cells + 4 * list_ + 8 * answers

    def wanted(self):
        """What the caller must write."""
        arrays = [array if array is not None else b'' if at in (1, 4, 5) else [] for at, array in enumerate(self.arrays)]
        answer, cells, list_, answers = second.judge_queue(*arrays)
        refused = answer.verdict == 'refused'
        told = TOLD.pack(second.number_for_c(answer), refused, answer.count or 0, answer.number or 0, answer.place or 0)
        return told + bytes(cells) + second.to_bytes(list_) + struct.pack('<%dQ' % len(answers), *answers)


def in_bytes(words, text, listing, rules, rule_text, cells, list_, answers):
    return (second.to_bytes(words or []) + (text or b'') + second.to_bytes(listing or []) + second.to_bytes(rules or [])
            + (rule_text or b'') + (cells or b'') + second.to_bytes(list_ or []) + struct.pack('<%dQ' % len(answers or []), *answers or []))


def lent(rng, label, *parts):
    """The call, its areas full of anything; an array of length 0 is a null pointer in some."""
    *parts, (cells, list_, answers) = parts
    areas = (rng.randbytes(cells), [rng.getrandbits(32) for _ in range(list_)], [rng.getrandbits(64) for _ in range(answers)])
    return Queue(label, *[None if len(array) == 0 and rng.random() < 0.5 else array for array in (*parts, *areas)])


def calls(seed, count):
    rng = random.Random(seed)
    yield Queue('null pointers', *[None] * 8)
    for case in queues.limits():
        yield lent(rng, *case)
    for case in queues.cases(seed, count):
        yield lent(rng, *case)
