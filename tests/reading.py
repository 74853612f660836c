#!/usr/bin/env python3
"""The second program's reader of JSON (second_reader.py) beside what paper 02 states of every reading, and beside
Python's json where the two should agree: what is refused 21 is what Python does not read (its NaN, Infinity and
-Infinity, which are no JSON, switched off), and the value of an accepted sheet is the value that Python reads. They
need not agree on what 20 and 22 to 26 refuse, nor on texts nested deeper than Python goes.

Prints how often each answer came up, then 'N passed, M failed'. COUNT and SEED may be given."""
import json
import sys
from collections import Counter
from decimal import Decimal, InvalidOperation

import second
import second_reader
import texts

NESTED = 900                            # brackets that Python's json is sure to follow
AMPLE = 10 ** 6


def no_constant(word):
    raise ValueError(word)


def exact(word):
    """A number's value, or its word where Python's exponents end."""
    try:
        return Decimal(word)
    except InvalidOperation:
        return word


def by_python(text):
    """The value that Python reads, as pairs where it is an object; or that it reads none."""
    try:
        return True, json.loads(text.decode(), parse_int=exact, parse_float=exact, parse_constant=no_constant,
                                object_pairs_hook=Pairs)
    except ValueError:
        return False, None


class Pairs(list):
    """An object's members in their order."""


def meant(words, text, row=0):
    """The value of a row, read off the sheet as 01 has it."""
    kind, first, count = words[6 * row:6 * row + 3]
    if kind < 3:
        return (None, False, True)[kind]
    if kind == second_reader.NUMBER:
        return Decimal(first - 2 ** 32 if first >= 2 ** 31 else first).scaleb(-count)
    if kind == second_reader.STRING:
        return text[first:first + count].decode()
    children = range(first, first + count)
    if kind == second_reader.ARRAY:
        return [meant(words, text, k) for k in children]
    labels = ((words[6 * k + 4], words[6 * k + 5]) for k in children)
    return Pairs((text[at:at + size].decode(), meant(words, text, k)) for k, (at, size) in zip(children, labels))


def faults(text, found):
    """What is wrong with a reading."""
    reads, value = by_python(text) if text.count(b'[') + text.count(b'{') < NESTED else (None, None)
    if found.number is None:
        answer = second.check(found.words, found.text)
        if answer.verdict == 'refused' or answer.count != found.n:
            yield 'the sheet is not accepted: %r' % (answer,)
        if len(found.words) != 6 * found.n + 4:
            yield 'the sheet has words of no row'
        if reads is False or reads and meant(found.words, found.text) != value:
            yield 'Python reads another value'
        for short, wanted in ((27, (len(found.words) - 1, AMPLE)), (28, (AMPLE, len(found.text) - 1)), (27, (0, 0))):
            if wanted[1] >= 0 and second_reader.read(text, *wanted)[3:] != (short, len(found.words if short == 27 else found.text)):
                yield 'areas too short: not refused %d' % short
    elif not 0 <= found.place <= len(text):
        yield 'the place lies outside'
    elif found.number == 21:
        if reads:
            yield 'Python reads it'
        before = second_reader.read(text[:found.place], AMPLE, AMPLE)
        if before.number == 21 and before.place != found.place:
            yield 'what stands before the place breaks earlier'
    elif found.number > 21 and reads is False:
        yield 'Python does not read it'


def main(count=6_000, seed=1):
    passed = failed = 0
    seen = Counter()
    for label, text in texts.texts(seed, count):
        found = second_reader.read(text, AMPLE, AMPLE)
        seen['read' if found.number is None else 'refused %d' % found.number] += 1
        wrong = list(faults(text, found))
        if not wrong:
            passed += 1
        else:
            failed += 1
            if failed <= 20:
                print('failed: %s: %s: %r' % (label, '; '.join(wrong), text[:80]))
    for number in range(20, 27):
        if seen['refused %d' % number] < 3:
            failed += 1
            print('failed: refusal %d came up %d times' % (number, seen['refused %d' % number]))
    print(', '.join('%s %d' % pair for pair in sorted(seen.items())))
    print('%d passed, %d failed' % (passed, failed))
    return failed != 0


if __name__ == '__main__':
    sys.exit(main(*map(int, sys.argv[1:])))
