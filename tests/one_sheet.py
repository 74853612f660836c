"""Sheets for the check call, each words with a text, made from those of sheets.py and written from paper 02, #103.

cases(seed, count) yields (label, words, text): both sheets of every case, some changed so that the last word says
another kind, none, or nothing. limits() yields fixed ones, whose labels begin with the answer they must get.
"""
import random

import sheets

KINDS = (1, 2)
NO_KINDS = (0, 3, 4, 5, 257, 2 ** 16 + 1, 2 ** 31 + 2, sheets.WORD - 1)


# ---- fixed sheets ----

def limits():
    record, rules = sheets.lent(sheets.small_record()), sheets.lent(sheets.small_rules())
    yield 'in order 5: a record', *record
    yield 'in order 3: rules', *rules
    for text in (b'', b'x'):
        yield 'refused 12 0: no words, %d bytes' % len(text), [], text
        yield 'refused 1 0: the word 1 alone, %d bytes' % len(text), [1], text
        yield 'refused 5 0: the word 2 alone, %d bytes' % len(text), [2], text
    for kind in NO_KINDS:
        yield 'refused 12 0: the word %d alone' % kind, [kind], b''
        yield 'refused 12 0: a record of kind %d' % kind, record[0][:-1] + [kind], record[1]
        yield 'refused 12 0: rules of kind %d' % kind, rules[0][:-1] + [kind], rules[1]
        yield 'refused 12 0: kind %d after a record' % kind, record[0] + [kind], record[1]
    yield from first_words(record, rules)
    yield 'refused 5 0: a record of kind 2', record[0][:-1] + [2], record[1]
    yield 'refused 1 0: rules of kind 1', rules[0][:-1] + [1], rules[1]
    yield 'refused 1 0: a record, its text a byte short', record[0], record[1][:-1]
    yield 'refused 5 0: rules, their text a byte short', rules[0], rules[1][:-1]
    yield 'refused 1 0: a record, a word short', record[0][1:], record[1]
    yield 'refused 5 0: rules, a word short', rules[0][1:], rules[1]
    yield 'refused 5 0: a record without its last word, before which stands 2', record[0][:-1], record[1]
    yield 'refused 1 0: rules without their last word, before which stands 1', rules[0][:-1], rules[1]


def first_words(record, rules):
    """What stands before row 0 or schema 0 says nothing, be it a kind or none."""
    for word in KINDS + NO_KINDS:
        yield 'in order 5: a record after the word %d' % word, [word] + record[0], record[1]
        yield 'in order 3: rules after the word %d' % word, [word] + rules[0], rules[1]
    yield 'in order 5: a record after rules', rules[0] + record[0], record[1]
    yield 'in order 3: rules after a record', record[0] + rules[0], rules[1]
    yield 'refused 5 0: a record and then 2', record[0] + [2], record[1]
    yield 'refused 1 0: rules and then 1', rules[0] + [1], rules[1]


# ---- changed sheets ----

def other_kind(rng, words, text):
    return 'another kind', words[:-1] + [rng.choice(KINDS)], text


def no_kind(rng, words, text):
    return 'no kind', words[:-1] + [rng.choice(NO_KINDS + (rng.getrandbits(32),))], text


def last_words_cut(rng, words, text):
    return 'last words cut', words[:len(words) - rng.choice((1, 1, 2, 3, len(words)))], text


def first_words_cut(rng, words, text):
    return 'first words cut', words[len(words) - rng.randrange(8):], text


def text_cut(rng, words, text):
    return 'text cut', words, text[:-1]


CHANGES = (other_kind, no_kind, last_words_cut, first_words_cut, text_cut)


def cases(seed, count):
    """Both sheets of each of count cases; some are changed, and some lent the other's text."""
    rng = random.Random(seed)
    for label, record, record_text, rules, rule_text in sheets.cases(seed, count):
        texts = (record_text, rule_text) if rng.random() < 0.95 else (rule_text, record_text)
        for words, text in zip((record, rules), texts):
            how = 'as it is'
            if words and rng.random() < 0.4:
                how, words, text = rng.choice(CHANGES)(rng, words, text)
            yield '%s, %s' % (label, how), words, text
