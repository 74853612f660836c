#!/usr/bin/env python3
"""Runs second.py over generated cases and checks what papers 01 and 02 state of every answer.

Written, like second.py and sheets.py, from the papers alone. Prints how often each answer
came up for each group of cases, then `N passed, 0 failed`.

    python3 selfcheck.py [COUNT [SEED]]     5,000 cases of seed 1 unless given
"""
import random
import re
import sys
import time
from collections import Counter, defaultdict

import judged
import one_sheet
import queues
import second
import sheets

ANSWERS = ['valid', 'invalid', 'in order'] + ['refused %d' % number for number in (*range(1, 14), 30, 31, 32)]
BY_JUDGING = (*range(1, 12), 13)                       # refusals that judging gives
BY_CHECKING = {1: (*range(1, 5), 13), 2: (*range(5, 10), 13)}  # and those that a check gives, by the last word
PRINTED = re.compile(rb'bad bundle\n|too large\n|refused ([1-9]|13) \d+\n'
                     rb'|(in)?valid\npairs \d+ marked \d+\n(\d+ \d+ (held|failed)\n)+')


class Results:
    """Counts of passed and failed checks, and the table of answers per group of cases."""

    def __init__(self):
        self.passed, self.failed = 0, 0
        self.table = defaultdict(Counter)

    def check(self, true, what, label=''):
        if true:
            self.passed += 1
            return
        self.failed += 1
        if self.failed <= 20:
            print('failed: %s (%s)' % (what, label))

    def note(self, group, answer):
        name = answer.verdict if answer.number is None else 'refused %d' % answer.number
        self.table[group][name] += 1

    def total(self, name):
        return sum(counts[name] for counts in self.table.values())

    def print_table(self):
        used = [name for name in ANSWERS if self.total(name)]
        print('%-16s' % 'group' + ''.join('%11s' % name for name in used))
        for group in sorted(self.table):
            print('%-16s' % group + ''.join('%11s' % (self.table[group][name] or '.') for name in used))
        print('%-16s' % 'all' + ''.join('%11d' % self.total(name) for name in used))


def tried_areas(rng, size):
    """Lent cells and list of at least that size, full of anything."""
    return ([rng.randrange(256) for _ in range(size + rng.choice((0, 0, 1, 5)))],
            [rng.getrandbits(32) for _ in range(size + rng.choice((0, 0, 1, 5)))])


def sizes(record, rules):
    """n and m of accepted sheets; 1 and 1 if one is refused."""
    checks = second.check_record(*record), second.check_rules(*rules)
    return [check[1] for check in checks] if all(check[0] == 'accepted' for check in checks) else (1, 1)


def place_in_range(answer, record, rules):
    """Whether a place is one that the refusal table can give."""
    number, place = answer.number, answer.place
    if number in (1, 5):
        return place == 0
    if number <= 4 or number == 13 and second.check_record(*record)[0] == 'refused':
        return place < record[0][-4]
    m, c, e = rules[0][-6:-3]
    lowest, end = {6: (0, m + c + e), 7: (m + c + 1, m + c + e), 13: (m + c, m + c + e), 8: (0, m),
                   9: (0, m)}[number]
    return lowest <= place < end


def check_order(results, label, derivation, order):
    """No pair twice, each after all that it applies, none but the root that no later one applies."""
    results.check(len(set(order)) == len(order), 'a pair is listed twice', label)
    results.check(order[-1] == (0, 0), 'the root pair is not settled last', label)
    place = {pair: i for i, pair in enumerate(order)}
    applied = [(pair, other) for pair in order for other in derivation.outcome(*pair).applied]
    results.check(all(place.get(other, len(order)) < place[pair] for pair, other in applied),
                  'a pair is listed before one it applies', label)
    results.check({other for _, other in applied} | {(0, 0)} == set(order), 'a pair is listed that none applies', label)


def check_marks(results, label, derivation, order):
    """Marks are of children alone, and a pair that fails has none."""
    outcomes = [(pair, derivation.outcome(*pair)) for pair in order]
    results.check(all(derivation.rows[child].owner == j and child > 0 for (j, _), outcome in outcomes
                      for child in outcome.marks), 'a mark of no child', label)
    results.check(all(outcome.held or not outcome.marks for _, outcome in outcomes), 'marks of a failed pair', label)


def check_areas(results, label, judgement, before, derivation, m):
    """Cells agree with the list and the derivation; what stands behind stays."""
    answer, cells, list_ = judgement
    size = len(derivation.rows) * m
    listed = list_[:answer.count]
    results.check(list_[answer.count:] == before[1][answer.count:], 'list words after the count', label)
    results.check(cells[size:] == before[0][size:], 'cells after the first n × m', label)
    results.check(all(value < 7 and value % 4 < 3 for value in cells[:size]), 'a cell of no meaning', label)
    results.check(sorted(listed) == [i for i in range(size) if cells[i] % 4], 'settled cells and list differ', label)
    marked = {child * m + pair % m for pair in listed for child in derivation.outcome(*divmod(pair, m)).marks}
    results.check(marked == {i for i in range(size) if cells[i] >= 4}, 'marked cells and marks differ', label)
    results.check(all((cells[pair] % 4 == 1) == derivation.outcome(*divmod(pair, m)).held for pair in listed),
                  'verdicts in cells and derivation differ', label)
    results.check((cells[0] == 1) == (answer.verdict == 'valid'), 'root cell and verdict differ', label)
    results.check(answer.marked == len([i for i in range(size) if cells[i] >= 4 and i % m == 0
                                        and derivation.rows[i // m].owner == 0]), 'marked count', label)


def cost_without_memory(derivation, order):
    """About how many derivations: the verdict and the marks of each applied pair are derived afresh."""
    cost = {}
    for pair in order:
        cost[pair] = 1 + 2 * sum(cost[other] for other in derivation.outcome(*pair).applied)
    return sum(cost.values())


def check_without_memory(results, label, derivation, order):
    """The memory of outcomes is a speed-up alone."""
    afresh = second.Derivation(derivation.rows, derivation.record_text, derivation.rules, remember=False)
    results.check(all(afresh.outcome(*pair) == derivation.outcome(*pair) for pair in order), 'memory matters', label)


def check_short_areas(results, label, sheets_, size):
    """Refusals 10 and 11, each one short; 10 before 11."""
    for cells, list_, number in ((size - 1, size, 10), (size, size - 1, 11), (size - 1, size - 1, 10)):
        found = second.judge(*sheets_, [7] * cells, [7] * list_)
        results.note('short areas', found.answer)
        results.check((found.answer.number, found.answer.place) == (number, size), 'refusal %d' % number, label)
        results.check(set(found.cells + found.list) <= {7}, 'refused areas changed', label)


def check_accepted(results, rng, label, judgement, before, parts):
    record, rules = parts[:2], parts[2:]
    derivation = second.Derivation(second.read_rows(record[0]), record[1], second.read_rules(*rules))
    m = len(derivation.rules.schemas)
    results.check(0 < judgement.answer.count <= len(judgement.list), 'count', label)
    order = [divmod(pair, m) for pair in judgement.list[:judgement.answer.count]]
    check_order(results, label, derivation, order)
    check_marks(results, label, derivation, order)
    check_areas(results, label, judgement, before, derivation, m)
    size = len(derivation.rows) * m
    if cost_without_memory(derivation, order) <= 2_000:
        check_without_memory(results, label, derivation, order)
    if rng.random() < 0.05:
        check_short_areas(results, label, parts, size)
    shifted = second.judge([5, 6] + record[0], record[1], [2] + rules[0], rules[1], [0] * size, [0] * size)
    results.check(shifted.answer == judgement.answer and shifted.cells == judgement.cells[:size],
                  'words before, or what the areas held, matter', label)


def check_printed(results, label, judgement, parts, m):
    """The bench program prints what the call answers, wherever a bundle holds the sheets."""
    packed = second.bundle(*parts)
    printed = second.bench(packed)
    answer = judgement.answer
    if len(packed) > 65_536:
        wanted = b'bad bundle'
    elif answer.verdict == 'refused':
        wanted = b'refused %d %d' % (answer.number, answer.place)
    elif m > 128 or parts[0][-4] > 128:
        wanted = b'too large'
    else:
        wanted = answer.verdict.encode()
        results.check(printed.count(b'\n') == answer.count + 2, 'lines printed', label)
    results.check(printed.split(b'\n')[0] == wanted and PRINTED.fullmatch(printed), 'bench', label)


def check_case(results, rng, group, label, *parts):
    """Judge one case and check everything stated of its answer; give the answer."""
    n, m = sizes(parts[:2], parts[2:])
    before = tried_areas(rng, n * m)
    judgement = second.judge(*parts, *before)
    answer = judgement.answer
    results.note(group, answer)
    low, rest = second.number_for_c(answer) % 256, second.number_for_c(answer) // 256
    if answer.verdict == 'refused':
        results.check(answer.number in BY_JUDGING, 'judging refused %d' % answer.number, label)
        results.check((judgement.cells, judgement.list) == before, 'refused areas changed', label)
        results.check(place_in_range(answer, parts[:2], parts[2:]), 'place out of range', label)
        results.check((low, rest) == (10 + answer.number, answer.place), 'number for C', label)
    else:
        results.check((low, rest) == (answer.verdict == 'invalid', answer.count), 'number for C', label)
        check_accepted(results, rng, label, judgement, before, parts)
    check_printed(results, label, judgement, parts, m)
    return answer


def check_limits(results, rng):
    """Every fixed case gets the answer its label begins with."""
    for label, *parts in sheets.limits():
        wanted = label.split(':')[0]
        answer = check_case(results, rng, 'limit ' + wanted.rpartition(' ')[0] if 'refused' in wanted
                            else 'limit accepted', label, *parts)
        found = 'accepted' if answer.number is None else 'refused %d %d' % (answer.number, answer.place)
        results.check(found == wanted, 'limit answered ' + found, label)


def check_bundles(results, seed, count):
    printed = Counter()
    for label, packed in sheets.bundles(seed, count):
        lines = second.bench(packed)
        results.check(PRINTED.fullmatch(lines), 'bench printed %r' % lines[:40], label)
        printed[lines.split(b' ')[0].split(b'\n')[0]] += 1
    results.check(all(printed[word] for word in (b'bad', b'refused', b'valid', b'invalid')), 'bundles all alike')


def check_sheet(results, label, words, text):
    """A check is refused 12 exactly if the last word is no kind, and else by a refusal of that kind; judging agrees."""
    answer = second.check(words, text)
    results.note('check', answer)
    kind = words[-1] if words else None
    if kind not in BY_CHECKING:
        results.check((answer.number, answer.place) == (12, 0), 'a sheet of no kind', label)
        return answer
    others = [sheets.lent(one) for one in (sheets.small_record(), sheets.small_rules())]
    others[kind - 1] = words, text
    judged_as = second.judge(*others[0], *others[1], [], []).answer
    if answer.verdict == 'refused':
        results.check(answer.number in BY_CHECKING[kind], 'a check refused %d' % answer.number, label)
        results.check(answer == judged_as, 'check and judging differ', label)
    else:
        results.check(answer.count == words[-4 if kind == 1 else -6], 'rows or schemas', label)
        results.check(judged_as.number == 10, 'judging refuses what the check finds in order', label)
    return answer


def check_sheets(results, seed, count):
    for label, *sheet in one_sheet.limits():
        answer = check_sheet(results, label, *sheet)
        found = 'in order %d' % answer.count if answer.number is None else 'refused %d %d' % answer[2:4]
        results.check(found == label.split(':')[0], 'the check answered ' + found, label)
    for case in one_sheet.cases(seed, count):
        check_sheet(results, *case)
    for number in [*range(1, 10), 12]:
        results.check(results.table['check']['refused %d' % number] > 0, 'no check is refused %d' % number)


def check_queue(results, rng, label, words, text, listing, rules, rule_text, lengths):
    """A refused queue changes nothing; each answer is the record's own, also without the refused ones before it."""
    cells, list_, answers = ([rng.getrandbits(bits) for _ in range(length)] for bits, length in zip((8, 32, 64), lengths))
    answer, *after = second.judge_queue(words, text, listing, rules, rule_text, cells, list_, answers)
    results.note('queue', answer)
    if answer.verdict == 'refused':
        results.check(answer.number in (30, 31, 32) and after == [cells, list_, answers], 'a refused queue', label)
        return answer
    results.check(after[2][answer.count:] == answers[answer.count:], 'answers behind the records\'', label)
    good = [k for k in range(answer.count) if after[2][k] % 256 < 10]
    rest = second.judge_queue(words, text, [word for k in good for word in listing[4 * k:4 * k + 4]], rules, rule_text,
                              cells, list_, [0] * len(good))
    results.check(list(rest[1:]) == [*after[:2], [after[2][k] for k in good]], 'a refused record changes the rest', label)
    return answer


def check_queues(results, rng, seed, count):
    for label, *parts in queues.limits():
        answer = check_queue(results, rng, label, *parts)
        found = 'in order %d' % answer.count if answer.number is None else 'refused %d %d' % answer[2:4]
        results.check(found == label.split(':')[0], 'the queue answered ' + found, label)
    for case in queues.cases(seed, count):
        check_queue(results, rng, *case)
    for number in (30, 31, 32):
        results.check(results.table['queue']['refused %d' % number] > 5, 'few queues are refused %d' % number)


def check_spread(results):
    """Every refusal comes up often enough, and both verdicts do."""
    for number in (*range(1, 10), 13):
        results.check(results.total('refused %d' % number) >= 50, 'refusal %d is rare' % number)
    valid, invalid = results.total('valid'), results.total('invalid')
    for some in (valid, invalid):
        results.check(some >= 0.2 * (valid + invalid), 'verdicts are one-sided')
    print('valid %d %% of the accepted' % round(100 * valid / (valid + invalid)))


def main(count=5_000, seed=1):
    results, rng, begun = Results(), random.Random(seed), time.time()
    results.check(not second.differences(), 'the samples differ')
    for what, share in (('all', 6), ('record', 2), ('rules', 2)):
        for label, *parts in sheets.cases(seed, count * share // 10, what):
            check_case(results, rng, label.split(':')[0], label, *parts)
    for label, *parts in judged.cases(seed, count // 10):
        check_case(results, rng, label.split(':')[0], label, *parts)
    random_seconds = time.time() - begun
    check_spread(results)
    check_limits(results, rng)
    check_bundles(results, seed, count // 10)
    check_sheets(results, seed, count // 5)
    check_queues(results, rng, seed, count // 20)
    results.print_table()
    print('%.0f s for the cases, %.0f s in all' % (random_seconds, time.time() - begun))
    print('%d passed, %d failed' % (results.passed, results.failed))
    return 1 if results.failed else 0


if __name__ == '__main__':
    sys.exit(main(*[int(argument) for argument in sys.argv[1:3]]))
