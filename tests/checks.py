#!/usr/bin/env python3
"""The proved program: the twelve samples against what paper 01 says of them, all else against the second program.

All else is fixed cases at both sides of each limit, random and damaged sheets, bundles that are bad as a whole, and
good sheets to be judged. Fails also where these do not meet what they are for. Says how often each answer came up and
what was not tried; ends with 'N passed, M failed'. COUNT and SEED may be given.

The program is the one that `rt ci` left; where there is none, `rt run` builds it."""
import os
import subprocess
import sys
from collections import Counter
from concurrent.futures import ThreadPoolExecutor

import judged
import machine
import second
import sheets

CRATE = os.path.join(os.path.dirname(os.path.abspath(__file__)), '..', 'crates', 'bench')
BENCH = os.path.join(CRATE, 'out', 'bench')

SAMPLE_2 = 'invalid\npairs 3 marked 0\n1 1 held\n2 2 failed\n0 0 failed\n'

# What the program does not print, so that no run of it can be compared.
NOT_PRINTED = 'marks below the root, refusals 10 and 11, what stands behind the areas: the program does not print them'


def build():
    with open(os.path.join(CRATE, 'stdin'), 'rb') as sample:
        subprocess.run(['rt', 'run'], cwd=CRATE, stdin=sample, stdout=subprocess.DEVNULL, check=True)


def program(bundle):
    return subprocess.run(machine.call(BENCH), input=bundle, capture_output=True).stdout.decode()


class Results:
    def __init__(self):
        self.passed, self.failed = 0, 0
        self.answers, self.spread = Counter(), judged.Spread()

    def check(self, true, what):
        self.passed += true
        self.failed += not true
        if not true and self.failed <= 20:
            print('failed: ' + what)

    def compare_all(self, cases):
        """Compares for each (label, bundle), two programs at a time, and gives the answers."""
        with ThreadPoolExecutor(2) as workers:
            printed = workers.map(program, [bundle for _, bundle in cases])
            return [self.compare(*case, got) for case, got in zip(cases, printed)]

    def compare(self, label, bundle, got):
        """The second program must print the same; gives the first line, without a refusal's place."""
        want = second.bench(bundle).decode()
        self.check(got == want, '%s: the program says %r, the second program %r' % (label, got[:200], want[:200]))
        first = want.split('\n')[0]
        answer = first.rpartition(' ')[0] if first.startswith('refused') else first
        self.answers[answer] += 1
        return answer


# ---- the twelve samples ----

def read_printed(printed, m):
    """What the program printed, in the words of the sample table; of the cells only who was settled and held."""
    first, *rest = printed.splitlines() or ['']
    if first.startswith('refused'):
        number, place = first.split()[1:]
        return dict(verdict='refused', number=int(number), place=int(place))
    if first not in ('valid', 'invalid'):
        return dict(verdict=first)
    _, count, _, marked = rest[0].split()
    pairs = [line.split() for line in rest[1:]]
    listed = [int(j) * m + int(s) for j, s, _ in pairs]
    held = {pair: word == 'held' for pair, (_, _, word) in zip(listed, pairs)}
    return dict(verdict=first, count=int(count), marked=int(marked), list=listed, cells=held)


def check_samples(results):
    for number, rules, record, said in second.sample_table():
        printed = program(second.bundle(*record, *rules))
        found = read_printed(printed, rules[0][-6])
        if 'cells' in said:
            said = said | dict(cells={i: cell % 4 == 1 for i, cell in enumerate(said['cells']) if cell % 4})
        for what, wanted in said.items():
            got = found.get(what)
            results.check(got == wanted, 'sample %d: %s is %s, not %s' % (number, what, got, wanted))
        if number == 2:
            results.check(printed == SAMPLE_2, 'sample 2 prints %r' % printed)


# ---- all else ----

def check_sheets(results, seed, count):
    """Fixed cases, and random and damaged sheets; gives what of them is good but only too large for the program."""
    cases = [*sheets.limits(), *sheets.cases(seed, count)]
    answers = Counter(results.compare_all([(label, second.bundle(*parts)) for label, *parts in cases]))
    return {answer: answers[answer] for answer in ('bad bundle', 'too large')}


def check_judged(results, seed, count):
    cases = list(judged.cases(seed, count))
    answers = results.compare_all([(label, second.bundle(*parts)) for label, *parts in cases])
    for (_, *parts), answer in zip(cases, answers):
        if answer in ('valid', 'invalid'):
            results.spread.note(*parts)
    for what, least in results.spread.wanted().items():
        met = results.spread.met[what]
        results.check(met >= least, '%s was met %d times, not %d' % (what, met, least))


def check_bundles(results, seed, count):
    results.compare_all(list(sheets.bundles(seed, count)))
    for answer in ['bad bundle', 'too large', 'valid', 'invalid'] + ['refused %d' % number for number in (*range(1, 10), 13)]:
        results.check(results.answers[answer] > 0, 'no bundle got the answer ' + answer)


def main(count=4_000, seed=1):
    results = Results()
    if not os.path.exists(BENCH):
        build()
    check_samples(results)
    larger = check_sheets(results, seed, count)
    check_judged(results, seed, count)
    check_bundles(results, seed, count // 8)
    print('%d bundles: %s' % (sum(results.answers.values()),
                              ', '.join('%s %d' % pair for pair in sorted(results.answers.items()))))
    print('%d pairs settled in %d good sheets' % (results.spread.met['pairs'], results.spread.met['sheets']))
    print('not tried: judging of %d sheets over 65,536 bytes and of %d over 128 rows or schemas'
          % (larger['bad bundle'], larger['too large']))
    print('not tried: ' + NOT_PRINTED)
    print('%d passed, %d failed' % (results.passed, results.failed))
    return results.failed > 0


if __name__ == '__main__':
    sys.exit(main(*[int(argument) for argument in sys.argv[1:3]]))
