"""Runs the benchmark's cases and prints them as tables: python3 -m benchmarks.table FOLDER, which has the program
measure and gets the cases."""
import json
import math
import os
import subprocess
import sys
from collections import namedtuple

from benchmarks import cases
from tools import sheets

LIMIT = 20      # seconds that a hostile case may take

HEADING = '''The smallest times; both sheets are checked in each call, 'verdict' is the call for the verdict only, and
'checks' is what the two checks take as calls of their own. rapidjson: its time as a multiple of ours, with its
schema compiled and the record parsed beforehand, where draft 4 can say the case; of reading and judging, its time to
parse and validate at once. Slopes: how the time grows from size to size, 1.0 in proportion, 2.0 by the square.
Overlapping names: of {:,} bytes each, in {:,} bytes of text.
'''

# answer is the C entry's number, ours a call's nanoseconds, checks those of both checks alone and only those of the
# verdict only; size is the JSON's bytes, read the nanoseconds of reading it and both those of reading and judging (None
# for a case without JSON); theirs is rapidjson's time and theirs_both that with parsing (None: not asked), agrees whether
# its verdict is ours.
Measured = namedtuple('Measured', 'rows schemas answer ours checks only size read both theirs theirs_both agrees')


def write(folder, name, case):
    """The files of a case, and where they stand."""
    path = os.path.join(folder, name)
    schema = None if case.schema is None else json.dumps(case.schema).encode()
    bundle = sheets.bundle(case.record or sheets.Sheet(b'', b''), case.rules)
    for suffix, data in (('.bundle', bundle), ('.json', case.text), ('.schema', schema)):
        if os.path.exists(path + suffix):
            os.remove(path + suffix)
        if data is not None:
            with open(path + suffix, 'wb') as out:
                out.write(data)
    return path


def measured(folder, found):
    """The cases' times, all from one run of the program."""
    paths = [write(folder, 'case-%d' % i, case) for i, case in enumerate(found)]
    ran = subprocess.run([os.path.join(folder, 'measure')] + paths, stdout=subprocess.PIPE, text=True, check=True)
    return [read_line(line) for line in ran.stdout.splitlines()]


def read_line(line):
    rows, schemas, answer, ours, checks, only, size, read, both, verdict, *theirs = line.split()
    asked, has_text = verdict != '-', size != '-'
    return Measured(int(rows), int(schemas), int(answer), float(ours), float(checks), float(only),
                    *(int(size), float(read), float(both)) if has_text else (None,) * 3,
                    *map(float, theirs) if asked else (None,) * 2, asked and int(answer) % 256 == int(verdict))


def measured_alone(folder, case):
    """A case's times in a process of its own; None if it is not done in time."""
    path = write(folder, 'alone', case)
    try:
        ran = subprocess.run([os.path.join(folder, 'measure'), path], stdout=subprocess.PIPE, text=True, check=True,
                             timeout=LIMIT)
    except subprocess.TimeoutExpired:
        return None
    return read_line(ran.stdout)


# ---- words

def duration(ns):
    if ns < 9_999.5:
        return '{:,.0f} ns'.format(ns)
    for unit in ('µs', 'ms'):
        ns /= 1000
        if ns < 999.5:
            return '%.3g %s' % (ns, unit)
    return '%.3g s' % (ns / 1000)


def multiple(one):
    """rapidjson's time as a multiple of ours."""
    return multiple_of(one, one.theirs, one.ours)


def multiple_of(one, theirs, ours):
    if theirs is None:
        return ''
    if not one.agrees:
        return 'disagrees'
    times = theirs / ours
    return '{:,.0f}'.format(times) if times >= 9.95 else '%.1f' % times if times >= 0.95 else '%.2g' % times


def said(one):
    return said_of(one.answer)


def said_of(answer):
    """What is said of an answer that is not 'valid', which all cases but one should get."""
    kind = answer % 256
    return '' if kind == 0 else '  invalid' if kind == 1 else '  refused %d' % (kind - 10)


def slopes(sizes, times):
    """How the time grows from size to size: 1.0 in proportion, 2.0 by the square."""
    steps = zip(zip(sizes, times), zip(sizes[1:], times[1:]))
    found = [math.log(u / t) / math.log(m / n) for (n, t), (m, u) in steps]
    return ' '.join('%.1f' % (round(slope, 1) + 0.0) for slope in found)     # no -0.0


def line(name, cells, end):
    return '%-30s%s   %s' % (name, ''.join('%10s' % cell for cell in cells), end)


def sizes_line(name, sizes):
    return '\n' + line(name, ['{:,}'.format(n) for n in sizes], 'slopes')


# ---- tables

def print_cases(found, times):
    shape = '%-30s %5s %7s %9s %10s %10s %10s %10s %10s%s'
    print(shape % ('case', 'rows', 'schemas', 'pairs', 'a call', 'verdict', 'checks', 'a pair', 'rapidjson', ''))
    for case, one in zip(found, times):
        pairs = one.answer // 256
        print(shape % (case.name, one.rows, one.schemas, '{:,}'.format(pairs), duration(one.ours),
                       duration(one.only), duration(one.checks), duration(one.ours / max(pairs, 1)), multiple(one), said(one)))


def print_readings(found, times):
    """What reading the same records takes, alone and with judging."""
    shape = '%-30s %7s %10s %10s %10s %10s'
    print('\n' + shape % ('reading', 'bytes', 'read', 'a byte', 'and judge', 'rapidjson'))
    for case, one in zip(found, times):
        print(shape % (case.name, '{:,}'.format(one.size), duration(one.read), '%.1f ns' % (one.read / one.size),
                       duration(one.both), multiple_of(one, one.theirs_both, one.both)))


def print_texts(folder):
    """Reading of texts that are made of one thing, by their size."""
    print(sizes_line('reading texts of', cases.TEXT_SIZES))
    for name, texts in cases.texts():
        paths = [os.path.join(folder, 'text-%d' % i) for i, _ in enumerate(texts)]
        for path, text in zip(paths, texts):
            with open(path, 'wb') as out:
                out.write(text)
        ran = subprocess.run([os.path.join(folder, 'measure'), 'read'] + paths, stdout=subprocess.PIPE, text=True, check=True)
        sizes, answers, times = zip(*(map(float, one.split()) for one in ran.stdout.splitlines()))
        print(line(name, map(duration, times), slopes(sizes, times)) + said_of(int(answers[-1])))


def print_families(families):
    """families: (sizes, cases, times). Below each its rapidjson, where that was asked more than once."""
    before = None
    for sizes, found, times in families:
        if sizes != before:
            print(sizes_line('growth', sizes))
            before = sizes
        print(line(found[0].name, [duration(one.ours) for one in times],
                   slopes(sizes, [one.ours for one in times])) + ''.join(map(said, times)))
        asked = [(n, one.theirs) for n, one in zip(sizes, times) if one.agrees]
        if len(asked) > 1:
            print(line('  rapidjson', map(multiple, times), slopes(*zip(*asked))))


def print_hostile(folder):
    print(sizes_line('overlapping', cases.OVERLAPS))
    for name, found in cases.hostile():
        times = [measured_alone(folder, case) for case in found]
        cells = ['> %d s' % LIMIT if one is None else duration(one.ours) for one in times]
        done = [one for one in times if one is not None]
        end = slopes(cases.OVERLAPS, [one.ours for one in times]) if done == times else ''
        print(line(name, cells, end) + ''.join(map(said, done)), flush=True)


def print_queue(folder, case):
    """The case's record 512 times: nanoseconds a record, in one call, in as many calls, and by rapidjson."""
    path = write(folder, 'queue', case)
    ran = subprocess.run([os.path.join(folder, 'measure'), 'queue', path], stdout=subprocess.PIPE, text=True, check=True)
    answer, last, whole, single, theirs, both, theirs_both = ran.stdout.split()
    beside = lambda time, ours: '' if time == '-' else '; rapidjson %s (%.1f times)' % (
        duration(float(time)), float(time) / float(ours))
    print('\na queue of %d: %s, %s a record; in single calls %s (%.2f of it)%s%s' % (
        int(answer) // 256, case.name, duration(float(whole)), duration(float(single)), float(whole) / float(single),
        beside(theirs, whole), said_of(int(last))))
    print('the same read first, %s a record%s' % (duration(float(both)), beside(theirs_both, both)))


def main(folder):
    table = cases.table()
    families = [(sizes, [family(n) for n in sizes]) for family, sizes in cases.FAMILIES]
    times = iter(measured(folder, table + [case for _, found in families for case in found]))
    print(HEADING.format(cases.NAME_BYTES, cases.TEXT_BYTES))
    of_table = [next(times) for _ in table]
    print_cases(table, of_table)
    print_readings(table, of_table)
    print_queue(folder, table[0])
    print_families([(sizes, found, [next(times) for _ in found]) for sizes, found in families])
    print_texts(folder)
    sys.stdout.flush()
    print_hostile(folder)


if __name__ == '__main__':
    main(sys.argv[1])
