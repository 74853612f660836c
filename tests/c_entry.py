#!/usr/bin/env python3
"""The entries for C against the second program: the number, the cells and the list of every call, compared whole.

Builds the archive and the example host (examples/build-host), then tests/c_entry.c with the archive. That program
places each array directly before an unmapped page and makes the four that are only read unwritable. Cases are the
samples, the limits, texts of 65,535 and 65,536 bytes, sheets cut short and random ones; each is called with areas of
several lengths, full of random bytes, and again for the verdict only. Checks of sheets (tests/c_check.py), queues
(tests/c_queue.py) and readings of JSON (tests/c_read.py) are compared too. Finds the smallest stacks at which the
deepest recursion and the deepest text work.

Ends with 'N passed, M failed'. COUNT and SEED may be given."""
import itertools
import os
import random
import re
import resource
import signal
import struct
import subprocess
import sys

import c_check
import c_queue
import c_read
import judged
import machine
import second
import sheets

ROOT = os.path.dirname(os.path.dirname(os.path.abspath(__file__)))
ARCHIVE = os.path.join(ROOT, 'target', 'staticlib', 'libhub.a')
CALLER = os.path.join(ROOT, 'target', 'c_entry')
HOST_PRINTS = b'''\
the rules: in order, 15 schemas
line 1: valid, 12 pairs settled
line 2: valid, 10 pairs settled
line 3: refused, not JSON, or not in UTF-8 (refusal 21, place 121)
line 4: invalid, 12 pairs settled
    row 5 by schema 14 failed
    row 0 by schema 6 failed
    row 0 by schema 7 failed
    row 4 by schema 5 failed
    row 5 by schema 5 failed
    row 0 by schema 0 failed
line 5: invalid, 13 pairs settled
    row 4 by schema 9 failed
    row 0 by schema 6 failed
    row 0 by schema 7 failed
    row 7 by schema 12 failed
    row 8 by schema 13 failed
    row 2 by schema 8 failed
    row 4 by schema 5 failed
    row 5 by schema 5 failed
    row 0 by schema 0 failed
'''

FROM_C = {'memset', 'memcpy', 'memmove', 'memcmp', 'bcmp'}      # all that the archive may ask of the C library
TOLD = struct.Struct('<8Q')             # what the caller tells of an answer before the areas
BATCH = 1 << 24                         # bytes of input that one run of the caller gets, roughly
STACK_STEP = 4096
STACK_MOST = 16 << 20
LONGEST = second.LONGEST_TEXT


class Results:
    def __init__(self):
        self.passed, self.failed = 0, 0

    def check(self, true, what):
        if true:
            self.passed += 1
            return
        self.failed += 1
        if self.failed <= 20:
            print('failed: ' + what)


# ---- calls ----

class Call:
    """Six arrays, as words or bytes; None is a null pointer. Knows what the second program makes of them."""

    def __init__(self, label, record, record_text, rules, rule_text, cells, list_):
        self.label = label
        self.arrays = (record, record_text, rules, rule_text, cells, list_)

    def sent(self):
        lengths = [c_check.ABSENT if array is None else len(array) for array in self.arrays]
        return struct.pack('<6I', *lengths) + b''.join(in_bytes(array or []) for array in self.arrays)

    def result_size(self):
        return TOLD.size + len(self.arrays[4] or []) + 4 * len(self.arrays[5] or [])

    def wanted(self):
        """What the caller must write."""
        arrays = [empty if array is None else array for array, empty in zip(self.arrays, ([], b'', [], b'', b'', []))]
        answer, cells, list_ = second.judge(*arrays)
        return told_of(answer, arrays) + bytes(cells) + second.to_bytes(list_)


def told_of(answer, arrays):
    """What the caller tells of an answer."""
    return TOLD.pack(second.number_for_c(answer), answer.verdict == 'valid', answer.verdict == 'invalid', answer.verdict == 'refused',
                     answer.count or 0, answer.number or 0, answer.place or 0, room(arrays[0], arrays[2]))


class VerdictCall(Call):
    """Only the verdict: five arrays, no list. The full call, its list long enough, must give the same verdict and have settled
    every pair that is settled here, with the same cell but for the marks of pairs that only it settled."""

    def __init__(self, label, *arrays):
        Call.__init__(self, label + ', only the verdict', *arrays, None)

    def sent(self):
        lengths = [c_check.ABSENT if array is None else len(array) for array in self.arrays[:5]]
        return struct.pack('<5I', *lengths) + b''.join(in_bytes(array or []) for array in self.arrays[:5])

    def wanted(self):
        arrays = [empty if array is None else array for array, empty in zip(self.arrays, ([], b'', [], b'', b''))]
        answer, cells, _ = second.verdict(*arrays)
        full, all_cells, _ = second.judge(*arrays, [0] * (room(arrays[0], arrays[2]) or 6))
        assert (answer.verdict, answer.number, answer.place, answer.marked) == (full.verdict, full.number, full.place, full.marked)
        if answer.verdict != 'refused':
            assert all(other % 4 == one % 4 for one, other in zip(cells, all_cells[:answer_size(arrays)]) if one % 4)
        return told_of(answer, arrays) + bytes(cells)


def answer_size(arrays):
    return room(arrays[0], arrays[2])


def in_bytes(array):
    return array if isinstance(array, bytes) else second.to_bytes(array)


def room(record, rules):
    """Rows × schemas as the trailers say, 0 where one is missing or beyond its limit."""
    n = record[-4] if len(record) >= 4 else 0
    m = rules[-6] if len(rules) >= 6 else 0
    return n * m if n <= 1024 and m <= 1024 else 0


def area_lengths(rng, size):
    """Labels and lengths of cells and list; None is a null pointer."""
    more = rng.choice((1, 2, 7, 4096))
    yield 'exact', size, size
    yield 'longer', size + more, size + rng.choice((1, 3, more))
    yield 'one cell short', size - 1, size
    yield 'one list word short', size, size - 1
    yield 'both short', size - 1, size - 1
    yield 'empty', 0, 0
    yield 'null', None, None


def calls_of(rng, label, *parts):
    """A case with areas of each length; parts of length 0 are null pointers in some calls."""
    size = room(parts[0], parts[2]) or 6
    for areas, cells, list_ in area_lengths(rng, size):
        lent = [None if len(part) == 0 and rng.random() < 0.5 else part for part in parts]
        yield Call('%s, areas %s' % (label, areas), *lent,
                   None if cells is None else rng.randbytes(cells),
                   None if list_ is None else second.to_words(rng.randbytes(4 * list_)))


# ---- cases that other tests lack ----

def long_characters():
    """Two-byte characters to the greatest length, then a byte that is none: lengths, and strings that overlap."""
    half = LONGEST // 2
    letters = 'ż'.encode() * half
    for text in (letters, letters + b'\xff'):
        whole = second.record_of([(4, 0, 2 * half, 0, 0, 0)], text)
        for most in (half - 1, half):
            yield '%d characters, at most %d' % (half, most), whole, text, second.rules_of([(0, 1)], [(21, most, 0)], [], b''), b''
        rules = second.rules_of([(0, 1)], [(2, 32, 0)], [], b'')
        for label, last in (('all good', (0, 2)), ('the last starts inside', (1, 1)), ('the last ends inside', (0, 3)),
                            ('the last to the end', (2 * half - 2, len(text) - 2 * half + 2))):
            rows = [(4, 2 * i, 60_000, 0, 0, 0) for i in range(100)] + [(4, *last, 0, 0, 0)]
            overlapping = second.record_of([(5, 1, len(rows), 0, 0, 0)] + rows, text)
            yield 'strings of 60,000 bytes, ' + label, overlapping, text, rules, b''


def long_texts():
    """Texts of the greatest length, and one byte more, which no bundle holds."""
    for length in (LONGEST - 1, LONGEST, LONGEST + 1):
        text = bytes(i * i // 251 % 128 for i in range(length))
        other = text[:-1] + bytes([text[-1] ^ 1])
        string = second.record_of([(4, 0, length, 0, 0, 0)], text)
        named = second.record_of([(6, 1, 1, 0, 0, 0), (0, 0, 0, 0, 0, length)], text)
        null = second.record_of([(0, 0, 0, 0, 0, 0)], b'')
        same = second.rules_of([(0, 1)], [(3, 0, 1)], [(4, 0, length)], text)
        sized = second.rules_of([(0, 2)], [(20, length, 0), (21, length, 0)], [], b'')
        has = second.rules_of([(0, 2), (2, 1)], [(26, 0, 1), (40, 1, 1), (2, 1, 0)],
                              [(0, length, 0), (0, length, 1)], text)
        label = 'a text of %d bytes: ' % length
        yield label + 'enum of itself', string, text, same, text
        yield label + 'enum of another', string, text, same, other
        yield label + 'its length', string, text, sized, b''
        yield label + 'a name', named, text, has, text
        yield label + 'another name', named, text, has, other
        yield label + 'in the rules alone', null, b'', same, text
        yield label + 'one byte lent less', string, text[:-1], same, text
        yield label + 'one byte lent more in the rules', string, text, same, text + b'x'


def cut_sheets(rng, label, words, text, rules, rule_text):
    """Sheets whose trailer speaks of more than is lent."""
    less = rng.choice((1, 2, 6, rng.randint(0, len(words))))
    yield label + ', words cut', words[less:], text, rules, rule_text
    less = rng.choice((1, 2, 6, rng.randint(0, len(rules))))
    yield label + ', rule words cut', words, text, rules[less:], rule_text
    if text:
        yield label + ', text cut', words[:-2] + [len(text) - 1, 1], text[:-1], rules, rule_text
    if rule_text:
        yield label + ', rule text cut', words, text, rules[:-2] + [len(rule_text) - 1, 2], rule_text[:-1]


def cases(rng, count, seed):
    for number, rules, record, _ in second.sample_table():
        yield 'sample %d' % number, *record, *rules
    yield from sheets.limits()
    yield from long_texts()
    yield from long_characters()
    for parts in itertools.product(([], [0] * 4), (b'', b'x'), ([], [0] * 6), (b'', b'x')):
        yield 'no sheets', *parts
    for label, *parts in sheets.cases(seed, count):
        yield label, *parts
        if rng.random() < 0.1:
            yield from cut_sheets(rng, label, *parts)
    yield from judged.cases(seed, count // 3)


# ---- the caller ----

def build():
    """Runs the example, and builds the caller; what the example printed."""
    printed = subprocess.run([os.path.join(ROOT, 'examples', 'build-host')], stdout=subprocess.PIPE,
                             stderr=subprocess.DEVNULL).stdout
    subprocess.run([machine.tool('gcc'), '-std=gnu99', '-Wall', '-Wextra', '-Werror', '-O2', '-pthread',
                    '-I', os.path.join(ROOT, 'include'), '-o', CALLER,
                    os.path.join(ROOT, 'tests', 'c_entry.c'), ARCHIVE], check=True)
    return printed


def run_caller(sent, *arguments):
    return subprocess.run(machine.call(CALLER, *arguments), input=sent, capture_output=True)


def in_batches(calls):
    """The calls in lists that one run of the caller gets."""
    batch, size = [], 0
    for call in calls:
        batch.append(call)
        size += len(call.sent())
        if size > BATCH:
            yield batch
            batch, size = [], 0
    yield batch


def compare(results, calls, *arguments):
    """Checks a batch of calls. A call that does not return is a failure, and the next is tried."""
    while calls:
        ran = run_caller(b''.join(call.sent() for call in calls), *arguments)
        at = 0
        while calls and at + calls[0].result_size() <= len(ran.stdout):
            call = calls.pop(0)
            got = ran.stdout[at:at + call.result_size()]
            at += len(got)
            wanted = call.wanted()
            results.check(got == wanted, '%s: %s' % (call.label, difference(got, wanted)))
        if calls:
            results.check(False, '%s: ended with %d %s' % (calls[0].label, ran.returncode, ran.stderr.decode().strip()))
            calls.pop(0)


def difference(got, wanted):
    told, other = [struct.unpack_from('<%dQ' % min(TOLD.size // 8, len(one) // 8), one) for one in (got, wanted)]
    return 'told %s, the second program %s' % (told, other) if told != other else 'the areas differ'


def check_calls(results, rng, count, seed):
    batch, verdicts, size = [], [], 0
    for case in cases(rng, count, seed):
        for call in calls_of(rng, *case):
            batch.append(call)
            verdicts.append(VerdictCall(call.label, *call.arrays[:5]))
            size += len(call.sent())
        if size > BATCH:
            compare(results, batch)
            compare(results, verdicts, 'verdict')
            batch, verdicts, size = [], [], 0
    compare(results, batch)
    compare(results, verdicts, 'verdict')
    label, *parts = sheets.full_sheet()
    areas = room(parts[0], parts[2])
    compare(results, [Call(label, *parts, rng.randbytes(areas), second.to_words(rng.randbytes(4 * areas)))])
    compare(results, [VerdictCall(label, *parts, rng.randbytes(areas))], 'verdict')


def check_guards(results):
    """The emulator keeps to the caller's pages: a byte past an array kills it, and a write where it may only read."""
    judging = Call('guards', [0] * 4, b'x', [0] * 6, b'x', b'x', [0]).sent()
    reading = c_read.Read('guards', b'0', [0] * 10, b'x').sent()
    for call, sent, given, lent in (([], judging, 6, 4), (['read'], reading, 3, 1)):
        for how, arrays in (('past', range(given)), ('into', range(lent))):
            for array in arrays:
                ended = run_caller(sent, *call, how, str(array)).returncode
                results.check(ended == -signal.SIGSEGV, '%s %s array %d: ended with %d' % (call, how, array, ended))


# ---- what the header says of the archive ----

def check_archive(results):
    """No writable data, so no state; nothing asked of C but moving bytes, so no allocation and no input or output."""
    sections = subprocess.run([machine.tool('objdump'), '-h', ARCHIVE], capture_output=True, text=True).stdout
    sizes = re.findall(r'^ *\d+ (\.data|\.bss|\.tdata|\.tbss)\S* +([0-9a-f]+)', sections, re.M)
    results.check('.text' in sections and all(int(size, 16) == 0 for _, size in sizes),
                  'the archive has data: %s' % sizes)
    symbols = subprocess.run([machine.tool('nm'), '-u', ARCHIVE], capture_output=True, text=True).stdout
    asked = set(re.findall(r' U (\S+)', symbols))
    results.check(asked <= FROM_C, 'the archive asks for %s' % (asked - FROM_C))


def deep_cases():
    """32 levels, each judged by a chain of 32 schemas: 1,024 pairs are open at the deepest. Once with an enum that every level
    but the last fails, at which judging for the verdict only stops, and once without."""
    chain = [(34, s + 1, 0) for s in range(31)]
    tests = [(10, 2 ** 32 - 999_999_999, 9), (14, 7, 9)]
    last = (3, 999_999_999, 9, 30, 0, 1)
    arrays = [(5, j + 1, 1, max(j - 1, 0), 0, 0) for j in range(31)] + [(*last[:4], 0, 0)]
    objects = [(6, j + 1, 1, max(j - 1, 0), 0, j > 0) for j in range(31)] + [last]
    for end, enum, entries in ((', an enum failing', [(3, 0, 1)], [(3, 1, 0)]), ('', [], [])):
        leaf = enum + tests
        items = second.rules_of([(s, 1) for s in range(31)] + [(31, len(leaf) + 1)], chain + leaf + [(44, 0, 0)], entries, b'p')
        yield 'items' + end, second.record_of(arrays, b'p'), b'p', items, b'p'
        named = second.rules_of([(s, 1) for s in range(31)] + [(31, len(leaf) + 2)],
                                chain + leaf + [(40, len(entries), 1), (60, 0, 0)], entries + [(0, 1, 0)], b'p')
        yield 'properties' + end, second.record_of(objects, b'p'), b'p', named, b'p'
        branches = [(s + 1, 0, 0) for s in range(31) for _ in range(3)]
        leaf = [(3, len(branches), 1) for _ in enum] + tests
        counted = second.rules_of([(s, 1) for s in range(31)] + [(31, len(leaf) + 1)],
                                  [(36, 3 * s, 3) for s in range(31)] + leaf + [(45, len(branches + entries), 1)],
                                  branches + entries + [(0, 0, 2 ** 32 - 1)], b'p')
        yield 'contains, by conditions' + end, second.record_of(arrays, b'p'), b'p', counted, b'p'


def check_stack(results):
    """No deep case needs a larger stack than the header asks for."""
    with open(os.path.join(ROOT, 'include', 'amphorust.h')) as header:
        said = int(re.search(r'^#define AMPHORUST_STACK (\d+)', header.read(), re.M)[1])
    for label, *parts in deep_cases():
        for call, how in ((Call(label, *parts, bytes(1024), [0] * 1024), []), (VerdictCall(label, *parts, bytes(1024)), ['verdict'])):
            smallest = smallest_stack(call, how)
            print('32 levels by chains of 32 through %s: the smallest stack is %d KiB' % (call.label, smallest // 1024))
            results.check(smallest <= said, 'deep %s: needs a stack of %d' % (call.label, smallest))
    for call in c_read.deepest():
        smallest = smallest_stack(call, ['read'])
        print('%s: the smallest stack is %d KiB' % (call.label, smallest // 1024))
        results.check(smallest <= said, '%s: needs a stack of %d' % (call.label, smallest))


def smallest_stack(call, how):
    """The smallest stack at which the call is answered rightly, in bytes."""
    low, high, wanted = 0, STACK_MOST // STACK_STEP, call.wanted()
    while high - low > 1:
        middle = (low + high) // 2
        works = run_caller(call.sent(), *how, str(middle * STACK_STEP)).stdout == wanted
        low, high = (low, middle) if works else (middle, high)
    return high * STACK_STEP


def main(count=1500, seed=1):
    results, rng = Results(), random.Random(seed)
    resource.setrlimit(resource.RLIMIT_CORE, (0, 0))        # some callers die, as they must
    results.check(build() == HOST_PRINTS, 'the example host prints something else')
    if machine.EMULATED:
        check_guards(results)
    check_calls(results, rng, count, seed)
    compare(results, list(c_check.calls(seed, count)), 'check')
    compare(results, list(c_queue.calls(seed, count // 5)), 'queue')
    for batch in in_batches(c_read.calls(seed, 4 * count)):
        compare(results, batch, 'read')
    results.check(c_read.least(seed, 4 * count), "the areas that the header says are too small, or never needed")
    check_archive(results)
    check_stack(results)
    print('%d passed, %d failed' % (results.passed, results.failed))
    return results.failed > 0


if __name__ == '__main__':
    sys.exit(main(*[int(argument) for argument in sys.argv[1:3]]))
