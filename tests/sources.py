#!/usr/bin/env python3
"""What the prover does not see, read off the sources: from the clearing on, two functions alone store into cells, one that settles a pair and one that
writes marks (a store that changes no value, as cells[0] = cells[0], breaks no contract). Cells come to the judge, to what it stands on and to what stands
on it; a crate none of whose public functions is lent bytes to write gets none."""
import glob
import os
import re
import sys

ROOT = os.path.dirname(os.path.dirname(os.path.realpath(__file__)))
STORERS = {('areas', 'clear'), ('areas', 'settle'), ('areas', 'write_mark')}
FUNCTION = re.compile(r'^\s*(?:pub(?:\(crate\))? )?(?:extern "C" )?fn (\w+)', re.M)
PUBLIC = re.compile(r'^\s*pub (?:extern "C" )?fn', re.M)
# By an index, or by one of the library's methods that write; a slice that is lent on is no store.
STORE = re.compile(r'\b(\w+)(?:\[[^\]]*\])?(?:\[[^\]]*\]\s*[-+*/%&|^]?=(?!=)|\.(?:fill|fill_with|copy_from_slice|clone_from_slice|'
                   r'copy_within|swap\w*|reverse|rotate_\w+|sort\w*|iter_mut|\w*chunks\w*_mut|split\w*_mut|get_mut|first_mut|last_mut|as_mut\w*)\()')
LOOP = re.compile(r'\bfor [^\n]* in (?:&mut \*)?(\w+) \{')
BYTES = re.compile(r'(\w+): &mut \[u8\]')


def functions(text):
    """Each function of a source, its name and its lines."""
    starts = [(found.start(), found.group(1)) for found in FUNCTION.finditer(text)]
    for (start, name), (end, _) in zip(starts, starts[1:] + [(len(text), '')]):
        yield name, text[start:end]


def stores(crate, text):
    """The functions of a crate's source that store into bytes that are lent to them."""
    for name, body in functions(text):
        lent = set(BYTES.findall(body))
        if any(found in lent for found in STORE.findall(body) + LOOP.findall(body)):
            yield crate, name


def is_lent_bytes(texts):
    """Whether a public function of these sources takes bytes that it may write."""
    return any(PUBLIC.match(body) and BYTES.search(body) for text in texts for _, body in functions(text))


def read(path):
    with open(path) as source:
        return source.read()


def with_cells():
    """The crates that cells may come to: the judge, those it stands on and those that stand on it."""
    reached = {}
    for line in read(os.path.join(ROOT, 'crates.txt')).splitlines():        # lowest first
        if ':' in line:
            kind, below = line.split(':')                                   # of a static library 'NAME staticlib'
            crate = kind.split()[0]
            reached[crate] = {crate}.union(*(reached.get(other, ()) for other in below.split()))
    return sorted(crate for crate in reached if crate in reached['judge'] or 'judge' in reached[crate])


def found():
    for crate in with_cells():
        texts = [read(path) for path in glob.glob(os.path.join(ROOT, 'crates', crate, 'src', '**', '*.rt'), recursive=True)]
        if is_lent_bytes(texts):
            for text in texts:
                yield from stores(crate, text)


def main():
    passed = failed = 0
    seen = set(found())
    for crate, name in sorted(seen | STORERS):
        if (crate, name) in seen and (crate, name) in STORERS:
            passed += 1
        else:
            failed += 1
            print('%s::%s %s' % (crate, name, 'stores into lent bytes' if (crate, name) in seen else 'stores no more'))
    # The scan itself: a store elsewhere is seen, a comparison is none.
    for body, expected in (('fn f(cells: &mut [u8]) {\n    cells[0] = cells[0];\n}', 1), ('fn f(cells: &mut [u8]) -> bool {\n    cells[0] == 1\n}', 0),
                           ('fn f(cells: &[u8], words: &mut [u32]) {\n    words[0] = 1;\n}', 0), ('fn f(cells: &mut [u8]) {\n    cells[at] += 4;\n}', 1),
                           ('fn f(cells: &mut [u8]) {\n    cells.fill(0);\n}', 1), ('fn f(cells: &mut [u8]) {\n    cells[..k].fill(0);\n}', 1),
                           ('fn f(cells: &mut [u8]) {\n    for cell in cells {\n        *cell = 0;\n    }\n}', 1)):
        if len(list(stores('x', body))) == expected:
            passed += 1
        else:
            failed += 1
            print('the scan is wrong about: ' + body)
    for head, expected in (('pub fn f', True), ('pub(crate) fn f', False), ('fn f', False)):
        if is_lent_bytes([head + '(cells: &mut [u8]) {\n}']) == expected:
            passed += 1
        else:
            failed += 1
            print('the scan is wrong about the public: ' + head)
    print('%d passed, %d failed' % (passed, failed))
    return failed != 0


if __name__ == '__main__':
    sys.exit(main())
