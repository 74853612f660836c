#!/usr/bin/env python3
"""The published JSON-Schema-Test-Suite, draft 2020-12, through the command: every case that our clauses can say.

Debian's libtest-json-schema-acceptance-perl carries it. Prints how many cases are left out and why, and ends with
'N passed, M failed'. A case fails if the verdict is not the suite's, a reason if it leaves out another number of cases
than LEFT_OUT says: so no case drops out unseen.
"""
import json
import os
import re
import subprocess
import sys
import tempfile
from collections import Counter
from concurrent.futures import ThreadPoolExecutor
from pathlib import Path

import judges

HOME = Path('/usr/share/perl5/auto/share/dist/Test-JSON-Schema-Acceptance')
SUITE, REMOTES, SERVER = HOME / 'tests/draft2020-12', HOME / 'remotes/draft2020-12', 'http://localhost:1234/'

# A case is left out by the first of these that the command's error matches; a keyword is told by its own name.
REASONS = (
    (r'the judge has no (.*)', None),
    (r'(?:refused \(23\): )?the number .* is out of range.*', 'numbers of more than nine digits'),
    (r'refers to no document that is given.*', '$ref to another document'),
    (r'only Draft 2020-12 is read.*', '$schema of another dialect'),
)
FORMAT_ASSERTED = 'format as an assertion (optional)'

# Of the 1,788 cases in version 1.019 of the package.
LEFT_OUT = {
    FORMAT_ASSERTED: 471, 'patternProperties': 86, 'pattern': 73, 'uniqueItems': 40, 'dependencies': 36,
    '$dynamicRef': 30, '$ref to another document': 29, 'numbers of more than nine digits': 16, 'propertyNames': 14,
    '$schema of another dialect': 5,
}


def groups():
    """(file, group) of every group of cases in the suite, by file."""
    for path in sorted(SUITE.rglob('*.json')):
        for group in json.loads(path.read_text(encoding='utf-8')):
            yield path.relative_to(SUITE).as_posix(), group


def judged(command, group):
    """For each case of the group True, False, or the command's error."""
    with tempfile.TemporaryDirectory() as folder:
        values = [group['schema']] + [case['data'] for case in group['tests']]
        files = [os.path.join(folder, '%d.json' % i) for i in range(len(values))]
        for file, value in zip(files, values):
            Path(file).write_text(json.dumps(value), encoding='utf-8')
        ran = subprocess.run([command, 'check', '--json'] + files + further(group, folder), capture_output=True, text=True)
    by_file = {}
    for unit in map(json.loads, ran.stdout.splitlines()):
        by_file.setdefault(unit['file'], unit.get('valid', unit.get('error')))      # of several errors the first
    of_all = next(iter(by_file.values()), 'nothing: ' + ran.stderr)         # said of a schema, if of no record
    return [by_file.get(file, of_all) for file in files[1:]]


def further(group, folder):
    """The options that give the suite's further documents, for a group that refers to one; each by the URI at which the
    suite says it is found, if it has no $id."""
    if SERVER not in json.dumps(group['schema']):
        return []
    options = ['-r']
    for path in sorted(REMOTES.rglob('*.json')):
        document = json.loads(path.read_text(encoding='utf-8'))
        if isinstance(document, dict):
            place = path.relative_to(REMOTES.parent).as_posix()
            options.append(os.path.join(folder, place.replace('/', '-')))
            Path(options[-1]).write_text(json.dumps(dict({'$id': SERVER + place}, **document)), encoding='utf-8')
    return options


def reason_for(file, found):
    """Why a case is left out; None if it is not, or should not be."""
    if file.startswith(('optional/format/', 'optional/format-assertion')):
        return FORMAT_ASSERTED
    if isinstance(found, bool):
        return None
    matches = [(re.fullmatch(pattern, found), reason) for pattern, reason in REASONS]
    return next((reason or match[1] for match, reason in matches if match), None)


class Results:
    def __init__(self):
        self.passed, self.failed, self.left_out = 0, 0, Counter()

    def note(self, good, words):
        self.passed += good
        self.failed += not good
        if not good:
            print(words)

    def case(self, file, group, case, found):
        name = file, group['description'], case['description']
        reason = reason_for(file, found)
        if reason is not None:
            self.left_out[reason] += 1
        else:
            self.note(found is case['valid'], '%s: the suite says %s, the command %s' % (
                ' / '.join(name), case['valid'], found))

    def close(self):
        """The number of cases that each reason leaves out."""
        for reason in sorted(set(LEFT_OUT) | set(self.left_out)):
            print('left out: %4d  %s' % (self.left_out[reason], reason))
            self.note(self.left_out[reason] == LEFT_OUT.get(reason, 0),
                      '%s: %d cases left out, not %d' % (reason, self.left_out[reason], LEFT_OUT.get(reason, 0)))


def main():
    results = Results()
    with tempfile.TemporaryDirectory() as folder, ThreadPoolExecutor(2) as workers:
        command = judges.installed(folder)
        everything = list(groups())
        for (file, group), found in zip(everything, workers.map(lambda one: judged(command, one[1]), everything)):
            for case, one in zip(group['tests'], found):
                results.case(file, group, case, one)
    results.note(everything != [], 'the suite is not there: install libtest-json-schema-acceptance-perl')
    results.close()
    print('%d cases judged, %d left out' % (sum(len(group['tests']) for _, group in everything)
                                            - sum(results.left_out.values()), sum(results.left_out.values())))
    print('%d passed, %d failed' % (results.passed, results.failed))
    return results.failed > 0


if __name__ == '__main__':
    sys.exit(main())
