#!/usr/bin/env python3
"""The command `amphorust`: what it prints and how it exits, on the examples and on tables of schemas and records.

Ends with 'N passed, M failed'. It runs the command as a user does who has installed it, and imports nothing of tools/.
"""
import json
import random
import re
import subprocess
import sys
import tempfile

import command_cases
import command_causes
import second
from command_exits import Exits
from command_inputs import Inputs
from command_runs import EXAMPLES, Runs

ROOT = EXAMPLES.parent


class Tests(Runs):
    def parts(self):
        return (self.verdicts, self.bad_records, self.bad_schemas, self.schemas_alone, self.examples,
                self.documents, self.damaged_relays, self.options, self.verbose, self.ways, self.conditional_ways,
                self.usage, self.bundles, self.damaged)

    # ---- the tables ----

    def verdicts(self):
        failing = [(schema, record, 'invalid: ' + said)
                   for schema, record, said in command_causes.NEAREST + command_causes.CUT]
        for schema, record, said in (command_cases.VERDICTS + failing + command_causes.CONDITIONS
                                     + command_causes.STRUCTURED):
            self.write('s.json', schema)
            self.write('r.json', record)
            self.equal((schema, record), self.run('check', 's.json', 'r.json'),
                       ('r.json: %s\n' % said, '', 0 if said == 'valid' else 1))

    def bad_records(self):
        self.write('s.json', True)
        for record, said in command_cases.BAD_RECORDS:
            self.write('r.json', record)
            self.equal(record, self.run('check', 's.json', 'r.json'), ('', 'r.json: %s\n' % said, 2))

    def bad_schemas(self):
        self.write('r.json', '1')
        no_clause = [({'anyOf': [{keyword: value}]}, '#/anyOf/0/%s: the judge has no %s' % (keyword, keyword))
                     for keyword, value in command_cases.NO_CLAUSE.items()]
        for schema, said in command_cases.BAD_SCHEMAS + no_clause:
            self.write('s.json', json.dumps(schema))
            self.equal(schema, self.run('check', 's.json', 'r.json'), ('', 's.json: %s\n' % said, 2))

    def schemas_alone(self):
        """Without a record the schema is checked: how many schemas its sheet has, by one line and the exit status."""
        for schema, count in ((True, '1 schema'), ({'$ref': '#/$defs/a', '$defs': {'a': {}, 'b': False}}, '1 schema'),
                              ({'items': {'type': 'null'}}, '2 schemas'),
                              ({'allOf': [{'minimum': i} for i in range(1023)]}, '1024 schemas')):
            self.write('s.json', schema)
            self.equal(schema, self.run('check', 's.json'), ('s.json: in order: %s\n' % count, '', 0))
        self.equal('--json', self.run('check', '--json', 's.json'), ('{"file": "s.json", "schemas": 1024}\n', '', 0))
        self.equal('-q', self.run('check', '-q', 's.json'), ('', '', 0))
        self.equal('-q, no schema', self.run('check', '-q', self.write('t.json', '1')), ('', '', 2))
        self.equal('no such schema', self.run('check', 'none.json'), ('', 'none.json: no such file or directory\n', 2))
        self.equal('a schema in standard input', self.run('check', '-', stdin=b'{}'), ('-: in order: 1 schema\n', '', 0))

    # ---- the examples ----

    def examples(self):
        run = lambda *arguments: self.run(*arguments, cwd=EXAMPLES)
        warned = 'passage.schema.json: warning: #/properties/at/format: format is not asserted\n'
        self.equal('a passage', run('check', 'passage.schema.json', 'passage.json'), ('passage.json: valid\n', warned, 0))
        self.equal('a misspelt member', run('check', 'passage.schema.json', 'passage-misspelt.json'),
                   ('passage-misspelt.json: invalid: /bbi: not allowed here (#/unevaluatedProperties)\n', warned, 1))
        self.equal('a relay', run('check', 'relay.schema.json', 'relay.json'), ('relay.json: valid\n', '', 0))
        self.equal('a schema', run('check', 'passage.schema.json'),
                   ('passage.schema.json: in order: 15 schemas\n', warned, 0))
        self.equal('a queue', run('check', 'passage.schema.json', 'queue.jsonl'), (
            'queue.jsonl:1: valid\n'
            'queue.jsonl:2: valid\n'
            'queue.jsonl:4: invalid: /bib: is "88", must be integer (#/$defs/bib/type), the nearest of 2 alternatives '
            '(#/anyOf/1)\n'
            'queue.jsonl:5: invalid: /chip: "A30F917" has 7 characters, must have at least 8 '
            '(#/$defs/read/properties/chip/minLength), the nearest of 2 alternatives (#/anyOf/0), and 2 more\n',
            warned + 'queue.jsonl:3: column 122: not JSON: it ends too early\n', 2))

    def documents(self):
        """What README.md and docs/GUIDE.md show is what is printed, both outputs together."""
        for name in ('README.md', 'docs/GUIDE.md'):
            shown = re.findall(r'^    \$ \./amphorust (check .*)\n((?:    (?!\$).*\n)*)', (ROOT / name).read_text(), re.M)
            self.equal(name + ' shows something', len(shown) > 0, True)
            for arguments, lines in shown:
                ran = subprocess.run([self.command, *arguments.split()], cwd=ROOT, stdout=subprocess.PIPE,
                                     stderr=subprocess.STDOUT)
                self.equal((name, arguments), ran.stdout.decode(), re.sub('^    ', '', lines, flags=re.M))

    def damaged_relays(self):
        relay = json.loads((EXAMPLES / 'relay.json').read_text())
        schema = EXAMPLES / 'relay.schema.json'
        for leg, change, said in (
                (0, {'handover': 'hut'}, '/legs/0: fits what it must not: {"required":["handover"]} '
                 '(#/properties/legs/prefixItems/0/not)'),
                (1, {'handover': 'lake'}, '/legs/1/handover: is "lake", must be "hut", "bridge", "pass" or "village" '
                 '(#/$defs/leg/$defs/place/enum)'),
                (1, {'minutes': 121.505}, '/legs/1/minutes: is 121.505, must be a multiple of 0.01 '
                 '(#/$defs/leg/oneOf/0/properties/minutes/multipleOf), the nearest of 2 alternatives '
                 '(#/$defs/leg/oneOf/0)'),
                (3, {'missed': 'x'}, '/legs/3: fits 0 and 1, must fit only one (#/$defs/leg/oneOf)'),
                (3, {'chip': 'x'}, '/legs/3/chip: not allowed here (#/$defs/leg/unevaluatedProperties)')):
            legs = [dict(one, **change) if i == leg else one for i, one in enumerate(relay['legs'])]
            self.write('r.json', dict(relay, legs=legs))
            self.equal(change, self.run('check', schema, 'r.json'), ('r.json: invalid: %s\n' % said, '', 1))

    # ---- options, files and output ----

    def options(self):
        self.write('s.json', {'$id': 'http://a.example/s', 'properties': {'a b': {'$ref': '#/$defs/n'}},
                              '$defs': {'n': {'anyOf': [{'type': 'null'}, {'minimum': 2}]}}})
        good, bad = self.write('good.json', '{}'), self.write('bad.json', '{"a b":1}')
        self.equal('standard input', self.run('check', 's.json', '-', stdin=b'[]'), ('-: valid\n', '', 0))
        self.equal('standard input, not JSON', self.run('check', 's.json', '-', stdin=b'['),
                   ('', '-: line 1, column 2: not JSON: it ends too early\n', 2))
        for files, status in (([good, good], 0), ([good, bad], 1), ([bad, 'none.json', good], 2), (['none.json'], 2)):
            self.equal(('-q', files), self.run('check', '-q', 's.json', *files), ('', '', status))
        self.equal('no such file', self.run('check', 's.json', 'none.json'),
                   ('', 'none.json: no such file or directory\n', 2))
        self.equal('no such schema', self.run('check', 'none.json', good),
                   ('', 'none.json: no such file or directory\n', 2))
        self.equal('a schema that is not JSON', self.run('check', self.write('t.json', '{"a":\n}'), good),
                   ('', 't.json: line 2, column 1: not JSON: expecting value\n', 2))
        self.write('t.json', '{"$defs":{"a":1,"a":2}}')
        self.equal('a member twice in a schema', self.run('check', 't.json', good),
                   ('', 't.json: #/$defs/a: two members of this name\n', 2))
        self.equal('a byte order mark', self.run('check', 's.json', self.write('r.json', b'\xef\xbb\xbf{}')),
                   ('r.json: valid\n', '', 0))
        self.write('-dash.json', '{}')
        self.equal('a file like an option', self.run('check', '--', 's.json', '-dash.json'),
                   ('-dash.json: valid\n', '', 0))
        self.equal('options anywhere', self.run('check', 's.json', '--js', good, '--str', good),
                   ('{"file": "good.json", "valid": true}\n' * 2, '', 0))
        self.json_output(good, bad)

    def json_output(self, good, bad):
        out, err, status = self.run('check', '--json', 's.json', good, bad, 'none.json')
        at = 'http://a.example/s#/$defs/n/anyOf'
        path = '/properties/a b/$ref/anyOf'
        self.equal('--json', [json.loads(line) for line in out.splitlines()] + [err, status], [
            {'file': good, 'valid': True},
            {'file': bad, 'valid': False, 'errors': [
                {'valid': False, 'instanceLocation': '/a b', 'keywordLocation': path, 'absoluteKeywordLocation': at,
                 'error': 'fits none of 2'},
                {'valid': False, 'instanceLocation': '/a b', 'keywordLocation': path + '/0/type',
                 'absoluteKeywordLocation': at + '/0/type', 'error': 'is 1, must be null'},
                {'valid': False, 'instanceLocation': '/a b', 'keywordLocation': path + '/1/minimum',
                 'absoluteKeywordLocation': at + '/1/minimum', 'error': 'is 1, must be at least 2'}]},
            {'file': 'none.json', 'error': 'no such file or directory', 'place': ''}, '', 2])

    def verbose(self):
        """-v tells every cause on a line, under a choice by the number of the alternative."""
        queue, schema = EXAMPLES / 'queue' / '5-gate.json', EXAMPLES / 'passage.schema.json'
        self.equal('-v', self.run('check', '-v', schema, queue, EXAMPLES / 'passage.json')[::2], (
            '%s: invalid\n'
            '  fits none of 2 (#/anyOf), the nearest is 0\n'
            '    0: /chip: "A30F917" has 7 characters, must have at least 8 (#/$defs/read/properties/chip/minLength)\n'
            '    1: missing "marshal" (#/$defs/noted/required)\n'
            '  /junction/km: is -61.7, must be at least 0 (#/$defs/junction/properties/km/minimum)\n'
            '  /junction/altitude: is 2516.5, must be integer (#/$defs/junction/properties/altitude/type)\n'
            '%s: valid\n' % (queue, EXAMPLES / 'passage.json'), 1))
        self.write('s.json', {'if': {'required': ['a']}, 'then': {
            'anyOf': [{'required': ['b']}, {'dependentRequired': {'a': ['c', 'd']}}], 'type': 'array'}})
        self.equal('-v of a condition', self.run('check', '-v', 's.json', self.write('r.json', '{"a":1}')), (
            'r.json: invalid\n'
            '  is {"a":1}, must be array (#/then/type), since #/if holds\n'
            '  fits none of 2 (#/then/anyOf), since #/if holds, the nearest is 0\n'
            '    0: missing "b" (#/then/anyOf/0/required)\n'
            '    1: missing "c", "d" (#/then/anyOf/1/dependentRequired), since /a is there\n', '', 1))
        self.write('s.json', command_cases.chain(31, lambda i: {'anyOf': [command_cases.to(i)] * 2}))
        out, _, status = self.run('check', '-v', 's.json', self.write('r.json', '5'))
        self.equal('-v of a chain of choices', (out.count('\n'), out.count('as above'), status), (64, 30, 1))

    def ways(self):
        """Where a keyword stands by the way that was gone, and by the $id of the resource that it is in, if that is
        absolute."""
        schema = {'$ref': '#/$defs/list', '$defs': {
            'list': {'type': 'array', 'items': {'anyOf': [{'$ref': 'low'}, {'$ref': '#'}]}},
            'low': {'$id': 'low', 'type': 'integer', '$ref': '#/$defs/most',
                    '$defs': {'most': {'$ref': '#/$defs/3'}, '3': {'maximum': 3}}}}}
        outer, inner = '/$ref/items/anyOf', '/$ref/items/anyOf/1/$ref/$ref/items/anyOf'
        root, low = 'https://a.example/x/root', 'https://a.example/x/low'
        units = [('/0', outer, root + '#/$defs/list/items/anyOf'),
                 ('/0', outer + '/0/$ref/type', low + '#/type'),
                 ('/0/0', inner, root + '#/$defs/list/items/anyOf'),
                 ('/0/0', inner + '/0/$ref/$ref/$ref/maximum', low + '#/$defs/3/maximum'),
                 ('/0/0', inner + '/1/$ref/$ref/type', root + '#/$defs/list/type')]
        for identity, wanted in (({'$id': root}, units), ({}, [unit[:2] + (None,) for unit in units])):
            self.write('s.json', dict(schema, **identity))
            out, err, status = self.run('check', '--json', 's.json', self.write('r.json', '[[4]]'))
            told = [(unit['instanceLocation'], unit['keywordLocation'], unit.get('absoluteKeywordLocation'))
                    for unit in json.loads(out).get('errors', [])]
            self.equal(('the ways', identity), (told, err, status), (wanted, '', 1))

    def conditional_ways(self):
        """The same through branches, names and counts, whose conditions stand in the error."""
        self.write('s.json', {'if': True, 'then': {'$ref': '#/$defs/list'}, 'dependentRequired': {'a': ['b']}, '$defs': {
            'list': {'properties': {'c': {'contains': {'type': 'null'}, 'minContains': 2}}, 'dependentSchemas': {'c': False}}}})
        out, err, status = self.run('check', '--json', 's.json', self.write('r.json', '{"a":1,"c":[null]}'))
        told = [(unit['instanceLocation'], unit['keywordLocation'], unit['error']) for unit in json.loads(out)['errors']]
        self.equal('the ways of conditions', (told, err, status), ([
            ('', '/then/$ref/dependentSchemas/c', 'not allowed here, since /c is there'),
            ('/c', '/then/$ref/properties/c/minContains',
             'has 1 item that fits contains, must have at least 2, since #/if holds'),
            ('', '/dependentRequired', 'missing "b", since /a is there')], '', 1))

    def usage(self):
        for arguments, said in (([], 'the following arguments are required: COMMAND'),
                                (['chek', 'a', 'b'], "argument COMMAND: invalid choice: 'chek'"),
                                (['check'], 'check takes a schema, and records to be judged by it'),
                                (['check', '--jsn', 'a', 'b'], 'unrecognized arguments: --jsn'),
                                (['bundle', 'a', 'b', 'c'], 'bundle takes a schema and a record'),
                                (['check', '-q', '--json', 'a', 'b'], '-q, -v and --json exclude each other'),
                                (['check', '-r'], 'argument -r/--refer: expected at least one argument')):
            out, err, status = self.run(*arguments)
            last = err.splitlines()[-1]
            self.equal((arguments, last), (out, last.startswith('amphorust: error: ' + said), status), ('', True, 2))
        out, err, status = self.run('--help')
        lines = out.splitlines()
        self.equal('--help fits on a screen', (len(lines) <= 40, max(map(len, lines)) <= 80, err, status),
                   (True, True, '', 0))

    def bundles(self):
        """The bundle of rules A and {"p":7} is that of paper 01's first sample, word for word; references that stand
        alone leave nothing in it. The entries of conditions and counts are as request #106 of paper 02 has them."""
        plain = {'properties': {'p': {'type': 'integer'}}, 'unevaluatedProperties': False}
        by_references = {'$ref': '#/$defs/a', '$defs': {
            'a': {'properties': {'p': {'$ref': '#/$defs/p'}}, 'unevaluatedProperties': {'$ref': '#/$defs/none'}},
            'p': {'type': 'integer'}, 'none': False}}
        self.write('r.json', '{"p":7}')
        _, rules, record, _ = second.sample_table()[0]
        conditions = {'contains': False, 'maxContains': 2, 'if': {'type': 'null'}, 'then': False,
                      'dependentSchemas': {'p': {'type': 'null'}}}
        words = second.rules_of([(0, 3), (3, 0), (3, 1), (4, 1)],
                                [(36, 0, 3), (37, 3, 1), (45, 4, 1), (2, 1, 0), (1, 0, 0)],
                                [(2, 0, 0), (3, 0, 0), (1, 0, 0), (0, 1, 2), (3, 1, 2)], b'p')
        for schema, rules in ((plain, rules), (by_references, rules), (conditions, (words, b'p'))):
            self.write('s.json', schema)
            ran = subprocess.run([self.command, 'bundle', 's.json', 'r.json'], cwd=self.files, capture_output=True)
            self.equal(schema, (ran.stdout, ran.stderr, ran.returncode), (second.bundle(*record, *rules), b'', 0))
        self.equal('bundle of no JSON', self.run('bundle', 's.json', self.write('r.json', '{"p" 7}')),
                   ('', "r.json: line 1, column 6: not JSON: '7' cannot stand here\n", 2))
        self.equal('bundle of no file', self.run('bundle', 's.json', 'none.json'),
                   ('', 'none.json: no such file or directory\n', 2))

    def damaged(self):
        """Damaged bytes get a verdict or a line that says why not, never a fault of the command; also as schemas."""
        rng = random.Random(6)
        passage, schema = (EXAMPLES / 'passage.json').read_bytes(), (EXAMPLES / 'passage.schema.json').read_bytes()
        records = [self.write('d%d.json' % i, damaged(rng, passage)) for i in range(200)]
        self.sound('damaged records', self.run('check', EXAMPLES / 'passage.schema.json', *records), len(records) + 1)
        for i in range(60):
            self.write('s.json', damaged(rng, schema))
            self.sound('damaged schema %d' % i, self.run('check', 's.json', EXAMPLES / 'passage.json'), 1)

    def sound(self, label, ran, count):
        out, err, status = ran
        lines = out.splitlines() + err.splitlines()
        faults = [line for line in lines if 'Traceback' in line or 'a fault of this command' in line]
        self.equal(label, (faults, len(lines) >= count, status in (0, 1, 2)), ([], True, True))


def damaged(rng, data):
    """The bytes with some of them replaced, dropped or swapped for others that JSON cares about."""
    data = bytearray(data)
    for _ in range(rng.randint(1, 3)):
        at = rng.randrange(len(data))
        data[at:at + rng.choice((0, 1, 1, 4))] = rng.choice(
            (b'', b'0', b'"', b'{', b']', b',', b'1e9', b'\xff', b'null'))
    return bytes(data)


def main():
    with tempfile.TemporaryDirectory() as folder:
        tests = Tests(folder)
        for part in (*tests.parts(), *Inputs(tests).parts(), *Exits(tests).parts()):
            part()
    print('%d passed, %d failed' % (tests.passed, tests.failed))
    return tests.failed > 0


if __name__ == '__main__':
    sys.exit(main())
