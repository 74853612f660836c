"""What the command takes: lines, folders, further schema documents, large files; and schemas with all that is wrong."""
import json
import os
import pty
import random
import select
import subprocess
import time

from command_runs import EXAMPLES

PASSAGE = EXAMPLES / 'passage.schema.json'


class Inputs:
    def __init__(self, runs):
        self.runs, self.equal, self.write = runs, runs.equal, runs.write

    def parts(self):
        return (self.lines, self.many_lines, self.queues, self.large_records, self.waiting, self.folders, self.further,
                self.large, self.progress, self.faults, self.slips)

    def run(self, *arguments, **settings):
        return self.runs.run(*arguments, **settings)

    def lines(self):
        self.write('s.json', {'type': 'object', 'maxProperties': 1})
        text = b'{}\r\n\n{"a":1,"b":2}\n  \n[\n{"a":1}'
        told = ('%s:1: valid\n%s:3: invalid: has 2 members, must have at most 1 (#/maxProperties)\n%s:6: valid\n',
                '%s:5: column 2: not JSON: it ends too early\n')
        for name in ('q.jsonl', 'q.ndjson'):
            self.write(name, text)
            self.equal(name, self.run('check', 's.json', name), (told[0].replace('%s', name), told[1] % name, 2))
        self.write('q.txt', text)
        self.equal('--lines', self.run('check', '--lines', 's.json', 'q.txt'),
                   (told[0].replace('%s', 'q.txt'), told[1] % 'q.txt', 2))
        self.equal('-l of standard input', self.run('check', '-l', 's.json', '-', stdin=text),
                   (told[0].replace('%s', '-'), told[1] % '-', 2))
        out, err, status = self.run('check', '--json', 's.json', 'q.jsonl')
        units = [json.loads(line) for line in out.splitlines()]
        self.equal('--json of lines', ([(unit['file'], unit['line'], unit.get('valid')) for unit in units], err, status),
                   ([('q.jsonl', 1, True), ('q.jsonl', 3, False), ('q.jsonl', 5, None), ('q.jsonl', 6, True)], '', 2))
        self.write('q.jsonl', '[]\n' + '[' * 60_000 + '\n' + ' ' * 100_000 + '1\n{}\n')
        self.equal('nested deeply, and a long line', self.run('check', 's.json', 'q.jsonl'), (
            'q.jsonl:1: invalid: is [], must be object (#/type)\nq.jsonl:4: valid\n',
            'q.jsonl:2: column 60001: not JSON: it ends too early\nq.jsonl:3: refused (20): more than 65536 bytes of JSON\n', 2))
        self.equal('no lines', self.run('check', 's.json', self.write('e.jsonl', '\n')), ('', '', 0))

    def many_lines(self):
        """A thousand records in one call: their verdicts, in order, and in no more time than one process takes."""
        record = json.loads((EXAMPLES / 'passage.json').read_text())
        self.write('q.jsonl', ''.join(json.dumps(dict(record, bib=i)) + '\n' for i in range(1000)))
        start = time.monotonic()
        out, _, status = self.run('check', PASSAGE, 'q.jsonl')
        spent = time.monotonic() - start
        lines = out.splitlines()
        self.equal('1,000 lines', (len(lines), lines[0].startswith('q.jsonl:1: invalid: /bib: is 0, must be at least 1'),
                                   lines[1:] == ['q.jsonl:%d: valid' % i for i in range(2, 1001)], status, spent < 30),
                   (1000, True, True, 1, True))

    def queues(self):
        """More records than a queue takes, of all sorts: each is told as it is by itself, in the order of the lines."""
        self.write('s.json', {'properties': {'bib': {'type': 'integer', 'maximum': 700}}})
        sorts = (lambda i: ('{"bib":%d}' % i, 'valid') if i <= 700 else
                           ('{"bib":%d}' % i, 'invalid: /bib: is %d, must be at most 700 (#/properties/bib/maximum)' % i),
                 lambda i: ('{"bib":"%d"}' % i, 'invalid: /bib: is "%d", must be integer (#/properties/bib/type)' % i),
                 lambda i: ('[' * 33 + ']' * 33, 'column 33: refused (24): more than 32 levels deep'),
                 lambda i: ('[%d' % i, 'column %d: not JSON: it ends too early' % (2 + len(str(i)))),
                 lambda i: ('{"a":%de9}' % (i + 1), 'column 6: refused (23): the number %de9 is out of range: at most 9 '
                            'digits, and 9 places after the point' % (i + 1)))
        rng = random.Random(3)
        made = [rng.choice(sorts)(i) if i not in (0, 511, 512, 1023, 1024) else sorts[0](i) for i in range(1300)]
        self.write('q.jsonl', ''.join(line + '\n' for line, _ in made))
        ran = subprocess.run([self.runs.command, 'check', 's.json', 'q.jsonl'], cwd=self.runs.files,
                             stdout=subprocess.PIPE, stderr=subprocess.STDOUT)
        told = ran.stdout.decode().splitlines()
        wanted = ['q.jsonl:%d: %s' % (i + 1, said) for i, (_, said) in enumerate(made)]
        self.equal('1,300 lines of all sorts', next(((a, b) for a, b in zip(told, wanted) if a != b), len(told)), 1300)
        verdicts = [(line, said) for line, said in made if said == 'valid' or said.startswith('invalid')]
        for name, lines, status in (('all', made, 2), ('judged', verdicts, 1),
                                    ('valid', [one for one in verdicts if one[1] == 'valid'], 0)):
            self.write('q.jsonl', ''.join(line + '\n' for line, _ in lines))
            self.equal(('-q', name), self.run('check', '-q', 's.json', 'q.jsonl'), ('', '', status))
        files = [self.write('many/%04d.json' % i, line) for i, (line, _) in enumerate(made[500:1100])]
        out, err, status = self.run('check', 's.json', 'many')
        wanted = ['%s: %s' % (file, said if not said.startswith('column') else 'line 1, ' + said)
                  for file, (_, said) in zip(files, made[500:1100])]
        self.equal('600 files in a folder', (sorted(out.splitlines() + err.splitlines()) == sorted(wanted), status), (True, 2))

    def large_records(self):
        """Records of the greatest size, many more than a queue's bytes."""
        self.write('s.json', {'type': 'array', 'items': {'maxLength': 60}, 'maxItems': 1023})
        rows = ['x' * 60] * 1023
        lines = [json.dumps(rows[:-1] + ['y' * (60 + i % 7)]) for i in range(70)]
        self.write('q.jsonl', '\n'.join(lines))
        out, err, status = self.run('check', 's.json', 'q.jsonl')
        verdicts = ['valid' if i % 7 == 0 else 'invalid' for i in range(70)]
        self.equal('large records', ([line.split(': ')[1] for line in out.splitlines()], err, status), (verdicts, '', 1))
        self.equal('large records, -q', self.run('check', '-q', 's.json', 'q.jsonl'), ('', '', 1))

    def waiting(self):
        """What is at hand is told before more is waited for: of lines in a pipe, and of a file before a pipe."""
        self.write('s.json', {'type': 'null'})
        self.write('good.json', 'null')
        pipe = self.runs.files / 'pipe.json'
        os.mkfifo(pipe)
        for arguments in (['-l', 's.json', '-'], ['s.json', 'good.json', 'good.json', 'pipe.json']):
            running = subprocess.Popen([self.runs.command, 'check', *arguments], cwd=self.runs.files,
                                       stdin=subprocess.PIPE, stdout=subprocess.PIPE)
            told = b''
            if '-' in arguments:
                for sent, lines in ((b'null\n1\nnu', 2), (b'll\n', 1)):
                    running.stdin.write(sent)
                    running.stdin.flush()
                    told += b''.join(line_of(running.stdout) for _ in range(lines))
                wanted = b'-:1: valid\n-:2: invalid: is 1, must be null (#/type)\n-:3: valid\n'
            else:
                told += line_of(running.stdout) + line_of(running.stdout)
                pipe.write_text('null')
                wanted = b'good.json: valid\n' * 2 + b'pipe.json: valid\n'
            running.stdin.close()
            told += running.stdout.read()
            self.equal(('waiting', arguments), (told, running.wait()), (wanted, 1 if '-' in arguments else 0))

    def folders(self):
        self.write('s.json', {'type': 'null'})
        for name, text in (('f/b.json', 'null'), ('f/a.json', '1'), ('f/c/d.jsonl', 'null\n2\n'), ('f/e.txt', '[')):
            self.write(name, text)
        told = ('f/a.json: invalid: is 1, must be null (#/type)\nf/b.json: valid\nf/c/d.jsonl:1: valid\n'
                'f/c/d.jsonl:2: invalid: is 2, must be null (#/type)\n')
        self.equal('a folder', self.run('check', 's.json', 'f'), (told, '', 1))
        self.write('f/s.json', {'type': 'null'})
        self.equal('a folder that holds the schema', self.run('check', 'f/s.json', 'f'), (told, '', 1))
        (self.runs.files / 'empty').mkdir()
        self.equal('a folder without records', self.run('check', 's.json', 'empty'),
                   ('', 'empty: a folder without a file named .json, .jsonl, .ndjson\n', 2))
        self.equal('a folder as a schema', self.run('check', 'f'), ('', 'f: is a directory\n', 2))
        out, err, status = self.run('check', 'passage.schema.json', 'queue', cwd=EXAMPLES)
        self.equal('examples/queue', (out.count('\n'), err.count('\n'), status), (4, 2, 2))

    def further(self):
        """References to further documents, which are given and never fetched."""
        self.write('s.json', {'$id': 'https://a.example/run', 'properties': {
            'bib': {'$ref': 'https://b.example/bib'}, 'gate': {'$ref': 'gate#/$defs/name'}, 'x': {'$ref': '/other#x'}}})
        self.write('bib.json', {'$id': 'https://b.example/bib', 'type': 'integer', 'maximum': 9})
        self.write('gate.json', {'$id': 'https://a.example/gate', '$defs': {
            'name': {'type': 'string'}, 'o': {'$id': '/other', '$defs': {'x': {'$anchor': 'x', 'const': 1}}}}})
        self.write('r.json', {'bib': 10, 'gate': 'g', 'x': 1})
        self.equal('given', self.run('check', 's.json', 'r.json', '-r', 'bib.json', 'gate.json'),
                   ('r.json: invalid: /bib: is 10, must be at most 9 (bib.json#/maximum)\n', '', 1))
        out, _, _ = self.run('check', '--json', '-r', 'bib.json', 'gate.json', '--', 's.json', 'r.json')
        self.equal('its unit', json.loads(out)['errors'], [
            {'valid': False, 'keywordLocation': '/properties/bib/$ref/maximum', 'instanceLocation': '/bib',
             'absoluteKeywordLocation': 'https://b.example/bib#/maximum', 'error': 'is 10, must be at most 9'}])
        self.equal('not given', self.run('check', 's.json', 'r.json', '--refer', 'gate.json'),
                   ('', 's.json: #/properties/bib/$ref: refers to no document that is given: https://b.example/bib\n', 2))
        self.write('bib.json', {'$id': 'https://b.example/bib', 'type': 'integr', 'pattern': 'x', 'fromat': 1})
        self.equal('what is wrong in it', self.run('check', 's.json', 'r.json', '-r', 'bib.json', 'gate.json', '--strict'), (
            '', 'bib.json: #/fromat: unknown, and asserts nothing: is format meant?\n'
            'bib.json: #/type: must be one or more of null, boolean, integer, number, string, array, object\n'
            'bib.json: #/pattern: the judge has no pattern\n', 2))
        self.write('bib.json', '{"a": {"b": 1, "b": 2}}')
        self.equal('a name twice in it', self.run('check', 's.json', '-r', 'bib.json'),
                   ('', 'bib.json: #/a/b: two members of this name\n', 2))
        self.equal('no $id', self.run('check', self.write('t.json', True), '-r', 'r.json'), (
            '', 'r.json: #: a further schema document is found by its $id, and this has none\n', 2))
        self.equal('documents that cannot be read', self.run('check', self.write('t.json', '['), '-r', 'none.json', 'bib.json'), (
            '', 't.json: line 1, column 2: not JSON: expecting value\nnone.json: no such file or directory\n'
            'bib.json: #/a/b: two members of this name\n', 2))

    def large(self):
        """A file that is too large is refused while it is read: a sparse one of a gigabyte in no more time."""
        self.write('s.json', True)
        with open(self.runs.files / 'huge.json', 'wb') as huge:
            huge.truncate(1 << 30)
        os.link(self.runs.files / 'huge.json', self.runs.files / 'huge.jsonl')
        start = time.monotonic()
        too_long = ': refused (20): more than 65536 bytes of JSON\n'
        self.equal('a record', self.run('check', 's.json', 'huge.json'), ('', 'huge.json' + too_long, 2))
        self.equal('a line', self.run('check', 's.json', 'huge.jsonl'), ('', 'huge.jsonl:1' + too_long, 2))
        self.equal('a schema', self.run('check', 'huge.json'), ('', 'huge.json: more than 4194304 bytes of JSON\n', 2))
        self.equal('a device', self.run('check', 's.json', '/dev/zero'), ('', '/dev/zero' + too_long, 2))
        self.equal('the time', time.monotonic() - start < 20, True)

    def progress(self):
        """Of many records standard error tells how many are judged, if it is a terminal and standard output is none."""
        self.write('s.json', {'type': 'null'})
        for count, told in ((1001, True), (3, False)):
            controller, terminal = pty.openpty()
            running = subprocess.Popen([self.runs.command, 'check', 's.json', '--lines', '-'], cwd=self.runs.files,
                                       stdin=subprocess.PIPE, stdout=subprocess.PIPE, stderr=terminal)
            os.close(terminal)
            running.stdin.write(b'null\n' * (count - 1))
            running.stdin.flush()
            time.sleep(1)               # however fast it is, what is told of the last record comes later than the first
            out = running.communicate(b'1\n')[0]
            shown = b''
            while select.select([controller], [], [], 0)[0]:
                try:
                    shown += os.read(controller, 4096)
                except OSError:         # the other end is closed
                    break
            os.close(controller)
            self.equal(('progress', count), (out.count(b'\n'), b' records, ' in shown, shown.endswith(b'\r\x1b[K') == told),
                       (count, told, True))

    def faults(self):
        """All that is wrong with a schema at once, each with its place."""
        self.write('s.json', '{"type": "int", "minimum": "x", "properties": {"a": {"pattern": "x"}, "b": {"$ref": "#/no"}},'
                   '"anyOf": [{"uniqueItems": true}, 3], "required": ["a", "a", "b", "a"], "$defs": {"z": {"$anchor": 1}}}')
        places = ['#/$defs/z/$anchor', '#/type', '#/minimum', '#/required/1', '#/required/3', '#/anyOf/0/uniqueItems',
                  '#/anyOf/1', '#/properties/a/pattern', '#/properties/b/$ref']
        out, err, status = self.run('check', 's.json')
        self.equal('all faults', (out, sorted(line.split(': ')[1] for line in err.splitlines()), status),
                   ('', sorted(places), 2))
        out, err, status = self.run('check', '--json', 's.json', 'none.json')
        self.equal('all faults by --json', (sorted(json.loads(line)['place'] for line in out.splitlines()), err, status),
                   (sorted(places), '', 2))
        self.write('s.json', '{"a": 1, "a": {"b": 1, "c": 2, "b": 3, "c": 4}, "d": "\\ud800"}')
        self.equal('names twice', self.run('check', 's.json'), (
            '', 's.json: #/a: two members of this name\ns.json: #/a/b: two members of this name\n'
            's.json: #/a/c: two members of this name\ns.json: #/d: a lone surrogate, which UTF-8 cannot hold\n', 2))

    def slips(self):
        """Unknown keywords that are nearly known ones, and format, are warned of; --strict makes them errors."""
        self.write('r.json', '1')
        for keyword, meant in (('requried', 'required'), ('minLenght', 'minLength'), ('additionalproperties',
                               'additionalProperties'), ('item', 'items'), ('defs', '$defs'), ('id', '$id'),
                               ('propertties', 'properties'), ('anyof', 'anyOf'), ('Const', 'const'), ('x-items', None),
                               ('comment', '$comment'), ('itemms2', None), ('definitions', None), ('not', None)):
            self.write('s.json', {'$defs': {'unused': {keyword: {}}}})
            words = '#/$defs/unused/%s: unknown, and asserts nothing: is %s meant?\n' % (keyword, meant)
            self.equal(keyword, self.run('check', 's.json', 'r.json'),
                       ('r.json: valid\n', 's.json: warning: ' + words if meant else '', 0))
        self.write('s.json', {'format': 'a', 'items': {'format': 'b'}, 'not': {'format': 'c', 'requird': []}})
        told = ['#/not/requird: unknown, and asserts nothing: is required meant?\n',
                '#/format: format is not asserted, nor in 2 more places\n']
        warned = ''.join('s.json: warning: ' + line for line in told)
        self.equal('format', self.run('check', 's.json'), ('s.json: in order: 2 schemas\n', warned, 0))
        self.equal('format, --json', self.run('check', '--json', 's.json'), ('{"file": "s.json", "schemas": 2}\n', warned, 0))
        self.equal('format, -q', self.run('check', '-q', 's.json', 'r.json'), ('', '', 1))
        self.equal('format, --strict', self.run('check', '--strict', 's.json', 'r.json'),
                   ('', ''.join('s.json: ' + line for line in told), 2))


def line_of(pipe, seconds=30):
    """The next line, if it comes in time; the pipe has no buffer that could hide it."""
    line = b''
    while not line.endswith(b'\n') and select.select([pipe], [], [], seconds)[0]:
        line += os.read(pipe.fileno(), 1)
    return line
