"""How the command exits: 1 for an invalid record and for nothing else, whatever its outputs are; and how it is built."""
import os
import subprocess
import sys
import time
from pathlib import Path

import judges
import machine
from command_runs import EXAMPLES

INVALID = 'r.json: invalid: is 1, must be null (#/type)\n'
PROVES = 'amphorust: proves and builds the judge first, once, by %s: 3 crates, some minutes\n'

# A prover that takes its time: the crates that it says to be done, each after a while, the first proved before, and one
# that the library does not stand on, which fails; then the archive.
SLOW_PROVER = '''#!/bin/sh
case "${PWD##*/} $*" in
"clone all check --jobs "[1-9]*)
    echo "== laws"
    sleep 1.2
    echo "== judge"
    echo "fn judge::judge: proved"
    echo "crate judge: modules loaded=0 checked=9"
    echo "== bench"
    exit 1
    ;;
"hub lib")
    echo "crate judge: modules loaded=9 checked=0"
    sleep 1.2
    mkdir -p out
    cp %s out
    ;;
*) exit 9 ;;
esac
'''


class Exits:
    def __init__(self, runs):
        self.runs, self.equal = runs, runs.equal

    def parts(self):
        return self.outputs, self.surroundings, self.faults, self.pipe, self.building, self.installation

    def status(self, arguments, redirections):
        """The exit status, with the outputs redirected as a shell does it."""
        return subprocess.run(['sh', '-c', '"$@" %s' % redirections, 'sh', self.runs.command, 'check', *arguments],
                              cwd=self.runs.files, stdin=subprocess.DEVNULL, stdout=subprocess.DEVNULL,
                              stderr=subprocess.DEVNULL).returncode

    def outputs(self):
        """Closed and full outputs: what cannot be told gives 2, and -q has nothing to tell."""
        self.runs.write('null.json', {'type': 'null'})
        self.runs.write('warned.json', {'type': 'null', 'format': 'x'})
        good, bad, none = self.runs.write('good.json', 'null'), self.runs.write('bad.json', '1'), 'none.json'
        for redirections in ('>&-', '>/dev/full', '>&- 2>&-', '>/dev/full 2>/dev/full', '<&- >&- 2>&-'):
            for way in ([good], [bad], [none], ['-v', bad], ['--json', bad]):
                self.equal((redirections, way), self.status(['null.json'] + way, redirections), 2)
        for redirections in ('2>&-', '2>/dev/full'):
            for record, status in ((good, 0), (bad, 1), (none, 2)):
                self.equal((redirections, record), self.status(['warned.json', record], redirections), status)
        for redirections in ('>&- 2>&-', '>/dev/full 2>/dev/full'):
            for record, status in ((good, 0), (bad, 1), (none, 2)):
                self.equal(('-q', redirections, record), self.status(['-q', 'null.json', record], redirections), status)
        self.equal('the schema alone', self.status(['null.json'], '>/dev/full'), 2)
        self.equal('--help', self.status(['--help'], '>/dev/full'), 2)
        self.equal('a closed input', self.status(['null.json', '-'], '<&-'), 2)
        ran = subprocess.run(['sh', '-c', '"$@" >/dev/full', 'sh', self.runs.command, 'check', 'null.json', bad],
                             cwd=self.runs.files, capture_output=True)
        self.equal('a full output', ran.stderr.decode(),
                   'amphorust: standard output cannot be written: no space left on device\n')
        ran = subprocess.run(['sh', '-c', '"$@" 2>&-', 'sh', self.runs.command, 'check', 'null.json', none, good],
                             cwd=self.runs.files, capture_output=True)
        self.equal('a closed error output, and another record', (ran.stdout, ran.returncode), (b'good.json: valid\n', 2))

    def surroundings(self):
        """Settings of Python that change where it imports from and how it writes."""
        self.runs.write('null.json', {'type': 'null'})
        self.runs.write('r.json', '1')
        for settings in ({'PYTHONSAFEPATH': '1'}, {'PYTHONUNBUFFERED': '1'}, {'PYTHONIOENCODING': 'ascii'},
                         {'PYTHONDONTWRITEBYTECODE': '1', 'LC_ALL': 'C'}):
            self.equal(settings, self.runs.run('check', 'null.json', 'r.json', **settings), (INVALID, '', 1))

    def faults(self):
        """A fault of the command itself, in an import and later: 2, in one line."""
        for name, text in (('words.py', 'no Python'), ('words.py', 'raise ValueError("x")'), ('records.py', '')):
            path = self.runs.folder / 'prefix/share/amphorust/tools' / name
            before = path.read_text()
            path.write_text(text)
            out, err, status = self.runs.run('check', 'null.json', 'r.json')
            self.equal((name, text), (out, err.startswith('amphorust: a fault of this command: '), err.count('\n'),
                                      status), ('', True, 1, 2))
            path.write_text(before)
        product = self.runs.folder / 'prefix/lib' / ('amphorust-worker' if machine.EMULATED else 'libamphorust.so')
        before = product.read_bytes()
        for damaged in (b'', b'no program', before[:5000]):
            product.write_bytes(damaged)
            out, err, status = self.runs.run('check', 'null.json', 'r.json')
            self.equal(('damaged', damaged[:10]), (out, err.count('\n'), status), ('', 1, 2))
        product.unlink()
        out, err, status = self.runs.run('check', 'null.json', 'r.json')
        self.equal('no library', (out, err.endswith('not there: install it again, by ./install PREFIX in a clone\n'),
                                  status), ('', True, 2))
        product.write_bytes(before)
        product.chmod(0o755)

    def pipe(self):
        """Standard output that nobody reads ends the command quietly."""
        reader, writer = os.pipe()
        os.close(reader)
        ran = subprocess.run([self.runs.command, 'check', 'null.json', 'r.json'], cwd=self.runs.files, stdout=writer,
                             stderr=subprocess.PIPE)
        os.close(writer)
        self.equal('a closed pipe', (ran.stderr, ran.returncode), (b'', 2))

    # ---- building, and what is installed ----

    def building(self):
        """A library that cannot be built, that is built, and that is older than a source."""
        tools, clone = self.runs.folder / 'bin', self.runs.folder / 'clone'
        for folder in (tools, clone):
            folder.mkdir()
        os.symlink(sys.executable, tools / 'python3')
        command, rt = judges.fresh_clone(str(clone), ['laws', 'judge', 'hub']), str(tools / 'rt')
        run = lambda path=str(tools): self.runs.run('check', 'null.json', 'r.json', command=command, PATH=path,
                                                    RATTLE_HOME=machine.kit())
        judges.write_program(rt, '#!/bin/sh\nexit 1\n')
        (clone / 'target').write_text('no folder')
        self.equal('no folder to build in', run(), (
            '', 'target/lib/libamphorust.so: not built: %s/target/lib: not a directory\n' % clone, 2))
        (clone / 'target').unlink()
        os.remove(rt)
        self.equal('no rt', run(), ('', 'target/lib/libamphorust.so: not built yet, and rt, which proves and builds it, is '
                                    'not there: put the bin folder of the Rattle kit on the PATH\n', 2))
        judges.write_program(rt, '#!/bin/sh\necho "refused: $*"\nexit 1\n')
        everywhere = '%s:%s' % (tools, os.environ['PATH'])
        self.equal('rt fails', run(everywhere), ('', PROVES % rt + 'target/lib/libamphorust.so: not built: rt lib '
                                                 'ended with 1: refused: lib\n', 2))
        judges.write_program(rt, SLOW_PROVER % judges.ARCHIVE)
        out, err, status = run(everywhere)
        self.equal('built', (out, err[:err.index('built in')], status), (
            INVALID, PROVES % rt + 'amphorust: crate 2 of 3\namphorust: crate 3 of 3, about 10 seconds left\namphorust: ', 1))
        self.equal('built before', run(everywhere), (INVALID, '', 1))
        later = time.time() + 5
        os.utime(clone / 'crates/judge/src/lib.rt', (later, later))
        out, err, status = run(everywhere)
        self.equal('a newer source', (out, err.startswith(PROVES % rt), status), (INVALID, True, 1))
        self.equal('nothing newer', run(everywhere), (INVALID, '', 1))
        os.remove(rt)
        os.utime(clone / 'crates/hub/src/lib.rt', (later + 5, later + 5))
        out, err, status = run()
        self.equal('a newer source and no rt', (out, err.startswith('target/lib/libamphorust.so: older than a source, and '
                                                                    'rt, which'), status), ('', True, 2))

    def installation(self):
        """What ./install writes, a C program that is built with it, and the version, which the change log begins with."""
        prefix = self.runs.folder / 'prefix'
        out, _, status = self.runs.run('--version')
        version = out.split()[1]
        log = (Path(judges.ROOT) / 'CHANGELOG.md').read_text()
        self.equal('the version', (out, status, ('\n## ' + version) in log),
                   ('amphorust %s (JSON Schema Draft 2020-12)\n' % version, 0, True))
        settings = (prefix / 'lib/pkgconfig/amphorust.pc').read_text()
        self.equal('pkg-config', ('prefix=%s\n' % prefix in settings, 'Version: %s\n' % version in settings), (True, True))
        library = prefix / 'lib'
        host = self.built('host.c', '-L', str(library), '-lamphorust', '-Wl,-rpath,%s' % library)
        bundle = self.runs.folder / 'passage.bundle'
        bundle.write_bytes(self.bundle('passage.json'))
        for lines, told in ((2, ['line 1: valid, 12 pairs settled', 'line 2: valid, 10 pairs settled']),
                            (1300, ['line %d: valid, %d pairs settled' % (i, 12 if i % 2 else 10) for i in range(1, 1301)])):
            queue = (EXAMPLES / 'queue.jsonl').read_bytes().splitlines(True)[:2] * (lines // 2)
            ran = subprocess.run(machine.call(host, str(bundle)), input=b''.join(queue), capture_output=True)
            self.equal('a host with the shared library', (ran.stdout.decode().splitlines() ==
                                                          ['the rules: in order, 15 schemas'] + told, ran.returncode), (True, 0))
        book = self.built('book.c', str(library / 'libamphorust.a'))
        for record, told in (('passage.json', (b'booked\n', 0)),
                             ('passage-misspelt.json', (b'not booked: the record does not keep the rules\n', 1))):
            ran = subprocess.run(machine.call(book), input=self.bundle(record), capture_output=True)
            self.equal('booking with the archive', (ran.stdout, ran.returncode), told)
        names = subprocess.run([machine.tool('nm'), '-D', '--defined-only', str(library / 'libamphorust.so')],
                               capture_output=True, text=True).stdout.split()[2::3]
        self.equal('what the shared library exports', names, ['amphorust_check', 'amphorust_judge',
                                                                  'amphorust_judge_queue', 'amphorust_read', 'amphorust_verdict'])
        ran = subprocess.run([os.path.join(judges.ROOT, 'install')], capture_output=True, text=True)
        self.equal('./install', (ran.stdout, ran.stderr, ran.returncode), ('', 'usage: ./install PREFIX\n', 2))

    def bundle(self, record):
        """The bundle of an example record with the passage's rules."""
        return subprocess.run([self.runs.command, 'bundle', 'passage.schema.json', record], cwd=EXAMPLES,
                              stdout=subprocess.PIPE, stderr=subprocess.DEVNULL).stdout

    def built(self, source, *with_library):
        """The path of an example in C, built with what is installed."""
        program = str(self.runs.folder / source.replace('.c', ''))
        subprocess.run([machine.tool('gcc'), '-std=c99', '-pedantic', '-Wall', '-Wextra', '-Werror', '-I',
                        str(self.runs.folder / 'prefix/include'), '-o', program, str(EXAMPLES / source), *with_library],
                       check=True)
        return program
