"""What the command prints: each finding on a line, or as an object, and how far it is."""
import errno
import json
import sys
import time

from tools import causes
from tools.inputs import Source

ENOUGH = 10_000         # causes of one record, if only one is shown
FEW = 300               # records up to which nothing is said of progress
EVERY = 0.1             # seconds


class Teller:
    """Verdicts go to standard output, what could not be judged to standard error; by --json all to standard output."""

    def __init__(self, options):
        self.quiet, self.json, self.verbose = options.quiet, options.json, options.verbose
        self.progress = Progress(shows=not self.quiet and is_terminal(sys.stderr) and not is_terminal(sys.stdout))

    def in_order(self, file, schemas):
        self.tell({'file': file, 'schemas': schemas},
                  one_line('%s: in order: %d %s' % (file, schemas, 'schema' if schemas == 1 else 'schemas')))

    def valid(self, source):
        self.tell(dict(named(source), valid=True), one_line('%s: valid' % name_of(source)))

    def most_causes(self):
        """How many causes are worth finding: of one line, not more than people like to hear of."""
        return sys.maxsize if self.json or self.verbose else ENOUGH

    def invalid(self, source, found, references):
        """found are the causes."""
        if self.json:
            units = causes.units_of(found.list, references)
            self.tell(dict(named(source), valid=False, errors=units), None)
        elif self.verbose:
            self.tell(None, '\n'.join([one_line('%s: invalid' % name_of(source))]
                                      + [one_line(line) for line in causes.lines_of(found.list)]))
        else:
            self.tell(None, one_line('%s: invalid: %s' % (name_of(source), causes.line_of(*found))))

    def schema_fault(self, file, fault):
        """All that is wrong with a schema, each as a finding of its own."""
        for one in fault.faults:
            self.not_judged(Source(one.file or file, None), one.place, one.words)

    def record_fault(self, source, fault):
        """Why a record is not judged: one finding, and how much more is wrong with it; all of it by -v."""
        where = source if fault.file is None else Source(fault.file, None)
        told, more = fault.faults if self.verbose else fault.faults[:1], len(fault.faults) - 1
        for one in told:
            self.not_judged(where, one.place, one.words + (', and %d more' % more if more and not self.verbose else ''))

    def not_judged(self, where, place, words):
        if self.json:
            self.tell(dict(named(where), error=words, place=place), None)
        else:
            self.note(': '.join(part for part in (name_of(where), place, words) if part))

    def warn(self, file, slips):
        for one in slips:
            self.note('%s: warning: %s: %s' % (one.file or file, one.place, one.words))

    def say(self, words):
        """What goes on while the library is built."""
        self.note('amphorust: ' + words)

    def say_for_now(self, words):
        """The same on a line that the next one replaces, if it is a terminal."""
        if not self.quiet and is_terminal(sys.stderr):
            self.progress.show('amphorust: ' + one_line(words))
        else:
            self.say(words)

    def note(self, line):
        """A line on standard error. If it cannot be written it is not: the exit status says as much."""
        if not self.quiet and sys.stderr is not None:
            try:
                self.progress.clear()
                print(one_line(line), file=sys.stderr, flush=True)
            except OSError:
                pass

    def tell(self, unit, lines):
        """On standard output, where it must be written."""
        if self.quiet:
            return
        self.progress.clear()
        words = json.dumps(unit, ensure_ascii=True) if self.json else lines
        try:
            if sys.stdout is None:
                raise OSError(errno.EBADF, 'closed')
            print(words, file=sys.stdout, flush=True)
        except BrokenPipeError:
            raise                   # nobody reads, and nobody need be told
        except OSError as fault:
            raise Unwritten('standard output cannot be written: %s' % fault.strerror.lower())


class Unwritten(Exception):
    """What is found cannot be told."""


class Progress:
    """A line on the terminal, on standard error, that goes when something else is printed."""

    def __init__(self, shows):
        self.shows, self.stands, self.count, self.last = shows, False, 0, time.monotonic()

    def another(self, invalid):
        """One more record was judged; of all so many were invalid."""
        self.count += 1
        if self.shows and self.count > FEW and time.monotonic() - self.last > EVERY:
            self.last = time.monotonic()
            self.show('%d records, %d invalid' % (self.count, invalid))

    def show(self, words):
        sys.stderr.write('\r%s\x1b[K' % words)
        sys.stderr.flush()
        self.stands = True

    def clear(self):
        if self.stands:
            sys.stderr.write('\r\x1b[K')
            sys.stderr.flush()
            self.stands = False


def is_terminal(stream):
    return stream is not None and stream.isatty()


def named(source):
    return {'file': source.file} if source.line is None else {'file': source.file, 'line': source.line}


def name_of(source):
    return source.file if source.line is None else '%s:%d' % (source.file, source.line)


def one_line(words):
    """The words with anything that would break or disturb the line written as its escape."""
    return ''.join(character if character.isprintable() else character.encode('unicode_escape').decode('ascii')
                   for character in words)
