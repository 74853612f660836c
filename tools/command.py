"""The command line: `amphorust check`, `amphorust bundle` and `amphorust build`."""
import argparse
import sys
from collections import Counter

from tools import VERSION, building, explain, inputs, library, queues, refusals, sheets, telling
from tools.fault import CannotJudge, refuse_if_any
from tools.keywords import slips
from tools.records import record_of
from tools.references import References
from tools.schemas import rules_of, schemas_in

ALL_VALID, SOME_INVALID, NOT_JUDGED = 0, 1, 2

USAGE = '''amphorust check [options] SCHEMA [RECORD ...] [-r FILE ...]
       amphorust bundle SCHEMA RECORD
       amphorust build
       amphorust --help | --version'''
DESCRIPTION = 'Judges JSON records by a JSON Schema (Draft 2020-12), by a proved library.'
EPILOG = '''check   a line for each record, 'FILE: valid' or 'FILE: invalid: ' and why;
        exits 0 if all are valid, 1 if some are invalid, 2 if anything could
        not be judged or told. Without a record it checks the schema: 0 or 2.
bundle  writes the sheets that the bench program reads
build   proves and builds the library if it is not there, or older than a source

RECORD is a file, - for standard input, a folder (its .json, .jsonl and .ndjson
files), or a file of lines (.jsonl, .ndjson), each a record.

Not judged, and an error: pattern patternProperties propertyNames uniqueItems
dependencies $dynamicRef. Not asserted: format. Nothing is fetched. At most 1024
values in a record, 1024 schemas, 32 levels; numbers of at most 9 digits, and 9
places after the point.
'''


class Parser(argparse.ArgumentParser):
    def _print_message(self, message, file=None):
        """As argparse has it, but help that cannot be written is a fault."""
        if file is None:
            raise telling.Unwritten('a closed output cannot be written')
        file.write(message)


def parser():
    made = Parser('amphorust', usage=USAGE, description=DESCRIPTION, epilog=EPILOG,
                  formatter_class=argparse.RawDescriptionHelpFormatter)
    made.add_argument('command', choices=('check', 'bundle', 'build'), metavar='COMMAND', help=argparse.SUPPRESS)
    made.add_argument('files', nargs='*', metavar='FILE', help=argparse.SUPPRESS)
    made.add_argument('-r', '--refer', nargs='+', action='extend', default=[], metavar='FILE',
                      help='schema documents to be referred to by their $id')
    made.add_argument('-l', '--lines', action='store_true', help='every line of a RECORD file is a record')
    made.add_argument('-v', '--verbose', action='store_true', help='every cause, on a line each')
    made.add_argument('-q', '--quiet', action='store_true', help='print nothing, and judge no more than the verdict needs')
    made.add_argument('--json', action='store_true', help="an object for each record, with the draft's output units")
    made.add_argument('--strict', action='store_true', help='what would be warned of in the schema is an error')
    made.add_argument('--version', action='version', version='amphorust %s (JSON Schema Draft 2020-12)' % VERSION)
    return made


def options_in(arguments):
    made = parser()
    options = made.parse_intermixed_args(arguments)
    if options.command == 'check' and not options.files:
        made.error('check takes a schema, and records to be judged by it')
    if options.command == 'bundle' and len(options.files) != 2:
        made.error('bundle takes a schema and a record')
    if options.command == 'build' and options.files:
        made.error('build takes no file')
    if options.quiet + options.json + options.verbose > 1:
        made.error('-q, -v and --json exclude each other')
    return options


def read_rules(file, options, teller):
    """The rules of the schema document and those that it refers to."""
    documents, faults = [], []
    for one in [file] + options.refer:
        try:
            documents.append((one, inputs.read_document(one)))
        except CannotJudge as fault:
            faults += [CannotJudge(each.words, '#' + each.place if each.place.startswith('/') else each.place, one)
                       for each in fault.faults]
    refuse_if_any(faults)
    references = References(documents[0][1], documents[1:])
    if options.strict:
        references.faults += slips(references.schemas)
    else:
        teller.warn(file, slips(references.schemas))
    return rules_of(references)


def check(options):
    teller, (schema_file, *files) = telling.Teller(options), options.files
    try:
        rules = read_rules(schema_file, options, teller)
        building.make_ready(teller.say, teller.say_for_now)
        judge = library.opened()
        refusals.refuse_rules(judge.check(rules.sheet), rules)
    except CannotJudge as fault:
        teller.schema_fault(schema_file, fault)
        return NOT_JUDGED
    if not files:
        teller.in_order(schema_file, schemas_in(rules))
    return check_records(teller, judge, rules, inputs.sources(files, options.lines, [schema_file] + options.refer))


def check_records(teller, judge, rules, sources):
    results = Counter()
    for queue in queues.queues_in(sources):
        for one, answer in queues.answered(judge, queue, teller.quiet):
            results[tell(teller, judge, rules, one, answer)] += 1
            teller.progress.another(results[SOME_INVALID])
    teller.progress.clear()
    return max(results, default=ALL_VALID)


def tell(teller, judge, rules, one, answer):
    """Tells what came of one of a queue, and gives what that is for the exit status."""
    try:
        if one.fault is not None:
            raise one.fault
        refusals.refuse_record(answer)
        if answer.word == 'valid':
            teller.valid(one.source)
            return ALL_VALID
        if not teller.quiet:
            tell_causes(teller, judge, rules, one)
        return SOME_INVALID
    except CannotJudge as fault:
        teller.record_fault(one.source, fault)
        return NOT_JUDGED


def tell_causes(teller, judge, rules, one):
    """Judges the record by itself: a queue leaves the cells of its last record only."""
    cells = judge.judge(one.sheet).cells
    with explain.deep_calls():
        causes = explain.causes_of(record_of(one.sheet), rules, cells, teller.most_causes())
        teller.invalid(one.source, causes, rules.references)


def bundle(options):
    teller, (file, record_file) = telling.Teller(options), options.files
    try:
        rules = read_rules(file, options, teller)
        building.make_ready(teller.say, teller.say_for_now)
        file = record_file
        record, = queues.read(library.opened(), [inputs.record_in(file)])
        refuse_if_any([record.fault] if record.fault else [])
        written = sheets.bundle(record.sheet, rules.sheet)
        if len(written) > sheets.BUNDLE_MAX:
            raise CannotJudge('with its schema %d bytes of sheets, and the bench program reads at most %d'
                              % (len(written), sheets.BUNDLE_MAX))
    except CannotJudge as fault:
        teller.schema_fault(file, fault)
        return NOT_JUDGED
    sys.stdout.buffer.write(written)
    sys.stdout.buffer.flush()
    return ALL_VALID


def build(options):
    teller = telling.Teller(options)
    try:
        building.make_ready(teller.say, teller.say_for_now)
    except CannotJudge as fault:
        teller.schema_fault(building.named(building.LIBRARY), fault)
        return NOT_JUDGED
    return ALL_VALID


def main(arguments):
    """The exit status."""
    for stream in (sys.stdout, sys.stderr):
        if stream is not None:
            stream.reconfigure(errors='backslashreplace')
    options = options_in(arguments)
    return {'check': check, 'bundle': bundle, 'build': build}[options.command](options)
