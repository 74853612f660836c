"""What the library refuses, in words, with the place in the user's file."""
import re

from tools.fault import CannotJudge, fault_at
from tools.keywords import UNGUARDED
from tools.library import JSON_MAX, ROWS_MAX
from tools.reading import Number, line_and_column
from tools.words import cut

REFUSED = 'refused (%d): %s'
TOO_LONG, NOT_JSON = 20, 21
NUMBER, STRING = re.compile(rb'[-+.0-9eE]+'), re.compile(rb'"(?:[^"\\]|\\.)*"')
TEXT_WORDS = {
    20: 'more than %d bytes of JSON' % JSON_MAX,
    22: 'more than %d values' % ROWS_MAX,
    24: 'more than 32 levels deep',
    26: 'a lone surrogate, which UTF-8 cannot hold',
}
RULE_WORDS = {
    5: "the rule sheet's trailer is wrong",
    6: 'the layout of a rule sheet is broken',
    7: 'this name stands here a second time',
    8: 'this schema applies itself to the same value again, without end',
    9: 'more than 32 schemas, from here on, each apply the next to the same value',
    13: 'a name or a string here is not UTF-8',
}


def text_fault(answer, text, is_line):
    """Why a JSON text is no record: in words, with line and column, of a line the column."""
    before = text[:answer.place].decode('utf-8', 'ignore')         # may end within a character
    line, column = line_and_column(before, len(before))
    place = 'column %d' % column if is_line else 'line %d, column %d' % (line, column)
    if answer.number == NOT_JSON:
        return CannotJudge('not JSON: ' + byte_words(text, answer.place), place)
    words = {23: number_words, 25: name_words}.get(answer.number, lambda rest: TEXT_WORDS[answer.number])
    return CannotJudge(REFUSED % (answer.number, words(text[answer.place:])), place if answer.number != TOO_LONG else '')


def byte_words(text, at):
    """What stands where no JSON text goes on."""
    if at == len(text):
        return 'it ends too early'
    if text[at] in b'\r\n':
        return 'the line ends too early'
    return '%s cannot stand here' % (repr(chr(text[at])) if 0x20 < text[at] < 0x7F else 'byte 0x%02x' % text[at])


def number_words(rest):
    return Number(NUMBER.match(rest)[0].decode('ascii')).out_of_range()


def name_words(rest):
    return 'a second member named %s' % cut(STRING.match(rest)[0].decode('utf-8'))


def refuse_record(answer):
    """Says that there is no verdict on a record, if there is none: what was read is not refused."""
    if answer.word == 'refused':
        raise CannotJudge(REFUSED % (answer.number, 'at place %d' % answer.place))


def refuse_rules(answer, rules):
    """Says why a schema is not judged by, if it is refused."""
    if answer.word == 'refused':
        raise fault_at(words_of(answer, RULE_WORDS), rule_place(answer, rules))


def words_of(answer, words):
    return REFUSED % (answer.number, words.get(answer.number, 'at place %d' % answer.place))


def rule_place(answer, rules):
    return on_loop(rules, answer.place) if answer.number == 8 else rules.places[answer.place]


def on_loop(rules, row):
    """The first place with that row that an unguarded loop comes back to: another may only lead into it."""
    return next(place for place in rules.clauses if rules.row_of[place] == row and place in reached(rules, place))


def reached(rules, place):
    """The places that a schema reaches by one or more unguarded steps."""
    found, waiting = set(), [place]
    while waiting:
        steps = {entry.target for clause in rules.clauses[waiting.pop()] if clause.code in UNGUARDED
                 for entry in clause.entries}
        waiting.extend(steps - found)
        found |= steps
    return found
