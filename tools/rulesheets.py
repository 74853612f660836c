"""Clauses as a rule sheet: a schema that is only a reference gives way to the one that it comes to, and places whose
clauses say the same share a row.
"""
from collections import namedtuple

from tools import sheets
from tools.keywords import CONTAINS, DEPENDENT, ENUM, ONE_SCHEMA, PROPERTIES, REFERENCE, REQUIRED
from tools.reading import Number

# fields: the two words after the code, of a clause without entries. An entry has the place of a schema (target), a
# name, both, or a value; that of contains has a place and, as its value, least and most. path is the tokens from the
# schema to it, and through those of the references that lead on from there to the target; shown are the values that an
# entry of several stands for, as JSON text. A code of ONE_SCHEMA has one entry, its schema.
Clause = namedtuple('Clause', 'code keyword fields entries')
Entry = namedtuple('Entry', 'path target name value through shown', defaults=(None, None, None, (), ()))


def followed(clauses):
    """The root as an entry, and the clauses without the places that only refer: entries name what these come to. The
    place that the root comes to stands first, since the places were read in the order in which the root comes to them.
    """
    ends = ends_of(clauses)

    def aimed(entry):
        target, count = ends.get(entry.target, (None, 0))
        return entry._replace(target=target, through=('$ref',) * count)

    kept = {place: [clause._replace(entries=tuple(map(aimed, clause.entries))) for clause in found]
            for place, found in clauses.items() if ends[place] == (place, 0)}
    return aimed(Entry((), ())), kept


def ends_of(clauses):
    """For each place the one that it comes to by schemas that are only $ref, and by how many. Where references go
    round, a place comes to itself: they stay, for the program to refuse."""
    ends = {place: (place, 0) for place, found in clauses.items() if [clause.code for clause in found] != [REFERENCE]}
    for place in clauses:
        passed = []
        while place not in ends:
            ends[place] = place, 0
            passed.append(place)
            place = clauses[place][0].entries[0].target
        if place not in passed:
            end, count = ends[place]
            ends.update((one, (end, count + back)) for back, one in enumerate(reversed(passed), 1))
    return ends


def shared_rows(clauses):
    """The row of each place: places whose clauses are the same, up to rows already shared, have one row."""
    row_of, rows = {place: row for row, place in enumerate(clauses)}, len(clauses)
    while True:
        seen = {}
        row_of = {place: seen.setdefault(content(found, row_of), len(seen)) for place, found in clauses.items()}
        if len(seen) == rows:
            return row_of
        rows = len(seen)


def content(clauses, row_of):
    """What clauses say, whatever their places: equal for two schemas that may share a row."""
    return tuple((clause.code, clause.fields, tuple((entry.name, value_key(entry.value), row_of.get(entry.target))
                                                    for entry in clause.entries)) for clause in clauses)


def value_key(value):
    """A key that tells an enum's values apart: in Python 1 equals True."""
    return type(value).__name__, value.scaled() if isinstance(value, Number) else value


def written(clauses, row_of):
    """The rule sheet, the places of its schemas, clauses and entries, and how many of each and of bytes it has."""
    text, schemas, all_clauses, all_entries = sheets.Text(), [], [], []
    schema_places, clause_places, entry_places = [], [], []
    for place, found in clauses.items():
        if row_of[place] < len(schemas):
            continue                # shares the row of an earlier place
        schemas.append((len(all_clauses), len(found)))
        schema_places.append(place)
        for clause in found:
            all_clauses.append((clause.code,) + clause_words(clause, row_of, len(all_entries)))
            clause_places.append(place + (clause.keyword,))
            if clause.fields is None and clause.code not in ONE_SCHEMA:
                all_entries.extend(entry_words(clause.code, entry, row_of, text) for entry in clause.entries)
                entry_places.extend(place + entry.path for entry in clause.entries)
    return (sheets.rule_sheet(schemas, all_clauses, all_entries, text), schema_places + clause_places + entry_places,
            (len(schemas), len(all_clauses), len(all_entries), len(text.bytes)))


def clause_words(clause, row_of, entries_before):
    if clause.fields is not None:
        return clause.fields
    if clause.code in ONE_SCHEMA:
        return row_of[clause.entries[0].target], 0
    return entries_before, len(clause.entries)


def entry_words(code, entry, row_of, text):
    if code == ENUM:
        return sheets.leaf(entry.value, text)
    if code == REQUIRED:
        return text.place(entry.name) + (0,)
    if code in (PROPERTIES, DEPENDENT):
        return text.place(entry.name) + (row_of[entry.target],)
    if code == CONTAINS:
        return (row_of[entry.target],) + entry.value
    return row_of[entry.target], 0, 0
