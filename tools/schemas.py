"""A JSON Schema (Draft 2020-12) read into clauses.

Each schema that the root can come to is read once, at its place, into clauses whose entries name places again. What the
draft only annotates with, and keywords it does not know, make no clause; a keyword that asserts and has no clause is a
fault. All faults are found, not only the first.
"""
from collections import namedtuple

from tools import library, rulesheets
from tools.fault import CannotJudge, fault_at, refuse_if_any
from tools.keywords import (ALL_OF, CONDITION, CONTAINS, DEPENDENT, ENUM, NEVER, NO_CLAUSE, NOT, NUMBERS, REFERENCE,
                            REQUIRED, SCHEMA_LISTS, SCHEMAS, SCHEMAS_BY_NAME, SIZES, TYPE, TYPES)
from tools.reading import Number
from tools.rulesheets import Clause, Entry
from tools.structured import Structured, json_text

DIALECT = 'https://json-schema.org/draft/2020-12/schema'
SIZE_MAX = 2 ** 32 - 1

# root is an entry for the whole document. clauses[place] are the clauses of the schema at a place of the document,
# row_of[place] its row in the sheet; places tells for each schema, clause and entry of the sheet, counted so, where in
# the document it stands.
Rules = namedtuple('Rules', 'sheet root clauses row_of places references')


def rules_of(references):
    """The rules of the first of the documents."""
    clauses, waiting = {}, [()]
    for place in waiting:           # grows by the places that each schema names
        if place not in clauses:
            read = SchemaReader(references, place)
            found = {place: read.clauses(), **read.added}
            clauses.update(found)
            waiting.extend(entry.target for schema in found.values() for clause in schema for entry in clause.entries
                           if entry.target is not None)
    refuse_if_any(references.faults)
    root, clauses = rulesheets.followed(clauses)
    row_of = rulesheets.shared_rows(clauses)
    sheet, places, counts = rulesheets.written(clauses, row_of)
    refuse_if_any(list(too_many(counts)))
    return Rules(sheet, root, clauses, row_of, places, references)


def schemas_in(rules):
    """How many schemas their sheet has."""
    return max(rules.row_of.values()) + 1


def too_many(counts):
    """A fault for each count of a sheet that is out of its limit."""
    limits = (('different schemas', library.SCHEMAS_MAX), ('keywords that assert', library.CLAUSES_MAX),
              ('names, values and alternatives in lists', library.ENTRIES_MAX),
              ('bytes of names and strings', library.TEXT_MAX))
    for count, (what, limit) in zip(counts, limits):
        if count > limit:
            yield CannotJudge('%d %s, and the judge takes at most %d' % (count, what, limit))


def size_of(value):
    """The whole number from 0 to SIZE_MAX that a value is, or None."""
    return value.size() if isinstance(value, Number) else None


class SchemaReader:
    """Reads the schema at one place into clauses."""

    def __init__(self, references, place):
        self.references, self.place = references, place
        self.schema = references.at(place)
        self.added = {}             # clauses of schemas that stand at no place of their own

    def clauses(self):
        """The clauses in rising code."""
        if self.schema is True:
            return []
        if self.schema is False:
            return [Clause(NEVER, None, (0, 0), ())]
        if not isinstance(self.schema, dict):
            self.fault('a schema must be an object, true or false')
            return []
        found = [self.clause(keyword, value) for keyword, value in self.schema.items()]
        return self.one_of_each([clause for clause in found if clause is not None])

    def clause(self, keyword, value):
        """The clause of a keyword; None if it asserts nothing, or is wrong."""
        if keyword in NO_CLAUSE:
            if NO_CLAUSE[keyword] is None or not NO_CLAUSE[keyword](self.schema):
                self.fault('the judge has no %s' % keyword, keyword)
            return None
        read = READERS.get(keyword)
        return read and read(self, keyword, value)

    def dialect(self, keyword, value):
        if not isinstance(value, str) or value.rstrip('#') != DIALECT:
            self.fault('only Draft 2020-12 is read: %s' % DIALECT, keyword)

    def types(self, keyword, value):
        names = value if isinstance(value, list) else [value]
        if not names or not all(isinstance(name, str) and name in TYPES for name in names):
            return self.fault('must be one or more of %s' % ', '.join(TYPES), keyword)
        return Clause(TYPE, keyword, (sum(TYPES[name] for name in set(names)), 0), ())

    def enum(self, keyword, value):
        """enum or const. An empty enum never holds: a list of values has at least one."""
        if keyword == 'enum' and not isinstance(value, list):
            return self.fault('must be an array', keyword)
        values = {(keyword,): value} if keyword == 'const' else {(keyword, str(i)): one for i, one in enumerate(value)}
        if not values:
            return Clause(NEVER, keyword, (0, 0), ())
        if any(isinstance(one, (list, dict)) for one in values.values()):
            return self.structured(keyword, values)
        self.in_range(values)
        return Clause(ENUM, keyword, None, tuple(Entry(path, value=one) for path, one in values.items()))

    def structured(self, keyword, values):
        """An enum that has arrays or objects, which the judge does not compare: as a schema that takes these values
        alone. `not not` keeps its marks from the unevaluated, on which an enum does not bear."""
        made = Structured(self.place, keyword, values)
        self.in_range(made.leaves)
        self.added.update(made.clauses)
        shown = tuple(map(json_text, values.values()))
        return Clause(NOT, keyword, None, (Entry((keyword,), made.place, shown=shown),))

    def in_range(self, values):
        for path, value in values.items():
            if isinstance(value, Number) and value.scaled() is None:
                self.fault(value.out_of_range(), *path)

    def number(self, keyword, value):
        if not isinstance(value, Number):
            return self.fault('must be a number', keyword)
        scaled = value.scaled()
        if scaled is None:
            return self.fault(value.out_of_range(), keyword)
        if keyword == 'multipleOf' and scaled[0] <= 0:
            return self.fault('must be above 0', keyword)
        return Clause(NUMBERS[keyword], keyword, scaled, ())

    def size(self, keyword, value):
        size = self.count(keyword, value)
        return size if size is None else Clause(SIZES[keyword], keyword, (size, 0), ())

    def count(self, keyword, value):
        count = size_of(value)
        if count is None:
            self.fault('must be a whole number from 0 to %d' % SIZE_MAX, keyword)
        return count

    def required(self, keyword, value, *below):
        """A list of names that stands at the keyword, or below it."""
        path, seen = (keyword,) + below, set()
        if not isinstance(value, list) or not all(isinstance(name, str) for name in value):
            return self.fault('must be an array of strings', *path)
        for i, name in enumerate(value):
            if name in seen:
                self.fault('this name stands here a second time', *path, str(i))
            seen.add(name)
        return Clause(REQUIRED, keyword, None, tuple(Entry(path + (str(i),), name=name) for i, name in enumerate(value)))

    def schemas_by_name(self, keyword, value):
        if not isinstance(value, dict):
            return self.fault('must be an object', keyword)
        entries = tuple(self.entry(keyword, name)._replace(name=name) for name in value)
        return Clause(SCHEMAS_BY_NAME[keyword], keyword, None, entries)

    def schema_list(self, keyword, value):
        if not isinstance(value, list) or not value:
            return self.fault('must be an array of at least one schema', keyword)
        entries = tuple(self.entry(keyword, str(i)) for i in range(len(value)))
        return Clause(SCHEMA_LISTS[keyword], keyword, None, entries)

    def one_schema(self, keyword, value):
        if keyword == 'items' and isinstance(value, list):
            return self.fault('an array of schemas is prefixItems in this draft', keyword)
        return Clause(SCHEMAS[keyword], keyword, None, (self.entry(keyword),))

    def reference(self, keyword, value):
        if not isinstance(value, str):
            return self.fault('must be a string', keyword)
        target = self.references.target(self.place, value)
        return target if target is None else Clause(REFERENCE, keyword, None, (Entry((keyword,), target),))

    def condition(self, keyword, value):
        """if, with then and else beside it, which say nothing without; one that is absent takes everything."""
        branches = [self.entry(name) if name in self.schema else Entry((), self.made([])) for name in ('then', 'else')]
        return Clause(CONDITION, keyword, None, (self.entry(keyword), *branches))

    def dependent_names(self, keyword, value):
        """With each name a schema that requires the others."""
        if not isinstance(value, dict):
            return self.fault('must be an object', keyword)
        clauses = {name: self.required(keyword, names, name) for name, names in value.items()}
        entries = tuple(Entry((), self.made([clause]), name) for name, clause in clauses.items() if clause is not None)
        return Clause(DEPENDENT, keyword, None, entries)

    def contained(self, keyword, value):
        """contains, with minContains and maxContains, which say nothing without."""
        least = size_of(self.schema['minContains']) if 'minContains' in self.schema else 1
        most = size_of(self.schema['maxContains']) if 'maxContains' in self.schema else SIZE_MAX
        return Clause(CONTAINS, keyword, None, (self.entry(keyword)._replace(value=(least, most)),))

    def bound_of_contained(self, keyword, value):
        """No clause of its own."""
        self.count(keyword, value)

    def one_of_each(self, clauses):
        """The clauses in rising code. A schema has one of each: a second, from a const beside an enum, from one of these
        beside a not, or from names beside schemas that go with names, becomes one more schema of allOf."""
        kept, beside = {}, []
        for clause in clauses:
            if clause.code in kept:
                beside.append(Entry((), self.made([clause])))
            else:
                kept[clause.code] = clause
        if beside:
            all_of = kept.get(ALL_OF, Clause(ALL_OF, 'allOf', None, ()))
            kept[ALL_OF] = all_of._replace(entries=all_of.entries + tuple(beside))
        return [kept[code] for code in sorted(kept)]

    def made(self, clauses):
        """The place of a schema that stands at none of its own."""
        place = self.place + (len(self.added),)
        self.added[place] = clauses
        return place

    def entry(self, *path):
        return Entry(path, self.place + path)

    def fault(self, words, *path):
        self.references.faults.append(fault_at(words, self.place + path))


READERS = {'$schema': SchemaReader.dialect, '$ref': SchemaReader.reference, 'type': SchemaReader.types,
           'enum': SchemaReader.enum, 'const': SchemaReader.enum, 'required': SchemaReader.required,
           'dependentRequired': SchemaReader.dependent_names, 'if': SchemaReader.condition,
           'contains': SchemaReader.contained, 'minContains': SchemaReader.bound_of_contained,
           'maxContains': SchemaReader.bound_of_contained}
READERS.update((keyword, reader) for table, reader in (
    (NUMBERS, SchemaReader.number), (SIZES, SchemaReader.size), (SCHEMA_LISTS, SchemaReader.schema_list),
    (SCHEMAS, SchemaReader.one_schema), (SCHEMAS_BY_NAME, SchemaReader.schemas_by_name)) for keyword in table)
