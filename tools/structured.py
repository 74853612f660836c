"""Arrays and objects in enum and const, which the judge does not compare: as schemas that take these values alone."""
import json

from tools.keywords import ENUM, NOT, PREFIX_ITEMS, PROPERTIES, REQUIRED, SIZES, TYPE, TYPES
from tools.reading import Number
from tools.rulesheets import Clause, Entry

ANY_OF = 31


class Structured:
    """clauses: of each schema made, by its place, which no user's file has; place: of the one that holds for all but
    the values; leaves: the values without children among and inside them, by path."""

    def __init__(self, place, keyword, values):
        self.at, self.clauses, self.leaves = place, {}, {}
        one_of = self.made((keyword, 0), [Clause(ANY_OF, 'anyOf', None, tuple(
            Entry((), self.value(path, value)) for path, value in values.items()))])
        self.place = self.made((keyword, 1), [Clause(NOT, 'not', None, (Entry((), one_of),))])

    def made(self, path, clauses):
        place = self.at + path
        self.clauses[place] = clauses
        return place

    def value(self, path, value):
        """The place of the schema that takes this value alone."""
        if isinstance(value, dict):
            return self.made(path + (2,), self.of_object(path, value))
        if isinstance(value, list):
            return self.made(path + (2,), self.of_array(path, value))
        self.leaves[path] = value
        return self.made(path + (2,), [Clause(ENUM, 'const', None, (Entry((), value=value),))])

    def of_object(self, path, value):
        members = tuple(Entry((), self.value(path + (name,), one), name) for name, one in value.items())
        return [type_clause('object'), size_clause('maxProperties', value),
                Clause(REQUIRED, 'required', None, tuple(Entry((), name=name) for name in value)),
                Clause(PROPERTIES, 'properties', None, members)]

    def of_array(self, path, value):
        items = tuple(Entry((), self.value(path + (str(i),), one)) for i, one in enumerate(value))
        rest = [Clause(PREFIX_ITEMS, 'prefixItems', None, items)] if items else []
        return [type_clause('array'), size_clause('minItems', value), size_clause('maxItems', value)] + rest


def type_clause(name):
    return Clause(TYPE, 'type', (TYPES[name], 0), ())


def size_clause(keyword, value):
    return Clause(SIZES[keyword], keyword, (len(value), 0), ())


def json_text(value):
    """The JSON text of a value that was read, numbers as they were written."""
    if isinstance(value, dict):
        return '{%s}' % ','.join('%s:%s' % (json_text(name), json_text(one)) for name, one in value.items())
    if isinstance(value, list):
        return '[%s]' % ','.join(map(json_text, value))
    return str(value) if isinstance(value, Number) else json.dumps(value, ensure_ascii=False)
