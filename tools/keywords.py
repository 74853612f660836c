"""The keywords of Draft 2020-12 and what the judge does with them; and what in a schema is likely a slip."""
from tools.fault import fault_at, file_of

TYPES = {'null': 1, 'boolean': 2, 'integer': 4, 'number': 8, 'string': 16, 'array': 32, 'object': 64}

# The codes of the clauses.
NEVER, TYPE, ENUM, REQUIRED, ALL_OF, NOT, REFERENCE, PROPERTIES, PREFIX_ITEMS = 1, 2, 3, 26, 30, 33, 34, 40, 43
CONDITION, DEPENDENT, CONTAINS = 36, 37, 45
NUMBERS = {'minimum': 10, 'maximum': 11, 'exclusiveMinimum': 12, 'exclusiveMaximum': 13, 'multipleOf': 14}
SIZES = {'minLength': 20, 'maxLength': 21, 'minItems': 22, 'maxItems': 23, 'minProperties': 24, 'maxProperties': 25}
SCHEMA_LISTS = {'allOf': ALL_OF, 'anyOf': 31, 'oneOf': 32, 'prefixItems': PREFIX_ITEMS}
SCHEMAS = {'not': NOT, 'additionalProperties': 42, 'items': 44, 'unevaluatedProperties': 60, 'unevaluatedItems': 61}
SCHEMAS_BY_NAME = {'properties': PROPERTIES, 'dependentSchemas': DEPENDENT}
ONE_SCHEMA = (NOT, REFERENCE, 42, 44, 60, 61)           # codes whose first word is the schema
UNGUARDED = (ALL_OF, 31, 32, NOT, REFERENCE, CONDITION, DEPENDENT)      # codes that apply schemas to the same row

# Keywords that assert, or bear on what is unevaluated, and have no clause; each with when it says nothing after all.
NO_CLAUSE = {
    'pattern': None, 'propertyNames': None, '$dynamicRef': None, '$recursiveRef': None,
    'uniqueItems': lambda schema: schema['uniqueItems'] is False,
    'patternProperties': lambda schema: schema['patternProperties'] == {},
    'dependencies': lambda schema: schema['dependencies'] == {},
}

OTHERS = ('type', 'enum', 'const', 'required', 'dependentRequired', 'if', 'then', 'else', 'contains', 'minContains',
          'maxContains', '$schema', '$id', '$ref', '$anchor', '$dynamicAnchor', '$defs', '$comment', '$vocabulary',
          'definitions', 'title', 'description', 'default', 'examples',
          'deprecated', 'readOnly', 'writeOnly', 'format', 'contentEncoding', 'contentMediaType', 'contentSchema')
KNOWN = frozenset(OTHERS).union(NUMBERS, SIZES, SCHEMA_LISTS, SCHEMAS, SCHEMAS_BY_NAME, NO_CLAUSE)


def slips(schemas):
    """What in the schemas, by place, does not assert and was perhaps meant to: a fault for each keyword that is nearly
    a known one, and one in each file for format."""
    found, formats = [], {}
    for place, schema in schemas.items():
        for keyword in schema:
            meant = meant_by(keyword)
            if meant:
                found.append(fault_at('unknown, and asserts nothing: is %s meant?' % meant, place + (keyword,)))
        if 'format' in schema:
            formats.setdefault(file_of(place), []).append(place + ('format',))
    for places in formats.values():
        more = ', nor in %d more %s' % (len(places) - 1, 'place' if len(places) == 2 else 'places')
        found.append(fault_at('format is not asserted' + (more if places[1:] else ''), places[0]))
    return found


def meant_by(keyword):
    """The known keyword that an unknown one is one typing mistake away from, or None."""
    if keyword in KNOWN:
        return None
    return next((known for known in sorted(KNOWN, key=lambda known: (-len(known), known))
                 if keyword.lower() == known.lower() or is_one_slip(keyword, known)), None)


def is_one_slip(word, known):
    """Whether one letter too many, too few or wrong, or two in the other order, make the one of the other."""
    same = next((i for i, pair in enumerate(zip(word, known)) if pair[0] != pair[1]), min(len(word), len(known)))
    word, known = word[same:], known[same:]
    return (word[1:] == known or word == known[1:] or word[1:] == known[1:]
            or word[:2] == known[1::-1] and word[2:] == known[2:])
