"""The tables of tests/command.py: schemas and records, with the line that the command says of each."""
import json


def nested(levels):
    return '[' * levels + ']' * levels


def to(i, **beside):
    """A reference to the definition, and what stands beside it."""
    return dict({'$ref': '#/$defs/s%d' % i}, **beside)


def to_and_null(i):
    return to(i, type='null')


def to_and_title(i):
    return to(i, title='t')


def to_twice(i):
    return {'allOf': [to(i), to(i)]}


def chain(count, apply):
    """A schema and that many definitions, each applying the next to the same value, the last one null."""
    defs = {'s%d' % i: apply(i + 1) for i in range(1, count)}
    return dict(apply(1), **{'$defs': dict(defs, **{'s%d' % count: {'type': 'null'}})})


def many(count):
    """An object schema with that many different schemas under it."""
    return {'properties': {'p%d' % i: {'minimum': i} for i in range(count)}}


def many_defined(count, **beside):
    """The same by definitions; what stands beside each reference."""
    return {'properties': {'p%d' % i: to(i, **beside) for i in range(count)},
            '$defs': {'s%d' % i: {'minimum': i} for i in range(count)}}


P = {'p': 1}
LONG = 'x' * 70_000
LONG_CHAIN = ': refused (9): more than 32 schemas, from here on, each apply the next to the same value'
LOOP = ': refused (8): this schema applies itself to the same value again, without end'
WIDTH = 'at most 9 digits, and 9 places after the point'
BESIDE = {'$ref': '#/$defs/a', 'minimum': 3, '$defs': {'a': {'maximum': 5}}}
LISTS = {'$ref': '#/$defs/list', '$defs': {'list': {'type': 'array', 'items': {'$ref': '#'}}}}
TREE = {'$id': 'tree', 'type': 'object', 'properties': {'below': {'type': 'array', 'items': {'$ref': 'tree'}}},
        'additionalProperties': False}
LINKS = {'$id': 'http://a.example/x/root.json',
         'properties': {'a': {'$ref': '#/$defs/n~1a~0me%20x'}, 'b': {'$ref': '#here'}, 'c': {'$ref': 'other.json'},
                        'd': {'$ref': '/x/other.json#inner'}, 'e': {'$ref': './y/../other.json#/$defs/deep'},
                        'f': {'$ref': 'urn:example:four'}, 'g': {'$ref': '#/components/0'}},
         'components': [{'type': 'null'}],
         '$defs': {'n/a~me x': {'const': 1}, 'anchored': {'$anchor': 'here', 'const': 2},
                   'other': {'$id': 'other.json', 'type': 'string',
                             '$defs': {'deep': {'const': 'deep'}, 'inner': {'$anchor': 'inner', 'const': 'inner'}}},
                   'urn': {'$id': 'urn:example:four', 'const': 4}}}

# schema, record as JSON text, what is said of the record after its name: 'valid' or 'invalid: ...'.
VERDICTS = [
    (True, '1', 'valid'),
    (False, '1', 'invalid: not allowed here (#)'),
    ({}, 'null', 'valid'),
    ({'type': 'integer'}, '1.0', 'valid'),
    ({'type': 'integer'}, '1e2', 'valid'),
    ({'type': 'integer'}, '1.5', 'invalid: is 1.5, must be integer (#/type)'),
    ({'type': 'integer'}, 'true', 'invalid: is true, must be integer (#/type)'),
    ({'type': ['null', 'string']}, '[]', 'invalid: is [], must be null or string (#/type)'),
    ({'type': 'number'}, '{}', 'invalid: is {}, must be number (#/type)'),
    ({'type': 'object'}, 'null', 'invalid: is null, must be object (#/type)'),
    ({'enum': [1, 'a', None]}, '1.0', 'valid'),
    ({'enum': [1, 'a', None]}, 'true', 'invalid: is true, must be 1, "a" or null (#/enum)'),
    ({'enum': [1, 'a', None]}, '[1]', 'invalid: is [1], must be 1, "a" or null (#/enum)'),
    ({'enum': []}, '1', 'invalid: not allowed here (#/enum)'),
    ({'enum': list(range(60))}, '-1',
     'invalid: is -1, must be %s or one of 37 more values (#/enum)' % ', '.join(map(str, range(23)))),
    ({'enum': [LONG[:999], 1]}, '"%s"' % LONG[:998],
     'invalid: is "%s..., must be "%s... or one of 1 more value (#/enum)' % (36 * 'x', 76 * 'x')),
    ({'const': 'né'}, '"n\\u00e9"', 'valid'),
    ({'const': 'né'}, '"ne"', 'invalid: is "ne", must be "né" (#/const)'),
    ({'enum': [1, 2], 'const': 2}, '2', 'valid'),
    ({'enum': [1, 2], 'const': 2}, '1', 'invalid: is 1, must be 2 (#/const)'),
    ({'enum': [1, 2], 'const': 3, 'allOf': [True]}, '3', 'invalid: is 3, must be 1 or 2 (#/enum)'),
    ({'minimum': 2}, '2.00', 'valid'),
    ({'minimum': 2}, '-1', 'invalid: is -1, must be at least 2 (#/minimum)'),
    ({'maximum': 0.05}, '0.051', 'invalid: is 0.051, must be at most 0.05 (#/maximum)'),
    ({'exclusiveMinimum': -0.5}, '-0.5', 'invalid: is -0.5, must be above -0.5 (#/exclusiveMinimum)'),
    ({'exclusiveMaximum': 7}, '7', 'invalid: is 7, must be below 7 (#/exclusiveMaximum)'),
    ({'exclusiveMaximum': 7}, '"7"', 'valid'),
    ({'multipleOf': 0.01}, '0.07', 'valid'),
    ({'multipleOf': 4}, '-6', 'invalid: is -6, must be a multiple of 4 (#/multipleOf)'),
    ({'maximum': 1}, '1' + '0' * 8, 'invalid: is 100000000, must be at most 1 (#/maximum)'),
    ({'minimum': 1}, '-0e9999999999999999', 'invalid: is 0, must be at least 1 (#/minimum)'),
    ({'maximum': 1}, '12.50e2', 'invalid: is 1250, must be at most 1 (#/maximum)'),
    ({'maximum': 1}, '100000e-4', 'invalid: is 10, must be at most 1 (#/maximum)'),
    ({'minimum': 1}, '-5e-9', 'invalid: is -0.000000005, must be at least 1 (#/minimum)'),
    ({'maximum': 999999999}, '999999999.000', 'valid'),
    ({'minLength': 3}, '"ab"', 'invalid: "ab" has 2 characters, must have at least 3 (#/minLength)'),
    ({'maxLength': 1.0}, '"é"', 'valid'),
    ({'maxLength': 1.0}, '"é🏃"', 'invalid: "é🏃" has 2 characters, must have at most 1 (#/maxLength)'),
    ({'minItems': 2}, '[1]', 'invalid: has 1 item, must have at least 2 (#/minItems)'),
    ({'maxItems': 0}, '[1]', 'invalid: has 1 item, must have at most 0 (#/maxItems)'),
    ({'maxItems': 4294967295}, '[1]', 'valid'),
    ({'minProperties': 1}, '{}', 'invalid: has 0 members, must have at least 1 (#/minProperties)'),
    ({'maxProperties': 1}, '{"a":1,"b":2}', 'invalid: has 2 members, must have at most 1 (#/maxProperties)'),
    ({'required': ['a', 'b', 'c']}, '{"b":1}', 'invalid: missing "a", "c" (#/required)'),
    ({'required': []}, '{}', 'valid'),
    ({'allOf': [{'minimum': 1}, {'maximum': 0}]}, '5', 'invalid: is 5, must be at most 0 (#/allOf/1/maximum)'),
    ({'allOf': [{'minimum': 9}, {'maximum': 0}]}, '5',
     'invalid: is 5, must be at least 9 (#/allOf/0/minimum), and 1 more'),
    ({'oneOf': [{'type': 'null'}]}, '5', 'invalid: is 5, must be null (#/oneOf/0/type)'),
    ({'oneOf': [{}, {'type': 'null'}, {}]}, '5', 'invalid: fits 0 and 2, must fit only one (#/oneOf)'),
    ({'not': {'type': 'integer'}}, '5', 'invalid: fits what it must not: {"type":"integer"} (#/not)'),
    ({'properties': {'a/b': {'properties': {'~': False}}}}, '{"a/b":{"~":1}}',
     'invalid: /a~1b/~0: not allowed here (#/properties/a~1b/properties/~0)'),
    ({'additionalProperties': {'type': 'null'}}, '{"":1}',
     'invalid: /: is 1, must be null (#/additionalProperties/type)'),
    ({'properties': {'a': {}}, 'additionalProperties': False}, '{"a":1,"b\\n":2}',
     'invalid: /b\\n: not allowed here (#/additionalProperties)'),
    ({'prefixItems': [{'type': 'null'}], 'items': {'type': 'string'}}, '[null,"a",3]',
     'invalid: /2: is 3, must be string (#/items/type)'),
    ({'prefixItems': [{'type': 'null'}]}, '[3]', 'invalid: /0: is 3, must be null (#/prefixItems/0/type)'),
    ({'prefixItems': [True], 'unevaluatedItems': False}, '[1,2]', 'invalid: /1: not allowed here (#/unevaluatedItems)'),
    ({'anyOf': [{'properties': {'a': {'type': 'null'}}}, True], 'unevaluatedProperties': False}, '{"a":1}',
     'invalid: /a: not allowed here (#/unevaluatedProperties)'),
    ({'anyOf': [{'properties': {'a': {'type': 'null'}}}], 'unevaluatedProperties': False}, '{"a":1,"b":2}',
     'invalid: /a: is 1, must be null (#/anyOf/0/properties/a/type), and 1 more'),
    (BESIDE, '6', 'invalid: is 6, must be at most 5 (#/$defs/a/maximum)'),
    (BESIDE, '2', 'invalid: is 2, must be at least 3 (#/minimum)'),
    (TREE, '{"below":[{},{"below":[{"belwo":[]}]}]}',
     'invalid: /below/1/below/0/belwo: not allowed here (#/additionalProperties)'),
    (LINKS, '{"a":1,"b":2,"c":"c","d":"inner","e":"deep","f":4,"g":null}', 'valid'),
    (LINKS, '{"d":"deep"}', 'invalid: /d: is "deep", must be "inner" (#/$defs/other/$defs/inner/const)'),
    (LINKS, '{"g":1}', 'invalid: /g: is 1, must be null (#/components/0/type)'),
    # A schema that is only $ref takes no row, be it the whole: what it comes to is judged and told.
    (chain(41, to), 'null', 'valid'),
    (chain(41, to_and_title), '1', 'invalid: is 1, must be null (#/$defs/s41/type)'),
    (LISTS, '[[],[[]]]', 'valid'),
    (LISTS, '[[],[[1]]]', 'invalid: /1/0/0: is 1, must be array (#/$defs/list/type)'),
    ({'oneOf': [{'$ref': '#/$defs/a'}, False, {'$ref': '#/$defs/b'}],
      '$defs': {'a': {'$ref': '#/$defs/b'}, 'b': {'minimum': 1}}}, '5',
     'invalid: fits 0 (#/$defs/b) and 2 (#/$defs/b), must fit only one (#/oneOf)'),
    ({'anyOf': [{'$ref': '#/$defs/a'}, True], 'unevaluatedProperties': False,
      '$defs': {'a': {'$ref': '#/$defs/b'}, 'b': {'properties': {'p': {'$ref': '#/$defs/no'}}}, 'no': False}},
     '{"p":1}', 'invalid: /p: not allowed here (#/unevaluatedProperties)'),
    # A chain of schemas that each apply the next twice is explained in a time that does not double with each.
    (chain(31, to_twice), '1', 'invalid: is 1, must be null (#/$defs/s31/type)'),
    # Annotations and unknown keywords assert nothing; nor does what is said of nothing.
    ({'$schema': 'https://json-schema.org/draft/2020-12/schema', '$comment': 'c', 'title': 't', 'description': 'd',
      'default': 1, 'examples': [1], 'deprecated': True, 'readOnly': True, 'writeOnly': True,
      'contentEncoding': 'base64', 'contentMediaType': 'x', 'contentSchema': {'pattern': 'x'}, 'x-colour': 'red'},
     '"a"', 'valid'),
    ({'uniqueItems': False, 'minContains': 3, 'then': False, 'patternProperties': {}}, '[1,1]', 'valid'),
    ({'maxContains': 0, 'else': False, 'then': {'pattern': 'x'}, 'dependencies': {}}, '[1,1]', 'valid'),
    ({'$defs': {'unused': {'pattern': 'x'}}}, '"a"', 'valid'),
    # Just inside the limits; 200 equal schemas share a row.
    ({}, nested(32), 'valid'),
    ({}, json.dumps(list(range(1023))), 'valid'),
    ({}, json.dumps(LONG[:65_534]), 'valid'),
    (many(1023), '{"p9":9}', 'valid'),
    (many_defined(1023), '{"p9":8}', 'invalid: /p9: is 8, must be at least 9 (#/$defs/s9/minimum)'),
    (chain(31, to_and_null), 'null', 'valid'),
    (chain(31, to_twice), 'null', 'valid'),
    ({'properties': {'p%d' % i: {'items': {'type': 'null'}} for i in range(200)}}, '{"p199":[1]}',
     'invalid: /p199/0: is 1, must be null (#/properties/p199/items/type)'),
]

# record as JSON text or bytes, what is said of it by a schema that allows everything.
BAD_RECORDS = [
    ('', 'line 1, column 1: not JSON: it ends too early'),
    ('{"a": 1,\n "b" 2}', "line 2, column 6: not JSON: '2' cannot stand here"),
    ('[1, 2] 3', "line 1, column 8: not JSON: '3' cannot stand here"),
    ('["a\nb"]', 'line 1, column 4: not JSON: the line ends too early'),
    ('["a\tb"]', 'line 1, column 4: not JSON: byte 0x09 cannot stand here'),
    ('"abc', 'line 1, column 5: not JSON: it ends too early'),
    ('{"a": "NaN",\n"b": NaN}', "line 2, column 6: not JSON: 'N' cannot stand here"),
    ('[-Infinity]', "line 1, column 3: not JSON: 'I' cannot stand here"),
    (b'["\xc3\xa9",\n "\xff"]', 'line 2, column 3: not JSON: byte 0xff cannot stand here'),
    (b'["\xc3\xa9\xc3"]', "line 1, column 4: not JSON: '\"' cannot stand here"),
    ('[01]', "line 1, column 3: not JSON: '1' cannot stand here"),
    ('{"a": {"b": 1, "c": 2, "b": 1}}', 'line 1, column 24: refused (25): a second member named "b"'),
    ('{"\u0062": 1,\n"\\u0062": 1}', 'line 2, column 1: refused (25): a second member named "\\u0062"'),
    ('{"%s":0,"%s":0}' % (LONG[:200], LONG[:200]), 'line 1, column 207: refused (25): a second member named "%s...' % LONG[:36]),
    ('{"a": ["\\ud800"]}', 'line 1, column 9: refused (26): a lone surrogate, which UTF-8 cannot hold'),
    ('[' * 65_536, 'line 1, column 65537: not JSON: it ends too early'),
    ('[' * 100_000, 'refused (20): more than 65536 bytes of JSON'),
    ('{"a": 1000000000}', 'line 1, column 7: refused (23): the number 1000000000 is out of range: ' + WIDTH),
    ('1e-10', 'line 1, column 1: refused (23): the number 1e-10 is out of range: ' + WIDTH),
    ('1e' + '9' * 5000, 'line 1, column 1: refused (23): the number 1e%s... is out of range: ' % ('9' * 35) + WIDTH),
    ('["é",\n -1e10,1e11]', 'line 2, column 2: refused (23): the number -1e10 is out of range: ' + WIDTH),
    (nested(33), 'line 1, column 33: refused (24): more than 32 levels deep'),
    (json.dumps(list(range(1024))), 'line 1, column 5030: refused (22): more than 1024 values'),
    (json.dumps(LONG[:65_535]), 'refused (20): more than 65536 bytes of JSON'),
    (' ' * (5 << 20), 'refused (20): more than 65536 bytes of JSON'),
]

# schema, what is said of it after its name.
BAD_SCHEMAS = [
    ('x', '#: a schema must be an object, true or false'),
    ({'items': [{}]}, '#/items: an array of schemas is prefixItems in this draft'),
    ({'not': 3}, '#/not: a schema must be an object, true or false'),
    ({'type': 'int'}, '#/type: must be one or more of null, boolean, integer, number, string, array, object'),
    ({'type': []}, '#/type: must be one or more of null, boolean, integer, number, string, array, object'),
    ({'enum': 1}, '#/enum: must be an array'),
    ({'const': [{'a': 12345678901}]}, '#/const/0/a: the number 12345678901 is out of range: ' + WIDTH),
    ({'const': 12345678901}, '#/const: the number 12345678901 is out of range: ' + WIDTH),
    ({'minimum': 0.12345678901}, '#/minimum: the number 0.12345678901 is out of range: ' + WIDTH),
    ({'minimum': '1'}, '#/minimum: must be a number'),
    ({'multipleOf': 0}, '#/multipleOf: must be above 0'),
    ({'maxItems': 4294967296}, '#/maxItems: must be a whole number from 0 to 4294967295'),
    ({'maxItems': 1.5}, '#/maxItems: must be a whole number from 0 to 4294967295'),
    ({'minLength': -1}, '#/minLength: must be a whole number from 0 to 4294967295'),
    ({'minLength': True}, '#/minLength: must be a whole number from 0 to 4294967295'),
    ({'required': 'a'}, '#/required: must be an array of strings'),
    ({'required': ['a', 1]}, '#/required: must be an array of strings'),
    ({'properties': []}, '#/properties: must be an object'),
    ({'allOf': []}, '#/allOf: must be an array of at least one schema'),
    ({'anyOf': {}}, '#/anyOf: must be an array of at least one schema'),
    ({'if': 1}, '#/if: a schema must be an object, true or false'),
    ({'if': True, 'then': []}, '#/then: a schema must be an object, true or false'),
    ({'if': True, 'else': {'pattern': 'x'}}, '#/else/pattern: the judge has no pattern'),
    ({'dependentSchemas': []}, '#/dependentSchemas: must be an object'),
    ({'dependentSchemas': P}, '#/dependentSchemas/p: a schema must be an object, true or false'),
    ({'dependentRequired': True}, '#/dependentRequired: must be an object'),
    ({'dependentRequired': P}, '#/dependentRequired/p: must be an array of strings'),
    ({'dependentRequired': {'p': [P]}}, '#/dependentRequired/p: must be an array of strings'),
    ({'dependentRequired': {'p': ['a', 'b', 'b']}}, '#/dependentRequired/p/2: this name stands here a second time'),
    ({'contains': None}, '#/contains: a schema must be an object, true or false'),
    ({'contains': {}, 'minContains': -1}, '#/minContains: must be a whole number from 0 to 4294967295'),
    ({'contains': {}, 'maxContains': 1.5}, '#/maxContains: must be a whole number from 0 to 4294967295'),
    ({'contains': {}, 'maxContains': 4294967296}, '#/maxContains: must be a whole number from 0 to 4294967295'),
    ({'minContains': '1'}, '#/minContains: must be a whole number from 0 to 4294967295'),
    ({'$ref': 1}, '#/$ref: must be a string'),
    ({'items': {'$ref': '#/$defs/none'}}, '#/items/$ref: refers to nothing: #/$defs/none'),
    ({'$ref': '#none'}, '#/$ref: refers to nothing: #none'),
    ({'$ref': 'http://b.example/s'}, '#/$ref: refers to no document that is given: http://b.example/s'),
    ({'$id': 'a#b'}, '#/$id: an $id has no fragment'),
    ({'$anchor': 1}, '#/$anchor: must be a string'),
    ({'$defs': {'a': {'$anchor': 'x'}, 'b': {'$anchor': 'x'}}}, '#/$defs/b/$anchor: #/$defs/a has this name already'),
    ({'$schema': 'http://json-schema.org/draft-07/schema#'},
     '#/$schema: only Draft 2020-12 is read: https://json-schema.org/draft/2020-12/schema'),
    ({'required': ['a', 'b', 'a']}, '#/required/2: this name stands here a second time'),
    ({'$ref': '#'}, '#' + LOOP),
    ({'properties': {'a': {'$ref': '#/properties/a'}}}, '#/properties/a' + LOOP),
    ({'items': {'$ref': '#/$defs/a'}, '$defs': {'a': {'$ref': '#/$defs/b'}, 'b': {'$ref': '#/$defs/a'}}},
     '#/$defs/b' + LOOP),
    ({'items': {'$ref': '#/$defs/a'}, '$defs': {'a': {'anyOf': [{'$ref': '#/$defs/a'}]}}}, '#/$defs/a' + LOOP),
    ({'$ref': '#/$defs/a', '$defs': {'a': {'$ref': '#', 'type': 'null'}}}, '#/$defs/a' + LOOP),
    # Also by a branch that is never taken, and by a name that no record may have.
    ({'if': {'$ref': '#'}}, '#' + LOOP),
    ({'if': True, 'else': {'$ref': '#', 'title': 't'}}, '#' + LOOP),
    ({'items': {'dependentSchemas': {'a': True, 'b': {'$ref': '#/items'}}}}, '#/items' + LOOP),
    ({'$ref': '#/$defs/a', 'pattern': 'x', '$defs': {'a': True}}, '#/pattern: the judge has no pattern'),
    ({'$ref': '#/$defs/a', '$defs': {'a': {'$ref': '#/$defs/b'}, 'b': {'pattern': 'x'}}},
     '#/$defs/b/pattern: the judge has no pattern'),
    (chain(32, to_and_null), '#' + LONG_CHAIN),
    (chain(32, to_twice), '#' + LONG_CHAIN),
    (chain(32, lambda i: {'if': to(i)}), '#' + LONG_CHAIN),
    (many(1024), '1025 different schemas, and the judge takes at most 1024'),
    ({'allOf': [{'minimum': i, 'maximum': i, 'exclusiveMinimum': i, 'exclusiveMaximum': i, 'multipleOf': 1 + i}
                for i in range(900)]}, '4501 keywords that assert, and the judge takes at most 4096'),
    ({'enum': list(range(4097))}, '4097 names, values and alternatives in lists, and the judge takes at most 4096'),
    ({'const': LONG}, '70000 bytes of names and strings, and the judge takes at most 65535'),
]

# Keywords that assert and have no clause, with a value that says something.
NO_CLAUSE = {'pattern': 'x', 'patternProperties': {'x': {}}, 'propertyNames': {}, 'uniqueItems': True, 'dependencies': P,
             '$dynamicRef': '#x', '$recursiveRef': '#'}
