"""More tables of tests/command.py: which cause is told of alternatives, conditions and counts, structured values, and lists
that are cut."""
from command_cases import LONG, chain, to

def deep(count):
    """An array of such arrays, where that many choices lead from one schema to the next on the same value."""
    defs = {'s%d' % i: {'anyOf': [{'type': 'string'}, to(i + 1, title='t')]} for i in range(count)}
    return dict(to(0), **{'$defs': dict(defs, **{'s%d' % count: {'type': 'array', 'items': to(0)}})})


# schema, record as JSON text, what is said of it after its name and "invalid": of alternatives that all fail the nearest
# is told, down to a leaf.
SHAPES = {'oneOf': [{'properties': {'kind': {'const': 'circle'}, 'r': {'type': 'number'}}, 'required': ['kind', 'r']},
                    {'properties': {'kind': {'const': 'box'}, 'side': {'anyOf': [
                        {'type': 'string'}, {'type': 'array', 'items': {'minimum': 0}, 'maxItems': 3}, {'const': None}]}},
                     'required': ['kind', 'side', 'colour']}]}
NEAREST = [
    ({'anyOf': [{'type': 'null'}, {'minimum': 9}]}, '5',
     'is 5, must be at least 9 (#/anyOf/1/minimum), the nearest of 2 alternatives (#/anyOf/1)'),
    ({'anyOf': [{'const': 4}, {'enum': [1, 2]}, {'maximum': 3}]}, '5',
     'is 5, must be at most 3 (#/anyOf/2/maximum), the nearest of 3 alternatives (#/anyOf/2)'),
    ({'oneOf': [{'type': 'null'}] * 5}, '5',
     'is 5, must be null (#/oneOf/0/type), the nearest of 5 alternatives (#/oneOf/0)'),
    # The const of a member tells which is meant, be more wrong with it.
    (SHAPES, '{"kind":"box","r":true}', 'missing "side", "colour" (#/oneOf/1/required), '
     'the nearest of 2 alternatives (#/oneOf/1)'),
    (SHAPES, '{"kind":"circle","r":"1","side":[]}', '/r: is "1", must be number (#/oneOf/0/properties/r/type), '
     'the nearest of 2 alternatives (#/oneOf/0)'),
    # Nested choices, down to the deepest failure.
    (SHAPES, '{"kind":"box","colour":1,"side":[1,-2]}',
     '/side/1: is -2, must be at least 0 (#/oneOf/1/properties/side/anyOf/1/items/minimum), the nearest of 2 '
     'alternatives (#/oneOf/1), then of 3 (#/oneOf/1/properties/side/anyOf/1)'),
    (SHAPES, '{"kind":"box","colour":1,"side":[-1,2,3,-4]}',
     '/side: has 4 items, must have at most 3 (#/oneOf/1/properties/side/anyOf/1/maxItems), the nearest of 2 '
     'alternatives (#/oneOf/1), then of 3 (#/oneOf/1/properties/side/anyOf/1), and 2 more'),
    ({'anyOf': [{'required': ['a']}, {'properties': {'b': {'properties': {'c': False}}}}]}, '{"b":{"c":1}}',
     '/b/c: not allowed here (#/anyOf/1/properties/b/properties/c), the nearest of 2 alternatives (#/anyOf/1)'),
    # A choice whose alternatives all lead on to the same one, in a chain: told in a time that does not double with each.
    (chain(31, lambda i: {'anyOf': [to(i), to(i)]}), '5',
     'is 5, must be null (#/$defs/s31/type), the nearest of 2 alternatives (#/anyOf/0), then of 2 (#/$defs/s1/anyOf/0), '
     'then of 29 more choices'),
    # Choices on each of 32 levels, below each other.
    (deep(14), '[' * 31 + '1' + ']' * 31, '/0' * 31 + ': is 1, must be string (#/$defs/s0/anyOf/0/type), the nearest of 2 '
     'alternatives (#/$defs/s0/anyOf/1), then of 2 (#/$defs/s1/anyOf/1), then of 433 more choices'),
]

# Conditions and counts: what is asked for a condition is told with it, the nearest one. With the verdict.
KIND = {'properties': {'kind': {'const': 'relay'}}, 'required': ['kind']}
LEGS = {'if': KIND, 'then': {'required': ['legs'], 'properties': {'legs': {'$ref': '#/$defs/legs'}}},
        'else': {'$ref': '#/$defs/single'}, 'unevaluatedProperties': False,
        '$defs': {'legs': {'type': 'array', 'minItems': 2}, 'single': {'properties': {'bib': {'type': 'integer'}}}}}
CARD = {'dependentRequired': {'card': ['name', 'until'], 'x': []},
        'dependentSchemas': {'card': {'properties': {'name': {'type': 'string'}}}, 'none': False}}
NESTED = {'if': {'minimum': 0}, 'then': {'if': {'maximum': 9}, 'then': {'multipleOf': 2}, 'else': {'multipleOf': 10}}}
HELD = {'contains': {'type': 'string'}, 'unevaluatedItems': False}
CONDITIONS = [
    (LEGS, '{"kind":"relay","legs":[1,2]}', 'valid'),
    (LEGS, '{"kind":"relay"}', 'invalid: missing "legs" (#/then/required), since #/if holds'),
    (LEGS, '{"kind":"relay","legs":[1]}',
     'invalid: /legs: has 1 item, must have at least 2 (#/$defs/legs/minItems), since #/if holds'),
    (LEGS, '{"bib":"7"}', 'invalid: /bib: is "7", must be integer (#/$defs/single/properties/bib/type), since #/if fails'),
    # A condition that fails passes no marks, one that holds does; what a failed branch would have marked is no cause.
    (LEGS, '{"kind":"single","bib":7}', 'invalid: /kind: not allowed here (#/unevaluatedProperties)'),
    (LEGS, '{"kind":"single","bib":"7"}', 'invalid: /bib: is "7", must be integer '
     '(#/$defs/single/properties/bib/type), since #/if fails, and 1 more'),
    ({'if': KIND, 'unevaluatedProperties': False}, '{"kind":"relay"}', 'valid'),
    ({'if': False, 'then': False}, '1', 'valid'),
    ({'if': True, 'then': False}, '1', 'invalid: not allowed here (#/then), since #/if holds'),
    ({'if': True, 'else': False}, '1', 'valid'),
    ({'if': False, 'else': False}, '1', 'invalid: not allowed here (#/else), since #/if fails'),
    (NESTED, '-1', 'valid'),
    (NESTED, '8', 'valid'),
    (NESTED, '7', 'invalid: is 7, must be a multiple of 2 (#/then/then/multipleOf), since #/then/if holds'),
    (NESTED, '11', 'invalid: is 11, must be a multiple of 10 (#/then/else/multipleOf), since #/then/if fails'),
    ({'anyOf': [{'type': 'null'}, {'if': {'minimum': 0}, 'then': {'maximum': 3}}]}, '5', 'invalid: is 5, must be at most 3 '
     '(#/anyOf/1/then/maximum), since #/anyOf/1/if holds, the nearest of 2 alternatives (#/anyOf/1)'),
    # Beside each other, dependentRequired and dependentSchemas are two lists; a name that is missing asks for nothing.
    (CARD, '{"name":1}', 'valid'),
    (CARD, '"card"', 'valid'),
    (CARD, '{"card":1,"x":1,"name":"n","until":1}', 'valid'),
    (CARD, '{"card":1,"name":"n"}', 'invalid: missing "until" (#/dependentRequired), since /card is there'),
    (CARD, '{"card":1,"name":1,"until":1}',
     'invalid: /name: is 1, must be string (#/dependentSchemas/card/properties/name/type), since /card is there'),
    ({'items': {'dependentSchemas': {'a/b': False}}}, '[1,{"a/b":1}]',
     'invalid: /1: not allowed here (#/items/dependentSchemas/a~1b), since /1/a~1b is there'),
    ({'dependentSchemas': {'a': {'properties': {'b': True}}, 'b': {'properties': {'a': True}}},
      'unevaluatedProperties': False}, '{"a":1,"b":1}', 'valid'),
    ({'dependentSchemas': {}, 'dependentRequired': {}, 'allOf': [True]}, '{"a":1}', 'valid'),
    # Counts: the keyword that is not kept, and how many fit.
    ({'contains': {'minimum': 5}}, '[1,2,"a"]', 'valid'),
    ({'contains': {'type': 'null'}}, '{"a":1}', 'valid'),
    ({'contains': {'type': 'null'}}, '[]', 'invalid: has 0 items that fit contains, must have at least 1 (#/contains)'),
    ({'contains': {'type': 'null'}, 'minContains': 2}, '[1,null]',
     'invalid: has 1 item that fits contains, must have at least 2 (#/minContains)'),
    ({'contains': {'type': 'null'}, 'maxContains': 1}, '[null,null,1]',
     'invalid: has 2 items that fit contains, must have at most 1 (#/maxContains)'),
    ({'contains': {'type': 'null'}, 'minContains': 0, 'maxContains': 4294967295}, '[1]', 'valid'),
    ({'contains': True, 'minContains': 3, 'maxContains': 1}, '[1,2]',
     'invalid: has 2 items that fit contains, must have at least 3 (#/minContains)'),
    ({'properties': {'p': {'contains': {'$ref': '#'}}}, 'type': 'object'}, '{"p":[{"p":[1]},{}]}', 'valid'),
    # What fits is evaluated, be there too few; what does not is not.
    (HELD, '["a","b"]', 'valid'),
    (HELD, '["a",1]', 'invalid: /1: not allowed here (#/unevaluatedItems)'),
    (dict(HELD, minContains=2), '["a"]', 'invalid: has 1 item that fits contains, must have at least 2 (#/minContains)'),
    ({'allOf': [dict(HELD, minItems=3, unevaluatedItems=True)], 'unevaluatedItems': False}, '["a",1]',
     'invalid: has 2 items, must have at least 3 (#/allOf/0/minItems)'),
    ({'allOf': [{'contains': {'type': 'string'}, 'minItems': 3}], 'unevaluatedItems': False}, '["a",1]',
     'invalid: has 2 items, must have at least 3 (#/allOf/0/minItems), and 1 more'),
]

# Structured values in enum and const, which the judge does not compare yet: schemas stand for them. With the verdict.
BOX = {'a': [1, {'b': None}], 'c': {}}
STRUCTURED = [
    ({'const': BOX}, '{"c":{},"a":[1.0,{"b":null}]}', 'valid'),
    ({'const': BOX}, '{"c":{},"a":[1,{"b":null},2]}',
     'invalid: is {"c":{},"a":[1,{"b":null},2]}, must be {"a":[1,{"b":null}],"c":{}} (#/const)'),
    ({'const': BOX}, '{"c":{},"a":[1,{"b":null}],"d":1}',
     'invalid: is {"c":{},"a":[1,{"b":null}],"d":1}, must be {"a":[1,{"b":null}],"c":{}} (#/const)'),
    ({'const': BOX}, '{"c":0,"a":[1,{"b":null}]}',
     'invalid: is {"c":0,"a":[1,{"b":null}]}, must be {"a":[1,{"b":null}],"c":{}} (#/const)'),
    ({'enum': [[], 'x', [1, 2]]}, '[1,2]', 'valid'),
    ({'enum': [[], 'x', [1, 2]]}, '"x"', 'valid'),
    ({'enum': [[], 'x', [1, 2]]}, '[2]', 'invalid: is [2], must be [], "x" or [1,2] (#/enum)'),
    ({'enum': [[], 'x', [1, 2]]}, '[%s]' % ','.join('0' * 30), 'invalid: is an array of 30 items, '
     'must be [], "x" or [1,2] (#/enum)'),
    ({'const': False, 'enum': [[], False], 'not': {'type': 'null'}}, 'false', 'valid'),
    ({'const': [], 'enum': [{}, []], 'not': {'type': 'array'}}, '[]',
     'invalid: fits what it must not: {"type":"array"} (#/not)'),
    # A const marks nothing.
    ({'const': {'a': 1}, 'unevaluatedProperties': False}, '{"a":1}',
     'invalid: /a: not allowed here (#/unevaluatedProperties)'),
    ({'anyOf': [{'const': [1]}, True], 'unevaluatedItems': False}, '[1]',
     'invalid: /0: not allowed here (#/unevaluatedItems)'),
]

# Lists in a message are cut.
CUT = [
    ({'required': ['name%02d' % i for i in range(30)]}, '{}',
     'missing %s, and 22 more names (#/required)' % ', '.join('"name%02d"' % i for i in range(8))),
    ({'oneOf': [{'minimum': -i} for i in range(60)]}, '0',
     'fits %s and 37 more alternatives, must fit only one (#/oneOf)' % ', '.join(map(str, range(23)))),
    ({'items': {'allOf': [{'minimum': i} for i in range(1000)]}}, '[%s-1]' % ('-1,' * 1022),
     '/0: is -1, must be at least 0 (#/items/allOf/0/minimum), and over 9999 more'),
    ({'not': {'enum': [LONG[:999], 1]}}, '1', 'fits what it must not: {"enum":["%s... (#/not)' % (67 * 'x')),
]
