"""References inside one schema document and to further ones that are given: by JSON pointer, by $anchor, by $id.

A place is the tuple of tokens of a JSON pointer into the document; in a further one that document comes first in it.
"""
import re
from urllib.parse import unquote

from tools.fault import Document, fault_at, fragment

# Where subschemas stand, also under keywords that the judge does not have: an $id in them is one.
ONE_SCHEMA = ('not', 'if', 'then', 'else', 'items', 'contains', 'additionalProperties', 'propertyNames',
              'unevaluatedItems', 'unevaluatedProperties', 'contentSchema')
LISTS = ('allOf', 'anyOf', 'oneOf', 'prefixItems')
BY_NAME = ('properties', 'patternProperties', 'dependentSchemas', '$defs', 'definitions')

ABSOLUTE = re.compile('[A-Za-z][A-Za-z0-9+.-]*:')
URI = re.compile(r'(?:([^:/?#]+):)?(?://([^/?#]*))?([^?#]*)(?:\?([^#]*))?(?:#(.*))?', re.DOTALL)


def resolved(base, reference):
    """(URI without fragment, fragment) of a reference against a base, as in RFC 3986, section 5.2."""
    scheme, authority, path, query, mark = URI.fullmatch(reference).groups()
    base_scheme, base_authority, base_path, base_query, _ = URI.fullmatch(base).groups()
    if scheme is None and authority is None:
        authority = base_authority
        if path == '':
            path, query = base_path, base_query if query is None else query
        elif not path.startswith('/'):
            path = merged(base_authority, base_path, path)
    return joined(base_scheme if scheme is None else scheme, authority, without_dots(path), query), mark or ''


def merged(authority, base_path, path):
    if authority is not None and base_path == '':
        return '/' + path
    return base_path[:base_path.rfind('/') + 1] + path


def without_dots(path):
    kept = []
    steps = path.split('/')
    for step in steps:
        if step == '..':
            if len(kept) > 1 or kept and kept[0] != '':
                kept.pop()
        elif step != '.':
            kept.append(step)
    if steps[-1] in ('.', '..'):
        kept.append('')
    return '/'.join(kept)


def joined(scheme, authority, path, query):
    return ((scheme + ':' if scheme is not None else '') + ('//' + authority if authority is not None else '')
            + path + ('?' + query if query is not None else ''))


def subschemas(schema):
    """(tokens, subschema) of each subschema that stands where the draft has one."""
    for keyword, value in schema.items():
        if keyword in ONE_SCHEMA:
            yield (keyword,), value
        elif keyword in LISTS and isinstance(value, list):
            yield from (((keyword, str(place)), item) for place, item in enumerate(value))
        elif keyword in BY_NAME and isinstance(value, dict):
            yield from (((keyword, name), member) for name, member in value.items())


class References:
    """The base URI of each schema of the documents, and the places that URIs and anchors name. faults are what is wrong
    with names and with references that were looked up."""

    def __init__(self, document, further=()):
        """further are (file, value) of each further document."""
        self.document, self.faults = document, []
        self.schemas = {}                       # by place, each that stands where the draft has one
        self.bases, self.roots = {}, {}         # of a schema's place: the URI and the place of the resource it is in
        self.resources, self.anchors = {}, {}
        others = [((Document(file, value),), value, '') for file, value in further]
        self.faults += [fault_at('a further schema document is found by its $id, and this has none', place)
                        for place, value, _ in others if not isinstance(value, dict) or '$id' not in value]
        to_visit = [((), document, '')] + others
        for place, schema, base in to_visit:    # grows by the subschemas of each
            if isinstance(schema, dict):
                self.schemas[place] = schema
                base = self.note(place, schema, base)
                to_visit.extend((place + tokens, below, base) for tokens, below in subschemas(schema))

    def note(self, place, schema, base):
        """Notes what the schema is called, and gives the base URI inside it."""
        identity = self.string(place, schema, '$id')
        if identity is not None:
            base, mark = resolved(base, identity)
            if mark:
                self.faults.append(fault_at('an $id has no fragment', place + ('$id',)))
        if identity is not None or place == ():
            self.name(self.resources, base, place, '$id')
        for keyword in ('$anchor', '$dynamicAnchor'):
            name = self.string(place, schema, keyword)
            if name is not None:
                self.name(self.anchors, (base, name), place, keyword)
        self.bases[place] = base
        self.roots[place] = place if identity is not None or place == () else self.around(place[:-1])[1]
        return base

    def string(self, place, schema, keyword):
        """What the schema has under the keyword, if it is a string as it should be."""
        value = schema.get(keyword)
        if keyword in schema and not isinstance(value, str):
            self.faults.append(fault_at('must be a string', place + (keyword,)))
            return None
        return value

    def name(self, names, name, place, keyword):
        if names.setdefault(name, place) != place:
            self.faults.append(fault_at('%s has this name already' % fragment(names[name]), place + (keyword,)))

    def around(self, place):
        """(base URI, place of its resource) at a place; under a keyword that is unknown, of the schema around it."""
        while place not in self.bases and place:
            place = place[:-1]
        return self.bases.get(place, ''), self.roots.get(place, ())

    def absolute(self, place):
        """(absolute URI, place of its resource) at a place; None if no $id around it gives such a URI."""
        base, root = self.around(place)
        return (base, root) if ABSOLUTE.match(base) else None

    def target(self, place, reference):
        """The place that a $ref of the schema at place names; None, and a fault more, if it names none."""
        uri, mark = resolved(self.around(place)[0], reference)
        if uri not in self.resources:
            return self.astray(place, 'refers to no document that is given: %s' % reference)
        mark = unquote(mark)
        if mark == '' or mark.startswith('/'):
            tokens = tuple(step.replace('~1', '/').replace('~0', '~') for step in mark.split('/')[1:])
            found = self.resources[uri] + tokens
        else:
            found = self.anchors.get((uri, mark))
        if found is None or not self.exists(found):
            return self.astray(place, 'refers to nothing: %s' % reference)
        return found

    def astray(self, place, words):
        self.faults.append(fault_at(words, place + ('$ref',)))

    def at(self, place):
        """The value at a place; KeyError if there is none."""
        value = self.document
        for token in place:
            if isinstance(token, Document):
                value = token.value
            elif isinstance(value, list) and re.fullmatch('0|[1-9][0-9]{0,8}', token) and int(token) < len(value):
                value = value[int(token)]
            elif isinstance(value, dict):
                value = value[token]
            else:
                raise KeyError(token)
        return value

    def exists(self, place):
        try:
            self.at(place)
        except KeyError:
            return False
        return True
