"""Causes as people and programs read them: the nearest of alternatives, one line, all lines, the draft's units."""
from urllib.parse import quote

from tools.fault import fragment, pointer
from tools.words import listed

OWN_TESTS = (None, 'type', 'enum', 'const')


class Nearness:
    """Of each choice that nothing fits, the alternative that the value comes nearest to."""

    def __init__(self):
        self.found, self.flat = {}, {}

    def nearest(self, cause):
        """The alternative whose own tests of type, enum and const hold, then those of the members' const and enum, by
        which alternatives are often told apart; then the one that fails deepest; then by the fewest causes."""
        if id(cause) not in self.found:
            self.found[id(cause)] = min(cause.under, key=lambda alternative: self.distance(cause, alternative))
        return self.found[id(cause)]

    def distance(self, cause, alternative):
        leaves, level = self.leaves(alternative.causes), len(cause.instance)
        own = [leaf.keyword for leaf in leaves if len(leaf.instance) == level]
        members = [leaf.keyword for leaf in leaves if len(leaf.instance) == level + 1]
        return (any(keyword in OWN_TESTS for keyword in own), members.count('const'), members.count('enum'),
                -min(len(leaf.instance) for leaf in leaves), len(leaves))

    def leaves(self, causes):
        """The causes that are no choices, these replaced by the leaves of their nearest alternatives; each once."""
        found = {}
        for cause in causes:
            if id(cause) not in self.flat:
                self.flat[id(cause)] = self.leaves(self.nearest(cause).causes) if cause.under else [cause]
            found.update((id(leaf), leaf) for leaf in self.flat[id(cause)])
        return list(found.values())


def line_of(causes, are_all):
    """The first cause on one line, of alternatives down the nearest, and how many more there are."""
    nearness, cause, passed = Nearness(), causes[0], []
    while cause.under:
        alternative = nearness.nearest(cause)
        what = '' if passed else ' alternatives'
        passed.append('of %d%s (%s)' % (len(cause.under), what, fragment(alternative.place)))
        cause = alternative.causes[0]
    more = len(nearness.leaves(causes)) - 1
    nearest = ', the nearest ' + listed(passed, ', then ', ', then of %d more %s', 'choice') if passed else ''
    return told(cause) + nearest + (', and %s%d more' % ('' if are_all else 'over ', more) if more else '')


def told(cause, since=''):
    """A cause in words; since is a condition that is told already."""
    where = pointer(cause.instance)
    return '%s%s (%s)%s' % (where + ': ' if where else '', cause.words, fragment(cause.place),
                            since_words(cause) if cause.since != since else '')


def since_words(cause):
    return cause.since and ', since ' + cause.since


def lines_of(causes):
    """Every cause on a line of its own; under a choice those of each alternative, by its number."""
    nearness, told_before, lines = Nearness(), set(), []
    waiting = [(2, '', '', cause) for cause in reversed(causes)]
    while waiting:
        margin, number, since, cause = waiting.pop()
        line = ' ' * margin + number + told(cause, since)
        if cause.under and id(cause) not in told_before:
            told_before.add(id(cause))
            lines.append('%s, the nearest is %s' % (line, nearness.nearest(cause).place[-1]))
            waiting += [(margin + 2, alternative.place[-1] + ': ', cause.since, below)
                        for alternative in reversed(cause.under) for below in reversed(alternative.causes)]
        else:
            lines.append(line + (', as above' if cause.under else ''))
    return lines


def units_of(causes, references):
    """The causes as units of the draft's output, each once, what stands under a choice after it."""
    units, waiting = {}, list(reversed(causes))
    while waiting:
        cause = waiting.pop()
        if id(cause) not in units:
            units[id(cause)] = unit_of(cause, references)
            waiting += [below for alternative in reversed(cause.under) for below in reversed(alternative.causes)]
    return list(units.values())


def unit_of(cause, references):
    unit = {'valid': False, 'keywordLocation': pointer(cause.path)}
    absolute = references.absolute(cause.place)
    if absolute:
        uri, root = absolute
        unit['absoluteKeywordLocation'] = uri + '#' + quote(pointer(cause.place[len(root):]), safe="/~!$&'()*+,;=:@")
    return dict(unit, instanceLocation=pointer(cause.instance), error=cause.words + since_words(cause))
