"""Why a record is invalid: from the root along the failed pairs that the judge has settled."""
import sys
from collections import namedtuple
from contextlib import contextmanager

from tools.fault import fragment, pointer
from tools.keywords import CONDITION, CONTAINS, DEPENDENT, NOT, UNGUARDED
from tools.library import CELL_FAILED, CELL_MARKED
from tools.reading import Number
from tools.structured import json_text
from tools.words import LIST_MAX, all_of, contained_words, cut, must_be_one_of, test_words

# instance: tokens of the value; path: tokens of the keyword by the way that was gone, through $ref; place: where the
# keyword stands; keyword: its name, None where the schema is false; since: in words, the nearest condition on the way
# for which this is asked, '' if there is none; under: of a choice that nothing fits, each alternative.
Cause = namedtuple('Cause', 'instance path place keyword words since under')
Alternative = namedtuple('Alternative', 'place causes')
Causes = namedtuple('Causes', 'list are_all')

ABOUT = {code: kind for kind, codes in ((Number, (10, 11, 12, 13, 14)), (str, (20, 21)),
                                        (list, (22, 23, 43, 44, 45, 61)), (dict, (24, 25, 26, 37, 40, 42, 60)))
         for code in codes}
NO_CHOICE, CHOICES, ONE_OF = (30, 34), (31, 32), 32     # allOf and $ref; anyOf and oneOf

# A pair goes down at most 32 levels times a chain of 32 schemas, some calls each.
CALLS_MAX = 20_000


def causes_of(record, rules, cells, most):
    """The causes of an invalid record, in the order of judging, each once; from so many on, no more than tell of each
    failed schema one."""
    walk = Walk(record, rules, cells, most)
    causes = walk.below([(0, rules.root)], ())
    return Causes(list({id(cause): cause for cause in causes}.values()), walk.count < most)


@contextmanager
def deep_calls():
    """Lets calls go as deep as causes do; what is read is kept from nesting so deeply by the limit before."""
    before = sys.getrecursionlimit()
    sys.setrecursionlimit(max(before, CALLS_MAX))
    try:
        yield
    finally:
        sys.setrecursionlimit(before)


class Walk:
    def __init__(self, record, rules, cells, most):
        self.record, self.rules, self.cells, self.most, self.count = record, rules, cells, most, 0
        self.schemas = len(cells) // len(record.rows)
        self.first_cause, self.known_marks, self.since = {}, {}, ''

    def cell(self, j, place):
        return self.cells[j * self.schemas + self.rules.row_of[place]]

    def held(self, j, place):
        return self.cell(j, place) % CELL_MARKED != CELL_FAILED

    def children(self, j):
        _, first, count = self.record.rows[j][:3]
        return range(first, first + count) if isinstance(self.record.values[j], (list, dict)) else range(0)

    def name(self, j):
        return self.record.places[j][-1]

    def clauses(self, j, place):
        """The clauses of a schema that are about the type of the row."""
        value = self.record.values[j]
        return [clause for clause in self.rules.clauses[place] if isinstance(value, ABOUT.get(clause.code, object))]

    # ---- which children a clause takes ----

    def taken(self, j, place, clause, hopeful=False):
        """(child, entry) of each child that the clause takes; hopeful: that it would take if no schema had failed."""
        children = self.children(j)
        if clause.code == 40:
            return [(child, entry) for entry in clause.entries for child in children if self.name(child) == entry.name]
        if clause.code == 43:
            return list(zip(children, clause.entries))
        if clause.code == 42:
            names = {entry.name for entry in self.adjacent(place, 40)}
            rest = [child for child in children if self.name(child) not in names]
        elif clause.code == 44:
            rest = children[len(self.adjacent(place, 43)):]
        else:
            marked = self.marks_before(j, place, clause, hopeful)
            rest = [child for child in children if child not in marked]
        return [(child, clause.entries[0]) for child in rest]

    def adjacent(self, place, code):
        return [entry for clause in self.rules.clauses[place] if clause.code == code for entry in clause.entries]

    def marks_before(self, j, place, clause, hopeful):
        earlier = [one for one in self.clauses(j, place) if one.code < clause.code]
        return set().union(*[self.clause_marks(j, place, one, hopeful) for one in earlier])

    def clause_marks(self, j, place, clause, hopeful):
        if clause.code == CONDITION:    # that it fails is no failure, so there is nothing to be hoped
            condition, branch = self.applied_here(j, clause)
            return self.marks(j, condition.target, False) | self.marks(j, branch.target, hopeful)
        if clause.code in UNGUARDED:
            return set().union(*[self.marks(j, entry.target, hopeful) for entry in self.applied_here(j, clause)])
        if clause.code == CONTAINS:
            return set(self.contained(j, clause))
        if clause.code >= 40:
            return {child for child, _ in self.taken(j, place, clause, hopeful)}
        return set()

    def applied_here(self, j, clause):
        """The entries that an unguarded clause applies: the condition and one branch, or those whose name is there."""
        if clause.code == CONDITION:
            condition, then, otherwise = clause.entries
            return condition, then if self.held(j, condition.target) else otherwise
        if clause.code == DEPENDENT:
            return [entry for entry in clause.entries if entry.name in self.record.values[j]]
        return clause.entries

    def contained(self, j, clause):
        """The children that fit what contains asks for."""
        return [child for child in self.children(j) if self.held(child, clause.entries[0].target)]

    def marks(self, j, place, hopeful):
        """The children that a schema marks, which the judge tells; hopeful: that it would if no schema had failed."""
        if not hopeful:
            return {child for child in self.children(j) if self.cell(child, place) >= CELL_MARKED}
        key = j, self.rules.row_of[place]
        if key not in self.known_marks:
            self.known_marks[key] = set().union(*[self.clause_marks(j, place, clause, True)
                                                  for clause in self.clauses(j, place)])
        return self.known_marks[key]

    # ---- causes ----

    def causes(self, j, place, path):
        """Why the pair fails, nothing if it holds. Of a pair met before only the first cause: else two references to
        the next schema, all along a chain, would double the list at each."""
        pair = j, self.rules.row_of[place]
        if self.held(j, place):
            return []
        if pair in self.first_cause:
            return [self.first_cause[pair]]
        causes, marks_are_lost = [], False
        for clause in self.clauses(j, place):
            found = self.clause_causes(j, place, path, clause, marks_are_lost)
            marks_are_lost = marks_are_lost or clause.code in UNGUARDED and found != []
            causes += found
            if causes and self.count >= self.most:
                break
        causes = causes or [Cause(self.record.places[j], path, place, None, 'does not hold', self.since, [])]
        self.first_cause[pair] = causes[0]
        return causes

    def clause_causes(self, j, place, path, clause, marks_are_lost):
        if clause.code in NO_CHOICE or clause.code in CHOICES and len(clause.entries) == 1:
            return self.below([(j, entry) for entry in clause.entries], path)
        if clause.code in (CONDITION, DEPENDENT):
            return self.conditional_causes(j, place, path, clause)
        if clause.code in UNGUARDED:
            return self.choice_causes(j, place, path, clause)
        if clause.code == CONTAINS:
            keyword, words = contained_words(len(self.contained(j, clause)), *clause.entries[0].value)
            return [self.cause(j, place, path, clause._replace(keyword=keyword), words)] if words else []
        if clause.code >= 40:
            # What is unevaluated only because an earlier clause of the schema failed is no cause of its own.
            return self.below(self.taken(j, place, clause, hopeful=marks_are_lost), path)
        words = test_words(clause, self.record.values[j])
        return [self.cause(j, place, path, clause, words)] if words else []

    def below(self, applied, path, since=lambda entry: None):
        """The causes of what is applied; since tells for which condition an entry is, if for one of its own."""
        causes, before = [], self.since
        for j, entry in applied:
            self.since = since(entry) or before
            causes += self.causes(j, entry.target, path + entry.path + entry.through)
            if causes and self.count >= self.most:
                break
        self.since = before
        return causes

    def conditional_causes(self, j, place, path, clause):
        """if, and what depends on names: why that fails which is asked for a condition."""
        if clause.code == CONDITION:
            condition, branch = self.applied_here(j, clause)
            verdict = 'holds' if self.held(j, condition.target) else 'fails'
            since = '%s %s' % (fragment(place + condition.path), verdict)
            return self.below([(j, branch)], path, lambda entry: since)
        applied = [(j, entry) for entry in self.applied_here(j, clause)]
        at = self.record.places[j]
        return self.below(applied, path, lambda entry: cut(pointer(at + (entry.name,)), LIST_MAX) + ' is there')

    def choice_causes(self, j, place, path, clause):
        """anyOf, oneOf and not: what failed is the choice; if nothing fits, the alternatives stand under it."""
        holding = [entry for entry in clause.entries if self.held(j, entry.target)]
        if clause.code in CHOICES and not holding:
            under = [Alternative(place + entry.path, self.below([(j, entry)], path)) for entry in clause.entries]
            return [self.cause(j, place, path, clause, 'fits none of %d' % len(under), under)]
        if clause.code == NOT and holding:
            return [self.cause(j, place, path, clause, self.not_words(j, place, holding[0]))]
        if clause.code == ONE_OF and len(holding) > 1:
            fits = all_of([self.alternative(place, entry) for entry in holding], 'alternative')
            return [self.cause(j, place, path, clause, 'fits %s, must fit only one' % fits)]
        return []

    def not_words(self, j, place, entry):
        """What fits and must not; an enum of arrays and objects stands as a not of all else."""
        if entry.shown:
            return must_be_one_of(self.record.values[j], entry.shown)
        fits = tuple(token for token in place if isinstance(token, str)) + entry.path
        schema = json_text(self.rules.references.at(fits))
        return 'fits what it must not: %s' % cut(schema, LIST_MAX)

    def alternative(self, place, entry):
        """An alternative by its number, and by its place if that is elsewhere."""
        elsewhere = entry.target != place + entry.path
        return entry.path[-1] + (' (%s)' % fragment(entry.target) if elsewhere else '')

    def cause(self, j, place, path, clause, words, under=()):
        keyword = () if clause.keyword is None else (clause.keyword,)
        self.count += 1
        return Cause(self.record.places[j], path + keyword, place + keyword, clause.keyword, words, self.since,
                     list(under))
