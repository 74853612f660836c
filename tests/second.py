"""A second judge of record sheets by rule sheets, written from papers 01 and 02 alone.

It is there to be compared with another program, so it is kept as close to the
words of the paper as it can be: the refusal table is a row of tests over whole
sheets, the derivation is a recursion over the rules, the settling order is a
walk over what the derivation applies, and cells and list are read off that.

    python3 second.py          judges the twelve samples of the paper
    python3 second.py FILE     prints what the bench program prints for FILE
"""
import struct
import sys
from collections import namedtuple
from fractions import Fraction

NULL, FALSE, TRUE, NUMBER, STRING, ARRAY, OBJECT = range(7)
WITH_CHILDREN = (ARRAY, OBJECT)
LONGEST_TEXT = 65_535
HIGHEST_LEVEL = 32
LONGEST_CHAIN = 32

# Codes of clauses whose first and count are a list of entries, with the fewest entries each may have,
# and those that have exactly so many.
FEWEST_ENTRIES = {3: 1, 26: 0, 30: 1, 31: 1, 32: 1, 36: 3, 37: 0, 40: 0, 43: 1, 45: 1}
EXACTLY = (36, 45)
NUMBER_CODES = (10, 11, 12, 13, 14)
SIZE_CODES = (20, 21, 22, 23, 24, 25)
UNGUARDED_CODES = (30, 31, 32, 33, 34, 36, 37)
CHILD_CODES = (40, 42, 43, 44, 45, 60, 61)
ONE_SCHEMA_CODES = (33, 34, 42, 44, 60, 61)
SCHEMA_LIST_CODES = (30, 31, 32, 36, 43)
NAME_LIST_CODES = (26, 37, 40)

# The kind of row a clause is about; codes not named here concern every type.
CONCERNS = {code: kind for kind, codes in (
    (NUMBER, (10, 11, 12, 13, 14)), (STRING, (20, 21)),
    (ARRAY, (22, 23, 43, 44, 45, 61)), (OBJECT, (24, 25, 26, 37, 40, 42, 60))) for code in codes}

Row = namedtuple('Row', 'kind first count owner label_start label_length')
Schema = namedtuple('Schema', 'first count')
Clause = namedtuple('Clause', 'code first count')
Rules = namedtuple('Rules', 'schemas clauses entries text')
Answer = namedtuple('Answer', 'verdict count number place marked')
Judgement = namedtuple('Judgement', 'answer cells list')
Outcome = namedtuple('Outcome', 'held marks applied')


# ---- what both sheets share ----

def signed(word):
    """A word read as two's complement."""
    return word - 2 ** 32 if word >= 2 ** 31 else word


def decimal(first, count):
    """The number first / 10^count, exactly."""
    return Fraction(signed(first), 10 ** count)


def number_fits(first, count):
    return -999_999_999 <= signed(first) <= 999_999_999 and count <= 9


def range_fits(start, length, text):
    return start + length <= len(text)


def is_utf8(part):
    """Python's strict decoder is that of RFC 3629."""
    try:
        bytes(part).decode('utf-8')
    except UnicodeDecodeError:
        return False
    return True


def leaf_fits(kind, first, count, text):
    """Whether kind, first, count are those of a row of kinds 0 to 4."""
    if kind in (NULL, FALSE, TRUE):
        return first == 0 and count == 0
    if kind == NUMBER:
        return number_fits(first, count)
    return kind == STRING and range_fits(first, count, text)


def groups(words, start, how_many, size):
    """how_many rows of size words each, from start."""
    return [tuple(words[start + size * i:start + size * (i + 1)]) for i in range(how_many)]


def lowest(numbers, at_fault):
    """The lowest of the rising numbers that is at fault, or None."""
    return next((i for i in numbers if at_fault(i)), None)


# ---- record sheet: refusals 1 to 4, and 13 ----

def record_trailer_is_bad(words, text):
    if len(words) < 4:
        return True
    n, back, text_length, kind = words[-4:]
    return (kind != 1 or not 1 <= n <= 1024 or back != 6 * n or back + 4 > len(words)
            or text_length != len(text) or text_length > LONGEST_TEXT)


def read_rows(words):
    """The rows of a record sheet whose trailer is good."""
    n, back = words[-4], words[-3]
    return [Row(*row) for row in groups(words, len(words) - 4 - back, n, 6)]


def lies_in_range(rows, k, owner):
    """Whether row k lies in the range of the owner: a row of kind 5 or 6."""
    if owner >= len(rows) or rows[owner].kind not in WITH_CHILDREN:
        return False
    return rows[owner].first <= k < rows[owner].first + rows[owner].count


def children(rows, j):
    return range(rows[j].first, rows[j].first + rows[j].count)


def child_range_is_bad(rows, j):
    """A child range that starts at or before the row, ends past n, or holds a row of another owner."""
    first, count = rows[j].first, rows[j].count
    if count == 0:
        return first != 0
    if first <= j or first + count > len(rows):
        return True
    return any(rows[k].owner != j for k in children(rows, j))


def owner_or_label_is_bad(rows, text, j):
    row = rows[j]
    label = (row.label_start, row.label_length)
    if j == 0:
        return row.owner != 0 or label != (0, 0)
    if not lies_in_range(rows, j, row.owner):
        return True
    if rows[row.owner].kind == OBJECT:
        return not range_fits(*label, text)
    return label != (0, 0)


def row_breaks_layout(rows, text, j):
    row = rows[j]
    if row.kind in WITH_CHILDREN:
        fields_are_bad = child_range_is_bad(rows, j)
    else:
        fields_are_bad = not leaf_fits(row.kind, row.first, row.count, text)
    return fields_are_bad or owner_or_label_is_bad(rows, text, j)


def name_of(rows, text, j):
    return text[rows[j].label_start:rows[j].label_start + rows[j].label_length]


def earlier_sibling_has_name(rows, text, j):
    owner = rows[j].owner
    if j == 0 or rows[owner].kind != OBJECT:
        return False
    return any(name_of(rows, text, i) == name_of(rows, text, j) for i in range(rows[owner].first, j))


def string_of(rows, text, j):
    return text[rows[j].first:rows[j].first + rows[j].count] if rows[j].kind == STRING else b''


def text_is_not_utf8(rows, text, j):
    return not (is_utf8(name_of(rows, text, j)) and is_utf8(string_of(rows, text, j)))


def level(rows, j):
    """The root is at level 1. Asked only of sheets in which owners stand before their children."""
    steps = 1
    while j != 0:
        j, steps = rows[j].owner, steps + 1
    return steps


def check_record(words, text):
    """('accepted', n), or ('refused', one of 1, 2, 3, 13 and 4, place)."""
    if record_trailer_is_bad(words, text):
        return ('refused', 1, 0)
    rows = read_rows(words)
    tests = ((2, lambda j: row_breaks_layout(rows, text, j)),
             (3, lambda j: earlier_sibling_has_name(rows, text, j)),
             (13, lambda j: text_is_not_utf8(rows, text, j)),
             (4, lambda j: level(rows, j) > HIGHEST_LEVEL))
    for number, at_fault in tests:
        place = lowest(range(len(rows)), at_fault)
        if place is not None:
            return ('refused', number, place)
    return ('accepted', len(rows))


# ---- rule sheet: refusals 5 to 9, and 13 ----

def rule_trailer_is_bad(words, text):
    if len(words) < 6:
        return True
    m, c, e, back, text_length, kind = words[-6:]
    return (kind != 2 or not 1 <= m <= 1024 or c > 4096 or e > 4096
            or back != 2 * m + 3 * c + 3 * e or back + 6 > len(words)
            or text_length != len(text) or text_length > LONGEST_TEXT)


def read_rules(words, text):
    """Schemas, clauses and entries of a rule sheet whose trailer is good."""
    m, c, e, back = words[-6:-2]
    start = len(words) - 6 - back
    return Rules([Schema(*schema) for schema in groups(words, start, m, 2)],
                 [Clause(*clause) for clause in groups(words, start + 2 * m, c, 3)],
                 groups(words, start + 2 * m + 3 * c, e, 3), text)


def clauses_of(rules, s):
    schema = rules.schemas[s]
    return rules.clauses[schema.first:schema.first + schema.count]


def entries_of(rules, clause):
    return rules.entries[clause.first:clause.first + clause.count]


def entry_name(rules, entry):
    return rules.text[entry[0]:entry[0] + entry[1]]


def does_not_follow(one, before, end):
    """Not starting where the one before says it ends (the first at 0), or ending past the end."""
    start = 0 if before is None else before.first + before.count
    return one.first != start or one.first + one.count > end


def lists(rules):
    """The numbers of the list clauses, in order."""
    return [i for i, clause in enumerate(rules.clauses) if clause.code in FEWEST_ENTRIES]


def lowest_schema_fault(rules):
    for s, schema in enumerate(rules.schemas):
        before = rules.schemas[s - 1] if s > 0 else None
        if does_not_follow(schema, before, len(rules.clauses)):
            return s
    return None


def clause_fields_are_bad(rules, clause):
    """The fields of a clause that is no list clause; an unknown code is a fault as well."""
    code, first, count = clause
    if code == 1:
        return first != 0 or count != 0
    if code == 2:
        return not 1 <= first <= 127 or count != 0
    if code in NUMBER_CODES:
        return not number_fits(first, count) or (code == 14 and signed(first) <= 0)
    if code in SIZE_CODES:
        return count != 0
    if code in ONE_SCHEMA_CODES:
        return first >= len(rules.schemas) or count != 0
    return True


def lowest_clause_fault(rules):
    """Asked once the schemas are in order: they take the clauses up to where the last one ends."""
    taken = rules.schemas[-1].first + rules.schemas[-1].count
    starts = {schema.first for schema in rules.schemas if schema.count > 0}
    list_before = None
    for i, clause in enumerate(rules.clauses):
        if i >= taken:
            return i
        if i not in starts and rules.clauses[i - 1].code >= clause.code:
            return i
        if clause.code in FEWEST_ENTRIES:
            if (does_not_follow(clause, list_before, len(rules.entries))
                    or clause.count < FEWEST_ENTRIES[clause.code]
                    or clause.code in EXACTLY and clause.count != FEWEST_ENTRIES[clause.code]):
                return i
            list_before = clause
        elif clause_fields_are_bad(rules, clause):
            return i
    return None


def entry_is_bad(rules, code, entry):
    m = len(rules.schemas)
    if code == 3:
        return not leaf_fits(*entry, rules.text)
    if code in SCHEMA_LIST_CODES:
        return entry[0] >= m or entry[1:] != (0, 0)
    if code == 45:                          # least and most may be any word
        return entry[0] >= m
    if not range_fits(entry[0], entry[1], rules.text):
        return True
    return entry[2] != 0 if code == 26 else entry[2] >= m


def lowest_entry_fault(rules):
    """Asked once the clauses are in order: the lists take the entries up to where the last one ends."""
    taken = 0
    for i in lists(rules):
        clause = rules.clauses[i]
        for place, entry in enumerate(entries_of(rules, clause), clause.first):
            if entry_is_bad(rules, clause.code, entry):
                return place
        taken = clause.first + clause.count
    return taken if taken < len(rules.entries) else None


def lowest_layout_fault(rules):
    """Refusal 6. Places count schemas, then clauses, then entries."""
    parts = ((0, lowest_schema_fault),
             (len(rules.schemas), lowest_clause_fault),
             (len(rules.schemas) + len(rules.clauses), lowest_entry_fault))
    for before, fault in parts:
        place = fault(rules)
        if place is not None:
            return before + place
    return None


def lowest_repeated_name(rules):
    """Refusal 7: the lowest entry of a 26, 37 or 40 that an earlier one of the same clause equals."""
    for i in lists(rules):
        clause = rules.clauses[i]
        if clause.code not in NAME_LIST_CODES:
            continue
        seen = set()
        for place, entry in enumerate(entries_of(rules, clause), clause.first):
            if entry_name(rules, entry) in seen:
                return len(rules.schemas) + len(rules.clauses) + place
            seen.add(entry_name(rules, entry))
    return None


def entry_text(rules, code, entry):
    """The bytes that an entry names in the rule text, if it names any."""
    if code in NAME_LIST_CODES:
        return entry_name(rules, entry)
    return rules.text[entry[1]:entry[1] + entry[2]] if code == 3 and entry[0] == STRING else b''


def lowest_text_not_utf8(rules):
    """Refusal 13: the lowest entry whose name, or whose string in an enum, is not UTF-8."""
    for i in lists(rules):
        clause = rules.clauses[i]
        for place, entry in enumerate(entries_of(rules, clause), clause.first):
            if not is_utf8(entry_text(rules, clause.code, entry)):
                return len(rules.schemas) + len(rules.clauses) + place
    return None


def unguarded_steps(rules, s):
    """The schemas that schema s reaches by one unguarded step."""
    reached = set()
    for clause in clauses_of(rules, s):
        if clause.code in (33, 34):
            reached.add(clause.first)
        elif clause.code == 37:
            reached.update(entry[2] for entry in entries_of(rules, clause))
        elif clause.code in UNGUARDED_CODES:
            reached.update(entry[0] for entry in entries_of(rules, clause))
    return reached


def reached_unguarded(steps, s):
    """The schemas that schema s reaches by one or more unguarded steps."""
    reached, to_visit = set(), list(steps[s])
    while to_visit:
        t = to_visit.pop()
        if t not in reached:
            reached.add(t)
            to_visit.extend(steps[t])
    return reached


def starting_chain(steps, length):
    """The schemas that start an unguarded chain of that many schemas."""
    starting = set(range(len(steps)))
    for _ in range(length - 1):
        starting = {s for s in starting if any(t in starting for t in steps[s])}
    return starting


def check_rules(words, text):
    """('accepted', m), or ('refused', one of 5, 6, 7, 13, 8 and 9, place)."""
    if rule_trailer_is_bad(words, text):
        return ('refused', 5, 0)
    rules = read_rules(words, text)
    for number, fault in ((6, lowest_layout_fault), (7, lowest_repeated_name), (13, lowest_text_not_utf8)):
        place = fault(rules)
        if place is not None:
            return ('refused', number, place)
    schemas = range(len(rules.schemas))
    steps = [unguarded_steps(rules, s) for s in schemas]
    place = lowest(schemas, lambda s: s in reached_unguarded(steps, s))
    if place is not None:
        return ('refused', 8, place)
    too_long = starting_chain(steps, LONGEST_CHAIN + 1)
    if too_long:
        return ('refused', 9, min(too_long))
    return ('accepted', len(rules.schemas))


# ---- rules of judgement ----

COMPARE = {10: lambda value, bound: value >= bound,
           11: lambda value, bound: value <= bound,
           12: lambda value, bound: value > bound,
           13: lambda value, bound: value < bound,
           14: lambda value, bound: (value / bound).denominator == 1}


def type_sum(row):
    """The types a row is of, as a sum of the numbers code 2 gives them."""
    if row.kind == NUMBER:
        return 4 + 8 if decimal(row.first, row.count).denominator == 1 else 8
    return {NULL: 1, FALSE: 2, TRUE: 2, STRING: 16, ARRAY: 32, OBJECT: 64}[row.kind]


class Derivation:
    """Verdict and marks of pairs (record row, schema), and the pairs each applies.

    The memory of outcomes is a speed-up alone: with remember=False every pair
    is derived afresh from the rules, with the same outcome. With cut=True (02, #105)
    no clause is judged after the first that fails, and no entry of allOf.
    """

    def __init__(self, rows, record_text, rules, remember=True, cut=False):
        self.rows, self.record_text, self.rules = rows, record_text, rules
        self.remember, self.outcomes, self.cut = remember, {}, cut

    def outcome(self, j, s):
        if not self.remember:
            return self.derive(j, s)
        if (j, s) not in self.outcomes:
            self.outcomes[j, s] = self.derive(j, s)
        return self.outcomes[j, s]

    def holds(self, pair):
        return self.outcome(*pair).held

    def marks(self, pair):
        return self.outcome(*pair).marks

    def derive(self, j, s):
        """Each clause in rising code, also after a failure unless cut; a schema that fails has no marks."""
        held, marks, applied = True, frozenset(), []
        for clause in clauses_of(self.rules, s):
            if self.cut and not held:
                break
            kind = self.rows[j].kind
            if CONCERNS.get(clause.code, kind) != kind:
                continue                    # about another type: holds, marks and applies nothing
            pairs = self.pairs_applied(j, s, clause, marks)
            if self.cut and clause.code == 30:
                failing = [i for i, pair in enumerate(pairs) if not self.holds(pair)]
                pairs = pairs[:failing[0] + 1] if failing else pairs
            held = self.clause_holds(j, clause, pairs) and held
            marks = marks | self.clause_marks(clause, pairs)
            applied = applied + pairs
        return Outcome(held, marks if held else frozenset(), applied)

    # -- which pairs a clause applies, in which order --

    def pairs_applied(self, j, s, clause, marked):
        """The pairs a clause applies, in order; marked by earlier clauses of the same schema."""
        if clause.code in (30, 31, 32):
            return [(j, entry[0]) for entry in entries_of(self.rules, clause)]
        if clause.code in (33, 34):
            return [(j, clause.first)]
        if clause.code == 36:               # the condition, then the branch that it chooses
            condition, then, otherwise = [(j, entry[0]) for entry in entries_of(self.rules, clause)]
            return [condition, then if self.holds(condition) else otherwise]
        if clause.code == 37:
            names = [self.name(child) for child in children(self.rows, j)]
            return [(j, entry[2]) for entry in entries_of(self.rules, clause) if entry_name(self.rules, entry) in names]
        if clause.code == 45:
            (schema, _, _), = entries_of(self.rules, clause)
            return [(child, schema) for child in children(self.rows, j)]
        if clause.code == 40:
            return [(child, entry[2]) for entry in entries_of(self.rules, clause)
                    for child in children(self.rows, j)
                    if self.name(child) == entry_name(self.rules, entry)]
        if clause.code == 43:
            return [(child, entry[0]) for child, entry
                    in zip(children(self.rows, j), entries_of(self.rules, clause))]
        if clause.code in CHILD_CODES:
            return [(child, clause.first) for child in self.rest(j, s, clause.code, marked)]
        return []

    def rest(self, j, s, code, marked):
        """The children that 42, 44, 60 and 61 take, in row order."""
        if code == 42:
            named = [entry_name(self.rules, entry) for entry in self.adjacent_entries(s, 40)]
            return [child for child in children(self.rows, j) if self.name(child) not in named]
        if code == 44:
            return list(children(self.rows, j))[len(self.adjacent_entries(s, 43)):]
        return [child for child in children(self.rows, j) if child not in marked]

    def adjacent_entries(self, s, code):
        """The entries of the clause of that code in schema s; none if there is no such clause."""
        return [entry for clause in clauses_of(self.rules, s) if clause.code == code
                for entry in entries_of(self.rules, clause)]

    def name(self, j):
        return name_of(self.rows, self.record_text, j)

    # -- verdict and marks of a clause --

    def clause_marks(self, clause, pairs):
        """30 to 37 pass on marks, 40 to 61 mark the children they apply to (45 those that hold), others mark nothing."""
        if clause.code in UNGUARDED_CODES:
            return frozenset().union(*[self.marks(pair) for pair in pairs])
        if clause.code == 45:
            return frozenset(pair[0] for pair in pairs if self.holds(pair))
        if clause.code in CHILD_CODES:
            return frozenset(child for child, _ in pairs)
        return frozenset()

    def clause_holds(self, j, clause, pairs):
        code = clause.code
        if code not in UNGUARDED_CODES + CHILD_CODES:
            return self.assertion_holds(self.rows[j], j, clause)
        holding = len([pair for pair in pairs if self.holds(pair)])     # counted by place
        if code == 31:
            return holding >= 1
        if code == 32:
            return holding == 1
        if code == 33:
            return holding == 0
        if code == 36:                      # the condition only chooses
            return self.holds(pairs[1])
        if code == 45:
            (_, least, most), = entries_of(self.rules, clause)
            return least <= holding <= most
        return holding == len(pairs)

    def assertion_holds(self, row, j, clause):
        """Clauses that apply no pair, on a row of the type they are about."""
        code, first, count = clause
        if code == 1:
            return False
        if code == 2:
            return first & type_sum(row) != 0
        if code == 3:
            return any(self.equals(row, entry) for entry in entries_of(self.rules, clause))
        if code in NUMBER_CODES:
            return COMPARE[code](decimal(row.first, row.count), decimal(first, count))
        if code in SIZE_CODES:              # characters of the string, items, properties
            size = len(bytes(string_of(self.rows, self.record_text, j)).decode('utf-8')) if code < 22 else row.count
            return size >= first if code % 2 == 0 else size <= first
        names = [self.name(child) for child in children(self.rows, j)]
        return all(entry_name(self.rules, entry) in names for entry in entries_of(self.rules, clause))

    def equals(self, row, entry):
        """Enum: within one kind; numbers by value, strings by bytes."""
        if row.kind != entry[0]:
            return False
        if row.kind == NUMBER:
            return decimal(row.first, row.count) == decimal(entry[1], entry[2])
        if row.kind == STRING:
            own = self.record_text[row.first:row.first + row.count]
            return own == self.rules.text[entry[1]:entry[1] + entry[2]]
        return True


# ---- settling order, cells and list ----

def settling_order(derivation):
    """The pairs in the order they are settled, from the root pair; no pair settles twice."""
    order, settled = [], set()

    def settle(pair):
        if pair in settled:
            return
        for applied in derivation.outcome(*pair).applied:
            settle(applied)
        settled.add(pair)
        order.append(pair)

    settle((0, 0))
    return order


def cell(derivation, settled, j, s):
    """What is left in cell j × m + s."""
    value = 0
    if (j, s) in settled:
        value = 1 if derivation.holds((j, s)) else 2
    above = (derivation.rows[j].owner, s)
    if j > 0 and above in settled and j in derivation.marks(above):
        value += 4
    return value


def refused(number, place):
    return Answer('refused', None, number, place, None)


def refusal(record, record_text, rules, rule_text, cells, list_):
    """The first refusal that applies, or None."""
    record_check = check_record(record, record_text)
    if record_check[0] == 'refused':
        return refused(*record_check[1:])
    rule_check = check_rules(rules, rule_text)
    if rule_check[0] == 'refused':
        return refused(*rule_check[1:])
    needed = record_check[1] * rule_check[1]
    if len(cells) < needed:
        return refused(10, needed)
    if len(list_) < needed:
        return refused(11, needed)
    return None


def judge(record, record_text, rules, rule_text, cells, list_):
    """The answer, the cells after and the list after; the lent ones are not changed themselves."""
    cells, list_ = list(cells), list(list_)
    answer = refusal(record, record_text, rules, rule_text, cells, list_)
    if answer is not None:
        return Judgement(answer, cells, list_)
    rows, sheet = read_rows(record), read_rules(rules, rule_text)
    n, m = len(rows), len(sheet.schemas)
    derivation = Derivation(rows, record_text, sheet)
    order = settling_order(derivation)
    settled = set(order)
    cells[:n * m] = [cell(derivation, settled, j, s) for j in range(n) for s in range(m)]
    list_[:len(order)] = [j * m + s for j, s in order]
    root = derivation.outcome(0, 0)
    answer = Answer('valid' if root.held else 'invalid', len(order), None, None, len(root.marks))
    return Judgement(answer, cells, list_)


# ---- only the verdict (02, #105) ----

def verdict(record, record_text, rules, rule_text, cells):
    """The answer and the cells after, where judging is cut; the count is that of the cells that show a verdict."""
    cells = list(cells)
    endless = range(2 ** 32)                # a list is not asked for: 11 never applies
    answer = refusal(record, record_text, rules, rule_text, cells, endless)
    if answer is not None:
        return Judgement(answer, cells, [])
    rows, sheet = read_rows(record), read_rules(rules, rule_text)
    n, m = len(rows), len(sheet.schemas)
    derivation = Derivation(rows, record_text, sheet, cut=True)
    settled = set(settling_order(derivation))
    cells[:n * m] = [cell(derivation, settled, j, s) for j in range(n) for s in range(m)]
    root = derivation.outcome(0, 0)
    count = len([value for value in cells[:n * m] if value % 4])
    return Judgement(Answer('valid' if root.held else 'invalid', count, None, None, len(root.marks)), cells, [])


# ---- one check for both kinds of sheet (02, #103) ----

CHECKS = {1: check_record, 2: check_rules}      # by the last word


def check(words, text):
    """'in order' with the number of rows or schemas, or the refusal."""
    if not words or words[-1] not in CHECKS:
        return refused(12, 0)
    found, *numbers = CHECKS[words[-1]](words, text)
    return refused(*numbers) if found == 'refused' else Answer('in order', *numbers, None, None, None)


def number_for_c(answer):
    """The one 64-bit number the host program in C gets."""
    if answer.verdict == 'refused':
        return 10 + answer.number + 256 * answer.place
    return {'valid': 0, 'in order': 0, 'invalid': 1}[answer.verdict] + 256 * answer.count


# ---- a whole queue (02, #107) ----

QUEUE_MOST = 512


def queue_refusal(words, text, listing, answers):
    """The first refusal of the call itself, or None."""
    given, rest = divmod(len(listing), 4)
    if rest or given > QUEUE_MOST:
        return refused(30, 0)
    for k in range(given):
        start, length, text_start, text_length = listing[4 * k:4 * k + 4]
        if start + length > len(words) or text_start + text_length > len(text):
            return refused(31, k)
    return refused(32, given) if len(answers) < given else None


def judge_queue(words, text, listing, rules, rule_text, cells, list_, answers):
    """The call's answer, and the cells, the list and the answers after it; the lent ones are not changed themselves."""
    cells, list_, answers = list(cells), list(list_), list(answers)
    answer = queue_refusal(words, text, listing, answers)
    if answer is not None:
        return answer, cells, list_, answers
    for k in range(len(listing) // 4):
        start, length, text_start, text_length = listing[4 * k:4 * k + 4]
        one, cells, list_ = judge(words[start:start + length], text[text_start:text_start + text_length],
                                  rules, rule_text, cells, list_)
        answers[k] = number_for_c(one)
    return Answer('in order', len(listing) // 4, None, None, None), cells, list_, answers


# ---- bench program ----

def to_bytes(words):
    return struct.pack('<%dI' % len(words), *words)


def to_words(part):
    return list(struct.unpack('<%dI' % (len(part) // 4), part))


def bundle(record_words, record_text, rule_words, rule_text):
    parts = [to_bytes(record_words), bytes(record_text), to_bytes(rule_words), bytes(rule_text)]
    return b''.join(parts) + to_bytes([len(part) for part in parts])


def unbundle(bundle_bytes):
    """Record words, record text, rule words, rule text; None for a bad bundle."""
    if not 16 <= len(bundle_bytes) <= 65_536:
        return None
    lengths = to_words(bundle_bytes[-16:])
    if sum(lengths) + 16 != len(bundle_bytes) or lengths[0] % 4 or lengths[2] % 4:
        return None
    parts, start = [], 0
    for length in lengths:
        parts.append(bundle_bytes[start:start + length])
        start += length
    return to_words(parts[0]), parts[1], to_words(parts[2]), parts[3]


def bench(bundle_bytes):
    """Exactly what the bench program prints for this standard input."""
    parts = unbundle(bundle_bytes)
    if parts is None:
        return b'bad bundle\n'
    record_check, rule_check = check_record(*parts[:2]), check_rules(*parts[2:])
    for found in (record_check, rule_check):
        if found[0] == 'refused':
            return b'refused %d %d\n' % found[1:]
    n, m = record_check[1], rule_check[1]
    if n > 128 or m > 128:
        return b'too large\n'
    answer, cells, list_ = judge(*parts, [0] * (n * m), [0] * (n * m))
    lines = [answer.verdict, 'pairs %d marked %d' % (answer.count, answer.marked)]
    for pair in list_[:answer.count]:
        lines.append('%d %d %s' % (pair // m, pair % m, 'held' if cells[pair] % 4 == 1 else 'failed'))
    return ''.join(line + '\n' for line in lines).encode()


# ---- the twelve samples ----

def record_of(rows, text):
    return [word for row in rows for word in row] + [len(rows), 6 * len(rows), len(text), 1]


def rules_of(schemas, clauses, entries, text):
    words = [word for part in (schemas, clauses, entries) for row in part for word in row]
    return words + [len(schemas), len(clauses), len(entries), len(words), len(text), 2]


def sample_table():
    """Number, rules with text, record with text, and what the paper says of them."""
    a = ([0, 2, 2, 1, 3, 1, 40, 0, 1, 60, 2, 0, 2, 4, 0, 1, 0, 0, 0, 1, 1, 3, 4, 1, 21, 1, 2], b'p')
    integer = (rules_of([(0, 1)], [(2, 4, 0)], [], b''), b'')
    seven = (record_of([(3, 7, 0, 0, 0, 0)], b''), b'')
    multiple_of_4 = (rules_of([(0, 1)], [(14, 4, 0)], [], b''), b'')
    one_of = (rules_of([(0, 1), (1, 0)], [(32, 0, 2)], [(1, 0, 0), (1, 0, 0)], b''), b'')
    ref_0 = (rules_of([(0, 1)], [(34, 0, 0)], [], b''), b'')
    ref_1 = (rules_of([(0, 0), (0, 1)], [(34, 1, 0)], [], b''), b'')
    nested = [(6, 1, 1, 0, 0, 0), (6, 2, 1, 0, 0, 1), (6, 0, 0, 1, 0, 1)]
    p_is_0 = (rules_of([(0, 1)], [(40, 0, 1)], [(0, 1, 0)], b'p'), b'p')
    branches = (rules_of([(0, 2), (2, 2), (4, 0), (4, 1)],
                         [(31, 0, 2), (60, 3, 0), (26, 2, 1), (40, 3, 1), (1, 0, 0)],
                         [(1, 0, 0), (2, 0, 0), (0, 1, 0), (1, 1, 2)], b'rq'), b'rq')
    q_is_1 = [(6, 1, 1, 0, 0, 0), (3, 1, 0, 0, 0, 1)]
    p_and_q = [(6, 1, 2, 0, 0, 0), (3, 7, 0, 0, 0, 1), (3, 8, 0, 0, 1, 1)]
    return [
        (1, a, ([6, 1, 1, 0, 0, 0, 3, 7, 0, 0, 0, 1, 2, 12, 1, 1], b'p'),
         dict(verdict='valid', list=[4, 0], marked=1, cells=[1, 0, 0, 4, 1, 0])),
        (2, a, (record_of(p_and_q, b'pq'), b'pq'), dict(verdict='invalid', list=[4, 8, 0], marked=0)),
        (3, a, (record_of([(6, 0, 0, 0, 0, 0)], b''), b''), dict(verdict='valid', list=[0], cells=[1, 0, 0])),
        (4, a, seven, dict(verdict='valid', count=1)),
        (5, integer, (record_of([(3, 10, 1, 0, 0, 0)], b''), b''), dict(verdict='valid')),
        (6, integer, (record_of([(3, 15, 1, 0, 0, 0)], b''), b''), dict(verdict='invalid')),
        (7, multiple_of_4, (record_of([(3, 2 ** 32 - 6, 0, 0, 0, 0)], b''), b''), dict(verdict='invalid')),
        (8, one_of, seven, dict(verdict='invalid', list=[1, 0])),
        (9, ref_0, seven, dict(verdict='refused', number=8, place=0)),
        (10, ref_1, seven, dict(verdict='refused', number=8, place=1)),
        (11, p_is_0, (record_of(nested, b'p'), b'p'), dict(verdict='valid', list=[2, 1, 0], cells=[1, 5, 5])),
        (12, branches, (record_of(q_is_1, b'q'), b'q'), dict(verdict='invalid', list=[6, 1, 2, 7, 0])),
    ]


def sample_found(rules, record):
    """Everything the paper may say of a sample, as this program finds it; areas lent full of 9."""
    area = [9] * 16
    answer, cells, list_ = judge(*record, *rules, area, area)
    found = answer._asdict()
    if answer.verdict == 'refused':
        return found | dict(cells=cells, list=list_)
    used = check_record(*record)[1] * check_rules(*rules)[1]
    return found | dict(cells=cells[:used], list=list_[:answer.count])


def differences():
    """Lines that say where the samples of the paper differ from what is found here."""
    differ = []
    for number, rules, record, said in sample_table():
        found = sample_found(rules, record)
        differ += ['sample %d: %s is %s, not %s' % (number, what, found[what], wanted)
                   for what, wanted in said.items() if found[what] != wanted]
        if number == 2:
            printed = bench(bundle(*record, *rules))
            if printed != b'invalid\npairs 3 marked 0\n1 1 held\n2 2 failed\n0 0 failed\n':
                differ.append('sample 2: bench prints %r' % printed)
    return differ


def main(arguments):
    if arguments:
        with open(arguments[0], 'rb') as file:
            sys.stdout.buffer.write(bench(file.read(65_537)))
        return 0
    differ = differences()
    print('\n'.join(differ) if differ else '%d samples agree' % len(sample_table()))
    return 1 if differ else 0


# Up to 32 levels times 32 schemas of a chain, some calls each.
sys.setrecursionlimit(max(sys.getrecursionlimit(), 20_000))

if __name__ == '__main__':
    sys.exit(main(sys.argv[1:]))
