"""Brings the repository's own names to today's spelling, once: `python3 tools/respell_names.py` at its top.

CONTRACT_STYLE.md, "Names": types, modules and facts are in camel case, everything else is in snake case: `scale-max` is
`scale_max`, `isMultiple` is `is_multiple`, a prime is an apostrophe. In a name with a capital, as `IsPrefix-mem`, the
capital parts stay with their dash. What is renamed: definitions, lemmas, constructors, fields and bound variables in
specs/ and proofs/, the clauses and `ghost use` lines of src/, the `old:` and `new:` lines of must-fail/, names in
backticks in comments and docs, and the lists of names at the top of a file. What is not: names of the kit's libraries,
names that Rattle makes, and the answers to its goals in Proof.antt and Proof/. Besides, crate json becomes jsontext, and
each root file gets `#![tactic(auto)]`.

Where two names of one scope would fall together the script stops before it writes; CLASHES has another name for one of
them. At the end it checks that each imported name is declared where it comes from and that the edits still fit.
"""
import collections
import glob
import os
import re
import sys

# (crate or '*', old name) -> new name, where the rule's name is taken. The crate is the one that declares the name.
CLASHES = {
    # A lemma that would have the name of its function.
    **{(scope, old): respelled_lemma for scope, old, respelled_lemma in (
        (scope, old, re.sub('([a-z])([A-Z])', r'\1_\2', old).lower().replace('-', '_') + '_lem') for scope, olds in {
            'breadth': 'number_ok owner-by',
            'crates/breadth/proofs/Passing.antt': 'in-range',
            'crates/breadth/proofs/Shape.antt': 'owner_of',
            'crates/sheet/proofs/Siblings.antt': 'in-range',
            'json': 'decoded-after empty-array empty-object is-high is-low worth-after',
            'crates/json/proofs/SameNumbers.antt': 'blank_of',
            'crates/json/proofs/SameStrings.antt': 'short-of',
            'lent': 'goes_on way-lent',
            'listing': 'bad-listing',
            'meaning': 'clauses-applies each-applies keyword-applies same-pair',
            'naming': 'first-fault left-at low-ahead',
            'placing': 'row-shut',
            'plan': 'after-miss marks-by',
            'reader': 'text-made',
            'rulesheet': 'is-list list_over',
            'ruletexts': 'entry-ok',
            'run': 'list_left',
            'strings': 'short-at',
            'survey': 'digit_or hex-done with-figure',
            'tally': 'bytes-more decoded-after name-more unit_size value-more',
            'crates/tally/proofs/Adding.antt': 'add_at',
            'told': 'named_here',
            'trail': 'digit_or hex-done hex-more',
            'unguarded': 'on-loop',
        }.items() for old in olds.split())},
    # A field that would have the name of the function that it is about.
    ('breadth', 'rows-word'): 'rows_word_is',
    ('breadth', 'back-word'): 'back_word_is',
    ('breadth', 'text-word'): 'text_word_is',
    ('breadth', 'kind-word'): 'kind_word_is',
    ('sheet', 'fields-ok'): 'fields_fine',
    ('sheet', 'owns-ok'): 'owns_fine',
    ('sheet', 'place_ok'): 'place_fine',
    ('clause', 'clause-in'): 'clause_inside',
    ('lent', 'clause-in'): 'clause_inside',
    ('line', 'clause-in'): 'clause_inside',
    ('steps', 'clause-in'): 'clause_inside',
    # first_of is a tactic.
    ('*', 'first_of'): 'first_one_of',
    ('json', 'first-of'): 'first_digit_of',
    ('crates/refusing/proofs/Firsts.antt', 'first-of'): 'first_one_of_lem',
    ('crates/utf8range/proofs/Cuts.antt', 'first-of'): 'first_byte_of',
    # Others.
    ('breadth', 'rowWords'): 'words_of_row',                    # sheet's row_words is the number of a row's words
    ('bundle', 'tooLarge'): 'is_too_large',                     # too_large is a constructor
    ('meaning', 'in_place'): 'placed_in',                       # rulesheet's inPlace is a constructor too
    ('crates/breadth/proofs/Runs.antt', 'open_row'): 'opened_row',
    ('crates/placing/proofs/Steps.antt', 'open_row'): 'opened_row',
    ('crates/progress/proofs/Pairs.antt', 'clause-at'): 'clause_judgement',
    ('crates/survey/proofs/Strung.antt', 'low-next'): 'next_is_low',
}

MOVED = {'json': 'jsontext'}                                    # crates
CRATES = sorted(os.listdir('crates'))
LIBRARIES = {'mathlib', 'Prim', 'native', 'borrow', 'lib', 'std', 'core', 'kit'}
RESERVED = set('''data record deriving module where use mod pub package open as unfoldable abbrev axiom unfold unfolding
ruleset mutual infix infixl infixr elim let in do Type coe fcoe tcoe hcom com search grind simp omega rw cc hlevel
assumption ground first_of result tt absurd'''.split())
TOKEN = re.compile(r'(?P<comment>--[^\n]*)|(?P<string>"(?:\\.|[^"\\\n])*")|(?P<quoted>«[^»\n]*»)|(?P<space>\s+)'
                   r'|(?P<word>[^\s(){}.,;"\\\[\]«»]+)|(?P<mark>.)', re.S)
NAME = re.compile(r"[^\W\d_][\w\-'?′]*$")
USE = re.compile(r'^(\s*(?:ghost\s+|pub\s+)*use\s+)([^\s{;]+?)(?:(\.\{)([^}]*)(\}))?(\s+as\s+([^\s;]+))?(;?)\s*$')


def respelled(name):
    """The name by the rule alone."""
    if not NAME.match(name):
        return name
    name = name.replace('′', "'")
    parts = name.split('-')
    if name[0].isupper():
        capital = []
        while parts and parts[0][:1].isupper():
            capital.append(parts.pop(0))
        return '-'.join(capital + (['_'.join(map(lowered, parts))] if parts else []))
    return '_'.join(map(lowered, parts))


def lowered(part):
    return re.sub(r'(?<=[a-z0-9])(?=[A-Z])', '_', part).lower() if re.search('[a-z0-9][A-Z]', part) or part[:1].isupper() else part


def is_answer(path):
    """Proof.antt or a file of Proof/."""
    return os.path.basename(path) == 'Proof.antt' or os.path.basename(os.path.dirname(path)) == 'Proof'


def crate_of(path):
    return path.split('/')[1]


def module_of(path):
    """crates/x/specs/A.antt is Rattle.x.specs.A."""
    return 'Rattle.' + path[len('crates/'):-len('.antt')].replace('/', '.')


def source_module(path, modules):
    """The longest beginning of a path that is a file of ours, or None where Rattle makes the module."""
    parts = path.split('.')
    for n in range(len(parts), 1, -1):
        if '.'.join(parts[:n]) in modules:
            return '.'.join(parts[:n])
    return None


class Names:
    """What a file imports: foreign names, ours with the crate that declares them, and modules."""

    def __init__(self, path, text, modules):
        self.path, self.crate, self.modules = path, crate_of(path), modules
        self.foreign, self.made, self.ours, self.aliases, self.uses = set(), set(), {}, {}, []
        for line in text.split('\n'):
            found = USE.match(line)
            if not found or found.group(2).split('.')[0] not in LIBRARIES | {'Rattle'}:
                continue
            origin = self.origin(found.group(2))
            self.uses.append((found.group(2), origin, line))
            if found.group(4) is None:
                self.aliases[found.group(7) or found.group(2).split('.')[-1]] = (origin, found.group(2), bool(found.group(7)))
                continue
            for item in found.group(4).split(','):
                name, _, alias = item.strip().partition(' as ')
                name, alias = name.strip(), alias.strip()
                if not name:
                    continue
                if origin == 'ours':
                    self.ours[alias or name] = self.crate if alias else found.group(2).split('.')[1]
                elif alias:
                    self.ours.setdefault(alias, self.crate)          # the alias is ours
                else:
                    (self.foreign if origin == 'foreign' else self.made).add(name)

    def origin(self, path):
        parts = path.split('.')
        if parts[0] != 'Rattle' or len(parts) < 2 or parts[1] not in CRATES:
            return 'foreign'
        module = source_module(path, self.modules)
        if module is None or is_answer('crates/' + module[len('Rattle.'):].replace('.', '/') + '.antt'):
            return 'made'
        return 'ours'


DECLARED = re.compile(r"^(\s*)((?:(?:pub|abbrev|unfoldable|data|record|opening|mutual|axiom)\s+)*)"
                      r"([^\s(){}.,;:]+(?:\s+[^\s(){}.,;:]+)*?)((?:\s*[({][^\n]*?)?)\s+:(?:\s|$)")


def declarations(text):
    """(names declared, fields, name -> the rest of its line), from the lines `a b : T`."""
    names, fields, rest, record = set(), set(), {}, None
    for line in text.split('\n'):
        bare = line.strip()
        if not bare or bare.startswith('--'):
            continue
        indent = len(line) - len(line.lstrip())
        if record is not None and indent <= record:
            record = None
        found = DECLARED.match(line)
        if found and not bare.startswith(('→', '(', '×', 'use ', 'let ', 'module ')):
            first, *more = found.group(3).split()
            if '=' in more or first in RESERVED and (more or found.group(4).strip()):
                continue                                         # a term, as `let x : T = e`
            for name in [first] + more:
                names.add(name)
                rest.setdefault(name, '')
                rest[name] += line[found.end():]
                if record is not None and 'record' not in found.group(2):
                    fields.add(name)
        if re.match(r'(pub\s+|abbrev\s+|unfoldable\s+)*record\s', bare) and bare.endswith('where'):
            record = indent
    return names, fields, rest


class Tree:
    def __init__(self):
        self.texts = {path: open(path, encoding='utf-8').read() for pattern in ('antt', 'rt', 'edit')
                      for path in sorted(glob.glob('crates/**/*.' + pattern, recursive=True))}
        self.antt = [path for path in self.texts if path.endswith('.antt')]
        self.rt = [path for path in self.texts if path.endswith('.rt')]
        self.modules = {module_of(path): path for path in self.antt}
        self.names = {path: Names(path, self.texts[path], self.modules) for path in self.antt + self.rt}
        self.declared, self.plumbing, self.fields = {}, {}, collections.defaultdict(set)
        self.functions = {name for path in self.rt for name in re.findall(r'\bfn (\w+)', self.texts[path])}
        self.where = collections.defaultdict(set)                # old name -> crates that declare it
        for path in self.antt:
            names, fields, rest = declarations(self.texts[path])
            self.declared[path], self.plumbing[path] = names, set()
            if is_answer(path):
                self.plumbing[path] = {name for name in names if '/+' in path or re.search(
                    r'\bNeed-|\.invariant|\.decreases|[sS]tatement', rest[name])}
            for name in names - self.plumbing[path]:
                self.where[name].add(crate_of(path))
            for name in fields:
                self.fields[name].add(crate_of(path))

    def new_name(self, path, old, crate=None):
        for key in ((path, old), (crate or crate_of(path), old), ('*', old)):
            if key in CLASHES:
                return CLASHES[key]
        return respelled(old)

    def field_name(self, path, old):
        """A projection's new name; the field's crate is found by its name."""
        found = {CLASHES.get((crate, old)) or CLASHES.get(('*', old)) or respelled(old) for crate in self.fields[old]}
        if (path, old) in CLASHES:
            return CLASHES[(path, old)]
        if len(found) != 1:
            sys.exit('%s: the field %s has several new names: %s' % (path, old, found))
        return found.pop()

    def changes(self, path, text, clauses=None):
        """[(from, to, old, new, kind)] of a text of the file at path, and its other words as (word, kind)."""
        names, answer = self.names[path], is_answer(path)
        done, others = [], set()
        line_use = {}
        at = 0
        for line in text.split('\n'):
            found = USE.match(line)
            if found and found.group(2).split('.')[0] in LIBRARIES | {'Rattle'}:
                line_use[at] = (at, at + len(line), found)
            at += len(line) + 1
        tokens = [(m.lastgroup, m.start(), m.end(), m.group()) for m in TOKEN.finditer(text)]
        i, skip_until = 0, -1
        while i < len(tokens):
            kind, start, end, word = tokens[i]
            if start in line_use and start >= skip_until:
                self.use_changes(path, line_use[start], done, others)
                skip_until = line_use[start][1]
            if start < skip_until or kind != 'word' or (clauses is not None and not any(a <= start < b for a, b in clauses)):
                i += 1
                continue
            chain = [tokens[i]]
            while i + 2 < len(tokens) and tokens[i + 1][3] == '.' and tokens[i + 2][0] == 'word':
                chain.append(tokens[i + 2])
                i += 2
            projected = chain[0][1] > 0 and text[chain[0][1] - 1] == '.' and chain[0][1] > 1 and not text[chain[0][1] - 2].isspace()
            self.text = text
            self.chain_changes(path, names, chain, projected, answer, done, others)
            i += 1
        return done, others

    def literal(self, chain):
        """Whether a name stands as a field of `record { f = e; g = e }`."""
        before, behind = self.text[:chain[0][1]].rstrip(), self.text[chain[0][2]:].lstrip()
        return before[-1:] in ('{', ';') and re.match(r'=\s', behind) is not None

    def add(self, done, others, token, new, kind):
        if token[3] != new:
            done.append((token[1], token[2], token[3], new, kind))
        else:
            others.add((token[3], kind))

    def chain_changes(self, path, names, chain, projected, answer, done, others):
        head = chain[0][3]
        rest = chain
        if not projected:
            rest = chain[1:]
            if len(chain) > 1:
                if head == 'Rattle' or head in LIBRARIES and '.' and chain[1][3][:1].isupper():
                    full = '.'.join(token[3] for token in chain)
                    if names.origin(full) == 'ours':
                        known = len(source_module(full, self.modules).split('.'))
                        for token in chain[known:]:
                            self.add(done, others, token, self.new_name(path, token[3], chain[1][3]), 'head')
                    if head == 'Rattle' and chain[1][3] in MOVED:
                        done.append((chain[1][1], chain[1][2], chain[1][3], MOVED[chain[1][3]], 'crate'))
                    return
                if head in names.aliases:
                    origin, target, _ = names.aliases[head]
                    if origin == 'ours':
                        for token in rest:
                            self.add(done, others, token, self.new_name(path, token[3], target.split('.')[1]), 'head')
                    return
                if head[:1].isupper() and head in names.foreign | names.made:
                    return
                if head[:1].isupper() and NAME.match(chain[1][3]) and (head in names.ours or head in self.declared.get(path, ())) \
                        and chain[1][3] not in self.fields:
                    for token in rest:
                        self.add(done, others, token, self.new_name(path, token[3], names.ours.get(head)), 'head')
                    return
            if head in names.foreign or head in names.made or head in names.aliases:
                others.add((head, 'head'))
            elif answer and head in self.plumbing[path]:
                others.add((head, 'head'))
            elif head in self.fields and self.literal(chain):
                self.add(done, others, chain[0], self.field_name(path, head), 'field')
            else:
                self.add(done, others, chain[0], self.new_name(path, head, names.ours.get(head)), 'head')
        for n, token in enumerate(rest):
            after = rest[n + 1][3] if n + 1 < len(rest) else ''
            step = answer and after in ('ensures', 'auto') and re.sub(r'\d+$', '', token[3]).replace('-', '_') in self.functions
            if token[3] in self.fields and not step:
                self.add(done, others, token, self.field_name(path, token[3]), 'field')
            else:
                others.add((token[3], 'step' if answer else 'field'))
                if respelled(token[3]) != token[3]:
                    STEPS[token[3]].add(path)

    def use_changes(self, path, use, done, others):
        start, _, found = use
        names = self.names[path]
        target = found.group(2)
        origin = names.origin(target)
        parts = target.split('.')
        at = start + found.start(2)
        if parts[0] == 'Rattle' and parts[1] in MOVED:
            done.append((at + 7, at + 7 + len(parts[1]), parts[1], MOVED[parts[1]], 'crate'))
        if origin == 'ours':
            known = len(source_module(target, self.modules).split('.'))
            for n in range(known, len(parts)):
                here = at + sum(len(p) + 1 for p in parts[:n])
                self.add(done, others, ('word', here, here + len(parts[n]), parts[n]), self.new_name(path, parts[n], parts[1]), 'head')
        if found.group(7) and origin == 'ours' or found.group(7) and not is_answer(path):
            here = start + found.start(7)
            self.add(done, others, ('word', here, here + len(found.group(7)), found.group(7)), self.new_name(path, found.group(7)), 'head')
        if found.group(4) is None:
            return
        for item in re.finditer(r'([^,\s]+)(?:\s+as\s+([^,\s]+))?', found.group(4)):
            here = start + found.start(4)
            name = item.group(1)
            token = ('word', here + item.start(1), here + item.end(1), name)
            if origin == 'ours':
                new = self.new_name(path, name, parts[1])
                self.add(done, others, token, new, 'imported' if item.group(2) else 'head')
            elif not item.group(2):
                others.add((name, 'head'))
            if item.group(2) and origin != 'made':
                alias = item.group(2)
                self.add(done, others, ('word', here + item.start(2), here + item.end(2), alias), self.new_name(path, alias), 'head')


STEPS = collections.defaultdict(set)


def clause_spans(text):
    """Where clauses and `ghost use` lines stand in a Rust text."""
    spans = []
    for found in re.finditer(r'\b(?:requires|ensures)\b(?:\s+[a-z_]\w*)?\s*\{', text):
        if re.search(r'//[^\n]*$', text[:found.start()].rsplit('\n', 1)[-1]):
            continue
        depth, at = 1, found.end()
        while depth and at < len(text):
            depth += {'{': 1, '}': -1}.get(text[at], 0)
            at += 1
        spans.append((found.end(), at - 1))
    for found in re.finditer(r'^\s*ghost use [^\n]*', text, re.M):
        spans.append((found.start(), found.end()))
    return spans


def applied(text, changes, begin=0, end=None):
    end = len(text) if end is None else end
    out, at = [], begin
    for start, stop, _, new, *_ in sorted(changes):
        if start < begin or stop > end:
            continue
        out += [text[at:start], new]
        at = stop
    return ''.join(out + [text[at:end]])


KEYWORDS = set("""additionalProperties allOf anyOf oneOf dependentSchemas exclusiveMaximum exclusiveMinimum maxItems maxLength
maxProperties minItems minLength minProperties multipleOf prefixItems unevaluatedItems unevaluatedProperties ifThenElse
dependentRequired patternProperties propertyNames uniqueItems maxContains minContains readOnly writeOnly""".split())


def in_comments(path, text, known):
    """Names in backticks in comments, and the lists `--     a, b   what they say` at the top of a file."""
    sign = '--' if path.endswith('.antt') else '//'
    out = []
    for line in text.split('\n'):
        at = comment_start(line, sign)
        if at is not None:
            code, comment = line[:at], line[at:]
            listed = re.match(r'(--\s{2,})([^\s,]+(?:, [^\s,]+)*)(,?$|\s{2,}.*)', comment)
            if path.endswith('.antt') and not code.strip() and listed and all(known(n, True) for n in listed.group(2).split(', ')):
                names = ', '.join(known(n, True) for n in listed.group(2).split(', '))
                behind = listed.group(3)
                grown = len(names) - len(listed.group(2))        # keeps the column of what they say
                if behind[:1] == ' ':
                    wide = len(behind) - len(behind.lstrip())
                    behind = ' ' * max(2, wide - grown) + behind.lstrip()
                comment = listed.group(1) + names + behind
            line = code + in_backticks(comment, known)
        out.append(line)
    return '\n'.join(out)


def comment_start(line, sign):
    at, quoted = 0, False
    while at < len(line):
        if line[at] == '"' and line[at - 1:at] != '\\':
            quoted = not quoted and "'\"'" not in line[at - 1:at + 2]
        if not quoted and line.startswith(sign, at) and (sign == '//' or at == 0 or line[at - 1].isspace()):
            return at
        at += 1
    return None


def in_backticks(text, known):
    return re.sub(r'`([^`\s]+)`', lambda m: '`%s`' % (known(m.group(1), False) or m.group(1)), text)


def moved_in_prose(text):
    """Crate json in docs and comments, where it is named as a folder or in backticks."""
    for old, new in MOVED.items():
        text = re.sub(r'\bcrates/%s\b' % old, 'crates/' + new, text)
        text = re.sub(r'`%s(?=/[a-z_]+[`/])' % old, '`' + new, text)
        text = text.replace('`%s`' % old, '`%s`' % new)
    return text


def rust_names(text):
    """Parameters, variables, fields, constants and aliases of a Rust text, without its comments and clauses."""
    for start, stop in reversed(clause_spans(text)):
        text = text[:start] + text[stop:]
    text = re.sub(r'//[^\n]*', '', text)
    names = set(re.findall(r'\b([a-z_]\w*)\s*:(?!:)', text))
    names |= set(re.findall(r'\b(?:const|static|type|mod)\s+(\w+)', text))
    for bound in re.findall(r'\blet\s+([^=;]+?)[=;]', text) + re.findall(r'\bfor\s+(.+?)\s+in\b', text):
        names |= set(re.findall(r'\b[a-z_]\w*', bound))
    for bound in re.findall(r'\(([^()]*)\)\s*=>', text) + re.findall(r'\|([^|\n]*)\|', text):
        names |= set(re.findall(r'\b[a-z_]\w*', bound))
    return names - {'mut', 'ref'}


def rust_members(text):
    """Fields of structs and constants."""
    names = set(re.findall(r'\b(?:const|static)\s+(\w+)', text))
    for body in re.findall(r'\bstruct\s+\w+[^{;]*\{([^}]*)\}', text):
        names |= set(re.findall(r'\b([a-z_]\w*)\s*:', re.sub(r'//[^\n]*', '', body)))
    return names


def main():
    if not os.path.isdir('crates') or any(new in CRATES for new in MOVED.values()):
        sys.exit('run once, at the top of the repository')
    tree, plan, stops = Tree(), {}, []
    renamed, by_file, by_crate = collections.defaultdict(set), {}, collections.defaultdict(dict)
    everywhere = collections.defaultdict(set)
    for path in tree.antt + tree.rt:
        text = tree.texts[path]
        clauses = clause_spans(text) if path.endswith('.rt') else None
        changes, others = tree.changes(path, text, clauses)
        plan[path] = sorted(set(changes))
        together = collections.defaultdict(set)
        by_file[path] = {}
        for _, _, old, new, kind in changes:
            if kind == 'crate':
                continue
            renamed[old].add(new)
            by_file[path][old] = new
            if kind != 'imported':
                together[new].add(old)
            if new in RESERVED or not new:
                stops.append('%s: %s would be %s' % (path, old, new))
        for word, kind in others:
            if kind != 'step':
                together[word].add(word)
        for new, olds in sorted(together.items()):
            if len(olds) > 1:
                stops.append('%s: %s: %s' % (path, new, ', '.join(sorted(olds))))
        if path.endswith('.rt'):
            rust = rust_names(text)
            for _, _, old, new, kind in changes:
                if kind == 'head' and new in rust:
                    stops.append('%s: %s would be %s, a name of the Rust text' % (path, old, new))
    members = collections.defaultdict(set)
    for path in tree.rt:
        members[crate_of(path)] |= rust_members(tree.texts[path])
    of_crate = collections.defaultdict(lambda: collections.defaultdict(set))
    for path in tree.antt:
        if is_answer(path):
            continue
        for old in tree.declared[path]:
            new = tree.new_name(path, old)
            of_crate[crate_of(path)][new].add(old)
            if new in RESERVED - {'result'}:
                stops.append('%s: %s would be %s' % (path, old, new))
            if old != new:
                by_crate[crate_of(path)].setdefault(old, new)
                everywhere[old].add(new)
                if '/specs/' in path and new in members[crate_of(path)] and old not in tree.fields:
                    stops.append('%s: %s would be %s, a field or constant of the crate' % (path, old, new))
    for crate, names in sorted(of_crate.items()):
        for new, olds in sorted(names.items()):
            if len(olds) > 1:
                stops.append('crate %s: %s: %s' % (crate, new, ', '.join(sorted(olds))))
    if stops:
        print('\n'.join(sorted(set(stops))))
        sys.exit('%d names fall together' % len(set(stops)))

    own = {new for names in of_crate.values() for new in names}

    def known(path):
        def new(name, listed):
            name_crate = crate_of(path) if path.startswith('crates/') else None
            if not NAME.match(name) or not name[:1].islower():
                return name if listed and name in tree.declared.get(path, ()) else None
            if not listed and name in tree.functions:
                return None                                      # a function of src/
            for names in (by_file.get(path, {}), by_crate.get(name_crate, {})):
                if name in names and not (not listed and name in KEYWORDS):
                    return names[name]
            made = respelled(name)
            if listed:
                return next((n for n in (name, made) if n in tree.declared.get(path, ())), None)
            if name not in KEYWORDS and len(everywhere[name]) == 1:
                return next(iter(everywhere[name]))
            if name not in KEYWORDS and made != name and made in own:
                return made                                      # respelled before this run
            return None
        return new

    after = {}
    for path in tree.antt + tree.rt:
        text = applied(tree.texts[path], plan[path])
        if path.endswith('.rt'):
            for old, new in MOVED.items():
                text = re.sub(r'^(\s*(?:pub )?use )%s::' % old, r'\g<1>%s::' % new, text, flags=re.M)
            text = with_tactic(path, text)
        after[path] = moved_in_comments(path, in_comments(path, text, known(path)))
    fit, unfit = 0, []
    for path in tree.texts:
        if path.endswith('.edit'):
            after[path], good, bad = edited(tree, path, plan, after)
            fit, unfit = fit + good, unfit + bad
    for path in ['README.md', 'CHANGELOG.md'] + sorted(glob.glob('docs/*.md')):
        tree.texts[path] = open(path, encoding='utf-8').read()
        after[path] = moved_in_prose(in_backticks(tree.texts[path], known(path)))
    tree.texts['crates.txt'] = open('crates.txt', encoding='utf-8').read()
    after['crates.txt'] = '\n'.join(line if line.startswith('#') else re.sub(
        r'[\w]+', lambda m: MOVED.get(m.group(), m.group()), line) for line in tree.texts['crates.txt'].split('\n'))
    for path, text in after.items():
        if text != tree.texts[path]:
            with open(path, 'w', encoding='utf-8') as out:
                out.write(text)
    for old, new in MOVED.items():
        os.rename('crates/' + old, 'crates/' + new)
        CRATES[CRATES.index(old)] = new
    print('%d names renamed, in %d files' % (len(renamed), sum(after[path] != tree.texts[path] for path in after)))
    print('edits whose old text stands once, as before: %d' % fit)
    for line in unfit:
        print('edit: ' + line)
    lost = imports_lost()
    print('imported names that are not declared: %d' % len(lost))
    for line in lost:
        print('import: ' + line)
    if unfit or lost:
        sys.exit(1)


def moved_in_comments(path, text):
    sign = '--' if path.endswith('.antt') else '//'
    lines = text.split('\n')
    for n, line in enumerate(lines):
        at = comment_start(line, sign)
        if at is not None:
            lines[n] = line[:at] + moved_in_prose(line[at:])
    return '\n'.join(lines)


def with_tactic(path, text):
    """`#![tactic(auto)]` right after the comment that begins a root file."""
    if not re.match(r'crates/[^/]+/src/(lib|main)\.rt$', path) or '#![tactic(auto)]' in text:
        return text
    lines = text.split('\n')
    n = 0
    while n < len(lines) and lines[n].startswith('//'):
        n += 1
    return '\n'.join(lines[:n] + ['#![tactic(auto)]'] + [''] * (n < len(lines) and lines[n] != '') + lines[n:])


def edited(tree, path, plan, after):
    """An edit's text, by what became of its file, with how many of its `old:` fit and which do not any more."""
    lines, out, target, fit, unfit, once = tree.texts[path].split('\n'), [], None, 0, [], None
    for line in lines:
        mark = re.match(r'(file|old|new):( ?)(.*)$', line, re.S)
        if not mark:
            out.append(line)
            continue
        word, gap, text = mark.groups()
        if word == 'file':
            target = 'crates/%s/%s' % (crate_of(path), text.strip())
            out.append(line)
            continue
        content = tree.texts[target]
        if word == 'old':
            once = content.find(text) if content.count(text) == 1 else None
        if word == 'old' and once is not None:
            text = applied(content, plan[target], once, once + len(text))
            if after[target].count(text) == 1:
                fit += 1
            else:
                unfit.append('%s: %s' % (path, text))
        else:
            inside = target.endswith('.antt') or once is not None and any(a <= once < b for a, b in clause_spans(content))
            if inside or clause_spans(text):
                clauses = None if inside else clause_spans(text)
                text = fragment(tree, target, text, clauses, after[target])
        out.append('%s:%s%s' % (word, gap, text))
    text = '\n'.join(out)
    for old, new in MOVED.items():
        text = re.sub(r'\bRattle([.·])%s(?=[.·])' % old, r'Rattle\g<1>%s' % new, text)
        text = re.sub(r'\b%s::' % old, new + '::', text)
    return text, fit, unfit


def fragment(tree, target, text, clauses, after):
    """Some text of an edit; names of an older spelling are brought to those of the file too."""
    if not text.strip():
        return text
    words = {m.group('word') for m in TOKEN.finditer(after) if m.group('word')}
    crate, names = crate_of(target), tree.names[target]

    def new(found):
        word = found.group('word')
        if not word or not NAME.match(word) or (clauses is not None and not any(a <= found.start() < b for a, b in clauses)):
            return found.group()
        made = tree.new_name(target, word, names.ours.get(word))
        if word not in names.foreign and (word in names.ours or word in tree.declared[target] or made in words):
            return made
        if made != word and word in tree.where and word not in names.foreign:
            return made
        return word
    return TOKEN.sub(new, text)


def imports_lost():
    """The names of `use Rattle.<ours>..{names}` lines that their module does not declare."""
    texts = {path: open(path, encoding='utf-8').read() for pattern in ('antt', 'rt')
             for path in sorted(glob.glob('crates/**/*.' + pattern, recursive=True))}
    modules = {module_of(path): path for path in texts if path.endswith('.antt')}
    words = {}
    lost = []
    for path, text in texts.items():
        names = Names(path, text, modules)
        for target, origin, line in names.uses:
            found = USE.match(line)
            module = source_module(target, modules)
            if module is None or found.group(4) is None:
                continue
            if module not in words:
                words[module] = declared_anyhow(texts[modules[module]])
            for item in found.group(4).split(','):
                name = item.strip().split(' as ')[0].strip()
                if name and name not in words[module]:
                    lost.append('%s: %s of %s' % (path, name, target))
    return lost


def declared_anyhow(text):
    """The names that stand before a `:` of a declaration, or in a `pub use`."""
    names = set()
    for line in text.split('\n'):
        bare = line.strip()
        if bare.startswith('--'):
            continue
        if bare.startswith('pub use'):
            names |= set(re.findall(r'[^\s,{}]+', bare))
        names |= set(re.split(r'\s:(?:\s|$)', bare)[0].replace('(', ' ').replace('{', ' ').split())
    return names


if __name__ == '__main__':
    main()
