"""Counts, in the sources of the crates, the places of forms that today's Rattle has something better for; docs/DESIGN-PASS.md
says what became of them.

    python3 tools/count_forms.py [COMMIT] [-v]     # of a commit, or of the checkout; -v lists the places
"""
import collections
import re
import subprocess
import sys

GROUPS = [('record', 'form'), ('rules', 'rule_form'), ('sheets', 'texts', 'forms'), ('words', 'form'), ('words', 'text', 'names'),
          ('heads', 'next', 'nodes', 'marks'), ('values', 'texts'), ('rows', 'words', 'n'), ('cells', 'list'), ('memo', 'whole'),
          ('seen', 'queue', 'tail'), ('first', 'count'), ('first', 'end')]
KEYWORDS = set('as bool break const continue else enum false fn for if impl in let loop match mod mut pub ref return self Self '
               'struct true type u8 u16 u32 u64 usize use where while'.split())
CODED = r'(?:place|code|kind|fault|number|around|change|verdict_of\([^)]*\))'


def git(*words):
    return subprocess.run(('git',) + words, check=True, capture_output=True, text=True).stdout


def sources(commit):
    """Path and lines of each source, without comments and lines of specification."""
    names = git('ls-tree', '-r', '--name-only', commit, 'crates').split('\n') if commit else git('ls-files', 'crates').split('\n')
    for name in sorted(n for n in names if re.fullmatch(r'crates/\w+/src/.*\.rt', n)):
        text = git('show', '%s:%s' % (commit, name)) if commit else open(name).read()
        yield name, text.split('\n')


def is_code(line):
    return not re.match(r'\s*(//|ghost |requires|ensures)', line)


def functions(lines):
    """Line, parameters and body's lines of each function."""
    at = 0
    while at < len(lines):
        if re.match(r'\s*(pub(\(\w+\))? )?fn ', lines[at]):
            indent = re.match(r'\s*', lines[at]).group()
            end = at
            while not re.match(indent + r'(\}|.*\{\s*\}\s*$)', lines[end]) or lines[end].strip() == '{':
                end += 1
            whole = [line for line in lines[at:end + 1] if is_code(line)]
            head = ' '.join(whole).split('{')[0]
            yield at + 1, re.findall(r'(\w+): ', head[head.index('('):]), ' '.join(whole)
            at = end
        at += 1


def shape(body):
    """A function but for its names and numbers."""
    known, out = {}, []
    for token in re.findall(r'[A-Za-z_]\w*|\d[\w.]*|\S', body):
        if re.match(r'\d', token):
            out.append('0')
        elif re.match(r'\w', token) and token not in KEYWORDS:
            out.append('x%d' % known.setdefault(token, len(known)))
        else:
            out.append(token)
    return ' '.join(out)


def by_line(lines, pattern):
    return [k + 1 for k, line in enumerate(lines) if is_code(line) and re.search(pattern, line)]


def count(commit):
    found = collections.defaultdict(list)
    shapes = collections.defaultdict(list)
    for name, lines in sources(commit):
        def put(form, places):
            found[form] += ['%s:%d' % (name, at) for at in places]
        put('1 own enums', by_line(lines, r'^\s*(pub(\(\w+\))? )?enum '))
        put('1 flags beside values: fields of bool', by_line(lines, r'^    (pub )?\w+: bool,'))
        put('1 numbers for kinds: arms of literal numbers', by_line(lines, r'^\s*\d[\w]*(\.\.=\d+)? => '))
        put('1 numbers for kinds: comparisons with literal numbers', by_line(
            lines, r'\b%s (==|!=|<=|>=|<|>) (0x)?\d|\b(0x)?\d\w* (==|<=|<) %s\b' % (CODED, CODED)))
        put('3 loops: while, loop', by_line(lines, r'^\s*(while|loop)\b'))
        put('4 copying: a field from the same field', by_line(lines, r'^\s*(\w+): (\w+)\.\1,?$'))
        put('4 copying: a field from its own name', by_line(lines, r'^\s*(\w+): \1,?$|\{ (\w+): \2\b'))
        put('6 buffers: arrays made', by_line(lines, r'= \[[\w]+; '))
        put('7 flags as parameters', [at for at, _, body in functions(lines) if re.search(r'[(,] ?\w+: bool', body.split('{')[0])])
        for at, names, body in functions(lines):
            for group in GROUPS:
                if set(group) <= set(names):
                    found['5 together: ' + ', '.join(group)].append('%s:%d' % (name, at))
            shapes[shape(body)].append('%s:%d' % (name, at))
    for text, places in shapes.items():
        if len(places) > 1 and len(text.split()) > 45:
            found['2 twins: functions alike but for names and numbers'] += places
    return found


def main(words):
    wordy = '-v' in words
    commit = next((word for word in words if word != '-v'), None)
    for form, places in sorted(count(commit).items()):
        print('%4d  %s' % (len(places), form))
        if wordy:
            for place in places:
                print('          ' + place)


if __name__ == '__main__':
    main(sys.argv[1:])
