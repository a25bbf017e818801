#!/usr/bin/env python3
"""The places in crates/*/src that docs/DESIGN-PASS.md counts, a row for each.

    tools/forms.py [COMMIT]     of the checkout, or of a commit

A row is a place to look at, and no verdict: the page says which are kept, and why. Comments don't count."""
import re, subprocess, sys, glob
from collections import defaultdict

commit = sys.argv[1] if len(sys.argv) > 1 else None


def sources():
    if commit is None:
        for path in sorted(glob.glob('crates/*/src/**/*.rt', recursive=True)):
            yield path, open(path, encoding='utf-8').read()
        return
    git = lambda *a: subprocess.run(['git', *a], check=True, capture_output=True, text=True).stdout
    for path in sorted(git('ls-tree', '-r', '--name-only', commit, 'crates').split()):
        if re.fullmatch(r'crates/[^/]+/src/.*\.rt', path):
            yield path, git('show', f'{commit}:{path}')


def plain(text):
    """The text without comments, line for line."""
    return [re.sub(r'//.*', '', line) for line in text.split('\n')]


files = [(path.removeprefix('crates/').replace('/src/', ':'), plain(text)) for path, text in sources()]
places = defaultdict(list)


def each(point, pattern, unless=None):
    for path, lines in files:
        for i, line in enumerate(lines, 1):
            if re.search(pattern, line) and not (unless and re.search(unless, line)):
                places[point].append(f'{path}:{i}: {line.strip()}')


CLAUSE = r'requires|ensures|ghost|decreases'

# 1. Own enums, numbers for refusals, flags as parameters, numbers and flags for "none" or "full".
each('1a enums', r'^\s*(pub(\(crate\))? )?enum ')
each('1b numbers for refusals', r'\bnumber: \d')
each('1c flags as parameters', r'[(,] *\w+: bool\b|^\s*\w+: bool,', r'pub \w+: bool')
SENTINEL = 'next_member next_component lowest_wide first_for make_variables make_passes pass'.split()

# 3. Loops.
each('3 loops that are no `for`', r'^\s*(while|loop)\b')

# 4. By hand: comparisons of what a tuple struct holds, comparing functions, a refusal printed by its fields.
each('4a what types hold, compared', r'\.0 (==|!=|<|<=|>|>=) \w+(\.\w+)*\.0\b', CLAUSE)
each('4b orders by hand', r'fn (less|cheaper|lighter|fewer|at_most)\b')
each('4c a refusal by its fields', r'refusal\.number, refusal\.place|^\s*refusal\.(number|place),')
each('4d bytes to and from numbers, one by one', r"\* 256|% 256|= b'[FVG]'")

# 5. Facts that stand in three or more contracts, and parameters that travel together.
functions = []
for path, lines in files:
    text = '\n'.join(lines)
    for m in re.finditer(r'\bfn (\w+)(<[^>(]*>)?\(([^)]*)\)([^{;]*?)(?=\n\s*(?:requires|ensures)|\{|;)((?:\n\s*(?:requires|ensures|×).*)*)', text):
        functions.append((path, m.group(1), m.group(3), m.group(5)))
        if m.group(1) in SENTINEL and not re.search('Option|Result', m.group(4)):
            places['1d a number or a flag in place of an Option or a Result'].append(f'{path}: {m.group(1)}')
facts = defaultdict(list)
for path, name, _, contract in functions:
    for clause in re.findall(r'requires[^{]*\{(.*?)\}(?=\n|$)', contract, re.S):
        for fact in re.split(r'×|\n', clause):
            fact = re.sub(r'\s+', ' ', fact).strip()
            fact = re.sub(r'^\(+(?=[^()]*\)$)|(?<=\S)\)+$', '', fact) if fact.count('(') != fact.count(')') or re.fullmatch(r'\([^()]*\)', fact) else fact
            fact = re.sub(r'\b(self|rows|nodes|memo|outs|ins|costs)\.(old|now)', r'\1', fact)
            if fact:
                facts[fact].append(f'{path}:{name}')
for fact, users in sorted(facts.items(), key=lambda x: -len(x[1])):
    if len(users) >= 3:
        places['5a facts of three or more contracts'].append(f'{fact}   ({len(users)}: {", ".join(sorted(set(u.split(":")[0] for u in users)))})')
pairs = defaultdict(set)
for path, name, params, _ in functions:
    names = [p.split(':')[0].strip().removeprefix('mut ') for p in params.split(',') if ':' in p]
    for i, a in enumerate(names):
        for b in names[i + 1:]:
            pairs[a, b].add(f'{path}:{name}')
for (a, b), users in sorted(pairs.items(), key=lambda x: -len(x[1])):
    if len(users) >= 6:
        places['5b parameters together in six or more functions'].append(f'{a}, {b}   ({len(users)})')

# 2. Functions whose text is the same but for names and numbers.
KEEP = set('fn struct enum impl if else match while for in return mut let pub true false as use ensures requires self Some None Ok Err'.split())
twins = defaultdict(list)
for path, lines in files:
    text = '\n'.join(lines)
    for m in re.finditer(r'\bfn (\w+)', text):
        start = text.find('{\n', m.end())
        clauses = re.search(r'\n\s*\{\n', text[m.end():])
        start = m.end() + clauses.start() if clauses and not re.search(r'\bfn ', text[m.end():m.end() + clauses.start()]) else start
        depth, end = 0, start
        while start >= 0 and end < len(text):
            depth += {'{': 1, '}': -1}.get(text[end], 0)
            end += 1
            if depth == 0 and text[end - 1] == '}':
                break
        body = text[start:end]
        shape = re.sub(r'\s+', ' ', re.sub(r'\b\w+\b', lambda w: w.group() if w.group() in KEEP else '0' if w.group().isdigit() else 'x', body))
        shape = re.sub(r'x( ?:: ?x)+', 'x', shape)
        if len(shape) >= 40:
            twins[shape].append(f'{path}:{m.group(1)}')
for users in twins.values():
    if len(users) > 1:
        places['2 functions of one shape'].append(', '.join(users))

# 6. Arrays and a number of what they hold; two arrays or slices by one index.
each('6a arrays of a fixed length', r'\[[\w:]+(\(\d+\))?; (\d{2,}|MEMO)\]', CLAUSE)
each('6b a number of what an array holds', r'^\s*(pub )?(count|n|length): usize,|, n: usize')

# 7. Switches on which step to run.
each('7 switches', r'^\s*if (or|both_ways)\b|match rule\b|first_for\(Rule|^\s*Rule::\w+ =>|memo\.len\(\) <')

for point in sorted(places):
    print(f'## {point}: {len(places[point])}')
    for place in places[point]:
        print('   ', place)
