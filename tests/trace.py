#!/usr/bin/env python3
"""Checks docs/TRACE.md: each name of a table stands in the file that is named after it, and a function that is cited among the theorems has an `ensures`,
or the cell says that it is safe and ends. The status is 0 where nothing is wrong."""
import re
import sys
from pathlib import Path

TRACE = Path(__file__).resolve().parent.parent / 'docs' / 'TRACE.md'
ITEM = re.compile(r'`([^`]+)`|\[([^\]]+)\](?!\()')

# the second of the columns after the sentence
THEOREM = 1

# how a name is defined, by the kind of file; where it is none of these, the file has the name as text
DEFINED = {
    '.antt': r'^ *(abbrev |unfoldable )?(pub )?(record |data )?{} +[:(]',
    '.rt': r'\b(fn|struct|enum|const) {}\b',
    '.rs': r'\b(fn|struct|enum|const) {}\b',
}


def stands(name, path):
    if path.is_dir():
        return (path / name).is_file() or (path / f'{name}.edit').is_file()
    text = path.read_text()
    kind = DEFINED.get(path.suffix)
    return bool(re.search(kind.format(re.escape(name)), text, re.M)) if kind else name in text


def promises(name, path):
    """Whether the function has an `ensures`: the clauses stand between its head and the brace on a line of its own that opens its body, with no empty line."""
    for head in re.finditer(rf'^( *)(pub )?(extern "C" )?fn {re.escape(name)}\b.*?^\1{{$', path.read_text(), re.M | re.S):
        if '\n\n' not in head.group() and re.search(r'^ *ensures\b', head.group(), re.M):
            return True
    return False


def check():
    text = TRACE.read_text()
    files = {label: TRACE.parent / path for label, path in re.findall(r'^\[([^\]]+)\]: (.+)$', text, re.M)}
    wrong = [f'no such file: {path}' for path in files.values() if not path.exists()]
    sentences, names, used = 0, 0, set()
    wrong += [f'no row of a table: {line[:60]}' for line in text.splitlines() if line.startswith('|') and not line.endswith('|')]
    for row in re.findall(r'^\| (.+) \|$', text, re.M):
        if row.startswith('sentence |'):
            continue
        sentences += 1
        cells = row.split('|')
        if len(cells) != 4:
            wrong.append(f'{len(cells)} cells: {row[:60]}')
        for column, cell in enumerate(cells[1:]):
            waiting = []
            for item in ITEM.finditer(cell):
                name, label = item.groups()
                if name:
                    waiting.append(name)
                    continue
                used.add(label)
                if label not in files:
                    wrong.append(f'no file for [{label}]')
                elif not waiting:
                    wrong.append(f'no name before [{label}]: {row[:60]}')
                elif files[label].exists():
                    wrong += [f'{name} is not in {label}' for name in waiting if not stands(name, files[label])]
                    if column == THEOREM and files[label].suffix == '.rt' and not cell[item.end():].startswith(': safe and ends'):
                        wrong += [f'{name} of {label} has no ensures' for name in waiting if not promises(name, files[label])]
                names, waiting = names + len(waiting), []
            wrong += [f'no file after {name}: {row[:60]}' for name in waiting]
    wrong += [f'not cited: [{label}]' for label in files.keys() - used]
    print(*wrong, sep='\n', end='\n' if wrong else '')
    print(f'trace: {sentences} sentences, {names} names in {len(used)} files, {len(wrong)} wrong')
    return bool(wrong)


sys.exit(check())
