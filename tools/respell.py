#!/usr/bin/env python3
"""Spells this repository's own names in specs/, proofs/, the clauses of src/ and must-fail edits as today's Rattle does.

It ran once, right after the kit's port.py, in the second commit that docs/PORT.md names, and stays as the record of what that commit renamed.

    tools/respell.py            run again it changes nothing
    tools/respell.py --dry      only print what would change, and which names would fall together

A word (a definition, a lemma, a field, a variable) that begins with a small letter and has a capital inside, as `costOf`, `joinT-at`, becomes
snake case: `cost_of`, `join_t-at`. A dash between two names of a lemma stays, as in the kit's own `drop-cons` and `append-cons_assoc`
(CONTRACT_STYLE.md, "Names": a dash joins two names). Constructors and definitions have no dash: TABLE lists them, and the few names that
need more than the rule. Types, records and modules are in camel case already. Names of src/ (functions, fields, constants) have no capitals,
so nothing there changes but clauses; text in quotes stays."""
import glob, re, sys

TABLE = {
    # constructors and definitions: no dash
    'step-to': 'step_to', 'is-off': 'is_off', 'is-on': 'is_on', 'is-br': 'is_br',
    'lent-ty': 'lent_ty', 'rows-ty': 'rows_ty', 'lend-rows': 'lend_rows', 'set-val': 'set_val', 'vertex-val': 'vertex_val',
    'done-val': 'done_val', 'change-val': 'change_val', 'rows-val': 'rows_val', 'record-val': 'record_val', 'block-val': 'block_val',
    'outs-lft': 'outs_lft', 'ins-lft': 'ins_lft', 'after-step': 'after_step',
    # fields of records in specs/
    'on-loop': 'on_loop', 'outs-long': 'outs_long', 'ins-long': 'ins_long',
    # a law whose name would differ from that of what it speaks of by a dash alone
    'need-of': 'need_of-is', 'need-after': 'need_after-is', 'cycle-after': 'cycle_after-is', 'functions-after': 'functions_after-are',
    'ors-below': 'ors_below-more', 'order-of': 'order_of-member', 'pick-words': 'pick_words-are', 'reduce-words': 'reduce_words-are',
    'one-pass': 'single-pass',
    # a fact keeps its capital
    'isVariable': 'IsVariable',
    # a variable of one proof; `is_on` is a constructor
    'isOn': 'on_is_put',
}
# A function of the code and the word that its clause cites may have one name, as `any_loud` in the kit's ANSWERS.md: the code never names the
# word, and a proof names the function only in paths.
SHARED = {'cost_of', 'step_word', 'variable_of'}
WORD = re.compile(r'(?<![\w\'\u2080-\u2089-])([a-z][\w\'\u2080-\u2089]*(?:-[\w\'\u2080-\u2089]+)*)(?![\w\'-])')


def snake(word):
    if word in TABLE:
        return TABLE[word]
    if not re.search(r"[a-z0-9][A-Z]", word):
        return word
    parts = []
    for part in word.split('-'):
        # `A` alone, as in `header-A`, names a value; it stays
        part = re.sub(r"(?<=[a-z0-9])(?=[A-Z])", '_', part) if re.match('[a-z]', part) else part
        parts.append(part.lower() if re.match('[a-z]', part) else part)
    return '-'.join(parts)


def respell(text, strings):
    def one(m):
        w = m.group(1)
        return snake(w)

    if not strings:
        return WORD.sub(one, text)
    # a .rt file: nothing within quotes
    parts = re.split(r'("(?:[^"\\\n]|\\.)*")', text)
    return ''.join(p if i % 2 else WORD.sub(one, p) for i, p in enumerate(parts))


def main():
    dry = '--dry' in sys.argv
    files = sorted(f for pat in ('specs/**/*.antt', 'proofs/**/*.antt', 'src/**/*.rt', 'must-fail/*.edit')
                   for f in glob.glob('crates/*/' + pat, recursive=True))
    texts = {f: open(f, encoding='utf-8').read() for f in files}
    words = {f: set(WORD.findall(t)) for f, t in texts.items()}
    bad = []
    by_crate = {}
    for f in files:
        by_crate.setdefault(f.split('/')[1], set()).update(words[f])
    changed = {}
    for f in files:
        for w in words[f]:
            new = respell(w, False)
            if new != w:
                changed[w] = new
                if new in words[f] and new not in SHARED:
                    bad.append(f'{f}: `{w}` and `{new}` would be one name')
    olds = {}
    for old, new in changed.items():
        olds.setdefault(new, []).append(old)
    for new, o in olds.items():
        if len(o) > 1:
            bad.append(f'{", ".join(sorted(o))} would all be `{new}`')
    for old, new in sorted(changed.items()):
        where = sorted(c for c, ws in by_crate.items() if new in ws)
        if where:
            print(f'look: `{new}` (from `{old}`) stands already in {", ".join(where)}')
    if bad:
        print('\n'.join(sorted(set(bad))))
        print('refused: resolve these in TABLE or SHARED')
        sys.exit(1)
    n = 0
    for f in files:
        new = respell(texts[f], f.endswith('.rt'))
        if new != texts[f]:
            n += 1
            if not dry:
                open(f, 'w', encoding='utf-8').write(new)
    print(f'{len(changed)} names in {n} files')


main()
