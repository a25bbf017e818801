"""Blocks as files and as text, in the words of document 01, and what else the scripts of this folder share."""
import re
import struct
import sys
import textwrap
from typing import NamedTuple

MOST_FLOPS = 64
MOST_COST = 4294967295


class Wrong(Exception):
    """Something a script refuses; the message says what is wrong."""


class Block(NamedTuple):
    costs: list
    rows: list  # bit w of row v is set where an edge goes from v to w

    def edges(self):
        n = len(self.rows)
        return [(v, w) for v in range(n) for w in range(n) if self.rows[v] >> w & 1]


# ---- block files

def to_file(block):
    n = len(block.costs)
    return struct.pack(f'<3sHB{n}I{n}Q', b'FVG', 1, n, *block.costs, *block.rows)


def from_file(file):
    """The block of a file's bytes. The checks stand in the order of document 01: 5, 6, 1, 7, 3."""
    if len(file) < 6 or file[:3] != b'FVG':
        raise Wrong('this is not a block file: one has 6 bytes or more, and the first three are FVG (refusal 5)')
    version, n = struct.unpack_from('<HB', file, 3)
    if version != 1:
        raise Wrong(f'the file version is {version}, not 1 (refusal 6)')
    if n > MOST_FLOPS:
        raise Wrong(f'{n} flip-flops are more than {MOST_FLOPS} (refusal 1)')
    if len(file) != 6 + 12 * n:
        raise Wrong(f'the file has {len(file)} bytes; with {n} flip-flops it has {6 + 12 * n} (refusal 7)')
    numbers = struct.unpack_from(f'<{n}I{n}Q', file, 6)
    block = Block(list(numbers[:n]), list(numbers[n:]))
    for v, row in enumerate(block.rows):
        if row >> n:
            raise Wrong(f'row {v} has bit {row.bit_length() - 1}; {flops(n)} (refusal 3)')
    return block


def flops(n):
    return f'the flip-flops are 0 to {n - 1}' if n else 'there are no flip-flops'


# ---- blocks as text

def to_text(block):
    edges = [f'{v}>{w}' for v, w in block.edges()]
    # without flip-flops the word itself stays: it says that no cost was forgotten
    return (lines('costs', block.costs) or 'costs\n') + lines('edges', edges)


def lines(word, items):
    """The items after their word, on as many lines as they take."""
    wrapped = textwrap.wrap(', '.join(map(str, items)), 100)
    return ''.join(f'{word} {line.rstrip(",")}\n' for line in wrapped)


def from_text(text):
    """The block of a text's bytes. Edges come last, since `costs` lines may follow them."""
    given = items_of(text)
    costs = [cost(line, item) for line, item in given['costs']]
    if len(costs) > MOST_FLOPS:
        line, _ = given['costs'][MOST_FLOPS]
        raise Wrong(f'line {line}: this is one cost too many, a block has at most {MOST_FLOPS} flip-flops')
    rows = [0] * len(costs)
    for line, item in given['edges']:
        v, w = edge(line, item, len(costs))
        if rows[v] >> w & 1:
            # an edge is there or not, so the second one was most likely meant to be another
            raise Wrong(f'line {line}: edge {v}>{w} is given twice')
        rows[v] |= 1 << w
    return Block(costs, rows)


def items_of(text):
    """The items after `costs` and after `edges`, each with its line."""
    given = {}
    for line, words in enumerate(decoded(text).split('\n'), 1):
        word, *rest = words.partition('#')[0].split(None, 1) or ['']
        if word not in ('', 'costs', 'edges'):
            raise Wrong(f'line {line}: unknown word {quoted(word)}; a line starts with costs or edges')
        items = split(''.join(rest))
        if '' in items:
            raise Wrong(f'line {line}: an item is missing beside a comma')
        given.setdefault(word, []).extend((line, item) for item in items)
    if 'costs' not in given:
        raise Wrong('there is no line of costs; a block without flip-flops has the word alone')
    return {'edges': [], **given}


def decoded(text):
    try:
        return text.decode('utf-8-sig')
    except UnicodeDecodeError:
        raise Wrong('this is not a text') from None


def split(items):
    """The items between commas or spaces, an empty one between two commas. A line may end with a comma."""
    items = items.strip().removesuffix(',').rstrip()
    return re.split(r'\s*,\s*|\s+', items) if items else []


def cost(line, item):
    if not re.fullmatch('[0-9]+', item):
        raise Wrong(f'line {line}: {quoted(item)} is no cost; a cost is a number from 0 to {MOST_COST}')
    if number(item) > MOST_COST:
        raise Wrong(f'line {line}: cost {quoted(item)} is above {MOST_COST}')
    return number(item)


def edge(line, item, n):
    ends = re.fullmatch('([0-9]+)>([0-9]+)', item)
    if not ends:
        raise Wrong(f'line {line}: {quoted(item)} is no edge; the edge from 0 to 1 is 0>1')
    v, w = map(number, ends.groups())
    if max(v, w) >= n:
        raise Wrong(f'line {line}: edge {quoted(item)} names a flip-flop that is not there; {flops(n)}')
    return v, w


def number(digits):
    # eleven digits are above every limit, and int takes no text of many thousand
    return int(digits.lstrip('0')[:11] or '0')


def quoted(text):
    return repr(text if len(text) <= 40 else text[:40] + '..')


# ---- what the scripts do alike

def take(name, meaning):
    """What the bytes of a file mean; `-` is standard input."""
    with open(0 if name == '-' else name, 'rb', closefd=name != '-') as source:
        content = source.read()
    try:
        return meaning(content)
    except Wrong as wrong:
        raise Wrong(f'{"standard input" if name == "-" else name}: {wrong}') from None


def put(name, content):
    """Writes what is complete by now, so that a refusal has written nothing; `-` is standard output."""
    with open(1 if name == '-' else name, 'wb', closefd=name != '-') as target:
        target.write(content)


def run(script):
    """Runs a script; what it refuses is a message and status 1."""
    try:
        script()
    except Wrong as wrong:
        fail(wrong)
    except OSError as error:
        fail(f'{error.filename}: {error.strerror}' if error.filename else error.strerror)


def fail(message):
    name = re.sub('.*/', '', sys.argv[0])
    sys.exit(f'{name}: {message}')
