#!/usr/bin/env python3
"""Makes the tables of docs/BENCH.md: table.py TIMES CLINGO DOCUMENT.

TIMES is what compare wrote, CLINGO what solve.py wrote; all in nanoseconds. The tables are printed, and stand in DOCUMENT between the two marker lines.
"""
import math
import sys
import textwrap

BEGIN, END = "<!-- bench/run writes from here -->", "<!-- to here -->"


def read(path):
    """The lines of a table as dicts, and the words of its comment lines."""
    with open(path) as file:
        lines = [line.rstrip("\n").split("\t") for line in file]
    notes = [line for line in lines if line[0].startswith("#")]
    lines = [line for line in lines if not line[0].startswith("#")]
    return [dict(zip(lines[0], line)) for line in lines[1:]], notes


def mean(numbers):
    """The geometric mean."""
    return math.exp(sum(map(math.log, numbers)) / len(numbers))


def quantile(numbers, part):
    """The least number that is not below so large a part of them."""
    return sorted(numbers)[max(0, math.ceil(part * len(numbers)) - 1)]


def short(number):
    """Three digits, as a person would write them."""
    if number >= 100:
        return f"{number:,.0f}"
    return f"{number:.1f}" if number >= 10 else f"{number:.2f}"


def four(nanoseconds):
    """Median, geometric mean, 95th percentile and worst, in microseconds."""
    micro = [n / 1000 for n in nanoseconds]
    return [short(x) for x in (quantile(micro, 0.5), mean(micro), quantile(micro, 0.95), max(micro))]


def time_of(block, name):
    """A time, or None where there is none."""
    return None if block[name] in ("refused", "late") else float(block[name])


def groups(blocks):
    """The classes, the blocks by their need, and all."""
    for name in dict.fromkeys(b["class"] for b in blocks):
        yield name, [b for b in blocks if b["class"] == name]
    answered = [b for b in blocks if b["buddy"] != "refused"]
    yield "need 0", [b for b in answered if b["need"] == "0"]
    yield "need 1 to 4,096", [b for b in answered if 0 < int(b["need"]) <= 4096]
    yield "need above 4,096", [b for b in answered if int(b["need"]) > 4096]
    yield "**all**", blocks


def row(cells):
    return "| " + " | ".join(cells) + " |"


def heading(cells):
    return [row(cells), "|" + "---|" * len(cells)]


def beside(blocks, room, peer):
    """A table of one pair of rooms beside a peer, over the blocks that both answer."""
    lines = heading(["blocks", "number", "refused 4", "here: median", "mean", "95%", "worst", "BuDDy: median", "mean", "95%", "worst",
                     "here / BuDDy", "least", "most"])
    for name, members in groups(blocks):
        pairs = [(time_of(b, room), time_of(b, peer)) for b in members if time_of(b, room) and time_of(b, peer)]
        refused = sum(b[room] == "refused" for b in members)
        if not pairs:
            continue
        ratios = [a / b for a, b in pairs]
        lines.append(row([name, str(len(pairs)), str(refused)] + four([a for a, _ in pairs]) + four([b for _, b in pairs])
                         + [short(mean(ratios)), short(min(ratios)), short(max(ratios))]))
    return lines


def memos(blocks):
    """What a short memo room costs, as ratios of two times here."""
    lines = heading(["blocks", "memo 0 / memo 4,096, nodes 4,096", "most", "memo 0 / memo 4,096, nodes 65,536", "most",
                     "memo 0 / memo 65,536, nodes 65,536", "most"])
    for name, members in groups(blocks):
        cells = [name]
        for one, other in (("4096/0", "4096"), ("65536/0", "65536/4096"), ("65536/0", "65536")):
            ratios = [time_of(b, one) / time_of(b, other) for b in members if time_of(b, one) and time_of(b, other)]
            cells += [short(mean(ratios)), short(max(ratios))] if ratios else ["", ""]
        lines.append(row(cells))
    return lines


def solver(blocks):
    """clingo beside pick: the whole process, and its solving alone."""
    lines = heading(["blocks", "number", "clingo, whole process: median", "mean", "95%", "worst", "solving alone: median", "mean", "95%", "worst",
                     "process / here (4,096)", "least", "process / here (65,536)", "least", "solving / here (4,096)", "solving / here (65,536)"])
    for name, members in groups(blocks):
        done = [b for b in members if time_of(b, "process")]
        cells = [name, str(len(done))] + four([float(b["process"]) for b in done]) + four([float(b["solve"]) for b in done])
        for theirs in ("process", "solve"):
            for room in ("4096", "65536"):
                ratios = [float(b[theirs]) / time_of(b, room) for b in done if time_of(b, room)]
                cells += [short(mean(ratios)) if ratios else ""]
                if theirs == "process":
                    cells += [short(min(ratios)) if ratios else ""]
        lines.append(row(cells))
    return lines


def document(blocks, notes):
    rounds = notes[0][1]
    small, large = (float(word) / 1000 for word in notes[0][2:])
    late = sum(b["process"] == "late" for b in blocks)
    refused = sum(b["65536"] == "refused" for b in blocks)
    kinds = len(set(b["costs"] for b in blocks))
    said = (
        f"`bench/run` made these tables: {len(blocks)} seeded blocks, {len(set(b['class'] for b in blocks))} classes with {kinds} kinds of costs (equal, small,"
        f" large), in one run. Times are in microseconds: for pick and BuDDy the least of {rounds} rounds in one process, in each of which each contender has"
        " all blocks in turn; for clingo, which is a process a block, processor time, the least of 3. \"Mean\" is the geometric"
        " mean, a ratio the geometric mean of the blocks' ratios, with the least and the most of them beside it. All contenders found the same cost and"
        " the same set on every block that they answered."
    )
    return [
        *textwrap.wrap(said, 158),
        "",
        f"Both rooms of 4,096 words. (Zeroing two such rooms alone: {short(small)}.)",
        "",
        *beside(blocks, "4096", "buddy"),
        "",
        f"Both rooms of 65,536 words. (Zeroing two such rooms alone: {short(large)}.)",
        "",
        *beside(blocks, "65536", "buddy"),
        "",
        "A short memo room, as ratios of two times here:",
        "",
        *memos(blocks),
        "",
        f"clingo on the same blocks, also on the {refused} that a room of 65,536 refuses" + (f"; {late} not solved in 10 seconds" if late else "") + ":",
        "",
        *solver(blocks),
    ]


def main():
    times, clingo, path = sys.argv[1:]
    blocks, notes = read(times)
    for block, more in zip(blocks, read(clingo)[0]):
        block.update(more)
    made = document(blocks, notes)
    print("\n".join(made))
    with open(path) as file:
        text = file.read()
    if text.count(BEGIN) != 1 or text.count(END) != 1:
        sys.exit(f"{path} lacks its marker lines")
    before, rest = text.split(BEGIN)
    after = rest.split(END)[1]
    with open(path, "w") as file:
        file.write(before + BEGIN + "\n\n" + "\n".join(made) + "\n\n" + END + after)


main()
