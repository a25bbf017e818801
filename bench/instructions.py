#!/usr/bin/env python3
"""Instructions per pick, node and join: instructions.py ONCE THRICE NEED BLOCK, with two files of callgrind, for one and for three picks of the block."""
import collections
import sys


def read(path):
    """Instructions spent in each function itself, and how often each was called."""
    own, calls = collections.Counter(), collections.Counter()
    function = callee = None
    with open(path) as file:
        for line in file:
            if line.startswith("fn="):
                function = line[3:].strip()
            elif line.startswith("cfn="):
                callee = line[4:].strip()
            elif line.startswith("calls="):
                calls[callee] += int(line[6:].split()[0])
                next(file)  # what the call costs, which the callee has as its own
            elif line[0].isdigit():
                own[function] += int(line.split()[1])
    return own, calls


def joins_here(function):
    """Whether it is one of the two functions that join by calling each other, under either of the two operations."""
    return "::Rooms::join" in function or "::Rooms::descend" in function


def main():
    once, thrice, need, block = sys.argv[1:]
    (own1, calls1), (own3, calls3) = read(once), read(thrice)
    own = {f: (own3[f] - own1[f]) / 2 for f in own3 if own3[f] > own1[f]}
    total = sum(own.values())
    joins = sum(calls3[f] - calls1[f] for f in calls3 if joins_here(f)) / 2
    joining = sum(cost for f, cost in own.items() if joins_here(f))
    print(f"{block}: {total:,.0f} instructions a pick")
    if int(need):
        print(f"    {int(need):,} nodes made, {total / int(need):.1f} instructions of the whole for each")
    if joins:
        print(f"    {joins:,.0f} joins, {joining / joins:.1f} instructions of joining for each")
    for function, cost in sorted(own.items(), key=lambda item: -item[1])[:10]:
        if cost >= 0.005 * total:
            print(f"    {cost:12,.0f} {100 * cost / total:5.1f}%  {function}")


main()
