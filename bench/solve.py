#!/usr/bin/env python3
"""Solves the blocks of the suite with clingo and times it: solve.py TIMES FACTS OUT.

TIMES is what compare wrote: clingo must find the same cost and the same set, else this stops. Timed are the whole process and, in runs apart, its solving
alone: processor time, user and system, since the wall clock counts what else the machine does. Each time is the least of REPEATS runs.
"""
import json
import os
import sys

REPEATS = 3
LIMIT = 10  # seconds for a block
HERE = os.path.dirname(os.path.abspath(__file__))
# The strongest of the settings that were tried: with it no block takes longer than the process itself does to start.
CLINGO = ["clingo", "--outf=2", "--opt-strategy=usc,k,0,7", f"--time-limit={LIMIT}", os.path.join(HERE, "feedback.lp")]


def run(arguments, out, err):
    """The seconds of processor time that a process takes."""
    to = os.O_WRONLY | os.O_CREAT | os.O_TRUNC
    files = [(os.POSIX_SPAWN_OPEN, 1, out, to, 0o644), (os.POSIX_SPAWN_OPEN, 2, err, to, 0o644)]
    child = os.posix_spawnp(arguments[0], arguments, os.environ, file_actions=files)
    used = os.wait4(child, 0)[2]
    return used.ru_utime + used.ru_stime


def answer(path):
    """Cost and mask of the best set, or None where clingo did not come to an end."""
    with open(path) as file:
        result = json.load(file)
    if result["Result"] != "OPTIMUM FOUND":
        return None
    best = result["Call"][-1]["Witnesses"][-1]
    mask = sum(1 << int(atom[4:-1]) for atom in best["Value"])  # cut(V)
    return best["Costs"][0], mask


def parts(path):
    """The seconds of grounding and of solving that times.lp wrote."""
    with open(path) as file:
        words = file.read().split()
    return float(words[0]), float(words[1])


def solve(facts, scratch):
    """Cost and mask, and the least times of whole process, grounding and solving; or None."""
    out, err = os.path.join(scratch, "clingo.out"), os.path.join(scratch, "clingo.err")
    whole, ground, work = [], [], []
    for _ in range(REPEATS):
        whole.append(run(CLINGO + [facts], out, err))
        found = answer(out)
        if found is None:
            return None
        run(CLINGO + [os.path.join(HERE, "times.lp"), facts], out, err)
        one, other = parts(err)
        ground.append(one)
        work.append(other)
    return found, min(whole), min(ground), min(work)


def main():
    times, facts, target = sys.argv[1:]
    with open(times) as file:
        lines = [line.rstrip("\n").split("\t") for line in file if not line.startswith("#")]
    with open(target, "w") as out:
        out.write("block\tprocess\tground\tsolve\n")
        for line in lines[1:]:
            block = dict(zip(lines[0], line))
            solved = solve(os.path.join(facts, block["block"] + ".lp"), os.path.dirname(target))
            if solved is None:
                out.write(f"{block['block']}\tlate\tlate\tlate\n")
                continue
            found, *seconds = solved
            if block["buddy"] != "refused" and found != (int(block["cost"]), int(block["mask"])):
                sys.exit(f"block {block['block']}: clingo finds cost {found[0]} and mask {found[1]}, pick {block['cost']} and {block['mask']}")
            out.write("\t".join([block["block"]] + [f"{1e9 * s:.0f}" for s in seconds]) + "\n")


main()
