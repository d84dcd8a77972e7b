#!/usr/bin/env python3
"""Counts the instructions of a line of art_index, with what is read ahead of it and without, by valgrind's callgrind.

    tests/ahead.py [--program PATH] [WORD]    at the top of the repository, after rt ci; WORD: only kinds of lines with it
From 16,384 records on, nodes are read ahead of lines. So each kind of line is counted over one record fewer and over as
many: the difference is what reading ahead costs a line. All records are tenant 1's, among them a chain of 150 nodes,
one below the other. A line that looks nothing up must cost little more: one that is bad, one with bounds out of order,
one that puts; so must a listing or a drop of a tenant that has nothing. So must look-ups that find nothing, which are
not read ahead for a while. One that finds reads its way twice, and so it does again some time after others found nothing.
Each takes fewer than ALONE instructions by itself, so none walks a map aside.
"""
import os
import random
import re
import shutil
import subprocess

import cases

FEW, CHAIN, LINES, SEED = 16384, 150, 4096, 58
# So many instructions more at least takes a line that finds where nodes are read ahead of it.
AHEAD = 300
# No line of these kinds takes so many instructions: one that walked a map aside would.
ALONE = 20_000
COUNTED = re.compile(rb"Collected\s*: (\d+)")


def records(of):
    """The keys of a chain and many others, in no order."""
    chain = ["01" * it + "02" for it in range(CHAIN)]
    others = {f"03{of.randbytes(7).hex()}" for _ in range(FEW - CHAIN)}
    return chain + sorted(others, key=lambda it: it[::-1])


def kinds(of, keys):
    """Lines by their kind, and how many instructions more one may take where nodes are read ahead."""
    some = keys[CHAIN:-1]
    return {
        "bad": (lambda: "lost 1 00", 400),
        "bounds": (lambda: "span 1 0302 0301", 400),
        "nspan, bounds": (lambda: "nspan 1 2 1", 400),
        "put": (lambda: f"put 1 {of.choice(some)} 63", 400),
        "list of a tenant that has nothing": (lambda: "list 2 -", 500),
        "drop of a tenant that has nothing": (lambda: "drop 2", 500),
        "list of such a one, by a long prefix": (lambda: f"list 2 {'01' * 80}", 1000),
        "get that finds nothing": (lambda: f"get 1 03{of.randbytes(7).hex()}", 400),
        "get that finds": (lambda: f"get 1 {of.choice(some)}", 2400),
    }


def count(program, lines):
    """How many instructions the program takes for some lines."""
    words = ["valgrind", "--tool=callgrind", "--callgrind-out-file=/dev/null", program]
    text = "".join(f"{it}\n" for it in lines).encode()
    ran = subprocess.run(words, input=text, capture_output=True, timeout=300)
    found = COUNTED.search(ran.stderr)
    assert ran.returncode == 0 and found, f"status {ran.returncode}: {ran.stderr[-300:]}"
    return int(found[1])


def costs_little_more(program, puts, base, lines, most):
    """Where nodes are read ahead a line takes at most so many instructions more."""
    alone, ahead = ((count(program, puts[:it] + lines) - base[it]) / LINES for it in (FEW - 1, FEW))
    assert ahead <= alone + most, f"{alone:.0f} instructions, {ahead:.0f} where nodes are read ahead: over {most} more"
    assert alone < ALONE, f"{alone:.0f} instructions, where none of these lines takes {ALONE}"
    return f"{alone:.0f} instructions, {ahead:.0f} where nodes are read ahead"


def goes_on_after_a_pause(program, puts, base, misses, hits):
    """Look-ups that find are read ahead again, but for the first of them, after others that found nothing."""

    def more(lines):
        ahead, alone = (count(program, puts[:it] + lines) - base[it] for it in (FEW, FEW - 1))
        return (ahead - alone) / LINES

    # (what is made ready once is in both)
    alone, after = more(hits + hits) - more(hits), more(misses + hits) - more(misses)
    assert alone > AHEAD, f"{alone:.0f} instructions more: fewer than {AHEAD}, so little is read ahead"
    assert after > 0.9 * alone, f"{after:.0f} instructions more after a pause, {alone:.0f} without one"
    return f"{after:.0f} instructions more after a pause, {alone:.0f} without one"


def main():
    given = cases.given(__doc__, "--program=PATH")
    program, told = cases.programs(given)[0], cases.Tally(given.word)
    if not shutil.which("valgrind"):
        print("there is no valgrind here, so nothing is counted")
        print("0 passed, 0 failed")
        return
    of = random.Random(SEED)
    keys = records(of)
    puts = [f"put 1 {it} 6162" for it in keys]
    base = {it: count(program, puts[:it]) for it in (FEW - 1, FEW)}
    for name, (line, most) in kinds(of, keys).items():
        told.case(name, costs_little_more, program, puts, base, [line() for _ in range(LINES)], most)
    lines = {name: [line() for _ in range(LINES)] for name, (line, _) in kinds(of, keys).items()}
    misses, hits = lines["get that finds nothing"], lines["get that finds"]
    told.case("get that finds, after a pause", goes_on_after_a_pause, program, puts, base, misses, hits)
    told.end()


if __name__ == "__main__":
    os.chdir(os.path.dirname(os.path.dirname(os.path.realpath(__file__))))
    main()
