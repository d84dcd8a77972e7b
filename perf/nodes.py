#!/usr/bin/env python3
"""Compares two programs of perf/crates/bench_nodes, each over an art_nodes of its own: instructions and nanoseconds of an
indirect node of 17, 32 and 48 children, by step.

    perf/nodes.py [--rounds 100] [--times 5000] BEFORE AFTER
Instructions are counted by callgrind: of a long run less those of a short one. Times are processor time, the least of
many short runs, the programs in turn, with the ratio of the second to the first. Both programs must answer the same.
"""
import argparse
import os
import re
import shutil
import subprocess

COUNTS = (17, 32, 48)
STEPS = {
    "look-up, hit": 1,
    "look-up, miss": 2,
    "from the front, a child": 3,
    "from the back, a child": 4,
    "the first of a range": 5,
    "a range of half the bytes, a child": 6,
    "write a new one, ascending": 7,
    "write a new one, scattered": 8,
    "remove": 9,
    "remove, and write again": 10,
    "write over": 11,
}
# A node that is built and emptied is told without what it takes to build it. To write over asks for room: of 48
# children that step has 47.
RANGE, BUILD, REMOVE, OVER = 6, 8, 9, 11
LONG, SHORT = 300, 100


def shape(step, count):
    """How many children the node has, and how many calls or children one step is."""
    count = min(count, 47) if step == OVER else count
    met = sum(60 <= at * 256 // count < 200 for at in range(count))
    return count, met if step == RANGE else count


def asked(step, count, times):
    return f"{step} {shape(step, count)[0]} {times}\n"


def instructions(program, step, count):
    """Of one call."""
    seen = []
    for times in (SHORT, LONG):
        words = ["valgrind", "--tool=callgrind", "--callgrind-out-file=/dev/null", program]
        ran = subprocess.run(words, input=asked(step, count, times), check=True, capture_output=True, text=True)
        seen.append(int(re.search(r"Collected : (\d+)", ran.stderr)[1]))
    return (seen[1] - seen[0]) / (LONG - SHORT) / shape(step, count)[1]


def nanoseconds(programs, step, count, given):
    """Of one call of each program, the least of the rounds."""
    least = [float("inf")] * len(programs)
    for turn in range(given.rounds):
        answers = set()
        for at in range(len(programs)):
            at = (at + turn) % len(programs)
            words = asked(step, count, given.times)
            ran = subprocess.run([programs[at]], input=words, check=True, capture_output=True, text=True)
            took, answer = map(int, ran.stdout.split())
            answers.add(answer)
            least[at] = min(least[at], took / given.times / shape(step, count)[1])
        assert len(answers) == 1, f"step {step} answers {answers}"
    return least


def table(title, cell):
    """A row for each step, a column for each number of children: what `cell` shows of them."""
    print(f"\n{title}:\n\n| |{''.join(f' {count} children |' for count in COUNTS)}\n|---|{'---:|' * len(COUNTS)}")
    for shown, step in STEPS.items():
        print(f"| {shown} | {' | '.join(cell(step, count) for count in COUNTS)} |", flush=True)


def main():
    parser = argparse.ArgumentParser(description=__doc__, formatter_class=argparse.RawDescriptionHelpFormatter)
    parser.add_argument("--rounds", type=int, default=100)
    parser.add_argument("--times", type=int, default=5000)
    parser.add_argument("before")
    parser.add_argument("after")
    given = parser.parse_args()
    programs = [given.before, given.after]
    if not shutil.which("valgrind"):
        parser.error("valgrind is not on the PATH")
    for it in programs:
        if not os.access(it, os.X_OK):
            parser.error(f"there is no program {it}")

    def costs(of, step, count):
        found = of(step, count)
        return [all - build for all, build in zip(found, of(BUILD, count))] if step == REMOVE else found

    def counted(step, count):
        found = costs(lambda *call: [instructions(it, *call) for it in programs], step, count)
        return ", ".join(f"{it:.0f}" for it in found)

    def timed(step, count):
        before, after = costs(lambda *call: nanoseconds(programs, *call, given), step, count)
        return f"{before:.1f}, {after:.1f}: {after / max(before, 0.01):.1f}"

    table("Instructions", counted)
    table("Nanoseconds", timed)


if __name__ == "__main__":
    main()
