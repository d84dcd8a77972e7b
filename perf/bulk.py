#!/usr/bin/env python3
"""perf/bulk.py [--sizes N,N] [--rounds N] [PROGRAM]: many pairs at once, in a map and in Rust's B-tree.

Prints a table for each size: milliseconds of processor time for each step, the least of the rounds, and their ratio; of
walks and of `compact` nanoseconds a pair stand beside. Programs take turns, and must answer the same. PROGRAM is one
that was built of perf/crates/bench_bulk; without it, it is built here without proofs and without checks at run time
(tools/quick.py), which is near the proved one and not the same. It needs rustc, and nothing else than ./bench does.
"""
import argparse
import os
import shutil
import subprocess
import sys
import tempfile

TOP = os.path.dirname(os.path.dirname(os.path.abspath(__file__)))
sys.path.insert(0, f"{TOP}/tools")
import quick

NAME = "bench_bulk"
LINES = f"""bench_strings: libc
{NAME}: art_bytes art_nodes art_arena art_operations art_walks art_map art_set bench_strings
"""
# Steps whose cost is told of a pair, too.
OF_A_PAIR = ("walk,shuffled", "compact", "walk,compacted")


def built(room):
    """Builds the program in a workspace of its own, and returns its path."""
    top = f"{room}/top"
    shutil.copytree(f"{TOP}/crates", f"{top}/crates", ignore=shutil.ignore_patterns("out"))
    for crate in (NAME, "bench_strings"):
        source = f"{TOP}/perf/crates/{crate}/src"
        os.makedirs(f"{top}/crates/{crate}/src")
        for it in os.listdir(source):
            shutil.copyfile(f"{source}/{it}", f"{top}/crates/{crate}/src/{it.removesuffix('.in')}")
    with open(f"{TOP}/crates.txt", encoding="utf-8") as file, open(f"{top}/crates.txt", "w", encoding="utf-8") as to:
        to.write(file.read() + LINES)
    said = quick.build(top, NAME, f"{room}/{NAME}", quick.BARE)
    if said:
        sys.exit(f"perf/bulk.py: {NAME} was not built:\n{said}")
    return f"{room}/{NAME}"


def steps_of(program, size):
    """What each step took, in nanoseconds, and what it answered."""
    said = subprocess.run([program], input=f"{size}\n", check=True, capture_output=True, text=True).stdout
    rows = [line.split() for line in said.splitlines()]
    return {step: int(took) for step, took, _ in rows}, {step: answer for step, _, answer in rows}


def table(programs, size, rounds):
    least = {name: {} for name in programs}
    for turn in range(rounds):
        answers = []
        for name in sorted(programs, reverse=turn % 2 == 1):
            took, answer = steps_of(programs[name], size)
            answers.append(answer)
            for step, it in took.items():
                least[name][step] = min(it, least[name].get(step, it))
        assert answers[0] == answers[1], f"they answer differently: {answers}"
    print(f"\n| {size} pairs | btree, ms | here, ms | ratio | btree, ns a pair | here |\n|---|---:|---:|---:|---:|---:|")
    for step, here in least["here"].items():
        tree = least["btree"][step]
        of_a_pair = f"{tree / size:.0f} | {here / size:.0f}" if step in OF_A_PAIR else " |"
        print(f"| {step} | {tree / 1e6:.3g} | {here / 1e6:.3g} | {here / max(tree, 1):.2f} | {of_a_pair} |", flush=True)


def main():
    parser = argparse.ArgumentParser(description=__doc__, formatter_class=argparse.RawDescriptionHelpFormatter)
    parser.add_argument("--sizes", default="100000,1000000")
    parser.add_argument("--rounds", type=int, default=3)
    parser.add_argument("program", nargs="?")
    given = parser.parse_args()
    with tempfile.TemporaryDirectory() as room:
        subprocess.run(["rustc", "-O", "-o", f"{room}/btree", f"{TOP}/perf/peer/src/bin/bulk.rs"], check=True)
        programs = {"here": given.program or built(room), "btree": f"{room}/btree"}
        for size in given.sizes.split(","):
            table(programs, int(size), given.rounds)


if __name__ == "__main__":
    main()
