#!/usr/bin/env python3
"""perf/kinds.py [--repeats N] BEFORE AFTER: two builds of art_index, over trees all of whose nodes have as many children.

Each key set has all keys of four bytes from an alphabet of so many, of one tenant, in a mixed order, so that each inner
node below the tenant's front has just that number of children. Printed are, of both programs, bytes of peak memory a
record, and nanoseconds of processor time a record of its `put`, and of a `get`, a `del` and a listing after that; the
least of the repeats, the programs in turn, and the second's part of the first.
"""
import argparse
import itertools
import os
import random
import tempfile

CHILDREN = (12, 17, 20, 24, 28, 32, 33)
VALUE = b"6162636465666768"


def used(program, path):
    """Processor time in nanoseconds, and peak memory in bytes, of a program that answers the lines of a file."""
    pid = os.fork()
    if pid == 0:
        os.dup2(os.open(path, os.O_RDONLY), 0)
        os.dup2(os.open("/dev/null", os.O_WRONLY), 1)
        os.execv(program, [program])
    _, status, of = os.wait4(pid, 0)
    assert status == 0, f"{program} ended with {status}"
    return (of.ru_utime + of.ru_stime) * 1e9, of.ru_maxrss * 1024


def scripts(room, children):
    """Files of lines: the load alone, and the load with more after it; and how many keys there are."""
    of = random.Random(children)
    alphabet = sorted(of.sample(range(256), children))
    keys = [bytes(it).hex().encode() for it in itertools.product(alphabet, repeat=4)]
    load = [b"put 7 %b %b\n" % (key, VALUE) for key in of.sample(keys, len(keys))]
    more = {"put": [], "get": [b"get 7 %b\n" % key for key in of.sample(keys, len(keys))], "list": [b"list 7 -\n"],
            "del": [b"del 7 %b\n" % key for key in of.sample(keys, len(keys))]}  # fmt: skip
    for name, lines in more.items():
        with open(f"{room}/{name}", "wb") as file:
            file.writelines(load + lines)
    return list(more), len(keys)


def main():
    words = argparse.ArgumentParser(description=__doc__, formatter_class=argparse.RawDescriptionHelpFormatter)
    words.add_argument("--repeats", type=int, default=5)
    words.add_argument("programs", nargs=2)
    given = words.parse_args()
    for it in given.programs:
        if not os.access(it, os.X_OK):
            words.error(f"there is no program {it}")
    print("| Children | Records | What | Before | After | Ratio |\n|---:|---:|---|---:|---:|---:|")
    for children in CHILDREN:
        with tempfile.TemporaryDirectory() as room:
            names, count = scripts(room, children)
            times = {(name, it): [] for name in names for it in (0, 1)}
            peaks = [0, 0]
            for _ in range(given.repeats):
                for name in names:
                    for it, program in enumerate(given.programs):
                        time, peak = used(program, f"{room}/{name}")
                        times[name, it].append(time / count)
                        peaks[it] = max(peaks[it], peak / count) if name == "put" else peaks[it]
            rows = [("bytes a record", *peaks)]
            for name in names:
                part = [min(times[name, it]) - (min(times["put", it]) if name != "put" else 0) for it in (0, 1)]
                rows.append((f"{name}, ns", *part))
            for what, before, after in rows:
                print(f"| {children} | {count} | {what} | {before:.1f} | {after:.1f} | {after / before:.2f} |", flush=True)


main()
