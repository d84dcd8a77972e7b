#!/usr/bin/env python3
"""perf/python.py [--sizes 10000,1000000] [--keys dense,rand8,url] [--repeats N]: the map in Python beside others.

Prints a table of nanoseconds of `artmap.Art`, and its ratios to `sortedcontainers.SortedDict`, to a `dict`, and to a
sorted list by `bisect` with a dict beside it, all of one run. Each is timed in a process of its own, in turn; the
least of the repeats counts, in processor time. artmap must be importable, and sortedcontainers (Debian's
python3-sortedcontainers).

Keys that are looked up are new objects, in another order than they went in. A value is None. A range is ten keys from
one on, a prefix some hundred pairs: of `rand8` keys, none has so many. From sorted and copy are told for each pair.
Into a list only the last 1000 keys are put. Memory is what the process has more, with keys that nobody else holds.
"""
import argparse
import bisect
import gc
import json
import random
import subprocess
import sys
import time

STEPS = ("get", "miss", "put", "replace", "delete", "iterate", "items", "range of 10", "prefix of 100", "from sorted",
         "copy", "bytes")
MAPS = ("Art", "SortedDict", "dict", "bisect")
FEW, LAST = 20_000, 1000


def keys_of(kind, size):
    """Keys in the order in which they go in."""
    rng = random.Random(7)
    if kind == "dense":
        keys = [b"%010d" % at for at in range(size)]
    elif kind == "rand8":
        keys = [*{rng.randbytes(8) for _ in range(size)}]
    else:
        keys = [b"https://host%07d.example.org/%s/%02d\0" % (at // 100, rng.choice([b"news", b"shop"]), at % 100)
                for at in range(size)]
    rng.shuffle(keys)
    return keys


def fresh(keys, seed):
    """The same keys as new objects, in another order."""
    keys = [bytes(bytearray(it)) for it in keys]
    random.Random(seed).shuffle(keys)
    return keys


class Listed:
    """A sorted list of keys, and a dict."""

    def __init__(self, pairs=()):
        self.values = dict(pairs)
        self.keys = sorted(self.values)

    def __getitem__(self, key):
        return self.values[key]

    def __contains__(self, key):
        return key in self.values

    def __setitem__(self, key, value):
        if key not in self.values:
            bisect.insort(self.keys, key)
        self.values[key] = value

    def __delitem__(self, key):
        del self.values[key]
        del self.keys[bisect.bisect_left(self.keys, key)]

    def __iter__(self):
        return iter(self.keys)

    def items(self):
        values = self.values
        return ((key, values[key]) for key in self.keys)

    def from_on(self, key):
        keys = self.keys
        return (keys[at] for at in range(bisect.bisect_left(keys, key), len(keys)))

    def between(self, low, high):
        keys, values = self.keys, self.values
        return ((key, values[key]) for key in keys[bisect.bisect_left(keys, low) : bisect.bisect_left(keys, high)])

    def copy(self):
        made = Listed()
        made.values, made.keys = self.values.copy(), self.keys.copy()
        return made


def made(name):
    """The class of a map, and how its keys from one on and its pairs with a prefix are walked along."""
    def from_on(it, key):
        return it.irange(key)

    if name == "Art":
        from artmap import Art

        return Art, from_on, Art.prefix
    if name == "SortedDict":
        from sortedcontainers import SortedDict

        def with_prefix(it, front):
            end = front[:-1] + bytes([front[-1] + 1])
            return ((key, it[key]) for key in it.irange(front, end, (True, False)))

        return SortedDict, from_on, with_prefix
    if name == "dict":
        return dict, None, None
    return Listed, Listed.from_on, lambda it, front: it.between(front, front[:-1] + bytes([front[-1] + 1]))


def timed(call, count):
    gc.collect()
    gc.disable()
    began = time.process_time_ns()
    call()
    ns = time.process_time_ns() - began
    gc.enable()
    return ns / count


def used():
    with open("/proc/self/statm", encoding="ascii") as file:
        return int(file.read().split()[1]) * 4096


def memory(name, kind, size):
    """The bytes of a pair, with its key. (The keys come from another process, which leaves no blocks to be used again.)"""
    words = [sys.executable, "-B", __file__, "--one", "keys", kind, str(size), "0"]
    text = subprocess.run(words, check=True, stdout=subprocess.PIPE).stdout
    new, (ends, joined) = made(name)[0], text.split(b"\n", 1)
    length = int(ends)
    gc.collect()
    before, count = used(), len(joined) // length
    if name == "bisect":
        it = new((joined[at * length : (at + 1) * length], None) for at in range(count))
    else:
        it = new()
        for at in range(count):
            it[joined[at * length : (at + 1) * length]] = None
    return (used() - before) / count


def times(name, kind, size, seed):
    """The nanoseconds of each step of a map."""
    new, from_on, with_prefix = made(name)
    keys, found = keys_of(kind, size), {}
    last = LAST if name == "bisect" and size > 100_000 else size
    it = new((key, None) for key in keys[:-last])
    looked, gone = fresh(keys, seed), fresh(keys[-last:], seed + 1)
    missing = [key[:-2] + b"~" + key[-1:] for key in looked]
    few = fresh(keys, seed + 2)[:FEW]

    def put():
        for key in keys[-last:]:
            it[key] = None

    def get():
        for key in looked:
            it[key]

    def miss():
        for key in missing:
            key in it

    def replace():
        for key in looked:
            it[key] = None

    def iterate():
        for _ in it:
            pass

    def items():
        for _ in it.items():
            pass

    def range_of_ten():
        for key in few:
            left = 10
            for _ in from_on(it, key):
                left -= 1
                if not left:
                    break

    def prefix():
        for key in few[: FEW // 10]:
            for _ in with_prefix(it, key[:8] if kind == "dense" else key[:27]):
                pass

    def delete():
        for key in gone:
            del it[key]

    found["put"] = timed(put, last)
    found["get"], found["miss"] = timed(get, size), timed(miss, size)
    found["replace"] = timed(replace, size)
    found["iterate"], found["items"] = timed(iterate, size), timed(items, size)
    if from_on:
        found["range of 10"] = timed(range_of_ten, len(few))
        if kind != "rand8":
            found["prefix of 100"] = timed(prefix, len(few[: FEW // 10]))
    found["copy"] = timed(it.copy, size)
    found["delete"] = timed(delete, last)
    pairs = [(key, None) for key in sorted(keys)]
    found["from sorted"] = timed(lambda: new(pairs), size)
    return found


def one(name, kind, size, seed):
    """The numbers of one process."""
    words = [sys.executable, "-B", __file__, "--one", name, kind, str(size), str(seed)]
    return json.loads(subprocess.run(words, check=True, stdout=subprocess.PIPE, text=True).stdout)


def least(rows):
    return {step: min(it[step] for it in rows) for step in rows[0]}


def main():
    parser = argparse.ArgumentParser(description=__doc__, formatter_class=argparse.RawDescriptionHelpFormatter)
    parser.add_argument("--sizes", default="10000,1000000")
    parser.add_argument("--keys", default="dense,rand8,url")
    parser.add_argument("--repeats", type=int, default=3)
    parser.add_argument("--one", nargs=4, help=argparse.SUPPRESS)
    given = parser.parse_args()
    if given.one:
        name, kind, size, seed = given.one
        if name == "keys":
            keys = keys_of(kind, int(size))
            sys.stdout.buffer.write(b"%d\n" % len(keys[0]) + b"".join(keys))
            return
        told = {"bytes": memory(name, kind, int(size))} if seed == "memory" else times(name, kind, int(size), int(seed))
        print(json.dumps(told))
        return
    heads = [(kind, int(size)) for size in given.sizes.split(",") for kind in given.keys.split(",")]
    columns = {}
    for kind, size in heads:
        rows = {name: [] for name in MAPS}
        for seed in range(given.repeats):
            for name in MAPS:
                print(f"{name}, {kind}, {size}, {seed}", file=sys.stderr, flush=True)
                rows[name].append(one(name, kind, size, seed))
        columns[kind, size] = {name: {**least(rows[name]), **one(name, kind, size, "memory")} for name in MAPS}
    print(f"| ns | {' | '.join(f'{kind}, {size:.0e}' for kind, size in heads)} |\n|---|{'---|' * len(heads)}")
    for step in STEPS:
        cells = []
        for head in heads:
            found = [columns[head][name].get(step) for name in MAPS]
            ratios = ", ".join(f"{found[0] / it:.2f}" if found[0] and it else "-" for it in found[1:])
            cells.append(f"{found[0]:.0f}: {ratios}" if found[0] else "-")
        print(f"| {step} | {' | '.join(cells)} |")


if __name__ == "__main__":
    main()
