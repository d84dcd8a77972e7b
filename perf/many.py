#!/usr/bin/env python3
"""perf/many.py [--lines N] [--records N] [--seed N] [--beside PROGRAM] [PROGRAM]: many mixed lines in one go.

It loads records under keys and numbers, and then sends lines of every kind (but `over` of a whole tenant) over the same
keys and numbers, so that what is held stays about as much. After each tenth of the lines it tells the program's memory
and the lines a second. With --beside the same lines go to another program of the language, whose output must be the
same byte by byte, `audit` lines aside where it has none (--no-audit). Status 1: the outputs differ, or memory grew by
more than a twentieth after the first tenth.
"""
import argparse
import hashlib
import os
import random
import subprocess
import sys
import threading
import time

PROGRAM = "crates/art_index/out/art_index"
PARTS = 10
# Lines of each kind among a thousand; an audit and a dump go over all records, so they come once in so many lines.
MIX = {"get": 330, "find": 90, "put": 190, "del": 90, "over": 40, "list": 40, "span": 40, "nget": 60, "nput": 60}
MIX |= {"ndel": 30, "nspan": 30}
AUDIT_EVERY, DUMP_EVERY = 500_000, 2_000_000


def pools(records, of):
    """Keys by tenant, of four kinds: dense, random, texts with long fronts, and a few bytes; and numbers."""
    keys = []
    for at in range(records // 2):
        tenant = (1, 2, 255, 256, 70000)[at % 5]
        kind = at % 4
        if kind == 0:
            key = at.to_bytes(4, "big")
        elif kind == 1:
            key = of.randbytes(8)
        elif kind == 2:
            key = b"https://example.org/%d/%d/" % (at % 97, at) + b"\0"
        else:
            key = bytes([1 + at % 250]) * (3 + at % 30) + at.to_bytes(4, "big")
        keys.append(b"%d %b" % (tenant, key.hex().encode()))
    numbers = [b"%d %d" % ((1, 2, 3)[at % 3], of.choice((at, -at, of.getrandbits(63)))) for at in range(records // 2)]
    return keys, numbers


class Lines:
    def __init__(self, given):
        self.of = random.Random(given.seed)
        self.keys, self.numbers = pools(given.records, self.of)
        self.words = [word for word, many in MIX.items() for _ in range(many)]
        self.audits = not given.no_audit
        self.made = 0

    def load(self):
        lines = [b"put %b 6162636465666768\n" % it for it in self.keys]
        lines += [b"nput %b 6162636465666768\n" % it for it in self.numbers]
        self.of.shuffle(lines)
        return lines

    def value(self):
        return self.of.randbytes(8).hex().encode()

    def line(self):
        self.made += 1
        if self.made % DUMP_EVERY == 0:
            return b"dump\n"
        if self.made % AUDIT_EVERY == 0 and self.audits:
            return b"audit\n"
        word = self.of.choice(self.words)
        if word[0] == "n":
            at = self.of.choice(self.numbers)
            if word == "nput":
                return b"nput %b %b\n" % (at, self.value())
            if word == "nspan":
                return b"nspan %b %d\n" % (at, min(int(at.split()[1]) + 200, (1 << 63) - 1))
            return b"%b %b\n" % (word.encode(), at)
        at = self.of.choice(self.keys)
        if word in ("put", "over"):
            return b"%b %b %b\n" % (word.encode(), at, self.value())
        if word == "find":
            return b"find %b00ff\n" % at
        if word == "list":
            return b"list %b\n" % at[:-2]
        if word == "span":
            return b"span %b %b\n" % (at, at.split()[1][:-2] + b"ff")
        return b"%b %b\n" % (word.encode(), at)

    def part(self, size):
        return [self.line() for _ in range(size)]


def memory(pid, name):
    with open(f"/proc/{pid}/status") as status:
        return next(int(line.split()[1]) for line in status if line.startswith(name))


class Fed:
    """A program whose output is read as it comes, counted and summed."""

    def __init__(self, program):
        self.ran = subprocess.Popen([program], stdin=subprocess.PIPE, stdout=subprocess.PIPE)
        self.sum, self.bytes, self.refused = hashlib.sha256(), 0, 0
        self.reader = threading.Thread(target=self.read)
        self.reader.start()

    def read(self):
        while piece := os.read(self.ran.stdout.fileno(), 1 << 20):
            self.sum.update(piece)
            self.bytes += len(piece)
            self.refused += piece.count(b"memory\n")

    def send(self, text):
        self.ran.stdin.write(text)
        self.ran.stdin.flush()

    def end(self):
        self.ran.stdin.close()
        self.reader.join()
        return self.ran.wait()


def main():
    words = argparse.ArgumentParser(description=__doc__, formatter_class=argparse.RawDescriptionHelpFormatter)
    words.add_argument("--lines", type=int, default=20_000_000)
    words.add_argument("--records", type=int, default=200_000)
    words.add_argument("--seed", type=int, default=1)
    words.add_argument("--beside")
    words.add_argument("--no-audit", action="store_true")
    words.add_argument("program", nargs="?", default=PROGRAM)
    given = words.parse_args()
    for it in filter(None, (given.program, given.beside)):
        if not os.access(it, os.X_OK):
            words.error(f"there is no program {it}")
    lines = Lines(given)
    fed = [Fed(it) for it in (given.program, given.beside) if it]
    loaded = b"".join(lines.load())
    for it in fed:
        it.send(loaded)
    print("| lines | memory, KiB | most so far, KiB | lines a second |\n|---:|---:|---:|---:|", flush=True)
    seen = []
    for part in range(1, PARTS + 1):
        text = [b"".join(lines.part(100_000)) for _ in range(max(1, given.lines // PARTS // 100_000))]
        start = time.monotonic()
        for piece in text:
            for it in fed:
                it.send(piece)
        took = time.monotonic() - start
        pid = fed[0].ran.pid
        seen.append(memory(pid, "VmHWM"))
        print(f"| {lines.made} | {memory(pid, 'VmRSS')} | {seen[-1]} | {len(text) * 100_000 / took:.0f} |", flush=True)
    statuses = [it.end() for it in fed]
    print(f"{fed[0].bytes} bytes written, sha256 {fed[0].sum.hexdigest()[:16]}, status {statuses[0]}, "
          f"{fed[0].refused} lines refused")
    is_same = len(fed) == 1 or fed[0].sum.digest() == fed[1].sum.digest()
    if given.beside:
        print("the other program writes " + ("the same" if is_same else "something else"))
    is_flat = seen[-1] <= seen[0] * 1.05
    print("memory stays" if is_flat else "memory grows")
    sys.exit(not (is_same and is_flat and statuses[0] == 0))


main()
