"""./test --soak MINUTES [SEED [PROGRAM]]: plays random scripts through the program, and holds its replies against
reference.py.

Each script has every line of the language, over keys that branch at each width a node can have, keys that share long
fronts, and lines that spell nothing. Input and output are cut at random; in some runs a read or a write fails, one
request for memory of many is refused, or the address space is small. A reply `memory` is taken where the definition
allows it, and the line then counts as not made. At a difference it prints the seed and the shortest script that it
found, and ends with status 1. At the end it tells what it tried. Several may run side by
side. PROGRAM: another build of art_index. Where it is left out, the proved program is played, and where that is not
built, one that is built at once, without proofs (tools/quick.py). It is no part of the gate.
"""
import collections
import os
import random
import resource
import subprocess
import sys
import time

import cases
import limits
from reference import WORDS, Reference, parsed

program, shim, least = "crates/art_index/out/art_index", None, 0
# How often each thing was tried or met.
told = {it: collections.Counter() for it in ("faults", "met", "lines", "refused")}
TENANTS = (0, 1, 2, 10, 12, 255, 256, 65536, 4294967295)
NUMBERS = (0, 1, -1, 5, -5, 255, 256, -256, 65535, 1 << 32, -(1 << 32), (1 << 63) - 1, -(1 << 63))
REFUSED = b"memory\n"
# Pages of address space beyond what the program takes with nothing stored: from so many on, and up to so many.
SPACES = (4, 300)
ENDS = {"read": b"art_index: read failed\n", "write": b"art_index: write failed\n"}


class Script:
    """Lines made from a seed: a few tenants, and shapes of keys that are drawn once for each script."""

    def __init__(self, seed):
        self.of = random.Random(seed)
        self.tenants = self.of.sample(TENANTS, self.of.randint(1, 4))
        self.alphabet = self.of.sample(range(256), self.of.choice((2, 3, 5, 17, 40, 52, 200)))
        self.front = bytes(self.of.choices((0, 0xAA, 255), k=self.of.choice((0, 0, 1, 3, 16, 17, 40, 600))))
        self.longest = self.of.choice((1, 2, 3, 5))
        self.numbers = list(NUMBERS) + [self.of.getrandbits(64) - (1 << 63) for _ in range(20)]
        self.numbers += range(-30, self.of.choice((0, 30, 60, 300)))
        self.weights = [self.of.choice((1, 3, 10)) for _ in WORDS]

    def key(self):
        cut = self.of.randint(0, len(self.front)) if self.of.random() < 0.05 else len(self.front)
        size = self.of.randint(self.longest - 1, self.longest)
        return self.front[:cut] + bytes(self.of.choices(self.alphabet, k=size))

    def digits(self, text):
        text = text.hex() or "-"
        return text.upper() if self.of.random() < 0.05 else text

    def field(self, kind):
        if kind == "t":
            return str(self.of.choice(self.tenants))
        if kind == "n":
            return str(self.of.choice(self.numbers))
        if kind == "k":
            return self.digits(self.key())
        return self.digits(self.of.randbytes(self.of.choice((0, 1, 2, 3, 8, 9, 63, 64, 65, 200))))

    def line(self):
        word = self.of.choices(list(WORDS), self.weights)[0]
        if word in ("drop", "dump", "audit") and self.of.random() < 0.9:
            word = "put"
        line = " ".join([word, *(self.field(kind) for kind in WORDS[word])]).encode()
        chance = self.of.random()
        if chance < 0.02:
            at = self.of.randrange(len(line) + 1)
            line = line[:at] + self.of.randbytes(self.of.randint(0, 2)) + line[at + self.of.randint(0, 2) :]
        elif chance < 0.022:
            line = b"put 1 %b -" % (b"ab" * self.of.choice((2043, 2044, 2045, 9000)))
        return line.replace(b"\n", b"?")

    def lines(self):
        return [self.line() for _ in range(self.of.choice((5, 50, 300, 1500)))]


class Faults:
    """What goes wrong in a run: nothing, or one thing or two."""

    def __init__(self, seed, size):
        of = random.Random(seed)
        self.kinds = set(of.sample(("read", "write", "memory", "space"), of.choice((0, 1, 1, 2))))
        self.at = {it: of.randint(0, size) for it in ENDS}
        self.given = {"FAULT_SEED": seed % (1 << 31), "FAULT_CUTS": of.choice((0, 1, 2, 7, 100, 5000))}
        self.given.update({f"FAULT_{it.upper()}": self.at[it] for it in ENDS if it in self.kinds})
        if "memory" in self.kinds:
            self.given["FAULT_MEMORY"] = of.choice((2, 5, 30, 500))
        self.space = (least + of.randint(*SPACES)) * limits.PAGE if "space" in self.kinds else None

    def limit(self):
        limits.in_place()
        if self.space:
            resource.setrlimit(resource.RLIMIT_AS, (self.space, self.space))

    def run(self, text):
        env = {"LD_PRELOAD": shim, **{name: str(value) for name, value in self.given.items()}}
        how = {"input": text, "capture_output": True, "env": env, "timeout": 120}
        return subprocess.run([program], preexec_fn=self.limit if self.space else None, **how)


def word_of(line):
    """The word of the command that a line spells."""
    found = parsed(line)
    return found[0] if found else "bad"


def read_of(text, faults):
    """The lines that the program reads, and whether the read after them fails."""
    is_cut = "read" in faults.kinds and faults.at["read"] <= len(text)
    pieces = (text[: faults.at["read"]] if is_cut else text).split(b"\n")
    last = pieces.pop()
    return pieces + [last] * bool(last and not is_cut), is_cut


def difference(lines, is_ended, faults):
    """Plays the lines, and returns what is wrong with what the program says, or None."""
    text = b"\n".join(lines) + b"\n" * is_ended
    ran = faults.run(text)
    said, model, at = ran.stdout, Reference(), 0
    pieces, is_cut = read_of(text, faults)
    ends = {(1, ENDS["read"]) if is_cut else (0, b"")}
    if "write" in faults.kinds and len(said) == faults.at["write"]:
        ends.add((1, ENDS["write"]))
    for line in pieces:
        told["lines"][word_of(line)] += 1
        may_refuse = faults.kinds & {"memory", "space"} and model.may_refuse(line)
        if may_refuse and said.startswith(REFUSED, at):
            at += len(REFUSED)
            told["refused"][word_of(line)] += 1
            continue
        reply = model.reply(line)
        if said.startswith(reply, at):
            at += len(reply)
            continue
        rest = said[at:]
        if len(ends) == 2 and (reply.startswith(rest) or may_refuse and REFUSED.startswith(rest)):
            # (a read after a write that failed is made before the next reply, and may fail too)
            at, ends = len(said), {(1, ENDS["write"]), *([(1, ENDS["read"])] if is_cut else [])}
            break
        return f"to {line[:200]} it says {rest[:300]} and not {reply[:300]}"
    if at != len(said):
        return f"behind the last reply it says {said[at:][:300]}"
    if (ran.returncode, ran.stderr) not in ends:
        return f"it ends with {ran.returncode} and {ran.stderr}, and not {ends}"
    told["met"][f"end by {ran.stderr.decode().strip() or 'the end of the input'}"] += 1
    return None


def shortest(lines, is_wrong):
    """The lines without all that can be left out while something stays wrong."""
    part = max(1, len(lines) // 2)
    while part:
        at = 0
        while at < len(lines):
            fewer = lines[:at] + lines[at + part :]
            if is_wrong(fewer):
                lines = fewer
            else:
                at += part
        part //= 2
    return lines


def play(seed):
    script = Script(seed)
    lines, is_ended = script.lines(), script.of.random() < 0.7
    faults = Faults(seed, sum(map(len, lines)) + len(lines))
    wrong = difference(lines, is_ended, faults)
    if wrong is None:
        return " and ".join(sorted(faults.kinds)) or "nothing"
    fewer = shortest(lines, lambda some: difference(some, is_ended, faults) is not None)
    print(f"seed {seed}: {wrong}\nfaults {faults.kinds} {faults.given} {faults.space}, the last line ended: {is_ended}")
    print(f"shortest script, {len(fewer)} lines: {difference(fewer, is_ended, faults)}")
    sys.stdout.flush()
    sys.stdout.buffer.write(b"\n".join(fewer) + b"\n")
    sys.exit(1)


def is_answering(pages):
    faults = Faults(0, 0)
    faults.kinds, faults.space = {"space"}, pages * limits.PAGE
    faults.given = {"FAULT_CUTS": 5000}
    return faults.run(b"bad\n").stdout == b"bad\n"


def counted(name):
    return ", ".join(f"{number} {it}" for it, number in sorted(told[name].items()) if number) or "none"


def main():
    global program, shim, least
    words = cases.given(__doc__, words=3).words
    if not all(it.isdigit() for it in words[:2]):
        sys.exit(__doc__)
    minutes = int(words[0]) if words else 1
    seed = int(words[1]) if len(words) > 1 else random.randrange(1 << 40)
    program = os.path.abspath(words[2] if len(words) > 2 else program if os.path.exists(program) else cases.kept())
    start, runs = time.monotonic(), 0
    print(f"first seed {seed}, {os.path.relpath(program)}", flush=True)
    shim = cases.shim("fault.c")
    least = limits.least_of(is_answering)
    while time.monotonic() - start < 60 * minutes:
        told["faults"][play(seed + runs)] += 1
        runs += 1
        if runs % 1000 == 0:
            minute = (time.monotonic() - start) / 60
            print(f"{minute:.0f} min: {runs} scripts", file=sys.stderr, flush=True)
    print(f"{runs} scripts, {sum(told['lines'].values())} lines, no difference")
    print(f"scripts by what was to go wrong: {counted('faults')}\nmet: {counted('met')}")
    print(f"lines: {counted('lines')}\nrefused: {counted('refused')}")


if __name__ == "__main__":
    main()
