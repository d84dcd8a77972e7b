#!/usr/bin/env python3
"""Runs art_index where memory or the stack is short: nobody dies, no reply is lost, and what was stored is dumped.

    tests/limits.py [--program PATH] [--quick] [WORD]    at the top of the repository, after rt ci; WORD: only what has it
                                                         in its name; --quick: over a build without proofs, under
                                                         fewer limits
The address space is limited by the page, from the least at which the program answers to where all that is put has room.
Under each limit some thousand puts are answered `new` or `memory`, and then a line is answered, of each kind in turn; a
dump tells exactly what was answered `new`. Where no slab can double it grows by less. And the stack is limited: 64 KiB are
enough for any line of a proved build.
"""
import collections
import ctypes
import functools
import random
import resource
import signal
import subprocess

import cases
from reference import WORDS, Reference

PAGE = resource.getpagesize()
PUTS, SEED = 3000, 7
# Pages beyond the least, at each of which a dump is asked for; for other lines, each so many of them.
PAGES, STEP = 200, 9
# With --quick of these numbers one of so many.
SAMPLED = 4
# KiB.
STACKS = (64, 96, 128)
# So many records that lines are read ahead, and what is asked of each.
AHEAD, READ_AHEAD = 17_000, ((b"put", b" 61"), (b"get", b""))
# Puts; the leaves of a slab that has only doubled; and spaces in MiB in which such a slab can't double once more.
MANY, DOUBLED, SPACES = 140_000, 1 << 17, (27, 28, 29, 30)
# (Linux's ADDR_NO_RANDOMIZE: what a program takes to begin with is then the same in each run)
IN_PLACE = 0x0040000
LIBC = ctypes.CDLL(None)


def fill():
    """Puts that make nodes of each kind and long prefixes, in no order."""
    of = random.Random(SEED)
    keys = [it.to_bytes(2) + b"\x07" * of.choice((0, 0, 0, 30)) for it in of.sample(range(1 << 16), PUTS)]
    values = [of.randbytes(of.choice((1, 9, 40))) for _ in keys]
    return [b"put %d %b %b" % (key[0] % 3, *(it.hex().encode() for it in (key, value))) for key, value in zip(keys, values)]


FILL = fill()
ONE = FILL[0].split()[2]
# A line of each word, on a key of the first put or beside it, and one that spells nothing.
LAST = {
    "put": b"put 0 %b 61" % (b"ab" * 2000),
    "over": b"over 0 07 62",
    "get": b"get 0 %b" % ONE,
    "find": b"find 0 %b00" % ONE,
    "del": b"del %d %b" % (int(ONE[:2], 16) % 3, ONE),
    "list": b"list 1 -",
    "span": b"span 2 00 ff",
    "nput": b"nput 1 -5 61",
    "nget": b"nget 1 -5",
    "ndel": b"ndel 1 -5",
    "nspan": b"nspan 1 -9 9",
    "drop": b"drop 1",
    "dump": b"dump",
    "audit": b"audit",
    "bad": b"x" * 9000,
}

WHOLE = b"ab" * 2040
LONG = [*FILL, *LAST.values(), b"put 9 %b -" % WHOLE, b"find 9 %b00" % WHOLE, b"list 9 %b" % WHOLE, b"audit", b"dump"]
LONG += [b"put 8 0a %b" % WHOLE, b"get 8 0a", b"over 8 0a0b %b" % WHOLE[:4000], b"dump", b"drop 8", b"dump"]


def in_place():
    """Has the program that is started next have the same addresses in each run."""
    LIBC.personality(IN_PLACE)


@functools.cache
def wanted():
    model = Reference()
    return b"".join(map(model.reply, LONG))


def run(program, text, space=None, stack=None, words=()):
    """Runs the program under limits of bytes, where its addresses are the same in each run."""

    def limit():
        in_place()
        resource.setrlimit(resource.RLIMIT_CORE, (0, 0))
        for kind, most in ((resource.RLIMIT_STACK, stack), (resource.RLIMIT_AS, space)):
            if most:
                resource.setrlimit(kind, (most, most))

    how = {"input": text, "capture_output": True, "preexec_fn": limit, "env": {}, "timeout": 60}
    ran = subprocess.run([program, *words], **how)
    return ran.stdout, ran.stderr, ran.returncode


def follows(said, last):
    """Holds replies to the puts and some lines against the definition, where any that may be refused can be. It returns
    how many puts were."""
    model, at = Reference(), 0
    *replies, said = said.split(b"\n", len(FILL))
    assert len(replies) == len(FILL), f"{len(replies)} replies to {len(FILL)} puts"
    for line, reply in zip(FILL, replies):
        assert reply in (b"new", b"memory"), f"to {line} it says {reply[:200]}"
        if reply == b"new":
            _, tenant, key, value = line.split()
            model.keys[int(tenant), bytes.fromhex(key.decode())] = bytes.fromhex(value.decode())
    refused = len(FILL) - len(model.keys)
    for line in last:
        if said.startswith(b"memory\n", at) and model.may_refuse(line):
            at += len(b"memory\n")
            continue
        reply = model.reply(line)
        assert said.startswith(reply, at), f"to {line[:100]} it says {said[at:][:300]} and not {reply[:300]}"
        at += len(reply)
    assert at == len(said), f"behind the last reply it says {said[at:][:300]}"
    return refused


def is_answered(program, last, **limits):
    said, told, status = run(program, b"\n".join([*FILL, *last]) + b"\n", **limits)
    name = signal.Signals(-status).name if status < 0 else status
    assert (told, status) == (b"", 0), f"under {limits} it ends with {name} and {told}, behind {len(said)} bytes"
    return follows(said, last)


def least_of(answers):
    """The least number of pages with which it answers, as a call tells."""
    low, high = 1, 1 << 15
    while low < high:
        middle = (low + high) // 2
        try:
            is_enough = answers(middle)
        except (OSError, subprocess.SubprocessError):
            is_enough = False
        low, high = (low, middle) if is_enough else (middle + 1, high)
    return low


def is_answering(program, pages):
    return run(program, b"bad\n", space=pages * PAGE) == (b"bad\n", b"", 0)


def space_is_short(every, program, word):
    """A line of this word is answered after the puts at each limit, or at each so many. At first most puts find no
    memory, in the end none. Of these limits one of `every` is tried, and the last."""
    least, last = least_of(functools.partial(is_answering, program)), [LAST[word], b"dump"]
    pages = range(PAGES) if word == "dump" else range(list(LAST).index(word) % STEP, PAGES, STEP)
    pages = sorted({*pages[::every], pages[-1]})
    refused = [is_answered(program, last, space=(least + it) * PAGE) for it in pages]
    assert refused[0] > 0, "no put finds no memory"
    assert refused[-1] == 0, "the last limit is not ample"


def stack_is_short(every, program, kib):
    """Each line, with keys and values of any length, those that are read ahead, and what is said to an argument. (Lines that
    are read ahead take more in a build without proofs: there they aren't tried.)"""
    found = run(program, b"\n".join(LONG), stack=kib << 10)
    assert found == (wanted(), b"", 0), f"{found[0][-100:], *found[1:]} under {kib} KiB"
    puts, gets = (b"".join(b"%b 1 %08x%b\n" % (word, it, more) for it in range(AHEAD)) for word, more in READ_AHEAD)
    found = run(program, puts + gets, stack=kib << 10) if every == 1 else None
    assert found in (None, (b"new\n" * AHEAD + b"is 61\n" * AHEAD, b"", 0)), f"{found[1:]} under {kib} KiB, read ahead"
    told = (b"", b"art_index: takes no arguments\n", 2)
    for words in (["-"], ["x" * 100] * 8):
        found = run(program, b"", stack=kib << 10, words=words)
        assert found == told, f"{words} under {kib} KiB: {found}"


def stored(program, text, mib):
    """How many of some puts find memory in so many MiB: the others are answered `memory`, and nobody dies."""
    said, told, status = run(program, text, space=mib << 20)
    replies = collections.Counter(said.split(b"\n")[:-1])
    assert (told, status, set(replies) | {b"memory"}) == (b"", 0, {b"new", b"memory"}), f"{mib} MiB: {told} {status} {replies}"
    return replies[b"new"]


def slab_grows_by_less(program, spaces):
    """Where there is no memory to double a slab, it grows by less: so it holds more than one that has only doubled, in
    one of some spaces at least. (In another there may be no memory for anything else that a record takes.)"""
    text = b"".join(b"put 1 %08x %08x\n" % (it, it) for it in random.Random(SEED).sample(range(MANY), MANY))
    found = [stored(program, text, mib) for mib in spaces]
    assert DOUBLED + DOUBLED // 32 < max(found), f"{found} are stored of {MANY}"


def tests(every):
    named = [(f"the stack has {it} KiB", functools.partial(stack_is_short, every), it) for it in STACKS]
    named += [(f"space is short for {it}", functools.partial(space_is_short, every), it) for it in LAST]
    return named + [(f"a slab grows by less in {SPACES[0]} to {SPACES[-1]} MiB", slab_grows_by_less, SPACES)]


def main():
    given = cases.given(__doc__, "--program=PATH", "--quick")
    told = cases.Tally(given.word)
    missing = set(WORDS) - set(LAST)
    assert not missing, f"no line of {missing}"
    for name, test, of in tests(SAMPLED if "--quick" in given else 1):
        for program in cases.programs(given) if told.wants(name) else ():
            told.case(f"{cases.title(program)} {name}", test, program, of)
    told.end()


if __name__ == "__main__":
    main()
