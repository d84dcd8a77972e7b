#!/usr/bin/env python3
"""Fails each read and each write of art_index in turn, after each number of bytes, with its ends cut in several ways.

    tests/faults.py [--program PATH] [--quick] [WORD]    at the top of the repository, after rt ci; WORD: only what has it
                                                         in its name; --quick: over a build without proofs
Under tests/fault.c the lines of tests/faults.lines, which have every word of the language, are played by the program
as both compilers make it. What is wanted follows from reference.py: after a failed read the replies to all whole lines
so far and nothing else, after a failed write its first bytes, and the text and status of each. A read or write that
fails once is not tried again, whatever it says, nor one that moves nothing.
"""
import errno
import itertools
import subprocess

import cases
from reference import WORDS, Reference

READ, WRITE = b"art_index: read failed\n", b"art_index: write failed\n"
# Where a fault comes once it comes after so many bytes, and so many more, and so on.
STEP = 7
LONG_LINE = "tests/rows/a_long_last_line.lines"


def lines_of(text):
    """The lines of a text. A last one without a newline counts, unless it is empty."""
    *lines, last = text.split(b"\n")
    return lines + [last] * bool(last)


def replies(lines):
    model = Reference()
    return b"".join(model.reply(line) for line in lines)


def run(program, text, **faults):
    env = {"LD_PRELOAD": cases.shim("fault.c"), **{f"FAULT_{name.upper()}": str(value) for name, value in faults.items()}}
    ran = subprocess.run([program], input=text, capture_output=True, env=env, timeout=60)
    return ran.stdout, ran.stderr, ran.returncode


def wants(label, found, wanted):
    assert found == wanted, f"{label}: {found[0][-200:]} {found[1:]} and not {wanted[0][-200:]} {wanted[1:]}"


def cut_anyhow(program, text, cuts):
    for seed in range(20):
        wants(f"seed {seed}", run(program, text, cuts=cuts, seed=seed), (replies(lines_of(text)), b"", 0))


def each_read_fails(program, text, cuts):
    for at in range(len(text) + 1):
        whole = text[:at].split(b"\n")[:-1]
        wants(f"a read fails after {at}", run(program, text, read=at, cuts=cuts), (replies(whole), READ, 1))
    wants("none fails", run(program, text, read=len(text) + 1, cuts=cuts), (replies(lines_of(text)), b"", 0))


def each_write_fails(program, text, cuts):
    whole = replies(lines_of(text))
    for at in range(len(whole)):
        wants(f"a write fails after {at}", run(program, text, write=at, cuts=cuts), (whole[:at], WRITE, 1))
    wants("none fails", run(program, text, write=len(whole), cuts=cuts), (whole, b"", 0))


def a_read_fails_once(program, text, cuts):
    for error, at in itertools.product((errno.EINTR, errno.EAGAIN), range(0, len(text) + 1, STEP)):
        whole = text[:at].split(b"\n")[:-1]
        found = run(program, text, read=at, cuts=cuts, error=error, times=1)
        wants(f"a read fails once, by {error}, after {at}", found, (replies(whole), READ, 1))


def an_end_comes_once(program, text, cuts):
    """A read of no byte is the end, though more would come."""
    for at in range(0, len(text) + 1, STEP):
        found = run(program, text, read=at, cuts=cuts, error=0, times=1)
        wants(f"it ends after {at}", found, (replies(lines_of(text[:at])), b"", 0))


def a_write_fails_once(program, text, cuts):
    whole = replies(lines_of(text))
    for error, at in itertools.product((0, errno.EAGAIN), range(0, len(whole), STEP)):
        found = run(program, text, write=at, cuts=cuts, error=error, times=1)
        wants(f"a write fails once, by {error}, after {at}", found, (whole[:at], WRITE, 1))


def a_read_fails_in_a_long_line(program, _, cuts):
    """Not even `bad` is answered to a line whose end did not come."""
    with open(LONG_LINE, "rb") as file:
        text = file.read()
    for at in (0, 1, 4095, 4096, 4097, 4098, 8193, 8194, 8195, len(text) - 1, len(text)):
        wants(f"a read fails after {at}", run(program, text, read=at, cuts=cuts), (b"", READ, 1))


CALLS = [
    cut_anyhow,
    each_read_fails,
    each_write_fails,
    a_read_fails_once,
    an_end_comes_once,
    a_write_fails_once,
    a_read_fails_in_a_long_line,
]


def main():
    given = cases.given(__doc__, "--program=PATH", "--quick")
    told = cases.Tally(given.word)
    with open("tests/faults.lines", "rb") as file:
        text = file.read()
    missing = set(WORDS) - {line.split(b" ")[0].decode("latin1") for line in lines_of(text)}
    assert not missing, f"tests/faults.lines has no line of {missing}"
    for program in cases.programs(given):
        for call, cuts in itertools.product(CALLS, (0, 1, 7)):
            name = f"{cases.title(program)} {call.__name__}, cut to {cuts or 'nothing'}"
            told.case(name, call, program, text, cuts)
    told.end()


if __name__ == "__main__":
    main()
