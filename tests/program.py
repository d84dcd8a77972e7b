#!/usr/bin/env python3
"""Runs art_index as others see it: its replies, its statuses and texts, its replies while it waits, its system calls.

    tests/program.py [--program PATH] [--quick] [WORD]   at the top of the repository, after rt ci; WORD: only tests that
                                                         have it in their name
Each test runs both of the programs that rt ci has built, as LLVM and as Rattle's own compiler make it, or one that is
built otherwise: at PATH, or without proofs (--quick). Then ./run, which starts what rt ci has built, is not tried. The first tests are worked rows:
the lines of tests/rows/NAME.lines are answered by tests/rows/NAME.replies, which were written by hand and not by a
program, however the lines are cut, and the model of tests/reference.py answers the same.
"""
import os
import re
import resource
import select
import subprocess
import tempfile
import time
from functools import partial
from glob import glob

import cases
import faults
from cases import LIMIT, end_group, ended, wants
from reference import Reference

FIRST_RUN = b"put 7 0a0b 6869\nget 7 0a0b\nget 8 0a0b\n"
FIRST_REPLIES = b"new\nis 6869\nnone\n"
# A text is cut at each place, unless it is longer: then at each so many, at its end, and around the longest line.
SHORT, STEP, END, LONGEST = 1000, 97, 20, 4096


def places_in(text):
    """Where a text is cut: each place in a short one."""
    size = len(text)
    if size <= SHORT:
        return range(1, size)
    return sorted({*range(1, size, STEP), *range(size - END, size), *range(LONGEST - 2, LONGEST + 4)})


def row_is_answered(row, program):
    """Whole, cut at each place, byte by byte at both ends, and in pieces of up to seven bytes. It is written down."""
    text, replies = (open(f"{row}.{it}", "rb").read() for it in ("lines", "replies"))
    wants(faults.replies(faults.lines_of(text)), replies)
    wants(ended([program], input=text), (replies, b"", 0))
    cuts = [{"first": it} for it in places_in(text)]
    cuts += [{"cuts": 1}, *({"cuts": 7, "seed": it} for it in range(5))]
    for cut in cuts:
        found = faults.run(program, text, **cut)
        assert found == (replies, b"", 0), f"cut by {cut}: {found} and not {replies}"


def reads_as_long_as_there_is_more(program):
    """72,000 reads, each of a byte, and more writes than there are replies."""
    wants(faults.run(program, b"get 1 0a\n" * 8000, cuts=1), (b"none\n" * 8000, b"", 0))


def first_run(program):
    wants(ended([program], input=FIRST_RUN), (FIRST_REPLIES, b"", 0))


def first_run_by_the_script(program):
    """./run starts what is built, whatever folder it is called from."""
    wants(ended([os.path.abspath("run")], input=FIRST_RUN, cwd="/"), (FIRST_REPLIES, b"", 0))


def the_table_of_the_readme(program):
    """Its rows are one session: a line, and in the second cell the lines of its reply."""
    with open("README.md", encoding="utf-8") as file:
        rows = [it.split("|") for it in file.read().split("| Line | Reply |")[1].split("\n\n")[0].splitlines()[2:]]
    sent = "".join(f"{re.search(r'`(.*)`', it[1])[1]}\n" for it in rows).encode()
    replies = "".join(f"{reply}\n" for it in rows for reply in re.findall(r"`([^`]*)`", it[2])).encode()
    wants(ended([program], input=sent), (replies, b"", 0))


def the_sessions_of_the_pages(program):
    """In a block of text that begins with `>`, what is sent stands after `>`, and its replies below it."""
    shown = []
    for page in sorted(glob("docs/*.md")):
        with open(page, encoding="utf-8") as file:
            shown += re.findall(r"(?m)^```text\n(> (?:.*\n)*?)```$", file.read())
    assert len(shown) >= 2, "the pages show no sessions"
    for block in shown:
        rows = block.splitlines(True)
        sent = "".join(it[2:] for it in rows if it.startswith("> ")).encode()
        wants(ended([program], input=sent), ("".join(it for it in rows if not it.startswith("> ")).encode(), b"", 0))


def nothing_in_nothing_out(program):
    wants(ended([program], input=b""), (b"", b"", 0))
    wants(ended([program], input=b"\n"), (b"bad\n", b"", 0))


def any_bytes_are_answered(program):
    """A line a byte, each byte of all alone on a line, and lines at and past the longest."""
    text = b"".join(bytes([it]) + b"\n" for it in range(256) if it != 10)
    wants(ended([program], input=text), (b"bad\n" * 255, b"", 0))
    key = b"ab" * 2044
    text = b"put 1 %b -\nput 10 %b -\n%b\ndump\n" % (key, key, b"x" * 70000)
    wants(ended([program], input=text), (b"new\nbad\nbad\nput 1 %b -\nend 1\n" % key, b"", 0))


def many_values_are_kept(program):
    """5,000 puts at some 1,000 keys, of values of 0 to 2,044 bytes, longer and shorter ones by turns: none finds no memory."""
    held, lines, replies = {}, [], []
    for it in range(5000):
        size = it * 7919 % 2045
        at = (it % 5, "-") if size > 2042 else (5 + it % 5, f"{it % 199:04x}")
        value = f"{it % 256:02x}" * size or "-"
        replies.append(f"old {held[at]}" if at in held else "new")
        held[at] = value
        lines.append(f"put {at[0]} {at[1]} {value}")
    replies += [f"put {tenant} {key} {value}" for (tenant, key), value in sorted(held.items())]
    replies.append(f"end {len(held)}")
    text, wanted = ("".join(f"{it}\n" for it in each).encode() for each in (lines + ["dump"], replies))
    out, err, status = ended([program], input=text)
    wants((err, status, len(out)), (b"", 0, len(wanted)))
    assert out == wanted, f"line {next(n for n, it in enumerate(out.splitlines()) if it != replies[n].encode()) + 1} differs"


def look_ups_among_many_are_answered(program):
    """20,000 puts, so many that look-ups are read ahead, and 30,000 lines: look-ups, with changes and bad lines between them."""
    held, lines, replies = {}, [], []
    for it in range(50000):
        key = (it % 3, f"{it * 40503 % 65536:04x}" if it < 20000 else f"{it * 7919 % 65536:04x}")
        if it < 20000 or it % 16 == 5:
            lines.append(f"put {key[0]} {key[1]} {it:08x}")
            replies.append(f"old {held[key]}" if key in held else "new")
            held[key] = f"{it:08x}"
        elif it % 16 == 11:
            lines.append("got 0 00")
            replies.append("bad")
        else:
            lines.append(f"get {key[0]} {key[1]}")
            replies.append(f"is {held[key]}" if key in held else "none")
    text, wanted = ("".join(f"{it}\n" for it in each).encode() for each in (lines, replies))
    out, err, status = ended([program], input=text)
    wants((err, status, len(out)), (b"", 0, len(wanted)))
    assert out == wanted, f"line {next(n for n, it in enumerate(out.splitlines()) if it != replies[n].encode()) + 1} differs"


def many_numbers_are_kept(program):
    """5,000 puts at some 1,000 numbers of either sign, of values of 0 to 299 bytes, walks, deletions, and then a dump."""
    lines, model = [], Reference()
    for it in range(5000):
        number = (it * 7919 % 1009 - 504) * (1 << it % 5 * 13)
        lines.append(f"nput {it % 3} {number} {f'{it % 256:02x}' * (it * 31 % 300) or '-'}")
        if it % 7 == 0:
            lines.append(f"ndel {it % 3} {number // 2}")
        if it % 100 == 0:
            lines += [f"nspan {it % 4} {-it} {it * it}", f"nget {it % 3} {number}"]
    text = "".join(f"{it}\n" for it in [*lines, "audit", "dump"]).encode()
    wanted = b"".join(model.reply(it) for it in text.splitlines())
    out, err, status = ended([program], input=text)
    wants((err, status, len(out)), (b"", 0, len(wanted)))
    assert out == wanted, "a reply differs"


def tenants_are_dropped(program):
    """Of 2 to 50 tenants in a row, in one tree or in both, the first, a middle one or the last is dropped, and put again."""
    lines, model = [], Reference()
    for count in (1, 2, 3, 4, 5, 6, 16, 17, 18, 32, 33, 34, 48, 49, 50):
        for trees in ((0,), (1,), (0, 1)):
            for at in sorted({0, count // 2, count - 1}):
                tenants = range(200, 200 + count)
                puts = [f"put {it} - {it:04x}" for it in tenants if 0 in trees]
                puts += [f"nput {it} {number} {it:04x}" for it in tenants for number in (-1, it) if 1 in trees]
                again = [it for it in puts if it.split()[1] == str(200 + at)]
                lines += [*puts, "audit", f"drop {200 + at}", "dump", "audit", f"list {200 + at} -"]
                lines += [*again, "dump", "audit", *(f"drop {it}" for it in tenants), "dump"]
    text = "".join(f"{it}\n" for it in lines).encode()
    wanted = b"".join(model.reply(it) for it in text.splitlines())
    out, err, status = ended([program], input=text)
    wants((err, status, len(out)), (b"", 0, len(wanted)))
    assert out == wanted, "a reply differs"


def keys_that_share_2000_bytes(program):
    """Three keys whose nodes have prefixes of 1,000 bytes: what is stored, absent, between two, and a front."""
    shared, half = b"aa" * 2000, b"aa" * 1000
    first, second, third = (b"%b01" % shared, b"%b02" % shared, b"%bbb" % half)
    rows = [(b"put 1 %b 61" % it, b"new") for it in (first, second, third)]
    rows += [(b"audit", b"bytes 3 2 0 0 0 0\nnumbers 0 0 0 0 0 0"), (b"get 1 %b03" % shared, b"none")]
    rows += [(b"get 1 " + first, b"is 61")]
    rows += [(b"span 1 %b %b" % (half, third), b"%b 61\n%b 61\nend 2" % (first, second))]
    rows += [(b"find 1 %b00" % third, b"at %b 61" % third), (b"del 1 " + third, b"gone 61")]
    rows += [(b"audit", b"bytes 2 1 0 0 0 0\nnumbers 0 0 0 0 0 0")]
    text, replies = (b"".join(b"%b\n" % it[at] for it in rows) for at in (0, 1))
    wants(ended([program], input=text), (replies, b"", 0))


def an_argument_is_refused(program):
    """It ends while its standard input is open, so it has not waited for it."""
    reads, writes = os.pipe()
    try:
        wants(ended([program, "-"], stdin=reads), (b"", b"art_index: takes no arguments\n", 2))
    finally:
        os.close(reads)
        os.close(writes)


def a_failed_read_is_told(program):
    folder = os.open("/", os.O_RDONLY)
    try:
        wants(ended([program], stdin=folder), (b"", b"art_index: read failed\n", 1))
    finally:
        os.close(folder)


def a_failed_write_is_told(program):
    with open("/dev/full", "wb") as full:
        wants(ended([program], input=FIRST_RUN, stdout=full), (None, b"art_index: write failed\n", 1))


def a_closed_output_is_told(program):
    reads, writes = os.pipe()
    os.close(reads)
    try:
        told = ended([program], input=FIRST_RUN, stdout=writes, restore_signals=False)
        wants(told, (None, b"art_index: write failed\n", 1))
    finally:
        os.close(writes)


class Running:
    """A program with its two ends in our hands. It has LIMIT seconds for all that is asked of it."""

    def __init__(self, program, stdin=subprocess.PIPE):
        how = {"stdin": stdin, "stdout": subprocess.PIPE, "bufsize": 0, "start_new_session": True}
        self.ran, self.until = subprocess.Popen([program], **how), time.monotonic() + LIMIT

    def __enter__(self):
        return self

    def __exit__(self, failed, *why):
        for it in (self.ran.stdin, self.ran.stdout):
            if it:
                it.close()
        if failed:
            end_group(self.ran)
        try:
            self.ran.wait(max(1, self.left()))
        finally:
            end_group(self.ran)
            self.ran.wait(LIMIT)

    def left(self):
        return self.until - time.monotonic()

    def read(self):
        """Reads what it has written, nothing where its output is closed. It fails where nothing comes."""
        ready = select.select([self.ran.stdout], [], [], max(0, self.left()))[0]
        assert ready, f"it writes no more, and has not ended after {LIMIT} seconds"
        return os.read(self.ran.stdout.fileno(), 1 << 16)

    def gives(self, wanted):
        """Reads as many bytes as are wanted, and compares them."""
        found = bytearray()
        while len(found) < len(wanted):
            piece = self.read()
            assert piece, f"its output ended after {len(found)} bytes, {bytes(found[-100:])}; status {self.ran.poll()}"
            found += piece
        assert found == wanted, f"{bytes(found[-300:])} and not {wanted[-300:]}"

    def ends(self):
        """Waits for its end, and leaves what stands of it in /proc. It writes nothing more."""
        wants(self.read(), b"")
        while not os.waitid(os.P_PID, self.ran.pid, os.WEXITED | os.WNOWAIT | os.WNOHANG):
            assert self.left() > 0, f"it has not ended after {LIMIT} seconds"
            time.sleep(0.01)

    def calls(self):
        """The numbers of reads and writes so far."""
        with open(f"/proc/{self.ran.pid}/io") as file:
            numbers = dict(it.split(": ") for it in file.read().splitlines())
        return int(numbers["syscr"]), int(numbers["syscw"])


def replies_before_it_waits(program):
    """Line by line, and with lines cut at each byte: what is whole is answered before more is asked for."""
    with Running(program) as it:
        for line, reply in zip(FIRST_RUN.splitlines(True), FIRST_REPLIES.splitlines(True)):
            it.ran.stdin.write(line)
            it.gives(reply)
    with Running(program) as it:
        replies = iter(FIRST_REPLIES.splitlines(True))
        for byte in FIRST_RUN:
            it.ran.stdin.write(bytes([byte]))
            if byte == 10:
                it.gives(next(replies))


def replies_where_a_line_is_begun(program):
    """What is whole is answered, too, where the next line is begun, and where it fills the room that is read into."""
    with Running(program) as it:
        it.ran.stdin.write(b"put 1 00 61\nget 1")
        it.gives(b"new\n")
        it.ran.stdin.write(b" 00\n")
        it.gives(b"is 61\n")
    reads, writes = os.pipe()
    try:
        wants(os.write(writes, b"get 10 00\n" * 2048), 20_480)
        with Running(program, stdin=reads) as it:
            it.gives(b"none\n" * 2048)
            os.close(writes)
            it.ends()
    finally:
        os.close(reads)


def seconds(program, lines):
    """How many seconds of processor time the program takes for some lines, none of which finds no memory."""
    before = resource.getrusage(resource.RUSAGE_CHILDREN).ru_utime
    out, err, status = ended([program], input="".join(f"{it}\n" for it in lines).encode())
    wants((err, status, b"memory\n" in out), (b"", 0, False))
    return resource.getrusage(resource.RUSAGE_CHILDREN).ru_utime - before


def no_line_walks_a_map(program):
    """14,000 lines of all words but those that ask for all records, each of which gives one pair or none, and lines that
    spell no command, take little longer over 16,000 records of both kinds than over 160. To go along the records of
    either kind at each line of one word would take 16 million steps."""
    keys = [it * 40503 % 65536 for it in range(16000)]
    kinds = ["put 1 {0:04x} 62", "over 1 {0:04x} 63", "get 1 {0:04x}", "find 1 {0:04x}00", "list 1 {0:04x}"]
    kinds += ["span 1 {0:04x} {0:04x}", "del 1 {0:04x}", "nput 1 {0} 62", "nget 1 {0}", "nspan 1 {0} {0}", "ndel 1 {0}"]
    kinds += ["drop 2", "get 1 {0:04x}0", "nput 1 {0}"]
    puts = [line.format(it) for it in keys for line in ("put 1 {0:04x} 61", "nput 1 {0} 61")]
    lines = [kind.format(it) for kind in kinds for it in keys[:1000]]
    few = seconds(program, puts[:320] + lines)
    many = seconds(program, puts + lines) - seconds(program, puts)
    assert many < 3 * few + 0.06, f"the lines take {few:.3f} s over 160 records of a kind, and {many:.3f} s over 16,000"


def few_system_calls(program):
    """Plentiful input is read and answered in large pieces: at most one call for 4,000 bytes, beside a few."""
    with tempfile.TemporaryFile() as file:
        lines = 100_000
        file.write(b"get 7 0a0b0c0d0e0f1011\n" * lines)
        size = file.tell()
        file.seek(0)
        with Running(program, stdin=file) as it:
            it.gives(b"none\n" * lines)
            it.ends()
            reads, writes = it.calls()
            wants(it.ran.wait(LIMIT), 0)
        assert reads <= size / 4000 + 20, f"{reads} reads of {size} bytes"
        assert writes <= 5 * lines / 4000 + 20, f"{writes} writes of {5 * lines} bytes"


TESTS = [
    first_run,
    first_run_by_the_script,
    the_table_of_the_readme,
    the_sessions_of_the_pages,
    nothing_in_nothing_out,
    any_bytes_are_answered,
    many_values_are_kept,
    look_ups_among_many_are_answered,
    many_numbers_are_kept,
    tenants_are_dropped,
    keys_that_share_2000_bytes,
    an_argument_is_refused,
    a_failed_read_is_told,
    a_failed_write_is_told,
    a_closed_output_is_told,
    replies_before_it_waits,
    replies_where_a_line_is_begun,
    few_system_calls,
    no_line_walks_a_map,
    reads_as_long_as_there_is_more,
]


def tests():
    """Each test and its name: a row for each file of lines, and the others."""
    rows = sorted(it.removesuffix(".lines") for it in glob("tests/rows/*.lines"))
    named = [(f"row {os.path.basename(it)}", partial(row_is_answered, it)) for it in rows]
    return named + [(it.__name__, it) for it in TESTS]


def main():
    given = cases.given(__doc__, "--program=PATH", "--quick")
    told = cases.Tally(given.word)
    if given.flags:
        TESTS.remove(first_run_by_the_script)
    for name, test in tests():
        for program in cases.programs(given) if told.wants(name) else ():
            told.case(f"{cases.title(program)} {name}", test, program)
    told.end()


if __name__ == "__main__":
    main()
