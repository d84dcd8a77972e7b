#!/usr/bin/env python3
"""Programs with wrong bodies, which nothing proves: a run of the gate must fail by each.

    tests/wrong.py [WORD]      at the top of the repository; WORD: only rows that have it in them
It is a part of ./test. Each row of tests/wrong/programs.lines names an edit as CRATE/NAME (tests/edits.py has their
form and their places), the program that is built with it, and a run of tests/ with its word. The run must pass with the
program as it is, and fail with the edit. What it says is in out/wrong-NAME-PROGRAM.log; at the end stands how much
processor time all took.

A program is built once for all its edits, on a copy of the repository, from sources as tools/quick.py tells. Each
function that an edit stands in begins with a wrong body beside its own, which runs only where `art_bytes::wrong_body`
returns the edit's number. What it returns is a number that stands nowhere else in the program (it is compiled so that
no call is folded); a copy of the program in which another number stands there is the program with that edit.
"""
import os
import re
import resource
import shutil
import subprocess
import sys
from glob import glob

import cases
import edits
import players
import quick

TOP, ROWS = os.getcwd(), "tests/wrong/programs.lines"
# A wrong body may run for ever, and fill what memory there is. So each process has so much space, and so many seconds
# of processor time.
SPACE, SECONDS = 1 << 29, 20
# The number of the program as it is, in the text of a program and in its bytes.
RIGHT = 0x2B6F_7577_726F_6E67
SWITCH = f"\n/// The number of the wrong body that is played.\npub fn wrong_body() -> u64 {{\n    {RIGHT}\n}}\n"


def rows(word):
    for line in open(ROWS, encoding="utf-8"):
        parts = line.split(None, 3)
        if line.strip() and line[0] != "#" and word in line:
            yield parts[0], parts[1], parts[2], parts[3].strip() if len(parts) > 3 else ""


def body_around(text, at):
    """Where the body begins and ends that a place of a source stands in, between its braces; None where it is in
    none."""
    above = [it.start() for it in edits.FUNCTION.finditer(text) if it.start() < at]
    indent = re.match(r"[ \t]*", text[above[-1] :])[0] if above else ""
    end = re.compile(rf"^{indent}}}$", re.M).search(text, above[-1]) if above else None
    if not end:
        return None
    # (the brace of a body stands alone where clauses stand before it)
    alone, any_brace = (re.compile(it, re.M) for it in (rf"^{indent}\{{$", r"\{$"))
    brace = alone.search(text, above[-1], end.start()) or any_brace.search(text, above[-1], end.start())
    return (brace.end(), end.start()) if brace and brace.end() <= at < end.start() else None


def adds_field(old, new):
    """Whether an edit only puts another field after one, where a value is made."""
    pattern = re.compile(r" *\w+: [^;{}]*,")
    return bool(pattern.fullmatch(old) and new.startswith(old) and pattern.fullmatch(new[len(old) :]))


class Switched:
    """A copy of the repository whose functions have wrong bodies beside their own, each under its number."""

    def __init__(self, top, chosen):
        self.top, self.wrong = top, {}
        # (what an edit puts outside of bodies is there for all, and a field that it adds; only its own bodies use it)
        for edit in chosen.values():
            for path, old, new in self.pairs(edit):
                if adds_field(old, new) or not self.place(edit, path, old):
                    text = self.read(f"{edit.crate}/{path}")
                    self.put(f"{edit.crate}/{path}", text.replace(old, new))
        for number, edit in chosen.items():
            for path, old, new in self.pairs(edit):
                place = None if adds_field(old, new) else self.place(edit, path, old)
                if place:
                    text = self.read(f"{edit.crate}/{path}")
                    bodies = self.wrong.setdefault((f"{edit.crate}/{path}", *place), {})
                    bodies[number] = bodies.get(number, text[slice(*place)]).replace(old, new)

    @staticmethod
    def pairs(edit):
        edit.carried_out({})
        return [it for it in edit.pairs if it[0].startswith("src/")]

    def read(self, file):
        with open(f"{self.top}/{file}", encoding="utf-8") as of:
            return of.read()

    def put(self, file, text):
        with open(f"{self.top}/{file}", "w", encoding="utf-8") as of:
            of.write(text)

    def place(self, edit, path, old):
        """The body that a text stands in, or None; after an earlier pair it may stand in what that one put there."""
        text = self.read(f"{edit.crate}/{path}")
        for it in (old, *(first for _, first, new in edit.pairs if old in new)):
            if it in text:
                return body_around(text, text.index(it) + len(it) - 1)
        return None

    def write(self):
        """Writes the sources with all bodies that were taken."""
        for file, begin, end in sorted(self.wrong, reverse=True):
            bodies = self.wrong[file, begin, end].items()
            said = "".join(f"if art_bytes::wrong_body() == {n} {{ return {{{it}}}; }}\n" for n, it in bodies)
            text = self.read(file)
            self.put(file, f"{text[:begin]}\n{said}{text[begin:end]}{text[end:]}")
        self.put("crates/art_bytes/src/lib.rt", self.read("crates/art_bytes/src/lib.rt") + SWITCH)


def is_player(program):
    return os.path.isdir(f"{TOP}/{players.FOLDER}/{program}")


def sources(program, to):
    """Copies what a program is built of."""
    return players.copied(TOP, to, program) if is_player(program) else quick.copied(TOP, to)


def place(program, room):
    """Where, below the top, the runs of tests/ find a program that is built."""
    if is_player(program):
        return players.path_of(sources(program, f"{room}/{program}.right"), program)
    return f"crates/{program}/out/{program}"


def built(room, program, chosen):
    """Gives the bytes of the program with wrong bodies, each under its number. What was built is kept in out/wrong."""
    switched = Switched(sources(program, f"{room}/{program}"), chosen)
    switched.write()
    kept = f"{TOP}/out/wrong/{program}-{quick.digest(switched.top, quick.BUILT_OF)[:16]}"
    if not os.path.exists(kept):
        # (compiled so that no call is folded)
        said = quick.build(switched.top, program, f"{room}/{program}.made", quick.UNEDITED)
        if said:
            raise ValueError(f"{program} was not built: {said}")
        for it in glob(f"{TOP}/out/wrong/{program}-*"):
            os.remove(it)
        os.makedirs(f"{TOP}/out/wrong", exist_ok=True)
        shutil.copy(f"{room}/{program}.made", kept)
    with open(kept, "rb") as file:
        made = file.read()
    if RIGHT.to_bytes(8, "little") not in made:
        raise ValueError(f"the number of the program as it is stands nowhere in {program}")
    return made


def limit():
    resource.setrlimit(resource.RLIMIT_AS, (SPACE, SPACE))
    resource.setrlimit(resource.RLIMIT_CPU, (SECONDS, SECONDS))
    resource.setrlimit(resource.RLIMIT_CORE, (0, 0))


def counts_of(copy, at, made, number, row, log):
    """Plays the run of a row with the wrong body of a number, in the program at a place in a copy of the repository.
    Returns how many of its cases passed and failed."""
    _, program, runner, word = row
    path = f"{copy}/{at}"
    os.makedirs(os.path.dirname(path), exist_ok=True)
    # (a run plays what both compilers make; in place of the other one's it has the program as it is)
    bodies = {path: number} if is_player(program) else {path: number, f"{path}.by-rattle": RIGHT}
    for it, of_it in bodies.items():
        with open(it, "wb") as file:
            file.write(made.replace(RIGHT.to_bytes(8, "little"), of_it.to_bytes(8, "little")))
        os.chmod(it, 0o755)
    # (of the refusals of other programs nothing is made ready)
    of = ["--of", program] if runner == "refusals.py" else []
    words = [sys.executable, "-uB", f"tests/{runner}", *of, *([word] if word else [])]
    how = {"cwd": copy, "stdin": subprocess.DEVNULL, "stderr": subprocess.STDOUT, "preexec_fn": limit}
    with open(log, "wb") as file:
        subprocess.run(words, stdout=file, **how)
    last = open(log, encoding="utf-8", errors="replace").read().splitlines()[-1:]
    found = re.fullmatch(r"(\d+) passed, (\d+) failed", "".join(last))
    if not found:
        raise ValueError(f"{runner} ends with {last}")
    return int(found[1]), int(found[2])


def play(copy, at, made, number, row, right):
    """Plays the run of a row without its wrong body and with it. Returns how it went, or raises ValueError."""
    edit, program, runner, word = row
    name = edit.partition("/")[2]
    if (program, runner, word) not in right:
        right[program, runner, word] = counts_of(copy, at, made, RIGHT, row, f"{TOP}/out/wrong-right-{program}.log")
    passed, failed = right[program, runner, word]
    if not passed or failed:
        raise ValueError(f"{runner} {word} fails without the edit: {passed} passed, {failed} failed")
    passed, failed = counts_of(copy, at, made, number, row, f"{TOP}/out/wrong-{name}-{program}.log")
    if not failed:
        raise ValueError(f"LET THROUGH by {runner} {word}: {passed} passed")
    return f"refused by {runner} {word}: {passed} passed, {failed} failed"


def main():
    told, programs, right = cases.Tally(), {}, {}
    for row in rows(cases.given(__doc__).word):
        programs.setdefault(row[1], []).append(row)
    os.makedirs("out", exist_ok=True)
    with cases.folder() as room:
        copy = cases.copied(f"{room}/copy")
        os.makedirs(f"{copy}/out")
        for program, of_program in programs.items():
            numbers = {title: number for number, title in enumerate(dict.fromkeys(it[0] for it in of_program), 1)}
            try:
                made, at = built(room, program, {n: edits.named(it) for it, n in numbers.items()}), place(program, room)
            except cases.FAILURES as why:
                told.count(program, why)
                continue
            for row in of_program:
                told.case(f"{row[0]} in {program}", play, copy, at, made, numbers[row[0]], row, right)
    print(f"{sum(os.times()[:4]):.0f} s of processor time")
    told.end()


if __name__ == "__main__":
    main()
