#!/usr/bin/env python3
"""gate.py COMMAND..: runs the gate, passes on what it prints, tells how far it is, and writes its cost to out/gate.md.

    tests/gate.py rt ci      at the top of the repository
On standard error stands a line at each change of state, and one a minute at least. The table has for each crate
seconds of processor time: of its proof, of its tests (their proof, and the runs of tests and programs) and of its
must-fail edits (those of must-fail/ alone: tests/must_fail.py tries the others); and the memory held at most (PSS, in
which shared memory counts once). Only this run's processes are looked at, twice a second, and each ten seconds for
memory. The row 'all' is what the system counted of the whole run; what stands in no crate's row is rt itself, and what
processes used after the last look at them. Each library that was proved has a second name under out/rlibs, by which
tests/must_fail.py finds what this run proved, also where a session's own libraries are put back. Beside it stand the
names of the functions that were proved.
"""
import glob
import os
import re
import shutil
import subprocess
import sys
import threading
import time

import must_fail
import processes

ROOT, START = os.getcwd(), time.monotonic()
KINDS = ("proof", "tests", "edits")


def minutes():
    return f"{(time.monotonic() - START) / 60:.0f} min"


class State:
    """How far rt ci is: from what it prints, and for edits from the folders in which it tries them."""

    def __init__(self):
        text = open("crates.txt", encoding="utf-8").read()
        self.crates = re.findall(r"(?m)^([\w-]+)[^#\n]*", text)
        self.with_tests = [it for it in self.crates if self.tests_of(it)]
        self.proved, self.tested, self.ran, self.edits, self.rooms, self.faults = set(), set(), set(), {}, {}, []
        self.functions = {}
        self.results, self.counts, self.part, self.said, self.when = 0, {}, "", "", 0

    @staticmethod
    def tests_of(crate):
        files = glob.glob(f"crates/{crate}/src/**/*.rt", recursive=True)
        return sum(len(re.findall(r"(?m)^\s*#\s*\[\s*test\b", open(it, encoding="utf-8").read())) for it in files)

    def take(self, line):
        """Takes a line that rt ci has printed."""
        found = re.match(r"rt: (\w+)(: its tests are)? (proved|NOT PROVED)", line)
        if found:
            (self.tested if found[2] else self.proved).add(found[1])
        function = re.match(r"fn (\w+)::(\S+): proved", line)
        if function:
            self.functions.setdefault(function[1], []).append(function[2])
        given = re.match(r"rt: (\w+) (?:proved|is kept: )", line)
        if given:
            keep_library(given[1])
            must_fail.note_proved(given[1], self.functions.get(given[1], []))
        begins = re.match(r"rt: (\w+): trying its must-fail edits \((\d+)\)", line)
        if begins:
            self.edits[begins[1]] = int(begins[2])
        section = re.match(r"== (\w+)(: its tests)?$", line)
        self.part = section[1] if section and section[2] else "" if section else self.part
        number = re.match(r"logic=.* tests=(\d+)", line)
        if number and self.part:
            self.counts[self.part] = int(number[1])
        self.results += line.startswith("rt: must-fail ")
        ran = re.match(r"rt: (\w+)(: its tests passed| ran\b)", line)
        self.ran |= {ran[0]} if ran else set()
        if re.search(r"\bNOT PROVED|\bNOT REFUSED|\bBAD EDIT|: its tests FAILED|: the program ", line):
            self.faults.append(line.strip()[:160])
            self.tell(f"{minutes()}: {self.faults[-1]}")

    def see(self, rooms):
        """Takes which crates' edits are tried in which folders."""
        for room, crate in rooms.items():
            self.rooms.setdefault(crate, {})[room] = True
        # (after the edits of a crate, rt tries the crate itself in such a folder)
        ended = {it: sum(at not in rooms for at in of) for it, of in self.rooms.items()}
        return {it: min(number, self.edits.get(it, 0)) for it, number in ended.items()}

    def line(self, tried):
        parts = [f"proved {len(self.proved)} of {len(self.crates)} crates"]
        parts.append(f"tests {len(self.tested)} of {len(self.with_tests)}")
        if not self.results:
            parts += [f"edits of {it} {tried.get(it, 0)} of {number}" for it, number in self.edits.items()]
        elif self.edits:
            parts += [f"edits judged {self.results} of {sum(self.edits.values())}"]
        return ", ".join(parts + [f"programs and tests run {len(self.ran)}"] * bool(self.ran))

    def tell(self, line):
        print(line, file=sys.stderr, flush=True)

    def tell_state(self, tried):
        line, now = self.line(tried), time.monotonic()
        if line != self.said or now - self.when >= 55:
            self.said, self.when = line, now
            self.tell(f"{minutes()}: {line}")


def keep_library(crate):
    """Gives the files of a library that rt ci has just proved a second name, each."""
    made, to = f"crates/{crate}/out/rlib/{crate}.rlib", f"out/rlibs/{crate}.rlib"
    if os.path.isdir(made):
        for it in (to, f"{to}.part"):
            shutil.rmtree(it, ignore_errors=True)
        # (it comes into its place whole, where tests/must_fail.py waits for it)
        shutil.copytree(made, f"{to}.part", copy_function=os.link)
        os.rename(f"{to}.part", to)


class Cost:
    """The processor time and the memory of the run's processes, by crate and kind of work."""

    def __init__(self, state):
        self.state, self.used, self.peak, self.most, self.looks = state, {}, {}, 0, 0
        self.labels, self.seen = {}, {}

    def label(self, it, every):
        """The crate and the kind of work of a process, or those of what started it, or None."""
        key = it.pid, it.start
        self.seen[key] = self.seen.get(key, 0) + 1
        # (a process may still become another's program; after some looks it is what it is)
        if self.seen[key] > 4 and self.labels.get(key):
            return self.labels[key]
        folder, words = it.text("cwd"), it.text("cmdline")
        made = re.search(r"/rt-run-[^/\0]*/bin/(\w+)", words)
        name = made and (made[1] if made[1] in self.state.crates else re.sub("_tests$", "", made[1]))
        if not name and "/rt-edit-" in folder:
            named = re.search(r"--crate-name\0(\w+)", words)
            self.labels[key] = (named[1], "edits") if named else self.labels.get(key)
        elif name:
            self.labels[key] = name, "tests"
        else:
            here = re.match(re.escape(ROOT) + r"/crates/([\w-]+)(/|$)", folder)
            if here:
                self.labels[key] = here[1], "tests" if "\0--test\0" in f"{words}\0" else "proof"
        if self.labels.get(key) is None and it.parent in every:
            above = every[it.parent]
            self.labels[key] = self.labels.get((above.pid, above.start))
        return self.labels.get(key)

    def look(self):
        """Notes what each of the run's processes has used so far, and which folders edits are tried in."""
        every, sums, held, rooms = processes.of_run(), {}, {}, {}
        labelled = {pid: self.label(every[pid], every) for pid in sorted(every)}
        for pid, label in labelled.items():
            if label:
                top = every[pid]
                while labelled.get(top.parent) == label:
                    top = every[top.parent]
                key = label, top.pid, top.start
                sums[key] = sums.get(key, 0) + every[pid].own + every[pid].waited
                room = re.search(r"/rt-edit-[^/]*", every[pid].text("cwd"))
                rooms.update({room[0]: label[0]} if room else {})
            if self.looks % 20 == 0:
                share = re.search(r"(?m)^Pss:\s+(\d+)", every[pid].text("smaps_rollup"))
                held[label] = held.get(label, 0) + (int(share[1]) * 1024 if share else 0)
        self.used.update(sums)
        for label, size in held.items():
            self.peak[label] = max(self.peak.get(label, 0), size)
        self.most, self.looks = max(self.most, sum(held.values())), self.looks + 1
        self.state.tell_state(self.state.see(rooms))

    def table(self, wall, processor):
        spent = {}
        for (label, *_), seconds in self.used.items():
            spent[label] = spent.get(label, 0) + seconds
        yield "| Crate | Proof, s | Tests, s | Edits, s | All, s | Memory at most, GB | Tests | Edits |"
        yield "|---|---:|---:|---:|---:|---:|---:|---:|"
        sums, numbers = dict.fromkeys(KINDS, 0), [0, 0]
        for crate in self.state.crates:
            row = [spent.get((crate, it), 0) for it in KINDS]
            sums = {it: sums[it] + seconds for it, seconds in zip(KINDS, row)}
            memory = max(self.peak.get((crate, it), 0) for it in KINDS) / 2**30
            counts = [self.state.counts.get(crate, self.state.tests_of(crate)), self.state.edits.get(crate, 0)]
            numbers = [a + b for a, b in zip(numbers, counts)]
            seconds = " | ".join(f"{it:.0f}" for it in [*row, sum(row)])
            yield f"| {crate} | {seconds} | {memory:.1f} | {counts[0]} | {counts[1]} |"
        yield f"| in no row above | | | | {processor - sum(sums.values()):.0f} | | | |"
        whole = " | ".join(f"{sums[it]:.0f}" for it in KINDS)
        yield f"| all | {whole} | {processor:.0f} | {self.most / 2**30:.1f} | {numbers[0]} | {numbers[1]} |"
        yield ""
        times = f"{wall / 60:.1f} minutes of wall time, {processor / 60:.1f} of processor time"
        yield f"{processes.when_and_where()}, {len(os.sched_getaffinity(0))} processors: {times}."


def main():
    room = processes.begin()
    processes.end_by_signals(room)
    must_fail.mark_tree()
    state = State()
    cost, ended = Cost(state), threading.Event()

    def keep_looking():
        while not ended.wait(0.5):
            cost.look()

    looker = threading.Thread(target=keep_looking, daemon=True)
    looker.start()
    how = {"stdin": subprocess.DEVNULL, "stdout": subprocess.PIPE, "stderr": subprocess.STDOUT}
    with subprocess.Popen(sys.argv[1:], text=True, errors="replace", start_new_session=True, **how) as ran:
        for line in ran.stdout:
            sys.stdout.write(line)
            sys.stdout.flush()
            state.take(line)
    ended.set()
    looker.join()
    state.tell_state(state.see({}))
    times = os.times()
    os.makedirs("out", exist_ok=True)
    with open("out/gate.md", "w", encoding="utf-8") as file:
        rows = cost.table(time.monotonic() - START, times.children_user + times.children_system)
        file.writelines(f"{row}\n" for row in rows)
    if room:
        shutil.rmtree(room, ignore_errors=True)
    sys.exit(ran.returncode)


main()
