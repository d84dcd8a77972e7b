#!/usr/bin/env python3
"""./test --long [MINUTES]: tries all wrong bodies, and rt plant with so many minutes for each crate (10 if left out).

The edits of a crate are tried by tests/must_fail.py --all; plants on a copy of the repository outside it, which goes at
the end. Standard error tells how far it is; what is printed stands in out/long-*.log, and the summary in out/long.md.
The last line is 'N passed, M failed': an edit that is refused passes, and so does a crate whose
plants were listed; a plant that is let through is listed, and fails nothing.
So many tasks run side by side as there are pairs of processors, or as RT_JOBS says.
"""
import os
import re
import shutil
import subprocess
import sys
import time
from glob import glob

import edits
import processes

START, TOP = time.monotonic(), os.getcwd()
COLUMNS = ("Crate", "Edits", "Refused", "Let through", "Functions planted in", "Plants refused", "Let through")
COLUMNS += ("Same as the body", "Not judged", "Not run")


class Task:
    """The edits of a crate, or its plants: one command of rt in the copy."""

    def __init__(self, crate, kind, words, folder, size=0):
        self.crate, self.kind, self.words, self.folder, self.size = crate, kind, words, folder, size
        self.log, self.ran = f"{TOP}/out/long-{kind}-{crate}.log", None

    def begin(self):
        with open(self.log, "wb") as log:
            how = {"cwd": self.folder, "stdin": subprocess.DEVNULL, "stdout": log, "stderr": subprocess.STDOUT}
            self.ran = subprocess.Popen(self.words, start_new_session=True, **how)

    def lines(self):
        return open(self.log, encoding="utf-8", errors="replace").read().splitlines()

    def state(self):
        """How far it is: an edit has a line once it was tried."""
        if self.kind == "edits":
            return f"edits of {self.crate} {len(self.lines())} of {self.size}"
        left = [it[1] for it in (re.match(r"rt: (\d+) plants left", line) for line in self.lines()) if it]
        return f"plants of {self.crate}{f', {left[-1]} left in this pass' if left else ''}"


def tasks_in(copy, minutes):
    crates = re.findall(r"(?m)^([\w-]+)[^#\n]*", open(f"{copy}/crates.txt", encoding="utf-8").read())
    for crate in crates:
        size = sum(not it.place.startswith("tests/") for it in edits.of_crate(f"crates/{crate}"))
        if size:
            words = [sys.executable, "-uB", "tests/must_fail.py", "--all", f"{crate}/"]
            yield Task(crate, "edits", words, TOP, size)
    for crate in crates:
        texts = [open(it, encoding="utf-8").read() for it in glob(f"{copy}/crates/{crate}/src/**/*.rt", recursive=True)]
        if crate != "callers" and any("ensures" in it for it in texts):
            words = ["rt", "plant", "--minutes", str(minutes), "--max", "9999"]
            yield Task(crate, "plants", words, f"{copy}/crates/{crate}")


def run_all(tasks):
    jobs = os.environ.get("RT_JOBS", "")
    lanes = int(jobs) if jobs.isdigit() and int(jobs) else max(1, len(os.sched_getaffinity(0)) // 2)
    todo, running, said, when = list(tasks), [], "", 0
    while todo or running:
        while todo and len(running) < lanes:
            running.append(todo.pop(0))
            running[-1].begin()
        time.sleep(1)
        # (how many plants are left is told each minute, and no sooner)
        done = f"{len(tasks) - len(todo) - len(running)} of {len(tasks)} done"
        line = ", ".join([done, *(it.state() for it in running)])
        running = [it for it in running if it.ran.poll() is None]
        now, short = time.monotonic(), re.sub(r", \d+ left in this pass", "", line)
        if short != said or now - when >= 55:
            said, when = short, now
            print(f"{(now - START) / 60:.0f} min: {line}", file=sys.stderr, flush=True)


def summary(tasks):
    """Gives the lines of the summary, and counts what passed and failed."""
    counts, rows, lists = [0, 0], [], []
    for crate in dict.fromkeys(it.crate for it in tasks):
        row, told = {}, []
        for task in (it for it in tasks if it.crate == crate):
            lines = task.lines()
            end = lines[-1][:200] if lines else "rt said nothing"
            if task.kind == "edits":
                tried = dict(re.findall(rf"(?m)^{crate}/(\S+): (.*)", "\n".join(lines)))
                refused = [it for it, said in tried.items() if said.startswith("refused: ")]
                row["edits"], row["kept"] = task.size, len(refused)
                counts[0], counts[1] = counts[0] + len(refused), counts[1] + task.size - len(refused)
                told += [f"- edit `{it}`: {said[:200]}" for it, said in tried.items() if it not in refused]
                if len(tried) < task.size:
                    told.append(f"- FAILED: {task.size - len(tried)} edits were not tried: {end}")
            else:
                last = re.match(r"plants crate=\S+ (.*)", end)
                row.update(dict(it.split("=") for it in last[1].split()) if last else {})
                counts[0 if last else 1] += 1
                shown = [it for it in lines if re.match(r"(proves|no-ensures|untested) ", it)]
                told += [f"- `{' '.join(it.split())}`" for it in shown]
                told += [f"- {it}" for it in lines if it.startswith("note: ")]
                told += [] if last else [f"- FAILED: its plants were not listed: {end}"]
        not_judged = sum(int(row.get(it, 0)) for it in ("elsewhere", "not-judged", "not-source"))
        edits, kept = row.get("edits", 0), row.get("kept", 0)
        planted = [row.get(it, "-") for it in ("planted-in", "refused", "proves", "same")]
        cells = [crate, edits, kept, edits - kept, *planted, not_judged, row.get("not-run", "-")]
        rows.append(f"| {' | '.join(map(str, cells))} |")
        lists += ["", f"{crate}: let through, without a contract, or untested:", "", *told] if told else []
    head = [f"## {processes.when_and_where()}, {(time.monotonic() - START) / 60:.0f} minutes", ""]
    head.append(f"| {' | '.join(COLUMNS)} |")
    return [*head, "|---|" + "---:|" * 9, *rows, *lists], counts


def main():
    words = sys.argv[1:]
    if len(words) > 1 or words and not words[0].isdigit():
        sys.exit(__doc__)
    room = processes.begin()
    processes.end_by_signals(room)
    os.makedirs("out", exist_ok=True)
    copy = f"{room or os.environ[processes.MARK]}/copy"
    shutil.copytree(TOP, copy, ignore=lambda at, names: {".git", *(["out"] if at == TOP else [])})
    tasks = list(tasks_in(copy, int(words[0]) if words else 10))
    run_all(tasks)
    lines, (passed, failed) = summary(tasks)
    text = "\n".join(lines) + "\n"
    with open("out/long.md", "w", encoding="utf-8") as file:
        file.write(text)
    shutil.rmtree(room or copy, ignore_errors=True)
    print(text, end="")
    print(f"{passed} passed, {failed} failed")
    sys.exit(failed > 0)


if __name__ == "__main__":
    main()
