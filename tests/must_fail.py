#!/usr/bin/env python3
"""Tries wrong bodies: each must be refused by an open goal of the function that it stands in.

    tests/must_fail.py [--all] [WORD..]   those of the gate, or all; WORD: only those whose CRATE/NAME has it in it
    tests/must_fail.py --beside-ci        those of the gate, over the libraries that rt ci proves (out/rlibs): those of
                                          a crate once those below it are proved, in order, one crate at a time. So
                                          ./test calls it; where no ci runs, and none has, it waits
    tests/must_fail.py --none-is-fine ..  where no edit is chosen, nothing fails
    tests/must_fail.py --anew ..          tries also what an earlier run saw refused (out/must_fail.json), of the same
                                          sources and by the same script
The edits of a crate are carried out on one copy, and one `rattle check` judges their functions, each named by `--only`
(tests/edits.py has their form; two of one function go in two checks). All other functions are taken as proved there,
since ci proves them: a hole stands in the place of each proof, and `unreachable!()` in that of each body (stubs.py),
which no proof of another function reads. Three things are told apart:
- a goal of the function is open, which has no written answer: the edit is refused;
- a written answer no longer fits its goal: the function is judged again without that answer. Where `search` then leaves
  the goal open the edit is refused; where it proves it, the next such answer is left out; where it proves all, the edit
  is let through;
- a written answer names what the edit took away, and nothing else is open: that says nothing, and fails.
It also fails where the function is proved with it (whatever else it calls), and where the text no longer applies or
compiles.

Where an edit leaves several goals open, one is enough: each that is searched for costs seconds. So
tests/must_fail.goals has those that were open before, and the first alone is searched for; a hole stands for each
other. Where it is open the edit is refused, as before. In any other case the edit is judged whole. So a line that is
wrong or lacks costs time, and changes no verdict. Each run writes out/must_fail.goals, to take its place.

At the end stands what the checks of each crate took, and its dearest edits. What rattle says stands in
out/must_fail-CRATE-CHECK.log; the last line is 'N passed, M failed'.
"""
import concurrent.futures
import hashlib
import json
import os
import re
import shutil
import subprocess
import tempfile
import threading
import time
from glob import glob

import cases
import edits
import quick
import stubs
import verdicts
from verdicts import REFUSED, Answers, Said, blamed, passed_over, said_by

TOP = os.getcwd()
PARTS, RLIBS = ("src", "specs", "proofs"), "out/rlibs"
TREE, ENDED = f"{RLIBS}/tree", f"{RLIBS}/ended"
# A function that no edit of a check stands in is taken as proved there: ci proves it. Its proof is then one hole, which
# all share, of any statement.
TAKEN = "proofs/TakenAsProved.antt", "pub taken : {A : Type 2} → A\ntaken = ?\n"
HOLE = """use Rattle.%s.proofs.%s.Statement as stated
use Rattle.%s.proofs.TakenAsProved.{taken}

pub %s_spec : {M : Type 1} → stated.statement M
%s_spec = taken
"""
PROOFS = ("Answers.antt", "Invariants.antt", "Proof.antt")


def below(crates, name):
    """The libraries of the repository below a crate, lowest first."""
    found = []
    for it in crates[name]:
        if it in crates:
            found += [at for at in [*below(crates, it), it] if at not in found]
    return found


def sum_of_tree(crates=("*",), more=()):
    """A sum of all that a proof of the crates reads, by which out/rlibs is known to be of this tree."""
    made = hashlib.sha256()
    files = [glob(f"crates/{crate}/{part}/**", recursive=True) for crate in crates for part in PARTS]
    files = sorted(it for found in files for it in found if os.path.isfile(it))
    for path in [*files, "crates.txt", f"{quick.kit()}/KIT-ID", *more]:
        with open(path, "rb") as file:
            made.update(repr((path, file.read())).encode())
    return made.hexdigest()


class Kept:
    """What edits were refused by in earlier runs here, by a sum of all that this rests on."""

    def __init__(self, anew):
        self.file, self.lock, self.sums, self.known = "out/must_fail.json", threading.Lock(), {}, {}
        if not anew and os.path.isfile(self.file):
            with open(self.file, encoding="utf-8") as file:
                self.known = json.load(file)

    def sum(self, crate, edit):
        if crate.name not in self.sums:
            names = [crate.name, *below(crate.libraries.crates, crate.name)]
            self.sums[crate.name] = sum_of_tree(names, [__file__, verdicts.__file__, stubs.__file__])
        return f"{self.sums[crate.name]} {edit.function} {edit.pairs}"

    def told(self, crate, edit):
        found = self.known.get(edit.title(), ["", ""])
        return found[1] if found[0] == self.sum(crate, edit) else None

    def keep(self, crate, edit, text):
        with self.lock:
            self.known[edit.title()] = [self.sum(crate, edit), text]
            with open(f"{self.file}.new", "w", encoding="utf-8") as file:
                json.dump(self.known, file)
            os.replace(f"{self.file}.new", self.file)


class Opened:
    """The goals that a whole check of an edit found open, where there are several and no answer is written for them:
    the first alone is searched for in the next run. `file` has a line for each such edit."""

    file, made = "tests/must_fail.goals", "out/must_fail.goals"

    def __init__(self):
        self.lock, self.known, self.titles = threading.Lock(), {}, []
        if os.path.isfile(self.file):
            self.known = dict(re.findall(r"(?m)^([^#:\n]+): (.+)$", cases.read(self.file)))

    def of(self, edit):
        return self.known.get(edit.title(), "").split()

    def note(self, edit, goals):
        """Keeps what a whole check of an edit found."""
        with self.lock:
            self.known[edit.title()] = " ".join(goals)
            self.write()

    def write(self):
        """Writes the lines of `titles`, as they are to stand: what this run found, and else what was known."""
        text = "# Goals that tests/must_fail.py found open in edits. It searches for the first alone. See its text.\n"
        for title in sorted(it for it in self.titles if " " in self.known.get(it, "")):
            text += f"{title}: {self.known[title]}\n"
        cases.write(self.made, text)


def mark_tree():
    """Says in out/rlibs of which tree the libraries there are to be. None of an earlier run stays."""
    shutil.rmtree(RLIBS, ignore_errors=True)
    os.makedirs(RLIBS)
    with open(f"{TREE}.part", "w", encoding="utf-8") as file:
        file.write(sum_of_tree())
    os.rename(f"{TREE}.part", TREE)


def note_proved(crate, functions):
    """Says in out/rlibs that rt ci has proved a crate, and which functions, where it told (what it kept it does
    not)."""
    cases.write(f"{RLIBS}/{crate}.proved.part", "".join(f"{it}\n" for it in functions))
    os.rename(f"{RLIBS}/{crate}.proved.part", f"{RLIBS}/{crate}.proved")


def wait_for(path):
    """Waits for what rt ci makes, and returns its path; None where rt ci ends without it (./test makes ENDED then)."""
    while not os.path.exists(path):
        if os.path.exists(ENDED):
            return path if os.path.exists(path) else None
        time.sleep(0.5)
    return path


class Libraries:
    """Where the libraries stand that were proved: those of rt ci, or those that `rt lib` builds in the crates."""

    def __init__(self, beside_ci):
        self.crates, self.beside_ci, self.built = quick.crates_of(TOP), beside_ci, {}

    def of(self, name):
        return f"{TOP}/{RLIBS}/{name}.rlib" if self.beside_ci else f"{TOP}/crates/{name}/out/rlib/{name}.rlib"

    def build(self, name):
        """Builds the libraries below a crate, where that is to be done, and returns what is lacking, or None."""
        if self.beside_ci:
            mark = wait_for(TREE)
            if not mark or open(mark, encoding="utf-8").read() != sum_of_tree():
                return "rt ci does not prove this tree, or has not just now"
        for it in below(self.crates, name):
            if self.beside_ci and not wait_for(self.of(it)):
                return f"rt ci has not proved {it}"
            if not self.beside_ci and self.built.setdefault(it, self.lib(it)):
                return f"rt lib did not build {it}: {self.built[it]}"
        return None

    def proved(self, name):
        """The functions of a crate that rt ci said were proved, once it has proved the crate."""
        path = self.beside_ci and wait_for(f"{RLIBS}/{name}.proved")
        return cases.read(path).split() if path else []

    def lib(self, name):
        how = {"cwd": f"{TOP}/crates/{name}", "stdin": subprocess.DEVNULL, "text": True}
        ran = subprocess.run(["rt", "lib"], stdout=subprocess.PIPE, stderr=subprocess.STDOUT, **how)
        return ran.stdout[-300:] if ran.returncode else None

    def words(self, name):
        """The words by which rattle checks a crate, as rt says them."""
        kit, root = quick.kit(), "main" if os.path.isfile(f"{TOP}/crates/{name}/src/main.rt") else "lib"
        words = [f"{kit}/bin/rattle", "check", "--crate-name", name, f"src/{root}.rt"]
        for it in ["std", *self.crates[name]]:
            words += ["--extern", f"{it}={self.of(it) if it in self.crates else f'{kit}/rlibs/{it}.rlib'}"]
        folders = [os.path.dirname(self.of(it)) for it in below(self.crates, name)]
        for folder in dict.fromkeys([f"{kit}/rlibs", *folders]):
            words += ["-L", f"dependency={folder}"]
        words += ["--antt-project", f"{kit}/rattle/logic/antt-project.json", "--logic-built", f"{kit}/logic_built"]
        words += ["--crate-type", "staticlib"] * quick.is_static(TOP, name)
        return [*words, "--jobs", "1", "--links", f"{name}="]


class Crate:
    """A crate whose edits are tried: a copy of it, and what its checks keep there from one round to the next."""

    def __init__(self, name, chosen, libraries, kept, opened, room):
        self.name, self.edits, self.libraries, self.kept, self.room = name, chosen, libraries, kept, f"{room}/{name}"
        self.opened, self.told, self.number, self.checks, self.spent, self.holes = opened, {}, 0, [], {}, []
        self.bodies = None

    def run(self):
        """Tries all edits, and gives each with whether it is refused and by what."""
        todo = []
        for edit in self.edits:
            why = edits.fault_of(edit) or (None if edit.function else "it has no line in:")
            told = None if why else self.kept.told(self, edit)
            if why:
                self.tell(edit, False, f"IT NO LONGER APPLIES: {why}")
            elif told:
                self.told[edit.name] = True, told
                print(f"{edit.title()}: refused, as an earlier run saw: {told}", flush=True)
            else:
                todo.append(edit)
        lacking = self.libraries.build(self.name) if todo else None
        for edit in todo if lacking else ():
            self.tell(edit, False, f"NOT TRIED: {lacking}")
        if todo and not lacking:
            self.copy()
            self.try_all(todo)
            shutil.rmtree(self.room, ignore_errors=True)
        return self.told

    def tell(self, edit, refused, text):
        self.told[edit.name] = refused, text
        if refused:
            self.kept.keep(self, edit, text)
        print(f"{edit.title()}: {'refused' if refused else 'FAILED'}: {text}", flush=True)

    def copy(self):
        for it in PARTS:
            if os.path.isdir(f"{TOP}/crates/{self.name}/{it}"):
                shutil.copytree(f"{TOP}/crates/{self.name}/{it}", f"{self.room}/{it}")
        self.holes = self.proved()
        self.bodies = stubs.Bodies(f"crates/{self.name}", self.room, self.holes)
        kept = f"{TOP}/crates/{self.name}/out/incremental"
        if os.path.isdir(kept) and not self.libraries.beside_ci:
            shutil.copytree(kept, f"{self.room}/kept", copy_function=link)

    def proved(self):
        """The functions that are taken as proved: those that rt ci proved, and those of the copy that have files of
        proofs, but for those of a cycle, which have one proof together, and what rattle makes of other crates'
        types."""
        top, found = f"{self.room}/proofs", {*self.libraries.proved(self.name)}
        for folder, _, files in os.walk(top):
            if {*PROOFS} & {*files}:
                found.add(os.path.relpath(folder, top).replace("/", "::"))
        return sorted(it for it in found if not re.search(r"(^|::)\+|\+\+|[{<]", it))

    def not_taken(self, text, tried):
        """Whether rattle refused the hole of a function. It keeps its proof and its body from then on, and the check is
        made anew."""
        errors = re.findall(r"(?m)^(?:\./)?proofs/(\S+)/Proof\.antt:\d+:\d+: error", text)
        found = {it.replace("/", "::") for it in errors} & {*self.holes} - tried
        self.holes = [it for it in self.holes if it not in found]
        self.bodies.stay(found)
        return bool(found)

    def taken(self, tried):
        """The texts of the copy by which all functions are taken as proved, but those that are tried."""
        texts = {}
        for function in self.holes:
            if function not in tried:
                folder, name = f"proofs/{function.replace('::', '/')}", function.split("::")[-1]
                texts |= {f"{folder}/{it}": None for it in PROOFS if os.path.exists(f"{self.room}/{folder}/{it}")}
                texts[f"{folder}/Proof.antt"] = HOLE % (self.name, function.replace("::", "."), self.name, name, name)
        if texts:
            root = f"{self.room}/proofs/Lib.antt"
            texts["proofs/Lib.antt"] = (cases.read(root) if os.path.exists(root) else "") + "\nmod TakenAsProved\n"
            texts[TAKEN[0]] = TAKEN[1]
        return texts

    def try_all(self, todo):
        """Tries edits, as many in each check as touch no function twice. After each check come those of it that it
        says nothing of yet (another edit kept them from being judged, or an answer no longer fits), and those that had
        no place in it. What an earlier run found open in an edit is looked at `first`: where it is open that is all,
        and else the edit is judged as if nothing was known of it."""
        first = {it: self.opened.of(it) for it in todo if self.opened.of(it)}
        left, apart = {}, {}
        while todo:
            chosen = fitting(todo, apart)
            text, bad = self.check(chosen, left, first)
            if self.not_taken(text, {it.function for it in chosen}) or bad and self.bodies.must_stay(self.rattle):
                continue
            ended = {edit: why for edit, why in bad if not first.pop(edit, None)}
            for edit, why in ended.items():
                self.tell(edit, False, why)
            again = [it for it in chosen if it not in ended]
            if not bad:
                again = self.judge(chosen, said_by(text, self.name), left, apart, first)
            todo = again + [it for it in todo if it not in chosen]

    def answers(self, edit):
        return f"proofs/{edit.function.replace('::', '/')}/Answers.antt"

    def judge(self, chosen, found, left, apart, first):
        """Tells what came of edits in one check, and gives those that are to be tried again: in `left` with the answers
        that are to be left out then, in `apart` with the functions that are not to be edited beside theirs."""
        again, said = [], {it: found.get(it.function, Said()) for it in chosen}
        waits = [it for it in chosen if said[it].waits() and len(chosen) > 1]
        for edit in chosen:
            if edit in waits:
                others = {it.function for it in chosen if it is not edit}
                ended = {it.function for it in chosen if it not in waits} or others
                apart[edit] = apart.get(edit, set()) | (said[edit].waits_for(self.name) & others or ended)
                again.append(edit)
                continue
            answers = Answers(f"{self.room}/{self.answers(edit)}")
            verdict = said[edit].verdict(answers, left.get(edit, ()))
            if edit in first and not (verdict and verdict[0]):
                del first[edit]
                again.append(edit)
                continue
            if verdict is None:
                # (one goal that stays open is enough: each that is searched for costs seconds)
                fits = said[edit].parted()[1]
                goals = [it for it in fits if it in answers.goals][:1] or fits
                more = answers.without([*left.get(edit, ()), *goals])[1]
                if more == left.get(edit, set()):
                    verdict = False, f"NOT JUDGED: this fits no longer, and can't be left out: {', '.join(fits)}"
                left[edit] = more
            if verdict is None:
                again.append(edit)
            else:
                self.tell(edit, *verdict)
                if verdict[0] and edit not in first and edit not in left:
                    self.opened.note(edit, said[edit].goals_open(answers))
        return again

    def check(self, chosen, left, first):
        """What rattle says of a copy with these edits, and the edits that keep it from judging, each with why. Of those
        in `left` some answers are left out; of those in `first` one of these goals is judged, and the others are
        not."""
        texts = {}
        for edit in chosen:
            texts = edit.carried_out(texts)
            if edit in first:
                text = Answers(f"{self.room}/{self.answers(edit)}").text
                texts[self.answers(edit)] = passed_over(text, self.name, edit.function, first[edit][1:])
            elif edit in left:
                texts[self.answers(edit)] = Answers(f"{self.room}/{self.answers(edit)}").without(left[edit])[0]
        for path in (self.answers(it) for it in chosen):
            if not os.path.exists(f"{self.room}/{path.replace('Answers', 'Proof')}"):
                texts[path] = (texts[path] if path in texts else Answers(f"{self.room}/{path}").text) + REFUSED
        tried = dict.fromkeys(edit.function for edit in chosen)
        texts |= {path: text for path, text in self.taken(tried).items() if path not in texts}
        texts = self.bodies.left_out_of(texts, chosen)
        self.number += 1
        began = time.time()
        ran, spent = self.rattle(texts, [word for it in tried for word in ("--only", it)])
        self.note_costs(chosen, began, spent)
        with open(f"{TOP}/out/must_fail-{self.name}-{self.number}.log", "w", encoding="utf-8") as log:
            log.write(f"{' '.join(it.name for it in chosen)}\n{ran.stdout}\n{spent:.0f} s of processor time\n")
        judged = re.search(r"(?m)^only=\d+ ", ran.stdout)
        return ran.stdout, [] if judged else blamed(ran, chosen, texts)

    def rattle(self, texts, more):
        """What rattle says of the copy with these texts, and what that took."""
        files = {it: f"{self.room}/{it}" for it in texts}
        was = {it: cases.read(file) if os.path.exists(file) else None for it, file in files.items()}
        write(self.room, texts)
        words = [*self.libraries.words(self.name), "--incremental", "kept", "--allow-holes", *more]
        ended = run(words, {"cwd": self.room, "stdin": subprocess.DEVNULL, "errors": "replace"})
        write(self.room, was)
        return ended

    def note_costs(self, chosen, began, spent):
        """Notes what a check took, and by the times of the files that it kept near what of it each edited function
        took."""
        files = [(os.stat(it).st_mtime, it) for it in glob(f"{self.room}/kept/*/Rattle-{self.name}-*.oantt")]
        share, last = spent / max(time.time() - began, 0.01), began
        self.checks.append(spent)
        for when, name in sorted(it for it in files if it[0] >= began):
            for edit in chosen:
                if f"-proofs.{edit.function.replace('::', '.')}." in name:
                    self.spent[edit.name] = self.spent.get(edit.name, 0) + (when - last) * share
            last = when

    def costs(self):
        """What the crate's checks took, and which edits took most of it."""
        if self.checks:
            dear = sorted(self.spent.items(), key=lambda it: -it[1])[:3]
            told = ", ".join(f"{name} {spent:.0f}" for name, spent in dear)
            each = " + ".join(f"{it:.0f}" for it in self.checks)
            yield f"{self.name}: {sum(self.checks):.0f} s of processor time, by checks {each}; of which most {told}"


def run(words, how):
    """Runs a command, and gives how it ended, with what it printed, and the seconds of processor time that it took."""
    with subprocess.Popen(words, stdout=subprocess.PIPE, stderr=subprocess.STDOUT, text=True, **how) as ran:
        said = ran.stdout.read()
        _, status, used = os.wait4(ran.pid, 0)
        ran.returncode = os.waitstatus_to_exitcode(status)
    return subprocess.CompletedProcess(words, ran.returncode, said), used.ru_utime + used.ru_stime


def write(folder, texts):
    """Writes texts by their paths below a folder; one that is None is a file that goes."""
    for path, text in texts.items():
        if text is None:
            os.remove(f"{folder}/{path}")
        else:
            cases.write(f"{folder}/{path}", text)


def link(one, other):
    """Gives what was proved a second name (a check replaces such a file, and changes none), and copies the rest."""
    try:
        if one.endswith(".oantt"):
            return os.link(one, other)
    except OSError:
        pass
    return shutil.copy2(one, other)


def fitting(todo, apart):
    """The edits that one check can judge, those first that stand first: none touches a function that another does, or
    has a text that another took, or is to be kept apart from another."""
    chosen, touched, texts = [], set(), {}
    for edit in todo:
        own = {(path, at) for path, _, at in edit.places()} | {edit.function}
        beside = {it.function for it in chosen}
        if own & touched or apart.get(edit, set()) & beside or any(edit.function in apart.get(it, ()) for it in chosen):
            continue
        try:
            texts = edit.carried_out(texts)
        except ValueError:
            continue
        chosen.append(edit)
        touched |= own
    return chosen


def main():
    given = cases.given(__doc__, "--all", "--beside-ci", "--anew", "--none-is-fine", words=1 << 20)
    libraries, kept, chosen, words = Libraries("--beside-ci" in given), Kept("--anew" in given), {}, given.words
    opened = Opened()
    for name in libraries.crates:
        every = [it for it in edits.of_crate(f"crates/{name}") if it.gate or "--all" in given]
        every = [it for it in every if not it.place.startswith("tests/")]
        every = [it for it in every if not words or any(word in it.title() for word in words)]
        chosen.update({name: every} if every else {})
    os.makedirs("out", exist_ok=True)
    opened.titles = [edit.title() for every in chosen.values() for edit in every]
    opened.write()
    number = os.environ.get("RT_JOBS", "")
    lanes = int(number) if number.isdigit() and int(number) else len(os.sched_getaffinity(0))
    if libraries.beside_ci:
        lanes = 1
    with tempfile.TemporaryDirectory() as room, concurrent.futures.ThreadPoolExecutor(lanes) as pool:
        # (the libraries are built one by one; the crates that take longest begin first)
        order = [Crate(name, every, libraries, kept, opened, room) for name, every in chosen.items()]
        order = order if libraries.beside_ci else order[::-1]
        told = [it for tries in pool.map(Crate.run, order) for it in tries.values()]
    for it in order:
        print("\n".join(it.costs()), end="\n" * bool(it.checks))
    tally = cases.Tally()
    tally.passed, tally.failed = (sum(refused is it for refused, _ in told) for it in (True, False))
    if "--none-is-fine" in given and not told:
        print(tally.last())
        return
    tally.end()


if __name__ == "__main__":
    main()
