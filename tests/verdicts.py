"""What rattle says of a function with a wrong body, and what that means: refused by an open goal, or not.

tests/must_fail.py tells what is told apart.
"""
import os
import re

import cases

# What is written after the answers of each function that is tried. It is refused, and where an answer is, rattle does
# not try once more what it could offer for the open goals, which takes as long as the check itself.
NO_OFFERS = "no_offers"
REFUSED = f"\npub {NO_OFFERS} : no_such_goal\n{NO_OFFERS} = no_such_goal\n"
# What rattle says of an answer that names what is not there, or rests on what is not proved.
GONE = re.compile(r"is not in scope|has no field|has no `|that can be named|was not admitted|is no name")


class Said:
    """What rattle said of a function: `proved`, or not; its goals that are open, and the errors in its proof."""

    def __init__(self):
        self.state, self.open, self.false, self.errors = None, [], [], []

    def waits(self):
        """Whether it was not judged, since another edit's function that it calls can't be stated, or is not proved: it
        is tried again."""
        if not self.state or self.open or self.errors:
            return False
        return bool(re.search(r"part in its proof is not made yet|it calls `.*, which (is|are) not proved", self.state))

    def waits_for(self, crate):
        """The functions of the crate that it is said to call and that are not proved."""
        called = re.search(r"it calls (`.*), which (is|are) not proved", self.state)
        return set(re.findall(rf"`{crate}::([^`]+)`", called[1])) if called else set()

    def none(self):
        """Why there is no verdict on the function, or None."""
        words = "could not tell|no proof: expected `|.*the borrow checker does not cover|.*is not made yet"
        if self.state is None or re.match(words, self.state):
            return f"NOT JUDGED: rattle says of its function: {(self.state or 'nothing')[:300]}"
        return None

    def parted(self):
        """The errors in written answers: those by a name that is gone, and the goals or helpers that no longer fit."""
        gone = [it for it in self.errors if GONE.search(it)]
        return gone, list(dict.fromkeys(goal_of(it) for it in self.errors if it not in gone))

    def own(self, answers):
        """The open goals that have no written answer of the right body's. They are of the wrong body: `search` proves
        them of the right one, or it has no such goal. (Where a goal that has an answer is gone, a new one may be that
        goal by another name: then only goals that go by the name of one that stays are.)"""
        gone, _ = self.parted()
        lost = [goal_of(it) for it in gone if goal_of(it) in answers.goals and re.search(r"\bgoal\.|Goals", it)]
        ways = {re.sub(r"-clause-.*", "", it) for it in answers.goals if it not in lost}
        fresh = [it for it in self.open if it not in answers.goals]
        return [it for it in fresh if not lost or re.sub(r"-clause-.*", "", it) in ways]

    def goals_open(self, answers):
        """The open goals that no answer is written for, those first that are false at some values."""
        found = [it for it in dict.fromkeys(self.open) if it not in answers.goals]
        return sorted(found, key=lambda it: it not in self.false)

    def verdict(self, answers, without=()):
        """Whether the edit of the function is refused, and by what; None where it is to be judged again without the
        answers that no longer fit. `answers`: those of the right body; `without`: those that were left out."""
        why = self.none()
        gone, fits = self.parted()
        own = [it for it in self.open if it in without] + self.own(answers)
        if why:
            return False, why
        if self.false:
            told = " without its answer" if {*self.false} <= {*without} else ""
            return True, f"open{told}, and false at some values: {', '.join(self.false)}"
        if own:
            told = " without its answer" if {*own} <= {*without} else ""
            beside = " (its proof also names what the edit took away)" if gone else ""
            return True, f"open{told}: {', '.join(dict.fromkeys(own))}{beside}"
        if fits:
            return None
        if gone:
            told = f"; open beside it: {', '.join(self.open)}" if self.open else ""
            return False, f"REFUSED BY A NAME ALONE, which its proof has and the edit took away: {gone[0][:200]}{told}"
        if self.open:
            return True, f"open: {', '.join(self.open)}"
        how = f", without the answers that no longer fit: {', '.join(without)}" if without else ""
        return False, f"LET THROUGH: the function has no open goal with it{how} ({self.state[:160]})"


class Answers:
    """The written answers of a function: the text of their file, and what each of them is called."""

    HEAD = re.compile(r"(?m)^(?:pub |abbrev |unfoldable )*(\S+) :(?=\s)")

    def __init__(self, path):
        self.text = cases.read(path) if os.path.isfile(path) else ""
        self.names = [it[1] for it in self.HEAD.finditer(self.text)]
        self.goals = {it for it in self.names if f" {it} : goal.{it}" in f" {self.text}"}

    def parts(self):
        """The text from one answer to the next, each with its name; None for what stands before the first."""
        found, last = [[None, []]], None
        for line in self.text.split("\n"):
            made = self.HEAD.match(line)
            if made:
                last = made[1]
                found.append([last, []])
            found[-1][1].append(line)
        return [(name, "\n".join(lines)) for name, lines in found]

    def without(self, names):
        """The text without these answers and those that name them, and all that were left out."""
        left, more = {*names} & {*self.names}, True
        while more:
            uses = lambda text: any(re.search(rf"(?<![\w.-]){re.escape(it)}(?![\w-])", text) for it in left)
            more = {name for name, text in self.parts() if name and name not in left and uses(text.partition(" =")[2])}
            left |= more
        return "\n".join(text for name, text in self.parts() if name not in left), left


def goal_of(error):
    """The goal of which an error in a function's proof is, or else what is said."""
    named = re.match(r"`([^`]+)`", error) or re.search(r"in `([^`]+)`", error)
    return named[1] if named else error[:120]


def passed_over(text, crate, function, goals):
    """The text of a function's answers, in which these goals are passed over by a hole each."""
    name = re.search(r"(?m)^use \S+\.Goals as (\S+)$", text)
    if goals and not name:
        text = f"use Rattle.{crate}.proofs.{function.replace('::', '.')}.Goals as goal\n{text}"
    return text + "".join(f"\npub {it} : {name[1] if name else 'goal'}.{it}\n{it} = ?\n" for it in goals)


def said_by(text, crate):
    """What rattle printed, by function. The notes of a function's open goals stand before its line."""
    found, waiting, errors = {}, [], []
    for line in text.split("\n"):
        note = re.match(r"note: \S+: (?:it is not proved that .*?|`search` found no proof )\(`([^`]+)`\)(.*)", line)
        error = re.match(r"(?:\./)?proofs/(\S+)/\w+\.antt:\d+:\d+: error: (.*)", line)
        made = re.match(rf"fn {crate}::(\S+): (.*)", line)
        if note:
            waiting.append((note[1], "at which this goal is false" in note[2]))
        elif error and not re.match(rf"\d+ declarations? that depend|`{NO_OFFERS}`", error[2]):
            errors.append((error[1].replace("/", "::"), error[2]))
        elif made:
            it = found.setdefault(made[1], Said())
            it.state, it.open = made[2], [name for name, _ in waiting]
            # (where search alone proves a function, its goals stand in its line)
            for names in re.findall(r"`search` did not prove ((?:(?:, | and )?`[^`]+`)+)", made[2]):
                it.open += [name for name in re.findall(r"`([^`]+)`", names) if name not in it.open]
            it.false = [name for name, false in waiting if false]
            waiting = []
    for function, error in errors:
        found.setdefault(function, Said()).errors.append(error)
    return found


def blamed(ran, chosen, texts):
    """The edits for which a check came to no verdict: those in whose text rattle found an error, else all."""
    none = r"rattle: error: (?:`\w+` has no function `([^`]+)`|several functions are named `([^`]+)`).*"
    lost = re.search(none, ran.stdout)
    if lost:
        name = lost[1] or lost[2]
        return [(it, f"NO SUCH FUNCTION: {lost[0][:600]}") for it in chosen if it.function == name]
    found = {}
    for path, line, why in re.findall(r"(?m)^(?:\./)?(\S+?):(\d+):\d+: (error\[.*|error: .*)", ran.stdout):
        of_file = [it for it in chosen if path in [at for at, _, _ in it.pairs]]
        near = sorted((distance(it, path, int(line), texts), it.name) for it in of_file)
        if near:
            found.setdefault(near[0][1], f"IT DOES NOT COMPILE: {path}:{line}: {why[:200]}")
    if found:
        return [(it, found[it.name]) for it in chosen if it.name in found]
    end = ([""] + ran.stdout.strip().split("\n"))[-1]
    return [(it, f"NOT JUDGED: the check ended with status {ran.returncode}: {end[:200]}") for it in chosen]


def distance(edit, path, line, texts):
    """How many lines a line of a file stands from the edit's text in it."""
    places = [texts[path].find(new) for at, _, new in edit.pairs if at == path]
    lines = [texts[path][:at].count("\n") + 1 for at in places if at >= 0]
    return min((abs(line - it) for it in lines), default=1 << 20)
