"""What the scripts of tests/ do alike: they take words, choose cases by one, run them, tell each at once, and count.

A script is its cases:

    given = cases.given(__doc__, "--quick", "--program=PATH", words=1)
    told = cases.Tally(given.word)
    for name, call in CASES:
        told.case(name, call)
    told.end()

Its last line is 'N passed, M failed', by which ./test counts. It begins with a comment that says what it shows and how
it is called; `given` prints that where the words are others. Below are also what they have in common beside: which
program is tried, limits of time, small libraries that are loaded before a program, and copies of the repository.
"""
import contextlib
import fcntl
import hashlib
import os
import shutil
import signal
import subprocess
import sys
import tempfile

TOP = os.path.dirname(os.path.dirname(os.path.abspath(__file__)))
sys.path.insert(0, f"{TOP}/tools")
import quick

# Seconds, which no program that is waited for exceeds.
LIMIT = 60
# Why a case fails; any other exception ends its script.
FAILURES = (AssertionError, OSError, ValueError, LookupError, StopIteration, subprocess.SubprocessError, quick.NotToBeHad)
# How much is printed of why a case failed.
SHOWN = 4000
# What the library for C is made of, beside the crates (tools/library.py).
LIBRARY_OF = ("bindings/c/artmap.h", "bindings/c/artmap.c", "tools/library.py", "tools/quick.py",
              "tools/module.py")


class Given:
    """The words of a script: `word`, its first word or '', `words`, all of them, and its flags, each by its name."""

    def __init__(self, words, flags):
        self.words, self.word, self.flags = words, words[0] if words else "", flags

    def __contains__(self, flag):
        return flag in self.flags

    def __getitem__(self, flag):
        return self.flags[flag]


def given(told, *flags, words=1):
    """Reads the words that a script is called with: these flags, those of the form '--flag=NAME' with a word after
    them, and at most so many words. Where they are others it prints what the script says of itself, and ends with
    status 2."""
    valued, found, left, rest = {it.partition("=")[0] for it in flags if "=" in it}, {}, [], sys.argv[1:]
    while rest:
        it = rest.pop(0)
        if it in valued and rest:
            found[it] = rest.pop(0)
        elif it in flags and it not in valued:
            found[it] = True
        else:
            left.append(it)
    if len(left) > words or any(it.startswith("--") for it in left):
        print(told, file=sys.stderr)
        sys.exit(2)
    return Given(left, found)


class Tally:
    """Counts of cases. Only those with `word` in their name are run; each is told as soon as it has ended."""

    def __init__(self, word=""):
        self.word, self.passed, self.failed = word, 0, 0

    def wants(self, name):
        return self.word in name

    def count(self, name, why=None, told="ok", is_shown=True):
        """Counts one case: it failed where there is a reason. One that passed may go untold."""
        self.passed, self.failed = self.passed + (not why), self.failed + bool(why)
        if why or is_shown:
            print(f"{name}: FAILED: {str(why)[:SHOWN]}" if why else f"{name}: {told}", flush=True)
        return not why

    def holds(self, name, is_right, why="", is_shown=True):
        """Counts one case, by whether it is right."""
        return self.count(name, None if is_right else why or "it is not so", is_shown=is_shown)

    def case(self, name, call, *words, **named):
        """Runs a case, if it is one of those that are chosen. What it returns is told, and why it raised."""
        if not self.wants(name):
            return None
        try:
            told = call(*words, **named)
        except FAILURES as why:
            return self.count(name, str(why) or repr(why))
        return self.count(name, told=f"ok, {told}" if told else "ok")

    def last(self):
        return f"{self.passed} passed, {self.failed} failed"

    def end(self):
        """Prints the last line, and ends the script: status 1 where a case failed, or none was run."""
        print(self.last(), flush=True)
        sys.exit(bool(self.failed) or not self.passed)


def wants(found, wanted, told=""):
    """Fails where two values differ."""
    assert found == wanted, f"{told}{': ' if told else ''}{found} and not {wanted}"


def cannot(why):
    """Ends a script that can't try its cases."""
    print(f"FAILED: {why}\n0 passed, 1 failed", flush=True)
    sys.exit(1)


def end_group(ran):
    """Ends a program that has not ended, and what it started, so that nothing holds a pipe which is waited for."""
    with contextlib.suppress(OSError):
        os.killpg(ran.pid, signal.SIGKILL)


def ended(words, input=None, seconds=LIMIT, **how):
    """Runs a program to its end, and gives what it wrote to standard output and to standard error, and its status."""
    how.setdefault("stdout", subprocess.PIPE)
    how.setdefault("stdin", subprocess.PIPE if input is not None else subprocess.DEVNULL)
    with subprocess.Popen(words, stderr=subprocess.PIPE, start_new_session=True, **how) as ran:
        try:
            out, err = ran.communicate(input, timeout=seconds)
        finally:
            end_group(ran)
    return out, err, ran.returncode


def programs(given, name=quick.PROGRAM):
    """The files of the program that is tried: that at `--program PATH`; with `--quick` a build without proofs; else
    both that rt ci has built, as LLVM and as Rattle's own compiler make it."""
    if "--program" in given:
        return [os.path.abspath(given["--program"])]
    if "--quick" in given:
        return [f"{TOP}/{kept(name)}"]
    made = os.path.abspath(f"crates/{name}/out/{name}")
    return [made, f"{made}.by-rattle"]


def title(program):
    """What a program is called in the names of cases."""
    name = os.path.basename(program)
    return name if name.startswith(quick.PROGRAM) else f"{quick.PROGRAM}, unproved,"


@contextlib.contextmanager
def one_builds(name):
    """What several scripts need is built by the one that asks first. The second waits for it."""
    os.makedirs(f"{TOP}/out", exist_ok=True)
    with open(f"{TOP}/out/{name}.lock", "w", encoding="utf-8") as lock:
        fcntl.flock(lock, fcntl.LOCK_EX)
        yield


def kept(name=quick.PROGRAM):
    """The path, below the top, of the program as it is built without proofs."""
    with one_builds(name):
        try:
            return quick.kept(TOP)
        except quick.NotToBeHad as why:
            cannot(f"{name} can't be built: {why}")


def library(given=()):
    """The folder of the library for C: that at `--of FOLDER`, or out, where ./lib makes it if it is not that of the
    sources as they stand."""
    if "--of" in given:
        return os.path.abspath(given["--of"])
    with one_builds("libartmap"):
        made, proved = f"{TOP}/out/libartmap.a", "crates/art_c/out/libart_c.a"
        read_of = [*quick.sources(TOP, quick.PROVED_OF), *LIBRARY_OF, *[proved] * os.path.exists(f"{TOP}/{proved}")]
        is_made = os.path.exists(made) and all(os.path.getmtime(f"{TOP}/{it}") <= os.path.getmtime(made) for it in read_of)
        if not is_made and subprocess.run([f"{TOP}/lib"], stdout=subprocess.DEVNULL, check=False).returncode:
            cannot("./lib made no library")
    return f"{TOP}/out"


def shim(source):
    """Builds a small library of C that is loaded before a program, as tests/refuse.c, and returns its path."""
    with open(f"{TOP}/tests/{source}", "rb") as file:
        made = f"{TOP}/out/{source.removesuffix('.c')}-{hashlib.sha256(file.read()).hexdigest()[:8]}.so"
    if not os.path.exists(made):
        os.makedirs(os.path.dirname(made), exist_ok=True)
        words = ["cc", "-O2", "-Wall", "-shared", "-fPIC", "-o", f"{made}.{os.getpid()}", f"{TOP}/tests/{source}"]
        subprocess.run(words, check=True)
        # (it comes into its place whole: another script may use it meanwhile)
        os.replace(f"{made}.{os.getpid()}", made)
    return made


def folder():
    """A folder that goes with what is made in it."""
    return tempfile.TemporaryDirectory()


def copied(to, *left_out):
    """Copies the repository without what is built or kept, and returns the copy's folder."""
    names = {".git", "out", "__pycache__", *left_out}
    shutil.copytree(TOP, to, symlinks=True, ignore=lambda at, found: names & {*found})
    return to


def write(path, text):
    """Writes a file, with the folders above it."""
    os.makedirs(os.path.dirname(path) or ".", exist_ok=True)
    with open(path, "w", encoding="utf-8") as file:
        file.write(text)


def read(path):
    with open(path, encoding="utf-8") as file:
        return file.read()
