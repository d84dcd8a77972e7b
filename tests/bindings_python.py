#!/usr/bin/env python3
"""The package artmap for Python (bindings/python), as pip builds it over the library that ./lib made.

    tests/bindings_python.py [--of FOLDER] [WORD]   FOLDER: where libartmap.a and artmap.h stand; else it is out
Played are its examples, scripts at random beside a model, those of tests/maps, CPython's own tests of dicts and sets
(bindings_python_cpython.py), what may touch a map at any moment (..._hold.py, ..._threads.py), code that runs in the
midst of each call (..._hostile.py), also under the address sanitizer and in other versions of Python that are here, and
memory (..._memory.py). Wrong models must be told. With a word, only the parts that have it in their names. It prints a
line for each case, and the last is 'N passed, M failed'. It takes two minutes of processor time.
"""
import doctest
import glob
import importlib
import os
import random
import re
import subprocess
import sys
import sysconfig
import tempfile
import zipfile

import cases
from cases import TOP, read

PYTHON = f"{TOP}/bindings/python"
sys.dont_write_bytecode = True
SCRIPTS, STEPS = 20, 400
TALLY = cases.Tally()
told = TALLY.holds


# What is tried.


def end_without_headers():
    """Ends the part where Python's headers are not there, and says how to get them."""
    include = sysconfig.get_paths()["include"]
    if not os.path.exists(f"{include}/Python.h"):
        cases.cannot(f"there is no {include}/Python.h, so the package can't be built: apt-get install python3-dev")


def installed(of, room):
    """Installs the package into a folder by pip, or by its backend alone if there is no pip, and imports it there."""
    os.environ["ARTMAP_LIBRARY"] = of
    has_pip = subprocess.run([sys.executable, "-m", "pip", "--version"], capture_output=True,
                             check=False).returncode == 0
    pip = [sys.executable, "-m", "pip", "install", "-q", "--no-index", "--no-deps", "--target", room, PYTHON]
    words = pip if has_pip else [sys.executable, "-B", f"{PYTHON}/backend.py", room]
    ran = subprocess.run(words, capture_output=True, text=True, check=False, cwd=TOP)
    told(f"the package is built by {'pip' if has_pip else 'its backend, since there is no pip'}", ran.returncode == 0,
         ran.stdout + ran.stderr)
    if ran.returncode != 0:
        TALLY.end()
    sys.path.insert(0, room)
    os.environ["PYTHONPATH"] = room


def wheel(room):
    """The wheel serves all versions of Python, holds the library, and shows no names but the module's own."""
    backend = [sys.executable, "-B", "-c", "import backend, sys; print(backend.build_wheel(sys.argv[1]))", room]
    ran = subprocess.run(backend, capture_output=True, text=True, cwd=PYTHON, check=False)
    name = ran.stdout.strip()
    is_abi3 = not sysconfig.get_config_var("Py_GIL_DISABLED")
    told(f"the wheel is {name}", ran.returncode == 0 and ("-cp39-abi3-" in name) == is_abi3, ran.stdout + ran.stderr)
    with zipfile.ZipFile(f"{room}/{name}") as held:
        names = {it.rpartition("/")[2] for it in held.namelist()}
        module = next(it for it in held.namelist() if it.endswith(".so"))
        held.extract(module, f"{room}/wheel")
    lacks = {"__init__.py", "__init__.pyi", "py.typed", "METADATA", "WHEEL", "RECORD", "LICENSE-MIT"} - names
    told("and has all files", not lacks, repr(lacks))
    ran = subprocess.run(["nm", "-D", f"{room}/wheel/{module}"], capture_output=True, text=True, check=False)
    rows = [it.split() for it in ran.stdout.splitlines()]
    shown = [row[-1] for row in rows if len(row) == 3 and row[1] in "TDBR"]
    asked = [row[-1] for row in rows if row[0] == "U" and row[-1].startswith(("artmap_", "rattle_", "_Py_Lock"))]
    told("its names are its own", shown == ["PyInit__artmap"] and not asked, f"{shown} {asked} {ran.stderr}")


def run_of(room, *words, python=sys.executable, **env):
    """What a run of Python prints, and its status."""
    env = {**os.environ, "PYTHONPATH": room, **env}
    ran = subprocess.run([python, "-B", *words], capture_output=True, text=True, cwd=room, env=env,
                         timeout=600, check=False)
    return ran.stdout, ran.stderr, ran.returncode


# Examples.


def examples(room):
    import artmap

    for name, least in (("artmap", 10), ("artmap._set", 1)):
        failed, tried = doctest.testmod(importlib.import_module(name))
        told(f"{tried} examples in the words of {name}", tried >= least and failed == 0, f"{failed} fail, of {tried}")
    out, err, status = run_of(room, f"{PYTHON}/examples/index.py")
    told("index.py", (status, out) == (0, read(f"{PYTHON}/examples/index.out")), out + err)
    for page in ("README.md", "bindings/python/README.md"):
        for block, wanted in re.findall(r"(?m)^```python\n((?:.*\n)*?)```\n((?:\n|    .*\n)*)", read(f"{TOP}/{page}")):
            wanted = "".join(f"{it[4:]}\n" for it in wanted.splitlines() if it)
            out, err, status = run_of(room, "-c", block)
            told(f"{page}: {block[:40]!r}", (status, out) == (0, wanted), out + err)
    out, err, status = run_of(room, "-m", "artmap")
    is_told = any(it in out for it in ("proved where it was made", "made without proofs", "not known to be proved"))
    has_all = status == 0 and f"artmap {artmap.__version__}" in out and "libartmap 0." in out and is_told
    told("python -m artmap", has_all, out + err)
    out, err, status = run_of(room, "-c", "import artmap; help(artmap)")
    told("help begins with the calls", 0 < out.find("The calls of Art") < out.find("longest_prefix(query)") < 1200,
         out[:600])


def stubs(room):
    """The stubs and the package agree: names, and the words of each call."""
    import ast
    import inspect

    import artmap

    tree = ast.parse(read(f"{room}/artmap/__init__.pyi"))
    classes = {it.name: it for it in tree.body if isinstance(it, ast.ClassDef)}
    told("the stubs have what the package shows", {*artmap.__all__} <= {*classes} | {
        it.target.id for it in tree.body if isinstance(it, ast.AnnAssign)}, repr([*classes]))
    for name in ("Art", "ArtSet"):
        made = getattr(artmap, name)
        has = {it.name: it for it in classes[name].body if isinstance(it, ast.FunctionDef)}
        of_mapping = {"get", "setdefault", "pop", "clear", "update"} if name == "Art" else set()
        lacks = [it for it in {*vars(made)} - of_mapping if not it.startswith("_") and it not in has]
        wrong = [it for it in has if not hasattr(made, it)]
        for call, node in has.items():
            try:
                words = [*inspect.signature(getattr(made, call)).parameters.values()]
            except (TypeError, ValueError):
                continue
            args = node.args
            known = {it.arg for it in [*args.posonlyargs, *args.args, *args.kwonlyargs]}
            if not call.startswith("__") and not any(it.kind in (it.VAR_POSITIONAL, it.VAR_KEYWORD) for it in words):
                wrong += [f"{call}({it.name})" for it in words if it.name not in known | {"self", "type", "cls"}]
        told(f"the stubs of {name} are those of its calls", not lacks and not wrong, f"lacks {lacks}, wrong {wrong}")
    mypy = subprocess.run([sys.executable, "-m", "mypy", "--version"], capture_output=True, check=False).returncode == 0
    if mypy:
        ran = subprocess.run([sys.executable, "-m", "mypy", "--strict", "-p", "artmap"], capture_output=True,
                             text=True, check=False)
        told("mypy --strict", ran.returncode == 0, ran.stdout)


# Scripts at random.


def walked(it, name, is_reversed):
    """A walk of a map, as `Model.walked` tells it."""
    seen = getattr(it, name)()
    return [*reversed(seen)] if is_reversed else [*seen]


# The words of each call: a key, a query or prefix, bounds, a value, pairs, two truths, whether it goes down, a place.
WORDS = {
    "__setitem__": "kv", "__getitem__": "k", "__delitem__": "k", "__contains__": "k", "__len__": "", "get": "kv",
    "setdefault": "kv", "pop": "kv", "popitem": "", "longest_prefix": "q", "first": "", "last": "", "next": "ki",
    "previous": "ki", "range": "kkcr", "irange": "kkcr", "prefix": "pr", "remove_prefix": "p", "clear": "", "copy": "",
    "update": "u", "walked": "wr", "__eq__": "m", "load": "s", "peekitem": "a", "popitem at": "a",
    "compact": "", "prefixes": "q",
}  # fmt: skip
NAMED = {"i": "inclusive", "c": "inclusive", "r": "reverse"}
OFTEN = {"__setitem__": 12, "clear": 0.1, "compact": 0.5, "remove_prefix": 0.5, "update": 0.5}


class Words:
    """Words of calls, at random: keys that have much in common, and often are stored."""

    def __init__(self, seed, kind, model):
        self.rng, self.kind, self.model = random.Random(seed), kind, model
        rng = self.rng
        self.front = rng.choice([b"", b"", b"shared/" * rng.choice([1, 5, 60])])
        self.letters = rng.choice([b"\x00\xff", b"\x01ab\xff", bytes(range(256))])
        self.texts = rng.choice(["ab", "\0\1\2a", "aé€\ud800\ue000\U0001f600\U0010ffff"])

    def key(self):
        rng = self.rng
        if self.model and rng.random() < 0.4:
            return rng.choice(sorted(self.model))
        if self.kind is int:
            return rng.choice([rng.randrange(-9, 9), rng.randrange(-1 << 63, 1 << 63), rng.choice([-1, 1]) * (1 << 62)])
        length = rng.randint(0, 5) if rng.random() < 0.95 else 300
        if self.kind is str:
            return self.front.decode() + "".join(rng.choices(self.texts, k=length))
        return self.front + bytes(rng.choices(self.letters, k=length))

    def of(self, word):
        rng = self.rng
        if word == "k":
            return self.key()
        if word == "q":
            return self.key() if self.kind is int else self.key() + self.key()[:3]
        if word == "p":
            key = self.key()
            return key if self.kind is int else key[: rng.randint(max(0, len(key) - 3), len(key))]
        if word == "v":
            return rng.choice([None, rng.random(), [rng.randrange(9)], b"text"])
        if word == "u":
            return [(self.key(), self.of("v")) for _ in range(rng.randint(0, 9))]
        if word == "s":
            pairs = [(self.key(), self.of("v")) for _ in range(rng.randint(0, 9))]
            pairs = pairs if rng.random() < 0.3 else [*dict(pairs).items()]
            return sorted(pairs, key=lambda it: it[0])
        if word == "c":
            return rng.random() < 0.5, rng.random() < 0.5
        if word == "a":
            return rng.randint(-len(self.model) - 1, len(self.model) + 1)
        return {"w": lambda: rng.choice(["keys", "values", "items"]), "m": lambda: dict(self.model)}.get(
            word, lambda: rng.random() < 0.5)()


def one_script(seed, kind, model):
    """Plays a script, and returns what is wrong in it, if anything is."""
    from artmap import Art
    from bindings_python_calls import outcome

    words_of, map_ = Words(seed, kind, model), Art(key=kind)
    rng = words_of.rng
    names, weights = list(WORDS), [OFTEN.get(name, 1) for name in WORDS]
    bound = {"walked": lambda *it: walked(map_, *it), "popitem at": lambda at: map_.popitem(index=at)}
    bound_of_model = {"popitem at": lambda at: model.popitem(at)}
    for number in range(STEPS):
        name = rng.choices(names, weights)[0]
        if kind is int and name in ("longest_prefix", "prefixes", "prefix", "remove_prefix"):
            continue
        words, how = [], {}
        for word in WORDS[name]:
            if word in NAMED and name != "walked":
                how[NAMED[word]] = words_of.of(word)
            else:
                words.append(words_of.of(word))
        if name in ("range", "irange") and rng.random() < 0.3:
            words[rng.randrange(2)] = None
        got = outcome(lambda: (bound.get(name) or getattr(map_, name))(*words, **how))
        wanted = outcome(lambda: (bound_of_model.get(name) or getattr(model, name))(*words, **how))
        if got != wanted or len(map_) != len(model):
            return f"call {number}, {name} {words} {how}: {got!r}, and not {wanted!r}; {len(map_)} pairs"
        if number % 20 == 0 and [*map_.items()] != model.range():
            return f"call {number}, {name} {words} {how} leaves {map_!r}"
    return "" if map_ == dict(model) and [*map_] == sorted(model) else f"at the end there is {map_!r}"


def scripts():
    from artmap import Ended
    from bindings_python_model import Model, Wrong

    for kind in (bytes, Ended, str, int):
        for seed in range(SCRIPTS):
            why = one_script(seed, kind, Model(kind))
            told(f"script {seed} of {kind.__name__}", not why, why)
    for name, wrong in vars(Wrong).items():
        if isinstance(wrong, type):
            kinds = (bytes, Ended, str)
            is_told = any(one_script(seed, kind, wrong(kind)) for seed in range(SCRIPTS) for kind in kinds)
            told(f"a model that is wrong, {name}, is told", is_told, "no script tells it")


# Want of memory.


def windows_of(name, refuse, shim):
    """Runs a call in a window; returns what the shim tells, and what the call did."""
    words = [sys.executable, "-SB", f"{TOP}/tests/bindings_python_calls.py", name]
    with tempfile.TemporaryFile(buffering=0) as trace:
        env = {**os.environ, "LD_PRELOAD": shim, "REFUSE": refuse, "REFUSE_TRACE": str(trace.fileno())}
        ran = subprocess.run(words, env=env, pass_fds=[trace.fileno()], capture_output=True, text=True, timeout=60,
                             check=False)
        trace.seek(0)
        return trace.read().decode(), ran.stdout if ran.returncode == 0 else f"status {ran.returncode}: {ran.stderr}"


def refused(room):
    """Each request of malloc in each call is refused, alone and with all later ones."""
    from bindings_python_calls import CALLS, TAKE_MEMORY

    shim = cases.shim("refuse.c")
    for name in CALLS:
        free, most, why = windows_of(name, "0", shim)[1], 0, ""
        for rest in ("", "+"):
            marks, number = "x", 0
            while "x" in marks and not why:
                number += 1
                marks, did = windows_of(name, f"{number}{rest}", shim)
                # (it does its work, or it says so, leaves the map as it was, and does its work at the next try)
                if did not in (free, f"kept{free}"):
                    why = f"request {number}{rest}, {marks}: {did}, and not {free}"
            most = max(most, number - 1)
        if not why and most == 0 and name in TAKE_MEMORY:
            why = "it makes no request"
        told(f"memory is refused to {name}, {most} requests", free.startswith(" (") and not why, why or free)


# What is tried elsewhere, in a run of its own.


def elsewhere(room, script, *words, where="", python=sys.executable, **env):
    """The cases of another script, which prints them."""
    out, err, status = run_of(room, "-X", "dev", f"{TOP}/tests/{script}", *words, python=python, **env)
    lines = out.splitlines()
    for line in lines[:-1]:
        name, _, ended = line.partition(": ")
        if ended.startswith(("ok", "FAILED: ")):
            told(f"{name[:300]}{where}", ended.startswith("ok"), out[-1500:])
    is_ended = status == 0 and lines and re.fullmatch(r"\d+ passed, 0 failed", lines[-1])
    told(f"{script} ends{where}", is_ended, f"status {status}: {out[-500:]} {err[-1500:]}")


def sanitized(room):
    """The hostile code, where the module is built with the address sanitizer."""
    found = subprocess.run(["cc", "-print-file-name=libasan.so"], capture_output=True, text=True, check=False)
    found = found.stdout.strip()
    if not os.path.isabs(found):
        print("cc has no libasan.so, so there is no run under the address sanitizer: skipped")
        return
    to, flags = f"{room}/sanitized", "-g -fsanitize=address"
    built = subprocess.run([sys.executable, "-B", f"{PYTHON}/backend.py", to], capture_output=True, text=True,
                           check=False, env={**os.environ, "CFLAGS": flags, "LDFLAGS": flags})
    if told("the package is built with the address sanitizer", built.returncode == 0, built.stderr):
        elsewhere(to, "bindings_python_hostile.py", where=", under the address sanitizer", LD_PRELOAD=found,
                  PYTHONMALLOC="malloc", ASAN_OPTIONS="detect_leaks=0")


def other_versions(room):
    """The hostile code, and interpreters of their own, in other versions of Python: on the PATH, or pyenv's."""
    folders = [*os.get_exec_path(), *sorted(glob.glob(os.path.expanduser("~/.pyenv/versions/*/bin")))]
    for minor in range(9, 20) if not sysconfig.get_config_var("Py_GIL_DISABLED") else ():
        is_that = f"import sys; sys.exit(sys.version_info[1] != {minor} or 'free-threading' in sys.version)"
        found = (it for it in (f"{folder}/python3.{minor}" for folder in folders) if os.access(it, os.X_OK)
                 and subprocess.run([it, "-c", is_that], capture_output=True, check=False).returncode == 0)
        python = next(found, None) if minor != sys.version_info[1] else None
        for script in (["hostile.py"], ["memory.py", "interpreters"]) if python else ():
            elsewhere(room, f"bindings_python_{script[0]}", *script[1:], where=f", in python3.{minor}", python=python,
                      PYTHONMALLOC="debug")


def main():
    given = cases.given(__doc__, "--of=FOLDER")
    end_without_headers()
    os.chdir(TOP)
    with cases.folder() as room:
        installed(cases.library(given), room)
        from bindings_python_cases import cases as of_calls
        from bindings_python_maps import of_maps
        from bindings_python_order import in_order

        parts = {
            "examples": lambda: examples(room), "wheel": lambda: wheel(room), "stubs": lambda: stubs(room),
            "cases": lambda: of_calls(told), "order": lambda: in_order(told), "scripts": scripts,
            "maps": lambda: of_maps(told), "refused": lambda: refused(room),
            "cpython": lambda: elsewhere(room, "bindings_python_cpython.py"),
            "hold": lambda: elsewhere(room, "bindings_python_hold.py", PYTHONMALLOC="debug"),
            "threads": lambda: elsewhere(room, "bindings_python_threads.py", PYTHONMALLOC="debug"),
            "hostile": lambda: elsewhere(room, "bindings_python_hostile.py", PYTHONMALLOC="debug"),
            "sanitized": lambda: sanitized(room), "other versions": lambda: other_versions(room),
            "memory": lambda: elsewhere(room, "bindings_python_memory.py"),
        }  # fmt: skip
        for name, part in parts.items():
            if given.word in name:
                part()
    TALLY.end()


if __name__ == "__main__":
    main()
