"""The players: programs that play scripts of calls. They are tools, and nothing proves them; what they call is proved.

Each is a crate below tests/players, whose files end in .rt.in, since the gate takes no .rt file that it doesn't prove.
tests/players/crates.lines says what each stands on. A player is built once, without proofs and without checks at run
time (tools/quick.py), so that it plays what a proved build would: all scripts share the build, which out/players keeps
until a source changes. For ./test --quick nothing is optimized, and most are built with others (tests/together.py).
"""
import functools
import hashlib
import os
import shutil
import tempfile
from glob import glob

import cases
import quick

FOLDER, KEPT = "tests/players", "out/players"
LINES = f"{FOLDER}/crates.lines"


def below(top, name):
    """The crates that a player stands on and itself, each with the line that says what it stands on itself."""
    lines = {}
    for path in (f"{top}/crates.txt", f"{top}/{LINES}"):
        with open(path, encoding="utf-8") as file:
            lines |= {it.split(":")[0].split()[0]: it for it in file if ":" in it and not it.startswith("#")}
    return {it: lines[it] for it in [*lines[name].split(":")[1].split(), name] if it in lines}


def copied(top, to, name):
    """Copies the sources that a player is built of into a repository of its own, and returns where that is."""
    lines = below(top, name)
    for it in lines:
        for folder in (f"{top}/crates/{it}/src", f"{top}/{FOLDER}/{it}/src"):
            for path in glob(f"{folder}/**/*.rt", recursive=True) + glob(f"{folder}/**/*.rt.in", recursive=True):
                made = f"{to}/crates/{it}/src/{os.path.relpath(path, folder).removesuffix('.in')}"
                os.makedirs(os.path.dirname(made), exist_ok=True)
                shutil.copyfile(path, made)
    with open(f"{to}/crates.txt", "w", encoding="utf-8") as file:
        file.writelines(lines.values())
    return to


def path_of(taken, name, compiler=quick.UNCHECKED):
    """Where, below the top, the build of a player is kept whose sources these are."""
    made, kind = f"{quick.digest(taken, quick.BUILT_OF)} {compiler}", "quick-" * (compiler is not quick.UNCHECKED)
    return f"{KEPT}/{kind}{name}-{hashlib.sha256(made.encode()).hexdigest()[:16]}"


@functools.cache
def program(name, is_quick=False, top=quick.TOP):
    """The path of a player, as it is built from the sources as they stand; with nothing optimized, if it is to be there
    soon. Ends the script if it can't be built."""
    import together

    if is_quick and name in together.PLAYERS:
        return together.program(name)
    compiler = quick.SOONEST if is_quick else quick.UNCHECKED
    with tempfile.TemporaryDirectory() as room:
        taken = copied(top, f"{room}/taken", name)
        path = f"{top}/{path_of(taken, name, compiler)}"
        os.makedirs(f"{top}/{KEPT}", exist_ok=True)
        with cases.one_builds(name):
            if not os.access(path, os.X_OK):
                said = quick.build(taken, name, f"{room}/{name}", compiler)
                if said:
                    cases.cannot(f"{name} can't be built: {said}")
                for old in glob(f"{path[:-16]}*"):
                    os.remove(old)
                shutil.move(f"{room}/{name}", path)
    return path
