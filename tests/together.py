"""The programs that --quick plays, built as one: what they share is compiled once, with nothing optimized.

Each of them is a library here, and the program calls `main` of that one whose number `chosen` returns. The number which
that is at first stands nowhere else in the program (no call is folded): a copy in which another stands there is another
of the programs. They are the players of scripts, the programs of use, and the film store of README.md.
"""
import os
import re
from glob import glob

import cases
import players
import quick

NAME, CHOSEN = "together", 0x746F_6765_7468_6572
PLAYERS = ("play_map", "play_operations")
FILMS = "films"
MAIN = """#![tactic(auto)]

use std::io;

fn chosen() -> u64 {{
    {chosen}
}}

fn main(rt: HostRuntime) -> io::Result<()> {{
    match chosen() {{
{arms}
        _ => Ok(()),
    }}
}}
"""


def names():
    """The programs that are built together."""
    return [*PLAYERS, FILMS, *sorted(os.path.basename(it) for it in glob(f"{cases.TOP}/crates/use_*"))]


def films():
    """The source of the film store, as README.md has it: its one block that is of no example for Rust."""
    found = re.findall(r"(?m)^```rust\n((?:.*\n)*?)```$", cases.read(f"{cases.TOP}/README.md"))
    of_bindings = [cases.read(it) for it in glob(f"{cases.TOP}/bindings/rust/examples/*.rs")]
    found = [it for it in found if not any(it in example for example in of_bindings)]
    assert len(found) == 1, f"README.md has {len(found)} such blocks, and not one"
    return found[0]


def written(top, to):
    """Writes a repository that has the programs as libraries, and the one that calls them."""
    rows = {}
    for it in (it for it in names() if it != FILMS):
        rows |= players.below(top, it)
        players.copied(top, to, it)
    rows[FILMS] = f"{FILMS}: {rows['art_map'].partition(':')[2].replace('thiserror', '').strip()} art_map\n"
    cases.write(f"{to}/crates/{FILMS}/src/main.rt", films())
    for it in names():
        text = cases.read(f"{to}/crates/{it}/src/main.rt")
        os.remove(f"{to}/crates/{it}/src/main.rt")
        cases.write(f"{to}/crates/{it}/src/lib.rt", re.sub(r"(?m)^fn main\(", "pub fn main(", text))
    lowest_first = sorted(rows, key=lambda it: (it in names(), len(rows[it].split())))
    of_kit = {use for it in rows.values() for use in it.partition(":")[2].split()} - {*rows}
    arms = "\n".join(f"        {at} => {it}::main(rt)," for at, it in enumerate(names(), 1))
    cases.write(f"{to}/crates/{NAME}/src/main.rt", MAIN.format(chosen=CHOSEN, arms=arms))
    lines = [*(rows[it] for it in lowest_first), f"{NAME}: {' '.join([*lowest_first, *sorted(of_kit)])}\n"]
    cases.write(f"{to}/crates.txt", "".join(lines))
    return to


def program(name):
    """The path of one of the programs, built from the sources as they stand. Ends the script if it can't be built."""
    kept = f"{cases.TOP}/{players.KEPT}"
    with cases.folder() as room:
        taken = written(cases.TOP, f"{room}/taken")
        path = f"{kept}/quick-{name}-{quick.digest(taken, quick.BUILT_OF)[:16]}"
        with cases.one_builds(NAME):
            if not os.access(path, os.X_OK):
                said = quick.build(taken, NAME, f"{room}/{NAME}", quick.SOONEST)
                if said:
                    cases.cannot(f"the programs can't be built: {said}")
                with open(f"{room}/{NAME}", "rb") as file:
                    made = file.read()
                os.makedirs(kept, exist_ok=True)
                for number, it in enumerate(names(), 1):
                    for old in glob(f"{kept}/quick-{it}-*"):
                        os.remove(old)
                    keep(made, number, path.replace(f"/quick-{name}-", f"/quick-{it}-"))
    return path


def keep(made, number, path):
    """Writes the program of a number."""
    first = CHOSEN.to_bytes(8, "little")
    assert made.count(first) == 1, f"its number stands {made.count(first)} times in it"
    with open(f"{path}.new", "wb") as file:
        file.write(made.replace(first, number.to_bytes(8, "little")))
    os.chmod(f"{path}.new", 0o755)
    os.replace(f"{path}.new", path)
