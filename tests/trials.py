"""The tests of tests/players/vectors, with the examples of doc comments among them, built as one crate: what they share
is compiled once, with nothing optimized, and for --quick without the address sanitizer. Each is run in a process of its
own. The script that comes first builds them; the other finds what was said in out/trials.
"""
import os
import re

import cases
import players
import quick

NAME, KEPT, EXAMPLES = "vectors", "out/trials", "examples"


def said(examples, is_quick=False):
    """What is said of all of them, by the sources as they stand: `examples` is the text of a module."""
    with cases.folder() as room:
        taken = players.copied(cases.TOP, f"{room}/taken", NAME)
        cases.write(f"{taken}/crates/{NAME}/src/{EXAMPLES}.rt", examples)
        with open(f"{taken}/crates/{NAME}/src/lib.rt", "a", encoding="utf-8") as file:
            file.write(f"\n#[cfg(test)]\nmod {EXAMPLES};\n")
        path = f"{cases.TOP}/{KEPT}/{'quick-' * is_quick}{quick.digest(taken, quick.BUILT_OF)}"
        with cases.one_builds(NAME):
            if not os.path.exists(path):
                cases.write(f"{path}.new", quick.tested(taken, NAME, not is_quick))
                os.replace(f"{path}.new", path)
        return cases.read(path)


def by_name(text):
    """How each test ended, and what was said of it behind that, by its name."""
    parts = re.split(r"(?m)^test ([\w:]+) \.\.\. (\w+)$", text.split("\ntest result:")[0])
    return {name: (word, rest) for name, word, rest in zip(parts[1::3], parts[2::3], parts[3::3])}
