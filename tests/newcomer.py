#!/usr/bin/env python3
"""Does what README.md tells a newcomer: a repository of one's own, with the map in it, whose program then runs.

    tests/newcomer.py [--quick]    at the top of the repository; its last line is 'N passed, M failed'
The one block of shell of docs/USES.md is run in an empty folder beside a link named art; the one block of Rust of
README.md that is of no example of bindings/rust becomes the program's source. The program is built without proofs
(tools/quick.py), as `rt try` builds it, but with nothing optimized. What it prints is looked at. With --quick what is
built is the program over the libraries here (tests/together.py), once the repository is seen to have the same.
"""
import filecmp
import os
import re
import subprocess
from glob import glob

import cases
import quick
import together

PRINTED = """Office Space goes in: true
Brazil goes in: true
Office goes in: false
Some((StrKey("Brazil"), 5)) is the first of 2
"""


def shell_of(page):
    found = re.findall(r"(?m)^```sh\n((?:.*\n)*?)```$", cases.read(page))
    assert len(found) == 1, f"{page} has {len(found)} blocks of sh, and not one"
    return found[0]


def has_the_libraries(mine):
    """Fails where a repository lacks a source of a library that its program stands on, or has another."""
    crates = quick.crates_of(mine)
    for it in (it for it in crates["films"] if it in crates):
        files = glob(f"{cases.TOP}/crates/{it}/src/**/*.rt", recursive=True)
        others = [at for at in files if not filecmp.cmp(at, f"{mine}/{os.path.relpath(at, cases.TOP)}", False)]
        assert files and not others, f"{it} is another: {others}"
    assert [it for it in crates["films"] if it.startswith("art_")] == [*crates][:-1], f"its crates are {[*crates]}"


def a_map_of_ones_own(room, is_quick):
    os.symlink(cases.TOP, f"{room}/art")
    ran = subprocess.run(["sh", "-e"], input=shell_of("docs/USES.md"), text=True, cwd=room, capture_output=True)
    assert ran.returncode == 0, ran.stderr
    program, source = f"{room}/program", f"{room}/mine/crates/films/src/main.rt"
    cases.write(source, together.films())
    if is_quick:
        has_the_libraries(f"{room}/mine")
        program = together.program(together.FILMS)
    else:
        said = quick.build(f"{room}/mine", "films", program, quick.UNEDITED)
        assert said is None, said
    cases.wants(cases.ended([program], text=True), (PRINTED, "", 0))


def main():
    given = cases.given(__doc__, "--quick", words=0)
    told = cases.Tally()
    with cases.folder() as room:
        told.case("a_map_of_ones_own", a_map_of_ones_own, room, "--quick" in given)
    told.end()


main()
