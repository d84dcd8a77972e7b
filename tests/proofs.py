#!/usr/bin/env python3
"""Proves crates in the order given, each over those below it, and their tests, by `rt check` and `rt test`.

    tests/proofs.py CRATE..      at the top of the repository; ./test CRATE.. calls it, lowest first
What a check keeps in out/incremental is used, so only what changed is proved. A crate whose library failed is not
tried.
"""
import os
import re
import subprocess
from glob import glob

import cases
import quick


def has_tests(crate):
    """Whether a crate has functions under #[test]."""
    files = glob(f"crates/{crate}/src/**/*.rt", recursive=True)
    return any(re.search(r"(?m)^\s*#\s*\[\s*test\b", cases.read(it)) for it in files)


def prove(crate, verb, wanted):
    """Runs a command of rt in a crate. Its output goes to a log; where it fails, the lines that tell why are the
    reason."""
    log = f"{cases.TOP}/out/proof-{verb}-{crate}.log"
    with open(log, "w", encoding="utf-8") as file:
        how = {"cwd": f"crates/{crate}", "stdin": subprocess.DEVNULL, "stdout": file, "stderr": subprocess.STDOUT}
        status = subprocess.run(["rt", verb], **how).returncode
    said = cases.read(log).rstrip().split("\n")
    told = [it for it in said if re.search(r": not proved|: no proof|\berror\b|\.\.\. FAILED", it)]
    assert status == 0, f"{'; '.join(told[:3]) or said[-1]}: {os.path.relpath(log)} has all"
    return next((it for it in said[::-1] if re.match(wanted, it)), said[-1])[:100]


def main():
    given = cases.given(__doc__, words=1 << 20)
    crates, told, lost = quick.crates_of(cases.TOP), cases.Tally(), set()
    os.makedirs("out", exist_ok=True)
    for crate in given.words:
        below = [it for it in crates[crate] if it in lost]
        if below:
            is_proved = told.count(crate, f"not tried: its library {below[0]} failed")
        else:
            is_proved = told.case(crate, prove, crate, "check", "logic=proved")
        if is_proved and has_tests(crate):
            told.case(f"{crate}, its tests", prove, crate, "test", "test result|logic=proved")
        lost |= set() if is_proved else {crate}
    told.end()


if __name__ == "__main__":
    main()
