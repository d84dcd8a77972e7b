#!/usr/bin/env python3
"""Runs the tests of tests/players/vectors: worked values of the libraries, and what their callers return.

    tests/vectors.py [--quick] [WORD]   at the top of the repository; WORD: only tests that have it in their name are
                                        told; --quick: without the address sanitizer
Each file there begins with what it shows. tests/trials.py builds all as one crate, without proofs and under the address
sanitizer, and runs each test in a process of its own. The names of leaves are noted before and after calls there, too:
each key that stays keeps its leaf. Before, it looks that tests/worked.lines is true, which says of each worked row
where it is played, and writes that as a table to out/worked.md.
"""
import os
import re
from glob import glob

import cases
import examples
import players
import trials

TOP, NAME, WORKED = cases.TOP, trials.NAME, "tests/worked.lines"


def wanted():
    """The names of the tests, by the files that they stand in."""
    for path in sorted(glob(f"{TOP}/{players.FOLDER}/{NAME}/src/*.rt.in")):
        with open(path, encoding="utf-8") as file:
            for test in re.findall(r"#\[test\]\n\s*fn (\w+)", file.read()):
                yield f"{os.path.basename(path).split('.')[0]}::{test}"


def missing(path, texts):
    """The first of these texts that a file hasn't, after those before it, or None."""
    if not os.path.isfile(path):
        return "the file"
    text, at = cases.read(path), 0
    for it in texts:
        if it not in text[at:]:
            return it
        at = text.index(it, at) + len(it)
    return None


def worked():
    """Of each worked row what it is, where it is played, and what that lacks. It writes the table."""
    rows = []
    for what, path, texts in re.findall(r"(?m)^([^#\n][^:\n]*): ([\w./]+):(.*)$", cases.read(f"{TOP}/{WORKED}")):
        rows.append((what, path, missing(f"{TOP}/{path}", texts.strip().split("|"))))
    cases.write(f"{TOP}/out/worked.md", "".join(f"| {what} | `{path}` |\n" for what, path, _ in rows))
    return rows


def main():
    given = cases.given(__doc__, "--quick")
    told = cases.Tally(given.word)
    for what, path, lacks in worked():
        if told.wants(what):
            told.count(what, lacks and f"{path} lacks {lacks}", told=f"ok, {path}")
    names = [it for it in wanted() if told.wants(it)]
    said = trials.said(examples.module(), "--quick" in given) if names else ""
    ended = trials.by_name(said)
    for it in names:
        word = ended.get(it, ("not run", ""))[0]
        told.count(it, None if word == "ok" else word)
    if told.failed:
        print(said[-3000:])
    told.end()


if __name__ == "__main__":
    main()
