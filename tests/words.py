#!/usr/bin/env python3
"""tests/words.py: no word that a contract may cite stands for two things. Each name that a crate's specs/ exports, and
each type or predicate that its proofs/ export, is defined by that crate alone. Its last line is 'N passed, M failed'."""
import collections
import os
import re

import cases

TOP = os.path.dirname(os.path.dirname(os.path.abspath(__file__)))
# Lemmas are called by what they say, and that may be the same of two things: they begin with a small letter, or have a
# hyphen after the word that they speak of.
TYPES = re.compile(r"\s*pub (?:record|data) ([^\s:({]+)")
NAMES = re.compile(r"\s*(?:abbrev |unfoldable )*pub ([^\s:({]+) :(?!=)")


def exported(path, all_names):
    """The types and predicates that a file exports, or all its names, but for the fields of records."""
    found, record = set(), None
    for line in open(path, encoding="utf-8"):
        depth = len(line) - len(line.lstrip())
        if record is not None and line.strip() and depth <= record:
            record = None
        made = TYPES.match(line)
        if made:
            found.add(made.group(1))
            record = depth
        elif record is None and (made := NAMES.match(line)):
            word = made.group(1)
            if all_names or word[0].isupper() and "-" not in word:
                found.add(word)
    return found


def main():
    cases.given(__doc__, words=0)
    defines = collections.defaultdict(lambda: collections.defaultdict(list))
    for crate in sorted(os.listdir(f"{TOP}/crates")):
        for room in ("specs", "proofs"):
            for folder, _, files in os.walk(f"{TOP}/crates/{crate}/{room}"):
                for file in sorted(files):
                    if file.endswith(".antt"):
                        path = f"{folder}/{file}"
                        for name in exported(path, room == "specs"):
                            defines[name][crate].append(os.path.relpath(path, TOP))
    told = cases.Tally()
    for name, crates in sorted(defines.items()):
        paths = " and ".join(path for paths in crates.values() for path in paths)
        told.count(name, f"defined by {paths}" if len(crates) > 1 else None, is_shown=False)
    told.end()


if __name__ == "__main__":
    main()
