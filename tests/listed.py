#!/usr/bin/env python3
"""Looks that each crate uses what crates.txt lists for it of the kit, and that the jobs below are done by the kit.

    tests/listed.py       at the top of the repository
A crate of the kit is used where a source calls it (`use slab`, `slab::`), or where a definition, a clause or a proof
cites it (`Rattle.slab`). A job, as that the arena keeps its nodes in slabs, wants the call. And each error of a
library's own derives thiserror's `Error`: an error is what a public type's name ends by, or what the library returns in
an `Err`, but for what is named below.
"""
import os
import re
from glob import glob

import cases
import quick

# Whose job is done by which crate of the kit.
JOBS = {"art_arena": "slab", "art_nodes": "arrayvec", "art_lines": "hex"}
ERROR = re.compile(r"\w+(?:Error|Failed|Fault|Refused)")
# What is returned in an `Err` and is no error: how far a match came, a node that is the other one, a code of C.
NO_ERRORS = {"OptimisticMismatch", "PessimisticMismatch", "InnerRef", "Code"}
TYPE = re.compile(r"(?m)^((?:[ \t]*#\[.*\]\n)*)[ \t]*pub(?:\([\w:]+\))? (?:struct|enum) (\w+)")


def sources(crate, kind):
    """The texts of a crate's files of a kind, without comments."""
    text = []
    for path in sorted(glob(f"crates/{crate}/**/*.{kind}", recursive=True)):
        if f"crates/{crate}/out/" not in path:
            text.append(re.sub(r"(?<![:\w])//.*" if kind == "rt" else r"(?m)^\s*-- .*", "", cases.read(path)))
    return "\n".join(text)


def calls(source, name):
    code = re.sub(r"(?s)\bghost use .*?;", "", source)
    return re.search(rf"(?<![\w:.]){name}::|\buse {name}\b", code) is not None


def cites(text, name):
    return re.search(rf"\bRattle\.{name}\b", text) is not None


def errors_returned(source):
    """The names of what stands in the place of an error in a `Result`."""
    for found in re.finditer(r"\bResult<", source):
        depth, at, parts = 1, found.end(), [""]
        while depth and at < len(source):
            depth += (source[at] in "<([") - (source[at] in ")]" or source[at] == ">" and source[at - 1] != "-")
            if source[at] == "," and depth == 1:
                parts.append("")
            else:
                parts[-1] += source[at]
            at += 1
        name = re.match(r"(?:\w+::)*(\w+)", parts[-1].strip()) if len(parts) == 2 else None
        if name:
            yield name[1]


def underived(source):
    """The errors of a library's own that don't derive `Error`."""
    returned, lacking = {*errors_returned(source)} - NO_ERRORS, []
    for attributes, name in TYPE.findall(source):
        if (name in returned or ERROR.fullmatch(name)) and not re.search(r"#\[derive\([^\]]*\bError\b", attributes):
            lacking.append(name)
    return lacking


def fault(crate, listed, own):
    """What a crate does not use, or nothing."""
    source = sources(crate, "rt")
    texts = source + sources(crate, "antt")
    for name in listed:
        if name not in own and not calls(source, name) and not cites(texts, name):
            return f"crates.txt lists {name} for it, which no source uses"
    job = JOBS.get(crate)
    if job and not (job in listed and calls(source, job)):
        return f"it is to use {job}, and no source calls it"
    lacking = underived(source) if os.path.exists(f"crates/{crate}/src/lib.rt") else []
    if lacking:
        return f"an error without thiserror's derive: {', '.join(lacking)}"
    return None


def main():
    told = cases.Tally(cases.given(__doc__).word)
    crates = quick.crates_of(".")
    for crate, listed in crates.items():
        if told.wants(crate):
            told.count(crate, fault(crate, listed, crates))
    told.end()


main()
