#!/usr/bin/env python3
"""Looks that what the README of each library shows in Rust is a caller that is proved.

    tests/calling.py      at the top of the repository
Each Rust block of crates/art_NAME/README.md is a part of crates/callers/src/NAME.rt, letter for letter (for art_lines
of engine.rt), and each library that has such callers shows one. docs/USES.md has a link to the source of each program
crates/use_NAME, and what is in backquotes in its paragraph stands in that source or in specs/.

The benchmarks of perf/crates are callers, too. ./bench proves them, and rt ci may not: they read a clock. So each
definition and lemma of a library that they cite has to stand where they cite it.
"""
import os
import re
from glob import glob

import cases

CALLERS = "crates/callers/src"
USES = "docs/USES.md"
# Libraries whose callers stand among those of another one.
CALLED_IN = {"art_lines": "art_engine"}
BENCHES = "perf/crates"
CITED = re.compile(r"(?m)^(?:ghost )?use Rattle\.(art_\w+)\.((?:specs|proofs)\.[\w.]+)\.\{([^}]*)\}")


def read(path):
    try:
        with open(path, encoding="utf-8") as file:
            return file.read()
    except FileNotFoundError:
        return None


def blocks(kind, page):
    return re.findall(rf"^```{kind}\n(.*?)^```$", page, re.MULTILINE | re.DOTALL)


def fault(name):
    """Says what the page of a library shows that no caller is, or nothing."""
    file = CALLED_IN.get(name, name).removeprefix("art_")
    page, source = read(f"crates/{name}/README.md"), read(f"{CALLERS}/{file}.rt")
    if page is None or source is None:
        return "no callers" if source is None else "no page"
    shown = blocks("rust", page)
    if not shown:
        return "the page shows no caller"
    for block in shown:
        if block not in source:
            return f"the callers don't have\n{block}"
    return None


def use_fault(name, page):
    """Says what the paragraph of a program tells that its files haven't, or nothing."""
    told = [it for it in re.split(r"\n(?:- |\n)", page) if f"(../crates/{name}/src/main.rt)" in it]
    if len(told) != 1:
        return f"{USES} has {len(told)} paragraphs with a link to its source"
    texts = [read(it) for it in [f"crates/{name}/src/main.rt", *glob(f"crates/{name}/specs/**/*.antt", recursive=True)]]
    lacking = [it for it in re.findall(r"`([^`]+)`", told[0]) if not any(it in text for text in texts)]
    return f"{USES} names {', '.join(lacking)}, which its source and its specs/ haven't" if lacking else None


def bench_fault(name):
    """Says which definition or lemma a benchmark cites that is not there, or nothing."""
    for path in glob(f"{BENCHES}/{name}/**/*.in", recursive=True):
        for crate, module, names in CITED.findall(read(path)):
            text = read(f"crates/{crate}/{module.replace('.', '/')}.antt") or ""
            for it in names.split(", "):
                if not re.search(rf"\bpub\b[^\n]*(?<![\w-]){re.escape(it)}(?![\w-])", text):
                    return f"{path} cites {it} of {crate}, which {module} hasn't"
    return None


def main():
    told = cases.Tally(cases.given(__doc__).word)
    files = [os.path.basename(it).removesuffix(".rt") for it in glob(f"{CALLERS}/*.rt")]
    names = {f"art_{it}" for it in files if os.path.isdir(f"crates/art_{it}")} | {*CALLED_IN}
    faults = {name: fault(name) for name in sorted(names)}
    uses = sorted(it.split("/")[1] for it in glob("crates/use_*/src/main.rt"))
    faults.update({name: use_fault(name, read(USES) or "") for name in uses})
    faults.update({name: bench_fault(name) for name in sorted(os.listdir(BENCHES))})
    for name, why in faults.items():
        if told.wants(name):
            told.count(name, why)
    told.end()


main()
