#!/usr/bin/env python3
"""Lists what the proof of each function took, the dearest first, by the times of the files that a check kept.

    tools/dear.py [--repository PATH] [--jobs N] [--all] CRATE..    at the top of the repository

It reads crates/CRATE/out/incremental, which `rt check` in the crate leaves. A check keeps a file for each module when
it ends with it, so the time between two files is what the second took. So the list is of what the last check did:
remove out/incremental, and run `rt check --jobs 1`, for one that is whole and exact. Where N processes shared the
check, each file is taken to be of the process that was last at the same function, and the times are near ones. A row
has the seconds, and the parts that took most: `Proof` is the search for goals without an answer, `Answers` the written
ones, `Lts` and the like what rattle makes of the code. Rows that end in .antt are files of lemmas. 25 rows; --all: all.
"""
import os
import sys
from glob import glob

# What rattle makes of one function; what stands before the first of these in a module's name is the function.
PARTS = set(
    "Answers AnswersOffered AnswersTried Code Given Goals Invariants Key Kinds Layout Lts Met Named Proof Reads Statement "
    "Symbol Tie".split()
)
AT_MOST = 25


def files_of(folder, crate):
    """The modules of a crate that its checks kept, in the order in which they were, as (time, module's name)."""
    found = []
    for path in glob(f"{folder}/out/incremental/*/Rattle-{crate}-*.oantt"):
        name = os.path.basename(path).removesuffix(".oantt").removesuffix(".decls")
        found.append((os.stat(path).st_mtime_ns / 1e9, name))
    return sorted(found)


def owner(folder, name):
    """What a module is of, a function or a file of lemmas or of definitions, and which part of it."""
    library, _, path = name.partition(".")
    kind, words = library.rpartition("-")[2], path.split(".")
    at = next((i for i, it in enumerate(words) if it in PARTS), None)
    if at:
        words = words[1:] if words[0] == "contracts" else words
        at -= words != path.split(".")
        return "::".join(words[:at]), words[at]
    file = f"{kind}/{'/'.join(words)}.antt"
    if os.path.isfile(f"{folder}/{file}"):
        return file, "lemmas" if kind == "proofs" else "definitions"
    return "what rattle makes of types", kind


def times(folder, crate, jobs):
    """Seconds by owner and part."""
    last, of, spent = [], {}, {}
    for when, name in files_of(folder, crate):
        one, part = owner(folder, name)
        chain = of.get(one)
        if chain is None or chain >= len(last):
            # (a process that is in a long proof writes nothing: the one that has just written is the likely one)
            chain = max(range(len(last)), key=last.__getitem__) if len(last) >= jobs else len(last)
        if chain == len(last):
            last.append(when)
        took = spent.setdefault(one, {})
        took[part] = took.get(part, 0) + when - last[chain]
        last[chain], of[one] = when, chain
    return spent


def main():
    words, top, jobs, every = sys.argv[1:], ".", 1, False
    while words and words[0].startswith("--"):
        flag = words.pop(0)
        if flag == "--all":
            every = True
        elif flag == "--repository" and words:
            top = words.pop(0)
        elif flag == "--jobs" and words and words[0].isdigit():
            jobs = int(words.pop(0))
        else:
            sys.exit(__doc__)
    if not words:
        sys.exit(__doc__)
    rows = []
    for crate in words:
        folder = f"{top}/crates/{crate}"
        found = times(folder, crate, jobs)
        if not found:
            sys.exit(f"dear: {folder}/out/incremental has nothing of {crate}: run rt check there first")
        rows += [(sum(it.values()), crate, one, it) for one, it in found.items()]
    rows.sort(key=lambda it: -it[0])
    print("| Seconds | Crate | Function | Most of it |\n|---:|---|---|---|")
    for seconds, crate, one, parts in rows if every else rows[:AT_MOST]:
        most = sorted(parts.items(), key=lambda it: -it[1])[:3]
        told = ", ".join(f"{part} {took:.1f}" for part, took in most if took >= 0.1)
        print(f"| {seconds:.1f} | {crate} | `{one}` | {told} |")
    print(f"\nAll: {sum(it[0] for it in rows):.0f} s, of which the {min(AT_MOST, len(rows))} dearest "
          f"{sum(it[0] for it in rows[:AT_MOST]):.0f} s.")


main()
