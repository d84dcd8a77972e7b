#!/usr/bin/env python3
"""Counts what must be believed: the definitions that public contracts name, and those that these name in turn.

    tests/believed.py                at the top of the repository: a table in Markdown; last 'N passed, M failed'
    tests/believed.py --list WORD    and the definitions of the rows that have WORD in their name
    tests/believed.py --claims WORD  and what is to be read to believe the claims of README.md that have WORD in them
A public contract is what a crate shows of its functions, traits and types: clauses `requires` and `ensures`, and
ghost members with the invariants among them. A name in it is followed by the file's lines `ghost use`, and in
specs/*.antt by `use`, to definitions in specs/ of this repository: `abbrev`, `unfoldable`, `record`, `data`. Other
items there are lemmas, which are proved; what the kit or the Rust source declares is not followed. A variable spelled
like a definition of its file counts as that.
Counted are lines that are neither blank nor comment, and words: in a face, of the definitions that no face below has;
in the headline of all, with the clauses and main.rt; in laws, of those that no face has, and no laws of a crate below.
The headline reads `command_of` as `Spells`: the law `reading_is_spelling` says that the one answers what the other
means.
A claim of README.md rests on the clauses that it names, on what their calls require, on the ghost members of the types
in their heads, and on all definitions that these reach. They are told in reading order, each after those that it names,
down to the words of the kit. What all claims rest on together, with what the program adds (PROGRAM_ADDS: its ends and
main.rt), is one number. It has to stand in README.md and in docs/PROOFS.md as 'N lines to believe'. The files that can
touch a map of an index are told after it: those of the module RECORDS, by its privacy. `Index` lends its maps to others,
and is looked at here: no other file of the engine or the program names the calls that LEND them.
Budgets stand in docs/PROOFS.md, under the heading 'Budget of lines to believe', in a table | row | lines | .. |.
"""
import os
import re
import sys
from glob import glob

import cases
from contracts import CRATES, SPECS, Source, closure, counted, read_specs, words_in

PROGRAM, HEADLINE = "art_index", "run"
# The crates in which the headline's contracts stand: that of `run`, and those of what it is given.
ENGINE, LANGUAGE = "art_engine", "art_lines"
TIED = {(LANGUAGE, "Reading", "command_of"): (LANGUAGE, "Commands", "Spells")}
PAGE, HEADING = "docs/PROOFS.md", "Budget of lines to believe"
README = "README.md"
# The module whose files alone can touch a map of an index, and the calls by which an index lends one.
RECORDS, INDEX = "crates/art_engine/src/records", "crates/art_engine/src/index.rt"
LEND = re.compile(r"\b(?:byte_map|number_map)\b")
# What stands between `run` and the program's ends: the calls of its crates, beside those that claims name.
PROGRAM_ADDS = {"run_buffered", "flushed", "report", "Buffered", "FromReader", "ToWriter", "Source", "Sink"}


def rows():
    """Gives each row: its name, the definitions, the lines of clauses, and files that are read whole."""
    for crate in CRATES:
        source = Source(crate)
        if source.is_program and crate == PROGRAM:
            engine, language = Source(ENGINE), Source(LANGUAGE)
            bounds = re.search(rf"\bfn {HEADLINE}<([^>]*)>", " ".join(engine.files.values()))[1]
            main = source.files[f"crates/{crate}/src/main.rt"]
            made = {f"{it}::new" for it in re.findall(r"\b([A-Z]\w*)::new\(", main)}
            wanted = {HEADLINE, *re.findall(r": (\w+)", bounds)} | made
            parts = [it for it in engine.contracts + language.contracts if it[1] in wanted]
            yield f"{crate}, headline and program", parts, [f"crates/{crate}/src/main.rt"]
        is_law = lambda it: re.search(r"/src/laws\b", it[0])
        face = [it for it in source.contracts if not is_law(it)]
        if face and not source.is_program:
            yield f"{crate}, face", face, []
        laws = [it for it in source.contracts if is_law(it)]
        if laws:
            yield f"{crate}, laws", laws, []


def budgets():
    """Returns the budgets by row, or None where the page has no such table."""
    text = open(PAGE, encoding="utf-8").read() if os.path.isfile(PAGE) else ""
    found = re.search(rf"^#+ {HEADING}\n(.*?)(?=^#|\Z)", text, re.M | re.S)
    cells = [[c.strip() for c in it.strip().strip("|").split("|")] for it in (found[1] if found else "").split("\n")]
    return {it[0]: int(it[1]) for it in cells if len(it) > 1 and it[1].isdigit()} if found else None


def row_of(name, parts, files, apart):
    """Prints a row: lines and words of the definitions that are not apart. Returns the lines, and each one's size."""
    reached = closure((it for part in parts for it in part[3]), TIED if files else {})
    sizes = {it: counted(SPECS[it[:2]].lines[it[2]]) for it in sorted(reached)}
    whole = sum(it[0] for it in sizes.values())
    lines, words = (sum(it[at] for key, it in sizes.items() if key not in apart) for at in (0, 1))
    clauses, said = map(sum, zip(*[counted(it[2]) for it in parts], (0, 0)))
    for file in files:
        more, spoken = counted(open(file, encoding="utf-8").read().split("\n"))
        lines, words = lines + clauses + more, words + said + spoken
    print(f"| {name} | {lines} | {words} | {whole} | {clauses} |")
    return lines, sizes


def claims():
    """The claims of README.md: the sentence, and each call that carries it, with its clauses (none: all)."""
    for line in open(README, encoding="utf-8"):
        cells = [it.strip() for it in line.strip().strip("|").split("|")]
        if len(cells) == 2 and "`" in cells[1] and cells[0][:1].isupper() and not cells[0].startswith("Line"):
            calls = []
            for part in cells[1].split(";"):
                names, _, clauses = part.partition("`: ")
                calls += [(it, {*re.findall(r"\w+", clauses)}) for it in re.findall(r"`?([\w:]+)`?", names)]
            yield cells[0], [it for it in calls if "::" in it[0] or it[0] == HEADLINE]


def clause_name(lines):
    return (re.match(r"\s*(?:requires|ensures|invariant)\s+(\w+)", lines[0]) or [0, ""])[1]


def heads_of(files, name):
    """The words of the heads of functions of this name, up to their clauses."""
    text = " ".join(files.values())
    return {w for it in re.finditer(rf"\bfn {name}\b(.*?)(?=\brequires|\bensures|\{{)", text, re.S) for w in words_in(it[1])}


def carried(sources, calls):
    """The contracts that a claim rests on: the clauses that it names, what the calls require, and what the types in
    their heads show as ghost members."""
    found = []
    for name, clauses in calls:
        of_type, _, call = name.rpartition("::")
        for source in sources:
            at = [it for it in source.contracts if it[1] in (name, call if of_type == "laws" else name)]
            found += [it for it in at if not clauses or "requires" in it[2][0] or clause_name(it[2]) in clauses]
            types = (heads_of(source.files, call or name) | {of_type}) if at else set()
            found += [it for that in sources for it in that.contracts if it[1] in types and "ghost" in it[2][0]]
    return [it for at, it in enumerate(found) if it not in found[:at]]


def in_order(reached):
    """Definitions, each after those that it names; and the words of the kit that they name."""
    order, kit, seen = [], set(), set()

    def add(key):
        if key in seen or key not in reached:
            return
        seen.add(key)
        spec = SPECS[key[:2]]
        for word in words_in("\n".join(it.partition(" --")[0] for it in spec.lines[key[2]])):
            target = spec.resolve(word)
            if target and target[0] not in CRATES:
                kit.add(target[2])
            elif target:
                target = TIED.get(target, target)
                owner = SPECS[target[:2]].owner.get(target[2]) if target[:2] in SPECS else None
                add(target)
                add((*target[:2], owner))
        order.append(key)

    for key in sorted(reached, key=lambda it: (CRATES.index(it[0]), it[1])):
        add(key)
    return order, kit


def record_files():
    """The files that can touch a map of an index."""
    return [f"{RECORDS}.rt", *sorted(glob(f"{RECORDS}/**/*.rt", recursive=True))]


def lent_aside():
    """Which other files name a call that lends a map of an index, comments aside."""
    may = {INDEX, *record_files()}
    found = [it for name in (ENGINE, PROGRAM) for it in glob(f"crates/{name}/src/**/*.rt", recursive=True)]
    return [it for it in sorted(found) if it not in may and LEND.search(re.sub(r"//[^\n]*", "", cases.read(it)))]


def tell_claims(listing):
    """Prints what each claim rests on. Returns the lines of all of them together, with the program."""
    sources, union, clauses = [Source(it) for it in CRATES], set(), []
    rows = [*claims(), ("The program adds", None)]
    print("\n| Claim | Lines to believe | Definitions | Clauses | Words of the kit |\n|---|---:|---:|---:|---:|")
    for claim, calls in rows:
        adds = [it for that in sources for it in that.contracts if it[1].split("::")[0] in PROGRAM_ADDS]
        found = adds if calls is None else carried(sources, calls)
        reached = closure((it for part in found for it in part[3]), TIED)
        order, kit = in_order(reached)
        kit |= {it[2] for part in found for it in part[3] if it[0] not in CRATES}
        sizes = {it: counted(SPECS[it[:2]].lines[it[2]])[0] for it in order}
        said = sum(counted(it[2])[0] for it in found)
        print(f"| {claim} | {sum(sizes.values()) + said} | {sum(sizes.values())} | {said} | {len(kit)} |")
        if listing is not None and listing in claim:
            for it in order:
                print(f"    {sizes[it]:3} lines: {'.'.join(it)}") if sizes[it] else None
            for it in found:
                print(f"    {counted(it[2])[0]:3} lines: {it[0]}, {it[1]}: {' '.join(it[2][0].split()[:2])}")
            print(f"    of the kit: {', '.join(sorted(kit))}")
        union |= reached
        clauses += [it for it in found if it not in clauses]
    lines_of = lambda path: counted(open(path, encoding="utf-8").read().split("\n"))[0]
    size = sum(counted(SPECS[it[:2]].lines[it[2]])[0] for it in union) + sum(counted(it[2])[0] for it in clauses)
    size += lines_of(f"crates/{PROGRAM}/src/main.rt")
    print(f"\nAll claims and the program, main.rt among it: {size} lines.")
    files = record_files()
    print(f"That all reads are counted rests also on these {sum(map(lines_of, files))} lines, which alone can touch a map:")
    for path in files:
        print(f"    {lines_of(path):3} lines: {path}")
    return size


def main():
    read_specs()
    asked = sys.argv[2] if len(sys.argv) == 3 and sys.argv[1] == "--claims" else None
    listing = sys.argv[2] if len(sys.argv) == 3 and sys.argv[1] == "--list" else None
    limits, passed, faults, faces, laws, seen = budgets(), 0, [], set(), set(), set()
    print("| What | Lines to believe | Words | Lines of definitions, with those below | Lines of clauses |")
    print("|---|---:|---:|---:|---:|")
    for name, parts, files in rows():
        is_face, is_law = name.endswith("face"), name.endswith("laws")
        # (what a face below shows is believed there; a headline is counted whole)
        apart = faces | laws if is_law else faces if is_face else set()
        lines, sizes = row_of(name, parts, files, apart)
        for key, (n, w) in sizes.items() if listing is not None and listing in name else ():
            if n:
                print(f"    {n:3} lines, {w:4} words: {'.'.join(key)}{', counted in a row above' * (key in apart)}")
        faces |= {*sizes} if is_face else set()
        laws |= {*sizes} if is_law else set()
        if limits is not None and not is_law:
            seen.add(name)
            is_kept = lines <= limits.get(name, -1)
            passed += is_kept
            if not is_kept:
                faults.append(f"{name}: {lines} lines, and {PAGE} allows {limits.get(name, 'none: it lacks the row')}")
    number = tell_claims(asked)
    for page in (README, PAGE):
        is_told = f"{number:,} lines to believe" in cases.read(page)
        passed += is_told
        faults += [] if is_told else [f"{page}: it doesn't say '{number:,} lines to believe'"]
    aside = lent_aside()
    passed += not aside
    faults += [f"{path}: it names what lends a map of an index" for path in aside]
    faults += [f"{name}: {PAGE} has a budget for it, and it is no row here" for name in sorted({*(limits or ())} - seen)]
    told = cases.Tally()
    told.passed = passed if limits is not None else 1
    for it in faults:
        name, _, why = it.partition(": ")
        told.count(name, why or name)
    told.end()


main()
