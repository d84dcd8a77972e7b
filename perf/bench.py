#!/usr/bin/env python3
"""./bench: times the tree and the map beside the kit's BTreeMap, all proved, and prints tables with ratios.

    ./bench [--sizes 10000,100000] [--sets dense,rand8,rand16,url] [--repeats 5] [--instr] [--walks SIZE]
        [--ranges SIZE] [--entries SIZE] [--program SIZES] [--nothing LINES] [--quick] [--perf FOLDER]
It proves and builds the libraries where they are not built, and needs nothing but rt and cc. --sets takes shapes that
nothing was made for, too: hosts, dna, hashes, series, shared (perf/drive.c). Keys are looked up in another order than
they go in; misses are told by their kind. --sizes 10000000 goes as far as 10^7. --walks SIZE times walks
over so many pairs, from the front and from both ends, the check of a tree, its clone and its free. --ranges SIZE times
ranges of 100 pairs and of one, and walks of the pairs with a prefix, in maps of so many pairs. --entries SIZE times
`entry(..).and_modify(..).or_insert(..)` of so many keys, new ones and then stored ones, beside an insertion, and beside
a look-up for writing with an insertion where it finds none. --instr counts instructions and cache misses by callgrind
(no noise, whatever else runs), at --instr-size keys (10000), of walks and entries too where these are asked. --perf
FOLDER: a folder of yardsticks with build.sh, libbench and peers (cargo, valgrind and Debian's libjudy-dev,
libabsl-dev): its table follows, with unproved peers, and three of them stand in all tables. --program SIZES, which
needs it, times lines of the program beside its peers (those of the yardsticks, and the unproved tree with a `Vec` for
each key and value, without and with linked leaves): loads, `get` lines, misses and dumps. --nothing LINES, which needs
it too, times so many lines on an empty index, that is, how they are read and answered (and with --instr counts the
instructions of 3,000). With --quick both take the program as it stands, built without proofs and without checks at run
time (tools/quick.py), in place of the proved one. --sizes '' leaves look-ups and insertions out.
Standard error tells how far it is. Times are processor time, the least of the repeats, one competitor after the other in
each; take ratios from one run alone. Of look-ups, insertions and lines two are told: by the least, and by the median of
the ratios round by round.
"""
import argparse
import os
import random
import re
import shutil
import statistics
import subprocess
import sys
import tempfile
import time
from glob import glob

sys.path.insert(0, os.path.join(os.path.dirname(os.path.dirname(os.path.abspath(__file__))), "tools"))
import quick

MAPS = {"tree": "bench_tree", "map": "bench_map", "BTreeMap": "bench_btree"}
PEERS = {"art-vec": [], "art-list": ["--features", "list"], "btree": ["--features", "btree"]}
OPERATIONS = ("insertion, ns", "look-up, ns", "miss at a leaf, ns", "early miss, ns", "bytes")
# Steps of perf/drive.c: what is timed of each map that has it, and what of the map here alone.
WALKS = {"from the front": 4, "from both ends": 8, "clone": 7, "let go": 11}
NODES = {"check_tree": 9, "clone_unchecked": 7, "deallocate_tree": 10}
# Of ranges: the step, how many pairs each walk has, or about as many, and whether the time is told of a pair or a walk.
RANGES = {
    "range of 100, a pair": (6, 100, True),
    "with a prefix, a pair": (5, 100, True),
    "range of one pair": (6, 1, False),
}
NO_RANGES = {"tree", "BTreeMap"}
# Of entries: steps that put all queries in, each once into an empty map and once into one that has them all.
ENTRIES = {"insert": 12, "entry": 13, "get_mut, then insert": 14}
NO_ENTRIES = {"tree"}
NO_ENTRY_CALL = {"art-vec", "art-list"}
STATES = {"new": "", "stored": "1,"}
# Of the program: the words of yardsticks/gen, and how many lines or records one tells the cost of, as a part of all.
LINES = {"load": 1, "get": 1, "miss": 1, "dump": 2}
LINE_PEERS = ("btree", "map", "art")
LINE_TREES = ("art-vec", "art-list")
LINE_SETS = "dense,rand8,rand16,url,tenants"
# Of these docs/PERFORMANCE.md shows the cost of some lines beside some peers, and some as a part of a peer's.
PAGE_SETS = ("dense", "rand8", "url", "tenants")
PAGE_PEERS = ("btree", "art", "art-vec", "art-list", "here")
PAGE_PARTS = {"load": ("btree", "art-list"), "miss": ("btree", "art-vec"), "dump": ("btree", "art-vec")}
# Of lines that do nothing: the word, whether the digits spell a text, how many there are, and what they end with.
NOTHING = {
    "`get`, 23 bytes, random digits": ("get", False, 16, ""),
    "`get`, 155 bytes, text in digits": ("get", True, 148, ""),
    "`get`, 181 bytes, text in digits": ("get", True, 174, ""),
    "`get`, 181 bytes, random digits": ("get", False, 174, ""),
    "`bad` by its word, 23 bytes": ("gex", False, 16, ""),
    "`bad` by its word, 181 bytes": ("gex", False, 174, ""),
    "`bad` by its last digit, 23 bytes": ("get", False, 15, "g"),
    "`bad` by its last digit, 181 bytes": ("get", False, 173, "g"),
}
NOTHING_PEERS = ("btree", "map", "judy", "art")
NO_WALKS = {"tree"}
NO_LINKS = {"art-vec"}
PARTS = ("src", "specs", "proofs")
START = time.monotonic()


def tell(what):
    print(f"bench: {time.monotonic() - START:.0f} s: {what}", file=sys.stderr, flush=True)


def called(words, **how):
    return subprocess.run(words, check=True, capture_output=True, text=True, **how).stdout


def same(one, other):
    """Whether two folders hold the same files."""
    return subprocess.run(["diff", "-rq", one, other], capture_output=True).returncode == 0


def workspace():
    """Makes out/bench: the repository's libraries, with what is built of them, and the benchmark's crates beside them."""
    top = "out/bench"
    os.makedirs(f"{top}/crates", exist_ok=True)
    lines = open("crates.txt").read().split("\n")
    wanted = [it for line in open("perf/crates.lines") if not line.startswith("#") for it in line.split(":")[1].split()]
    kept = [it for it in lines if it.split(":")[0] in wanted]
    with open(f"{top}/crates.txt", "w") as file:
        file.write("\n".join(kept) + "\n" + open("perf/crates.lines").read())
    fresh = False
    for it in kept:
        name = it.split(":")[0]
        # What stands above a crate that changed is built anew too.
        fresh = fresh or not all(same(f"crates/{name}/{part}", f"{top}/crates/{name}/{part}") for part in PARTS)
        for part in PARTS if fresh else ():
            shutil.rmtree(f"{top}/crates/{name}/{part}", ignore_errors=True)
            shutil.copytree(f"crates/{name}/{part}", f"{top}/crates/{name}/{part}")
        if fresh and os.path.isdir(f"crates/{name}/out"):
            shutil.rmtree(f"{top}/crates/{name}/out", ignore_errors=True)
            shutil.copytree(f"crates/{name}/out", f"{top}/crates/{name}/out", symlinks=True)
    for path in glob("perf/crates/**/*.in", recursive=True):
        made = f"{top}/crates/{os.path.relpath(path, 'perf/crates')[:-3]}"
        os.makedirs(os.path.dirname(made), exist_ok=True)
        if not os.path.exists(made) or open(made).read() != open(path).read():
            shutil.copyfile(path, made)
    return top


def build(folder):
    """Makes drive and a shared object for each map, and returns their paths."""
    kit, top = os.path.dirname(called(["rt", "doc"]).strip()), workspace()
    called(["cc", "-O2", "-Wall", "-rdynamic", "-o", f"{folder}/drive", "perf/drive.c", "-ldl"])
    made = {}
    for name, crate in MAPS.items():
        tell(f"proving and building {crate}, where it is not built")
        called([os.environ.get("RT", "rt"), "lib"], cwd=f"{top}/crates/{crate}")
        made[name] = f"{folder}/{crate}.so"
        whole = ["-Wl,--whole-archive", f"{top}/crates/{crate}/out/lib{crate}.a", "-Wl,--no-whole-archive"]
        called(["cc", "-shared", "-o", made[name], *whole, f"{kit}/c/liblibc_c.a"])
    return made


def in_turn(names, turn):
    """The names, of which another one is the first at each turn."""
    names = [*names]
    return names[turn % len(names) :] + names[: turn % len(names)]


def held(here, there):
    """How the rounds of one compare with those of another beside it: by the least, and by the median of the ratios."""
    pairs = [one / max(other, 0.001) for one, other in zip(here, there)]
    return f"{min(here) / max(min(there), 0.001):.2f}, {statistics.median(pairs):.2f}"


def times(folder, made, key_set, size, repeats):
    """Nanoseconds of each operation and bytes of a pair, by map and operation: of each round, the maps in turn."""
    seen = {name: [[] for _ in OPERATIONS] for name in made}
    for turn in range(repeats):
        for name in in_turn(made, turn):
            told = called([f"{folder}/drive", made[name], key_set, str(size), "1"]).split()
            for rounds, took in zip(seen[name], map(float, told)):
                rounds.append(took)
    return seen


def counted(folder, path, key_set, size, steps):
    """Instructions, misses of the first cache and of a second one of 1 MB, in all: of these steps."""
    words = ["valgrind", "--tool=callgrind", f"--callgrind-out-file={folder}/callgrind", "--collect-atstart=no"]
    words += ["--cache-sim=yes", "--LL=1048576,16,64", f"{folder}/drive", path, key_set, str(size), "0", steps]
    ran = subprocess.run(words, check=True, capture_output=True, text=True)
    seen = list(map(int, re.search(r"Collected : ([\d ]+)", ran.stderr)[1].split()))
    return [seen[0], seen[4] + seen[5], seen[7] + seen[8]]


def more_than(folder, path, key_set, size, before, step, number):
    """What a step counts after the insertions, which count `before`, for each of so many."""
    both = counted(folder, path, key_set, size, f"1,{step}")
    return [(more - less) / number for more, less in zip(both, before)]


def cells(counts):
    """Instructions and misses of two caches, as cells of a table."""
    return f"{counts[0]:.0f} | {counts[1]:.1f} | {counts[2]:.1f}"


def instructions(folder, made, key_set, size):
    """A row of a table for each map: instructions and misses of an insertion, with the copy of its key, and of a look-up."""
    for name, path in made.items():
        before = counted(folder, path, key_set, size, "1")
        look_up = more_than(folder, path, key_set, size, before, 2, size)
        print(f"| {key_set} | {name} | {cells([it / size for it in before])} | {cells(look_up)} |", flush=True)


def stepped(folder, made, key_set, size, repeats):
    """Nanoseconds of each step after the insertions, by map: the least of the repeats, the maps in turn."""
    steps, least = {}, {}
    for name in made:
        asked = [*WALKS.values(), *NODES.values()] if name == "map" else [*WALKS.values()]
        # (a first walk warms the caches for those that count; a clone is one step; what lets the map go comes last)
        steps[name] = [1, 4, 4, 8, *sorted(set(asked) - {4, 8, 11}), 11]
        least[name] = [float("inf")] * len(steps[name])
    for _ in range(repeats):
        for name, path in made.items():
            told = called([f"{folder}/drive", path, key_set, str(size), "1", ",".join(map(str, steps[name]))]).split()
            least[name] = [min(pair) for pair in zip(least[name], map(int, told[:-1]))]
    return {name: dict(zip(steps[name], least[name])) for name in made}


def answer(folder, path, key_set, size, step):
    """What a call with this step after the insertions answers."""
    return int(called([f"{folder}/drive", path, key_set, str(size), "1", f"1,{step}"]).split()[-1])


def has(name, step):
    """Whether a map has a step."""
    return name not in NO_WALKS and not (name in NO_LINKS and step == 8)


def walks(folder, made, asked):
    """Two tables: of all maps, nanoseconds a pair; of the nodes of the map here, nanoseconds a node."""
    size, made, rows = asked.walks, {name: path for name, path in made.items() if name not in NO_WALKS}, []
    print(f"\n{size} pairs, nanoseconds a pair:\n")
    print(f"| Keys | Map | {' | '.join(WALKS)} |\n|---|---|{'---:|' * len(WALKS)}", flush=True)
    for key_set in asked.sets.split(","):
        tell(f"{key_set}, walks over {size} pairs")
        few = max(size // 100, 100)
        sums = {answer(folder, path, key_set, few, it) for name, path in made.items() for it in (4, 8) if has(name, it)}
        assert len(sums) == 1, f"walks give {sums}"
        found = stepped(folder, made, key_set, size, asked.repeats)
        for name, took in found.items():
            shown = [f"{took[step] / size:.0f}" if has(name, step) else "-" for step in WALKS.values()]
            print(f"| {key_set} | {name} | {' | '.join(shown)} |", flush=True)
        nodes = answer(folder, made["map"], key_set, size, 9)
        shown = " | ".join(f"{found['map'][step] / nodes:.0f}" for step in NODES.values())
        rows.append(f"| {key_set} | {nodes} | {shown} |")
    print(f"\n{size} pairs, nanoseconds a node:\n")
    print("\n".join([f"| Keys | nodes | {' | '.join(NODES)} |", f"|---|---:|{'---:|' * len(NODES)}", *rows]), flush=True)


def ranged(folder, made, key_set, size, repeats):
    """By map, nanoseconds of each kind of range, the least of the repeats, the maps in turn; and how many pairs stand
    with a prefix."""
    least, with_prefix = {name: [float("inf")] * len(RANGES) for name in made}, 0
    for at, (step, span, is_of_pair) in enumerate(RANGES.values()):
        sums = set()
        for _ in range(repeats):
            for name, path in made.items():
                words = [f"{folder}/drive", path, key_set, str(size), "1", f"1,{step}", str(span)]
                _, took, answered, met = map(int, called(words).split())
                sums.add(answered)
                walks = size // 100
                least[name][at] = min(least[name][at], took / (met if is_of_pair else walks))
                with_prefix = met / walks if step == 5 else with_prefix
        assert len(sums) == 1, f"ranges give {sums}"
    return least, with_prefix


def ranges(folder, made, asked):
    """Nanoseconds of ranges and of walks with a prefix, and the ratios of the map here to its peers."""
    size, made = asked.ranges, {name: path for name, path in made.items() if name not in NO_RANGES}
    print(f"\nRanges among {size} pairs, nanoseconds:\n")
    print(f"| Keys | Pairs with a prefix | Map | {' | '.join(RANGES)} |")
    print(f"|---|---:|---|{'---:|' * len(RANGES)}", flush=True)
    for key_set in asked.sets.split(","):
        tell(f"{key_set}, ranges among {size} pairs")
        found, with_prefix = ranged(folder, made, key_set, size, asked.repeats)
        rows = {name: [f"{it:.1f}" for it in took] for name, took in found.items()}
        for peer in ("art-list", "btree"):
            if peer in found:
                rows[f"map to {peer}"] = [f"{here / there:.2f}" for here, there in zip(found["map"], found[peer])]
        for name, cells in rows.items():
            print(f"| {key_set} | {with_prefix:.0f} | {name} | {' | '.join(cells)} |", flush=True)


def entry_costs(made, cost):
    """By map, what `cost` tells of each of the steps of entries, of new keys and then of stored ones; None where a map
    has no entries."""
    found = {name: [] for name in made}
    for before in STATES.values():
        for step in ENTRIES.values():
            for name, path in made.items():
                has_it = step != ENTRIES["entry"] or name not in NO_ENTRY_CALL
                found[name].append(cost(name, path, before, step) if has_it else None)
    return found


def entry_table(title, asked, made, cost):
    """A table of the steps of entries, with the ratio of an entry to an insertion, and of the map here to its peers."""
    columns = [f"{state}: {it}" for state in STATES for it in ENTRIES]
    print(f"\n{title}:\n\n| Keys | Map | {' | '.join(columns)} | new: entry to insert | stored: entry to insert |")
    print(f"|---|---|{'---:|' * (len(columns) + 2)}", flush=True)
    for key_set in asked.sets.split(","):
        tell(f"{key_set}, {title}")
        found = entry_costs(made, lambda *call: cost(key_set, *call))
        for name, it in found.items():
            ratios = [f"{it[at + 1] / it[at]:.2f}" if it[at + 1] else "-" for at in (0, len(ENTRIES))]
            shown = [f"{number:.0f}" if number else "-" for number in it]
            print(f"| {key_set} | {name} | {' | '.join(shown + ratios)} |", flush=True)
        for peer in ("art-list", "btree"):
            if peer in found:
                pairs = zip(found["map"], found[peer])
                shown = [f"{here / there:.2f}" if there else "-" for here, there in pairs]
                print(f"| {key_set} | map to {peer} | {' | '.join(shown)} | | |", flush=True)


def entries(folder, made, asked):
    """Entries beside insertions: nanoseconds of a key, the least of the repeats, and instructions where they are asked."""
    size, made = asked.entries, {name: path for name, path in made.items() if name not in NO_ENTRIES}

    def nanoseconds(key_set, name, path, before, step):
        words = [f"{folder}/drive", path, key_set, str(size), str(asked.repeats), f"{before}{step}"]
        *took, answered = map(int, called(words).split())
        assert answered == size, f"{name} has {answered} pairs"
        return took[-1] / size

    entry_table(f"Entries of {size} keys, nanoseconds a key", asked, made, nanoseconds)
    if not asked.instr:
        return
    size = asked.instr_size

    def instructions_of(key_set, name, path, before, step):
        insertions = counted(folder, path, key_set, size, "1")[0] if before else 0
        return (counted(folder, path, key_set, size, f"{before}{step}")[0] - insertions) / size

    entry_table(f"Entries of {size} keys, instructions a key", asked, made, instructions_of)


def line_costs(folder, programs, key_set, size, repeats):
    """By kind of line, or bytes a record, and program: nanoseconds of each round, the programs in turn."""
    scripts = {it: f"{folder}/{it}" for it in ("none", *LINES)}
    for it, path in scripts.items():
        with open(path, "wb") as file:
            words = [f"{folder}/bin/gen", f"{key_set}/{it}", str(size), "1"]
            file.write(subprocess.run(words, check=True, capture_output=True).stdout if it != "none" else b"")
    seen = {(it, name): [] for it in (*LINES, "bytes") for name in programs}
    for turn in range(repeats):
        for it in LINES:
            if it == "load":
                continue
            for name in in_turn(programs, turn):
                meas = [f"{folder}/bin/meas", scripts["load"], scripts[it], "/dev/null", programs[name]]
                empty = [f"{folder}/bin/meas", scripts["none"], scripts["none"], "/dev/null", programs[name]]
                told = [float(word) for word in called(meas).split()]
                idle = float(called(empty).split()[5])
                found = {"load": told[0] * 1e9 / size, it: told[2] * 1e9 / size / LINES[it]}
                found["bytes"] = (told[5] - idle) * 1024 / size
                for what, cost in found.items():
                    seen[what, name].append(cost)
    return seen


def here(asked):
    """The path of art_index, proved and built; or built without proofs, which the output then says."""
    if asked.quick:
        print("\n`here` is built without proofs and without checks: near the proved program, and not to be told as its own.")
        return os.path.abspath(quick.kept(".", tell, quick.BARE))
    tell("proving and building art_index, where it is not built")
    called([os.environ.get("RT", "rt"), "run"], cwd="crates/art_index", stdin=subprocess.DEVNULL)
    return os.path.abspath("crates/art_index/out/art_index")


def program_page(least):
    """The same as the tables of docs/PERFORMANCE.md: `get` lines and bytes, then parts of what the peers take."""
    rows = [(key_set, size) for key_set, size, it in least if it == "get" and key_set in PAGE_SETS]
    rows.sort(key=lambda it: (PAGE_SETS.index(it[0]), it[1]))
    heads = " | ".join(f"{of}: {' | '.join(PAGE_PEERS)}" for of in ("ns", "bytes"))
    print(f"\n| Keys | Records | {heads} |\n|---|---:|{'---:|' * 2 * len(PAGE_PEERS)}")
    for row in rows:
        numbers = [f"{least[(*row, of)][name]:.0f}" for of in ("get", "bytes") for name in PAGE_PEERS]
        print(f"| {row[0]} | {row[1]} | {' | '.join(numbers)} |")
    heads = " | ".join(f"{of}: {' | '.join(names)}" for of, names in PAGE_PARTS.items())
    print(f"\n| Keys | Records | {heads} |\n|---|---:|{'---:|' * sum(map(len, PAGE_PARTS.values()))}")
    for row in sorted(rows, key=lambda it: it[1]):
        costs = [(least[(*row, of)], name) for of, names in PAGE_PARTS.items() for name in names]
        parts = [f"{cost['here'] / cost[name]:.2f}" for cost, name in costs]
        print(f"| {row[0]} | {row[1]} | {' | '.join(parts)} |")


def program(folder, asked):
    """The program beside its peers: nanoseconds of a line, or of a record dumped, and bytes of peak memory a record."""
    programs = {name: f"{folder}/bin/peer_{name}" for name in LINE_PEERS}
    programs |= {name: f"{folder}/{name}/release/lines" for name in LINE_TREES}
    programs["here"], least = here(asked), {}
    for size in map(int, asked.program.split(",")):
        print(f"\n{size} records, nanoseconds a line (a record of a dump), bytes a record:\n")
        held_to = ("btree", "art", *LINE_TREES)
        shown = " | ".join([*programs, *(f"to {it}" for it in held_to)])
        print(f"| Keys | | {shown} |\n|---|---|{'---:|' * (len(programs) + len(held_to))}")
        for key_set in LINE_SETS.split(","):
            tell(f"{key_set}, {size} records of the program")
            seen = line_costs(folder, programs, key_set, size, asked.repeats)
            for it in (*LINES, "bytes"):
                row = {name: seen[it, name] for name in programs}
                shown = [f"{min(costs):.0f}" for costs in row.values()]
                shown += [held(row["here"], row[peer]) for peer in held_to]
                print(f"| {key_set} | {it} | {' | '.join(shown)} |", flush=True)
                least[key_set, size, it] = {name: min(costs) for name, costs in row.items()}
    program_page(least)


def digits(source, is_text, number):
    """So many digits, random ones or those of a text."""
    spelt = "".join(source.choice("0123456789abcdef") for _ in range(number))
    if is_text:
        text = f"https://www.example.org/group/{source.randrange(30)}/item/{source.randrange(100000)}?session={spelt}"
        spelt = text.encode().hex()[:number]
    return spelt


def instructions_of_program(path, script):
    words = ["valgrind", "--tool=callgrind", "--callgrind-out-file=/dev/null", path]
    with open(script, "rb") as file:
        ran = subprocess.run(words, stdin=file, stdout=subprocess.DEVNULL, stderr=subprocess.PIPE, check=True)
    return int(re.search(rb"Collected : (\d+)", ran.stderr)[1])


def nothing(folder, asked):
    """Lines that do nothing, on an empty index: nanoseconds a line beside the peers, or instructions."""
    programs = {it: f"{folder}/bin/peer_{it}" for it in NOTHING_PEERS if os.path.exists(f"{folder}/bin/peer_{it}")}
    programs["here"] = here(asked)
    script, none = f"{folder}/lines", f"{folder}/none"
    open(none, "w").close()
    source = random.Random(5)
    for counts in (False, True) if asked.instr else (False,):
        number = 3000 if counts else asked.nothing
        idle = {name: instructions_of_program(path, none) for name, path in programs.items()} if counts else {}
        print(f"\n{number} lines on an empty index, {'instructions' if counts else 'nanoseconds'} a line:\n")
        print(f"| Line | {' | '.join(programs)} | to the least |\n|---|{'---:|' * (len(programs) + 1)}")
        for shown, (word, is_text, many, last) in NOTHING.items():
            with open(script, "w") as file:
                file.writelines(f"{word} 0 {digits(source, is_text, many)}{last}\n" for _ in range(number))
            costs = {name: [] for name in programs}
            for turn in range(1 if counts else asked.repeats):
                for name in in_turn(programs, turn):
                    if counts:
                        cost = (instructions_of_program(programs[name], script) - idle[name]) / number
                    else:
                        meas = [f"{folder}/bin/meas", none, script, "/dev/null", programs[name]]
                        cost = float(called(meas).split()[2]) * 1e9 / number
                    costs[name].append(cost)
            least = {name: min(told) for name, told in costs.items()}
            best = min(cost for name, cost in least.items() if name != "here")
            row = " | ".join(f"{cost:.0f}" for cost in least.values())
            print(f"| {shown} | {row} | {least['here'] / best:.2f} |", flush=True)


def walk_instructions(folder, made, asked):
    """The same two tables in instructions and misses, at the size of --instr."""
    size, made, rows = asked.instr_size, {name: path for name, path in made.items() if name not in NO_WALKS}, []
    print(f"\n{size} pairs, instructions and misses of L1 and of L2 a pair:\n")
    print(f"| Keys | Map |{''.join(f' {it} | L1 | L2 |' for it in WALKS)}\n|---|---|{'---:|' * 3 * len(WALKS)}", flush=True)
    for key_set in asked.sets.split(","):
        for name, path in made.items():
            tell(f"{key_set}, instructions of the walks of {name}")
            before, shown = counted(folder, path, key_set, size, "1"), []
            for step in WALKS.values():
                it = more_than(folder, path, key_set, size, before, step, size) if has(name, step) else None
                shown.append(cells(it) if it else "- | - | -")
            print(f"| {key_set} | {name} | {' | '.join(shown)} |", flush=True)
            if name == "map":
                nodes = answer(folder, path, key_set, size, 9)
                shown = [cells(more_than(folder, path, key_set, size, before, it, nodes)) for it in NODES.values()]
                rows.append(f"| {key_set} | {nodes} | {' | '.join(shown)} |")
    print(f"\n{size} pairs, instructions and misses of L1 and of L2 a node:\n")
    print(f"| Keys | nodes |{''.join(f' {it} | L1 | L2 |' for it in NODES)}\n|---|---:|{'---:|' * 3 * len(NODES)}")
    print("\n".join(rows), flush=True)


def yardsticks(folder, given):
    """Builds the yardsticks in a copy, and answers those among them that stand under the same call, by map."""
    top = f"{folder}/perf"
    called(["cp", "-r", given, top])
    called(["chmod", "-R", "u+w", top])
    called([f"{top}/build.sh"], cwd=top, env={**os.environ, "PERF_BIN": f"{folder}/bin"})
    shutil.copytree("perf/peer", f"{top}/peer")
    made = {}
    for name, flags in PEERS.items():
        how = {**os.environ, "CARGO_TARGET_DIR": f"{folder}/{name}", "RUSTFLAGS": "-C target-cpu=x86-64-v2"}
        called(["cargo", "build", "-q", "--release", "--offline", *flags], cwd=f"{top}/peer", env=how)
        made[name] = f"{folder}/{name}/release/libpeer.so"
    return made


def ratios(told):
    """Prints from the tables of the yardsticks what tree and map take, and their ratios to the peers that they are held
    against."""
    print("| Keys | Number | Of | look-up, ns | to art-vec | to btree | insertion, ns | to art-list | to btree |")
    print("|---|---:|---|---:|---:|---:|---:|---:|---:|")
    for key_set, size, table in re.findall(r"(?s)\n(\w+), N = (\d+):.*?\|---.*?\n(.*?)\n(?=\n|$)", told):
        seen = {it.split("|")[1].strip(): it.split("|")[2:4] for it in table.split("\n")}
        insertion, look_up = ({name: float(it[at]) for name, it in seen.items()} for at in (0, 1))
        for name in ("tree", "map"):
            row = [look_up[name], *(look_up[name] / look_up[it] for it in ("art-vec", "btree"))]
            row += [insertion[name], *(insertion[name] / insertion[it] for it in ("art-list", "btree"))]
            shown = " | ".join(f"{it:.0f}" if at % 3 == 0 else f"{it:.2f}" for at, it in enumerate(row))
            print(f"| {key_set} | {size} | {name} | {shown} |")


def look_ups(folder, made, asked, sizes):
    """Nanoseconds of an insertion, a look-up and a miss, and bytes of a pair, with the ratios of tree and map to Rattle's
    BTreeMap, and of the map to the unproved peers."""
    held_to = [("tree", "BTreeMap"), *(("map", peer) for peer in ("BTreeMap", *PEERS) if peer in made)]
    print(f"| Keys | Number | Operation | {' | '.join([*made, *(f'{one} to {other}' for one, other in held_to)])} |")
    print(f"|---|---:|---|{'---:|' * (len(made) + len(held_to))}", flush=True)
    for size in sizes:
        for key_set in asked.sets.split(","):
            tell(f"{key_set}, {size} keys")
            found = times(folder, made, key_set, size, asked.repeats)
            for at, operation in enumerate(OPERATIONS):
                row = {name: it[at] for name, it in found.items()}
                shown = [f"{min(it):.0f}" for it in row.values()]
                shown += [held(row[one], row[other]) for one, other in held_to]
                print(f"| {key_set} | {size} | {operation} | {' | '.join(shown)} |", flush=True)


def main():
    parser = argparse.ArgumentParser(description=__doc__, formatter_class=argparse.RawDescriptionHelpFormatter)
    parser.add_argument("--sizes", default="10000,100000")
    parser.add_argument("--sets", default="dense,rand8,rand16,url")
    parser.add_argument("--repeats", type=int, default=5)
    parser.add_argument("--walks", type=int, default=0)
    parser.add_argument("--ranges", type=int, default=0)
    parser.add_argument("--entries", type=int, default=0)
    parser.add_argument("--program", default="")
    parser.add_argument("--nothing", type=int, default=0)
    parser.add_argument("--quick", action="store_true")
    parser.add_argument("--instr", action="store_true")
    parser.add_argument("--instr-size", type=int, default=10000)
    parser.add_argument("--perf")
    asked = parser.parse_args()
    lacks = [it for it in ("rt", "cc", *(["cargo"] if asked.perf else []), *(["valgrind"] if asked.instr else []))
             if not shutil.which(it)]  # fmt: skip
    if lacks:
        parser.error(f"{lacks[0]} is not on the PATH")
    if asked.perf and not os.access(f"{asked.perf}/build.sh", os.X_OK):
        parser.error(f"{asked.perf} is no folder of yardsticks: it has no build.sh")
    if (asked.program or asked.nothing) and not asked.perf:
        parser.error("--program and --nothing need --perf, a folder of yardsticks")
    sizes = [int(it) for it in asked.sizes.split(",") if it]
    with tempfile.TemporaryDirectory() as folder:
        counts_maps = asked.instr and not asked.nothing
        made, peers = build(folder) if any((sizes, asked.walks, asked.ranges, asked.entries, counts_maps)) else {}, {}
        if asked.perf:
            tell("building the yardsticks and their peers")
            peers = yardsticks(folder, asked.perf)
        if asked.program:
            program(folder, asked)
        if asked.nothing:
            nothing(folder, asked)
        every = {**made, **peers}
        if sizes:
            look_ups(folder, every, asked, sizes)
        if asked.walks:
            walks(folder, every, asked)
        if asked.ranges:
            ranges(folder, every, asked)
        if asked.entries:
            entries(folder, every, asked)
        if asked.instr and made:
            print(f"\nOf an insertion and of a look-up, {asked.instr_size} keys: instructions, misses of L1 and of L2:\n")
            print("| Keys | Map | insertion | L1 | L2 | look-up | L1 | L2 |\n|---|---|---:|---:|---:|---:|---:|---:|")
            for key_set in asked.sets.split(","):
                tell(f"{key_set}, instructions")
                instructions(folder, every, key_set, asked.instr_size)
            if asked.walks:
                walk_instructions(folder, every, asked)
        if asked.perf and sizes:
            words = [f"{folder}/bin/libbench", "--n", asked.sizes, "--keys", asked.sets]
            words += ["--repeats", str(asked.repeats)]
            words += [f"{name}={path}" for name, path in made.items()]
            tell("timing them")
            told = called(words)
            print(told)
            ratios(told)


if __name__ == "__main__":
    main()
