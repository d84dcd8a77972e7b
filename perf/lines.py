#!/usr/bin/env python3
"""perf/lines.py --perf PERF [--quick] [--sizes N,N] [--repeats N] [--seed N] [--only REGEX] [--growth N]
[--before PROGRAM] [PROGRAM]: keys as users have them, and shapes that nothing was made for.

Prints a table: nanoseconds of processor time for each line, or for each record that a listing replies; and at the end
the ratios to the best peer alone, as docs/PERFORMANCE.md has them. It has the program and two peers of PERF, a folder of yardsticks: Rust's B-tree, and libjudy where it is installed. Programs take
turns, and the least of the rounds counts. All must reply the same, byte by byte. It needs cargo and a C compiler.

Keys: routes (of a web server), mail (addresses), paths (of some 110 bytes, with deep shared fronts), zipf (eight random
bytes, tenants by Zipf's law); hosts (names, the last part first), dna (64 bases of a text that has repeats, two bits
each), hashes (43 digits of base64), series (four bytes of a name, eight of a time, few times for each), shared (one of
eight beginnings of 200 bytes); and numbers: nums_dense, nums_random, nums_time (milliseconds, uneven steps).

Lines: `get` looks all up in another order than they went in, `again` in the same. Misses are of two kinds: of `early` a
byte differs as near to the beginning as can be, so that the way ends above any leaf; of `leaf` the last one does, so that
the way ends at a leaf. Where too few keys can be missed so, there is no row. `span` has ten records, `long` a thousand.
--quick takes the program as it stands, built without proofs and checks (tools/quick.py). --before PROGRAM times one of
an earlier text in the same run, and prints the ratio to it. --growth N prints another table: load, `get` and bytes of
peak memory a record from 10^4 to N, for keys that --only names (of hashes and nums_random).
"""
import argparse
import base64
import bisect
import hashlib
import itertools
import os
import random
import re
import subprocess
import sys
import tempfile

sys.path.insert(0, os.path.join(os.path.dirname(os.path.dirname(os.path.abspath(__file__))), "tools"))
import quick

PROGRAM = f"{quick.TOP}/crates/art_index/out/art_index"
PEERS = ("btree", "judy")
BEFORE = "before"
# Milliseconds of the first of January 2026, where numbers by time begin.
BEGIN = 1_767_225_600_000
KEYS = ("routes", "mail", "paths", "zipf", "hosts", "dna", "hashes", "series", "shared")
NUMBERS = ("nums_dense", "nums_random", "nums_time")
GROWING = ("hashes", "nums_random")
# What is asked of keys and of numbers.
ASKED = ("get", "again", "early", "leaf", "list", "span", "long")
# And what docs/PERFORMANCE.md calls it, and these keys.
HEADS = ("get", "again", "early miss", "miss at a leaf", "list", "ten", "thousand")
SHOWN = {"routes": "routes", "mail": "mail addresses", "paths": "paths of 110 bytes", "zipf": "tenants by Zipf's law",
         "hosts": "hosts, last part first", "dna": "64 bases of DNA", "hashes": "43 digits of base64",
         "series": "sparse time series", "shared": "beginnings of 200 bytes", "nums_dense": "numbers, dense",
         "nums_random": "numbers, random", "nums_time": "numbers by time"}  # fmt: skip
# Of so many keys in a hundred at least a miss of a kind must be made.
FEW = 10
BASES = 64
NAMES = "ada ben cleo dina emil fritz gwen hana ivo jana karl lena mara nils olga paul rosa sven tine ugo".split()


def route(at, of):
    parts = ("users", "orders", "items", "invoices", "teams")
    return f"/api/v{1 + at % 3}/{parts[at % 5]}/{at}/{parts[of.randrange(5)]}/{of.randrange(1000)}\0".encode()


def mail(at, of):
    return f"{NAMES[of.randrange(20)]}.{NAMES[of.randrange(20)]}{at}@mail{of.randrange(50)}.example.org\0".encode()


def path(at, of):
    front = f"/srv/data/archive/projects/project-{at % 40:02}/sources/module-{at // 40 % 25:02}/internal/generated"
    return f"{front}/unit-{at // 1000:06}/part-{of.randrange(10)}/file-{at % 7}.rs\0".encode()


def host(at, of):
    domain = of.randrange(2000)
    return f"{('com', 'org', 'net', 'example')[domain % 4]}.site{domain:x}.{NAMES[of.randrange(20)]}.h{at}\0".encode()


def hashed(at, of):
    return base64.urlsafe_b64encode(hashlib.sha256(b"%d %d" % (at, of.randrange(1 << 30))).digest()).rstrip(b"=")


def shared(at, of):
    return hashlib.sha256(b"%d" % (at % 8)).hexdigest().encode() * 3 + b"/part/%08x" % at


def windows(size, of):
    """So many different windows of a sequence of bases, a third of which repeats what came before."""
    bases = [of.randrange(4) for _ in range(1000)]
    while len(bases) < size + size // 2 + 1000:
        if of.random() < 0.01:
            at = of.randrange(len(bases) - 500)
            bases += bases[at : at + 500]
        else:
            bases += [of.randrange(4) for _ in range(100)]
    kept, number, mask = set(), 0, (1 << 2 * BASES) - 1
    for at, base in enumerate(bases):
        number = (number << 2 | base) & mask
        if at >= BASES and len(kept) < size:
            kept.add(number)
    return [it.to_bytes(BASES // 4) for it in sorted(kept)]


def points(size, of):
    """Keys of series with some twenty points of time each."""
    names = [of.getrandbits(32).to_bytes(4) for _ in range(size // 20 + 1)]
    steps = (1000 * (1 + of.randrange(100_000)) for _ in range(size - 1))
    return [of.choice(names) + at.to_bytes(8) for at in itertools.accumulate(steps, initial=BEGIN)]


def tenants_by_zipf(size, of):
    """A tenant for each record: the first has most, the second half as many, and so on."""
    ranks = range(1, max(2, size // 100) + 1)
    weights = list(itertools.accumulate(1 / rank for rank in ranks))
    return [1 + bisect.bisect(weights, of.random() * weights[-1]) for _ in range(size)]


def records(keys, size, of):
    """The records (tenant, key or number), each once, in the order in which they are loaded."""
    if keys == "zipf":
        return [(tenant, of.randbytes(8)) for tenant in tenants_by_zipf(size, of)]
    if keys == "nums_dense":
        return [(1, at) for at in range(size)]
    if keys == "nums_random":
        return [(1, of.randrange(-1 << 61, 1 << 61)) for _ in range(size)]
    if keys == "nums_time":
        steps = (1 + of.randrange(40) for _ in range(size - 1))
        return [(1, number) for number in itertools.accumulate(steps, initial=BEGIN)]
    if keys in ("dna", "series"):
        found = [(1, it) for it in (windows if keys == "dna" else points)(size, of)]
    else:
        made = {"routes": route, "mail": mail, "paths": path, "hosts": host, "hashes": hashed, "shared": shared}[keys]
        found = [(1, made(at, of)) for at in range(size)]
    of.shuffle(found)
    return found


def bytes_of(key):
    """A key, or the bytes by which a number is ordered."""
    return (key + (1 << 63)).to_bytes(8) if isinstance(key, int) else key


def common(one, other):
    return next((at for at, (a, b) in enumerate(zip(one, other)) if a != b), min(len(one), len(other)))


def misses(asked, held, of):
    """For records in turn, a record beside each that is not stored, of either kind; fewer where there is none."""
    ordered, found = sorted((tenant.to_bytes(4) + bytes_of(key)) for tenant, key in held), []
    for tenant, key in held:
        full = tenant.to_bytes(4) + bytes_of(key)
        at = bisect.bisect_left(ordered, full)
        near = max((common(full, ordered[it]) for it in (at - 1, at + 1) if 0 <= it < len(ordered)), default=0)
        made = None
        if asked == "leaf" and near + 1 < len(full):
            made = full[:-1] + bytes([full[-1] ^ 0x15])
        for depth in range(4, near + 1) if asked == "early" else ():
            front = full[:depth] + bytes([of.randrange(256)])
            after = bisect.bisect_left(ordered, front)
            if after == len(ordered) or not ordered[after].startswith(front):
                made = front + full[depth + 1 :]
                break
        if made:
            found.append((tenant, int.from_bytes(made[4:]) - (1 << 63) if isinstance(key, int) else made[4:]))
    return found


def lines_of(asked, held, of):
    """The lines of a workload, and how many records or lines they are."""
    is_number = isinstance(held[0][1], int)
    spelled = str if is_number else bytes.hex
    word = "n" if is_number else ""
    if asked in ("get", "again", "early", "leaf"):
        picked = held[:]
        if asked != "again":
            of.shuffle(picked)
        if asked in ("early", "leaf"):
            picked = misses(asked, picked, of)
        if len(picked) * 100 < len(held) * FEW:
            return [], 0
        return [f"{word}get {tenant} {spelled(key)}" for tenant, key in picked], len(picked)
    if asked == "list":
        if is_number:
            return [], 0
        tenants = sorted({tenant for tenant, _ in held})[:8]
        counted = sum(tenant in tenants for tenant, _ in held)
        return [f"list {tenant} -" for tenant in tenants] * 2, 2 * counted
    many = 10 if asked == "span" else 1000
    ordered = sorted(held)
    starts = [of.randrange(len(held) - many) for _ in range(len(held) // many)]
    spans = [(ordered[at], ordered[at + many]) for at in starts]
    spans = [(low, high) for low, high in spans if low[0] == high[0]]
    return [f"{word}span {low[0]} {spelled(low[1])} {spelled(high[1])}" for low, high in spans], many * len(spans)


def written(lines):
    file = tempfile.NamedTemporaryFile("w", suffix=".lines")
    file.write("\n".join(lines) + "\n")
    file.flush()
    return file


def measured(bin_, load, lines, program, to="/dev/null"):
    """Processor seconds of the lines alone, after the load."""
    words = [f"{bin_}/meas", load.name, lines.name, to, program]
    told = subprocess.run(words, capture_output=True, text=True, check=True).stdout.split()
    return float(told[2])


def replies(bin_, load, lines, program):
    with tempfile.NamedTemporaryFile() as out:
        measured(bin_, load, lines, program, out.name)
        with open(out.name, "rb") as file:
            return hashlib.file_digest(file, "sha1").hexdigest()


def row(bin_, programs, load, lines, count, repeats):
    """Nanoseconds of each program, and the ratio of the first to the best peer, and to what was before it, if that is
    there."""
    if len({replies(bin_, load, lines, program) for program in programs.values()}) > 1:
        sys.exit("the replies of the programs differ")
    least = {name: float("inf") for name in programs}
    names = list(programs)
    for turn in range(repeats):
        for name in names[turn % len(names):] + names[:turn % len(names)]:
            least[name] = min(least[name], measured(bin_, load, lines, programs[name]))
    costs = {name: least[name] * 1e9 / count for name in programs}
    here, *others = costs.values()
    before = [f"{here / costs.pop(BEFORE):.2f}"] if BEFORE in costs else []
    _, *peers = costs.values()
    return [f"{cost:.0f}" for cost in (here, *others)] + [f"{here / min(peers):.2f}"] + before


def loading(keys, held):
    """A file of the lines that load records."""
    word, spelled = ("nput", str) if keys in NUMBERS else ("put", bytes.hex)
    return written(f"{word} {tenant} {spelled(key)} {at:016x}" for at, (tenant, key) in enumerate(held))


def drawn(given, keys, size):
    of = random.Random(f"{given.seed} {keys} {size}")
    return records(keys, size, of), of


def page(parts):
    """The table of docs/PERFORMANCE.md: what the program takes as a part of what the best peer takes."""
    for size in dict.fromkeys(size for _, size, _ in parts):
        print(f"\nOf {size} records:\n\n| Keys | {' | '.join(HEADS)} |\n|---|{'---:|' * len(HEADS)}")
        for keys, shown in SHOWN.items():
            print(f"| {shown} | {' | '.join(parts.get((keys, size, it), '') for it in ASKED)} |")


def tables(given, bin_, programs):
    ratios = ["to the best peer"] + [f"to {BEFORE}"] * (BEFORE in programs)
    print(f"| Keys, lines | Records | {' | '.join([*programs, *ratios])} |")
    print("|---|" + "---:|" * (len(programs) + 1 + len(ratios)))
    parts = {}
    for size in map(int, given.sizes.split(",")):
        for keys in KEYS + NUMBERS:
            works = [it for it in ASKED if re.search(given.only, f"{keys} {it}")]
            held, of = drawn(given, keys, size) if works else ([], None)
            with loading(keys, held) as load:
                for work in works:
                    lines, count = lines_of(work, held, of)
                    if not lines:
                        continue
                    with written(lines) as file:
                        cells = row(bin_, programs, load, file, count, given.repeats)
                    parts[keys, size, work] = cells[len(programs)]
                    print(f"| {keys}, {work} | {size} | {' | '.join(cells)} |", flush=True)
    page(parts)


def growth(given, bin_, programs):
    """How load, `get` and memory go with the number of records, from 10^4 on."""
    print(f"\n| Keys | Records | Of a record | {' | '.join(programs)} | to the best peer |")
    print("|---|---:|---|" + "---:|" * (len(programs) + 1))
    sizes = [10**it for it in range(4, len(str(given.growth)) + 1) if 10**it <= given.growth]
    for keys in KEYS + NUMBERS:
        if not (re.search(given.only, keys) if given.only else keys in GROWING):
            continue
        for size in sizes:
            held, of = drawn(given, keys, size)
            with loading(keys, held) as load, written(lines_of("get", held, of)[0]) as file:
                del held
                seen = {name: [] for name in programs}
                for _ in range(given.repeats):
                    for name, program in programs.items():
                        words = [f"{bin_}/meas", load.name, file.name, "/dev/null", program]
                        told = subprocess.run(words, capture_output=True, text=True, check=True).stdout.split()
                        seen[name].append((float(told[0]) * 1e9, float(told[2]) * 1e9, float(told[5]) * 1024))
            for at, what in enumerate(("load, ns", "`get`, ns", "bytes")):
                here, *peers = (min(it[at] for it in rounds) / size for rounds in seen.values())
                cells = " | ".join(f"{it:.0f}" for it in (here, *peers))
                print(f"| {keys} | {size} | {what} | {cells} | {here / min(peers):.2f} |", flush=True)


def main():
    parser = argparse.ArgumentParser(description=__doc__, formatter_class=argparse.RawDescriptionHelpFormatter)
    parser.add_argument("--perf", required=True)
    parser.add_argument("--sizes", default="100000,1000000")
    parser.add_argument("--repeats", type=int, default=3)
    parser.add_argument("--seed", type=int, default=7)
    parser.add_argument("--only", default="")
    parser.add_argument("--growth", type=int, default=0)
    parser.add_argument("--quick", action="store_true")
    parser.add_argument("--before")
    parser.add_argument("program", nargs="?", default=PROGRAM)
    given = parser.parse_args()
    if not os.access(f"{given.perf}/build.sh", os.X_OK):
        sys.exit(f"{given.perf} is no folder of yardsticks: it has no build.sh")
    if given.quick:
        given.program = f"{quick.TOP}/{quick.kept(quick.TOP, compiler=quick.BARE)}"
    if not os.access(given.program, os.X_OK):
        sys.exit(f"there is no program {given.program}: rt run art_index makes it, and --quick takes one without proofs")
    bin_ = os.environ.get("PERF_BIN") or tempfile.mkdtemp(prefix="art-perf.")
    subprocess.run(["./build.sh"], cwd=given.perf, env={**os.environ, "PERF_BIN": bin_}, check=True)
    peers = {name: f"{bin_}/peer_{name}" for name in PEERS if os.path.exists(f"{bin_}/peer_{name}")}
    programs = {"here": given.program} | ({BEFORE: given.before} if given.before else {}) | peers
    if given.sizes:
        tables(given, bin_, programs)
    if given.growth:
        growth(given, bin_, {name: it for name, it in programs.items() if name != BEFORE})


if __name__ == "__main__":
    main()
