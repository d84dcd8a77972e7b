#!/usr/bin/env python3
"""perf/bindings.py --perf FOLDER [--sizes 100000,1000000] [--keys dense,rand8,url,tenants] [--repeats N]
    [--rust-sizes 1000,100000,1000000] [--only c|rust] [--kept FILE]
perf/bindings.py --print FILE

Prints tables of nanoseconds and ratios, of one run: the map of words through C beside std::map, libjudy and unproved
radix trees, and the map of Rust beside `BTreeMap`, `HashMap` and those trees with the same keys. It takes the library
that ./lib made last, out/libartmap.a, and says whether that was proved. FOLDER is a folder of yardsticks with build.sh
and peers; it needs cargo, c++ and Debian's libjudy-dev. --sizes and --keys are those of C. N is the least number of
rounds: fewer pairs have more. --kept has the numbers written to FILE, and --print prints the tables of such a one anew.

Keys are looked up, missed and taken out in orders of their own. A walk through C is timed twice: many pairs in a call
(artmap_words_walk), and one (artmap_words_next). Peers lend where they can. A peer without a call for a load gets an
insertion for each pair. Through Rust a range of the unproved trees ends at a key, and one of the others where so many
pairs were taken; `append` and `between` are of a pair that is appended, half of all, to the half before or between.
Bytes are those that malloc has lent, through Rust those of memory in use. Before each map and each load malloc joins
its free blocks, so that no map pays for how another one left them.
"""
import argparse
import os
import re
import shutil
import subprocess
import sys
import tempfile

TOP = os.path.dirname(os.path.dirname(os.path.abspath(__file__)))
# Steps of perf/peer/src/bin/through_c.rs and of bindings/rust/benches/map, and what the tables call them.
IN_C = {"get": "get", "miss": "miss", "put": "put", "remove": "remove", "walk": "walk", "walk by next": "by `next`",
        "prefix": "prefix", "prefix by next": "by `next`", "range": "range of 10", "load": "load", "clone": "clone",
        "bytes": "bytes"}
C_PEERS = ("std::map", "judy", "art-vec", "art-list")
# (a step that a peer can't have another way is held against the plain one)
PLAIN = {"walk by next": "walk", "prefix by next": "prefix"}
IN_RUST = {"get": "get", "miss": "miss", "put": "insert", "remove": "remove", "next": "iter", "range of 10": "10",
           "range of 100": "100", "prefix": "prefix", "load": "sorted", "shuffled": "shuffled", "clone": "clone",
           "append after": "append", "append between": "between", "bytes a pair": "bytes"}
RUST_PEERS = ("BTreeMap", "HashMap", "art-vec", "art-list")


def tell(what):
    print(f"bindings.py: {what}", file=sys.stderr, flush=True)


def called(words, **how):
    return subprocess.run(words, check=True, stdout=subprocess.PIPE, text=True, **how).stdout


def objects(given, top, room):
    """Shared objects with the calls of the yardsticks, as words for the program that times them."""
    compiled = {
        "here": ["cc", f"-I{TOP}/out", f"{TOP}/perf/bindings.c", f"{TOP}/out/libartmap.a", "-Wl,-Bsymbolic"],
        "std::map": ["c++", "-std=c++17", f"{TOP}/perf/std_map.cpp"],
        "judy": ["cc", f"{top}/libbench/judy.c", "-lJudy"],
    }
    for name, (compiler, *words) in compiled.items():
        flags = ["-O3", "-march=x86-64-v2", "-shared", "-fPIC", f"-I{top}/libbench"]
        called([compiler, *flags, *words, "-o", f"{room}/{name.replace(':', '_')}.so"])
    return [f"{name}={room}/{name.replace(':', '_')}.so" for name in compiled]


def through_c(given, room):
    """Lines of keys, size, map, number and step."""
    top = f"{room}/perf"
    shutil.copytree(given.perf, top)
    called(["chmod", "-R", "u+w", top])
    shutil.copytree(f"{TOP}/perf/peer", f"{top}/peer")
    tell("building what is timed through C")
    libs = objects(given, top, room)
    env = {**os.environ, "CARGO_TARGET_DIR": f"{room}/peer", "RUSTFLAGS": "-C target-cpu=x86-64-v2"}
    called(["cargo", "build", "-q", "--release", "--offline", "--bin", "through_c"], cwd=f"{top}/peer", env=env)
    tell("timing it through C")
    return called([f"{room}/peer/release/through_c", given.sizes, given.keys, str(given.repeats), *libs])


def through_rust(given, room):
    """Likewise."""
    top = f"{room}/rust"
    shutil.copytree(f"{TOP}/bindings/rust", top, ignore=shutil.ignore_patterns("target"))
    paths = {"peers": f"{os.path.abspath(given.perf)}/peers", "timing": f"{room}/timing"}
    with open(f"{top}/Cargo.toml", "a", encoding="utf-8") as file:
        file.write("\n[dev-dependencies]\n" + "".join(f'{name}.path = "{path}"\n' for name, path in paths.items()))
    os.makedirs(f"{room}/timing")
    with open(f"{room}/timing/Cargo.toml", "w", encoding="utf-8") as file:
        file.write(f'[package]\nname = "timing"\nedition = "2021"\n[lib]\npath = "{TOP}/perf/peer/src/timing.rs"\n')
    env = {**os.environ, "CARGO_TARGET_DIR": f"{room}/cargo", "RUSTFLAGS": "-C target-cpu=x86-64-v2 --cfg peer",
           "ARTMAP_LIB_DIR": f"{TOP}/out"}
    tell("building what is timed through Rust")
    called(["cargo", "bench", "-q", "--offline", "--no-run"], cwd=top, env=env)
    tell("timing it through Rust")
    words = ["cargo", "bench", "-q", "--offline", "--", *given.rust_sizes.split(","), f"rounds={given.repeats}"]
    return called(words, cwd=top, env=env)


def tables_of(lines):
    """By keys and size: of each map the number of each step."""
    tables = {}
    for line in lines.splitlines():
        if found := re.fullmatch(r"(\w+) (\d+) (\S+) ([\d.]+) (.+)", line):
            keys, size, name, number, step = found.groups()
            tables.setdefault((keys, int(size)), {}).setdefault(name, {})[step] = float(number)
    return tables


def ratio(one, other):
    """In three digits at most, without a zero in front."""
    if not one or not other:
        return "-"
    it = one / other
    return f"{it:.0f}" if it >= 9.95 else f"{it:.1f}" if it >= 0.995 else f"{it:.2f}"[1:]


def print_c(tables):
    for size in sorted({size for _, size in tables}):
        kinds = [keys for keys, of in tables if of == size]
        print(f"\nThrough C, {size} pairs: ns, and to {', '.join(C_PEERS)}\n")
        print(f"| | {' | '.join(kinds)} |\n|---|{'---|' * len(kinds)}")
        for step, head in IN_C.items():
            cells = []
            for maps in (tables[keys, size] for keys in kinds):
                mine = maps["here"].get(step)
                others = [maps[it].get(step, maps[it].get(PLAIN.get(step))) for it in C_PEERS if it in maps]
                cells.append(f"{mine:.0f}: " + " ".join(ratio(mine, it) for it in others) if mine else "-")
            print(f"| {head} | {' | '.join(cells)} |")


def print_rust(tables):
    rows = sorted(tables, key=lambda it: it[1])
    heads = " | ".join(IN_RUST.values())
    print(f"\nThrough Rust, ns\n\n| Keys | Pairs | {heads} |\n|---|---:|{'---:|' * len(IN_RUST)}")
    for row in rows:
        mine = tables[row]["ArtMap"]
        print(f"| {row[0]} | {row[1]} | {' | '.join(f'{mine[it]:.0f}' if it in mine else '-' for it in IN_RUST)} |")
    for peer in RUST_PEERS:
        steps = [it for it in IN_RUST if any(it in tables[row].get(peer, {}) for row in rows)]
        print(f"\nThrough Rust, to {peer}\n\n| Keys | Pairs | {' | '.join(IN_RUST[it] for it in steps)} |")
        print(f"|---|---:|{'---:|' * len(steps)}")
        for row in rows:
            mine, other = tables[row]["ArtMap"], tables[row].get(peer, {})
            print(f"| {row[0]} | {row[1]} | {' | '.join(ratio(mine.get(it), other.get(it)) for it in steps)} |")


def keep(path, text):
    if path:
        with open(path, "w", encoding="utf-8") as file:
            file.write(text)


def printed(kept):
    """Prints the tables of what was kept: a line on the library, then the lines through C, then those through Rust."""
    library, in_c, in_rust = kept.split("\f\n")
    print(library, end="")
    print_c(tables_of(in_c))
    if in_rust:
        print_rust(tables_of(in_rust))


def main():
    parser = argparse.ArgumentParser(description=__doc__, formatter_class=argparse.RawDescriptionHelpFormatter)
    parser.add_argument("--perf")
    parser.add_argument("--sizes", default="100000,1000000")
    parser.add_argument("--keys", default="dense,rand8,url,tenants")
    parser.add_argument("--rust-sizes", default="1000,100000,1000000")
    parser.add_argument("--repeats", type=int, default=3)
    parser.add_argument("--only", choices=("c", "rust"))
    parser.add_argument("--kept")
    parser.add_argument("--print")
    given = parser.parse_args()
    if given.print:
        with open(given.print, encoding="utf-8") as file:
            return printed(file.read())
    if not given.perf:
        parser.error("--perf FOLDER is missing")
    proved, made = f"{TOP}/crates/art_c/out/libart_c.a", f"{TOP}/out/libartmap.a"
    is_proved = os.path.exists(proved) and os.path.getmtime(proved) <= os.path.getmtime(made)
    library = "the library is proved\n" if is_proved else "the library is built without proofs\n"
    kept = library + "\f\n"
    with tempfile.TemporaryDirectory() as room:
        kept += (through_c(given, room) if given.only != "rust" else "") + "\f\n"
        keep(given.kept, kept)
        kept += through_rust(given, room) if given.only != "c" else ""
        keep(given.kept, kept)
    return printed(kept)


if __name__ == "__main__":
    main()
