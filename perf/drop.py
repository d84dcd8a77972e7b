#!/usr/bin/env python3
"""perf/drop.py [--own N] [--others N] [--repeats N] [--perf FOLDER] [PROGRAM]: one tenant dropped beside others.

It loads the records of others and of one tenant, in a mixed order, and times three ways to let that tenant go: one
line `drop`, a `del` line for each of its records, and Rust's B-tree of full keys (`split_off` twice, `append` of what
stands after, and the drop of the part). Times are processor time a record of the tenant's, the least of the repeats,
one after another in each; the program's are taken by `meas` of the yardsticks, which are built where they are not.
"""
import argparse
import os
import random
import subprocess
import sys
import tempfile

TOP = os.path.dirname(os.path.dirname(os.path.abspath(__file__)))
PROGRAM = "crates/art_index/out/art_index"
# Where build.sh of the yardsticks leaves them, if PERF_BIN names no other folder.
MEAS = f"{os.environ.get('PERF_BIN') or os.path.expanduser('~/.cache/art-perf/bin')}/meas"
TENANT = 500


def keys_of(given):
    """Tenants and keys of eight random bytes: the tenant's own, and those of a thousand others."""
    of = random.Random(given.seed)
    pairs = [(TENANT, of.randbytes(8)) for _ in range(given.own)]
    pairs += [(of.choice((of.randrange(TENANT), TENANT + 1 + of.randrange(TENANT))), of.randbytes(8))
              for _ in range(given.others)]
    of.shuffle(pairs)
    return pairs


def by_program(given, room, ops):
    """Processor time that the program takes for these lines after the load, in nanoseconds."""
    words = [MEAS, f"{room}/load", ops, "/dev/null", given.program]
    said = subprocess.run(words, capture_output=True, text=True, check=True).stdout.split()
    return float(said[2]) * 1e9


def by_tree(room):
    """That of the B-tree, and how many records are gone."""
    with open(f"{room}/keys", "rb") as keys:
        said = subprocess.run([f"{room}/drop_tenant"], stdin=keys, capture_output=True, text=True, check=True).stdout
    time, gone = said.split()
    return float(time), int(gone)


def build_peer(room):
    words = ["rustc", "-C", "opt-level=3", "-C", "target-cpu=x86-64-v2", "-C", "panic=abort", "--edition", "2021"]
    words += ["-o", f"{room}/drop_tenant", f"{TOP}/perf/peer/src/bin/drop_tenant.rs"]
    subprocess.run(words, check=True)


def write_lines(given, room):
    pairs = keys_of(given)
    own = [key for tenant, key in pairs if tenant == TENANT]
    random.Random(given.seed).shuffle(own)
    with open(f"{room}/load", "wb") as load:
        load.writelines(b"put %d %b 6162636465666768\n" % (tenant, key.hex().encode()) for tenant, key in pairs)
    with open(f"{room}/drop", "wb") as ops:
        ops.write(b"drop %d\n" % TENANT)
    with open(f"{room}/dels", "wb") as ops:
        ops.writelines(b"del %d %b\n" % (TENANT, key.hex().encode()) for key in own)
    with open(f"{room}/keys", "wb") as keys:
        keys.write(b"%d\n" % TENANT)
        keys.writelines((tenant.to_bytes(4, "big") + key).hex().encode() + b"\n" for tenant, key in pairs)


def main():
    reader = argparse.ArgumentParser(description=__doc__, formatter_class=argparse.RawDescriptionHelpFormatter)
    reader.add_argument("--own", type=int, default=100_000)
    reader.add_argument("--others", type=int, default=1_000_000)
    reader.add_argument("--repeats", type=int, default=3)
    reader.add_argument("--seed", type=int, default=1)
    reader.add_argument("--perf", default="../shared/perf")
    reader.add_argument("program", nargs="?", default=f"{TOP}/{PROGRAM}")
    given = reader.parse_args()
    if not os.access(given.program, os.X_OK):
        reader.error(f"there is no program {given.program}: rt run art_index makes it")
    if not os.path.exists(MEAS):
        if not os.access(f"{given.perf}/build.sh", os.X_OK):
            reader.error(f"{given.perf} is no folder of yardsticks: it has no build.sh")
        subprocess.run([f"{given.perf}/build.sh"], check=True, stdout=sys.stderr)
    least = {}
    with tempfile.TemporaryDirectory() as room:
        build_peer(room)
        write_lines(given, room)
        for _ in range(given.repeats):
            time, gone = by_tree(room)
            if gone != given.own:
                sys.exit(f"the B-tree let {gone} records go")
            times = {"drop": by_program(given, room, f"{room}/drop"), "del": by_program(given, room, f"{room}/dels")}
            for name, took in {**times, "btree": time}.items():
                least[name] = min(least.get(name, took), took)
    print(f"{given.own} records of a tenant beside {given.others} of others, ns of processor time for each of its records")
    print("| `drop` | a `del` line for each | B-tree: `split_off` twice, `append` | to `del` | to the B-tree |")
    print("|---:|---:|---:|---:|---:|")
    each = {name: time / given.own for name, time in least.items()}
    ratios = [f"{each['drop'] / each[it]:.2f}" for it in ("del", "btree")]
    print("| " + " | ".join([f"{each[it]:.1f}" for it in ("drop", "del", "btree")] + ratios) + " |")


main()
